//! Causes of refusals, put into a reading that had none.

use crate::calls::{ReadCall, STORE};
use crate::cover::Item;
use crate::make::mend;
use crate::pair::Pair;
use crate::random::Random;

/// What was done to a call: what it aims at, and how to undo what was done to the record.
#[derive(Default)]
pub struct Spoilt {
    aims: Vec<(u32, Item)>,
    undo: Vec<(usize, [u32; 4], Vec<u8>)>,
}

impl Spoilt {
    /// The items that were aimed at and reached by a refusal of that number.
    pub fn reached(&self, number: u32) -> impl Iterator<Item = Item> + '_ {
        self.aims.iter().filter(move |(aim, _)| *aim == number).map(|(_, item)| *item)
    }

    /// Record and held octets as they were.
    pub fn undo(self, pair: &mut Pair) {
        for (v, words, held) in self.undo.into_iter().rev() {
            pair.set_channel(v, words);
            pair.set_held(v, &held);
        }
    }

    fn aim(&mut self, number: u32, item: Item) {
        self.aims.push((number, item));
    }
}

/// Puts one cause into the call, which is then refused for sure.
pub fn refuse(random: &mut Random, pair: &mut Pair, call: &mut ReadCall) -> Spoilt {
    let mut spoilt = Spoilt::default();
    match random.below(4) {
        0 => lend_wrong(random, call, &mut spoilt),
        1 => wrong_length(random, call, &mut spoilt),
        _ => break_record(random, pair, &mut spoilt),
    }
    spoilt
}

/// Puts something into the call that mostly is a cause, once in five two.
pub fn spoil(random: &mut Random, pair: &mut Pair, call: &mut ReadCall) -> Spoilt {
    let mut spoilt = Spoilt::default();
    one(random, pair, call, &mut spoilt);
    if random.once_in(5) {
        one(random, pair, call, &mut spoilt);
        (1..=12).for_each(|number| spoilt.aim(number, Item::TwoCauses));
    }
    spoilt
}

/// The same of what an opening looks at: set-up and frame alone.
pub fn spoil_frame(random: &mut Random, call: &mut ReadCall) -> Spoilt {
    let mut spoilt = Spoilt::default();
    let causes = if random.once_in(5) { 2 } else { 1 };
    for _ in 0..causes {
        match random.below(12) {
            0 => wrong_set_up(random, call, &mut spoilt),
            1 => wrong_length(random, call, &mut spoilt),
            2 => damage(random, &mut call.frame),
            _ => wrong_header(random, call, &mut spoilt),
        }
    }
    if causes == 2 {
        (1..=12).for_each(|number| spoilt.aim(number, Item::OpenTwoCauses));
    }
    spoilt
}

fn one(random: &mut Random, pair: &mut Pair, call: &mut ReadCall, spoilt: &mut Spoilt) {
    match random.below(16) {
        0 => wrong_set_up(random, call, spoilt),
        1..=3 => lend_wrong(random, call, spoilt),
        4..=7 => break_record(random, pair, spoilt),
        8 => wrong_length(random, call, spoilt),
        9 => damage(random, &mut call.frame),
        _ => wrong_header(random, call, spoilt),
    }
}

/// A store, output or record that has not its size.
fn lend_wrong(random: &mut Random, call: &mut ReadCall, spoilt: &mut Spoilt) {
    match random.below(3) {
        0 => {
            call.store_octets = random.pick(&[0, 1, 4096, STORE - 1, STORE + 1, STORE + 64]);
            let short = call.store_octets < STORE;
            spoilt.aim(2, if short { Item::StoreBelow } else { Item::StoreAbove });
        }
        1 => call.output_octets = random.pick(&[0, 1, 2048, 4096, 6142, 6143]),
        _ => {
            call.record_words = random.pick(&[0, 1, 28, 31, 33, 36, 48]);
            spoilt.aim(4, Item::WordsOfRecord);
        }
    }
}

fn wrong_set_up(random: &mut Random, call: &mut ReadCall, spoilt: &mut Spoilt) {
    match random.below(5) {
        0 => {
            call.set_up[0] = random.pick(&[0, 1, 5, 6, 11, 12]);
            spoilt.aim(1, Item::LengthBelow);
        }
        1 => {
            call.set_up[0] = random.pick(&[2049, 2050, 4096, 65_536 + 20, u32::MAX]);
            spoilt.aim(1, Item::LengthAbove);
        }
        2 => {
            call.set_up[1] = random.pick(&[1024, 1025, 2048, 65_536 + 171, u32::MAX]);
            spoilt.aim(1, Item::SpacecraftAbove);
        }
        3 => call.set_up[1] = (call.set_up[1] % 1024 + 1) % 1024,
        _ => call.set_up[0] = random.between(13, 2048) as u32,
    }
}

fn wrong_length(random: &mut Random, call: &mut ReadCall, spoilt: &mut Spoilt) {
    let n = call.frame.len();
    if random.once_in(2) {
        call.frame.truncate(random.pick(&[0, 1, 5, 6, n / 2, n.saturating_sub(1)]));
        spoilt.aim(5, Item::FrameShort);
    } else {
        let more = random.pick(&[1, 2, 4, 8, 256, 2048]);
        call.frame.extend(random.octets(more));
        spoilt.aim(5, Item::FrameLong);
    }
}

/// One to three bits turned over.
fn damage(random: &mut Random, frame: &mut [u8]) {
    for _ in 0..random.between(1, 3) {
        if !frame.is_empty() {
            let place = random.below(frame.len());
            frame[place] ^= 1 << random.below(8);
        }
    }
}

/// A header that does not pass, under an error control field that mostly does.
fn wrong_header(random: &mut Random, call: &mut ReadCall, spoilt: &mut Spoilt) {
    let control = call.set_up[2] != 0;
    if call.frame.len() < 13 {
        return;
    }
    let d = data_octets(&call.frame, control).min(2045);
    let frame = &mut call.frame;
    match random.below(7) {
        0 => frame[0] ^= random.pick(&[0x40, 0x80, 0xC0]),
        1 => frame[random.below(2)] ^= 0x10 << random.below(2),
        2 => {
            frame[4] |= 0x80;
            frame[6] = random.octet() | random.pick(&[0x40, 0x80, 0xC0]);
        }
        3 => no_data_field(random, frame, d),
        4 => {
            frame[4] = frame[4] & !0x40 | 0x20;
            spoilt.aim(11, Item::OrderFlag);
        }
        5 => {
            frame[4] = frame[4] & !0x78 | random.pick(&[0x00, 0x08, 0x10]);
            spoilt.aim(11, Item::SegmentId);
        }
        _ => {
            let pointer = if random.once_in(2) { d } else { random.between(d, 2045) };
            frame[4] = frame[4] & !0x47 | (pointer >> 8) as u8;
            frame[5] = pointer as u8;
            if pointer == d {
                spoilt.aim(12, Item::PointerAtD);
            }
        }
    }
    if control && !random.once_in(8) {
        mend(frame);
    }
}

/// A secondary header that takes the whole data field, or more.
fn no_data_field(random: &mut Random, frame: &mut [u8], d: usize) {
    if frame[4] & 0x80 != 0 {
        frame[6] = 0x3F;
    } else {
        frame[4] |= 0x80;
        let s = random.pick(&[d, d + 1, 64]).clamp(1, 64);
        frame[6] = s as u8 - 1;
    }
}

/// D of a frame that has at least 13 octets; 0 if it would be below 1.
pub fn data_octets(frame: &[u8], error_control: bool) -> usize {
    let s = if frame[4] & 0x80 != 0 { usize::from(frame[6] & 0x3F) + 1 } else { 0 };
    let word = if frame[1] & 1 == 1 { 4 } else { 0 };
    let check = if error_control { 2 } else { 0 };
    frame.len().saturating_sub(6 + s + word + check)
}

/// One channel's words, and the octets it holds, so that they break the rules.
fn break_record(random: &mut Random, pair: &mut Pair, spoilt: &mut Spoilt) {
    use Item::*;
    let v = random.below(8);
    let [heard, last, ..] = pair.channel(v);
    spoilt.undo.push((v, pair.channel(v), pair.held(v, 6)));
    let k = random.between(6, 4000) as u32;
    let (item, words) = match random.below(12) {
        0 => (HeardAbove, [random.pick(&[2, 3, 256, u32::MAX]), last, 0, 0]),
        1 => (CountAbove, [heard, random.pick(&[256, 257, 65_536, u32::MAX]), 0, 0]),
        2 => (StateAbove, [1, last, random.pick(&[3, 4, 256, u32::MAX]), random.pick(&[0, 1, 9])]),
        3 => (HuntingNumber, [heard, last, 0, random.pick(&[1, 4096, u32::MAX])]),
        4 => (UnheardGathering, [0, last, 1, random.pick(&[0, 1])]),
        5 => (UnheardSkipping, [0, last, 2, random.pick(&[1, 65_536])]),
        6 => (HeldAbove, [1, last, 1, random.pick(&[4096, 4097, 65_537, 1 << 31, u32::MAX])]),
        7 => (HeldForeign, [1, last, 1, random.pick(&[1, 2, 5, 6, 4095])]),
        8 => (HeldWhole, [1, last, 1, k.max(7)]),
        9 => (HeldOversize, [1, last, 1, k]),
        10 => (SkipNothing, [1, last, 2, 0]),
        _ => (SkipAbove, [1, last, 2, random.pick(&[65_537, 65_538, 1 << 31, u32::MAX])]),
    };
    pair.set_channel(v, words);
    pair.set_held(v, &held_for(random, item, words[3]));
    spoilt.aim(4, item);
}

/// A packet header for the first six octets of a part.
fn held_for(random: &mut Random, item: Item, k: u32) -> [u8; 6] {
    let total = match item {
        Item::HeldWhole => random.pick(&[k, k - 1, 7]).max(7),
        Item::HeldOversize => random.pick(&[4097, 4098, 65_542]),
        _ => 4096,
    };
    let first = if item == Item::HeldForeign { random.pick(&[0x20, 0x80, 0xFF]) } else { 0x08 };
    let [high, low] = ((total - 7) as u16).to_be_bytes();
    [first, 1, 2, 3, high, low]
}
