//! What is played, episode by episode.

pub mod frame_part;
pub mod lone;
pub mod small;
pub mod stream;
pub mod wrapper;
pub mod writing;

use crate::calls::{octets_of, Checked, Read, ReadCall, OUTPUT};
use crate::cover::{self, Item, Table};
use crate::faults::data_octets;
use crate::pair::Pair;
use crate::random::Random;

/// What an episode is played with.
pub struct Stage<'a, 'b> {
    pub random: Random,
    pub pair: &'b mut Pair<'a>,
    pub table: &'b mut Table,
}

impl Stage<'_, '_> {
    /// Both read; what came up is noted.
    pub fn read(&mut self, call: &ReadCall) -> Checked<Read> {
        let read = self.pair.read(call)?;
        note_read(self.table, call, &read, self.pair.output());
        if read.number == 0 {
            self.few_enough(call, &read)?;
        }
        Ok(read)
    }

    /// One call finishes at most one packet for each seven octets of its data field, rounded up.
    fn few_enough(&mut self, call: &ReadCall, read: &Read) -> Checked<()> {
        let Some(words) = read.words else { return Ok(()) };
        let most = data_octets(&call.frame, call.set_up[2] != 0).div_ceil(7) as u32;
        let finished = words[14] + words[15];
        if finished > most {
            return Err(format!(
                "both alike, but {finished} packets, and {most} at most: {call:?}\n"
            ));
        }
        self.table.hit_if(finished == most && most > 1, Item::MostPackets);
        Ok(())
    }

    /// Answers of all sizes, and output to spare, now and then.
    pub fn vary_lent(&mut self, call: &mut ReadCall) {
        if self.random.once_in(12) {
            call.answer_words = self.random.below(29);
        }
        if self.random.once_in(12) {
            call.output_octets = self.random.between(OUTPUT, OUTPUT + 2048);
        }
    }
}

fn note_read(table: &mut Table, call: &ReadCall, read: &Read, output: &[u8]) {
    table.hit_if(call.answer_words == 0, Item::AnswerNone);
    table.hit_if((1..20).contains(&call.answer_words), Item::AnswerShort);
    table.hit_if(call.answer_words > 20, Item::AnswerLong);
    match (cover::refused(read.number), &read.words) {
        (Some(item), _) => table.hit(item),
        (None, None) => table.hit(Item::Accepted),
        (None, Some(words)) => {
            table.hit(Item::Accepted);
            note_frame(table, call);
            note_kind(table, call, words);
            note_counts(table, words, read);
            note_steps(table, call, words, read);
            note_after(table, read);
            note_packets(table, words[14], output);
        }
    }
}

fn note_frame(table: &mut Table, call: &ReadCall) {
    let control = call.set_up[2] != 0;
    let d = data_octets(&call.frame, control);
    let s = if call.frame[4] & 0x80 == 0 { 0 } else { call.frame[6] + 1 };
    table.hit(if control { Item::Checked } else { Item::Unchecked });
    table.hit_if(s == 1, Item::Secondary1);
    table.hit_if((2..64).contains(&s), Item::Secondary);
    table.hit_if(s == 64, Item::Secondary64);
    table.hit_if(call.frame[1] & 1 == 1, Item::ControlWord);
    table.hit_if(call.set_up[0] == 13, Item::Shortest);
    table.hit_if(call.set_up[0] == 2048, Item::Longest);
    table.hit_if(d == 1, Item::DataOne);
    table.hit_if(call.output_octets > OUTPUT, Item::OutputLong);
}

fn note_kind(table: &mut Table, call: &ReadCall, words: &[u32; 20]) {
    let d = data_octets(&call.frame, call.set_up[2] != 0) as u32;
    match words[1] {
        1 => table.hit(Item::KindPackets),
        2 => table.hit(Item::KindIdle),
        _ => {
            table.hit(Item::KindPrivate);
            table.hit_if(words[9] != 0 || words[10] != 3, Item::PrivateOrder);
            table.hit_if(words[11] >= d && words[11] < 2046, Item::PrivatePointer);
            table.hit_if(words[11] == 2046, Item::PrivateIdle);
        }
    }
}

fn note_counts(table: &mut Table, words: &[u32; 20], read: &Read) {
    let [gap, delivered, idle, broken, disagreement, foreign, oversize] =
        [13, 14, 15, 16, 17, 18, 19].map(|place| words[place]);
    let [heard, last, state, number] = read.before;
    table.hit_if(gap == 0 && heard == 1, Item::NoGap);
    table.hit_if((1..255).contains(&gap), Item::Gap);
    table.hit_if(gap == 255, Item::Gap255);
    table.hit_if(delivered == 1, Item::Delivered);
    table.hit_if(delivered > 1, Item::DeliveredMany);
    table.hit_if(idle > 0, Item::Idle);
    if broken == 1 {
        table.hit(match (gap, words[1]) {
            (0, 1) => Item::BrokenByPointer,
            (0, 2) => Item::BrokenByIdle,
            (0, _) => Item::BrokenByPrivate,
            _ => Item::BrokenByGap,
        });
    }
    if disagreement == 1 {
        table.hit(match (state, number) {
            (2, _) => Item::DisagreedSkipping,
            (_, 0) => Item::DisagreedBetween,
            _ => Item::DisagreedGathering,
        });
    }
    table.hit_if(foreign == 1, Item::Foreign);
    table.hit_if(foreign == 1 && delivered > 0, Item::ForeignLater);
    table.hit_if(oversize == 1, Item::Oversize);
    table.hit_if((state, number) == (2, 65_536), Item::Skip65536);
    table.hit_if((state, number) == (1, 4095), Item::Held4095);
    table.hit_if(heard == 0 && last != 0, Item::UnheardCount);
}

/// What became of the packet that was under way.
fn note_steps(table: &mut Table, call: &ReadCall, words: &[u32; 20], read: &Read) {
    let d = data_octets(&call.frame, call.set_up[2] != 0) as u32;
    let none_starts = words[11] == 2047;
    let ([_, _, state, number], [_, _, state_after, number_after]) = (read.before, read.after);
    if words[1] != 1 {
        return;
    }
    if state == 0 || words[13] != 0 || words[17] != 0 {
        table.hit_if(none_starts, Item::HuntedOn);
        return;
    }
    match (state, number, none_starts) {
        (2, _, false) => table.hit(Item::SkipEnded),
        (2, _, true) if state_after == 2 => table.hit(Item::SkipGoesOn),
        (2, _, true) => table.hit(Item::SkipEndedExact),
        (_, 1.., false) => table.hit(Item::HeldFinished),
        (_, 1.., true) => {
            let on = state_after == 1 && number_after == number + d;
            table.hit_if(state_after == 2, Item::OversizeSplit);
            table.hit_if(state_after == 1 && number_after == 0, Item::HeldFinishedExact);
            table.hit_if(on && number_after >= 6, Item::HeldLonger);
            table.hit_if(on && number_after < 6, Item::HeldUnknown);
        }
        _ => {}
    }
}

fn note_after(table: &mut Table, read: &Read) {
    table.hit(match (read.after[2], read.after[3]) {
        (0, _) => Item::AfterHunting,
        (1, 0) => Item::AfterExact,
        (1, 1..=5) => Item::AfterSplit,
        (1, 4095) => Item::AfterHeldMost,
        (1, _) => Item::AfterHeld,
        _ => Item::AfterSkipping,
    });
}

fn note_packets(table: &mut Table, delivered: u32, output: &[u8]) {
    let mut at = 0;
    for _ in 0..delivered {
        let total = octets_of(1, &output[at..]);
        table.hit_if(total == 7, Item::Packet7);
        table.hit_if(total == 4096, Item::Packet4096);
        at += total;
    }
}
