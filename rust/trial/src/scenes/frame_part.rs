//! Frames opened and closed, without a record: right, half right and random.

use super::lone::random_frame;
use super::Stage;
use crate::boundary::CloseNumbers;
use crate::calls::{hex, Checked, CloseCall, Closed, OpenCall, Opened, ReadCall};
use crate::cover::{self, Item};
use crate::faults::{data_octets, spoil_frame};
use crate::make::{set_up, shape, Frame, IDLE, NONE};
use crate::random::Random;

pub fn play(stage: &mut Stage) -> Checked<()> {
    stage.pair.fresh();
    let calls = stage.random.between(40, 120);
    let mut numbers = set_up(&mut stage.random);
    for _ in 0..calls {
        if stage.random.once_in(10) {
            numbers = set_up(&mut stage.random);
        }
        match stage.random.below(8) {
            0..=2 => opening(stage, numbers)?,
            3 => {
                let octets = random_frame(&mut stage.random, numbers);
                open(stage, numbers, octets)?;
            }
            4 => spoilt_opening(stage, numbers)?,
            _ => closing(stage, numbers)?,
        }
    }
    Ok(())
}

/// Both open, with answers of all sizes; what came up is noted, and a reading must say the same.
fn open(stage: &mut Stage, set_up: [u32; 3], frame: Vec<u8>) -> Checked<Opened> {
    let odd = stage.random.once_in(6);
    let answer_words = if odd { stage.random.below(20) } else { 14 };
    let call = OpenCall { set_up, answer_words, frame };
    let opened = stage.pair.open(&call)?;
    note_opened(stage, &call, &opened);
    let zeros = opened.words.is_none_or(|words| words[1..].iter().all(|&word| word == 0));
    if opened.number != 0 && !zeros {
        return Err(format!("both alike, but a refused opening gives {:?}\n", opened.words));
    }
    as_reading(stage, call, &opened)?;
    Ok(opened)
}

/// With record, store and output that pass, reading refuses what opening refuses and gives the same values.
fn as_reading(stage: &mut Stage, call: OpenCall, opened: &Opened) -> Checked<()> {
    let read = stage.read(&ReadCall::new(call.set_up, call.frame))?;
    let same = match (read.words, opened.words) {
        (Some(read), Some(words)) => read[2..13] == words[1..12],
        _ => true,
    };
    if read.number != opened.number || !same {
        return Err(format!("both alike, but opened {opened:?} and read {read:?}\n"));
    }
    let item = if read.number == 0 { Item::OpenAsRead } else { Item::OpenRefusedAsRead };
    stage.table.hit(item);
    Ok(())
}

/// A frame by its fields, of which all but the pointer are right, or that is private.
fn laid_frame(random: &mut Random, [length, spacecraft, control]: [u32; 3]) -> Frame {
    let shape = shape(random, length as usize, control != 0);
    let private = random.once_in(5);
    Frame {
        version: 0,
        spacecraft: spacecraft as u16,
        channel: random.below(8) as u8,
        word: shape.word,
        master: random.octet(),
        count: random.octet(),
        secondary: shape.secondary,
        synchronisation: private,
        order: private && random.once_in(2),
        segment: if private { random.below(4) as u16 } else { 3 },
        pointer: pointer(random, shape.d) as u16 % 2048,
        data: random.octets(shape.d),
    }
}

/// Mostly one that test 12 lets pass.
fn pointer(random: &mut Random, d: usize) -> u32 {
    match random.below(12) {
        0 => d as u32,
        1 => random.between(d.min(2045), 2045) as u32,
        2 => random.below(2048) as u32,
        3 => u32::from(IDLE),
        4 => u32::from(NONE),
        5 => d as u32 - 1,
        _ => random.below(d) as u32,
    }
}

fn passes(pointer: u32, d: usize) -> bool {
    (pointer as usize) < d || pointer == u32::from(IDLE) || pointer == u32::from(NONE)
}

/// A frame is opened with the values that were laid, or refused by 12.
fn opening(stage: &mut Stage, numbers: [u32; 3]) -> Checked<()> {
    let frame = laid_frame(&mut stage.random, numbers);
    let opened = open(stage, numbers, frame.octets(numbers[2] != 0))?;
    let passes = frame.synchronisation || passes(u32::from(frame.pointer), frame.data.len());
    let wanted = passes.then(|| laid_words(&frame));
    told(&opened, wanted).map_err(|what| format!("{what}  {frame:?}\n"))?;
    stage.table.hit_if(opened.number == 0, Item::OpenLaid);
    Ok(())
}

/// What the opening of such a frame tells.
fn laid_words(frame: &Frame) -> [u32; 14] {
    let s = frame.secondary.as_ref().map_or(0, Vec::len);
    [
        0,
        u32::from(frame.spacecraft),
        u32::from(frame.channel),
        u32::from(frame.word.is_some()),
        u32::from(frame.master),
        u32::from(frame.count),
        u32::from(frame.secondary.is_some()),
        u32::from(frame.synchronisation),
        u32::from(frame.order),
        u32::from(frame.segment),
        u32::from(frame.pointer),
        frame.word.unwrap_or(0),
        6 + s as u32,
        frame.data.len() as u32,
    ]
}

/// Those words, or refusal 12 if there are none.
fn told(opened: &Opened, wanted: Option<[u32; 14]>) -> Checked<()> {
    let number = if wanted.is_some() { 0 } else { 12 };
    let same = wanted.is_none() || opened.words.is_none() || opened.words == wanted;
    if opened.number == number && same {
        return Ok(());
    }
    Err(format!("both alike, but {opened:?} and not {number} {wanted:?}\n"))
}

fn spoilt_opening(stage: &mut Stage, numbers: [u32; 3]) -> Checked<()> {
    let frame = laid_frame(&mut stage.random, numbers);
    let mut call = ReadCall::new(numbers, frame.octets(numbers[2] != 0));
    let spoilt = spoil_frame(&mut stage.random, &mut call);
    let opened = open(stage, call.set_up, call.frame)?;
    spoilt.reached(opened.number).for_each(|item| stage.table.hit(item));
    Ok(())
}

fn note_opened(stage: &mut Stage, call: &OpenCall, opened: &Opened) {
    let table = &mut *stage.table;
    table.hit_if(call.answer_words == 0, Item::OpenAnswerNone);
    table.hit_if((1..14).contains(&call.answer_words), Item::OpenAnswerShort);
    table.hit_if(call.answer_words > 14, Item::OpenAnswerLong);
    if let Some(item) = cover::open_refused(opened.number) {
        table.hit(item);
        return;
    }
    table.hit(Item::Opened);
    let checked = call.set_up[2] != 0;
    let [secondary, word] = [call.frame[4] & 0x80 != 0, call.frame[1] & 1 != 0];
    table.hit_if(call.frame[4] & 0x40 != 0, Item::OpenPrivate);
    table.hit_if(secondary, Item::OpenSecondary);
    table.hit_if(word, Item::OpenWord);
    table.hit_if(checked, Item::OpenChecked);
    table.hit_if(secondary && word && checked, Item::OpenAll);
    table.hit_if(data_octets(&call.frame, checked) == 1, Item::OpenDataOne);
}

/// A closing by the rules, or once in four one with a cause of a refusal.
fn closing(stage: &mut Stage, set_up: [u32; 3]) -> Checked<()> {
    let random = &mut stage.random;
    let mut numbers = CloseNumbers {
        channel: random.below(8) as u32,
        master_count: random.octet(),
        channel_count: random.octet(),
        has_word: random.pick(&[0, 0, 1, 2, 0x100, u32::MAX]),
        word: random.half(),
        pointer: 0,
    };
    let d = closed_octets(set_up, &numbers);
    let above = random.pick(&[0, 0, 1, 2, 4, 0x1F, 0x1F_FFFF]);
    numbers.pointer = above * 2048 + pointer(random, d) % 2048;
    let mut call = CloseCall { set_up, numbers, output_octets: set_up[0] as usize };
    let causes = if random.once_in(4) { random.between(1, 2) } else { 0 };
    (0..causes).for_each(|_| wrong(random, &mut call));
    let octets = random.octets(call.output_octets);
    stage.pair.lay(&octets);
    let closed = stage.pair.close(&call)?;
    note_closed(stage, &call, causes, &closed);
    match (closed.number, causes) {
        (0, 0) => check_closed(stage, &call, &closed),
        (1.., 0) => Err(format!("both alike, but a closing by the rules is refused: {call:?}\n")),
        _ => Ok(()),
    }
}

/// D of a frame without a secondary header.
fn closed_octets([length, _, control]: [u32; 3], numbers: &CloseNumbers) -> usize {
    let word = if numbers.has_word != 0 { 4 } else { 0 };
    let check = if control != 0 { 2 } else { 0 };
    length as usize - 6 - word - check
}

fn wrong(random: &mut Random, call: &mut CloseCall) {
    let n = call.output_octets;
    match random.below(6) {
        0 => call.set_up[0] = random.pick(&[0, 5, 12, 2049, u32::MAX]),
        1 => call.set_up[1] = random.pick(&[1024, 65_536 + 171, u32::MAX]),
        2 | 3 => call.numbers.channel = random.pick(&[8, 9, 16, 255, 256 + 3, u32::MAX]),
        4 => call.output_octets = random.pick(&[0, 5, 6, n.saturating_sub(1), n / 2]),
        _ => call.output_octets = n + random.pick(&[1, 2, 64, 2048]),
    }
}

/// The frame is that of its fields, and opens with the values given.
fn check_closed(stage: &mut Stage, call: &CloseCall, closed: &Closed) -> Checked<()> {
    let numbers = &call.numbers;
    let d = closed_octets(call.set_up, numbers);
    let frame = Frame {
        version: 0,
        spacecraft: call.set_up[1] as u16,
        channel: numbers.channel as u8,
        word: (numbers.has_word != 0).then_some(numbers.word),
        master: numbers.master_count,
        count: numbers.channel_count,
        secondary: None,
        synchronisation: false,
        order: false,
        segment: 3,
        pointer: (numbers.pointer % 2048) as u16,
        data: closed.before[6..6 + d].to_vec(),
    };
    if closed.after != frame.octets(call.set_up[2] != 0) {
        return Err(format!("both alike, but closed {} of {call:?}\n", hex(&closed.after)));
    }
    let opened = open(stage, call.set_up, closed.after.clone())?;
    let wanted = passes(u32::from(frame.pointer), d).then(|| laid_words(&frame));
    told(&opened, wanted)?;
    stage.table.hit(if opened.number == 0 { Item::CloseOpened } else { Item::ClosePast });
    Ok(())
}

fn note_closed(stage: &mut Stage, call: &CloseCall, causes: usize, closed: &Closed) {
    let table = &mut *stage.table;
    let numbers = &call.numbers;
    let n = call.set_up[0] as usize;
    table.hit_if(closed.number != 0 && causes == 2, Item::CloseTwoCauses);
    if let Some(item) = cover::close_refused(closed.number) {
        table.hit(item);
        table.hit_if(closed.number == 25 && call.output_octets < n, Item::CloseShort);
        table.hit_if(closed.number == 25 && call.output_octets > n, Item::CloseLong);
        return;
    }
    table.hit(Item::Closed);
    table.hit_if(numbers.has_word != 0, Item::CloseWord);
    table.hit_if(numbers.has_word == 0 && numbers.word != 0, Item::CloseNoWord);
    table.hit_if(call.set_up[2] != 0, Item::CloseChecked);
    table.hit_if(closed_octets(call.set_up, numbers) == 1, Item::CloseDataOne);
    table.hit_if(numbers.pointer > 2047, Item::CloseAbove);
}
