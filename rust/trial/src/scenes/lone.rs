//! Frames on states of all kinds, without a history: right, half right and random.

use super::Stage;
use crate::calls::{Checked, ReadCall};
use crate::faults::spoil;
use crate::make::{mend, packet, packet_octets, set_up, shape, Frame, IDLE, NONE};
use crate::random::Random;

pub fn play(stage: &mut Stage) -> Checked<()> {
    stage.pair.fresh();
    let calls = stage.random.between(40, 120);
    let mut numbers = set_up(&mut stage.random);
    for _ in 0..calls {
        if stage.random.once_in(10) {
            numbers = set_up(&mut stage.random);
        }
        let octets = match stage.random.below(6) {
            0 => random_frame(&mut stage.random, numbers),
            _ => aimed_frame(stage, numbers),
        };
        let mut call = ReadCall::new(numbers, octets);
        stage.vary_lent(&mut call);
        if stage.random.once_in(4) {
            let spoilt = spoil(&mut stage.random, stage.pair, &mut call);
            let read = stage.read(&call)?;
            spoilt.reached(read.number).for_each(|item| stage.table.hit(item));
            spoilt.undo(stage.pair);
        } else {
            stage.read(&call)?;
        }
    }
    Ok(())
}

/// Random octets; the spacecraft and the check are put right most times.
pub fn random_frame(random: &mut Random, [length, spacecraft, control]: [u32; 3]) -> Vec<u8> {
    let mut octets = random.octets(length as usize);
    if !random.once_in(8) {
        octets[0] = octets[0] & 0xC0 | (spacecraft >> 4) as u8;
        octets[1] = octets[1] & 0x0F | (spacecraft << 4) as u8;
    }
    if !random.once_in(8) {
        octets[0] &= 0x3F;
    }
    if control != 0 && !random.once_in(8) {
        mend(&mut octets);
    }
    octets
}

/// A frame for a channel whose state is made to go with it, more or less.
fn aimed_frame(stage: &mut Stage, [length, spacecraft, control]: [u32; 3]) -> Vec<u8> {
    let v = stage.random.below(8);
    let shape = shape(&mut stage.random, length as usize, control != 0);
    let (last, end, head) = set_state(stage, v, shape.d);
    let random = &mut stage.random;
    let mut data = head;
    data.truncate(shape.d);
    let start = match end {
        Some(end) if end < shape.d => end,
        Some(_) => shape.d,
        None => random.below(shape.d),
    };
    data.extend(random.octets(start.saturating_sub(data.len())));
    while data.len() < shape.d {
        let octets = packet_octets(random, shape.d);
        data.extend(packet(random, octets));
        if random.once_in(30) {
            let place = random.below(data.len());
            data[place] ^= 0x80;
        }
    }
    data.truncate(shape.d);
    let right = if start < shape.d { start as u16 } else { NONE };
    let private = random.once_in(20);
    let frame = Frame {
        version: 0,
        spacecraft: spacecraft as u16,
        channel: v as u8,
        word: shape.word,
        master: random.octet(),
        count: if random.once_in(10) { random.octet() } else { last.wrapping_add(1) },
        secondary: shape.secondary,
        synchronisation: private,
        order: private && random.once_in(2),
        segment: if private { random.below(4) as u16 } else { 3 },
        pointer: pointer(random, right, shape.d, private),
        data,
    };
    frame.octets(control != 0)
}

fn pointer(random: &mut Random, right: u16, d: usize, private: bool) -> u16 {
    match random.below(20) {
        0 => NONE,
        1 => IDLE,
        2 => random.below(d) as u16,
        3 if private => random.below(2048) as u16,
        4 => (usize::from(right) + 1).min(d - 1) as u16,
        5 => usize::from(right).saturating_sub(1).min(d - 1) as u16,
        _ => right,
    }
}

/// Gives a channel a state by the rules; then its last count, where its packet ends in a field of d octets,
/// and the octets with which that field must begin for it.
fn set_state(stage: &mut Stage, v: usize, d: usize) -> (u8, Option<usize>, Vec<u8>) {
    let random = &mut stage.random;
    let last = random.octet();
    let near = random.pick(&[1, d.saturating_sub(1).max(1), d, d + 1, 2 * d]);
    let (words, end, head) = match random.below(10) {
        0 => ([0, u32::from(last), 0, 0], None, Vec::new()),
        1 => ([1, u32::from(last), 0, 0], None, Vec::new()),
        2 => ([1, u32::from(last), 1, 0], Some(0), Vec::new()),
        3 | 4 => {
            let r = if random.once_in(4) { random.pick(&[65_535, 65_536, 4097]) } else { near };
            ([1, u32::from(last), 2, r as u32], Some(r), Vec::new())
        }
        5..=7 => {
            let most = 4095_usize.saturating_sub(d).max(6);
            let k = match random.below(8) {
                0 => random.pick(&[6, 4095]),
                1 => most,
                _ => random.between(6, 4095),
            };
            let total = if k == most { 4096 } else { (k + near).clamp(7, 4096) };
            let held = packet(random, total);
            stage.pair.set_held(v, &held[..k]);
            ([1, u32::from(last), 1, k as u32], Some(total - k), held[k..].to_vec())
        }
        _ => {
            let k = random.between(1, 5);
            let odd = random.pick(&[7, 4095, 4096, 4097, 65_542]);
            let total = if random.once_in(2) { (k + near).clamp(7, 65_542) } else { odd };
            let held = packet(random, total);
            stage.pair.set_held(v, &held[..k]);
            let end = if k + d < 6 { d } else { total - k };
            ([1, u32::from(last), 1, k as u32], Some(end), held[k..].to_vec())
        }
    };
    stage.pair.set_channel(v, words);
    (last, end, head)
}
