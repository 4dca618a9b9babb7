//! Runs written frame by frame, with refused writings in between, and read back.

use super::Stage;
use crate::boundary::WriteNumbers;
use crate::calls::{octets_of, Checked, ReadCall, WriteCall, Written};
use crate::cover::{self, Item};
use crate::make::{packet, packet_octets, set_up};
use crate::random::Random;

const RUN_MOST: usize = 65_536;

/// A run on its way.
struct Job {
    set_up: [u32; 3],
    numbers: WriteNumbers,
    run: Vec<u8>,
    packets: Vec<Vec<u8>>,
    found: Vec<u8>,
}

pub fn play(stage: &mut Stage) -> Checked<()> {
    let mut job = begin(&mut stage.random);
    stage.pair.fresh();
    stage.pair.set_run(&job.run);
    let most = stage.random.between(30, 200);
    for _ in 0..most {
        if stage.random.once_in(3) {
            let count = stage.random.between(1, 3);
            for _ in 0..count {
                odd_call(stage, &job)?;
            }
        }
        let written = next_frame(stage, &mut job)?;
        read_back(stage, &mut job, &written)?;
        if job.numbers.offset as usize == job.run.len() {
            check_found(stage, &job)?;
            if stage.random.once_in(3) {
                break;
            }
            job = next_job(stage, job);
        }
    }
    Ok(())
}

fn begin(random: &mut Random) -> Job {
    let set_up = set_up(random);
    let numbers = WriteNumbers {
        channel: random.below(8) as u32,
        master_count: random.octet(),
        channel_count: random.octet(),
        has_word: 0,
        word: 0,
        offset: 0,
        left_over: random.pick(&[0, 0, 0, 1, 2, 3, 4, 5, 6]),
    };
    let packets = run(random, set_up[0] as usize);
    Job { set_up, numbers, run: packets.concat(), packets, found: Vec::new() }
}

/// Another run after the one that is done, mostly where the last one ended.
fn next_job(stage: &mut Stage, done: Job) -> Job {
    let packets = run(&mut stage.random, done.set_up[0] as usize);
    let numbers = WriteNumbers { offset: 0, ..done.numbers };
    let next = Job { numbers, run: packets.concat(), packets, found: Vec::new(), ..done };
    stage.pair.set_run(&next.run);
    next
}

/// Packets of at most 65,536 octets in all; none at all, or exactly as many, now and then.
fn run(random: &mut Random, d: usize) -> Vec<Vec<u8>> {
    let most = match random.below(12) {
        0 => 0,
        1 => RUN_MOST,
        _ => random.between(7, 12 * d + 7).min(RUN_MOST),
    };
    let (mut packets, mut sum) = (Vec::new(), 0);
    while most - sum >= 7 && most > 0 {
        let wanted = packet_octets(random, if most == RUN_MOST { 1000 } else { d });
        let octets = if most - sum < wanted + 7 { most - sum } else { wanted };
        packets.push(packet(random, octets));
        sum += octets;
    }
    packets
}

/// The next frame of the run; the place goes on.
fn next_frame(stage: &mut Stage, job: &mut Job) -> Checked<Written> {
    let has_word = stage.random.pick(&[0, 0, 1, 2, 0x100, u32::MAX]);
    job.numbers.has_word = has_word;
    job.numbers.word = stage.random.half();
    let call = WriteCall {
        set_up: job.set_up,
        numbers: job.numbers,
        output_octets: job.set_up[0] as usize,
        answer_words: if stage.random.once_in(8) { stage.random.between(5, 20) } else { 5 },
    };
    let written = stage.pair.write(&call, job.run.len())?;
    note(stage, &call, &job.run, &written);
    let Some([0, offset, left_over, master, channel]) = written.words else {
        return Err(format!("both alike, but a writing by the rules is refused: {call:?}\n"));
    };
    job.numbers.offset = offset;
    job.numbers.left_over = left_over;
    job.numbers.master_count = master as u8;
    job.numbers.channel_count = channel as u8;
    Ok(written)
}

fn read_back(stage: &mut Stage, job: &mut Job, written: &Written) -> Checked<()> {
    let read = stage.read(&ReadCall::new(job.set_up, written.frame.clone()))?;
    let Some(words) = read.words.filter(|_| read.number == 0) else {
        return Err(format!("both alike, but a written frame is refused: {}\n", read.number));
    };
    if [13, 16, 17, 18].iter().any(|&place| words[place] != 0) {
        return Err(format!("both alike, but a written frame reads as {words:?}\n"));
    }
    let output = stage.pair.output();
    let at = octets_of(words[14], output);
    job.found.extend(&output[..at]);
    Ok(())
}

/// Demand 2: at the run's end, exactly its packets of at most 4,096 octets that are not idle.
fn check_found(stage: &mut Stage, job: &Job) -> Checked<()> {
    let idle = |packet: &[u8]| packet[0] & 7 == 7 && packet[1] == 255;
    let wanted: Vec<&[u8]> = job
        .packets
        .iter()
        .map(Vec::as_slice)
        .filter(|packet| packet.len() <= 4096 && !idle(packet))
        .collect();
    if job.found != wanted.concat() {
        return Err(format!("both alike, but not the run's packets: {:?}\n", job.numbers));
    }
    stage.table.hit_if(!wanted.is_empty(), Item::ReadBack);
    Ok(())
}

/// A writing from anywhere, or one with a cause of a refusal.
fn odd_call(stage: &mut Stage, job: &Job) -> Checked<()> {
    let random = &mut stage.random;
    let mut call = WriteCall {
        set_up: job.set_up,
        numbers: job.numbers,
        output_octets: job.set_up[0] as usize,
        answer_words: if random.once_in(4) { random.below(12) } else { 5 },
    };
    call.numbers.has_word = random.pick(&[0, 1]);
    call.numbers.offset = random.between(0, job.run.len()) as u32;
    call.numbers.left_over = random.pick(&[0, 0, 0, 1, 6]);
    let mut run = None;
    let mut aim = None;
    for _ in 0..random.between(1, 2) {
        aim = wrong(random, &mut call, &job.run, &mut run).or(aim);
    }
    let lent = run.as_ref().unwrap_or(&job.run);
    if run.is_some() {
        stage.pair.set_run(lent);
    }
    let written = stage.pair.write(&call, lent.len())?;
    note(stage, &call, lent, &written);
    if let Some((number, item)) = aim {
        stage.table.hit_if(written.number == number, item);
    }
    if run.is_some() {
        stage.pair.set_run(&job.run);
    }
    Ok(())
}

fn wrong(
    random: &mut Random,
    call: &mut WriteCall,
    run: &[u8],
    other: &mut Option<Vec<u8>>,
) -> Option<(u32, Item)> {
    let n = call.output_octets;
    let numbers = &mut call.numbers;
    match random.below(14) {
        0 => call.set_up[0] = random.pick(&[0, 12, 2049, u32::MAX]),
        1 => call.set_up[1] = random.pick(&[1024, 65_536, u32::MAX]),
        2 => numbers.channel = random.pick(&[8, 9, 16, 255, 256 + 3, u32::MAX]),
        3 => return wrong_run(random, run, other),
        4 => numbers.offset = (run.len() + random.pick(&[1, 2, 65_536])) as u32,
        5 => numbers.offset = random.pick(&[u32::MAX, 1 << 31]),
        6 => {
            numbers.left_over = random.pick(&[7, 8, 256, u32::MAX]);
            return Some((24, Item::LeftAbove));
        }
        7 if run.len() > 1 => {
            numbers.offset = random.between(1, run.len() - 1) as u32;
            numbers.left_over = random.between(1, 6) as u32;
            return Some((24, Item::LeftInside));
        }
        8 => call.output_octets = random.pick(&[0, 12, n.saturating_sub(1), n + 1]),
        9 => numbers.offset = 0,
        10 => numbers.offset = run.len() as u32,
        _ => numbers.left_over = 0,
    }
    None
}

/// A run that is too long or no chain.
fn wrong_run(random: &mut Random, run: &[u8], other: &mut Option<Vec<u8>>) -> Option<(u32, Item)> {
    let mut run = run.to_vec();
    let mut aim = None;
    match random.below(4) {
        0 => run.resize(random.between(RUN_MOST + 1, RUN_MOST + 64), 0),
        1 => {
            let n = random.between(1, 20);
            run = random.octets(n);
        }
        2 if !run.is_empty() => {
            run[0] |= random.pick(&[0x20, 0x40, 0x80]);
            aim = Some((22, Item::ChainForeign));
        }
        _ => {
            run.pop();
            aim = Some((22, Item::ChainCut));
        }
    }
    *other = Some(run);
    aim
}

fn note(stage: &mut Stage, call: &WriteCall, run: &[u8], written: &Written) {
    let table = &mut *stage.table;
    table.hit_if(call.answer_words < 5, Item::WriteAnswerShort);
    table.hit_if(call.answer_words > 5, Item::WriteAnswerLong);
    if let Some(item) = cover::write_refused(written.number) {
        table.hit(item);
        return;
    }
    table.hit(Item::Written);
    let Some([_, offset, left_over, master, channel]) = written.words else { return };
    let numbers = &call.numbers;
    let pointer = u16::from_be_bytes([written.frame[4], written.frame[5]]) & 0x7FF;
    let end = offset as usize == run.len();
    let word = if numbers.has_word != 0 { 4 } else { 0 };
    let check = if call.set_up[2] != 0 { 2 } else { 0 };
    let d = call.set_up[0] - 6 - word - check;
    let placed = offset - numbers.offset + numbers.left_over;
    table.hit_if(pointer == 2046, Item::WriteIdle);
    table.hit_if(placed == d && !end, Item::WriteFull);
    table.hit_if(placed == d && end && offset > numbers.offset, Item::WriteExact);
    table.hit_if(pointer != 2046 && placed + 7 <= d, Item::WriteFiller);
    table.hit_if(placed < d && left_over > 0, Item::WriteCutFiller);
    table.hit_if(numbers.left_over > 0, Item::WriteLeft);
    table.hit_if(numbers.left_over > d, Item::WriteLeftStays);
    table.hit_if(pointer == 2047, Item::WriteNoStart);
    table.hit_if((1..2046).contains(&pointer), Item::WriteStart);
    table.hit_if(numbers.offset > 0 && pointer != 0 && !end, Item::WriteInside);
    table.hit_if(word > 0, Item::WriteWord);
    table.hit_if(check > 0, Item::WriteChecked);
    table.hit_if(master == 0 || channel == 0, Item::WriteWraps);
    table.hit_if(run.is_empty(), Item::WriteEmpty);
    table.hit_if(run.len() == RUN_MOST, Item::WriteLongest);
}
