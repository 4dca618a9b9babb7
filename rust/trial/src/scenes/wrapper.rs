//! The safe wrapper against `plain`: its desk, saved and loaded on the way, and its frame part.

use super::Stage;
use crate::boundary::{Boundary, CloseNumbers, Plain, WriteNumbers};
use crate::calls::{hex, Checked, OUTPUT, STORE};
use crate::cover::Item;
use crate::make::{packet, set_up};
use crate::random::Random;
use crate::sender::Sender;
use plain::words;
use scowdeck::{ChannelCount, Closing, Desk, MasterCount, Opened, Place, Report, SetUp, Writing};

/// The memory of `plain`.
struct Mirror {
    set_up: [u32; 3],
    record: [u32; 32],
    store: Vec<u8>,
    output: Vec<u8>,
    answer: [u32; 20],
}

impl Mirror {
    fn read(&mut self, frame: &[u8]) -> u32 {
        let [length, spacecraft, control] = self.set_up;
        let (record, answer) = (&mut self.record, &mut self.answer);
        let (store, output) = (&mut self.store, &mut self.output);
        words::read(length, spacecraft, control, record, store, output, frame, answer)
    }
}

pub fn play(stage: &mut Stage) -> Checked<()> {
    let numbers = set_up(&mut stage.random);
    let [length, spacecraft, control] = numbers;
    let set_up = SetUp { length, spacecraft, error_control: control != 0 };
    let mut desk = Desk::new(set_up);
    let mut mirror = Mirror {
        set_up: numbers,
        record: [0; 32],
        store: vec![0; STORE],
        output: vec![0; OUTPUT],
        answer: [0; 20],
    };
    let wild = stage.random.once_in(2);
    let mut senders = [1, 6].map(|channel| Sender::new(&mut stage.random, channel, wild));
    for master in 0..80 {
        let i = stage.random.below(2);
        let sent = senders[i].next(&mut stage.random, numbers, master);
        let mut frame = sent.frame.octets(control != 0);
        alter(&mut stage.random, &mut frame);
        one_frame(stage, &mut desk, &mut mirror, &frame)?;
        open(stage, &set_up, &frame)?;
        if stage.random.once_in(8) {
            desk = reloaded(stage, &desk, &mirror)?;
        }
        if stage.random.once_in(4) {
            write(stage, &desk, numbers)?;
            close(stage, &set_up)?;
        }
    }
    Ok(())
}

fn alter(random: &mut Random, frame: &mut Vec<u8>) {
    match random.below(12) {
        0 => {
            let place = random.below(frame.len());
            frame[place] ^= 1 << random.below(8);
        }
        1 => frame.truncate(random.below(frame.len())),
        _ => {}
    }
}

fn one_frame(stage: &mut Stage, desk: &mut Desk, mirror: &mut Mirror, frame: &[u8]) -> Checked<()> {
    stage.pair.calls += 1;
    let number = mirror.read(frame);
    let same = match desk.read(frame) {
        Err(refusal) => {
            stage.table.hit(Item::DeskRefused);
            refusal.number() == number
        }
        Ok(report) => {
            stage.table.hit(Item::DeskAccepted);
            stage.table.hit_if(report.delivered > 0, Item::DeskPackets);
            let packets: Vec<&[u8]> = report.packets().collect();
            let octets = packets.concat();
            report_words(&report) == mirror.answer
                && packets.len() == report.delivered as usize
                && octets == mirror.output[..octets.len()]
        }
    };
    if same {
        return Ok(());
    }
    Err(format!("the desk differs, {:?} by plain, on {}\n", mirror.answer, hex(frame)))
}

fn report_words(report: &Report) -> [u32; 20] {
    [
        0,
        report.kind as u32,
        u32::from(report.spacecraft),
        u32::from(report.channel),
        u32::from(report.control_word.is_some()),
        u32::from(report.master_count.0),
        u32::from(report.channel_count.0),
        u32::from(report.secondary_header),
        u32::from(report.synchronisation),
        u32::from(report.order),
        u32::from(report.segment),
        u32::from(report.pointer),
        report.control_word.unwrap_or(0),
        u32::from(report.gap),
        report.delivered,
        report.idle,
        u32::from(report.broken),
        u32::from(report.disagreement),
        u32::from(report.foreign),
        u32::from(report.oversize),
    ]
}

/// Saved, compared with the mirror, and loaded again.
fn reloaded(stage: &mut Stage, desk: &Desk, mirror: &Mirror) -> Checked<Desk> {
    let saved = desk.save();
    let octets = saved.as_bytes();
    let words: Vec<u8> = mirror.record.iter().flat_map(|word| word.to_be_bytes()).collect();
    let mut answer = [0; 3];
    words::busy(&mirror.record, &mut answer);
    let busy = desk.busy();
    let lowest = busy.lowest.map_or(8, u32::from);
    if octets[9..137] != words
        || octets[137..137 + STORE] != mirror.store
        || answer != [u32::from(busy.mask), busy.ones, lowest]
    {
        return Err(format!("the saved desk differs: {desk:?}, by plain {:?}\n", mirror.record));
    }
    stage.table.hit_if(busy.mask != 0, Item::DeskLoaded);
    Desk::load(desk.set_up(), octets).map_err(|error| error.to_string())
}

/// Where a writing may stand in a run of eight octets, or may not.
fn place(random: &mut Random) -> Place {
    Place {
        offset: random.below(10) as u32,
        left_over: random.pick(&[0, 0, 1, 6, 7]),
        master_count: MasterCount(random.octet()),
        channel_count: ChannelCount(random.octet()),
    }
}

fn write(stage: &mut Stage, desk: &Desk, set_up: [u32; 3]) -> Checked<()> {
    stage.pair.calls += 1;
    let random = &mut stage.random;
    let control_word = random.once_in(2).then(|| random.half());
    let given = place(random);
    let writing = Writing { channel: random.below(9) as u32, control_word, place: given };
    let numbers = WriteNumbers {
        channel: writing.channel,
        master_count: given.master_count.0,
        channel_count: given.channel_count.0,
        has_word: u32::from(control_word.is_some()),
        word: control_word.unwrap_or(0),
        offset: given.offset,
        left_over: given.left_over,
    };
    let run = packet(random, 8);
    let mut left = vec![0xEE; set_up[0] as usize];
    let (mut right, mut answer) = (left.clone(), [0; 5]);
    let result = desk.write(&writing, &run, &mut left);
    Plain.write(set_up, &numbers, &run, &mut right, &mut answer);
    let (number, after) =
        result.map_or_else(|refusal| (refusal.number(), given), |place| (0, place));
    let counts = [after.master_count.0, after.channel_count.0].map(u32::from);
    if answer != [number, after.offset, after.left_over, counts[0], counts[1]] || left != right {
        return Err(format!(
            "the wrapper's writing differs: {writing:?}, {result:?}, {answer:?}\n"
        ));
    }
    stage.table.hit_if(number == 0, Item::DeskWritten);
    Ok(())
}

fn open(stage: &mut Stage, set_up: &SetUp, frame: &[u8]) -> Checked<()> {
    stage.pair.calls += 1;
    let control = u32::from(set_up.error_control);
    let mut answer = [0; 14];
    let number = Plain.open([set_up.length, set_up.spacecraft, control], frame, &mut answer);
    let same = match scowdeck::open(set_up, frame) {
        Err(refusal) => refusal.number() == number,
        Ok(opened) => {
            let place = opened.data_place;
            opened_words(&opened) == answer
                && frame[place..place + opened.data.len()] == *opened.data
        }
    };
    stage.table.hit(if number == 0 { Item::WrapperOpened } else { Item::WrapperNotOpened });
    if same {
        return Ok(());
    }
    Err(format!("the wrapper's opening differs, {answer:?} by plain, on {}\n", hex(frame)))
}

fn opened_words(opened: &Opened) -> [u32; 14] {
    [
        0,
        u32::from(opened.spacecraft),
        u32::from(opened.channel),
        u32::from(opened.control_word.is_some()),
        u32::from(opened.master_count.0),
        u32::from(opened.channel_count.0),
        u32::from(opened.secondary_header),
        u32::from(opened.synchronisation),
        u32::from(opened.order),
        u32::from(opened.segment),
        u32::from(opened.pointer),
        opened.control_word.unwrap_or(0),
        opened.data_place as u32,
        opened.data.len() as u32,
    ]
}

/// A closing over a data field in the place that the wrapper tells; now and then one that is refused.
fn close(stage: &mut Stage, set_up: &SetUp) -> Checked<()> {
    stage.pair.calls += 1;
    let random = &mut stage.random;
    let closing = Closing {
        channel: random.below(9) as u32,
        master_count: MasterCount(random.octet()),
        channel_count: ChannelCount(random.octet()),
        control_word: random.once_in(2).then(|| random.half()),
        pointer: random.half() >> random.pick(&[0, 21]),
    };
    let numbers = CloseNumbers {
        channel: closing.channel,
        master_count: closing.master_count.0,
        channel_count: closing.channel_count.0,
        has_word: u32::from(closing.control_word.is_some()),
        word: closing.control_word.unwrap_or(0),
        pointer: closing.pointer,
    };
    let field = set_up.data_field(closing.control_word.is_some());
    let mut left = vec![0xEE; set_up.length as usize];
    random.fill(&mut left[field.clone()]);
    let (laid, mut right) = (left[field.clone()].to_vec(), left.clone());
    let control = u32::from(set_up.error_control);
    let result = scowdeck::close(set_up, &closing, &mut left);
    let number = Plain.close([set_up.length, set_up.spacecraft, control], &numbers, &mut right);
    let ends = set_up.length as usize
        == field.end + [0, 4][numbers.has_word as usize] + 2 * control as usize;
    let said = result.map_or_else(|refusal| refusal.number(), |()| 0);
    if said != number || left != right || left[field] != laid || !ends {
        return Err(format!("the wrapper's closing differs: {closing:?}, {said} and {number}\n"));
    }
    stage.table.hit(if said == 0 { Item::WrapperClosed } else { Item::WrapperNotClosed });
    Ok(())
}
