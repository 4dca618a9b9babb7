//! The same six functions as the library's boundary: numbers, words and octets alone.

use crate::closing::{close as close_frame, Closing};
use crate::counts::{ChannelCount, MasterCount};
use crate::frame::{open as open_frame, Frame, Header};
use crate::reader::{read as read_frame, test_lent, Report};
use crate::record::{Busy, Channel, Record, State, CHANNELS};
use crate::refusal::Refusal;
use crate::set_up::SetUp;
use crate::writer::{write as write_frame, Place, Writing};

/// Words of a saved record, four for each channel.
pub const RECORD: usize = 4 * CHANNELS;
/// Words of the answer of a reading.
pub const READ_ANSWER: usize = 20;
/// Words of the answer of a writing.
pub const WRITE_ANSWER: usize = 5;
/// Words of the answer of an opening.
pub const OPEN_ANSWER: usize = 14;

impl Channel {
    /// None where no channel has such words.
    fn from_words(words: &[u32]) -> Option<Channel> {
        let &[heard @ 0..=1, last @ 0..=255, state, number] = words else {
            return None;
        };
        let state = match (state, number) {
            (0, 0) => State::Hunting,
            (1, k) => State::Gathering(k),
            (2, r) => State::Skipping(r),
            _ => return None,
        };
        Some(Channel { heard: heard == 1, last: ChannelCount(last as u8), state })
    }

    fn to_words(self) -> [u32; 4] {
        let (state, number) = match self.state {
            State::Hunting => (0, 0),
            State::Gathering(k) => (1, k),
            State::Skipping(r) => (2, r),
        };
        [u32::from(self.heard), u32::from(self.last.0), state, number]
    }
}

impl Record {
    /// None where no record has such words.
    pub fn from_words(words: &[u32]) -> Option<Record> {
        if words.len() != RECORD {
            return None;
        }
        let mut record = Record::default();
        for (channel, words) in record.channels.iter_mut().zip(words.chunks_exact(4)) {
            *channel = Channel::from_words(words)?;
        }
        Some(record)
    }

    pub fn to_words(&self) -> [u32; RECORD] {
        let mut words = [0; RECORD];
        for (words, channel) in words.chunks_exact_mut(4).zip(&self.channels) {
            words.copy_from_slice(&channel.to_words());
        }
        words
    }
}

/// The words that fit.
fn put(answer: &mut [u32], words: &[u32]) {
    answer.iter_mut().zip(words).for_each(|(to, from)| *to = *from);
}

/// The ten header values, in the order of both answers.
fn header_words(header: &Header) -> [u32; 10] {
    [
        u32::from(header.spacecraft),
        u32::from(header.channel),
        u32::from(header.control_word),
        u32::from(header.master_count.0),
        u32::from(header.channel_count.0),
        u32::from(header.secondary_header),
        u32::from(header.synchronisation),
        u32::from(header.order),
        u32::from(header.segment),
        u32::from(header.pointer),
    ]
}

fn report_words(report: &Report) -> [u32; READ_ANSWER] {
    let Report { kind, header, control_word, counts } = report;
    let mut words = [0; READ_ANSWER];
    words[1] = *kind as u32;
    words[2..12].copy_from_slice(&header_words(header));
    words[12..].copy_from_slice(&[
        *control_word,
        counts.gap,
        counts.delivered,
        counts.idle,
        counts.broken,
        counts.disagreement,
        counts.foreign,
        counts.oversize,
    ]);
    words
}

fn frame_words(frame: &Frame) -> [u32; OPEN_ANSWER] {
    let mut words = [0; OPEN_ANSWER];
    words[1..11].copy_from_slice(&header_words(&frame.header));
    words[11..].copy_from_slice(&[frame.control_word, frame.place as u32, frame.data.len() as u32]);
    words
}

/// The number alone, and zeros.
fn refusal_words<const N: usize>(refusal: Refusal) -> [u32; N] {
    let mut words = [0; N];
    words[0] = refusal.number();
    words
}

#[allow(clippy::too_many_arguments)] // the boundary's own parameters
pub fn read(
    length: u32,
    spacecraft: u32,
    error_control: u32,
    record: &mut [u32],
    store: &mut [u8],
    output: &mut [u8],
    frame: &[u8],
    answer: &mut [u32],
) -> u32 {
    let set_up = SetUp { length, spacecraft, error_control: error_control != 0 };
    let result = test_lent(&set_up, store, output)
        .and_then(|()| Record::from_words(record).ok_or(Refusal::Record))
        .and_then(|mut unpacked| {
            let report = read_frame(&set_up, &mut unpacked, store, output, frame)?;
            record.copy_from_slice(&unpacked.to_words());
            Ok(report)
        });
    match result {
        Ok(report) => {
            put(answer, &report_words(&report));
            0
        }
        Err(refusal) => {
            put(answer, &refusal_words::<READ_ANSWER>(refusal));
            refusal.number()
        }
    }
}

#[allow(clippy::too_many_arguments)] // the boundary's own parameters
pub fn write(
    length: u32,
    spacecraft: u32,
    error_control: u32,
    channel: u32,
    master_count: u8,
    channel_count: u8,
    has_word: u32,
    word: u32,
    run: &[u8],
    offset: u32,
    left_over: u32,
    output: &mut [u8],
    answer: &mut [u32],
) -> u32 {
    let set_up = SetUp { length, spacecraft, error_control: error_control != 0 };
    let given = Place {
        offset,
        left_over,
        master_count: MasterCount(master_count),
        channel_count: ChannelCount(channel_count),
    };
    let control_word = (has_word != 0).then_some(word);
    let writing = Writing { channel, control_word, place: given };
    let (number, place) = match write_frame(&set_up, &writing, run, output) {
        Ok(place) => (0, place),
        Err(refusal) => (refusal.number(), given),
    };
    let counts = [u32::from(place.master_count.0), u32::from(place.channel_count.0)];
    put(answer, &[number, place.offset, place.left_over, counts[0], counts[1]]);
    number
}

pub fn open(
    length: u32,
    spacecraft: u32,
    error_control: u32,
    frame: &[u8],
    answer: &mut [u32],
) -> u32 {
    let set_up = SetUp { length, spacecraft, error_control: error_control != 0 };
    let words = match open_frame(&set_up, frame) {
        Ok(frame) => frame_words(&frame),
        Err(refusal) => refusal_words(refusal),
    };
    put(answer, &words);
    words[0]
}

#[allow(clippy::too_many_arguments)] // the boundary's own parameters
pub fn close(
    length: u32,
    spacecraft: u32,
    error_control: u32,
    channel: u32,
    master_count: u8,
    channel_count: u8,
    has_word: u32,
    word: u32,
    pointer: u32,
    output: &mut [u8],
) -> u32 {
    let set_up = SetUp { length, spacecraft, error_control: error_control != 0 };
    let closing = Closing {
        channel,
        master_count: MasterCount(master_count),
        channel_count: ChannelCount(channel_count),
        control_word: (has_word != 0).then_some(word),
        pointer,
    };
    close_frame(&set_up, &closing, output).map_or_else(Refusal::number, |()| 0)
}

/// From the states alone, for any words: a channel without its four words hunts.
pub fn busy(record: &[u32], answer: &mut [u32]) -> u32 {
    let states = record.chunks_exact(4).map(|words| match (words[2], words[3]) {
        (1, k) => State::Gathering(k),
        (2, r) => State::Skipping(r),
        _ => State::Hunting,
    });
    let busy = Busy::of(states);
    put(answer, &[u32::from(busy.mask), busy.ones(), busy.lowest()]);
    u32::from(busy.mask)
}

pub fn syndrome(octets: &[u8]) -> u32 {
    u32::from(crate::check::syndrome(octets))
}
