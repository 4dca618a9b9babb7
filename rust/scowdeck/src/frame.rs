//! The frame part by itself: opening and closing one frame, without a record and without packets.

use crate::ffi::{self, OPEN_ANSWER};
use crate::{ChannelCount, MasterCount, Refusal, SetUp};
use std::ops::Range;

const HEADER: u32 = 6;
const CONTROL_WORD: u32 = 4;
const ERROR_CONTROL: u32 = 2;

/// A frame that passed tests 1 and 5 to 12; it borrows the frame for its data field.
#[derive(Clone, Copy, Debug, PartialEq, Eq)]
pub struct Opened<'a> {
    /// Spacecraft number of the frame.
    pub spacecraft: u16,
    /// Virtual channel, 0 to 7.
    pub channel: u8,
    /// Count of the master channel.
    pub master_count: MasterCount,
    /// Count of the virtual channel.
    pub channel_count: ChannelCount,
    /// Whether the frame has a secondary header.
    pub secondary_header: bool,
    /// Synchronisation flag. If it is set the frame is private, whatever its pointer says, and order flag, segment
    /// length id and pointer were not tested.
    pub synchronisation: bool,
    /// Packet order flag.
    pub order: bool,
    /// Segment length id, 0 to 3.
    pub segment: u8,
    /// First header pointer: without the synchronisation flag below the octets of `data`, or 2046 or 2047.
    pub pointer: u16,
    /// The control word, if the frame has one.
    pub control_word: Option<u32>,
    /// Where the data field starts in the frame.
    pub data_place: usize,
    /// The data field, at least one octet.
    pub data: &'a [u8],
}

impl<'a> Opened<'a> {
    /// From the words of an opened frame's answer.
    fn new(words: &[u32; OPEN_ANSWER], frame: &'a [u8]) -> Opened<'a> {
        let flag = |place: usize| words[place] != 0;
        let (place, octets) = (words[12] as usize, words[13] as usize);
        Opened {
            spacecraft: words[1] as u16,
            channel: words[2] as u8,
            control_word: flag(3).then_some(words[11]),
            master_count: MasterCount(words[4] as u8),
            channel_count: ChannelCount(words[5] as u8),
            secondary_header: flag(6),
            synchronisation: flag(7),
            order: flag(8),
            segment: words[9] as u8,
            pointer: words[10] as u16,
            data_place: place,
            data: &frame[place..place + octets],
        }
    }
}

/// Opens one frame: tests it, and tells its header values, its control word and its data field.
///
/// ```
/// use scowdeck::{open, Refusal, SetUp};
///
/// let set_up = SetUp { length: 20, spacecraft: 171, error_control: false };
/// let mut frame = [0x55; 20];
/// frame[..6].copy_from_slice(&[0x0A, 0xB6, 0x0B, 0x06, 0x1F, 0xFE]);
/// let opened = open(&set_up, &frame)?;
/// assert_eq!((opened.channel, opened.pointer, opened.control_word), (3, 2046, None));
/// assert_eq!(opened.data, [0x55; 14]);
///
/// assert_eq!(open(&set_up, &frame[1..]), Err(Refusal::FrameLength));
/// # Ok::<(), Refusal>(())
/// ```
pub fn open<'a>(set_up: &SetUp, frame: &'a [u8]) -> Result<Opened<'a>, Refusal> {
    let mut answer = [0; OPEN_ANSWER];
    let control = u32::from(set_up.error_control);
    let number = ffi::open(set_up.length, set_up.spacecraft, control, frame, &mut answer);
    Refusal::of_answer(number)?;
    Ok(Opened::new(&answer, frame))
}

/// What one frame is closed with, besides set-up and data field.
#[derive(Clone, Copy, Debug, PartialEq, Eq)]
pub struct Closing {
    /// Virtual channel, 0 to 7.
    pub channel: u32,
    /// Count of the master channel; the next frame's is the caller's to raise.
    pub master_count: MasterCount,
    /// Count of the virtual channel; the next frame's is the caller's to raise.
    pub channel_count: ChannelCount,
    /// The control word, if the frame shall have one.
    pub control_word: Option<u32>,
    /// First header pointer. It is not tested, and its low 11 bits are written. Where these are neither below the
    /// octets of the data field nor 2046 nor 2047, the frame is closed all the same, and refused when it is opened.
    pub pointer: u32,
}

impl Closing {
    /// The pointer of a frame with idle data only.
    pub const IDLE: u32 = 2046;
    /// The pointer of a frame in which no packet starts.
    pub const NONE: u32 = 2047;
}

/// Closes one frame: writes header, control word and error control around the data field, which lies in its
/// place in `output` already. `output` has the frame's length, and [`SetUp::data_field`] tells the place. The
/// frame has no secondary header, synchronisation and order flag 0 and segment length id 3. A refused call
/// leaves the output as it was.
///
/// ```
/// use scowdeck::{close, open, ChannelCount, Closing, MasterCount, SetUp};
///
/// let set_up = SetUp { length: 64, spacecraft: 5, error_control: true };
/// let closing = Closing {
///     channel: 1,
///     master_count: MasterCount(9),
///     channel_count: ChannelCount(4),
///     control_word: Some(0xCAFE),
///     pointer: Closing::NONE,
/// };
/// let mut frame = [0; 64];
/// frame[set_up.data_field(true)].fill(0xAB);
/// close(&set_up, &closing, &mut frame)?;
/// assert_eq!(scowdeck::syndrome(&frame), 0);
///
/// let opened = open(&set_up, &frame)?;
/// assert_eq!((opened.channel_count, opened.control_word), (ChannelCount(4), Some(0xCAFE)));
/// assert_eq!(opened.data, [0xAB; 52]);
/// # Ok::<(), scowdeck::Refusal>(())
/// ```
pub fn close(set_up: &SetUp, closing: &Closing, output: &mut [u8]) -> Result<(), Refusal> {
    Refusal::of_answer(ffi::close(
        set_up.length,
        set_up.spacecraft,
        u32::from(set_up.error_control),
        closing.channel,
        closing.master_count.0,
        closing.channel_count.0,
        u32::from(closing.control_word.is_some()),
        closing.control_word.unwrap_or(0),
        closing.pointer,
        output,
    ))
}

impl SetUp {
    /// Where the data field lies in a frame without a secondary header, with a control word or without:
    /// D = N - 6 - (4 with a control word) - (2 with error control) octets, from octet 6 on. Of a set-up that is
    /// too short for a data field, an empty place, which can lie past the end of a frame of that length.
    pub fn data_field(&self, control_word: bool) -> Range<usize> {
        let word = if control_word { CONTROL_WORD } else { 0 };
        let check = if self.error_control { ERROR_CONTROL } else { 0 };
        let octets = self.length.saturating_sub(HEADER + word + check) as usize;
        HEADER as usize..HEADER as usize + octets
    }
}
