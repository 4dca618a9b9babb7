//! A frame put together around its data field.

use crate::check::syndrome;
use crate::counts::{ChannelCount, MasterCount};
use crate::frame::{CONTROL_WORD, HEADER};
use crate::refusal::{refuse_if, Refusal};
use crate::set_up::SetUp;
use std::ops::Range;

/// What a frame is closed with, besides its set-up and its data field.
#[derive(Clone, Copy, Debug, PartialEq, Eq)]
pub struct Closing {
    pub channel: u32,
    pub master_count: MasterCount,
    pub channel_count: ChannelCount,
    pub control_word: Option<u32>,
    /// Its low 11 bits are written.
    pub pointer: u32,
}

/// Closes one frame over the data field that lies in its place. A refused call changes nothing.
pub fn close(set_up: &SetUp, closing: &Closing, output: &mut [u8]) -> Result<(), Refusal> {
    set_up.test()?;
    refuse_if(closing.channel > 7, Refusal::Channel)?;
    refuse_if(output.len() != set_up.octets(), Refusal::OutputLength)?;
    surround(set_up, closing, output);
    Ok(())
}

/// Where the data field lies in a frame without a secondary header, under a set-up that fits.
pub(crate) fn field(set_up: &SetUp, control_word: Option<u32>) -> Range<usize> {
    let control_octets = if control_word.is_some() { CONTROL_WORD } else { 0 };
    HEADER..set_up.octets() - set_up.check_octets() - control_octets
}

/// Header, control word and error control of a frame that passed its tests.
pub(crate) fn surround(set_up: &SetUp, closing: &Closing, output: &mut [u8]) {
    put_header(set_up, closing, output);
    if let Some(word) = closing.control_word {
        let after = field(set_up, closing.control_word).end;
        output[after..after + CONTROL_WORD].copy_from_slice(&word.to_be_bytes());
    }
    if set_up.error_control {
        let (message, check) = output.split_at_mut(set_up.octets() - 2);
        check.copy_from_slice(&syndrome(message).to_be_bytes());
    }
}

fn put_header(set_up: &SetUp, closing: &Closing, output: &mut [u8]) {
    let flag = u32::from(closing.control_word.is_some());
    let identification = set_up.spacecraft << 4 | closing.channel << 1 | flag;
    let status = 3 << 11 | closing.pointer & 0x7FF;
    output[..2].copy_from_slice(&(identification as u16).to_be_bytes());
    output[2] = closing.master_count.0;
    output[3] = closing.channel_count.0;
    output[4..HEADER].copy_from_slice(&(status as u16).to_be_bytes());
}
