//! Calls of the boundary, and what comes of them.

use crate::boundary::{CloseNumbers, SetUpWords, WriteNumbers};
use std::fmt::Write;

pub const STORE: usize = 32_768;
pub const PART: usize = 4_096;
pub const OUTPUT: usize = 6_144;

/// What two answers differ in, with all that went in.
pub type Checked<T> = Result<T, String>;

#[derive(Clone, Debug)]
pub struct ReadCall {
    pub set_up: SetUpWords,
    pub record_words: usize,
    pub store_octets: usize,
    pub output_octets: usize,
    pub answer_words: usize,
    pub frame: Vec<u8>,
}

impl ReadCall {
    /// With everything lent as it should be.
    pub fn new(set_up: SetUpWords, frame: Vec<u8>) -> ReadCall {
        ReadCall {
            set_up,
            record_words: 32,
            store_octets: STORE,
            output_octets: OUTPUT,
            answer_words: 20,
            frame,
        }
    }
}

#[derive(Clone, Debug)]
pub struct WriteCall {
    pub set_up: SetUpWords,
    pub numbers: WriteNumbers,
    pub output_octets: usize,
    pub answer_words: usize,
}

#[derive(Clone, Debug)]
pub struct OpenCall {
    pub set_up: SetUpWords,
    pub answer_words: usize,
    pub frame: Vec<u8>,
}

#[derive(Clone, Debug)]
pub struct CloseCall {
    pub set_up: SetUpWords,
    pub numbers: CloseNumbers,
    pub output_octets: usize,
}

/// What both answered to a reading.
#[derive(Clone, Debug)]
pub struct Read {
    pub number: u32,
    /// The answer, if there was room for all of it.
    pub words: Option<[u32; 20]>,
    /// The channel's words before and after, of an accepted frame with a whole answer.
    pub before: [u32; 4],
    pub after: [u32; 4],
}

/// What both answered to a writing.
#[derive(Clone, Debug)]
pub struct Written {
    pub number: u32,
    pub words: Option<[u32; 5]>,
    pub frame: Vec<u8>,
}

/// What both answered to an opening.
#[derive(Clone, Debug)]
pub struct Opened {
    pub number: u32,
    /// The answer, if there was room for all of it.
    pub words: Option<[u32; 14]>,
}

/// What both answered to a closing.
#[derive(Clone, Debug)]
pub struct Closed {
    pub number: u32,
    /// The output before and after.
    pub before: Vec<u8>,
    pub after: Vec<u8>,
}

/// Octets of so many packets that stand end to end.
pub fn octets_of(packets: u32, output: &[u8]) -> usize {
    (0..packets)
        .fold(0, |at, _| at + usize::from(u16::from_be_bytes([output[at + 4], output[at + 5]])) + 7)
}

pub fn hex(octets: &[u8]) -> String {
    octets.iter().fold(String::with_capacity(2 * octets.len()), |mut text, octet| {
        let _ = write!(text, "{octet:02X}");
        text
    })
}
