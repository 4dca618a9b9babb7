//! The desk: what has to stay together between calls.

use crate::ffi::{self, BUSY_ANSWER, OUTPUT, READ_ANSWER, RECORD, STORE};
use crate::saved;
use crate::{LoadError, Place, Refusal, Report, Saved, Writing};
use std::fmt;

/// Frame length, spacecraft number, and whether frames carry error control. Any numbers may be given; those
/// outside their ranges (13 to 2,048; 0 to 1,023) are refused by the calls, with number 1.
#[derive(Clone, Copy, Debug, PartialEq, Eq, Hash)]
pub struct SetUp {
    /// Octets of a frame.
    pub length: u32,
    /// Spacecraft number.
    pub spacecraft: u32,
    /// Whether the last two octets of a frame are error control.
    pub error_control: bool,
}

/// Which channels have a packet under way.
#[derive(Clone, Copy, Debug, PartialEq, Eq, Hash)]
pub struct Busy {
    /// Bit 2^v is set when channel v skips or holds at least one octet.
    pub mask: u8,
    /// How many channels that is.
    pub ones: u32,
    /// The lowest of them.
    pub lowest: Option<u8>,
}

/// A reader of frames with all that it keeps: the record of the eight channels, their store, the output.
#[derive(Clone)]
pub struct Desk {
    set_up: SetUp,
    record: [u32; RECORD],
    store: Box<[u8]>,
    output: Box<[u8]>,
}

impl Desk {
    /// A desk that has heard nothing yet.
    pub fn new(set_up: SetUp) -> Desk {
        Desk::with(set_up, [0; RECORD], vec![0; STORE].into())
    }

    fn with(set_up: SetUp, record: [u32; RECORD], store: Box<[u8]>) -> Desk {
        Desk { set_up, record, store, output: vec![0; OUTPUT].into() }
    }

    /// The set-up.
    pub fn set_up(&self) -> SetUp {
        self.set_up
    }

    /// Reads one frame. The report borrows the packets until the next call; a refused frame changes nothing.
    pub fn read(&mut self, frame: &[u8]) -> Result<Report<'_>, Refusal> {
        let mut answer = [0; READ_ANSWER];
        let number = ffi::read(
            self.set_up.length,
            self.set_up.spacecraft,
            u32::from(self.set_up.error_control),
            &mut self.record,
            &mut self.store,
            &mut self.output,
            frame,
            &mut answer,
        );
        Refusal::of_answer(number)?;
        Ok(Report::new(&answer, &self.output))
    }

    /// Writes one frame under the desk's set-up; see [`crate::write`]. Nothing of the desk changes.
    pub fn write(
        &self,
        writing: &Writing,
        run: &[u8],
        output: &mut [u8],
    ) -> Result<Place, Refusal> {
        crate::write(&self.set_up, writing, run, output)
    }

    /// Which channels have a packet under way.
    pub fn busy(&self) -> Busy {
        let mut answer = [0; BUSY_ANSWER];
        ffi::busy(&self.record, &mut answer);
        let [mask, ones, lowest] = answer;
        Busy { mask: mask as u8, ones, lowest: (lowest < 8).then_some(lowest as u8) }
    }

    /// Record and store together, to go on later with [`Desk::load`]. The set-up is not in it.
    pub fn save(&self) -> Saved {
        Saved::new(&self.record, &self.store)
    }

    /// A desk that goes on where a saved one stood, under this set-up, which must be that of the saved one:
    /// another is not found out. A record that breaks the paper's rules loads, and each reading then says so:
    /// [`Refusal::Record`].
    pub fn load(set_up: SetUp, octets: &[u8]) -> Result<Desk, LoadError> {
        let (record, store) = saved::load(octets)?;
        Ok(Desk::with(set_up, record, store.into()))
    }
}

impl fmt::Debug for Desk {
    fn fmt(&self, f: &mut fmt::Formatter<'_>) -> fmt::Result {
        f.debug_struct("Desk")
            .field("set_up", &self.set_up)
            .field("record", &self.record)
            .finish_non_exhaustive()
    }
}
