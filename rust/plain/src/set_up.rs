//! The set-up.

use crate::refusal::{refuse_if, Refusal};

/// Frame length, spacecraft number, and whether frames carry error control. Any numbers may be given:
/// those outside their ranges are refused by every call (number 1).
#[derive(Clone, Copy, Debug, PartialEq, Eq)]
pub struct SetUp {
    pub length: u32,
    pub spacecraft: u32,
    pub error_control: bool,
}

impl SetUp {
    pub fn fits(&self) -> bool {
        (13..=2048).contains(&self.length) && self.spacecraft <= 1023
    }

    pub(crate) fn test(&self) -> Result<(), Refusal> {
        refuse_if(!self.fits(), Refusal::SetUp)
    }

    pub(crate) fn octets(&self) -> usize {
        self.length as usize
    }

    /// Octets at a frame's end that are error control.
    pub(crate) fn check_octets(&self) -> usize {
        if self.error_control {
            2
        } else {
            0
        }
    }
}
