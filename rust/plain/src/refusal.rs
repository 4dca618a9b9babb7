//! The paper's table of refusals.

/// Why a call is refused. The discriminants are the paper's numbers.
#[derive(Clone, Copy, Debug, PartialEq, Eq)]
pub enum Refusal {
    SetUp = 1,
    Store = 2,
    Output = 3,
    Record = 4,
    FrameLength = 5,
    Damaged = 6,
    FrameVersion = 7,
    Spacecraft = 8,
    SecondaryHeader = 9,
    NoDataField = 10,
    OrderOrSegment = 11,
    Pointer = 12,
    Channel = 20,
    RunTooLong = 21,
    RunNoChain = 22,
    Offset = 23,
    LeftOver = 24,
    OutputLength = 25,
}

impl Refusal {
    pub fn number(self) -> u32 {
        self as u32
    }
}

/// Refuses when the cause is there.
pub(crate) fn refuse_if(cause: bool, refusal: Refusal) -> Result<(), Refusal> {
    if cause {
        Err(refusal)
    } else {
        Ok(())
    }
}
