//! The paper's table of refusals.

use std::fmt;

macro_rules! refusals {
    ($($name:ident = $number:literal $words:literal,)*) => {
        /// Why a call was refused: the first cause in the paper's order, in the paper's words (N is the frame
        /// length, D the octets of the data field). A refused call changed nothing.
        #[derive(Clone, Copy, Debug, PartialEq, Eq, Hash)]
        pub enum Refusal {
            $(#[doc = $words] $name = $number,)*
        }

        impl Refusal {
            /// Every refusal, in the paper's order.
            pub const ALL: &'static [Refusal] = &[$(Refusal::$name,)*];

            /// The paper's words for the cause.
            pub fn words(self) -> &'static str {
                match self {
                    $(Refusal::$name => $words,)*
                }
            }
        }
    };
}

refusals! {
    SetUp = 1 "N or the spacecraft number is outside its range",
    Store = 2 "the store is not 32,768 octets",
    Output = 3 "the output is under 6,144 octets",
    Record = 4 "any of the eight records breaks the rules",
    FrameLength = 5 "the frame is not N octets",
    Damaged = 6 "error control is set up and the syndrome is not zero",
    FrameVersion = 7 "frame version is not 00",
    Spacecraft = 8 "the spacecraft number differs",
    SecondaryHeader = 9 "the secondary header flag is set and that header's version is not 00",
    NoDataField = 10 "D would be below 1",
    OrderOrSegment = 11 "synchronisation flag 0, and either order flag not 0 or segment id not 11",
    Pointer = 12 "synchronisation flag 0, and pointer neither below D nor 2046 nor 2047",
    Channel = 20 "channel above 7",
    RunTooLong = 21 "run over 65,536 octets",
    RunNoChain = 22 "run not a chain of whole version 000 packets",
    Offset = 23 "offset past the run's end",
    LeftOver = 24 "left-over above 6, or not zero while the offset is neither 0 nor the run's end",
    OutputLength = 25 "output not N octets",
}

impl Refusal {
    /// The paper's number.
    pub fn number(self) -> u32 {
        self as u32
    }

    /// The refusal of that number, if there is one.
    pub fn from_number(number: u32) -> Option<Refusal> {
        Self::ALL.iter().copied().find(|refusal| refusal.number() == number)
    }

    /// What the library answered: 0 is accepted.
    pub(crate) fn of_answer(number: u32) -> Result<(), Refusal> {
        match (number, Self::from_number(number)) {
            (0, _) => Ok(()),
            (_, Some(refusal)) => Err(refusal),
            _ => panic!("{number} is no number of the paper: the archive is not Scowdeck's"),
        }
    }
}

impl fmt::Display for Refusal {
    fn fmt(&self, f: &mut fmt::Formatter<'_>) -> fmt::Result {
        write!(f, "refusal {}: {}", self.number(), self.words())
    }
}

impl std::error::Error for Refusal {}

#[cfg(test)]
mod tests {
    use super::*;

    #[test]
    fn numbers_are_the_papers() {
        let numbers: Vec<u32> = Refusal::ALL.iter().map(|refusal| refusal.number()).collect();
        assert_eq!(numbers, (1..=12).chain(20..=25).collect::<Vec<u32>>());
        for &refusal in Refusal::ALL {
            assert_eq!(Refusal::from_number(refusal.number()), Some(refusal));
        }
        assert_eq!([0, 13, 19, 26].map(Refusal::from_number), [None; 4]);
    }
}
