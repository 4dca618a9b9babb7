//! The reader and the writer of the paper in ordinary, safe Rust.
//!
//! Written from the paper's rules alone and sharing no code with the proved library, so that the two can be
//! held against each other, octet by octet and word by word. [`words`] has the same six functions as the
//! library's boundary.

#![forbid(unsafe_code)]

mod check;
mod closing;
mod counts;
mod frame;
mod packet;
mod reader;
mod record;
mod refusal;
mod set_up;
pub mod words;
mod writer;

pub use check::syndrome;
pub use closing::{close, Closing};
pub use counts::{ChannelCount, MasterCount};
pub use frame::{open, Frame, Header, Kind};
pub use packet::{is_idle, size, Size, LARGEST};
pub use reader::{read, Counts, Report, OUTPUT_LEAST};
pub use record::{Busy, Channel, Record, State, CHANNELS, PART, STORE};
pub use refusal::Refusal;
pub use set_up::SetUp;
pub use writer::{write, Place, Writing};
