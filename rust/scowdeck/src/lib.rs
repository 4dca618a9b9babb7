//! Telemetry frames in, packets out per virtual channel.
//!
//! A safe wrapper over the proved library (`libhost.a`, declared in `include/scowdeck.h`). A [`Desk`] owns
//! what belongs together: the record of the eight channels, their holding store, and the output. Who has only
//! frames to take apart or to put together needs no desk: [`open`] and [`close`].
//!
//! ```
//! use scowdeck::{write, ChannelCount, Desk, Kind, MasterCount, Place, SetUp, Writing};
//!
//! // One packet, written into a frame of 20 octets for channel 3 of spacecraft 171.
//! let set_up = SetUp { length: 20, spacecraft: 171, error_control: false };
//! let packet = [0x01, 0x23, 0xC0, 0x05, 0x00, 0x01, 0xDE, 0xAD];
//! let mut frame = [0; 20];
//! let place = Place::first(MasterCount(9), ChannelCount(4));
//! let next = write(&set_up, &Writing { channel: 3, control_word: None, place }, &packet, &mut frame)?;
//! assert_eq!((next.offset, next.left_over), (8, 1));
//!
//! // The frame, read from a fresh record.
//! let mut desk = Desk::new(set_up);
//! let report = desk.read(&frame)?;
//! assert_eq!((report.kind, report.channel, report.gap), (Kind::Packets, 3, 0));
//! let packets: Vec<&[u8]> = report.packets().collect();
//! assert_eq!(packets, [&packet[..]]);
//!
//! // Six octets of a filler are held by now. Record and store are saved together, and loaded together.
//! assert_eq!(desk.busy().mask, 0b1000);
//! let saved = desk.save();
//! let again = Desk::load(set_up, saved.as_bytes())?;
//! assert_eq!(again.busy(), desk.busy());
//!
//! // A frame that is cut short is refused, by the paper's number, and changes nothing.
//! let refusal = desk.read(&frame[..19]).unwrap_err();
//! assert_eq!(refusal.number(), 5);
//! assert_eq!(refusal.to_string(), "refusal 5: the frame is not N octets");
//! # Ok::<(), Box<dyn std::error::Error>>(())
//! ```

#![deny(unsafe_code)]
#![warn(missing_docs)]

mod desk;
pub mod ffi;
mod frame;
mod packets;
mod refusal;
mod report;
mod saved;
mod writing;

pub use desk::{Busy, Desk, SetUp};
pub use frame::{close, open, Closing, Opened};
pub use packets::Packets;
pub use refusal::Refusal;
pub use report::{Kind, Report};
pub use saved::{LoadError, Saved};
pub use writing::{write, Place, Writing};

/// The master channel's count of frames; never a channel's.
#[derive(Clone, Copy, Debug, Default, PartialEq, Eq, Hash)]
pub struct MasterCount(pub u8);

/// A virtual channel's count of frames; never the master channel's.
#[derive(Clone, Copy, Debug, Default, PartialEq, Eq, Hash)]
pub struct ChannelCount(pub u8);

/// The error control syndrome of these octets: zero for a good frame; of a message without its field, the
/// field.
///
/// ```
/// assert_eq!(scowdeck::syndrome(b"123456789"), 0x29B1);
/// assert_eq!(scowdeck::syndrome(b""), 0xFFFF);
/// ```
pub fn syndrome(octets: &[u8]) -> u16 {
    ffi::syndrome(octets) as u16
}
