//! What an accepted frame gives.

use crate::ffi::READ_ANSWER;
use crate::{ChannelCount, MasterCount, Packets};

/// What a frame is.
#[derive(Clone, Copy, Debug, PartialEq, Eq, Hash)]
pub enum Kind {
    /// It carries packets.
    Packets = 1,
    /// Idle data alone (pointer 2046).
    Idle = 2,
    /// Synchronisation flag 1: no packets.
    Private = 3,
}

/// The answer for an accepted frame; it borrows the desk's output for the delivered packets.
#[derive(Clone, Debug)]
pub struct Report<'a> {
    /// What the frame is.
    pub kind: Kind,
    /// Spacecraft number of the frame.
    pub spacecraft: u16,
    /// Virtual channel, 0 to 7.
    pub channel: u8,
    /// Count of the master channel.
    pub master_count: MasterCount,
    /// Count of the virtual channel.
    pub channel_count: ChannelCount,
    /// Whether the frame has a secondary header.
    pub secondary_header: bool,
    /// Synchronisation flag.
    pub synchronisation: bool,
    /// Packet order flag.
    pub order: bool,
    /// Segment length id, 0 to 3.
    pub segment: u8,
    /// First header pointer.
    pub pointer: u16,
    /// The control word, if the frame has one.
    pub control_word: Option<u32>,
    /// Frames of this channel that are missing before this one, modulo 256: 0 after exactly 256 lost frames too.
    pub gap: u8,
    /// Packets delivered by this call.
    pub delivered: u32,
    /// Idle packets that this call finished.
    pub idle: u32,
    /// A packet under way was given up.
    pub broken: bool,
    /// The pointer is not the one that the packet under way calls for.
    pub disagreement: bool,
    /// A packet header of another version ended the walk.
    pub foreign: bool,
    /// A packet of more than 4,096 octets began to be skipped.
    pub oversize: bool,
    output: &'a [u8],
}

impl<'a> Report<'a> {
    /// From the words of an accepted frame's answer.
    pub(crate) fn new(words: &[u32; READ_ANSWER], output: &'a [u8]) -> Report<'a> {
        let flag = |place: usize| words[place] != 0;
        Report {
            kind: match words[1] {
                2 => Kind::Idle,
                3 => Kind::Private,
                _ => Kind::Packets,
            },
            spacecraft: words[2] as u16,
            channel: words[3] as u8,
            control_word: flag(4).then_some(words[12]),
            master_count: MasterCount(words[5] as u8),
            channel_count: ChannelCount(words[6] as u8),
            secondary_header: flag(7),
            synchronisation: flag(8),
            order: flag(9),
            segment: words[10] as u8,
            pointer: words[11] as u16,
            gap: words[13] as u8,
            delivered: words[14],
            idle: words[15],
            broken: flag(16),
            disagreement: flag(17),
            foreign: flag(18),
            oversize: flag(19),
            output,
        }
    }

    /// The delivered packets, in order.
    pub fn packets(&self) -> Packets<'a> {
        Packets::new(self.output, self.delivered)
    }
}
