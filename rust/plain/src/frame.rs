//! A frame taken apart: tests 1 and 5 to 12.

use crate::check::syndrome;
use crate::counts::{ChannelCount, MasterCount};
use crate::refusal::{refuse_if, Refusal};
use crate::set_up::SetUp;

pub(crate) const HEADER: usize = 6;
pub(crate) const NO_START: u16 = 2047;
pub(crate) const IDLE_DATA: u16 = 2046;
pub(crate) const CONTROL_WORD: usize = 4;

#[derive(Clone, Copy, Debug, PartialEq, Eq)]
pub enum Kind {
    Packets = 1,
    Idle = 2,
    Private = 3,
}

#[derive(Clone, Copy, Debug, PartialEq, Eq)]
pub struct Header {
    pub version: u8,
    pub spacecraft: u16,
    pub channel: u8,
    pub control_word: bool,
    pub master_count: MasterCount,
    pub channel_count: ChannelCount,
    pub secondary_header: bool,
    pub synchronisation: bool,
    pub order: bool,
    pub segment: u8,
    pub pointer: u16,
}

impl Header {
    pub(crate) fn parse(octets: &[u8]) -> Header {
        let identification = u16::from_be_bytes([octets[0], octets[1]]);
        let status = u16::from_be_bytes([octets[4], octets[5]]);
        Header {
            version: (identification >> 14) as u8,
            spacecraft: identification >> 4 & 0x3FF,
            channel: (identification >> 1 & 7) as u8,
            control_word: identification & 1 == 1,
            master_count: MasterCount(octets[2]),
            channel_count: ChannelCount(octets[3]),
            secondary_header: status >> 15 & 1 == 1,
            synchronisation: status >> 14 & 1 == 1,
            order: status >> 13 & 1 == 1,
            segment: (status >> 11 & 3) as u8,
            pointer: status & 0x7FF,
        }
    }

    pub fn kind(&self) -> Kind {
        match (self.synchronisation, self.pointer) {
            (true, _) => Kind::Private,
            (false, IDLE_DATA) => Kind::Idle,
            (false, _) => Kind::Packets,
        }
    }

    fn control_octets(&self) -> usize {
        if self.control_word {
            CONTROL_WORD
        } else {
            0
        }
    }
}

/// A frame that passed its tests.
#[derive(Clone, Copy, Debug, PartialEq, Eq)]
pub struct Frame<'a> {
    pub header: Header,
    /// Where the data field starts.
    pub place: usize,
    pub data: &'a [u8],
    /// Zero if the frame has none.
    pub control_word: u32,
}

/// Opens one frame.
pub fn open<'a>(set_up: &SetUp, octets: &'a [u8]) -> Result<Frame<'a>, Refusal> {
    set_up.test()?;
    Frame::open(set_up, octets)
}

impl<'a> Frame<'a> {
    /// Tests 5 to 12, under a set-up that fits.
    pub(crate) fn open(set_up: &SetUp, octets: &'a [u8]) -> Result<Frame<'a>, Refusal> {
        refuse_if(octets.len() != set_up.octets(), Refusal::FrameLength)?;
        refuse_if(set_up.error_control && syndrome(octets) != 0, Refusal::Damaged)?;
        let header = Header::parse(octets);
        refuse_if(header.version != 0, Refusal::FrameVersion)?;
        refuse_if(u32::from(header.spacecraft) != set_up.spacecraft, Refusal::Spacecraft)?;
        let place = HEADER + secondary_octets(&header, octets)?;
        let after = octets.len() - set_up.check_octets() - header.control_octets();
        refuse_if(after <= place, Refusal::NoDataField)?;
        let data = &octets[place..after];
        test_packet_fields(&header, data.len())?;
        let control_word = match octets[after..] {
            [a, b, c, d, ..] if header.control_word => u32::from_be_bytes([a, b, c, d]),
            _ => 0,
        };
        Ok(Frame { header, place, data, control_word })
    }
}

/// s of the paper: 1 to 64, or 0 without the flag.
fn secondary_octets(header: &Header, octets: &[u8]) -> Result<usize, Refusal> {
    if !header.secondary_header {
        return Ok(0);
    }
    let first = octets[HEADER];
    refuse_if(first >> 6 != 0, Refusal::SecondaryHeader)?;
    Ok(usize::from(first & 0x3F) + 1)
}

/// Tests 11 and 12, which look at frames with synchronisation flag 0 alone.
fn test_packet_fields(header: &Header, d: usize) -> Result<(), Refusal> {
    if header.synchronisation {
        return Ok(());
    }
    refuse_if(header.order || header.segment != 3, Refusal::OrderOrSegment)?;
    let points = usize::from(header.pointer) < d || matches!(header.pointer, IDLE_DATA | NO_START);
    refuse_if(!points, Refusal::Pointer)
}
