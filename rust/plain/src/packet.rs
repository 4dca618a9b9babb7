//! What a packet's header tells.

/// The largest packet that is delivered.
pub const LARGEST: usize = 4096;

/// Application id of an idle packet.
const IDLE: u16 = 2047;

/// What the octets seen so far tell of a packet.
#[derive(Clone, Copy, Debug, PartialEq, Eq)]
pub enum Size {
    /// Too few octets to tell.
    Wait,
    /// A version other than 000.
    Foreign,
    /// The packet's octets, header included.
    Total(usize),
}

pub fn size(seen: &[u8]) -> Size {
    match *seen {
        [first, ..] if first >> 5 != 0 => Size::Foreign,
        [_, _, _, _, high, low, ..] => {
            Size::Total(usize::from(u16::from_be_bytes([high, low])) + 7)
        }
        _ => Size::Wait,
    }
}

/// Of a packet that has its header.
pub fn is_idle(packet: &[u8]) -> bool {
    u16::from_be_bytes([packet[0], packet[1]]) & 0x07FF == IDLE
}
