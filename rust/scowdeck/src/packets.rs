//! The delivered packets of one call.

use std::iter::FusedIterator;

const HEADER: usize = 6;

/// Iterates over delivered packets, header included, in order. Each one's length is that of its own header.
#[derive(Clone, Debug)]
pub struct Packets<'a> {
    octets: &'a [u8],
    left: usize,
}

impl<'a> Packets<'a> {
    /// That many packets, which stand end to end at the beginning of these octets.
    pub(crate) fn new(octets: &'a [u8], delivered: u32) -> Packets<'a> {
        Packets { octets, left: delivered as usize }
    }
}

impl<'a> Iterator for Packets<'a> {
    type Item = &'a [u8];

    fn next(&mut self) -> Option<&'a [u8]> {
        self.left = self.left.checked_sub(1)?;
        let &[.., high, low] = self.octets.first_chunk::<HEADER>()?;
        let total = usize::from(u16::from_be_bytes([high, low])) + HEADER + 1;
        let (packet, rest) = self.octets.split_at_checked(total)?;
        self.octets = rest;
        Some(packet)
    }

    fn size_hint(&self) -> (usize, Option<usize>) {
        (self.left, Some(self.left))
    }
}

impl ExactSizeIterator for Packets<'_> {}

impl FusedIterator for Packets<'_> {}

#[cfg(test)]
mod tests {
    use super::*;

    #[test]
    fn cuts_by_the_headers() {
        let octets = [0, 1, 2, 3, 0, 0, 9, 0, 1, 2, 3, 0, 1, 8, 8, 0xEE];
        let mut packets = Packets::new(&octets, 2);
        assert_eq!(packets.len(), 2);
        assert_eq!(packets.next(), Some(&octets[..7]));
        assert_eq!(packets.next(), Some(&octets[7..15]));
        assert_eq!((packets.next(), packets.next()), (None, None));
        assert_eq!(Packets::new(&octets, 0).next(), None);
    }
}
