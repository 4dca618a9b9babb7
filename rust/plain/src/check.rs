//! Error control: X^16 + X^12 + X^5 + 1, register preset to ones.

const GENERATOR: u16 = 0x1021;

const TABLE: [u16; 256] = table();

const fn table() -> [u16; 256] {
    let mut table = [0; 256];
    let mut octet = 0;
    while octet < 256 {
        table[octet] = shifted(octet as u16);
        octet += 1;
    }
    table
}

/// The register after eight steps with this octet at its top and zeros below.
const fn shifted(octet: u16) -> u16 {
    let mut register = octet << 8;
    let mut bit = 0;
    while bit < 8 {
        let carry = register & 0x8000 != 0;
        register <<= 1;
        if carry {
            register ^= GENERATOR;
        }
        bit += 1;
    }
    register
}

/// The syndrome of these octets; that of a message is its error control field.
pub fn syndrome(octets: &[u8]) -> u16 {
    octets.iter().fold(0xFFFF, |register, &octet| {
        (register << 8) ^ TABLE[usize::from((register >> 8) as u8 ^ octet)]
    })
}

#[cfg(test)]
mod tests {
    use super::*;

    /// Long division of the message's bits, followed by sixteen zeros, the first sixteen bits turned over.
    fn divided(octets: &[u8]) -> u16 {
        let mut bits: Vec<bool> = octets
            .iter()
            .flat_map(|octet| (0..8).rev().map(move |i| octet >> i & 1 == 1))
            .collect();
        let n = bits.len();
        bits.resize(n + 16, false);
        bits[..16].iter_mut().for_each(|bit| *bit = !*bit);
        for i in 0..n {
            if bits[i] {
                for place in [0, 4, 11, 16] {
                    bits[i + place] = !bits[i + place];
                }
            }
        }
        bits[n..].iter().fold(0, |r, &bit| r << 1 | u16::from(bit))
    }

    #[test]
    fn published_values() {
        assert_eq!(syndrome(b""), 0xFFFF);
        assert_eq!(syndrome(b"123456789"), 0x29B1);
        assert_eq!(syndrome(&[0, 0]), 0x1D0F);
        assert_eq!(syndrome(&[0, 0, 0]), 0xCC9C);
        assert_eq!(syndrome(&[0xAB, 0xCD, 0xEF, 0x01]), 0x04A2);
        assert_eq!(syndrome(&[0x14, 0x56, 0xF8, 0x9A, 0x00, 0x01]), 0x7FD5);
    }

    #[test]
    fn table_is_long_division() {
        for a in 0..=255 {
            assert_eq!(syndrome(&[a]), divided(&[a]));
            assert_eq!(syndrome(&[a, 3, a ^ 0x5A, 77]), divided(&[a, 3, a ^ 0x5A, 77]));
        }
    }

    #[test]
    fn message_with_its_own_field_is_good() {
        let mut message = b"any message at all".to_vec();
        let field = syndrome(&message);
        message.extend(field.to_be_bytes());
        assert_eq!(syndrome(&message), 0);
        message[3] ^= 0x10;
        assert_ne!(syndrome(&message), 0);
    }
}
