//! Packets and frames to order, right or wrong.

use crate::random::Random;
use plain::syndrome;

pub const IDLE: u16 = 2046;
pub const NONE: u16 = 2047;

/// A packet of 7 to 65,542 octets, once in six an idle one.
pub fn packet(random: &mut Random, octets: usize) -> Vec<u8> {
    let application = if random.once_in(6) { 2047 } else { random.below(2047) as u16 };
    let mut packet = random.octets(octets);
    let first = (u16::from(random.octet()) & 0x18) << 8 | application;
    packet[..2].copy_from_slice(&first.to_be_bytes());
    packet[4..6].copy_from_slice(&((octets - 7) as u16).to_be_bytes());
    packet
}

/// Octets of a packet for a sender with data fields of about d octets.
pub fn packet_octets(random: &mut Random, d: usize) -> usize {
    match random.below(100) {
        0..=34 => random.between(7, 20),
        35..=64 => random.between(7, 60),
        65..=84 => random.between(7, (3 * d).clamp(8, 4096)),
        85..=89 if d >= 64 => random.pick(&[4094, 4095, 4096, 4096, 4097, 4097, 4098]),
        90..=93 if d >= 64 => random.between(2000, 4096),
        94..=95 if d >= 800 => random.between(4097, 20_000),
        96 if d >= 800 => random.between(65_500, 65_542),
        97 if d >= 800 => random.pick(&[65_541, 65_542]),
        98 => random.between(4097, 4200),
        _ => 7,
    }
}

/// A frame by its fields.
#[derive(Clone, Debug)]
pub struct Frame {
    pub version: u16,
    pub spacecraft: u16,
    pub channel: u8,
    pub word: Option<u32>,
    pub master: u8,
    pub count: u8,
    /// All its octets, the first of which tells version and length.
    pub secondary: Option<Vec<u8>>,
    pub synchronisation: bool,
    pub order: bool,
    pub segment: u16,
    pub pointer: u16,
    pub data: Vec<u8>,
}

impl Frame {
    pub fn octets(&self, error_control: bool) -> Vec<u8> {
        let bit = |flag: bool, place: u32| u16::from(flag) << place;
        let identification = self.version << 14
            | (self.spacecraft & 0x3FF) << 4
            | u16::from(self.channel) << 1
            | bit(self.word.is_some(), 0);
        let status = bit(self.secondary.is_some(), 15)
            | bit(self.synchronisation, 14)
            | bit(self.order, 13)
            | self.segment << 11
            | self.pointer & 0x7FF;
        let mut octets = identification.to_be_bytes().to_vec();
        octets.extend([self.master, self.count]);
        octets.extend(status.to_be_bytes());
        octets.extend(self.secondary.iter().flatten());
        octets.extend(&self.data);
        octets.extend(self.word.iter().flat_map(|word| word.to_be_bytes()));
        if error_control {
            octets.extend(syndrome(&octets).to_be_bytes());
        }
        octets
    }
}

/// Puts the right error control field at the end of a frame that was altered.
pub fn mend(octets: &mut [u8]) {
    if let Some(message) = octets.len().checked_sub(2) {
        let field = syndrome(&octets[..message]).to_be_bytes();
        octets[message..].copy_from_slice(&field);
    }
}

/// What surrounds the data field of a frame, and the room that stays for it.
pub struct Shape {
    pub secondary: Option<Vec<u8>>,
    pub word: Option<u32>,
    pub d: usize,
}

/// A shape that leaves at least one octet of data in a frame of this length.
pub fn shape(random: &mut Random, length: usize, error_control: bool) -> Shape {
    let mut d = length - 6 - if error_control { 2 } else { 0 };
    let word = (d > 4 && random.once_in(3)).then(|| random.half());
    d -= if word.is_some() { 4 } else { 0 };
    let most = (d - 1).min(64);
    let wanted = most >= 1 && random.once_in(4);
    let s = if random.once_in(4) { most } else { random.between(1, most.clamp(1, 6)) };
    let secondary = wanted.then(|| {
        let mut octets = random.octets(s);
        octets[0] = s as u8 - 1;
        d -= s;
        octets
    });
    Shape { secondary, word, d }
}

/// A set-up that is within the ranges.
pub fn set_up(random: &mut Random) -> [u32; 3] {
    let length = match random.below(20) {
        0..=9 => random.between(13, 40),
        10..=14 => random.between(41, 200),
        15..=16 => random.between(201, 1114),
        17 => 1115,
        18 => random.between(1116, 2048),
        _ => random.pick(&[13, 14, 2047, 2048]),
    };
    let spacecraft =
        if random.once_in(8) { random.pick(&[0, 1, 512, 1023]) } else { random.below(1024) };
    let control = random.pick(&[0, 0, 0, 1, 1, 2, 0x8000_0000, u32::MAX]);
    [length as u32, spacecraft as u32, control]
}
