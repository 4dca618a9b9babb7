//! The record of eight channels, its rules, and the busy mask.

use crate::counts::ChannelCount;
use crate::packet::{size, Size, LARGEST};

pub const CHANNELS: usize = 8;
/// A channel's part of the store.
pub const PART: usize = LARGEST;
pub const STORE: usize = CHANNELS * PART;

const SKIP_MOST: u32 = 65_536;

#[derive(Clone, Copy, Debug, Default, PartialEq, Eq)]
pub enum State {
    #[default]
    Hunting,
    /// That many octets of a packet are held.
    Gathering(u32),
    /// That many octets of an oversize packet are still to come.
    Skipping(u32),
}

impl State {
    /// A packet is under way.
    pub fn is_busy(self) -> bool {
        match self {
            State::Hunting => false,
            State::Gathering(k) => k >= 1,
            State::Skipping(_) => true,
        }
    }
}

#[derive(Clone, Copy, Debug, Default, PartialEq, Eq)]
pub struct Channel {
    pub heard: bool,
    pub last: ChannelCount,
    pub state: State,
}

impl Channel {
    /// The rules of a channel's record, with its part of the store.
    fn follows_rules(&self, part: &[u8]) -> bool {
        match self.state {
            State::Hunting => true,
            _ if !self.heard => false,
            State::Gathering(k) => (k as usize) < PART && holds_a_beginning(&part[..k as usize]),
            State::Skipping(r) => (1..=SKIP_MOST).contains(&r),
        }
    }
}

/// Held octets are the beginning, and not the whole, of a packet that may be delivered.
fn holds_a_beginning(held: &[u8]) -> bool {
    match size(held) {
        Size::Wait => true,
        Size::Foreign => false,
        Size::Total(total) => held.len() < total && total <= LARGEST,
    }
}

/// All eight channels; the default is the fresh record.
#[derive(Clone, Debug, Default, PartialEq, Eq)]
pub struct Record {
    pub channels: [Channel; CHANNELS],
}

impl Record {
    /// Test 4, for a store of its length.
    pub(crate) fn follows_rules(&self, store: &[u8]) -> bool {
        self.channels
            .iter()
            .zip(store.chunks_exact(PART))
            .all(|(channel, part)| channel.follows_rules(part))
    }

    pub fn busy(&self) -> Busy {
        Busy::of(self.channels.iter().map(|channel| channel.state))
    }
}

/// Bit 2^v is set when channel v skips or holds at least one octet.
#[derive(Clone, Copy, Debug, PartialEq, Eq)]
pub struct Busy {
    pub mask: u8,
}

impl Busy {
    pub fn of(states: impl Iterator<Item = State>) -> Busy {
        let mask = states
            .take(CHANNELS)
            .enumerate()
            .filter(|(_, state)| state.is_busy())
            .fold(0, |mask, (v, _)| mask | 1 << v);
        Busy { mask }
    }

    pub fn ones(self) -> u32 {
        self.mask.count_ones()
    }

    /// The lowest busy channel, 8 if there is none.
    pub fn lowest(self) -> u32 {
        self.mask.trailing_zeros().min(8)
    }
}
