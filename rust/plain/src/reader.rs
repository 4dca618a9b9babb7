//! Reading one frame.

use crate::frame::{Frame, Header, Kind, NO_START};
use crate::packet::{is_idle, size, Size, LARGEST};
use crate::record::{Channel, Record, State, PART, STORE};
use crate::refusal::{refuse_if, Refusal};
use crate::set_up::SetUp;

/// The output's least length: a packet that was held and a whole frame.
pub const OUTPUT_LEAST: usize = 6144;

#[derive(Clone, Copy, Debug, Default, PartialEq, Eq)]
pub struct Counts {
    pub gap: u32,
    pub delivered: u32,
    pub idle: u32,
    pub broken: u32,
    pub disagreement: u32,
    pub foreign: u32,
    pub oversize: u32,
}

/// The answer for an accepted frame.
#[derive(Clone, Copy, Debug, PartialEq, Eq)]
pub struct Report {
    pub kind: Kind,
    pub header: Header,
    /// Zero if the frame has none.
    pub control_word: u32,
    pub counts: Counts,
}

/// Tests 1 to 3, of what is lent besides record and frame.
pub(crate) fn test_lent(set_up: &SetUp, store: &[u8], output: &[u8]) -> Result<(), Refusal> {
    set_up.test()?;
    refuse_if(store.len() != STORE, Refusal::Store)?;
    refuse_if(output.len() < OUTPUT_LEAST, Refusal::Output)
}

/// Reads one frame: record and store are those of the calls before, delivered packets stand end to end in
/// the output. A refused call changes nothing.
pub fn read(
    set_up: &SetUp,
    record: &mut Record,
    store: &mut [u8],
    output: &mut [u8],
    frame: &[u8],
) -> Result<Report, Refusal> {
    test_lent(set_up, store, output)?;
    refuse_if(!record.follows_rules(store), Refusal::Record)?;
    let frame = Frame::open(set_up, frame)?;
    let v = usize::from(frame.header.channel);
    let part = &mut store[PART * v..PART * (v + 1)];
    let mut call = Call { data: frame.data, part, output, filled: 0, counts: Counts::default() };
    call.run(&frame.header, &mut record.channels[v]);
    Ok(Report {
        kind: frame.header.kind(),
        header: frame.header,
        control_word: frame.control_word,
        counts: call.counts,
    })
}

/// An accepted frame's way through steps 1 to 5.
struct Call<'a> {
    data: &'a [u8],
    part: &'a mut [u8],
    output: &'a mut [u8],
    filled: usize,
    counts: Counts,
}

impl Call<'_> {
    fn run(&mut self, header: &Header, channel: &mut Channel) {
        if channel.heard {
            self.counts.gap = u32::from(header.channel_count.gap_after(channel.last));
        }
        channel.heard = true;
        channel.last = header.channel_count;
        if self.counts.gap != 0 || header.kind() != Kind::Packets {
            channel.state = self.break_off(channel.state);
        }
        if header.kind() == Kind::Packets {
            channel.state = self.take(channel.state, header.pointer);
        }
    }

    /// Hunting from now on; a packet that was under way is broken.
    fn break_off(&mut self, state: State) -> State {
        if state.is_busy() {
            self.counts.broken = 1;
        }
        State::Hunting
    }

    /// Steps 3 to 5.
    fn take(&mut self, mut state: State, pointer: u16) -> State {
        if state != State::Hunting && pointer != self.called_for(state) {
            self.counts.disagreement = 1;
            state = self.break_off(state);
        }
        match state {
            State::Hunting if pointer == NO_START => State::Hunting,
            State::Hunting => self.walk(usize::from(pointer)),
            State::Gathering(k) => self.gather(k as usize),
            State::Skipping(r) => self.skip(r as usize),
        }
    }

    /// The pointer that the packet under way calls for.
    fn called_for(&self, state: State) -> u16 {
        let end = match state {
            State::Hunting => None,
            State::Gathering(0) => Some(0),
            State::Gathering(k) => self.total_with(k as usize).map(|total| total - k as usize),
            State::Skipping(r) => Some(r as usize),
        };
        match end {
            Some(end) if end < self.data.len() => end as u16,
            _ => NO_START,
        }
    }

    /// The total of the packet of which k octets are held, if its header is whole by now.
    fn total_with(&self, k: usize) -> Option<usize> {
        let mut head = [0; 6];
        let seen = self.part[..k].iter().chain(self.data).take(6);
        let n = head.iter_mut().zip(seen).map(|(to, from)| *to = *from).count();
        match size(&head[..n]) {
            Size::Total(total) => Some(total),
            _ => None,
        }
    }

    /// Goes on with a packet of which k octets are held.
    fn gather(&mut self, k: usize) -> State {
        if k == 0 {
            return self.walk(0);
        }
        match self.total_with(k) {
            Some(total) if total > LARGEST => {
                self.counts.oversize = 1;
                State::Skipping((total - k - self.data.len()) as u32)
            }
            Some(total) if total - k <= self.data.len() => {
                self.finish_held(k, total - k);
                self.walk(total - k)
            }
            _ => self.hold(k, 0),
        }
    }

    fn skip(&mut self, r: usize) -> State {
        match r.checked_sub(self.data.len()) {
            Some(still) if still > 0 => State::Skipping(still as u32),
            _ => self.walk(r),
        }
    }

    /// From packet to packet, from a place where one starts.
    fn walk(&mut self, mut at: usize) -> State {
        let data = self.data;
        loop {
            let rest = &data[at..];
            match size(rest) {
                Size::Foreign => {
                    self.counts.foreign = 1;
                    break State::Hunting;
                }
                Size::Total(total) if total > LARGEST => {
                    self.counts.oversize = 1;
                    break State::Skipping((total - rest.len()) as u32);
                }
                Size::Total(total) if total <= rest.len() => {
                    self.finish(&rest[..total]);
                    at += total;
                }
                _ => break self.hold(0, at),
            }
        }
    }

    /// Adds the field's octets from a place on to the k that are held.
    fn hold(&mut self, k: usize, at: usize) -> State {
        let rest = &self.data[at..];
        self.part[k..k + rest.len()].copy_from_slice(rest);
        State::Gathering((k + rest.len()) as u32)
    }

    fn finish(&mut self, packet: &[u8]) {
        if is_idle(packet) {
            self.counts.idle += 1;
        } else {
            self.counts.delivered += 1;
            self.put(packet);
        }
    }

    /// A packet of k held octets and the field's first ones.
    fn finish_held(&mut self, k: usize, end: usize) {
        let mut first = self.part[..k].iter().chain(self.data).copied();
        let head = [first.next().unwrap_or(0), first.next().unwrap_or(0)];
        if is_idle(&head) {
            self.counts.idle += 1;
            return;
        }
        self.counts.delivered += 1;
        self.output[..k].copy_from_slice(&self.part[..k]);
        self.output[k..k + end].copy_from_slice(&self.data[..end]);
        self.filled = k + end;
    }

    fn put(&mut self, octets: &[u8]) {
        self.output[self.filled..self.filled + octets.len()].copy_from_slice(octets);
        self.filled += octets.len();
    }
}
