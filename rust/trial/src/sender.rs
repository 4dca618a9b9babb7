//! Senders of frames on one channel: by the paper's rules, or wild.

use crate::make::{packet, packet_octets, shape, Frame, Shape, IDLE, NONE};
use crate::random::Random;

/// A packet whose last octet lies in a frame.
#[derive(Clone, Debug)]
pub struct Ended {
    pub packet: Vec<u8>,
    /// Its first octet lies in the same frame.
    began_here: bool,
}

/// A frame on its way.
#[derive(Clone, Debug)]
pub struct Sent {
    pub frame: Frame,
    ended: Vec<Ended>,
    /// The packet that goes on after this frame began in it.
    began: bool,
}

/// What a frame that arrived must give.
#[derive(Clone, Debug, Default)]
pub struct Due {
    pub packets: Vec<u8>,
    pub delivered: u32,
    pub idle: u32,
    pub gap: u32,
}

#[derive(Clone, Debug)]
pub struct Sender {
    channel: u8,
    count: u8,
    /// Now and then it breaks the paper's rules.
    wild: bool,
    current: Vec<u8>,
    sent: usize,
    /// `current` is the tail of an earlier packet.
    tail: bool,
    /// Every octet of `current` that was sent lies in a frame that arrived.
    intact: bool,
    heard: bool,
    lost: u32,
}

impl Sender {
    pub fn new(random: &mut Random, channel: u8, wild: bool) -> Sender {
        let tail = random.below(40);
        Sender {
            channel,
            count: random.octet(),
            wild,
            current: random.octets(tail),
            sent: 0,
            tail: true,
            intact: false,
            heard: false,
            lost: 0,
        }
    }

    /// Octets of the packet under way.
    pub fn under_way(&self) -> usize {
        self.current.len()
    }

    /// Frames lost in a row since the last that arrived.
    pub fn lost(&self) -> u32 {
        self.lost
    }

    pub fn next(&mut self, random: &mut Random, set_up: [u32; 3], master: u8) -> Sent {
        let [length, spacecraft, control] = set_up;
        let Shape { secondary, word, d } = shape(random, length as usize, control != 0);
        let between = self.sent == self.current.len();
        let idle = (between && random.once_in(12)) || (self.wild && random.once_in(60));
        let mut frame = Frame {
            version: 0,
            spacecraft: spacecraft as u16,
            channel: self.channel,
            word,
            master,
            count: self.count,
            secondary,
            synchronisation: false,
            order: false,
            segment: 3,
            pointer: IDLE,
            data: Vec::new(),
        };
        self.count = self.count.wrapping_add(1);
        let (mut ended, mut began) = (Vec::new(), false);
        if idle {
            frame.data = if random.once_in(2) { vec![0x55; d] } else { random.octets(d) };
        } else {
            (frame.pointer, ended, began) = self.fill(random, d, &mut frame.data);
        }
        if self.wild {
            self.spoil(random, &mut frame);
        }
        Sent { frame, ended, began }
    }

    /// Lays d octets; gives the pointer, what ended, and whether the packet that goes on began here.
    fn fill(
        &mut self,
        random: &mut Random,
        d: usize,
        data: &mut Vec<u8>,
    ) -> (u16, Vec<Ended>, bool) {
        let (mut pointer, mut ended, mut began) = (NONE, Vec::new(), false);
        while data.len() < d {
            if self.sent == self.current.len() {
                if pointer == NONE {
                    pointer = data.len() as u16;
                }
                began = true;
                self.begin(random, d);
            }
            let n = (self.current.len() - self.sent).min(d - data.len());
            data.extend(&self.current[self.sent..self.sent + n]);
            self.sent += n;
            if self.sent == self.current.len() && !self.tail {
                ended.push(Ended { packet: self.current.clone(), began_here: began });
            }
        }
        (pointer, ended, began)
    }

    fn begin(&mut self, random: &mut Random, d: usize) {
        let octets = packet_octets(random, d);
        self.current = packet(random, octets);
        if self.wild && random.once_in(25) {
            self.current[0] |= random.pick(&[0x20, 0x40, 0x80, 0xE0]);
        }
        self.sent = 0;
        self.tail = false;
    }

    /// What no sender by the paper's rules does.
    fn spoil(&mut self, random: &mut Random, frame: &mut Frame) {
        match random.below(60) {
            0 => frame.pointer = NONE,
            1 => frame.pointer = (frame.pointer + 1) % 2048,
            2 => frame.pointer = random.below(frame.data.len()) as u16,
            3 => frame.pointer = frame.pointer.saturating_sub(1),
            4 | 5 => {
                frame.synchronisation = true;
                frame.order = random.once_in(2);
                frame.segment = random.below(4) as u16;
                frame.pointer = random.pick(&[0, IDLE, NONE, frame.data.len() as u16, 2045]);
            }
            6 => self.count = self.count.wrapping_add(random.octet()),
            7 => self.count = self.count.wrapping_sub(1),
            8 => self.sent = self.current.len(),
            _ => {}
        }
    }

    /// The frame arrived: what is due in this call.
    pub fn arrived(&mut self, sent: &Sent) -> Due {
        let mut due = Due { gap: if self.heard { self.lost } else { 0 }, ..Due::default() };
        for ended in &sent.ended {
            let whole = ended.began_here || self.intact;
            if !whole || ended.packet.len() > 4096 {
                continue;
            }
            if ended.packet[0] & 7 == 7 && ended.packet[1] == 255 {
                due.idle += 1;
            } else {
                due.delivered += 1;
                due.packets.extend(&ended.packet);
            }
        }
        self.intact = sent.began || self.intact;
        (self.heard, self.lost) = (true, 0);
        due
    }

    pub fn was_lost(&mut self, sent: &Sent) {
        if !sent.frame.data.is_empty() && sent.frame.pointer != IDLE {
            self.intact = false;
        }
        self.lost += 1;
    }
}
