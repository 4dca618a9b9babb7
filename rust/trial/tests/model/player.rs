//! Plays a script of `tests/model.py` over the boundary. Lines about parts that the boundary does not show print
//! nothing.

use trial::boundary::{Boundary, CloseNumbers, ReadLent, WriteNumbers};
use trial::calls::{hex, PART};

const STORE_ROOM: usize = 32_769;
const OUTPUT_ROOM: usize = 8_192;
const BLANK: u8 = 0xEE;
const STATES: [&str; 3] = ["hunting", "gathering", "skipping"];

pub struct Script<'a> {
    with: &'a dyn Boundary,
    record: [u32; 32],
    store: Vec<u8>,
    lent: [usize; 2],
    run: Vec<u8>,
    written: Vec<u8>,
    set_up: [u32; 3],
    numbers: WriteNumbers,
    lent_frame: usize,
}

/// The arguments of a line: numbers, then octets.
struct Words<'a>(std::str::SplitWhitespace<'a>);

impl Words<'_> {
    fn number(&mut self) -> u32 {
        self.0.next().unwrap().parse().unwrap()
    }

    fn numbers<const N: usize>(&mut self) -> [u32; N] {
        [0; N].map(|_| self.number())
    }

    /// Hex digits in pairs; *N has the octet before it stand N times in all.
    fn octets(&mut self) -> Vec<u8> {
        let mut octets: Vec<u8> = Vec::new();
        for word in self.0.by_ref() {
            if let Some(times) = word.strip_prefix('*') {
                let last = octets[octets.len() - 1];
                octets.resize(octets.len() - 1 + times.parse::<usize>().unwrap(), last);
            } else {
                let pairs = (0..word.len()).step_by(2).map(|at| &word[at..at + 2]);
                octets.extend(pairs.map(|pair| u8::from_str_radix(pair, 16).unwrap()));
            }
        }
        octets
    }
}

/// As the model spells octets.
fn spelt(octets: &[u8]) -> String {
    match octets.len() {
        0 => "-".to_string(),
        1..=64 => hex(octets),
        n => {
            let check = plain::syndrome(octets);
            format!("{}~{}~{n}~{check:04X}", hex(&octets[..40]), hex(&octets[n - 16..]))
        }
    }
}

const READ_NAMES: [&str; 20] = [
    "number",
    "kind",
    "spacecraft",
    "channel",
    "flagged",
    "master",
    "count",
    "secondary",
    "synchronisation",
    "order",
    "segment",
    "pointer",
    "word",
    "gap",
    "delivered",
    "idle",
    "broken",
    "disagreement",
    "foreign",
    "oversize",
];

/// Of an opening: the ten header values and the word as in a reading, then place and size of the data field.
const OPEN_NAMES: [&str; 2] = ["place", "size"];

impl<'a> Script<'a> {
    pub fn new(with: &'a dyn Boundary) -> Script<'a> {
        let numbers = WriteNumbers {
            channel: 0,
            master_count: 0,
            channel_count: 0,
            has_word: 0,
            word: 0,
            offset: 0,
            left_over: 0,
        };
        Script {
            with,
            record: [0; 32],
            store: vec![0; STORE_ROOM],
            lent: [32_768, 6_144],
            run: Vec::new(),
            written: Vec::new(),
            set_up: [0; 3],
            numbers,
            lent_frame: 0,
        }
    }

    /// What a line prints; nothing for one that only sets something, or that the boundary does not show.
    pub fn line(&mut self, text: &str) -> Option<String> {
        let mut words = Words(text.split_whitespace());
        let name = words.0.next()?;
        match name {
            "crc" => {
                let octets = words.octets();
                Some(format!("crc syndrome={:04x}", self.with.syndrome(&octets)))
            }
            "read" => {
                let set_up = words.numbers();
                let frame = words.octets();
                Some(self.read("read", set_up, &frame))
            }
            "back" => {
                let frame = self.written.clone();
                Some(self.read("back", self.set_up, &frame))
            }
            "open" => {
                let set_up = words.numbers();
                let frame = words.octets();
                Some(self.open(set_up, &frame))
            }
            "close" => Some(self.close(&mut words)),
            "busy" => Some(self.busy()),
            "write" => Some(self.write(&mut words)),
            "again" => Some(self.next_frame("again", words.numbers())),
            _ => {
                self.set(name, &mut words);
                None
            }
        }
    }

    fn set(&mut self, name: &str, words: &mut Words) {
        match name {
            "fresh" => {
                let kept = Script::new(self.with);
                (self.record, self.store, self.lent) = (kept.record, kept.store, kept.lent);
            }
            "paint" => {
                let octet = words.number() as u8;
                self.store.fill(octet);
            }
            "lend" => self.lent = words.numbers::<2>().map(|n| n as usize),
            "channel" => {
                let [v, heard, last, state, size] = words.numbers();
                let number = if state == 0 { 0 } else { size };
                let at = 4 * v as usize;
                let channel = [u32::from(heard != 0), last, state, number];
                self.record[at..at + 4].copy_from_slice(&channel);
            }
            "hold" => {
                let at = PART * words.number() as usize;
                let octets = words.octets();
                self.store[at..at + octets.len()].copy_from_slice(&octets);
            }
            "run" => self.run = words.octets(),
            "runfill" => self.fill_run(words.numbers()),
            _ => {}
        }
    }

    /// Packets of application 1, numbered in order; a body octet is its place in the run modulo 256.
    fn fill_run(&mut self, [total, count]: [u32; 2]) {
        self.run.clear();
        for i in 0..count {
            self.run.extend([0, 1]);
            self.run.extend((0xC000 | (i % 16_384) as u16).to_be_bytes());
            self.run.extend(((total - 7) as u16).to_be_bytes());
            let at = self.run.len();
            self.run.extend((0..total as usize - 6).map(|j| (at + j) as u8));
        }
    }

    fn read(&mut self, name: &str, set_up: [u32; 3], frame: &[u8]) -> String {
        let (record, store) = (self.record, self.store.clone());
        let mut output = vec![BLANK; OUTPUT_ROOM];
        let mut answer = [9; 20];
        let lent = ReadLent {
            record: &mut self.record,
            store: &mut self.store[..self.lent[0]],
            output: &mut output[..self.lent[1]],
            frame,
            answer: &mut answer,
        };
        let number = self.with.read(set_up, lent);
        assert_eq!(number, answer[0]);
        let end = output.iter().rposition(|&octet| octet != BLANK).map_or(0, |last| last + 1);
        let mut line = name.to_string();
        for (name, word) in READ_NAMES.iter().zip(answer) {
            line += &format!(" {name}={word}");
        }
        line += &format!(" octets={}", spelt(&output[..end]));
        let accepted = (number == 0).then_some(answer[3] as usize);
        self.told(line, accepted, &record, &store)
    }

    /// The channel's state after an accepted frame, and what changed that must not.
    fn told(&self, mut line: String, v: Option<usize>, record: &[u32; 32], store: &[u8]) -> String {
        let mut held = 0..0;
        if let Some(v) = v {
            let words = &self.record[4 * v..4 * v + 4];
            let k = if words[2] == 1 { words[3] as usize } else { 0 };
            held = PART * v..PART * v + k;
            let state = STATES[words[2] as usize];
            line +=
                &format!(" heard={} last={} state={state} size={}", words[0], words[1], words[3]);
            line += &format!(" held={}", spelt(&self.store[held.clone()]));
        }
        let other =
            |w: &usize| Some(*w) != v && record[4 * w..4 * w + 4] != self.record[4 * w..4 * w + 4];
        let others = (0..8).filter(other).count();
        let stray = |i: &usize| self.store[*i] != store[*i] && !held.contains(i);
        let strays = (0..STORE_ROOM).filter(stray).count();
        line + &format!(" others={others} strays={strays}")
    }

    fn open(&self, set_up: [u32; 3], frame: &[u8]) -> String {
        let mut answer = [9; 14];
        let number = self.with.open(set_up, frame, &mut answer);
        assert_eq!(number, answer[0]);
        let names = READ_NAMES[..1].iter().chain(&READ_NAMES[2..13]).chain(&OPEN_NAMES);
        names
            .zip(answer)
            .fold("open".to_string(), |line, (name, word)| line + &format!(" {name}={word}"))
    }

    fn close(&self, words: &mut Words) -> String {
        let set_up = words.numbers();
        let [channel, master, count, has_word, word, pointer] = words.numbers();
        let numbers = CloseNumbers {
            channel,
            master_count: master as u8,
            channel_count: count as u8,
            has_word,
            word,
            pointer,
        };
        let mut output = words.octets();
        let number = self.with.close(set_up, &numbers, &mut output);
        format!("close number={number} output={}", spelt(&output))
    }

    fn busy(&self) -> String {
        let mut answer = [9; 3];
        let mask = self.with.busy(&self.record, &mut answer);
        assert_eq!(mask, answer[0]);
        format!("busy mask={} ones={} lowest={}", answer[0], answer[1], answer[2])
    }

    fn write(&mut self, words: &mut Words) -> String {
        self.set_up = words.numbers();
        let [channel, master, count, has_word, word, offset, left_over, lent] = words.numbers();
        self.numbers.channel = channel;
        (self.numbers.master_count, self.numbers.channel_count) = (master as u8, count as u8);
        (self.numbers.offset, self.numbers.left_over) = (offset, left_over);
        self.lent_frame = lent as usize;
        self.next_frame("write", [has_word, word])
    }

    fn next_frame(&mut self, name: &str, [has_word, word]: [u32; 2]) -> String {
        (self.numbers.has_word, self.numbers.word) = (has_word, word);
        self.written = vec![BLANK; self.lent_frame];
        let mut answer = [9; 5];
        let output = &mut self.written;
        let number = self.with.write(self.set_up, &self.numbers, &self.run, output, &mut answer);
        let [told, offset, left, master, count] = answer;
        assert_eq!(number, told);
        (self.numbers.offset, self.numbers.left_over) = (offset, left);
        (self.numbers.master_count, self.numbers.channel_count) = (master as u8, count as u8);
        let place = format!("offset={offset} left={left} master={master} count={count}");
        format!("{name} number={number} {place} output={}", spelt(&self.written))
    }
}
