//! Two that answer the same calls, each on memory of its own.

use crate::boundary::{Boundary, ReadLent};
use crate::calls::{
    hex, octets_of, Checked, CloseCall, Closed, OpenCall, Opened, Read, ReadCall, WriteCall,
    Written, OUTPUT, PART, STORE,
};
use crate::lent::Lent;
use crate::random::Random;
use std::fmt::Write;

const ANSWER_ROOM: usize = 32;
const RECORD_ROOM: usize = 48;
const FRAME_ROOM: usize = 6_400;
const RUN_ROOM: usize = 66_000;
const BLANK: u32 = 0xA5A5_A5A5;

/// One's memory.
#[derive(Clone)]
struct Side {
    record: Lent<u32>,
    store: Lent<u8>,
    output: Lent<u8>,
    frame: Lent<u8>,
    answer: Lent<u32>,
}

impl Side {
    fn new(seed: u64) -> Side {
        let mut random = Random::new(seed);
        let mut octets = |room| {
            let shift = random.below(16);
            Lent::of_octets(room, shift, |all| random.fill(all))
        };
        let (store, output, frame) =
            (octets(STORE + 64), octets(OUTPUT + 2048), octets(FRAME_ROOM));
        let mut record = Lent::new(RECORD_ROOM, BLANK);
        record.put(0, &[0; 32]);
        Side { record, store, output, frame, answer: Lent::new(ANSWER_ROOM, BLANK) }
    }
}

pub struct Pair<'a> {
    left: &'a dyn Boundary,
    right: &'a dyn Boundary,
    a: Side,
    b: Side,
    /// Record, store and output as they were before the call.
    before: Side,
    run: [Lent<u8>; 2],
    pub calls: u64,
}

impl<'a> Pair<'a> {
    pub fn new(left: &'a dyn Boundary, right: &'a dyn Boundary, seed: u64) -> Pair<'a> {
        let side = Side::new(seed);
        let run = Lent::of_octets(RUN_ROOM, seed as usize % 16, |all| all.fill(0x3C));
        Pair {
            left,
            right,
            a: side.clone(),
            b: side.clone(),
            before: side,
            run: [run.clone(), run],
            calls: 0,
        }
    }

    /// Fresh record; the octets of store and output stay as they are.
    pub fn fresh(&mut self) {
        (0..8).for_each(|v| self.set_channel(v, [0; 4]));
    }

    pub fn channel(&self, v: usize) -> [u32; 4] {
        let words = self.before.record.look(32);
        [words[4 * v], words[4 * v + 1], words[4 * v + 2], words[4 * v + 3]]
    }

    pub fn set_channel(&mut self, v: usize, words: [u32; 4]) {
        for side in [&mut self.a, &mut self.b, &mut self.before] {
            side.record.put(4 * v, &words);
        }
    }

    /// The first octets of a channel's part.
    pub fn held(&self, v: usize, n: usize) -> Vec<u8> {
        self.before.store.look(STORE)[PART * v..PART * v + n].to_vec()
    }

    pub fn set_held(&mut self, v: usize, octets: &[u8]) {
        for side in [&mut self.a, &mut self.b, &mut self.before] {
            side.store.put(PART * v, octets);
        }
    }

    /// What the last accepted frame delivered stands at the beginning.
    pub fn output(&self) -> &[u8] {
        self.before.output.look(OUTPUT)
    }

    pub fn read(&mut self, call: &ReadCall) -> Checked<Read> {
        self.calls += 1;
        let mut numbers = [0; 2];
        self.before.frame.put(0, &call.frame);
        for (i, side) in [&mut self.a, &mut self.b].into_iter().enumerate() {
            side.frame.put(0, &call.frame);
            side.answer.lend(ANSWER_ROOM).fill(BLANK);
            let lent = ReadLent {
                record: side.record.lend(call.record_words),
                store: side.store.lend(call.store_octets),
                output: side.output.lend(call.output_octets),
                frame: side.frame.look(call.frame.len()),
                answer: side.answer.lend(call.answer_words),
            };
            numbers[i] = [self.left, self.right][i].read(call.set_up, lent);
        }
        let differs = self.read_differs(numbers).or_else(|| self.alters(call, numbers[0]));
        match differs {
            Some(what) => Err(self.told_read(call, &what)),
            None => Ok(self.take_read(call, numbers[0])),
        }
    }

    /// What an accepted frame altered that it must not: another channel, or octets that are neither held nor
    /// delivered. Both may do the same there, so the values before the call decide.
    fn alters(&self, call: &ReadCall, number: u32) -> Option<String> {
        if number != 0 || call.answer_words < 20 {
            return None;
        }
        let (a, before) = (&self.a, &self.before);
        let answer = a.answer.look(20);
        let v = answer[3] as usize;
        let words = &a.record.look(32)[4 * v..4 * v + 4];
        let held = if words[2] == 1 { words[3] as usize } else { 0 };
        let filled = octets_of(answer[14], a.output.look(OUTPUT));
        let found = [
            ("another channel's record", a.record.same_but(&before.record, 4 * v, 4)),
            ("the store besides the held octets", a.store.same_but(&before.store, PART * v, held)),
            ("the output after the packets", a.output.same_but(&before.output, 0, filled)),
        ];
        found.iter().find(|(_, same)| !same).map(|(name, _)| format!("{name} (both alike)"))
    }

    /// The first thing in which the two differ, or in which a refused call changed what it must not.
    fn read_differs(&self, numbers: [u32; 2]) -> Option<String> {
        if numbers[0] != numbers[1] {
            return Some(format!("the number: {} and {}", numbers[0], numbers[1]));
        }
        let (a, b, before) = (&self.a, &self.b, &self.before);
        let mut found = vec![
            ("the answer", a.answer.differs(&b.answer)),
            ("the record", a.record.differs(&b.record)),
            ("the store", a.store.differs(&b.store)),
            ("the output", a.output.differs(&b.output)),
            ("the frame, which is not to be written,", a.frame.differs(&before.frame)),
        ];
        if numbers[0] != 0 {
            found.push(("the record after a refusal", a.record.differs(&before.record)));
            found.push(("the store after a refusal", a.store.differs(&before.store)));
            found.push(("the output after a refusal", a.output.differs(&before.output)));
        }
        let first = found.into_iter().find_map(|(name, place)| Some((name, place?)));
        first.map(|(name, place)| format!("{name} at {place}"))
    }

    fn take_read(&mut self, call: &ReadCall, number: u32) -> Read {
        let whole = call.answer_words >= 20;
        let words: Option<[u32; 20]> =
            whole.then(|| self.a.answer.look(20).try_into().ok()).flatten();
        let v = words.map_or(0, |words| words[3] as usize);
        let before = self.channel(v);
        if number == 0 {
            self.before.record.copy_from(&self.a.record);
            self.before.store.copy_from(&self.a.store);
            self.before.output.copy_from(&self.a.output);
        }
        Read { number, words, before, after: self.channel(v) }
    }

    fn told_read(&self, call: &ReadCall, what: &str) -> String {
        let mut text = format!("a reading differs in {what}\n");
        let record = self.before.record.look(call.record_words);
        let _ = writeln!(text, "  set-up {:?}, record {record:?}", call.set_up);
        let _ = writeln!(
            text,
            "  store of {} octets, output of {}, answer of {} words",
            call.store_octets, call.output_octets, call.answer_words
        );
        for v in 0..8 {
            let [_, _, state, k] = self.channel(v);
            if state == 1 && k > 0 {
                let held = self.held(v, (k as usize).min(PART));
                let _ = writeln!(text, "  channel {v} holds {}", hex(&held));
            }
        }
        let _ = writeln!(text, "  frame of {} octets {}", call.frame.len(), hex(&call.frame));
        for (name, side) in [("left", &self.a), ("right", &self.b)] {
            let _ = writeln!(text, "  {name} answers {:?}", side.answer.look(call.answer_words));
            let _ =
                writeln!(text, "  {name} leaves record {:?}", side.record.look(call.record_words));
        }
        text
    }

    /// Lends this run to the writings that follow.
    pub fn set_run(&mut self, run: &[u8]) {
        self.run.iter_mut().for_each(|lent| lent.put(0, run));
    }

    pub fn write(&mut self, call: &WriteCall, run_octets: usize) -> Checked<Written> {
        self.calls += 1;
        let mut numbers = [0; 2];
        for (i, side) in [&mut self.a, &mut self.b].into_iter().enumerate() {
            side.answer.lend(ANSWER_ROOM).fill(BLANK);
            numbers[i] = [self.left, self.right][i].write(
                call.set_up,
                &call.numbers,
                self.run[i].look(run_octets),
                side.frame.lend(call.output_octets),
                side.answer.lend(call.answer_words),
            );
        }
        match self.write_differs(call, numbers) {
            Some(what) => Err(self.told_write(call, run_octets, &what)),
            None => Ok(self.take_write(call, numbers[0])),
        }
    }

    fn write_differs(&mut self, call: &WriteCall, numbers: [u32; 2]) -> Option<String> {
        if numbers[0] != numbers[1] {
            return Some(format!("the number: {} and {}", numbers[0], numbers[1]));
        }
        let mut found = vec![
            ("the answer", self.a.answer.differs(&self.b.answer)),
            ("the output", self.a.frame.differs(&self.b.frame)),
            ("the run, which is not to be written,", self.run[0].differs(&self.run[1])),
        ];
        if numbers[0] != 0 {
            found.push(("the output after a refusal", self.a.frame.differs(&self.before.frame)));
        } else {
            let n = call.output_octets;
            self.before.frame.put(0, self.a.frame.look(n));
        }
        let first = found.into_iter().find_map(|(name, place)| Some((name, place?)));
        first.map(|(name, place)| format!("{name} at {place}"))
    }

    fn take_write(&self, call: &WriteCall, number: u32) -> Written {
        let whole = call.answer_words >= 5;
        let words = whole.then(|| self.a.answer.look(5).try_into().ok()).flatten();
        Written { number, words, frame: self.a.frame.look(call.output_octets).to_vec() }
    }

    fn told_write(&self, call: &WriteCall, run_octets: usize, what: &str) -> String {
        let mut text = format!("a writing differs in {what}\n");
        let _ = writeln!(text, "  {call:?}");
        let _ =
            writeln!(text, "  run of {run_octets} octets {}", hex(self.run[1].look(run_octets)));
        for (name, side) in [("left", &self.a), ("right", &self.b)] {
            let _ = writeln!(text, "  {name} answers {:?}", side.answer.look(call.answer_words));
            let _ = writeln!(text, "  {name} writes {}", hex(side.frame.look(call.output_octets)));
        }
        text
    }

    pub fn open(&mut self, call: &OpenCall) -> Checked<Opened> {
        self.calls += 1;
        let mut numbers = [0; 2];
        let n = call.frame.len();
        self.before.frame.put(0, &call.frame);
        for (i, side) in [&mut self.a, &mut self.b].into_iter().enumerate() {
            side.frame.put(0, &call.frame);
            side.answer.lend(ANSWER_ROOM).fill(BLANK);
            let answer = side.answer.lend(call.answer_words);
            numbers[i] = [self.left, self.right][i].open(call.set_up, side.frame.look(n), answer);
        }
        let found = [
            ("the answer", self.a.answer.differs(&self.b.answer)),
            ("the frame, which is not to be written,", self.a.frame.differs(&self.before.frame)),
            ("the frame, which is not to be written,", self.b.frame.differs(&self.before.frame)),
        ];
        if let Some(what) = difference(numbers, found) {
            return Err(self.told_open(call, &what));
        }
        let whole = call.answer_words >= 14;
        let words = whole.then(|| self.a.answer.look(14).try_into().ok()).flatten();
        Ok(Opened { number: numbers[0], words })
    }

    fn told_open(&self, call: &OpenCall, what: &str) -> String {
        let mut text = format!("an opening differs in {what}\n");
        let _ = writeln!(text, "  set-up {:?}, frame {}", call.set_up, hex(&call.frame));
        for (name, side) in [("left", &self.a), ("right", &self.b)] {
            let _ = writeln!(text, "  {name} answers {:?}", side.answer.look(call.answer_words));
        }
        text
    }

    /// Lays octets into the output of the closing that follows.
    pub fn lay(&mut self, octets: &[u8]) {
        for side in [&mut self.a, &mut self.b, &mut self.before] {
            side.frame.put(0, octets);
        }
    }

    /// Closes over the octets that the output holds.
    pub fn close(&mut self, call: &CloseCall) -> Checked<Closed> {
        self.calls += 1;
        let mut numbers = [0; 2];
        for (i, side) in [&mut self.a, &mut self.b].into_iter().enumerate() {
            let output = side.frame.lend(call.output_octets);
            numbers[i] = [self.left, self.right][i].close(call.set_up, &call.numbers, output);
        }
        let refused = numbers[0] != 0;
        let changed = || refused.then(|| self.a.frame.differs(&self.before.frame)).flatten();
        let found = [
            ("the output", self.a.frame.differs(&self.b.frame)),
            ("the output after a refusal", changed()),
        ];
        if let Some(what) = difference(numbers, found) {
            return Err(self.told_close(call, &what));
        }
        let n = call.output_octets;
        let before = self.before.frame.look(n).to_vec();
        let after = self.a.frame.look(n).to_vec();
        self.before.frame.put(0, &after);
        Ok(Closed { number: numbers[0], before, after })
    }

    fn told_close(&self, call: &CloseCall, what: &str) -> String {
        let mut text = format!("a closing differs in {what}\n  {call:?}\n");
        let sides = [("before", &self.before), ("left", &self.a), ("right", &self.b)];
        for (name, side) in sides {
            let _ = writeln!(text, "  {name} {}", hex(side.frame.look(call.output_octets)));
        }
        text
    }

    pub fn busy(&mut self, words: &[u32], answer_words: usize) -> Checked<u32> {
        self.calls += 1;
        let mut masks = [0; 2];
        let mut record = Lent::new(words.len(), BLANK);
        record.put(0, words);
        let kept = record.clone();
        for (i, side) in [&mut self.a, &mut self.b].into_iter().enumerate() {
            side.answer.lend(ANSWER_ROOM).fill(BLANK);
            let answer = side.answer.lend(answer_words);
            masks[i] = [self.left, self.right][i].busy(record.look(words.len()), answer);
        }
        if masks[0] != masks[1] || self.a.answer != self.b.answer || record != kept {
            let answers = [self.a.answer.look(answer_words), self.b.answer.look(answer_words)];
            return Err(format!("busy differs: {masks:?} {answers:?}\n  record {words:?}\n"));
        }
        Ok(masks[0])
    }

    pub fn syndrome(&mut self, octets: &[u8]) -> Checked<u32> {
        self.calls += 1;
        let mut lent = Lent::new(octets.len(), 0x3C);
        lent.put(0, octets);
        let kept = lent.clone();
        let look = lent.look(octets.len());
        let (left, right) = (self.left.syndrome(look), self.right.syndrome(look));
        if left != right || lent != kept {
            return Err(format!("syndrome differs: {left} and {right} of {}\n", hex(octets)));
        }
        Ok(left)
    }
}

/// The first thing that differs, the numbers before all else.
fn difference<const N: usize>(
    numbers: [u32; 2],
    found: [(&str, Option<isize>); N],
) -> Option<String> {
    if numbers[0] != numbers[1] {
        return Some(format!("the number: {} and {}", numbers[0], numbers[1]));
    }
    let first = found.into_iter().find_map(|(name, place)| Some((name, place?)));
    first.map(|(name, place)| format!("{name} at {place}"))
}
