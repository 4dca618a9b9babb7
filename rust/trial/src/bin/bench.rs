//! Times the proved library beside the plain one, and its check also beside the bit loop that its table spares:
//! 10,000 frames of 1,115 octets, in one run. It asserts that they do the same, and nothing about time.
//!
//!     bench [--frames N] [--rounds N]

use std::hint::black_box;
use std::process::ExitCode;
use std::time::{Duration, Instant};
use trial::boundary::{Archive, Boundary, Plain, ReadLent, WriteNumbers};
use trial::calls::{OUTPUT, STORE};
use trial::make::packet;
use trial::random::Random;

const LENGTH: usize = 1115;
const SPACECRAFT: u32 = 171;
const RUN_MOST: usize = 65_536;

struct Size {
    frames: usize,
    rounds: usize,
}

/// One kind of traffic.
struct Case {
    name: &'static str,
    least: usize,
    most: usize,
    error_control: bool,
}

impl Case {
    fn set_up(&self) -> [u32; 3] {
        [LENGTH as u32, SPACECRAFT, u32::from(self.error_control)]
    }

    /// Runs of whole packets, each as long as a run may be, for that many frames.
    fn runs(&self, frames: usize) -> Vec<Vec<u8>> {
        let mut random = Random::new(self.most as u64);
        let mut runs = vec![Vec::new()];
        let mut sum = 0;
        while sum < frames * LENGTH {
            let octets = random.between(self.least, self.most);
            if runs[runs.len() - 1].len() + octets > RUN_MOST {
                runs.push(Vec::new());
            }
            let last = runs.len() - 1;
            runs[last].extend(packet(&mut random, octets));
            sum += octets;
        }
        runs
    }
}

const CASES: [Case; 4] = [
    Case { name: "short packets, no check", least: 20, most: 60, error_control: false },
    Case { name: "short packets, check", least: 20, most: 60, error_control: true },
    Case { name: "long packets, no check", least: 2000, most: 4096, error_control: false },
    Case { name: "long packets, check", least: 2000, most: 4096, error_control: true },
];

/// What a round did, to see that both did the same.
#[derive(Clone, Copy, Debug, Default, PartialEq)]
struct Done {
    delivered: u64,
    sum: u64,
}

/// Frames of one lap.
const LAP: usize = 100;

/// The time of each lap, so that the best of the rounds can be taken lap by lap: other work on the machine then
/// spoils a lap and not a round.
struct Clock {
    last: Instant,
    frames: usize,
    laps: Vec<Duration>,
}

impl Clock {
    fn start() -> Clock {
        Clock { last: Instant::now(), frames: 0, laps: Vec::new() }
    }

    fn frame(&mut self) {
        self.frames += 1;
        if self.frames.is_multiple_of(LAP) {
            let now = Instant::now();
            self.laps.push(now - self.last);
            self.last = now;
        }
    }

    /// The last lap may be shorter.
    fn stop(mut self) -> Vec<Duration> {
        self.laps.push(self.last.elapsed());
        self.laps
    }
}

/// Writes that many frames into one buffer; gives the time that the calls took.
fn write_all(
    with: &dyn Boundary,
    set_up: [u32; 3],
    runs: &[Vec<u8>],
    frames: &mut [u8],
) -> Vec<Duration> {
    let mut numbers = WriteNumbers {
        channel: 3,
        master_count: 0,
        channel_count: 0,
        has_word: 0,
        word: 0,
        offset: 0,
        left_over: 0,
    };
    let mut answer = [0; 5];
    let mut runs = runs.iter();
    let mut run = runs.next();
    let mut clock = Clock::start();
    for frame in frames.chunks_exact_mut(LENGTH) {
        let octets = run.map_or(&[][..], Vec::as_slice);
        let number = with.write(set_up, &numbers, octets, frame, &mut answer);
        assert_eq!(number, 0, "a writing by the rules was refused");
        let [_, offset, left_over, master, channel] = answer;
        numbers.offset = offset;
        numbers.left_over = left_over;
        (numbers.master_count, numbers.channel_count) = (master as u8, channel as u8);
        if offset as usize == octets.len() {
            run = runs.next();
            numbers.offset = 0;
        }
        clock.frame();
    }
    clock.stop()
}

/// Reads all frames from a fresh record; gives the time that the calls took.
fn read_all(with: &dyn Boundary, set_up: [u32; 3], frames: &[u8]) -> (Vec<Duration>, Done) {
    let (mut record, mut answer) = ([0; 32], [0; 20]);
    let (mut store, mut output) = (vec![0; STORE], vec![0; OUTPUT]);
    let mut done = Done::default();
    let mut clock = Clock::start();
    for frame in frames.chunks_exact(LENGTH) {
        let lent = ReadLent {
            record: &mut record,
            store: &mut store,
            output: &mut output,
            frame,
            answer: &mut answer,
        };
        let number = with.read(set_up, lent);
        assert_eq!(number, 0, "a written frame was refused");
        done.delivered += u64::from(answer[14]);
        done.sum = done.sum.wrapping_mul(31).wrapping_add(u64::from(output[6]));
        clock.frame();
    }
    (clock.stop(), done)
}

type Check = fn(&[u8]) -> u32;

/// The check without a table: a turn of the register for each bit.
fn bit_loop(octets: &[u8]) -> u32 {
    let mut register: u16 = 0xFFFF;
    for &octet in octets {
        register ^= u16::from(octet) << 8;
        for _ in 0..8 {
            register = if register < 0x8000 { register << 1 } else { (register << 1) ^ 0x1021 };
        }
    }
    u32::from(register)
}

fn check_all(check: Check, frames: &[u8]) -> Vec<Duration> {
    let mut clock = Clock::start();
    for frame in frames.chunks_exact(LENGTH) {
        black_box(check(frame));
        clock.frame();
    }
    clock.stop()
}

/// The library's check beside two others; false if one of them answers something else.
fn measure_check(size: &Size) -> bool {
    let octets = Random::new(1).octets(size.frames * LENGTH);
    let library: Check = |frame| Archive.syndrome(frame);
    let plain: Check = |frame| Plain.syndrome(frame);
    for (name, other) in [("the check, plain's table", plain), ("the check, bit loop", bit_loop)] {
        let times = best(size.rounds, [library, other], |check| check_all(check, &octets));
        row(name, size.frames, times);
    }
    octets.chunks_exact(LENGTH).all(|frame| {
        let syndrome = library(frame);
        syndrome == plain(frame) && syndrome == bit_loop(frame)
    })
}

const BOTH: [&dyn Boundary; 2] = [&Archive, &Plain];

/// The best of the rounds for each of the two, lap by lap, taken in turn.
fn best<T: Copy>(
    rounds: usize,
    both: [T; 2],
    mut round: impl FnMut(T) -> Vec<Duration>,
) -> [Duration; 2] {
    let mut laps = both.map(&mut round);
    for _ in 1..rounds {
        for (laps, with) in laps.iter_mut().zip(both) {
            laps.iter_mut().zip(round(with)).for_each(|(lap, again)| *lap = again.min(*lap));
        }
    }
    laps.map(|laps| laps.into_iter().sum())
}

fn row(name: &str, frames: usize, [library, other]: [Duration; 2]) {
    let micros = |time: Duration| time.as_secs_f64() * 1e6 / frames as f64;
    let megabits = |time: Duration| (8 * LENGTH) as f64 / micros(time);
    println!(
        "{name:<32} {:>9.3} {:>9.3} {:>7.2} {:>10.0} {:>10.0}",
        micros(library),
        micros(other),
        library.as_secs_f64() / other.as_secs_f64(),
        megabits(library),
        megabits(other),
    );
}

/// Both rows of a case; false if the two did not do the same.
fn measure(case: &Case, size: &Size) -> bool {
    let runs = case.runs(size.frames);
    let room = size.frames * LENGTH;
    let (mut left, mut right) = (vec![0; room], vec![0; room]);
    write_all(&Archive, case.set_up(), &runs, &mut left);
    write_all(&Plain, case.set_up(), &runs, &mut right);
    let same_reading =
        read_all(&Archive, case.set_up(), &left).1 == read_all(&Plain, case.set_up(), &right).1;
    let read = best(size.rounds, BOTH, |with| read_all(with, case.set_up(), &right).0);
    row(&format!("read,  {}", case.name), size.frames, read);
    let write = best(size.rounds, BOTH, |with| write_all(with, case.set_up(), &runs, &mut left));
    row(&format!("write, {}", case.name), size.frames, write);
    same_reading && left == right
}

fn size(mut arguments: impl Iterator<Item = String>) -> Option<Size> {
    let mut size = Size { frames: 10_000, rounds: 15 };
    while let Some(name) = arguments.next() {
        let number = arguments.next()?.parse().ok().filter(|&number| number > 0)?;
        match name.as_str() {
            "--frames" => size.frames = number,
            "--rounds" => size.rounds = number,
            _ => return None,
        }
    }
    Some(size)
}

fn main() -> ExitCode {
    let Some(size) = size(std::env::args().skip(1)) else {
        eprintln!("usage: bench [--frames N] [--rounds N]");
        return ExitCode::from(2);
    };
    let Size { frames, rounds } = size;
    println!("{frames} frames of {LENGTH} octets, best of {rounds} rounds for each {LAP} frames, one core");
    println!("{:<32} {:>19} {:>7} {:>21}", "", "microseconds/frame", "", "megabits/second");
    println!(
        "{:<32} {:>9} {:>9} {:>7} {:>10} {:>10}",
        "", "library", "other", "ratio", "library", "other"
    );
    let mut same = measure_check(&size);
    for case in &CASES {
        same &= measure(case, &size);
    }
    println!("other: plain, but for the bit loop that the library's table spares");
    println!("ratio: time of the library over time of the other; a writing walks its whole run of up to 65,536 octets");
    if !same {
        println!("they did not do the same");
        return ExitCode::FAILURE;
    }
    ExitCode::SUCCESS
}
