//! The comparison bites: each impostor is `plain` with one thing wrong, and is found out.

use trial::boundary::{Boundary, CloseNumbers, Plain, ReadLent, SetUpWords, WriteNumbers};
use trial::differ::{run, Plan};

/// What an impostor does wrong.
#[derive(Clone, Copy, Debug, PartialEq)]
enum Wrong {
    Nothing,
    /// Takes any syndrome for a pass.
    DamagedIsGood,
    /// Gives the number of the frame's length before that of the record.
    Order,
    /// Says "foreign" of nothing.
    InventedCount,
    /// Joins a held head to the next frame after a gap: never sees a gap.
    NoGap,
    /// Does not look at the rules of the record.
    AnyRecord,
    /// Changes an octet of the output on a refusal.
    TouchesOutput,
    /// Changes an octet of the store behind the held ones.
    TouchesStore,
    /// Changes the octet after the delivered packets.
    OctetAfter,
    /// Writes all words of a longer answer.
    LongAnswer,
    /// Another channel's words are packed anew, last count lost.
    OtherChannel,
    /// Returns the right number and leaves the answer as it was.
    NoAnswer,
    /// Points at the rest of a split header.
    WritesPointer,
    /// Takes one count for the other.
    SwapsCounts,
    /// Lets a left-over stand anywhere.
    LeftOver,
    /// Opens the data field at octet 6, secondary header or not.
    OpensAtSix,
    /// On a refused opening leaves the words after the number as they were.
    LeavesWords,
    /// Lets a pointer of more than 11 bits run over into the flags.
    PointerRunsOver,
    /// Writes a control word that was not asked for.
    WordUnasked,
    /// Calls a channel that skips 0 octets idle.
    Busy,
    /// Starts the register at zero when there are no octets.
    Syndrome,
}

use Wrong::*;

const ALL: [Wrong; 20] = [
    DamagedIsGood,
    Order,
    InventedCount,
    NoGap,
    AnyRecord,
    TouchesOutput,
    TouchesStore,
    OctetAfter,
    LongAnswer,
    OtherChannel,
    NoAnswer,
    WritesPointer,
    SwapsCounts,
    LeftOver,
    OpensAtSix,
    LeavesWords,
    PointerRunsOver,
    WordUnasked,
    Busy,
    Syndrome,
];

struct Impostor(Wrong);

impl Boundary for Impostor {
    fn read(&self, mut set_up: SetUpWords, lent: ReadLent) -> u32 {
        let ReadLent { record, store, output, frame, answer } = lent;
        let mut frame = frame.to_vec();
        match self.0 {
            DamagedIsGood if set_up[2] != 0 && frame.len() >= 2 => trial::make::mend(&mut frame),
            NoGap if frame.len() > 3 && record.len() == 32 && set_up[2] == 0 => {
                let v = usize::from(frame[1] >> 1 & 7);
                frame[3] = (record[4 * v + 1] as u8).wrapping_add(1);
            }
            AnyRecord if record.get(2) == Some(&2) && record.get(3) == Some(&0) => record[3] = 1,
            Order if frame.len() != set_up[0] as usize && record.len() != 32 => set_up[0] = 0,
            _ => {}
        }
        let words = answer.len();
        let (kept, frame) = (answer.to_vec(), frame.as_slice());
        let again = ReadLent { record, store, output, frame, answer };
        let number = Plain.read(set_up, again);
        match self.0 {
            InventedCount if number == 0 && words > 18 && frame[3] == 77 => answer[18] = 1,
            TouchesOutput if number != 0 && !output.is_empty() => output[0] ^= 1,
            TouchesStore if number == 0 => store[4095] ^= 1,
            OctetAfter if number == 0 && words > 14 && answer[14] == 0 => output[0] = 0,
            LongAnswer if words > 20 => answer[20] = 0,
            OtherChannel if number == 0 => record[1] = 0,
            NoAnswer => answer.copy_from_slice(&kept),
            _ => {}
        }
        number
    }

    fn write(
        &self,
        set_up: SetUpWords,
        given: &WriteNumbers,
        run: &[u8],
        output: &mut [u8],
        answer: &mut [u32],
    ) -> u32 {
        let mut numbers = *given;
        match self.0 {
            SwapsCounts => numbers.master_count = given.channel_count,
            LeftOver if given.left_over < 7 && given.offset != 0 => numbers.left_over = 0,
            _ => {}
        }
        let number = Plain.write(set_up, &numbers, run, output, answer);
        if self.0 == WritesPointer && number == 0 && given.left_over > 0 {
            output[5] = output[5].wrapping_sub(1);
        }
        number
    }

    fn open(&self, set_up: SetUpWords, frame: &[u8], answer: &mut [u32]) -> u32 {
        let kept = answer.to_vec();
        let number = Plain.open(set_up, frame, answer);
        match self.0 {
            OpensAtSix if number == 0 && answer.len() > 12 => answer[12] = 6,
            LeavesWords if number != 0 && !kept.is_empty() => {
                answer[1..].copy_from_slice(&kept[1..]);
            }
            _ => {}
        }
        number
    }

    fn close(&self, set_up: SetUpWords, given: &CloseNumbers, output: &mut [u8]) -> u32 {
        let mut numbers = *given;
        if self.0 == WordUnasked && given.word != 0 {
            numbers.has_word = 1;
        }
        let number = Plain.close(set_up, &numbers, output);
        if self.0 == PointerRunsOver && number == 0 && set_up[2] == 0 {
            output[4] |= (given.pointer >> 8) as u8;
        }
        number
    }

    fn busy(&self, record: &[u32], answer: &mut [u32]) -> u32 {
        let mut record = record.to_vec();
        if self.0 == Busy && record.len() >= 4 && record[2] == 2 && record[3] == 0 {
            record[2] = 0;
        }
        Plain.busy(&record, answer)
    }

    fn syndrome(&self, octets: &[u8]) -> u32 {
        if self.0 == Syndrome && octets.is_empty() {
            return 0;
        }
        Plain.syndrome(octets)
    }
}

fn difference(wrong: Wrong) -> Option<String> {
    let plan = Plan { calls: 30_000, ..Plan::default() };
    run(&Impostor(wrong), &Plain, &plan).difference
}

#[test]
fn plain_itself_is_no_impostor() {
    assert_eq!(difference(Nothing), None);
}

#[test]
fn every_impostor_is_found_out() {
    for wrong in ALL {
        let difference = difference(wrong);
        let told = difference.unwrap_or_else(|| panic!("{wrong:?} was not found out"));
        assert!(told.starts_with("seed 7, episode "), "{told}");
    }
}

/// Where both are wrong alike, the values before the call and the senders' own packets decide.
#[test]
fn two_of_the_same_kind_are_found_out() {
    let plan = Plan { calls: 60_000, ..Plan::default() };
    for wrong in [
        TouchesOutput,
        TouchesStore,
        OctetAfter,
        OtherChannel,
        NoGap,
        AnyRecord,
        WritesPointer,
        OpensAtSix,
        LeavesWords,
        PointerRunsOver,
        WordUnasked,
    ] {
        let outcome = run(&Impostor(wrong), &Impostor(wrong), &plan);
        assert!(outcome.difference.is_some(), "two of {wrong:?} were not found out");
    }
}

/// A difference tells what is needed to repeat it.
#[test]
fn a_difference_can_be_repeated() {
    let told = difference(TouchesStore).unwrap();
    assert!(told.contains("the store at 4095"), "{told}");
    let episode = told.split("episode ").nth(1).unwrap().split(',').next().unwrap();
    let plan = Plan { only: episode.parse().ok(), ..Plan::default() };
    assert_eq!(run(&Impostor(TouchesStore), &Plain, &plan).difference, Some(told));
}
