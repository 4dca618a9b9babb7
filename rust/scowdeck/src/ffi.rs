//! The six functions of `include/scowdeck.h` over slices: the one place with `unsafe`.
//!
//! All six are safe for any numbers and any slices. Prefer [`crate::Desk`]: here nothing keeps a record with
//! its store.
//!
//! Why each call is sound: every pointer comes from a slice and goes with that slice's length, so it is
//! aligned and valid for that many elements (an empty slice's pointer is never followed); `&mut` slices
//! overlap nothing, and a `*const` is only read; no pointer is kept after the call; no function unwinds.

#![allow(unsafe_code)]

extern "C" {
    fn scowdeck_read(
        length: u32,
        spacecraft: u32,
        error_control: u32,
        record: *mut u32,
        record_words: usize,
        store: *mut u8,
        store_octets: usize,
        output: *mut u8,
        output_octets: usize,
        frame: *const u8,
        frame_octets: usize,
        answer: *mut u32,
        answer_words: usize,
    ) -> u32;
    fn scowdeck_write(
        length: u32,
        spacecraft: u32,
        error_control: u32,
        channel: u32,
        master_count: u8,
        channel_count: u8,
        has_word: u32,
        word: u32,
        run: *const u8,
        run_octets: usize,
        offset: u32,
        left_over: u32,
        output: *mut u8,
        output_octets: usize,
        answer: *mut u32,
        answer_words: usize,
    ) -> u32;
    fn scowdeck_busy(
        record: *const u32,
        record_words: usize,
        answer: *mut u32,
        answer_words: usize,
    ) -> u32;
    fn scowdeck_open(
        length: u32,
        spacecraft: u32,
        error_control: u32,
        frame: *const u8,
        frame_octets: usize,
        answer: *mut u32,
        answer_words: usize,
    ) -> u32;
    fn scowdeck_close(
        length: u32,
        spacecraft: u32,
        error_control: u32,
        channel: u32,
        master_count: u8,
        channel_count: u8,
        has_word: u32,
        word: u32,
        pointer: u32,
        output: *mut u8,
        output_octets: usize,
    ) -> u32;
    fn scowdeck_syndrome(octets: *const u8, count: usize) -> u32;
}

/// Words of a record, four for each channel.
pub const RECORD: usize = 32;
/// Octets of the store.
pub const STORE: usize = 32_768;
/// Least octets of the output.
pub const OUTPUT: usize = 6_144;
/// Words of the answer of a reading.
pub const READ_ANSWER: usize = 20;
/// Words of the answer of a writing.
pub const WRITE_ANSWER: usize = 5;
/// Words of the answer about busy channels.
pub const BUSY_ANSWER: usize = 3;
/// Words of the answer of an opening.
pub const OPEN_ANSWER: usize = 14;

/// `scowdeck_read`: reads one frame, gives the paper's number, 0 when accepted.
#[allow(clippy::too_many_arguments)] // the boundary's own parameters
pub fn read(
    length: u32,
    spacecraft: u32,
    error_control: u32,
    record: &mut [u32],
    store: &mut [u8],
    output: &mut [u8],
    frame: &[u8],
    answer: &mut [u32],
) -> u32 {
    // Sound: four `&mut` slices and a shared one, each with its own length, none overlapping another.
    unsafe {
        scowdeck_read(
            length,
            spacecraft,
            error_control,
            record.as_mut_ptr(),
            record.len(),
            store.as_mut_ptr(),
            store.len(),
            output.as_mut_ptr(),
            output.len(),
            frame.as_ptr(),
            frame.len(),
            answer.as_mut_ptr(),
            answer.len(),
        )
    }
}

/// `scowdeck_write`: writes one frame, gives the paper's number, 0 when accepted.
#[allow(clippy::too_many_arguments)] // the boundary's own parameters
pub fn write(
    length: u32,
    spacecraft: u32,
    error_control: u32,
    channel: u32,
    master_count: u8,
    channel_count: u8,
    has_word: u32,
    word: u32,
    run: &[u8],
    offset: u32,
    left_over: u32,
    output: &mut [u8],
    answer: &mut [u32],
) -> u32 {
    // Sound: two `&mut` slices and a shared one, each with its own length, none overlapping another.
    unsafe {
        scowdeck_write(
            length,
            spacecraft,
            error_control,
            channel,
            master_count,
            channel_count,
            has_word,
            word,
            run.as_ptr(),
            run.len(),
            offset,
            left_over,
            output.as_mut_ptr(),
            output.len(),
            answer.as_mut_ptr(),
            answer.len(),
        )
    }
}

/// `scowdeck_busy`: gives the mask of busy channels.
pub fn busy(record: &[u32], answer: &mut [u32]) -> u32 {
    // Sound: a shared slice that is only read, and a `&mut` one that does not overlap it.
    unsafe { scowdeck_busy(record.as_ptr(), record.len(), answer.as_mut_ptr(), answer.len()) }
}

/// `scowdeck_open`: opens one frame, gives the paper's number, 0 when opened.
pub fn open(
    length: u32,
    spacecraft: u32,
    error_control: u32,
    frame: &[u8],
    answer: &mut [u32],
) -> u32 {
    // Sound: a shared slice that is only read, and a `&mut` one that does not overlap it.
    unsafe {
        scowdeck_open(
            length,
            spacecraft,
            error_control,
            frame.as_ptr(),
            frame.len(),
            answer.as_mut_ptr(),
            answer.len(),
        )
    }
}

/// `scowdeck_close`: closes one frame over the data field that lies in the output, gives the paper's number, 0
/// when closed.
#[allow(clippy::too_many_arguments)] // the boundary's own parameters
pub fn close(
    length: u32,
    spacecraft: u32,
    error_control: u32,
    channel: u32,
    master_count: u8,
    channel_count: u8,
    has_word: u32,
    word: u32,
    pointer: u32,
    output: &mut [u8],
) -> u32 {
    // Sound: one `&mut` slice with its own length.
    unsafe {
        scowdeck_close(
            length,
            spacecraft,
            error_control,
            channel,
            master_count,
            channel_count,
            has_word,
            word,
            pointer,
            output.as_mut_ptr(),
            output.len(),
        )
    }
}

/// `scowdeck_syndrome`: gives the syndrome, 16 bits.
pub fn syndrome(octets: &[u8]) -> u32 {
    // Sound: one shared slice that is only read.
    unsafe { scowdeck_syndrome(octets.as_ptr(), octets.len()) }
}

#[cfg(test)]
mod tests {
    use super::*;
    use std::ptr::{null, null_mut};

    /// The header allows NULL with length 0 wherever a slice goes in.
    #[test]
    fn null_with_length_zero() {
        let (words, octets) = (null_mut::<u32>(), null_mut::<u8>());
        // Sound: each NULL goes with length 0, which the header allows.
        unsafe {
            let read = |length| {
                scowdeck_read(length, 0, 0, words, 0, octets, 0, octets, 0, null(), 0, words, 0)
            };
            assert_eq!((read(12), read(13)), (1, 2));
            let write = |channel| {
                let run = null();
                scowdeck_write(13, 0, 0, channel, 0, 0, 0, 0, run, 0, 0, 0, octets, 0, words, 0)
            };
            assert_eq!((write(8), write(7)), (20, 25));
            let open = |length| scowdeck_open(length, 0, 0, null(), 0, words, 0);
            assert_eq!((open(12), open(13)), (1, 5));
            let close = |channel| scowdeck_close(13, 0, 0, channel, 0, 0, 0, 0, 0, octets, 0);
            assert_eq!((close(8), close(7)), (20, 25));
            assert_eq!(scowdeck_busy(null(), 0, words, 0), 0);
            assert_eq!(scowdeck_syndrome(null(), 0), 0xFFFF);
        }
    }

    #[test]
    fn nothing_but_the_answer_is_written_on_a_refusal() {
        let (mut record, mut answer) = ([7; RECORD], [9; READ_ANSWER + 1]);
        let (mut store, mut output) = (vec![7; STORE], vec![7; OUTPUT]);
        let number = read(20, 171, 0, &mut record, &mut store, &mut output, &[], &mut answer);
        assert_eq!((number, answer[0], answer[20]), (4, 4, 9));
        assert!(answer[1..20].iter().all(|&word| word == 0));
        assert!(record.iter().all(|&word| word == 7));
        assert!(store.iter().chain(&output).all(|&octet| octet == 7));
        let number = open(20, 171, 0, &[], &mut answer);
        assert_eq!((number, answer[0], answer[14], answer[20]), (5, 5, 0, 9));
        assert!(answer[1..14].iter().all(|&word| word == 0));
        assert_eq!(close(20, 171, 1, 3, 1, 2, 1, 3, 4, &mut output), 25);
        assert!(output.iter().all(|&octet| octet == 7));
    }
}
