//! The frame part in a user's hands.

use scowdeck::*;

const SET_UP: SetUp = SetUp { length: 32, spacecraft: 9, error_control: true };

fn closing(control_word: Option<u32>) -> Closing {
    let (master_count, channel_count) = (MasterCount(200), ChannelCount(7));
    Closing { channel: 5, master_count, channel_count, control_word, pointer: 3 }
}

/// A frame around a data field whose octets tell their places.
fn closed(set_up: &SetUp, closing: &Closing) -> Vec<u8> {
    let mut frame = vec![0xEE; set_up.length as usize];
    let field = set_up.data_field(closing.control_word.is_some());
    for (place, octet) in frame[field].iter_mut().enumerate() {
        *octet = place as u8;
    }
    close(set_up, closing, &mut frame).unwrap();
    frame
}

#[test]
fn what_was_closed_opens() {
    for error_control in [false, true] {
        for control_word in [None, Some(0), Some(0x8000_0001)] {
            for length in [13, 32, 2048] {
                let set_up = SetUp { length, error_control, ..SET_UP };
                let field = set_up.data_field(control_word.is_some());
                let given = Closing { pointer: field.len() as u32 - 1, ..closing(control_word) };
                let frame = closed(&set_up, &given);
                let opened = open(&set_up, &frame).unwrap();
                assert_eq!((opened.spacecraft, opened.channel), (9, 5));
                assert_eq!(opened.master_count, given.master_count);
                assert_eq!(opened.channel_count, given.channel_count);
                assert_eq!(opened.control_word, control_word);
                assert_eq!(u32::from(opened.pointer), given.pointer);
                assert!(!opened.secondary_header && !opened.synchronisation && !opened.order);
                assert_eq!((opened.segment, opened.data_place), (3, 6));
                assert_eq!(opened.data, &frame[field]);
                assert!(opened.data.iter().enumerate().all(|(i, &octet)| octet == i as u8));
            }
        }
    }
}

/// The low 11 bits of a pointer are written; one past the data field is found out by opening.
#[test]
fn any_pointer_is_closed() {
    let d = SET_UP.data_field(false).len() as u32;
    assert_eq!(d, 24);
    let pointer = |pointer| {
        let frame = closed(&SET_UP, &Closing { pointer, ..closing(None) });
        open(&SET_UP, &frame).map(|opened| opened.pointer)
    };
    assert_eq!([d - 1, 2046, 2047].map(pointer), [Ok(23), Ok(2046), Ok(2047)]);
    assert_eq!([2048, 4096 + 3, u32::MAX].map(pointer), [Ok(0), Ok(3), Ok(2047)]);
    assert_eq!([d, 2045, 2048 + d].map(pointer), [Err(Refusal::Pointer); 3]);
}

#[test]
fn a_refused_closing_leaves_the_output() {
    let beyond = Closing { channel: 8, ..closing(Some(1)) };
    let short = SetUp { length: 12, ..SET_UP };
    for (set_up, closing, octets, refusal) in [
        (short, beyond, 31, Refusal::SetUp),
        (SetUp { spacecraft: 1024, ..SET_UP }, beyond, 31, Refusal::SetUp),
        (SET_UP, beyond, 31, Refusal::Channel),
        (SET_UP, closing(None), 31, Refusal::OutputLength),
        (SET_UP, closing(None), 33, Refusal::OutputLength),
        (SET_UP, closing(None), 0, Refusal::OutputLength),
    ] {
        let mut output = vec![0xEE; octets];
        assert_eq!(close(&set_up, &closing, &mut output), Err(refusal));
        assert!(output.iter().all(|&octet| octet == 0xEE));
    }
}

#[test]
fn the_first_cause_gives_the_refusal() {
    let frame = closed(&SET_UP, &closing(None));
    let damaged = |place: usize| {
        let mut frame = frame.clone();
        frame[place] ^= 0x40;
        frame
    };
    assert!(open(&SET_UP, &frame).is_ok());
    assert_eq!(open(&SetUp { length: 2049, ..SET_UP }, &frame), Err(Refusal::SetUp));
    assert_eq!(open(&SET_UP, &frame[1..]), Err(Refusal::FrameLength));
    assert_eq!(open(&SET_UP, &damaged(0)), Err(Refusal::Damaged));
    let unchecked = SetUp { error_control: false, ..SET_UP };
    assert_eq!(open(&unchecked, &damaged(0)), Err(Refusal::FrameVersion));
    assert_eq!(open(&SetUp { spacecraft: 8, ..unchecked }, &frame), Err(Refusal::Spacecraft));
}

/// A secondary header of three octets: the data field begins behind it.
#[test]
fn the_data_field_stands_behind_a_secondary_header() {
    let set_up = SetUp { length: 20, spacecraft: 1023, error_control: false };
    let mut frame = [0xAA; 20];
    frame[..7].copy_from_slice(&[0x3F, 0xFF, 0xFE, 0xFD, 0x98, 0x00, 0x02]);
    let opened = open(&set_up, &frame).unwrap();
    assert_eq!((opened.channel, opened.control_word), (7, Some(0xAAAA_AAAA)));
    assert_eq!((opened.data_place, opened.data.len()), (9, 7));
    assert!(opened.secondary_header);
}

#[test]
fn a_set_up_without_room_has_an_empty_field() {
    for length in 0..=12 {
        let set_up = SetUp { length, ..SET_UP };
        assert_eq!(set_up.data_field(true), 6..6);
    }
    assert_eq!(SetUp { length: 13, ..SET_UP }.data_field(true), 6..7);
}
