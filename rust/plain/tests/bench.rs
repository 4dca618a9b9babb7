//! The paper's bench, B1 to B8, with B1 opened and closed as well.

use plain::*;

const SET_UP: SetUp = SetUp { length: 20, spacecraft: 171, error_control: false };
const RUN: [u8; 8] = [0x01, 0x23, 0xC0, 0x05, 0x00, 0x01, 0xDE, 0xAD];

const B1: [u8; 20] = [
    0x0A, 0xB6, 0x09, 0x04, 0x18, 0x00, 0x01, 0x23, 0xC0, 0x05, 0x00, 0x01, 0xDE, 0xAD, 0x07, 0xFF,
    0xC0, 0x00, 0x00, 0x00,
];
const B2: [u8; 20] = [
    0x0A, 0xB6, 0x0A, 0x05, 0x18, 0x01, 0x55, 0x07, 0xFF, 0xC0, 0x00, 0x00, 0x06, 0x55, 0x55, 0x55,
    0x55, 0x55, 0x55, 0x55,
];
const B3: [u8; 20] = [
    0x0A, 0xB6, 0x0B, 0x06, 0x1F, 0xFE, 0x55, 0x55, 0x55, 0x55, 0x55, 0x55, 0x55, 0x55, 0x55, 0x55,
    0x55, 0x55, 0x55, 0x55,
];

struct Bench {
    record: Record,
    store: Vec<u8>,
    output: Vec<u8>,
}

impl Bench {
    fn fresh() -> Bench {
        Bench {
            record: Record::default(),
            store: vec![0xEE; STORE],
            output: vec![0xEE; OUTPUT_LEAST],
        }
    }

    fn read(&mut self, set_up: &SetUp, frame: &[u8]) -> Result<Report, Refusal> {
        read(set_up, &mut self.record, &mut self.store, &mut self.output, frame)
    }
}

fn counts_of(bench: &mut Bench, frame: &[u8]) -> Counts {
    bench.read(&SET_UP, frame).unwrap().counts
}

fn written(place: Place, run: &[u8]) -> ([u8; 20], Place) {
    let mut output = [0xEE; 20];
    let writing = Writing { channel: 3, control_word: None, place };
    let place = write(&SET_UP, &writing, run, &mut output).unwrap();
    (output, place)
}

fn first_place() -> Place {
    Place { offset: 0, left_over: 0, master_count: MasterCount(9), channel_count: ChannelCount(4) }
}

#[test]
fn b1_to_b3_written() {
    let (frame, place) = written(first_place(), &RUN);
    assert_eq!(frame, B1);
    let next = Place { offset: 8, left_over: 1, ..place };
    assert_eq!(place, next);
    assert_eq!((place.master_count, place.channel_count), (MasterCount(10), ChannelCount(5)));
    let (frame, place) = written(Place { offset: 0, ..place }, &[]);
    assert_eq!((frame, place.offset, place.left_over), (B2, 0, 0));
    let (frame, place) = written(place, &[]);
    assert_eq!((frame, place.offset, place.left_over), (B3, 0, 0));
}

#[test]
fn b4_read() {
    let mut bench = Bench::fresh();
    assert_eq!(counts_of(&mut bench, &B1), Counts { delivered: 1, ..Counts::default() });
    assert_eq!(bench.output[..8], RUN);
    assert!(bench.output[8..].iter().all(|&octet| octet == 0xEE));
    assert_eq!(bench.record.channels[3].state, State::Gathering(6));
    assert_eq!(counts_of(&mut bench, &B2), Counts { idle: 2, ..Counts::default() });
    let report = bench.read(&SET_UP, &B3).unwrap();
    assert_eq!((report.kind, report.counts), (Kind::Idle, Counts::default()));
}

#[test]
fn b4_without_b2() {
    let mut bench = Bench::fresh();
    counts_of(&mut bench, &B1);
    assert_eq!(counts_of(&mut bench, &B3), Counts { gap: 1, broken: 1, ..Counts::default() });
}

#[test]
fn b5_gap() {
    assert_eq!(ChannelCount(1).gap_after(ChannelCount(254)), 2);
    assert_eq!(ChannelCount(7).gap_after(ChannelCount(7)), 255);
}

#[test]
fn b6_pointer() {
    let mut frame = B1;
    frame[5] = 14;
    assert_eq!(Bench::fresh().read(&SET_UP, &frame), Err(Refusal::Pointer));
    frame[5] = 13;
    assert!(Bench::fresh().read(&SET_UP, &frame).is_ok());
}

#[test]
fn b7_length() {
    for length in [12, 2049] {
        let set_up = SetUp { length, ..SET_UP };
        let frame = vec![0; length as usize];
        assert_eq!(Bench::fresh().read(&set_up, &frame), Err(Refusal::SetUp));
    }
}

/// The least packets, one after the other, five octets of the first being held.
#[test]
fn b8_most_packets() {
    let set_up = SetUp { length: 2048, ..SET_UP };
    let packet = [0x01, 0x23, 0xC0, 0x05, 0x00, 0x00, 0xAA];
    let stream: Vec<u8> = packet.iter().cycle().skip(5).take(2042).copied().collect();
    let mut frame = vec![0x0A, 0xB6, 0x00, 0x01, 0x18, 0x02];
    frame.extend(stream);
    let mut bench = Bench::fresh();
    bench.record.channels[3] =
        Channel { heard: true, last: ChannelCount(0), state: State::Gathering(5) };
    bench.store[3 * PART..3 * PART + 5].copy_from_slice(&packet[..5]);
    let counts = bench.read(&set_up, &frame).unwrap().counts;
    assert_eq!(counts, Counts { delivered: 292, ..Counts::default() });
    assert_eq!(2042_usize.div_ceil(7), 292);
}

#[test]
fn b1_opened() {
    let frame = open(&SET_UP, &B1).unwrap();
    let Header { spacecraft, channel, master_count, channel_count, pointer, .. } = frame.header;
    assert_eq!((spacecraft, channel, pointer), (171, 3, 0));
    assert_eq!((master_count, channel_count), (MasterCount(9), ChannelCount(4)));
    assert_eq!((frame.place, frame.data, frame.control_word), (6, &B1[6..], 0));
    assert_eq!(open(&SetUp { length: 12, ..SET_UP }, &B1), Err(Refusal::SetUp));
}

#[test]
fn b1_closed() {
    let mut closing = Closing {
        channel: 3,
        master_count: MasterCount(9),
        channel_count: ChannelCount(4),
        control_word: None,
        pointer: 2048,
    };
    let mut output = [0xEE; 20];
    output[6..].copy_from_slice(&B1[6..]);
    assert_eq!(close(&SET_UP, &closing, &mut output), Ok(()));
    assert_eq!(output, B1);
    assert_eq!(close(&SET_UP, &closing, &mut output[1..]), Err(Refusal::OutputLength));
    closing.channel = 8;
    assert_eq!(close(&SET_UP, &closing, &mut output[1..]), Err(Refusal::Channel));
    assert_eq!(output, B1);
}
