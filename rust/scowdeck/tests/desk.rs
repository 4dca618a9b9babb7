//! The desk in a user's hands.

use scowdeck::*;

const SET_UP: SetUp = SetUp { length: 32, spacecraft: 9, error_control: true };

/// A packet of this many octets, each body octet telling its place.
fn packet(octets: u16) -> Vec<u8> {
    let [high, low] = (octets - 7).to_be_bytes();
    let mut packet = vec![0x01, 0x23, 0xC0, 0x05, high, low];
    packet.extend((6..octets).map(|place| place as u8));
    packet
}

/// All frames of a run on one channel.
fn frames(channel: u32, run: &[u8]) -> Vec<Vec<u8>> {
    let place = Place::first(MasterCount(0), ChannelCount(0));
    let mut writing = Writing { channel, control_word: None, place };
    let mut frames = Vec::new();
    while (writing.place.offset as usize) < run.len() {
        let mut frame = vec![0; SET_UP.length as usize];
        writing.place = write(&SET_UP, &writing, run, &mut frame).unwrap();
        frames.push(frame);
    }
    frames
}

/// Saved and loaded in the middle of a packet, before each frame, with refused calls in between.
#[test]
fn saved_between_all_frames() {
    let wanted = [packet(100), packet(7), packet(55)];
    let mut desk = Desk::new(SET_UP);
    let mut found = Vec::new();
    for frame in frames(5, &wanted.concat()) {
        desk = Desk::load(SET_UP, desk.save().as_bytes()).unwrap();
        assert_eq!(desk.read(&frame[1..]).unwrap_err(), Refusal::FrameLength);
        found.extend(desk.read(&frame).unwrap().packets().map(<[u8]>::to_vec));
    }
    assert_eq!(found, wanted);
}

#[test]
fn a_lost_frame_breaks_the_packet_and_nothing_else() {
    let mut all = frames(0, &[packet(60), packet(20)].concat());
    all.remove(1);
    let mut desk = Desk::new(SET_UP);
    let mut found = Vec::new();
    let mut broken = 0;
    for frame in all {
        let report = desk.read(&frame).unwrap();
        broken += u32::from(report.broken);
        found.extend(report.packets().map(<[u8]>::to_vec));
    }
    assert_eq!((broken, found), (1, vec![packet(20)]));
}

/// A record that breaks the rules loads, and the reader itself refuses it.
#[test]
fn a_broken_record_is_refused_by_the_reader() {
    let mut octets = Desk::new(SET_UP).save().into_bytes();
    octets[9 + 3] = 2; // channel 0: heard is 2
    let check = octets.len() - 2;
    let field = syndrome(&octets[..check]).to_be_bytes();
    octets[check..].copy_from_slice(&field);
    let mut desk = Desk::load(SET_UP, &octets).unwrap();
    let frame = &frames(0, &packet(9))[0];
    assert_eq!(desk.read(frame).unwrap_err(), Refusal::Record);
    assert_eq!(desk.save().as_bytes(), octets);
}

#[test]
fn any_set_up_is_answered() {
    for (length, spacecraft) in [(12, 0), (2049, 0), (13, 1024), (u32::MAX, u32::MAX)] {
        let set_up = SetUp { length, spacecraft, error_control: false };
        let mut desk = Desk::new(set_up);
        assert_eq!(desk.read(&[0; 13]).unwrap_err(), Refusal::SetUp);
        let writing = Writing { channel: 0, control_word: None, place: Place::default() };
        assert_eq!(desk.write(&writing, &[], &mut [0; 13]), Err(Refusal::SetUp));
    }
}

#[test]
fn a_report_tells_the_header() {
    let set_up = SetUp { length: 20, spacecraft: 1023, error_control: false };
    let mut desk = Desk::new(set_up);
    // Private, all flags set, a secondary header of one octet, and a control word.
    let mut frame = [0xAA; 20];
    frame[..7].copy_from_slice(&[0x3F, 0xFF, 0xFE, 0xFD, 0xFF, 0xFE, 0x00]);
    let report = desk.read(&frame).unwrap();
    assert_eq!((report.kind, report.spacecraft, report.channel), (Kind::Private, 1023, 7));
    assert_eq!(report.master_count, MasterCount(0xFE));
    assert_eq!(report.channel_count, ChannelCount(0xFD));
    assert_eq!(report.control_word, Some(0xAAAA_AAAA));
    assert_eq!((report.segment, report.pointer), (3, 2046));
    assert!(report.secondary_header && report.synchronisation && report.order);
    assert_eq!(report.packets().count(), 0);
}

#[test]
fn nobody_is_busy_at_first() {
    let busy = Desk::new(SET_UP).busy();
    assert_eq!((busy.mask, busy.ones, busy.lowest), (0, 0, None));
}
