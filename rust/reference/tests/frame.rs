//! Frames.

use reference::frame::{checksum, frame, frame_reply, stuff, Answer, FrameReader, SHORTEST_BUFFER};

fn all(line: &[u8]) -> Vec<(usize, Answer)> {
    let (mut reader, mut buffer) = (FrameReader::new(), [0; SHORTEST_BUFFER]);
    let (mut at, mut answers) = (0, vec![]);
    while at < line.len() {
        let (taken, answer) = reader.feed(&line[at..], &mut buffer).expect("a buffer");
        at += taken;
        answers.extend(answer.map(|a| (at, a)));
    }
    answers
}

#[test]
fn the_example_of_002() {
    let header = [0, 0, 0x95, 0x40, 0, 0];
    assert_eq!(checksum(&header), 0x57ac);
    let mut stuffed = vec![];
    stuff(&[0, 0, 0x95, 0x40, 0, 0, 0xac, 0x57], &mut stuffed);
    assert_eq!(stuffed, [0x80, 0x80, 0x92, 0xd4, 0x80, 0x80, 0x81, 0xac, 0xab, 0xc0]);
    let line = frame(0x4095_0000, &[]);
    assert_eq!(all(&line), [(12, Answer::Packet { id: 0x4095_0000, length: 0 })]);
}

#[test]
fn lengths() {
    for length in [0, 1, 10, 532] {
        let line = frame(0x8001, &vec![0x5a; length]);
        assert_eq!(all(&line), [(line.len(), Answer::Packet { id: 0x8001, length })]);
    }
    assert_eq!(all(&frame(0x8001, &[0; 533])), [(11, Answer::BadHeader)]);
}

#[test]
fn a_begin_byte_begins_anew() {
    let line = frame(0x8102, b"0123456789");
    for cut in 0..line.len() {
        let both = [&line[..cut], &line].concat();
        assert_eq!(all(&both), [(both.len(), Answer::Packet { id: 0x8102, length: 10 })]);
    }
}

#[test]
fn a_reply() {
    let mut buffer = [0; 26];
    assert_eq!(frame_reply(5, &[1; 10], &mut buffer), 0);
    assert_eq!(buffer[..], frame(0x8005, &[1; 10]));
    assert_eq!(frame_reply(256, &[1; 9], &mut buffer), 2);
    assert_eq!(frame_reply(256, &[1; 10], &mut buffer), 12);
    assert_eq!(frame_reply(1, &[1; 10], &mut buffer[1..]), 12);
}
