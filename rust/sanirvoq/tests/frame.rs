//! Frames: the wrapper's answers, refusals and pieces.

use sanirvoq::{frame_reply, Answer, FrameReader, Frames, NotFramed, FRAMED_REPLY, FRAME_BUFFER};

const MESSAGE: [u8; 10] = [1, 2, 3, 4, 5, 6, 7, 8, 9, 10];
/// The example of 002: no body.
const EMPTY: [u8; 12] = [0x1d, 0x80, 0x80, 0x92, 0xd4, 0x80, 0x80, 0x81, 0xac, 0xab, 0xc0, 0x1e];

fn reply(sequence: u32) -> [u8; FRAMED_REPLY] {
    let mut line = [0; FRAMED_REPLY];
    frame_reply(sequence, &MESSAGE, &mut line).expect("a reply");
    line
}

fn all(line: &[u8]) -> Vec<(usize, Answer)> {
    let mut buffer = [0; FRAME_BUFFER];
    let mut frames = Frames::new(&mut buffer).expect("a buffer");
    frames.answers(line).collect()
}

const fn request(sequence: u8) -> Answer {
    Answer::Packet { id: 0x8000 + sequence as u32, size: 10, request: Some(sequence) }
}

#[test]
#[cfg_attr(not(archive), ignore = "needs libsanirvoq.a")]
fn packets_come_one_after_the_other() {
    let empty = Answer::Packet { id: 0x4095_0000, size: 0, request: None };
    let line = [&reply(5)[..], &[1, 0x1e, 2], &EMPTY, &reply(255)].concat();
    assert_eq!(all(&line), [(26, request(5)), (41, empty), (67, request(255))]);
}

#[test]
#[cfg_attr(not(archive), ignore = "needs libsanirvoq.a")]
fn every_cut_gives_the_same() {
    let line = reply(9);
    for cut in 0..=line.len() {
        let mut buffer = [0xee; FRAME_BUFFER];
        let mut frames = Frames::new(&mut buffer).expect("a buffer");
        let (first, second) = line.split_at(cut);
        let mut answers: Vec<_> = frames.answers(first).collect();
        answers.extend(frames.answers(second).map(|(at, a)| (at + cut, a)));
        assert_eq!(answers, [(26, request(9))]);
        assert_eq!(frames.body(10), MESSAGE);
        assert_eq!(buffer[12..], [0xee; FRAME_BUFFER - 12]);
    }
}

#[test]
#[cfg_attr(not(archive), ignore = "needs libsanirvoq.a")]
fn faults_are_answered_where_they_show() {
    let mut line = reply(3);
    line[23] ^= 1;
    assert_eq!(all(&line), [(25, Answer::BadBody { index: 0, sequence: 3 })]);
    let mut line = reply(3);
    line[4] = 4;
    assert_eq!(all(&line), [(5, Answer::BadHeader)]);
    let mut line = reply(3);
    line[25] = 0x1f;
    assert_eq!(all(&line), [(26, Answer::BadBody { index: 0, sequence: 3 })]);
}

#[test]
#[cfg_attr(not(archive), ignore = "needs libsanirvoq.a")]
fn any_reader_reads_a_packet() {
    let spoiled = FrameReader {
        last: u64::MAX,
        count: u32::MAX,
        id: u32::MAX,
        scale: u16::MAX,
        size: u16::MAX,
        sum: u16::MAX,
        phase: 2,
        held: u8::MAX,
    };
    let mut buffer = [0; FRAME_BUFFER];
    let mut frames = Frames::from(spoiled, &mut buffer).expect("a buffer");
    assert_eq!(frames.answers(&reply(1)).collect::<Vec<_>>(), [(26, request(1))]);
}

#[test]
#[cfg_attr(not(archive), ignore = "needs libsanirvoq.a")]
fn refusals() {
    assert_eq!(Frames::new(&mut [0; FRAME_BUFFER - 1]).err(), Some(NotFramed::Frame));
    let mut line = [7; FRAMED_REPLY];
    assert_eq!(frame_reply(0, &MESSAGE[..9], &mut line), Err(NotFramed::Message));
    assert_eq!(frame_reply(256, &MESSAGE, &mut line), Err(NotFramed::Frame));
    assert_eq!(frame_reply(0, &MESSAGE, &mut line[..25]), Err(NotFramed::Frame));
    assert_eq!(frame_reply(256, &MESSAGE[..9], &mut line[..25]), Err(NotFramed::Message));
    assert_eq!(line, [7; FRAMED_REPLY]);
    assert_eq!(NotFramed::Frame.number(), 12);
}
