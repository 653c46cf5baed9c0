//! The lines that `tests/frame_vectors.py` makes, with the answers to them.

use sanirvoq::{Answer, FrameReader, Frames, FRAME_BUFFER};
use std::fmt::Write;

const STORED: &str = include_str!("../../../tests/frame_vectors.txt");

fn bytes(hex: &str) -> Vec<u8> {
    (0..hex.len())
        .step_by(2)
        .map(|i| u8::from_str_radix(&hex[i..i + 2], 16).expect("hex"))
        .collect()
}

fn reader(text: &str) -> Option<FrameReader> {
    let numbers: Vec<u64> = text.split(',').map_while(|n| n.parse().ok()).collect();
    let [last, count, id, scale, size, sum, phase, held] = numbers[..] else { return None };
    Some(FrameReader {
        last,
        count: count as u32,
        id: id as u32,
        scale: scale as u16,
        size: size as u16,
        sum: sum as u16,
        phase: phase as u8,
        held: held as u8,
    })
}

/// The answers as the file has them.
fn told(frames: &mut Frames, pieces: &str) -> String {
    let (mut text, mut before) = (String::new(), 0);
    for piece in pieces.split('/').map(bytes) {
        let mut rest = &piece[..];
        while !rest.is_empty() {
            let (left, answer) = frames.feed(rest);
            rest = left;
            let at = before + piece.len() - rest.len();
            let what = match answer {
                None => continue,
                Some(Answer::Packet { id, size, .. }) => {
                    let hex: String =
                        frames.body(size).iter().map(|b| format!("{b:02x}")).collect();
                    format!("packet:{id}:{size}:{hex}")
                }
                Some(Answer::BadHeader) => "header".to_string(),
                Some(Answer::BadBody { index, sequence }) => format!("body:{index}:{sequence}"),
                Some(other) => panic!("{other:?}"),
            };
            let sign = if text.is_empty() { "" } else { ";" };
            write!(text, "{sign}{at}:{what}").expect("a text");
        }
        before += piece.len();
    }
    if text.is_empty() {
        "-".to_string()
    } else {
        text
    }
}

#[test]
#[cfg_attr(not(archive), ignore = "needs libsanirvoq.a")]
fn stored_lines() {
    for line in STORED.lines() {
        let [name, from, pieces, answers] = line.split(' ').collect::<Vec<_>>()[..] else {
            panic!("a line of the file: {line}");
        };
        let mut buffer = [0; FRAME_BUFFER];
        let mut frames = match reader(from) {
            Some(reader) => Frames::from(reader, &mut buffer),
            None => Frames::new(&mut buffer),
        }
        .expect("a buffer");
        assert_eq!(told(&mut frames, pieces), answers, "{name}");
    }
    assert!(STORED.lines().count() > 300);
}
