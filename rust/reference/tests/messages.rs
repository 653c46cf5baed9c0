//! The message writer and reader.

mod common;

use common::*;
use reference::{read, state_text, write, Message, Reason, Refusal};
use std::collections::HashSet;

fn written(message: Message) -> Result<[u8; 10], Refusal> {
    let mut out = [0xee; 10];
    let done = write(&message, &mut out);
    if done.is_err() {
        assert_eq!(out, [0xee; 10]);
    }
    done.map(|()| out)
}

/// Some of every message.
fn samples() -> Vec<Message> {
    let mut all = vec![
        Message::Rmget([0; 9]),
        Message::Rmget([255; 9]),
        Message::Rmput,
        Message::Rrnote,
        Message::Rstop,
        Message::Rstart,
        Message::Rcondbreak,
    ];
    all.extend(Reason::ALL.map(Message::Rerr));
    all.extend((0..=255).map(Message::Rstatus));
    for number in [0, 1, 5, 256, 0x1001, 0x8000_1000, 0xabcd_ef09, u32::MAX] {
        let pids = [Message::Tproc, Message::Tstatus, Message::Trnote, Message::Tstop];
        all.extend(pids.map(|message| message(number)));
        all.extend([Message::Tstart(number), Message::Rproc(number)]);
        all.extend((0..=9).map(|n| Message::Tmget { address: number, n }));
        all.extend((0..=4).map(|n| {
            let data = [0, 1, 2, 3].map(|i| if i < n { 0xf0 + i } else { 0 });
            Message::Tmput { address: number, n, data }
        }));
        all.extend((*b"nkpbd").map(|letter| Message::Tcondbreak { val: number, letter }));
    }
    all.extend((*b"*&=!ao").map(|letter| Message::Tcondbreak { val: 0, letter }));
    all
}

#[test]
fn reading_gives_back_what_was_written() {
    let mut seen = HashSet::new();
    for message in samples() {
        let bytes = written(message).unwrap();
        assert_eq!(read(&bytes), Ok(message));
        assert!(seen.insert(bytes), "two messages write {bytes:?}");
    }
}

#[test]
fn the_writer_refuses_what_is_no_message() {
    let none = [
        Message::Tmget { address: 0x1000, n: 10 },
        Message::Tmget { address: 0x1000, n: 255 },
        Message::Tmput { address: 0x1000, n: 5, data: [0; 4] },
        Message::Tmput { address: 0x1000, n: 3, data: [1; 4] },
        Message::Tmput { address: 0x1000, n: 0, data: [0, 0, 0, 1] },
        Message::Tcondbreak { val: 0, letter: b'z' },
        Message::Tcondbreak { val: 0, letter: 0 },
        Message::Tcondbreak { val: 1, letter: b'*' },
        Message::Tcondbreak { val: 1 << 24, letter: b'a' },
    ];
    for message in none {
        assert_eq!(written(message), Err(Refusal::NoMessage), "{message:?}");
    }
}

#[test]
fn sizes_come_before_messages() {
    for length in [0, 9, 11] {
        let mut out = vec![0xee; length];
        let none = Message::Tmget { address: 0, n: 10 };
        assert_eq!(write(&Message::Rmput, &mut out), Err(Refusal::Size));
        assert_eq!(write(&none, &mut out), Err(Refusal::Size));
        assert_eq!(out, vec![0xee; length]);
        assert_eq!(read(&out), Err(Refusal::Size));
    }
}

#[test]
fn the_reader_refuses_other_bytes() {
    let none: [[u8; 10]; 17] = [
        ten(0, 0, &[]),
        ten(18, 5, &[]),
        ten(19, 0, &[]),
        ten(20, 0, &[]),
        ten(22, 5, &[]),
        ten(23, 0, &[]),
        ten(255, 0, &[]),
        ten(6, 5, &[1]),
        ten(5, 1, &[]),
        ten(2, 0x1000, &[1, 1]),
        ten(16, 3, b"n\0\0\0\x01"),
        ten(16, 3, b"nn"),
        reply(1, b"rese"),
        reply(1, b"resets"),
        reply(7, b"8000100"),
        reply(7, b"8000100A"),
        reply(7, b"+0001000"),
    ];
    for bytes in none {
        assert_eq!(read(&bytes), Err(Refusal::NoMessage), "{bytes:?}");
    }
    for text in ["", "0c", "C", "0", "9", "100", "00a", "Rendezvo", "dead", "a\0a", "12345678"] {
        let bytes = reply(9, text.as_bytes());
        assert_eq!(read(&bytes), Err(Refusal::NoMessage), "{text}");
    }
    assert_eq!(read(&reply(7, b"800010000")), Err(Refusal::NoMessage));
    assert_eq!(read(&reply(9, b"123456789")), Err(Refusal::NoMessage));
}

#[test]
fn state_texts() {
    assert_eq!(state_text(0), *b"Dead\0\0\0\0\0");
    assert_eq!(state_text(9), *b"Rendezvou");
    assert_eq!(state_text(10), *b"a\0\0\0\0\0\0\0\0");
    assert_eq!(state_text(16), *b"10\0\0\0\0\0\0\0");
    assert_eq!(state_text(255), *b"ff\0\0\0\0\0\0\0");
}

/// What is read writes the same bytes again, whatever the bytes.
#[test]
fn random_bytes() {
    let mut rng = Rng(3);
    let mut accepted = 0;
    for round in 0..2_000_000u64 {
        let mut bytes = [0; 10];
        for _ in 0..rng.below(6) {
            bytes[rng.below(10) as usize] = rng.next() as u8;
        }
        bytes[0] = (round % 26) as u8;
        if let Ok(message) = read(&bytes) {
            accepted += 1;
            assert_eq!(written(message), Ok(bytes));
        }
    }
    assert!(accepted > 100_000, "{accepted}");
}
