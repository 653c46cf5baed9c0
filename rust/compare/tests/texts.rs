//! Text packets: the archive agrees, a seed gives one run, and a call with a fault is found.

use compare::texts::{run, Calls};
use sanirvoq::call::{text_decode, text_encode};
use sanirvoq::ffi::{TextFound, TextPacket};

const CASES: u64 = 20_000;
const ARCHIVE: Calls = Calls { write: text_encode, read: text_decode };

/// What the run says of calls, if anything.
fn found(calls: Calls) -> Option<&'static str> {
    run(calls, 1, CASES).err().map(|failure| failure.what)
}

/// The archive with a fault behind its writer, which may change what it gave and left.
macro_rules! writing {
    (|$packet:ident, $buffer:ident, $done:ident| $fault:expr) => {
        Calls {
            write: |$packet, $buffer| {
                #[allow(unused_mut)]
                let mut $done = text_encode($packet, $buffer);
                $fault;
                $done
            },
            ..ARCHIVE
        }
    };
}

/// The archive with a reader that reads other bytes first.
macro_rules! reading {
    (|$text:ident| $other:expr) => {
        Calls {
            read: |bytes| {
                #[allow(unused_mut)]
                let mut $text = bytes.to_vec();
                $other;
                text_decode(&$text)
            },
            ..ARCHIVE
        }
    };
}

#[test]
fn the_archive_has_no_fault_and_everything_is_reached() {
    for seed in 1..=3 {
        let tally = run(ARCHIVE, seed, 100_000).unwrap_or_else(|failure| panic!("{failure}"));
        assert_eq!(tally.lacking(), Vec::<String>::new());
    }
    assert!(!run(ARCHIVE, 1, 20).unwrap().lacking().is_empty());
}

#[test]
fn a_seed_gives_one_run() {
    let table = |seed| run(ARCHIVE, seed, 500).unwrap().table();
    assert_eq!(table(1), table(1));
    assert_ne!(table(1), table(2));
}

#[test]
fn numbers() {
    let faults = [
        // 33 bytes are enough, or 34 are not; the letter is tested first.
        writing!(|_p, buffer, done| if buffer.len() == 33 {
            done.number = 0;
        }),
        writing!(|_p, buffer, done| if buffer.len() == 34 {
            done.number = 11;
        }),
        writing!(|p, _buffer, done| if !(0x21..=0x7e).contains(&p.letter) {
            done.number = 10;
        }),
        // A blank or 0x7f is a letter.
        writing!(|p, buffer, done| if p.letter == 0x7f && buffer.len() > 33 {
            done.number = 0;
        }),
        writing!(|p, buffer, done| if p.letter == 0x20 && buffer.len() > 33 {
            done.number = 0;
        }),
        // Upper case, two blanks, a blank after, leading zeros are read.
        reading!(|text| text.make_ascii_lowercase()),
        reading!(|text| text.dedup_by(|a, b| *a == b' ' && *b == b' ')),
        reading!(|text| if text.last() == Some(&b' ') {
            text.pop();
        }),
        reading!(
            |text| while text.starts_with(b"0x0") && text.get(3).is_some_and(|c| *c != b' ') {
                text.remove(2);
            }
        ),
        // 13 bytes are too few, or 34 too many.
        reading!(|text| if text.len() == 13 {
            text.clear();
        }),
        reading!(|text| text.truncate(33)),
    ];
    for (i, fault) in faults.into_iter().enumerate() {
        let what = found(fault);
        assert!(matches!(what, Some("the number differs" | "the packet differs")), "{i}: {what:?}");
    }
}

#[test]
fn buffers() {
    let faults = [
        // The rest is touched, or a refused call's buffer.
        writing!(|_p, buffer, done| if done.number == 0 && buffer.len() > done.filled as usize {
            buffer[done.filled as usize] ^= 1;
        }),
        writing!(|_p, buffer, done| if done.number == 11 && !buffer.is_empty() {
            buffer[0] ^= 1;
        }),
        writing!(|_p, buffer, done| if done.number == 10 {
            buffer[0] ^= 1;
        }),
        // Upper case is written.
        writing!(|_p, buffer, done| if done.number == 0 {
            buffer[..done.filled as usize].make_ascii_uppercase();
        }),
        // Third and fourth change places.
        Calls {
            write: |p, buffer| {
                text_encode(TextPacket { third: p.fourth, fourth: p.third, ..p }, buffer)
            },
            ..ARCHIVE
        },
    ];
    for fault in faults {
        let what = found(fault);
        assert!(
            matches!(what, Some("the buffer differs" | "the count of bytes differs")),
            "{what:?}"
        );
    }
}

#[test]
fn counts_and_packets() {
    let one_more = writing!(|_p, _buffer, done| if done.number == 0 {
        done.filled += 1;
    });
    assert_eq!(found(one_more), Some("the count of bytes differs"));
    let refused_with_fields = Calls {
        read: |bytes| {
            let found = text_decode(bytes);
            let packet = TextPacket { letter: b'i', ..found.packet };
            if found.number == 10 {
                TextFound { packet, ..found }
            } else {
                found
            }
        },
        ..ARCHIVE
    };
    assert_eq!(found(refused_with_fields), Some("the packet differs"));
}
