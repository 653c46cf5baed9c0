//! A text step with a fault is found.

use compare::archive::{archive, Lent, Stub};
use compare::op::{Call, Kind};
use compare::run::Runner;
use reference::{read_text, write_text, TextPacket};

/// What the run says of a stub, if anything.
fn found(stub: Stub) -> Option<String> {
    let done = Runner::new(stub, 1, 50_000).run(|_| {});
    done.err().map(|failure| failure.difference.what)
}

fn is_one_of(found: Option<String>, whats: &[&str]) -> bool {
    found.as_deref().is_some_and(|found| whats.contains(&found))
}

/// The request, where a text step is one of number 0, and whether it was carried out.
fn served(call: &Call, result: u32) -> Option<(TextPacket, bool)> {
    let [number, error, ..] = result.to_le_bytes();
    let request = read_text(&call.input).ok()?;
    (call.kind == Kind::Text && number == 0).then_some((request, error == 0))
}

/// Runs the archive, then changes the reply of a text step of number 0. A reply that the fault leaves
/// as it is stays; another is written into the buffer as it was, with the result that belongs to it.
fn replied(
    call: &Call,
    lent: &mut Lent<'_>,
    fault: fn(TextPacket, TextPacket) -> TextPacket,
) -> u32 {
    let result = archive(call, lent);
    let Some((request, _)) = served(call, result) else { return result };
    let filled = usize::from(result.to_le_bytes()[2]);
    let given = read_text(&lent.reply[..filled]).unwrap();
    let reply = fault(request, given);
    if reply == given {
        return result;
    }
    lent.reply.fill(call.fill);
    let filled = write_text(reply, lent.reply).unwrap();
    u32::from_le_bytes([0, u8::from(reply.third != 0), filled as u8, 0])
}

fn is_word(letter: u8) -> bool {
    b"idID".contains(&letter)
}

/// Another reply: the text differs, or already its length.
const REPLIES: [Stub; 10] = [
    // errno 3 before the letter.
    |call, lent| {
        replied(call, lent, |request, reply| {
            let fourth = if request.pid != 0 { 3 } else { reply.fourth };
            TextPacket { fourth, ..reply }
        })
    },
    // The window before alignment.
    |call, lent| {
        replied(call, lent, |request, reply| {
            let outside = is_word(request.letter) && request.pid == 0 && request.third < 4_096;
            TextPacket { fourth: if outside { 14 } else { reply.fourth }, ..reply }
        })
    },
    // Words high-order first.
    |call, lent| {
        replied(call, lent, |request, reply| {
            let word = is_word(request.letter) && reply.third == 0;
            let fourth = if word { reply.fourth.swap_bytes() } else { reply.fourth };
            TextPacket { fourth, ..reply }
        })
    },
    // The new word in the place of the previous.
    |call, lent| {
        replied(call, lent, |request, reply| {
            let written = b"ID".contains(&request.letter) && reply.third == 0;
            TextPacket { fourth: if written { request.fourth } else { reply.fourth }, ..reply }
        })
    },
    // The new register in the place of the previous.
    |call, lent| {
        replied(call, lent, |request, reply| {
            let written = request.letter == b'R' && reply.third == 0;
            TextPacket { fourth: if written { request.fourth } else { reply.fourth }, ..reply }
        })
    },
    // ERRFLG of eight bits.
    |call, lent| replied(call, lent, |_, reply| TextPacket { third: reply.third & 0xff, ..reply }),
    // Always PID 0.
    |call, lent| replied(call, lent, |_, reply| TextPacket { pid: 0, ..reply }),
    // Always the lower-case letter.
    |call, lent| {
        replied(call, lent, |_, reply| TextPacket {
            letter: reply.letter.to_ascii_lowercase(),
            ..reply
        })
    },
    // c is served.
    |call, lent| {
        replied(call, lent, |request, reply| match request.letter {
            b'c' => TextPacket { third: 0, fourth: 0, ..reply },
            _ => reply,
        })
    },
    // 16 where no process is current.
    |call, lent| {
        replied(call, lent, |request, reply| {
            let none = request.letter == b'r' && request.pid == 0 && reply.third != 0;
            TextPacket { fourth: if none { reply.fourth.max(16) } else { reply.fourth }, ..reply }
        })
    },
];

#[test]
fn replies() {
    let whats = ["the number or the answer differs", "the reply differs"];
    for (i, fault) in REPLIES.into_iter().enumerate() {
        let found = found(fault);
        assert!(is_one_of(found.clone(), &whats), "fault {i}: {found:?}");
    }
}

/// Another result, with the same reply.
#[test]
fn results() {
    let faults: [Stub; 4] = [
        // A byte more.
        |call, lent| {
            let result = archive(call, lent);
            result + if served(call, result).is_some() { 0x1_0000 } else { 0 }
        },
        // ERRFLG is not told.
        |call, lent| {
            let result = archive(call, lent);
            result & if served(call, result).is_some() { !0x100 } else { !0 }
        },
        // 10 before 11.
        |call, lent| match archive(call, lent) {
            11 if read_text(&call.input).is_err() => 10,
            result => result,
        },
        // 11 before 3.
        |call, lent| match archive(call, lent) {
            3 if call.kind == Kind::Text && call.reply < 34 => 11,
            result => result,
        },
    ];
    for (i, fault) in faults.into_iter().enumerate() {
        let what = Some("the number or the answer differs");
        assert_eq!(found(fault).as_deref(), what, "fault {i}");
    }
}

/// Runs the archive, then the fault after a text step that was carried out.
fn done(call: &Call, lent: &mut Lent<'_>, fault: fn(&TextPacket, &mut Lent<'_>)) -> u32 {
    let result = archive(call, lent);
    if let Some((request, true)) = served(call, result) {
        fault(&request, lent);
    }
    result
}

const MEMORY: &str = "memory differs";
const RECORD: &str = "the record differs";

/// What a text step leaves behind, and what the run says of that.
const EFFECTS: [(Stub, &[&str]); 7] = [
    // The rest of the buffer is cleared.
    (
        |call, lent| {
            let result = archive(call, lent);
            if served(call, result).is_some() {
                lent.reply[usize::from(result.to_le_bytes()[2])..].fill(0);
            }
            result
        },
        &["the reply differs"],
    ),
    // A word is written over a trap.
    (
        |call, lent| {
            done(call, lent, |request, lent| {
                if b"ID".contains(&request.letter) {
                    let at = (request.third - lent.record.target().base) as usize;
                    lent.memory[at..at + 4].copy_from_slice(&request.fourth.to_le_bytes());
                }
            })
        },
        &[MEMORY],
    ),
    // A write of a word is only answered.
    (
        |call, lent| {
            let (record, memory) = (lent.record.clone(), lent.memory.to_vec());
            let result = archive(call, lent);
            if served(call, result).is_some_and(|(request, _)| is_word(request.letter)) {
                *lent.record = record;
                lent.memory.copy_from_slice(&memory);
            }
            result
        },
        &[MEMORY, RECORD],
    ),
    // A read clears what it read.
    (
        |call, lent| {
            done(call, lent, |request, lent| {
                if request.letter == b'd' && lent.record.target().table.entries[0].used == 0 {
                    lent.memory[(request.third - lent.record.target().base) as usize] = 0;
                }
            })
        },
        &[MEMORY],
    ),
    // R writes low-order first.
    (
        |call, lent| {
            done(call, lent, |request, lent| {
                if request.letter == b'R' {
                    let at = 4 * request.third as usize;
                    let blocks = lent.registers.chunks_exact_mut(136);
                    blocks.for_each(|block| block[at..at + 4].reverse());
                }
            })
        },
        &["the register area differs"],
    ),
    // A text step drops the condition in hand.
    (
        |call, lent| {
            let result = archive(call, lent);
            if served(call, result).is_some() {
                lent.record.target_mut().table.draft.active = 0;
            }
            result
        },
        &[RECORD],
    ),
    // A text step makes no process current any more.
    (|call, lent| done(call, lent, |_, lent| lent.record.target_mut().selected = 0), &[RECORD]),
];

#[test]
fn effects() {
    for (i, (fault, whats)) in EFFECTS.into_iter().enumerate() {
        let found = found(fault);
        assert!(is_one_of(found.clone(), whats), "fault {i}: {found:?}");
    }
}
