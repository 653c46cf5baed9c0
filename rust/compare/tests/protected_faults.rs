//! A stub with a fault in what it protects is found.

use compare::archive::{archive, Lent, Stub};
use compare::op::{Call, Kind};
use compare::raw::held;
use compare::run::Runner;
use reference::{depth, read_text, write_text, TextPacket};
use std::ops::Range;

const NUMBER: &str = "the number or the answer differs";
const REPLY: &str = "the reply differs";
const MEMORY: &str = "memory differs";
const RECORD: &str = "the record differs";
const UNSUP: [u8; 10] = *b"\x01unsup\0\0\0\0";
const INVAL: [u8; 10] = *b"\x01inval\0\0\0\0";

/// What the run says of a stub, if anything.
fn found(stub: Stub) -> Option<String> {
    let done = Runner::new(stub, 1, 200_000).run(|_| {});
    done.err().map(|failure| failure.difference.what)
}

fn all_are_found(faults: &[Stub], whats: &[&str]) {
    for (i, &fault) in faults.iter().enumerate() {
        let found = found(fault);
        let known = found.as_deref().is_some_and(|found| whats.contains(&found));
        assert!(known, "fault {i}: {found:?}");
    }
}

/// The protected addresses of a record that is sound in this; none of another.
fn protected(lent: &Lent<'_>) -> Option<Range<u64>> {
    let target = lent.record.target();
    let (offset, length) = (target.protected_offset, target.protected_length);
    let sound = u64::from(offset) + u64::from(length) <= u64::from(target.size);
    let from = u64::from(target.base) + u64::from(offset);
    (sound && (offset | length) & 3 == 0).then(|| from..from + u64::from(length))
}

/// The bytes that a request of this type names.
fn bytes(call: &Call, kind: u8) -> Option<Range<u64>> {
    let request = call.input.first_chunk::<10>().filter(|_| call.kind == Kind::Request)?;
    let [first, a, b, c, d, n, ..] = *request;
    let address = u64::from(u32::from_be_bytes([a, b, c, d]));
    let n = if kind == 16 { 2 } else { u64::from(n) };
    (first == kind).then(|| address..address + n)
}

/// A b, with the bytes of its site.
fn site(call: &Call) -> Option<Range<u64>> {
    bytes(call, 16).filter(|_| call.input.get(5..) == Some(b"b\0\0\0\0"))
}

/// The word of a text request of one of these letters and of PID 0.
fn word(call: &Call, letters: &[u8]) -> Option<Range<u64>> {
    let packet = read_text(&call.input).ok().filter(|_| call.kind == Kind::Text)?;
    let address = u64::from(packet.third);
    (packet.pid == 0 && letters.contains(&packet.letter)).then(|| address..address + 4)
}

fn touch(one: &Range<u64>, other: &Range<u64>) -> bool {
    one.start.max(other.start) < one.end.min(other.end)
}

/// What a request names, and the stretch; whether the fault shows there.
type When = fn(&Call, &Range<u64>) -> bool;

/// Runs the archive, where the fault shows with nothing protected.
fn lets_through(call: &Call, lent: &mut Lent<'_>, when: When) -> u32 {
    let met =
        call.kind != Kind::Setup && protected(lent).is_some_and(|stretch| when(call, &stretch));
    if !met {
        return archive(call, lent);
    }
    let target = lent.record.target_mut();
    let kept = (target.protected_offset, target.protected_length);
    (target.protected_offset, target.protected_length) = (0, 0);
    let result = archive(call, lent);
    let target = lent.record.target_mut();
    (target.protected_offset, target.protected_length) = kept;
    result
}

/// Runs the archive, then gives a request of number 0 another reply where the fault shows.
fn replies(call: &Call, lent: &mut Lent<'_>, reply: [u8; 10], when: When) -> u32 {
    let stretch = protected(lent);
    let result = archive(call, lent);
    if result as u8 == 0 && stretch.is_some_and(|stretch| when(call, &stretch)) {
        lent.reply.copy_from_slice(&reply);
    }
    result
}

#[test]
fn what_is_let_through() {
    let faults: [Stub; 7] = [
        // Every write.
        |call, lent| lets_through(call, lent, |call, _| bytes(call, 4).is_some()),
        // from does not count.
        |call, lent| {
            lets_through(call, lent, |call, stretch| {
                bytes(call, 4).is_some_and(|bytes| bytes.end == stretch.start + 1)
            })
        },
        // The test of the first byte only.
        |call, lent| {
            lets_through(call, lent, |call, stretch| {
                bytes(call, 4).is_some_and(|bytes| !stretch.contains(&bytes.start))
            })
        },
        // The test of the last byte only.
        |call, lent| {
            lets_through(call, lent, |call, stretch| {
                bytes(call, 4).is_some_and(|bytes| bytes.end > stretch.end)
            })
        },
        // Every b.
        |call, lent| lets_through(call, lent, |call, _| site(call).is_some()),
        // A b at the stretch's last bytes.
        |call, lent| {
            lets_through(call, lent, |call, stretch| {
                site(call).is_some_and(|site| site.end == stretch.end)
            })
        },
        // A stretch of four, written whole.
        |call, lent| {
            lets_through(call, lent, |call, stretch| bytes(call, 4).as_ref() == Some(stretch))
        },
    ];
    all_are_found(&faults, &[REPLY]);
}

#[test]
fn words_that_are_let_through() {
    let faults: [Stub; 3] = [
        |call, lent| lets_through(call, lent, |call, _| word(call, b"ID").is_some()),
        |call, lent| lets_through(call, lent, |call, _| word(call, b"D").is_some()),
        |call, lent| {
            lets_through(call, lent, |call, stretch| {
                word(call, b"I").is_some_and(|word| word.start > stretch.start)
            })
        },
    ];
    all_are_found(&faults, &[NUMBER]);
}

#[test]
fn other_reasons() {
    let faults: [Stub; 9] = [
        // to counts too.
        |call, lent| {
            replies(call, lent, UNSUP, |call, stretch| {
                let begins = |bytes: Range<u64>| bytes.start == stretch.end && !bytes.is_empty();
                !stretch.is_empty() && bytes(call, 4).is_some_and(begins)
            })
        },
        // So does the byte before.
        |call, lent| {
            replies(call, lent, UNSUP, |call, stretch| {
                let ends = |bytes: Range<u64>| bytes.end == stretch.start && !bytes.is_empty();
                !stretch.is_empty() && bytes(call, 4).is_some_and(ends)
            })
        },
        // A write across an empty stretch is refused.
        |call, lent| {
            replies(call, lent, UNSUP, |call, stretch| {
                let across = |bytes: Range<u64>| {
                    bytes.start < stretch.start
                        && stretch.end < bytes.end
                        && bytes.end < bytes.start + 5
                };
                stretch.is_empty() && bytes(call, 4).is_some_and(across)
            })
        },
        // The stretch before the address, the count and the unused bytes.
        |call, lent| {
            replies(call, lent, UNSUP, |call, stretch| {
                bytes(call, 4).is_some_and(|bytes| touch(&bytes, stretch))
            })
        },
        // A write of no byte is refused.
        |call, lent| {
            replies(call, lent, UNSUP, |call, stretch| {
                let none = |bytes: Range<u64>| bytes.is_empty() && stretch.contains(&bytes.start);
                bytes(call, 4).is_some_and(none)
            })
        },
        // inval in the place of unsup, of a write and of a b.
        |call, lent| {
            replies(call, lent, INVAL, |call, stretch| {
                let within = |bytes: Range<u64>| touch(&bytes, stretch) && bytes.end <= stretch.end;
                bytes(call, 4).is_some_and(within)
            })
        },
        |call, lent| {
            replies(call, lent, INVAL, |call, stretch| {
                site(call).is_some_and(|site| touch(&site, stretch))
            })
        },
        // The stretch before all that is said of a site.
        |call, lent| {
            replies(call, lent, UNSUP, |call, stretch| {
                site(call).is_some_and(|site| touch(&site, stretch))
            })
        },
        // A read is refused.
        |call, lent| {
            replies(call, lent, UNSUP, |call, stretch| {
                bytes(call, 2).is_some_and(|bytes| touch(&bytes, stretch))
            })
        },
    ];
    all_are_found(&faults, &[REPLY]);
}

/// The depth of the condition in hand.
fn depth_in_hand(lent: &Lent<'_>) -> Option<usize> {
    held(lent.record.raw()).and_then(|stub| depth(&stub.draft?.elements))
}

#[test]
fn what_is_in_hand() {
    // The depth before the stretch.
    let deep: Stub = |call, lent| {
        let deep = depth_in_hand(lent).is_some_and(|depth| depth != 1);
        let result = archive(call, lent);
        if deep && site(call).is_some() && lent.reply == UNSUP {
            lent.reply.copy_from_slice(&INVAL);
        }
        result
    };
    assert_eq!(found(deep).as_deref(), Some(REPLY));
    // What is in hand stays.
    let stays: Stub = |call, lent| {
        let before = lent.record.target().table.draft;
        let result = archive(call, lent);
        if result as u8 == 0 && site(call).is_some() && lent.reply == UNSUP {
            lent.record.target_mut().table.draft = before;
        }
        result
    };
    assert_eq!(found(stays).as_deref(), Some(RECORD));
}

/// Gives a text step of number 0 that has an errno another.
fn errno(call: &Call, lent: &mut Lent<'_>, of: fn(&Call, &Range<u64>, u32) -> u32) -> u32 {
    let stretch = protected(lent);
    let result = archive(call, lent);
    let [number, error, filled, _] = result.to_le_bytes();
    let (Some(stretch), Kind::Text, 0, 1) = (stretch, call.kind, number, error) else {
        return result;
    };
    let reply = read_text(&lent.reply[..usize::from(filled)]).unwrap();
    let fourth = of(call, &stretch, reply.fourth);
    if fourth == reply.fourth {
        return result;
    }
    lent.reply.fill(call.fill);
    let filled = write_text(TextPacket { fourth, ..reply }, lent.reply).unwrap();
    u32::from_le_bytes([0, 1, filled as u8, 0])
}

#[test]
fn other_errors() {
    let faults: [Stub; 3] = [
        // The stretch before alignment.
        |call, lent| {
            errno(call, lent, |call, stretch, errno| match word(call, b"ID") {
                Some(word) if touch(&word, stretch) => 13,
                _ => errno,
            })
        },
        // As if it were outside.
        |call, lent| errno(call, lent, |_, _, errno| if errno == 13 { 14 } else { errno }),
        // What is outside beside it.
        |call, lent| {
            errno(call, lent, |call, stretch, errno| match word(call, b"ID") {
                Some(word) if errno == 14 && word.start == stretch.end => 13,
                _ => errno,
            })
        },
    ];
    all_are_found(&faults, &[NUMBER, REPLY]);
    // A word is not read there.
    let reads: Stub = |call, lent| {
        let stretch = protected(lent);
        let result = archive(call, lent);
        let met =
            word(call, b"id").zip(stretch).is_some_and(|(word, stretch)| touch(&word, &stretch));
        if met && result.to_le_bytes()[..2] == [0, 0] {
            let packet = read_text(&call.input).unwrap();
            lent.reply.fill(call.fill);
            let error = TextPacket { third: u32::MAX, fourth: 13, ..packet };
            let filled = write_text(error, lent.reply).unwrap();
            return u32::from_le_bytes([0, 1, filled as u8, 0]);
        }
        result
    };
    assert_eq!(found(reads).as_deref(), Some(NUMBER));
}

/// Changes a protected byte of memory after the archive, where the step is one of these.
fn changes(call: &Call, lent: &mut Lent<'_>, when: fn(&Call, &[u8], u8) -> bool) -> u32 {
    let (stretch, base) = (protected(lent), u64::from(lent.record.target().base));
    let result = archive(call, lent);
    let at = stretch.filter(|stretch| !stretch.is_empty()).map(|stretch| stretch.start - base);
    if let Some(byte) = at.and_then(|at| lent.memory.get_mut(at as usize)) {
        if when(call, lent.reply, result as u8) {
            *byte ^= 1;
        }
    }
    result
}

#[test]
fn a_protected_byte_changes() {
    let faults: [Stub; 4] = [
        |call, lent| {
            changes(call, lent, |call, _, number| call.kind == Kind::Restart && number == 0)
        },
        |call, lent| {
            changes(call, lent, |call, reply, _| call.kind == Kind::Request && reply == UNSUP)
        },
        |call, lent| changes(call, lent, |call, _, number| call.kind == Kind::Trap && number == 0),
        |call, lent| changes(call, lent, |_, _, number| number > 3),
    ];
    all_are_found(&faults, &[MEMORY]);
}

#[test]
fn setups() {
    // Nothing is protected.
    let none: Stub = |call, lent| {
        let result = archive(call, lent);
        if call.kind == Kind::Setup {
            let target = lent.record.target_mut();
            (target.protected_offset, target.protected_length) = (0, 0);
        }
        result
    };
    assert_eq!(found(none).as_deref(), Some(RECORD));
    // The stretch of before stays after a refusal.
    let stays: Stub = |call, lent| {
        let before = lent.record.target().protected_length;
        let result = archive(call, lent);
        if call.kind == Kind::Setup && result as u8 != 0 {
            lent.record.target_mut().protected_length = before;
        }
        result
    };
    assert_eq!(found(stays).as_deref(), Some(RECORD));
    // Other bounds: addresses cut to 32 bits, and to multiples of 4; to over the end.
    let bounds: [Stub; 4] = [
        |call, lent| other_bounds(call, lent, |Range { start, end }, _| start..end & 0xffff_ffff),
        |call, lent| other_bounds(call, lent, |Range { start, end }, _| start & !3..end),
        |call, lent| other_bounds(call, lent, |Range { start, end }, _| start..end & !3),
        |call, lent| other_bounds(call, lent, |Range { start, end }, last| start..end.min(last)),
    ];
    all_are_found(&bounds, &[NUMBER]);
}

/// A setup with another stretch.
fn other_bounds(call: &Call, lent: &mut Lent<'_>, other: fn(Range<u64>, u64) -> Range<u64>) -> u32 {
    let target = lent.record.target();
    let last = u64::from(target.base) + u64::from(target.size);
    archive(&Call { protected: other(call.protected.clone(), last), ..call.clone() }, lent)
}

/// Runs the archive with nothing protected where a stretch is not sound in this way.
fn taken_for_fit(call: &Call, lent: &mut Lent<'_>, when: fn(u32, u32, &Lent<'_>) -> bool) -> u32 {
    let target = lent.record.target();
    let (offset, length) = (target.protected_offset, target.protected_length);
    if call.kind == Kind::Setup || !when(offset, length, lent) {
        return archive(call, lent);
    }
    let target = lent.record.target_mut();
    (target.protected_offset, target.protected_length) = (0, 0);
    let result = archive(call, lent);
    let target = lent.record.target_mut();
    (target.protected_offset, target.protected_length) = (offset, length);
    result
}

#[test]
fn spoiled_stretches() {
    let faults: [Stub; 5] = [
        |call, lent| taken_for_fit(call, lent, |offset, _, _| offset & 3 != 0),
        |call, lent| taken_for_fit(call, lent, |_, length, _| length & 3 != 0),
        |call, lent| {
            taken_for_fit(call, lent, |offset, length, lent| {
                offset <= lent.record.target().size && length > lent.record.target().size - offset
            })
        },
        |call, lent| {
            taken_for_fit(call, lent, |offset, length, lent| {
                let wide = u64::from(offset) + u64::from(length);
                let size = lent.record.target().size;
                wide > u64::from(u32::MAX) && offset.wrapping_add(length) <= size
            })
        },
        |call, lent| {
            taken_for_fit(call, lent, |offset, length, lent| {
                let target = lent.record.target();
                target.table.entries.iter().any(|entry| {
                    let at = entry.site.wrapping_sub(target.base);
                    entry.used == 1 && at.wrapping_sub(offset) < length
                })
            })
        },
    ];
    all_are_found(&faults, &[NUMBER]);
}
