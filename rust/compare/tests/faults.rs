//! A stub with a fault is found, by what it did; a stub that differs where it may is not.

use compare::archive::{archive, Lent, Stub};
use compare::op::{Call, Kind};
use compare::record::Record;
use compare::run::Runner;
use reference::{BLOCK, ELEMENTS, PC, PLACES, STOPPED, TRAP};
use sanirvoq::ffi::{self, Entry, Process};

/// What the run says of a stub, if anything.
fn found(stub: Stub, steps: u64) -> Option<String> {
    let done = Runner::new(stub, 1, steps).run(|_| {});
    done.err().map(|failure| failure.difference.what)
}

fn is_rerr(call: &Call, lent: &Lent<'_>) -> bool {
    call.kind == Kind::Request && lent.reply.first() == Some(&1)
}

fn is_text_error(call: &Call, result: u32) -> bool {
    call.kind == Kind::Text && result.to_le_bytes()[..2] == [0, 1]
}

fn is_type(call: &Call, kind: u8) -> bool {
    call.kind == Kind::Request && call.input.first() == Some(&kind)
}

/// Whether a Tcondbreak was accepted.
fn is_served(call: &Call, lent: &Lent<'_>, number: u8) -> bool {
    is_type(call, 16) && number == 0 && lent.reply[0] == 17
}

/// Runs the archive, then the fault, which is told the number and may change the result.
macro_rules! faulty {
    (|$call:ident, $lent:ident, $number:ident, $result:ident| $fault:expr) => {
        |$call: &Call, $lent: &mut Lent<'_>| {
            #[allow(unused_mut)]
            let mut $result = archive($call, $lent);
            let $number = $result as u8;
            $fault;
            $result
        }
    };
}

#[test]
fn the_archive_has_none() {
    assert_eq!(found(archive, 50_000), None);
}

#[test]
fn numbers_and_answers() {
    let faults: [Stub; 5] = [
        faulty!(|call, _lent, number, result| if call.kind == Kind::Trap && number == 6 {
            result = 5;
        }),
        faulty!(|call, _lent, number, result| if call.kind == Kind::State && number == 4 {
            result |= 0x100;
        }),
        faulty!(|call, _lent, number, result| if call.kind == Kind::Trap && number == 0 {
            result ^= 0x0100_0000;
        }),
        faulty!(|call, _lent, number, result| if call.kind == Kind::Schedule && number == 0 {
            result ^= 0x100;
        }),
        faulty!(|call, _lent, number, result| if call.kind == Kind::Setup && number == 2 {
            result = 0;
        }),
    ];
    for fault in faults {
        assert_eq!(found(fault, 50_000).as_deref(), Some("the number or the answer differs"));
    }
}

/// What a fault is told of an accepted Tstart: the process's index, whether it was Stopped, and the
/// result. It gives another.
type Start = fn(&mut Lent<'_>, usize, bool, u32) -> u32;

/// Runs the archive, then the fault after an accepted Tstart.
fn started(call: &Call, lent: &mut Lent<'_>, fault: Start) -> u32 {
    let processes = lent.record.target().processes;
    let result = archive(call, lent);
    if !is_type(call, 14) || result as u8 != 0 || lent.reply[0] != 15 {
        return result;
    }
    let named = |one: &Process| call.input[1..5] == one.pid.to_be_bytes();
    let index = processes.iter().position(named).unwrap();
    fault(lent, index, processes[index].state == STOPPED, result)
}

/// The breakpoint at the pc of this block.
fn entry_at<'a>(lent: &'a mut Lent<'_>, block: usize) -> Option<&'a mut Entry> {
    let pc = lent.registers[BLOCK * block + PC..].first_chunk().copied();
    let pc = pc.map(u32::from_be_bytes);
    let entries = &mut lent.record.target_mut().table.entries;
    entries.iter_mut().find(|entry| entry.used == 1 && Some(entry.site) == pc)
}

/// The result of number 0 with the plain bytes of the breakpoint, if there is one.
fn passed(entry: Option<&mut Entry>) -> u32 {
    entry.map_or(0, |entry| u32::from_le_bytes([0, 2, entry.plain[0], entry.plain[1]]))
}

#[test]
fn continues() {
    let answers: [Stub; 4] = [
        // The trap's bytes.
        |call, lent| {
            started(call, lent, |_, _, _, result| if result == 0 { 0 } else { 0x9002_0200 })
        },
        // None.
        |call, lent| started(call, lent, |_, _, _, _| 0),
        // Those of a process that was not Stopped, too.
        |call, lent| started(call, lent, |lent, index, _, _| passed(entry_at(lent, index))),
        // Those at the pc of the first process.
        |call, lent| {
            started(
                call,
                lent,
                |lent, _, stopped, result| {
                    if stopped {
                        passed(entry_at(lent, 0))
                    } else {
                        result
                    }
                },
            )
        },
    ];
    for (i, fault) in answers.into_iter().enumerate() {
        let what = Some("the number or the answer differs");
        assert_eq!(found(fault, 50_000).as_deref(), what, "fault {i}");
    }
}

/// Removes the breakpoint where a process goes on, as 01 has it without request Two of 02.
#[test]
fn a_continue_that_removes() {
    let removes: Stub = |call, lent| {
        started(call, lent, |lent, index, stopped, result| {
            let base = lent.record.target().base;
            if let Some(entry) = entry_at(lent, index).filter(|_| stopped) {
                entry.used = 0;
                let (at, plain) = ((entry.site - base) as usize, entry.plain);
                lent.memory[at..at + 2].copy_from_slice(&plain[..2]);
            }
            result
        })
    };
    assert_eq!(found(removes, 50_000).as_deref(), Some("memory differs"));
}

#[test]
fn replies_and_inputs() {
    let reply: Stub = faulty!(|call, lent, number, _result| if is_type(call, 8) && number == 0 {
        lent.reply[9] ^= 1;
    });
    assert_eq!(found(reply, 50_000).as_deref(), Some("the reply differs"));
    let unused: Stub = faulty!(|call, lent, _number, _result| if call.kind == Kind::Trap {
        lent.reply.fill(0);
    });
    assert_eq!(found(unused, 50_000).as_deref(), Some("the reply differs"));
    let input: Stub = faulty!(|call, lent, _number, _result| if call.kind == Kind::Schedule {
        lent.input.iter_mut().for_each(|byte| *byte = !*byte);
    });
    assert_eq!(found(input, 50_000).as_deref(), Some("the input was changed"));
}

#[test]
fn buffers() {
    let faults: [(Stub, &str); 5] = [
        (
            faulty!(|call, lent, number, _result| if is_type(call, 4) && number == 0 {
                lent.memory[lent.memory.len() - 1] ^= 1;
            }),
            "memory differs",
        ),
        (
            faulty!(|_call, lent, number, _result| if number == 3 && !lent.memory.is_empty() {
                lent.memory[0] ^= 1;
            }),
            "memory differs",
        ),
        (
            faulty!(|call, lent, number, _result| if call.kind == Kind::Setup && number == 0 {
                lent.memory[3] ^= 1;
            }),
            "memory differs",
        ),
        (
            faulty!(|call, lent, _number, _result| if is_rerr(call, lent) {
                lent.registers[135] ^= 1;
            }),
            "the register area differs",
        ),
        (
            faulty!(|call, lent, number, _result| if call.kind == Kind::Restart && number == 0 {
                lent.registers[0] ^= 1;
            }),
            "the register area differs",
        ),
    ];
    for (fault, what) in faults {
        assert_eq!(found(fault, 50_000).as_deref(), Some(what));
    }
}

#[test]
fn records() {
    let faults: [Stub; 7] = [
        faulty!(|call, lent, number, _result| if is_type(call, 12) && number == 0 {
            lent.record.target_mut().processes[0].wanted ^= 1;
        }),
        faulty!(|call, lent, number, _result| if is_type(call, 6) && number == 0 {
            lent.record.target_mut().current ^= 1;
        }),
        faulty!(|call, lent, number, _result| if call.kind == Kind::State && number == 0 {
            lent.record.target_mut().processes[0].address ^= 1;
        }),
        faulty!(|call, lent, number, _result| if is_served(call, lent, number) {
            lent.record.target_mut().table.entries[1].plain[1] ^= 1;
        }),
        faulty!(|call, lent, number, _result| if is_served(call, lent, number) {
            // The value of the fourth place, in whatever condition that is.
            lent.record.raw_mut().places[7] ^= 1;
        }),
        faulty!(|call, lent, number, _result| if call.kind == Kind::Setup && number == 1 {
            lent.record.target_mut().size = 4;
        }),
        // A record that the independent stub cannot hold is compared whole.
        faulty!(|_call, lent, number, _result| {
            if number == 3 && lent.record.target().selected > 1 {
                lent.record.raw_mut().places[255] ^= 1;
            }
        }),
    ];
    for (i, fault) in faults.into_iter().enumerate() {
        assert_eq!(found(fault, 200_000).as_deref(), Some("the record differs"), "fault {i}");
    }
}

/// What nobody sees may differ after an accepted step, and may not change in a refused one.
#[test]
fn what_nobody_sees() {
    fn forget(lent: &mut Lent<'_>) {
        for entry in lent.record.target_mut().table.entries.iter_mut().filter(|one| one.used == 0) {
            (entry.id, entry.site) = (entry.id.wrapping_add(1), !entry.site);
        }
    }
    let accepted: Stub = faulty!(|call, lent, number, result| {
        if number == 0 && !is_rerr(call, lent) && !is_text_error(call, result) {
            forget(lent);
        }
    });
    assert_eq!(found(accepted, 50_000), None);
    // The byte after `selected` is in no field.
    const PADDING: usize = std::mem::offset_of!(ffi::Target, selected) + 1;
    let padding: Stub = faulty!(|call, lent, number, _result| if number == 0 {
        lent.record.bytes_mut()[PADDING] ^= call.fill;
    });
    assert_eq!(found(padding, 50_000), None);
    let unheld: Stub = faulty!(|call, lent, number, result| {
        if number == 0 && !is_text_error(call, result) {
            let held = held(lent.record);
            lent.record.raw_mut().places[2 * held..].fill(0xffff_ffff);
        }
    });
    assert_eq!(found(unheld, 50_000), None);
    let rerr: Stub = faulty!(|call, lent, number, _result| {
        if number == 0 && is_rerr(call, lent) {
            forget(lent);
        }
    });
    assert_eq!(found(rerr, 50_000).as_deref(), Some("Rerr, but the record was changed"));
    let errors: [Stub; 2] = [
        faulty!(|call, lent, _number, result| if is_text_error(call, result) {
            forget(lent);
        }),
        faulty!(|call, lent, _number, result| if is_text_error(call, result) {
            lent.record.raw_mut().places[255] ^= 1;
        }),
    ];
    for fault in errors {
        assert_eq!(found(fault, 50_000).as_deref(), Some("ERRFLG -1, but something was changed"));
    }
    let refused: Stub = faulty!(|_call, lent, number, _result| if number > 3 {
        forget(lent);
    });
    assert_eq!(found(refused, 50_000).as_deref(), Some("refused, but the record was changed"));
    let every_byte: [Stub; 2] = [
        faulty!(|_call, lent, number, _result| if number > 3 {
            lent.record.bytes_mut()[PADDING] ^= 1;
        }),
        faulty!(|_call, lent, number, _result| if number > 3 {
            lent.record.raw_mut().places[255] ^= 1;
        }),
    ];
    for fault in every_byte {
        assert_eq!(found(fault, 50_000).as_deref(), Some("refused, but the record was changed"));
    }
}

/// The places that a sound record holds.
fn held(record: &Record) -> usize {
    let draft = record.target().table.draft;
    let in_hand = if draft.active == 1 { usize::from(draft.count) } else { 0 };
    (record.raw().first_place(ffi::ENTRIES) + in_hand).min(PLACES)
}

/// A Tcondbreak with this letter and nothing in its unused bytes.
fn is_letter(call: &Call, letter: u8) -> bool {
    is_type(call, 16) && call.input.get(5..) == Some(&[letter, 0, 0, 0, 0])
}

/// Faults in the pool: elements that are lost, moved wrongly, or given to another condition.
#[test]
fn places() {
    let faults: [Stub; 4] = [
        // b leaves the elements where they were in hand.
        |call, lent| {
            let before = lent.record.raw().places;
            let result = archive(call, lent);
            if is_letter(call, b'b') && is_served(call, lent, result as u8) {
                lent.record.raw_mut().places = before;
            }
            result
        },
        // d leaves the elements of the others where they were.
        |call, lent| {
            let before = lent.record.raw().places;
            let result = archive(call, lent);
            if is_letter(call, b'd') && is_served(call, lent, result as u8) {
                lent.record.raw_mut().places = before;
            }
            result
        },
        // The last place is lost.
        faulty!(|_call, lent, number, _result| if number == 0 && held(lent.record) == PLACES {
            lent.record.raw_mut().places[2 * PLACES - 1] ^= 1;
        }),
        // A refusal that drops the condition in hand gives it the places of another.
        faulty!(|call, lent, number, _result| {
            if is_type(call, 16) && number == 0 && is_rerr(call, lent) {
                let planted = lent.record.raw().first_place(ffi::ENTRIES);
                if planted > 0 {
                    lent.record.raw_mut().places[2 * planted - 1] ^= 1;
                }
            }
        }),
    ];
    for (i, fault) in faults.into_iter().enumerate() {
        let found = found(fault, 200_000);
        let known = ["the record differs", "Rerr, but the record was changed"];
        assert!(found.as_deref().is_some_and(|what| known.contains(&what)), "fault {i}: {found:?}");
    }
}

/// What an element is given in the place of its refusal: it is served, and the condition in hand
/// stays as it was before.
fn serve_anyway(call: &Call, lent: &mut Lent<'_>, when: fn(&Record) -> bool) -> u32 {
    let (before, at_limit) = (lent.record.target().table.draft, when(lent.record));
    let result = archive(call, lent);
    if at_limit && is_type(call, 16) && lent.reply.starts_with(b"\x01count") {
        lent.record.target_mut().table.draft = before;
        lent.reply.copy_from_slice(&[17, 0, 0, 0, 0, 0, 0, 0, 0, 0]);
    }
    result
}

/// Other limits than 64 and 128.
#[test]
fn limits() {
    let faults: [Stub; 4] = [
        |call, lent| {
            serve_anyway(call, lent, |record| {
                usize::from(record.target().table.draft.count) == ELEMENTS && held(record) < PLACES
            })
        },
        |call, lent| {
            serve_anyway(call, lent, |record| {
                usize::from(record.target().table.draft.count) < ELEMENTS && held(record) == PLACES
            })
        },
        // A 64th element is refused.
        |call, lent| {
            let last = usize::from(lent.record.target().table.draft.count) == ELEMENTS - 1;
            let result = archive(call, lent);
            if last && is_letter(call, b'k') && is_served(call, lent, result as u8) {
                lent.reply.copy_from_slice(b"\x01count\0\0\0\0");
            }
            result
        },
        // So is the 128th place.
        |call, lent| {
            let last = held(lent.record) == PLACES - 1;
            let result = archive(call, lent);
            if last && is_type(call, 16) && is_served(call, lent, result as u8) {
                lent.reply.copy_from_slice(b"\x01count\0\0\0\0");
            }
            result
        },
    ];
    for (i, fault) in faults.into_iter().enumerate() {
        assert_eq!(found(fault, 200_000).as_deref(), Some("the reply differs"), "fault {i}");
    }
}

/// Accepts a Tmput and stores nothing.
fn stores_nothing(call: &Call, lent: &mut Lent<'_>) -> u32 {
    let (record, memory) = (lent.record.clone(), lent.memory.to_vec());
    let result = archive(call, lent);
    if is_type(call, 4) && result == 0 && lent.reply[0] == 5 {
        *lent.record = record;
        lent.memory.copy_from_slice(&memory);
    }
    result
}

/// Plants a breakpoint truly where none stands, and only answers where one does.
fn plants_once(call: &Call, lent: &mut Lent<'_>) -> u32 {
    let planted = |record: &Record| {
        record.target().table.entries.iter().filter(|entry| entry.used == 1).count()
    };
    let (record, memory) = (lent.record.clone(), lent.memory.to_vec());
    let result = archive(call, lent);
    if is_type(call, 16) && planted(&record) == 1 && planted(lent.record) == 2 {
        *lent.record = record;
        lent.memory.copy_from_slice(&memory);
    }
    result
}

/// Keeps the plain bytes of plant time, whatever is written.
fn keeps_plain(call: &Call, lent: &mut Lent<'_>) -> u32 {
    let before = lent.record.target().table.entries;
    let result = archive(call, lent);
    if is_type(call, 4) {
        let entries = &mut lent.record.target_mut().table.entries;
        entries.iter_mut().zip(before).for_each(|(entry, old)| entry.plain = old.plain);
    }
    result
}

/// The idle stubs of 01, and its first slip.
#[test]
fn idle_stubs() {
    let always_rerr: Stub = faulty!(|call, lent, number, _result| {
        if call.kind == Kind::Request && number == 0 {
            lent.reply.copy_from_slice(b"\x01inval\0\0\0\0");
        }
    });
    let zeros: Stub = faulty!(|call, lent, number, _result| {
        if call.kind == Kind::Request && number == 0 {
            lent.reply.fill(0);
        }
    });
    // What was not stored was to be under a trap, or not.
    let either = ["memory differs", "the record differs"];
    for (stub, what) in [
        (always_rerr, &["the reply differs"][..]),
        (zeros, &["the reply differs"]),
        (stores_nothing, &either),
        (plants_once, &either[..1]),
        (keeps_plain, &either[1..]),
    ] {
        let found = found(stub, 50_000);
        assert!(found.as_deref().is_some_and(|found| what.contains(&found)), "{found:?}");
    }
}

/// A fault that shows in a large window only, far from any stretch that a step names.
#[test]
fn far_bytes_of_large_windows() {
    let far: Stub = faulty!(|call, lent, number, _result| {
        if call.kind == Kind::Trap && number == 0 && lent.memory.len() == 65_536 {
            let at = if lent.memory[40_000..40_002] == TRAP { 50_000 } else { 40_000 };
            lent.memory[at] ^= 1;
        }
    });
    assert_eq!(found(far, 1_000_000).as_deref(), Some("memory differs"));
}
