//! Checkers and planners with a fault are found, by what they did; the archive's have none. Those with
//! a fault are the independent stub's own but for that.

use compare::archive::PATCHES;
use compare::independent::Held;
use compare::patches::{run, Calls, Checked, Lent, Planned};
use reference::patch::{Judged, NotPatched, PatchLent, Write};

fn sound_check(lent: &mut Lent<'_>, offer: &mut [Write]) -> Checked {
    let judged = stub_call(lent, |stub, lent| stub.patch_check(lent, offer));
    match judged {
        Ok(Judged::Accepted) => Checked::default(),
        Ok(Judged::Bound(index)) => Checked { number: 0, verdict: 1, index: index as u32 },
        Ok(Judged::Differ) => Checked { number: 0, verdict: 2, index: 0 },
        Err(refusal) => Checked { number: refusal.number(), ..Checked::default() },
    }
}

fn sound_plan(lent: &mut Lent<'_>, list: &mut [Write]) -> Planned {
    match stub_call(lent, |stub, lent| stub.patch_plan(lent, list)) {
        Ok(writes) => Planned { number: 0, address: 0, writes: writes as u32 },
        Err(refusal @ NotPatched::Protected(address)) => {
            Planned { number: refusal.number(), address, writes: 0 }
        }
        Err(refusal) => Planned { number: refusal.number(), ..Planned::default() },
    }
}

fn stub_call<T>(
    lent: &mut Lent<'_>,
    call: impl FnOnce(&reference::Stub, PatchLent<'_>) -> Result<T, NotPatched>,
) -> Result<T, NotPatched> {
    let held = Held::new(lent.record);
    let (memory, registers, wanted) = (&*lent.memory, &*lent.registers, &*lent.wanted);
    let room = lent.room.len();
    let unfit = NotPatched::Record(reference::Refusal::Unfit);
    let size = NotPatched::Record(reference::Refusal::Size);
    match (held.number(memory, registers), held.stub()) {
        (2, _) => Err(size),
        _ if room != lent.record.target().size as usize => Err(size),
        (0, Some(stub)) => call(stub, PatchLent { memory, registers, wanted, room }),
        _ => Err(unfit),
    }
}

const SOUND: Calls = Calls { check: sound_check, plan: sound_plan };

fn found(calls: Calls) -> Option<&'static str> {
    run(calls, 1, 20_000).err().map(|failure| failure.what)
}

#[test]
fn a_run_reaches_everything() {
    for (calls, seed) in [(SOUND, 1), (PATCHES, 2), (PATCHES, 3)] {
        let tally = run(calls, seed, 10_000).unwrap_or_else(|failure| panic!("{failure}"));
        assert_eq!(tally.lacking(), Vec::<String>::new(), "{}", tally.table());
    }
    let short = run(SOUND, 1, 100).unwrap_or_else(|failure| panic!("{failure}"));
    assert!(!short.lacking().is_empty());
}

/// The protected stretch of a sound record, as offsets.
fn stretch(lent: &Lent<'_>) -> std::ops::Range<u64> {
    let target = lent.record.target();
    let from = u64::from(target.base) + u64::from(target.protected_offset);
    from..from + u64::from(target.protected_length)
}

type Check = fn(&mut Lent<'_>, &mut [Write]) -> Checked;
type Plan = fn(&mut Lent<'_>, &mut [Write]) -> Planned;

#[test]
fn checkers() {
    let faults: [Check; 9] = [
        // A count of 0 is accepted.
        |lent, offer| {
            let mut others: Vec<_> = offer.iter().copied().filter(|one| one.count > 0).collect();
            sound_check(lent, &mut others)
        },
        // A count of 5 is one of 4.
        |lent, offer| {
            let cut = |one: &Write| Write { count: one.count.min(4), ..*one };
            sound_check(lent, &mut offer.iter().map(cut).collect::<Vec<_>>())
        },
        // The last byte of a write is not tested.
        |lent, offer| {
            let shorter = |one: &Write| Write { count: one.count.max(2) - 1, ..*one };
            let broken = sound_check(lent, &mut offer.iter().map(shorter).collect::<Vec<_>>());
            let checked = sound_check(lent, offer);
            if checked.verdict == 1 && broken.verdict != 1 {
                broken
            } else {
                checked
            }
        },
        // A difference is said before a broken bound.
        |lent, offer| {
            let checked = sound_check(lent, offer);
            if checked.verdict == 1 {
                Checked { number: 0, verdict: 2, index: 0 }
            } else {
                checked
            }
        },
        // The last write that breaks a bound.
        |lent, offer| {
            let checked = sound_check(lent, offer);
            if checked.verdict == 1 {
                Checked { index: offer.len() as u32 - 1, ..checked }
            } else {
                checked
            }
        },
        // Protected bytes are free.
        |lent, offer| {
            let kept = lent.record.clone();
            lent.record.target_mut().protected_length &= 3;
            let checked = sound_check(lent, offer);
            lent.record.clone_from(&kept);
            checked
        },
        // The offer backwards.
        |lent, offer| {
            let checked = sound_check(lent, offer);
            let mut turned: Vec<_> = offer.iter().rev().copied().collect();
            if checked.verdict == 1 {
                checked
            } else {
                sound_check(lent, &mut turned)
            }
        },
        // No offer is too long.
        |lent, offer| {
            let upto = offer.len().min(16_384);
            sound_check(lent, &mut offer[..upto])
        },
        // 16,384 are too many.
        |lent, offer| {
            let checked = sound_check(lent, offer);
            let many = checked.number == 0 && offer.len() == 16_384;
            Checked { number: if many { 16 } else { checked.number }, ..checked }
        },
    ];
    for (i, check) in faults.into_iter().enumerate() {
        assert_eq!(found(Calls { check, ..SOUND }), Some("the verdict differs"), "fault {i}");
    }
    let changes: [Check; 4] = [
        |lent, offer| {
            let checked = sound_check(lent, offer);
            lent.record.bytes_mut()[70] ^= 1;
            checked
        },
        |lent, offer| {
            let checked = sound_check(lent, offer);
            lent.memory.iter_mut().for_each(|byte| *byte ^= 1);
            checked
        },
        |lent, offer| {
            let checked = sound_check(lent, offer);
            lent.wanted.iter_mut().for_each(|byte| *byte ^= 1);
            checked
        },
        |lent, offer| {
            let checked = sound_check(lent, offer);
            offer.iter_mut().for_each(|one| one.bytes[3] ^= 1);
            checked
        },
    ];
    for check in changes {
        let what = Some("checking changed what it may not");
        assert_eq!(found(Calls { check, ..SOUND }), what);
    }
}

/// A plan of number 0 with its list changed.
fn changed(
    lent: &mut Lent<'_>,
    list: &mut [Write],
    change: fn(&Lent<'_>, &mut [Write]),
) -> Planned {
    let planned = sound_plan(lent, list);
    if planned.number == 0 {
        change(lent, &mut list[..planned.writes as usize]);
    }
    planned
}

#[test]
fn planners() {
    let lists: [Plan; 4] = [
        // Unused data is not zero.
        |lent, list| {
            changed(lent, list, |_, plan| {
                for one in plan.iter_mut().filter(|one| one.count < 4) {
                    one.bytes[3] = 7;
                }
            })
        },
        // Only what differs is written.
        |lent, list| {
            changed(lent, list, |_, plan| {
                for one in plan.iter_mut().filter(|one| one.count == 4) {
                    (one.count, one.bytes[3]) = (3, 0);
                }
            })
        },
        // Cut one byte late before a protected byte.
        |lent, list| {
            changed(lent, list, |lent, plan| {
                let from = stretch(lent).start;
                let next = |one: &Write| u64::from(one.address) + u64::from(one.count) == from;
                plan.iter_mut()
                    .filter(|one| one.count < 4 && next(one))
                    .for_each(|one| one.count += 1);
            })
        },
        // A place behind the plan is written.
        |lent, list| {
            let planned = sound_plan(lent, list);
            if let Some(place) = list.get_mut(planned.writes as usize) {
                *place = Write::default();
            }
            planned
        },
    ];
    for (i, plan) in lists.into_iter().enumerate() {
        assert_eq!(found(Calls { plan, ..SOUND }), Some("the list differs"), "fault {i}");
    }
    let answers: [Plan; 5] = [
        // 17 with exact room.
        |lent, list| {
            let planned = sound_plan(lent, list);
            let exact = planned.number == 0 && planned.writes as usize == list.len();
            if exact {
                Planned { number: 17, ..Planned::default() }
            } else {
                planned
            }
        },
        // 17 before 21.
        |lent, list| {
            let planned = sound_plan(lent, list);
            let none = planned.number == 21 && list.is_empty();
            if none {
                Planned { number: 17, ..Planned::default() }
            } else {
                planned
            }
        },
        // The address of another byte.
        |lent, list| {
            let planned = sound_plan(lent, list);
            let by = u32::from(planned.number == 21);
            Planned { address: planned.address + by, ..planned }
        },
        // An image of another size is planned.
        |lent, list| {
            let planned = sound_plan(lent, list);
            Planned { number: if planned.number == 16 { 0 } else { planned.number }, ..planned }
        },
        // As many writes as there are places.
        |lent, list| {
            let planned = sound_plan(lent, list);
            let places = list.len() as u32;
            if planned.number == 0 {
                Planned { writes: places, ..planned }
            } else {
                planned
            }
        },
    ];
    for (i, plan) in answers.into_iter().enumerate() {
        let what = Some("the answer of a plan differs");
        assert_eq!(found(Calls { plan, ..SOUND }), what, "fault {i}");
    }
    let refused: Plan = |lent, list| {
        let planned = sound_plan(lent, list);
        if planned.number == 17 {
            list.fill(Write::default());
        }
        planned
    };
    assert_eq!(found(Calls { plan: refused, ..SOUND }), Some("the list differs"));
    let changes: Plan = |lent, list| {
        let planned = sound_plan(lent, list);
        lent.registers.iter_mut().for_each(|byte| *byte ^= 1);
        planned
    };
    let what = Some("planning changed what it may not");
    assert_eq!(found(Calls { plan: changes, ..SOUND }), what);
}
