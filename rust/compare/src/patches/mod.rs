//! Patches, document 02, Twelve: random plain windows, wanted images, offers and lists, on both sides.
//! The record, memory, register area, image and offer must be as they were after each call; what the
//! room holds is of no account.

mod make;
mod tally;

use crate::independent::Held;
use crate::op::Hex;
use crate::record::Record;
use make::Made;
use reference::patch::{Judged, NotPatched, PatchLent, Write};
use std::fmt;
use steps::Rng;
use tally::Tally;

/// What both calls are lent.
pub struct Lent<'a> {
    pub record: &'a mut Record,
    pub memory: &'a mut [u8],
    pub registers: &'a mut [u8],
    pub wanted: &'a mut [u8],
    pub room: &'a mut [u8],
}

/// What checking answers: the number, 0 accepted, 1 a broken bound or 2 images that differ, and the
/// index of the write that breaks the bound.
#[derive(Debug, Clone, Copy, Default, PartialEq, Eq)]
pub struct Checked {
    pub number: u8,
    pub verdict: u8,
    pub index: u32,
}

/// What planning answers: the number, the address of the lowest protected byte that differs, and how
/// many writes were filled.
#[derive(Debug, Clone, Copy, Default, PartialEq, Eq)]
pub struct Planned {
    pub number: u8,
    pub address: u32,
    pub writes: u32,
}

/// The calls under comparison: the archive's, or in tests some with a fault.
#[derive(Clone, Copy)]
pub struct Calls {
    pub check: fn(&mut Lent<'_>, &mut [Write]) -> Checked,
    pub plan: fn(&mut Lent<'_>, &mut [Write]) -> Planned,
}

/// The sides differ on what was made, or both from what must come out.
#[derive(Debug)]
pub struct Failure {
    pub what: &'static str,
    made: Box<Made>,
    proved: String,
    independent: String,
}

impl Failure {
    fn new(what: &'static str, made: &Made, proved: String, independent: String) -> Self {
        Self { what, made: Box::new(made.clone()), proved, independent }
    }
}

impl fmt::Display for Failure {
    fn fmt(&self, out: &mut fmt::Formatter<'_>) -> fmt::Result {
        let Made { record, memory, registers, wanted, offer, room, list, .. } = &*self.made;
        writeln!(out, "record {:?}", record.target())?;
        writeln!(out, "memory of {} bytes, {}", memory.len(), Hex(first(memory)))?;
        writeln!(out, "wanted, of {} bytes, {}", wanted.len(), Hex(first(wanted)))?;
        writeln!(out, "registers of {}, room of {room}, list of {list}", registers.len())?;
        writeln!(out, "offer of {}", offer.len())?;
        for (i, write) in offer.iter().enumerate().take(SHOWN) {
            writeln!(
                out,
                "offer {i}: {:08x} {:x} {}",
                write.address,
                write.count,
                Hex(&write.bytes)
            )?;
        }
        writeln!(out, "{}", self.what)?;
        writeln!(out, "  proved       {}\n  independent  {}", self.proved, self.independent)
    }
}

/// How many bytes, and how many writes, a failure shows.
const SHOWN: usize = 64;

fn first<T>(list: &[T]) -> &[T] {
    &list[..list.len().min(SHOWN)]
}

/// Runs a call over copies, and says whether it changed something that it may not.
fn over_copies<T>(made: &Made, call: impl FnOnce(&mut Lent<'_>) -> T) -> (T, bool) {
    let mut copy = made.clone();
    // No room past the lengths, so that valgrind sees a read there.
    copy.wanted.shrink_to_fit();
    let mut room = vec![0xee; made.room];
    let Made { record, memory, registers, wanted, .. } = &mut copy;
    let done = call(&mut Lent { record, memory, registers, wanted, room: &mut room });
    let kept = copy.record == made.record
        && (&copy.memory, &copy.registers) == (&made.memory, &made.registers)
        && copy.wanted == made.wanted;
    (done, kept)
}

/// What the record and the sizes come to; then the independent stub's answer.
fn independent<T>(
    made: &Made,
    call: impl FnOnce(&reference::Stub, PatchLent<'_>) -> Result<T, NotPatched>,
) -> Result<T, (u8, u32)> {
    let Made { record, memory, registers, wanted, room, .. } = made;
    let held = Held::new(record);
    let lent = PatchLent { memory, registers, wanted, room: *room };
    match (held.number(memory, registers), held.stub()) {
        (2, _) => Err((2, 0)),
        _ if *room != record.target().size as usize => Err((2, 0)),
        (0, Some(stub)) => call(stub, lent).map_err(|refusal| match refusal {
            NotPatched::Protected(address) => (refusal.number(), address),
            _ => (refusal.number(), 0),
        }),
        _ => Err((3, 0)),
    }
}

fn check(calls: Calls, made: &Made, tally: &mut Tally) -> Result<(), Failure> {
    let mut offer = made.offer.clone();
    let (ours, kept) = over_copies(made, |lent| (calls.check)(lent, &mut offer));
    let judged = independent(made, |stub, lent| stub.patch_check(lent, &made.offer));
    let theirs = match judged {
        Ok(Judged::Accepted) => Checked::default(),
        Ok(Judged::Bound(index)) => Checked { number: 0, verdict: 1, index: index as u32 },
        Ok(Judged::Differ) => Checked { number: 0, verdict: 2, index: 0 },
        Err((number, _)) => Checked { number, ..Checked::default() },
    };
    let what = if ours != theirs {
        "the verdict differs"
    } else if !kept || offer != made.offer {
        "checking changed what it may not"
    } else if ours.number != made.check_number() {
        "the number of a check is none that was made"
    } else if judged.is_ok() && made.judged.is_some_and(|made| Ok(made) != judged) {
        "the verdict is not as it was made"
    } else {
        tally.checked(made, ours.number, judged.unwrap_or(Judged::Differ));
        return Ok(());
    };
    Err(Failure::new(what, made, format!("{ours:?}"), format!("{theirs:?}")))
}

fn plan(calls: Calls, made: &Made, tally: &mut Tally) -> Result<(), Failure> {
    let (mut list, mut wanted) = (vec![made.fill; made.list], vec![made.fill; made.list]);
    let (ours, kept) = over_copies(made, |lent| (calls.plan)(lent, &mut list));
    let theirs = match independent(made, |stub, lent| stub.patch_plan(lent, &mut wanted)) {
        Ok(writes) => Planned { number: 0, address: 0, writes: writes as u32 },
        Err((number, address)) => Planned { number, address, writes: 0 },
    };
    let planned = theirs.writes as usize;
    let what = if ours != theirs {
        "the answer of a plan differs"
    } else if list != wanted {
        "the list differs"
    } else if !kept {
        "planning changed what it may not"
    } else if ours.number != made.plan_number() {
        "the number of a plan is none that was made"
    } else if ours.number == 0 && made.planned != Ok(planned) {
        "the plan is not as long as was counted"
    } else if ours.number == 21 && made.planned != Err(ours.address) {
        "the address is not that of the lowest protected difference"
    } else {
        tally.planned(made, ours.number, ours.writes);
        return accepted(calls, made, &list[..planned], ours.number);
    };
    let text = |answer: Planned, list: &[Write]| format!("{answer:?} {:x?}", first(list));
    Err(Failure::new(what, made, text(ours, &list), text(theirs, &wanted)))
}

/// A plan is accepted by the checker of the same side.
fn accepted(calls: Calls, made: &Made, plan: &[Write], number: u8) -> Result<(), Failure> {
    if number != 0 {
        return Ok(());
    }
    let mut offer = plan.to_vec();
    let (ours, _) = over_copies(made, |lent| (calls.check)(lent, &mut offer));
    if ours == Checked::default() {
        Ok(())
    } else {
        let what = "a plan is not accepted";
        Err(Failure::new(what, made, format!("{ours:?}"), format!("{:x?}", first(plan))))
    }
}

/// Runs so many checks and plans on both sides.
pub fn run(calls: Calls, seed: u64, patches: u64) -> Result<Tally, Failure> {
    let (mut rng, mut tally) = (Rng(seed), Tally::default());
    for _ in 0..patches {
        let made = Made::new(&mut rng);
        check(calls, &made, &mut tally)?;
        plan(calls, &made, &mut tally)?;
    }
    Ok(tally)
}
