//! The proved stub and its patches, as the archive has them.

use crate::op::Call;
use crate::patches::{self, Checked, Planned};
use crate::record::Record;
use reference::patch::Write;
use sanirvoq::{call, ffi};

/// What one call is lent.
pub struct Lent<'a> {
    pub record: &'a mut Record,
    pub memory: &'a mut [u8],
    pub registers: &'a mut [u8],
    pub input: &'a mut [u8],
    pub reply: &'a mut [u8],
}

/// The stub under comparison: the archive, or in tests one with a fault. Gives the packed result.
pub type Stub = fn(&Call, &mut Lent<'_>) -> u32;

pub fn archive(call: &Call, lent: &mut Lent<'_>) -> u32 {
    let Lent { record, memory, registers, input, reply } = lent;
    let (record, &Call { pid, value, .. }) = (record.raw_mut(), call);
    let (from, to) = (call.protected.start, call.protected.end);
    call::Lent { record, memory, registers, from, to, pid, value, input, reply }.call(call.kind)
}

/// The archive's checker and planner.
pub const PATCHES: patches::Calls = patches::Calls { check, plan };

fn check(lent: &mut patches::Lent<'_>, offer: &mut [Write]) -> Checked {
    let patches::Lent { record, memory, registers, wanted, room } = lent;
    let offer: Vec<ffi::Write> = offer.iter().map(sent).collect();
    let ffi::Verdict { number, verdict, index } =
        call::patch_check(record.raw(), memory, registers, &offer, wanted, room);
    Checked { number, verdict, index }
}

fn plan(lent: &mut patches::Lent<'_>, list: &mut [Write]) -> Planned {
    let patches::Lent { record, memory, registers, wanted, room } = lent;
    let mut places: Vec<ffi::Write> = list.iter().map(sent).collect();
    let ffi::Planning { number, address, writes } =
        call::patch_plan(record.raw(), memory, registers, wanted, room, &mut places);
    for (place, &ffi::Write { address, count, bytes }) in list.iter_mut().zip(&places) {
        *place = Write { address, count, bytes };
    }
    Planned { number, address, writes }
}

fn sent(&Write { address, count, bytes }: &Write) -> ffi::Write {
    ffi::Write { address, count, bytes }
}
