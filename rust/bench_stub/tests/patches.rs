//! Patches of this stub beside those of the independent one: the same verdicts, lists and numbers.

use bench_stub::patch::{Judged, Planned, Write};
use bench_stub::{Refusal, Stub, BLOCK};
use reference::patch::{self as other, NotPatched, PatchLent};
use reference::Session;
use std::collections::BTreeMap;
use std::ops::Range;
use steps::step::ten;
use steps::Rng;

/// Both stubs after the same setup and breakpoints, over the same memory.
fn both(rng: &mut Rng, size: u32) -> (Stub, Session) {
    let base = rng.pick(&[4_096, size.wrapping_neg()]);
    let (from, to) = (rng.below(size / 4 + 1), rng.below(size / 4 + 1));
    let at = |words: u32| u64::from(base) + 4 * u64::from(words);
    let protected = Range { start: at(from.min(to)), end: at(from.max(to)) };
    let (mut memory, mut registers) = (rng.bytes(size as usize), vec![0; BLOCK]);
    let (mut own, mut other) = (Stub::default(), reference::Stub::empty());
    let processes = [(5, 0)];
    let range = protected.clone();
    assert_eq!(own.setup(base, size, range, &processes, &memory, &registers), Ok(()));
    assert_eq!(other.setup(base, size, protected, &processes, &memory, &registers), Ok(()));
    for id in 0..rng.below(9) {
        let site = base + 2 * rng.below(size / 2);
        for request in [ten(16, id, b"n"), ten(16, site, b"b")] {
            let (mut reply, mut copy) = ([0; 10], memory.clone());
            own.request(&mut copy, &mut registers, &request, &mut reply).unwrap();
            other.request(&mut memory, &mut registers, &request, &mut reply).unwrap();
            assert_eq!(memory, copy);
        }
    }
    (own, Session { stub: other, memory, registers })
}

fn translated(write: &Write) -> other::Write {
    other::Write { address: write.address, count: write.count, bytes: write.bytes }
}

/// A wanted image: the plain one with a share of its bytes changed.
fn wanted(rng: &mut Rng, s: &Session) -> Vec<u8> {
    let mut image = vec![0; s.stub.size as usize];
    s.stub.read_plain(&s.memory, s.stub.base, &mut image).unwrap();
    let (share, anywhere) = (rng.pick(&[0, 3, 20, 100]), rng.chance(10));
    for (address, byte) in (u64::from(s.stub.base)..).zip(&mut image) {
        if rng.chance(share) && (anywhere || !s.stub.protects(address as u32, 1)) {
            *byte = rng.byte();
        }
    }
    if rng.chance(5) {
        image.pop();
    }
    image
}

fn offer(rng: &mut Rng, plan: &[Write], s: &Session) -> Vec<Write> {
    let mut list = plan.to_vec();
    if rng.chance(60) {
        let address = s.stub.base.wrapping_sub(3).wrapping_add(rng.below(s.stub.size + 6));
        let wild = Write { address, count: rng.below(6), bytes: rng.word().to_le_bytes() };
        list.insert(rng.index(list.len() + 1), wild);
    }
    if rng.chance(30) && !list.is_empty() {
        list.remove(rng.index(list.len()));
    }
    if rng.chance(2) {
        list.resize(rng.pick(&[16_384, 16_385]), Write::default());
    }
    list
}

#[test]
fn both_stubs_check_and_plan_the_same() {
    let (mut rng, mut seen) = (Rng(3), BTreeMap::new());
    for _ in 0..40_000 {
        let most = if rng.chance(5) { 200 } else { 8 };
        let size = 4 * (1 + rng.below(most));
        let (own, mut s) = both(&mut rng, size);
        let wanted = wanted(&mut rng, &s);
        if rng.chance(3) {
            s.memory[0] ^= 0xff;
        }
        let size = size as usize + rng.index(20) / 19;
        let (mut room, fill) = (vec![0; size], Write { address: 7, count: 7, bytes: [7; 4] });
        let places = rng.index(wanted.len() + 2);
        let (mut list, mut theirs) = (vec![fill; places], vec![translated(&fill); places]);
        let lent =
            PatchLent { memory: &s.memory, registers: &s.registers, wanted: &wanted, room: size };
        let planned = own.patch_plan(&s.memory, &s.registers, &wanted, &mut room, &mut list);
        let ours = match planned {
            Ok(Planned::Filled(writes)) => Ok(writes),
            Ok(Planned::Protected(address)) => Err((21, address)),
            Err(refusal) => Err((refusal.number(), 0)),
        };
        let other = s.stub.patch_plan(lent, &mut theirs).map_err(|refusal| match refusal {
            NotPatched::Protected(address) => (21, address),
            _ => (refusal.number(), 0),
        });
        assert_eq!(ours, other);
        assert!(list.iter().map(translated).eq(theirs.iter().copied()));
        *seen.entry(("plan", ours.err().map_or(0, |(number, _)| number))).or_insert(0) += 1;

        let plan = &list[..ours.unwrap_or(0)];
        let offer = offer(&mut rng, plan, &s);
        let translated: Vec<_> = offer.iter().map(translated).collect();
        let judged = own.patch_check(&s.memory, &s.registers, &offer, &wanted, &mut room);
        let other = s.stub.patch_check(lent, &translated).map(|judged| match judged {
            other::Judged::Accepted => Judged::Accepted,
            other::Judged::Bound(index) => Judged::Bound(index),
            other::Judged::Differ => Judged::Differ,
        });
        assert_eq!(judged.map_err(Refusal::number), other.map_err(|refusal| refusal.number()));
        let kind = match judged {
            Ok(Judged::Accepted) => "accepted",
            Ok(Judged::Bound(_)) => "bound",
            Ok(Judged::Differ) => "differ",
            Err(_) => "refused",
        };
        *seen.entry((kind, judged.err().map_or(0, Refusal::number))).or_insert(0) += 1;
    }
    // Plans of numbers 0, 2, 3, 16, 17 and 21; three verdicts, and refusals of numbers 2, 3 and 16.
    assert!(seen.len() == 12 && seen.values().all(|&count| count > 100), "{seen:?}");
}
