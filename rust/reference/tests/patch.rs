//! Document 02, Twelve: the checker and the planner over plain images, beside all lists there are, and
//! over the plain window of a record.

mod common;

use common::*;
use reference::patch::{Judged, NotPatched, PatchLent, Place, Write, LONGEST_OFFER};
use reference::{Refusal, Session, Stub};
use std::ops::Range;

fn place(base: u32, protected: Range<u64>) -> Place {
    Place { base, protected }
}

fn write(address: u32, bytes: &[u8]) -> Write {
    let mut data = [0; 4];
    data[..bytes.len()].copy_from_slice(bytes);
    Write { address, count: bytes.len() as u32, bytes: data }
}

/// The stretches of a window: multiples of 4, empty ones too.
fn stretches(base: u32, size: u32) -> Vec<Range<u64>> {
    let edges = (0..=size).step_by(4).map(|at| u64::from(base) + u64::from(at));
    let pairs = edges.clone().flat_map(|from| edges.clone().map(move |to| (from, to)));
    pairs.filter(|(from, to)| from <= to).map(|(from, to)| from..to).collect()
}

/// The image of a number of digits.
fn image(mut number: usize, size: u32, values: u8) -> Vec<u8> {
    let digits = (0..size).map(|_| {
        let digit = number % usize::from(values);
        number /= usize::from(values);
        digit as u8
    });
    digits.collect()
}

/// The planner's list is accepted and as short as the shortest of all lists, and it plans exactly where
/// there is one, from the image of zeros to every other.
fn is_shortest(size: u32, values: u8, base: u32, protected: Range<u64>) {
    let place = place(base, protected);
    let plain = vec![0; size as usize];
    for (number, shortest) in place.shortest(size, values).into_iter().enumerate() {
        let wanted = image(number, size, values);
        match place.plan(&plain, &wanted) {
            Ok(list) => {
                assert_eq!(place.check(&plain, &list, &wanted), Judged::Accepted, "{wanted:?}");
                assert_eq!(Some(list.len()), shortest, "{wanted:?} {place:?}");
                let unused = |one: &Write| one.bytes[one.count as usize..].iter().all(|&b| b == 0);
                assert!(list.iter().all(unused));
            }
            Err(address) => {
                assert_eq!(shortest, None, "{wanted:?} {place:?}");
                let first = (address - place.base) as usize;
                assert!(wanted[first] != 0 && place.protected.contains(&address.into()));
                let lower = (0..first).map(|at| place.base + at as u32);
                assert!(lower.zip(&wanted).all(|(address, &byte)| {
                    byte == 0 || !place.protected.contains(&address.into())
                }));
            }
        }
    }
}

/// Every difference pattern of 4, 8 and 12 bytes, with every stretch.
#[test]
fn no_list_is_shorter_than_the_plan() {
    for base in [4_096, 0xffff_fff4] {
        for size in [4, 8, 12] {
            for protected in stretches(base, size).into_iter().filter(|one| one.end <= 1 << 32) {
                is_shortest(size, 2, base, protected);
            }
        }
    }
}

/// The same of a window that ends at 2^32, of 16 bytes, and with a third value, which helps nothing.
#[test]
fn no_list_is_shorter_with_other_windows_and_values() {
    for protected in stretches(0xffff_fff8, 8) {
        is_shortest(8, 2, 0xffff_fff8, protected);
    }
    for protected in [4_096..4_096, 4_100..4_104, 4_104..4_112] {
        is_shortest(16, 2, 4_096, protected);
    }
    for protected in stretches(4_096, 8) {
        is_shortest(8, 3, 4_096, protected);
    }
}

/// Every pair of images of 8 bytes of two values: the plan depends on where they differ.
#[test]
fn every_pair_of_images() {
    for protected in stretches(4_096, 8) {
        let place = place(4_096, protected);
        for (from, to) in (0..256).flat_map(|from| (0..256).map(move |to| (from, to))) {
            let (plain, wanted) = (image(from, 8, 2), image(to, 8, 2));
            let pattern = place.plan(&[0; 8], &image(from ^ to, 8, 2));
            let plan = place.plan(&plain, &wanted);
            let shape = |list: Vec<Write>| -> Vec<(u32, u32)> {
                list.into_iter().map(|one| (one.address, one.count)).collect()
            };
            assert_eq!(plan.clone().map(shape), pattern.map(shape));
            if let Ok(list) = plan {
                assert_eq!(place.check(&plain, &list, &wanted), Judged::Accepted);
            }
        }
    }
}

#[test]
fn plans_by_hand() {
    let free = place(4_096, 4_096..4_096);
    let plain: Vec<u8> = (0..12).collect();
    let planned = |place: &Place, changes: &[(usize, u8)]| {
        let mut wanted = plain.clone();
        changes.iter().for_each(|&(at, byte)| wanted[at] = byte);
        place.plan(&plain, &wanted)
    };
    assert_eq!(planned(&free, &[]), Ok(vec![]));
    assert_eq!(planned(&free, &[(1, 9)]), Ok(vec![write(4_097, &[9, 2, 3, 4])]));
    assert_eq!(planned(&free, &[(10, 9)]), Ok(vec![write(4_106, &[9, 11])]));
    let two = vec![write(4_096, &[9, 1, 2, 3]), write(4_101, &[8, 6, 7, 8])];
    assert_eq!(planned(&free, &[(0, 9), (5, 8)]), Ok(two));
    let split = place(4_096, 4_100..4_104);
    assert_eq!(planned(&split, &[(2, 9)]), Ok(vec![write(4_098, &[9, 3])]));
    let around = vec![write(4_098, &[9, 8]), write(4_104, &[7, 9, 10, 11])];
    assert_eq!(planned(&split, &[(2, 9), (3, 8), (8, 7)]), Ok(around));
    assert_eq!(planned(&split, &[(1, 9), (7, 9), (5, 9)]), Err(4_101));
    // An empty stretch cuts nothing.
    let empty = place(4_096, 4_100..4_100);
    assert_eq!(planned(&empty, &[(3, 9)]), Ok(vec![write(4_099, &[9, 4, 5, 6])]));
}

#[test]
fn offers_by_hand() {
    let plain: Vec<u8> = (0..8).collect();
    let place = place(4_096, 4_100..4_104);
    let judged = |offer: &[Write], wanted: &[u8]| place.check(&plain, offer, wanted);
    let wanted = [9, 1, 2, 3, 4, 5, 6, 7];
    let right = write(4_096, &[9]);
    assert_eq!(judged(&[], &plain), Judged::Accepted);
    assert_eq!(judged(&[], &wanted), Judged::Differ);
    assert_eq!(judged(&[right], &wanted), Judged::Accepted);
    let beyond = Write { bytes: [9, 7, 7, 7], ..right };
    assert_eq!(judged(&[beyond], &wanted), Judged::Accepted, "data beyond the count");
    assert_eq!(judged(&[right, right], &wanted), Judged::Accepted, "longer than needed");
    let other = write(4_096, &[8, 1]);
    assert_eq!(judged(&[other, right], &wanted), Judged::Accepted, "in this order");
    assert_eq!(judged(&[right, other], &wanted), Judged::Differ, "and no other");
    let breaks = [
        Write { count: 0, ..right },
        Write { count: 5, ..right },
        Write { count: 1 << 31, ..right },
        Write { count: u32::MAX, ..right },
        write(4_095, &[0]),
        write(4_095, &[0, 9]),
        write(4_104, &[0]),
        write(4_099, &[3, 4]),
        write(4_100, &[4]),
        write(4_103, &[7]),
        write(4_103, &[7, 0]),
        write(u32::MAX, &[1, 2]),
        write(u32::MAX - 1, &[1, 2, 3, 4]),
        write(0, &[1]),
    ];
    for one in breaks {
        assert_eq!(judged(&[one], &plain), Judged::Bound(0), "{one:?}");
        assert_eq!(judged(&[right, one, one], &wanted), Judged::Bound(1), "{one:?}");
        assert_eq!(judged(&[other, one], &wanted), Judged::Bound(1), "before a difference");
    }
}

/// The worked window with a breakpoint at 4,104, over which plain memory counts.
fn session() -> Session {
    let mut s = Session::protecting(4_112..4_116).unwrap();
    plant(&mut s, 3, &[], 4_104);
    s
}

fn lent<'a>(s: &'a Session, wanted: &'a [u8]) -> PatchLent<'a> {
    PatchLent { memory: &s.memory, registers: &s.registers, wanted, room: 64 }
}

#[test]
fn the_calls_work_over_the_plain_window() {
    let s = session();
    let mut wanted: Vec<u8> = (0..64).collect();
    let mut list = [Write { address: 7, count: 7, bytes: [7; 4] }; 5];
    assert_eq!(s.stub.patch_plan(lent(&s, &wanted), &mut []), Ok(0), "the trap is no difference");
    assert_eq!(s.stub.patch_check(lent(&s, &wanted), &[]), Ok(Judged::Accepted));
    (wanted[9], wanted[14], wanted[63]) = (0xaa, 0xbb, 0xcc);
    let kept = list;
    assert_eq!(s.stub.patch_plan(lent(&s, &wanted), &mut list[..2]), Err(NotPatched::List));
    assert_eq!(list, kept);
    assert_eq!(s.stub.patch_plan(lent(&s, &wanted), &mut list), Ok(3));
    let plan =
        [write(4_105, &[0xaa, 10, 11, 12]), write(4_110, &[0xbb, 15]), write(4_159, &[0xcc])];
    assert_eq!((&list[..3], &list[3..]), (&plan[..], &kept[3..]));
    assert_eq!(s.stub.patch_check(lent(&s, &wanted), &plan), Ok(Judged::Accepted));
    assert_eq!(s.stub.patch_check(lent(&s, &wanted), &plan[..2]), Ok(Judged::Differ));
    (wanted[17], wanted[18]) = (0, 0);
    let protected = Err(NotPatched::Protected(4_113));
    assert_eq!(s.stub.patch_plan(lent(&s, &wanted), &mut []), protected, "21 before 17");
    assert_eq!(s.stub.patch_check(lent(&s, &wanted), &plan), Ok(Judged::Differ));
}

#[test]
fn the_numbers_in_their_order() {
    let (s, wanted) = (session(), vec![0; 64]);
    let offer = vec![Write::default(); LONGEST_OFFER + 1];
    let numbers = |s: &Session, lent: PatchLent<'_>, offer: &[Write]| {
        let checked = s.stub.patch_check(lent, offer).map_or_else(NotPatched::number, |_| 0);
        let planned = s.stub.patch_plan(lent, &mut []).map_or_else(NotPatched::number, |_| 0);
        (checked, planned)
    };
    assert_eq!(numbers(&s, lent(&s, &wanted), &[]), (0, 21));
    assert_eq!(numbers(&s, lent(&s, &wanted), &offer[1..]), (0, 21));
    assert_eq!(numbers(&s, lent(&s, &wanted), &offer), (16, 21));
    assert_eq!(numbers(&s, lent(&s, &wanted[1..]), &[]), (16, 16));
    let mut spoiled = s.clone();
    spoiled.memory[8] = 0;
    assert_eq!(numbers(&spoiled, lent(&spoiled, &wanted[1..]), &offer), (3, 3));
    for room in [0, 63, 65] {
        let lent = PatchLent { room, ..lent(&spoiled, &wanted[1..]) };
        assert_eq!(numbers(&spoiled, lent, &offer), (2, 2));
    }
    for (memory, registers) in [(63, 272), (64, 136), (0, 0)] {
        let (memory, registers) = (vec![0; memory], vec![0; registers]);
        let lent = PatchLent { memory: &memory, registers: &registers, ..lent(&spoiled, &wanted) };
        assert_eq!(numbers(&spoiled, lent, &offer), (2, 2));
    }
    let empty = Session { stub: Stub::empty(), memory: vec![], registers: vec![] };
    let lent = PatchLent { memory: &[], registers: &[], wanted: &[], room: 0 };
    assert_eq!(numbers(&empty, lent, &[]), (Refusal::Unfit.number(), 3));
}

/// A whole window of 65,536 bytes: every byte differs, which takes as many writes as an offer may have.
#[test]
fn the_longest_plan() {
    let place = place(4_096, 4_096..4_096);
    let (plain, wanted) = (vec![0; 65_536], vec![1; 65_536]);
    let list = place.plan(&plain, &wanted).unwrap();
    assert_eq!(list.len(), LONGEST_OFFER);
    assert_eq!(place.check(&plain, &list, &wanted), Judged::Accepted);
}
