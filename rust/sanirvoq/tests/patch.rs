//! Patches: offers checked, and plans.

mod common;

use common::*;
use sanirvoq::{NotPlanned, Offered, PatchWrite, Refusal, Setup, PATCH_WRITES};

/// Bytes 12 to 15 of the worked window are protected, and breakpoint 3 stands at byte 8.
fn session() -> Session {
    let mut s = Session::of(&Setup::new(B, 64, &TWO).protecting(4_108..4_112));
    s.plant(3, &[], 4_104);
    s
}

fn image(changes: &[(usize, u8)]) -> Vec<u8> {
    let mut image: Vec<u8> = (0..64).collect();
    changes.iter().for_each(|&(at, byte)| image[at] = byte);
    image
}

fn write(address: u32, bytes: &[u8]) -> PatchWrite {
    let mut four = [0; 4];
    four[..bytes.len()].copy_from_slice(bytes);
    PatchWrite { address, count: bytes.len() as u32, bytes: four }
}

fn plan(s: &Session, wanted: &[u8], places: usize) -> Result<Vec<PatchWrite>, NotPlanned> {
    let (mut room, mut list) = ([0xee; 64], vec![write(9, &[9]); places]);
    let done = s.stub.plan_patch(&s.memory, &s.registers, wanted, &mut room, &mut list);
    let done = done.map(|plan| plan.to_vec());
    let filled = done.as_ref().map_or(0, Vec::len);
    assert!(list[filled..].iter().all(|&other| other == write(9, &[9])), "other places stay");
    done
}

fn check(s: &Session, offer: &[PatchWrite], wanted: &[u8]) -> Result<Offered, Refusal> {
    s.stub.check_patch(&s.memory, &s.registers, offer, wanted, &mut [0xee; 64])
}

#[test]
#[cfg_attr(not(archive), ignore = "needs libsanirvoq.a")]
fn a_plan_is_over_the_plain_window_and_is_accepted() {
    let s = session();
    assert_eq!(plan(&s, &image(&[]), 0), Ok(vec![]), "the trap is no difference");
    let wanted = image(&[(5, 0xaa), (10, 0xbb), (63, 0xcc)]);
    let due = [write(4_101, &[0xaa, 6, 7, 8]), write(4_106, &[0xbb, 11]), write(4_159, &[0xcc])];
    assert_eq!(plan(&s, &wanted, 4).as_deref(), Ok(&due[..]));
    assert_eq!(check(&s, &due, &wanted), Ok(Offered::Accepted));
    assert_eq!(check(&s, &due[1..], &wanted), Ok(Offered::ImagesDiffer));
    assert_eq!(plan(&s, &wanted, 2), Err(NotPlanned::List));
    assert_eq!(s, session(), "a plan writes nothing");
}

#[test]
#[cfg_attr(not(archive), ignore = "needs libsanirvoq.a")]
fn bounds_are_the_window_the_count_and_the_stretch() {
    let s = session();
    let good = write(4_100, &[4]);
    let none = PatchWrite { count: 0, ..good };
    let five = PatchWrite { count: 5, ..good };
    let outside = [write(4_095, &[0, 0]), write(4_158, &[62, 63, 0]), write(u32::MAX, &[0, 0])];
    for bad in [none, five, write(4_107, &[11, 12])].into_iter().chain(outside) {
        assert_eq!(check(&s, &[good, bad, none], &image(&[])), Ok(Offered::BrokenBound(1)));
    }
    assert_eq!(plan(&s, &image(&[(4, 0), (13, 0), (14, 0)]), 9), {
        Err(NotPlanned::Protected { address: 4_109 })
    });
}

#[test]
#[cfg_attr(not(archive), ignore = "needs libsanirvoq.a")]
fn numbers_in_their_order() {
    let mut s = session();
    let (wanted, most) = (image(&[]), vec![write(4_100, &[4]); PATCH_WRITES]);
    let long = vec![write(4_100, &[4]); PATCH_WRITES + 1];
    assert_eq!(check(&s, &most, &wanted), Ok(Offered::Accepted));
    assert_eq!(check(&s, &long, &wanted), Err(Refusal::Patch));
    assert_eq!(check(&s, &[], &wanted[1..]), Err(Refusal::Patch));
    assert_eq!(plan(&s, &wanted[1..], 9), Err(NotPlanned::Refused(Refusal::Patch)));
    s.memory[8] ^= 1;
    assert_eq!(check(&s, &long, &wanted), Err(Refusal::Unfit));
    assert_eq!(plan(&s, &wanted[1..], 9), Err(NotPlanned::Refused(Refusal::Unfit)));
    let short = s.stub.check_patch(&s.memory, &s.registers, &[], &wanted, &mut [0; 63]);
    assert_eq!(short, Err(Refusal::Size));
    s.memory.pop();
    assert_eq!(check(&s, &[], &wanted), Err(Refusal::Size));
}
