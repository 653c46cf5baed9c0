//! Conditions at their limits, and where the record has them.

mod common;

use common::*;
use sanirvoq::ffi::{Draft, Entry};
use sanirvoq::{Element, Stub, Verdict};

const DONE: [u8; 10] = [17, 0, 0, 0, 0, 0, 0, 0, 0, 0];

/// 64 elements, true for this pid alone.
fn longest(pid: u32) -> Vec<(u8, u32)> {
    [(b'k', pid), (b'a', 0)].repeat(32)
}

/// Elements as they were sent.
fn sent(elements: Option<impl Iterator<Item = Element>>) -> Option<Vec<(u8, u32)>> {
    elements.map(|list| list.map(|one| (one.letter as u8, one.value)).collect())
}

fn condition(stub: &Stub, index: usize) -> Option<Vec<(u8, u32)>> {
    sent(stub.raw().condition(index))
}

fn in_hand(stub: &Stub) -> Option<Vec<(u8, u32)>> {
    sent(stub.raw().in_hand())
}

#[test]
#[cfg_attr(not(archive), ignore = "needs libsanirvoq.a")]
fn a_condition_has_up_to_64_elements() {
    let mut s = Session::worked();
    for letter in *b"kp*&=!ao" {
        assert_eq!(s.ask(cond(b'n', 1)), DONE);
        for (letter, val) in longest(5) {
            assert_eq!(s.ask(cond(letter, val)), DONE);
        }
        assert_eq!(in_hand(&s.stub), Some(longest(5)));
        assert_eq!(s.ask(cond(letter, 0)), rerr("count"), "a 65th");
        assert_eq!(s.stub.raw().target.table.draft, Draft::default(), "it is dropped");
    }
    s.plant(1, &longest(5), 4_104);
    assert_eq!(s.trap(7, 4_104), Ok(Verdict::Pass([8, 9])));
    assert_eq!(s.trap(5, 4_104), Ok(Verdict::Stop(1)));
}

#[test]
#[cfg_attr(not(archive), ignore = "needs libsanirvoq.a")]
fn all_conditions_share_128_places() {
    let mut s = Session::worked();
    s.plant(1, &longest(5), 4_104);
    s.plant(2, &longest(7), 4_106);
    for letter in *b"kp*&=!ao" {
        assert_eq!(s.ask(cond(letter, 0)), rerr("inval"), "nothing in hand");
        assert_eq!(s.ask(cond(b'n', 3)), DONE, "n needs no place");
        assert_eq!(s.ask(cond(letter, 0)), rerr("count"), "no place");
        assert_eq!(in_hand(&s.stub), None);
    }
    s.plant(3, &[], 4_108);
    assert_eq!(s.ask(cond(b'd', 1)), DONE);
    s.plant(4, &longest(9), 4_104);
    assert_eq!(s.restart(), rerr("reset"));
    s.plant(1, &longest(5), 4_104);
    s.plant(2, &longest(7), 4_106);
}

#[test]
#[cfg_attr(not(archive), ignore = "needs libsanirvoq.a")]
fn conditions_stand_by_index_then_the_one_in_hand() {
    let mut s = Session::worked();
    let list = |first: u32, count: u32| -> Vec<(u8, u32)> {
        (0..count).flat_map(|i| [(b'p', first + i), (b'o', 0)]).collect()
    };
    for (id, count) in [(1, 3), (2, 0), (3, 20), (4, 5)] {
        s.plant(id, &list(100 * id, count), 4_100 + 2 * id);
    }
    s.ask(cond(b'n', 9));
    list(900, 4).into_iter().for_each(|(letter, val)| assert_eq!(s.ask(cond(letter, val)), DONE));
    assert_eq!(s.ask(cond(b'd', 3)), DONE);
    let stands = |stub: &Stub, conditions: [Option<Vec<(u8, u32)>>; 4]| {
        assert_eq!([0, 1, 2, 3].map(|index| condition(stub, index)), conditions);
    };
    let [first, none, last] = [list(100, 3), vec![], list(400, 5)].map(Some);
    stands(&s.stub, [first.clone(), none.clone(), None, last.clone()]);
    assert_eq!(in_hand(&s.stub), Some(list(900, 4)));
    assert_eq!(s.ask(cond(b'b', 4_120)), DONE);
    stands(&s.stub, [first, none, Some(list(900, 4)), last]);
    assert_eq!(in_hand(&s.stub), None);
}

/// What the layout leaves no choice in, besides the places that are held.
#[test]
#[cfg_attr(not(archive), ignore = "needs libsanirvoq.a")]
fn entries_are_stored_whole() {
    let mut s = Session::worked();
    s.plant(4, &[(b'k', 7), (b'a', 0)], 4_104);
    let table = s.stub.raw().target.table;
    let made = Entry { used: 1, id: 4, count: 2, plain: [8, 9, 0, 0], site: 4_104 };
    assert_eq!((table.entries[0], table.draft), (made, Draft::default()));
    s.ask(cond(b'n', 9));
    s.ask(cond(b'p', 9));
    assert_eq!(s.stub.raw().target.table.draft, Draft { active: 1, id: 9, count: 1 });
    assert_eq!(s.stub.raw().places[..6], [b'k', 7, b'a', 0, b'p', 9].map(u32::from));
    s.ask(cond(b'd', 4));
    assert_eq!(s.stub.raw().target.table.entries[0], Entry::default(), "removed");
    assert_eq!(s.stub.raw().places[..2], [b'p', 9].map(u32::from));
    s.ask(cond(b'z', 0));
    assert_eq!(s.stub.raw().target.table.draft, Draft::default(), "dropped");
}
