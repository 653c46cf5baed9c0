//! The book of demand 3: what it says of answers that are wrong. `rust/steps` keeps it beside random
//! steps.

mod common;

use common::*;
use reference::{Book, Evaluation, Places, Reason, Session, Verdict};

fn worked_book() -> Book {
    let s = Session::worked();
    Book::new(B, B.into()..B.into(), &[5, 7], &s.memory)
}

/// A book with a breakpoint of id 4 at 4,104 that stops 7 only.
fn book_of_one() -> Book {
    let mut book = worked_book();
    for (letter, val) in [(b'n', 4), (b'k', 7), (b'a', 0), (b'b', 4_104)] {
        assert_eq!(book.request(&cond(letter, val), &[], &reply(17, &[]), None), Ok(()));
    }
    book
}

#[test]
fn the_book_refuses_wrong_answers() {
    let book = book_of_one();
    let ask = |request, answer| book.clone().request(&request, &[], &answer, None);
    assert_eq!(ask(mget(4_104, 2), reply(3, &[8, 9])), Ok(()));
    assert_eq!(ask(mget(4_104, 2), reply(3, &[2, 0x90])), Err("a read is not of plain memory"));
    assert_eq!(ask(mget(4_104, 1), reply(3, &[8, 9])), Err("a read answers more than n bytes"));
    let outside = Err("a stretch was served that is not in the window");
    assert_eq!(ask(mget(4_159, 2), reply(3, &[])), outside);
    assert_eq!(ask(mput(u32::MAX, &[1, 2]), reply(5, &[])), outside);
    assert_eq!(ask(mput(135, &[1, 2]), reply(5, &[])), outside);
    assert_eq!(ask(mget(4_104, 0), reply(5, &[])), Err("the reply is of another type"));
    let over = Err("a breakpoint was set with no condition");
    assert_eq!(ask(cond(b'b', 4_100), reply(17, &[])), over);

    let trap = |pid, pc, verdict| book.clone().trap(pid, &block(0, pc), verdict);
    let wrong = Err("a trap is not answered by its condition over plain memory");
    assert_eq!(trap(7, 4_104, Verdict::Stop(4)), Ok(()));
    assert_eq!(trap(7, 4_104, Verdict::Stop(3)), wrong);
    assert_eq!(trap(5, 4_104, Verdict::Pass([8, 9])), Ok(()));
    assert_eq!(trap(5, 4_104, Verdict::Pass([2, 0x90])), wrong);
    assert_eq!(trap(5, 4_104, Verdict::Stop(4)), wrong);
    assert_eq!(trap(5, 4_106, Verdict::Stop(4)), Err("a trap where no breakpoint is"));
}

#[test]
fn the_book_reads_what_a_start_answers() {
    let mut book = book_of_one();
    assert_eq!(book.trap(7, &block(0, 4_104), Verdict::Stop(4)), Ok(()));
    let at = |pc: u32| [block(0, 4_104), block(0, pc)].concat();
    let start = |book: &Book, pid, pc, plain| {
        book.clone().request(&ten(14, pid, &[]), &at(pc), &reply(15, &[]), plain)
    };
    let wrong = Err("a start is not answered by the plain memory at its saved pc");
    assert_eq!(start(&book, 7, 4_104, Some([8, 9])), Ok(()));
    assert_eq!(start(&book, 7, 4_104, Some([2, 0x90])), wrong);
    assert_eq!(start(&book, 7, 4_104, None), wrong);
    assert_eq!(start(&book, 7, 4_106, None), Ok(()));
    assert_eq!(start(&book, 7, 4_106, Some([10, 11])), wrong);
    assert_eq!(start(&book, 5, 4_104, None), Ok(()), "5 is not Stopped");
    assert_eq!(start(&book, 5, 4_104, Some([8, 9])), wrong);
    assert_eq!(start(&book, 6, 4_104, None), Err("an unlisted process was started"));

    let written = mput(4_105, &[0xa1]);
    assert_eq!(book.request(&written, &[], &reply(5, &[]), None), Ok(()));
    assert_eq!(start(&book, 7, 4_104, Some([8, 9])), wrong);
    let kept = book.planted().to_vec();
    let done = book.request(&ten(14, 7, &[]), &at(4_104), &reply(15, &[]), Some([8, 0xa1]));
    assert_eq!((done, book.planted(), book.stopped()), (Ok(()), &kept[..], &[][..]));

    let beside = Err("plain bytes beside a reply that is not Rstart");
    for (request, answer) in [
        (mget(4_104, 2), reply(3, &[8, 0xa1])),
        (ten(14, 6, &[]), rerr(Reason::Pid)),
        (ten(12, 7, &[]), reply(13, &[])),
    ] {
        assert_eq!(book.clone().request(&request, &[], &answer, Some([8, 0xa1])), beside);
    }
}

#[test]
fn the_book_lays_its_traps_over_plain_memory() {
    let mut book = book_of_one();
    let mut memory: Vec<u8> = (0..64).collect();
    let broken = Err("memory is not plain memory with the traps laid over it");
    assert_eq!(book.lies_under(&memory), broken);
    memory[8..10].copy_from_slice(&[0x02, 0x90]);
    assert_eq!(book.lies_under(&memory), Ok(()));
    assert_eq!(book.lies_under(&memory[..63]), broken);
    for at in 0..64 {
        memory[at] ^= 1;
        assert_eq!(book.lies_under(&memory), broken);
        assert_eq!(book.under_trap(at), at == 8 || at == 9);
        memory[at] ^= 1;
    }
    book.outside(63, 1);
    assert_eq!(book.lies_under(&memory), broken);
    memory[63] = 1;
    assert_eq!(book.lies_under(&memory), Ok(()));
}

#[test]
fn the_book_evaluates_up_to_the_first_read_outside() {
    let mut book = worked_book();
    for (letter, val) in [(b'n', 1), (b'*', 0), (b'p', 0), (b'a', 0), (b'b', 4_096)] {
        assert_eq!(book.request(&cond(letter, val), &[], &reply(17, &[]), None), Ok(()));
    }
    let first = Evaluation { holds: true, outside: true, elements: &[(b'*', 0)] };
    assert_eq!(book.evaluated(5, 4_096), Some(first));
    assert_eq!(book.trap(5, &block(0, 4_096), Verdict::Stop(1)), Ok(()));
    assert_eq!(book.stopped(), [5]);
}

/// The places held are told from requests and replies: what joined, less what went.
#[test]
fn places_are_counted_from_the_history() {
    let mut places = Places::new();
    let held = |places: &mut Places, letter, val, answer| {
        places.request(&cond(letter, val), &answer);
        places.held()
    };
    let (done, no) = (reply(17, &[]), rerr(Reason::Inval));
    assert_eq!(held(&mut places, b'n', 4, done), 0);
    assert_eq!(held(&mut places, b'k', 7, done), 1);
    assert_eq!(held(&mut places, b'a', 0, done), 2);
    assert_eq!(held(&mut places, b'b', 4_104, done), 2);
    assert_eq!(held(&mut places, b'n', 5, done), 2);
    assert_eq!(held(&mut places, b'p', 1, done), 3);
    assert_eq!(held(&mut places, b'd', 9, no), 3, "a refused d drops nothing");
    assert_eq!(held(&mut places, b'n', 6, done), 2, "replaced");
    assert_eq!(held(&mut places, b'p', 1, done), 3);
    assert_eq!(held(&mut places, b'z', 1, no), 2, "dropped");
    assert_eq!(held(&mut places, b'n', 6, done), 2);
    assert_eq!(held(&mut places, b'p', 1, done), 3);
    assert_eq!(held(&mut places, b'd', 4, done), 1, "removed; what is in hand stays");
    places.request(&mget(4_104, 20), &rerr(Reason::Count));
    assert_eq!(places.held(), 1, "another request that is refused");
    assert_eq!(held(&mut places, b'o', 0, done), 2);
    assert_eq!(held(&mut places, b'b', 4_104, done), 2);
    places.restart();
    assert_eq!(places.held(), 0);
}
