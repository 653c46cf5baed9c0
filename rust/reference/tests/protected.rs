//! The protected stretch, from the sentences of document 02, Five: 64 bytes at 4,096, of which a stretch
//! may not be changed by any step.

mod common;

use common::*;
use reference::{Book, Errno, Reason, Session, Verdict, LONGEST_TEXT};
use std::ops::Range;
use Reason::{Count, Inval, Unsup};

const DONE: [u8; 10] = [17, 0, 0, 0, 0, 0, 0, 0, 0, 0];
const WRITTEN: [u8; 10] = [5, 0, 0, 0, 0, 0, 0, 0, 0, 0];

fn protecting(protected: Range<u64>) -> Session {
    Session::protecting(protected).unwrap()
}

/// What a text request was answered, with 0 in hand.
fn text(s: &mut Session, request: &str) -> Result<u32, Errno> {
    let Session { stub, memory, registers } = s;
    let mut reply = [0; LONGEST_TEXT];
    stub.text(memory, registers, request.as_bytes(), &mut reply).expect("number 0").done
}

/// The stretches that the tests below try: both ends, the middle, one word, many, all.
const STRETCHES: [Range<u64>; 7] = [
    4_096..4_100,
    4_156..4_160,
    4_104..4_108,
    4_104..4_124,
    4_096..4_128,
    4_128..4_160,
    4_096..4_160,
];

/// Every write of every count: refused just where one of its bytes is protected. Reads are free.
#[test]
fn a_write_that_touches_a_protected_byte_is_unsup() {
    for protected in STRETCHES {
        for address in B - 4..B + 68 {
            for n in 0..=4 {
                let mut s = protecting(protected.clone());
                let before = s.clone();
                let data = [0xa1, 0xa2, 0xa3, 0xa4];
                let bytes: Vec<u64> = (u64::from(address)..).take(n).collect();
                let inside = n == 0 || bytes.iter().all(|byte| (4_096..4_160).contains(byte));
                let wanted = if !inside {
                    rerr(Inval)
                } else if bytes.iter().any(|byte| protected.contains(byte)) {
                    rerr(Unsup)
                } else {
                    WRITTEN
                };
                assert_eq!(ask(&mut s, mput(address, &data[..n])), wanted, "{address} {n}");
                assert_eq!(s == before, wanted != WRITTEN || n == 0, "{address} {n}");
                let read = ask(&mut s, mget(address, n as u8));
                assert_eq!(read[0], if inside { 3 } else { 1 }, "{address} {n}");
            }
        }
    }
}

/// What a stretch of four bytes meets, by hand.
#[test]
fn a_stretch_of_four_bytes() {
    let mut s = protecting(4_104..4_108);
    let mut put = |address, data: &[u8]| ask(&mut s, mput(address, data));
    assert_eq!(put(4_100, &[1, 2, 3, 4]), WRITTEN, "ends just before");
    assert_eq!(put(4_101, &[1, 2, 3, 4]), rerr(Unsup), "reaches in by a byte");
    assert_eq!(put(4_104, &[1, 2, 3, 4]), rerr(Unsup), "the whole stretch");
    assert_eq!(put(4_107, &[1, 2, 3, 4]), rerr(Unsup), "begins in its last byte");
    assert_eq!(put(4_107, &[1]), rerr(Unsup), "its last byte");
    assert_eq!(put(4_108, &[1, 2, 3, 4]), WRITTEN, "begins just behind");
    assert_eq!(s.memory[4..12], [1, 2, 3, 4, 8, 9, 10, 11]);
    assert_eq!(ask(&mut s, mget(4_100, 9)), reply(3, &[1, 2, 3, 4, 8, 9, 10, 11, 1]));
}

/// The tests before it come first: count, unused bytes, no bytes, the address.
#[test]
fn the_order_of_a_write() {
    let mut s = protecting(4_156..4_160);
    assert_eq!(ask(&mut s, ten(4, 4_156, &[5, 1, 1, 1, 1])), rerr(Count));
    assert_eq!(ask(&mut s, ten(4, 4_156, &[2, 1, 1, 0, 1])), rerr(Inval));
    assert_eq!(ask(&mut s, ten(4, 4_156, &[0, 1, 0, 0, 0])), rerr(Inval));
    assert_eq!(ask(&mut s, mput(4_156, &[])), WRITTEN);
    assert_eq!(ask(&mut s, mput(4_158, &[1, 2, 3])), rerr(Inval), "past the window");
    assert_eq!(ask(&mut s, mput(4_158, &[1, 2])), rerr(Unsup));
    let mut s = protecting(4_096..4_100);
    assert_eq!(ask(&mut s, mput(4_095, &[1, 2])), rerr(Inval), "before the window");
    // Registers are in no window: no process is current.
    assert_eq!(ask(&mut s, mput(4, &[1])), rerr(Reason::Pid));
}

/// b at every address, with a whole condition in hand and with one that leaves two values.
#[test]
fn a_breakpoint_in_the_stretch_is_unsup() {
    for protected in STRETCHES {
        for site in B - 2..B + 68 {
            for deep in [false, true] {
                let mut s = protecting(protected.clone());
                ask(&mut s, cond(b'n', 3));
                if deep {
                    ask(&mut s, cond(b'p', 1));
                }
                let (memory, in_hand) = (s.memory.clone(), s.stub.draft.clone());
                assert!(in_hand.is_some());
                let inside = site >= B && site + 2 <= B + 64;
                let wanted = if site % 2 == 1 || !inside {
                    rerr(Inval)
                } else if [0, 1].iter().any(|k| protected.contains(&u64::from(site + k))) {
                    rerr(Unsup)
                } else if deep {
                    rerr(Inval)
                } else {
                    DONE
                };
                assert_eq!(ask(&mut s, cond(b'b', site)), wanted, "{site} {deep}");
                assert_eq!(s.memory == memory, wanted != DONE, "{site} {deep}");
                assert_eq!(s.stub.draft, None, "every Rerr of b drops it");
            }
        }
    }
}

#[test]
fn the_order_of_a_breakpoint() {
    let mut s = protecting(4_104..4_108);
    assert_eq!(ask(&mut s, cond(b'b', 4_104)), rerr(Inval), "nothing in hand");
    plant(&mut s, 1, &[], 4_102);
    plant(&mut s, 2, &[], 4_108);
    for (site, reason) in [(4_105, Inval), (4_102, Inval), (4_108, Inval), (4_106, Unsup)] {
        ask(&mut s, cond(b'n', 3));
        assert_eq!(ask(&mut s, cond(b'b', site)), rerr(reason), "{site}");
        assert_eq!(ask(&mut s, cond(b'b', 4_110)), rerr(Inval), "nothing in hand any more");
    }
    // The neighbours' plain bytes can be written, and a restart puts them back.
    assert_eq!(ask(&mut s, mput(4_100, &[1, 2, 3, 4])), WRITTEN);
    assert_eq!(ask(&mut s, mput(4_102, &[1, 2, 3])), rerr(Unsup));
    restart(&mut s);
    assert_eq!(s.memory[4..10], [1, 2, 3, 4, 8, 9]);
}

/// Words of the text dialect: 22, then 14, then for I and D 13. Reads are free.
#[test]
fn words_of_the_text_dialect() {
    for protected in STRETCHES {
        for address in B - 8..B + 72 {
            for letter in ["i", "d", "I", "D"] {
                let mut s = protecting(protected.clone());
                let before = s.clone();
                let writes = matches!(letter, "I" | "D");
                let wanted = if address % 4 != 0 {
                    Err(Errno::Einval)
                } else if !(B..B + 64).contains(&address) {
                    Err(Errno::Efault)
                } else if writes && protected.contains(&u64::from(address)) {
                    Err(Errno::Eacces)
                } else {
                    let first = (address - B) as u8;
                    Ok(u32::from_le_bytes([first, first + 1, first + 2, first + 3]))
                };
                let request = format!("0x0 {letter} {address:#x} 0xa4a3a2a1");
                assert_eq!(text(&mut s, &request), wanted, "{request}");
                assert_eq!(s == before, wanted.is_err() || !writes, "{request}");
                assert_eq!(
                    text(&mut s, &format!("0x5 {letter} {address:#x} 0x1")),
                    Err(Errno::Esrch)
                );
            }
        }
    }
    assert_eq!(Errno::Eacces.number(), 13);
}

/// An empty stretch protects nothing, wherever it is.
#[test]
fn an_empty_stretch_protects_nothing() {
    for from in (4_096..=4_160).step_by(4) {
        let mut s = protecting(from..from);
        for address in B..=B + 60 {
            assert_eq!(ask(&mut s, mput(address, &[1, 2, 3, 4])), WRITTEN);
        }
        for address in (B..B + 64).step_by(4) {
            assert_eq!(text(&mut s, &format!("0x0 D {address:#x} 0x4030201")).err(), None);
        }
        for id in 0..8 {
            plant(&mut s, id, &[], B + 8 * id);
        }
        restart(&mut s);
        for id in 0..8 {
            plant(&mut s, id, &[], B + 8 * id + 6);
        }
    }
}

/// A stretch that ends at 2^32.
#[test]
fn a_stretch_at_the_top() {
    const TOP: u64 = 1 << 32;
    let memory: Vec<u8> = (0..8).collect();
    let mut s = Session { memory, registers: vec![0; 136], ..Session::worked() };
    let Session { stub, memory, registers } = &mut s;
    stub.setup(u32::MAX - 7, 8, TOP - 4..TOP, &[(5, 0)], memory, registers).unwrap();
    assert_eq!(ask(&mut s, mput(u32::MAX - 7, &[1, 2, 3, 4])), WRITTEN);
    assert_eq!(ask(&mut s, mput(u32::MAX - 4, &[1, 2])), rerr(Unsup));
    assert_eq!(ask(&mut s, mput(u32::MAX, &[1])), rerr(Unsup));
    assert_eq!(ask(&mut s, mput(u32::MAX, &[1, 2])), rerr(Inval));
    ask(&mut s, cond(b'n', 1));
    assert_eq!(ask(&mut s, cond(b'b', u32::MAX - 1)), rerr(Unsup));
    assert_eq!(text(&mut s, "0x0 I 0xfffffffc 0x1"), Err(Errno::Eacces));
    assert_eq!(text(&mut s, "0x0 i 0xfffffffc 0x1"), Ok(0x0706_0504));
    assert_eq!(s.memory, [1, 2, 3, 4, 4, 5, 6, 7]);
}

/// Conditions and events do not mind the stretch: `*` reads there, a process runs there.
#[test]
fn reads_and_events_are_free() {
    let mut s = protecting(4_104..4_108);
    let list = [(b'p', 4_104), (b'*', 0), (b'p', 0x0b0a_0908), (b'=', 0), (b'a', 0)];
    plant(&mut s, 4, &list, 4_108);
    assert_eq!(trap(&mut s, 5, 4_108), Ok(Verdict::Stop(4)));
    // Somebody else may change it, and the next read shows that.
    s.memory[8] = 0xff;
    assert_eq!(trap(&mut s, 7, 4_108), Ok(Verdict::Pass([12, 13])));
    assert_eq!(text(&mut s, "0x0 d 0x1008 0x0"), Ok(0x0b0a_09ff));
    ask(&mut s, ten(12, 7, &[]));
    assert_eq!(schedule(&mut s, 7, 4_104), Ok(true));
    assert_eq!(start(&mut s, 7), None);
}

/// The book says it of every step, and of those bytes alone.
#[test]
fn the_book_sees_a_protected_byte_change() {
    let s = protecting(4_104..4_112);
    let book = Book::new(B, 4_104..4_112, &[5, 7], &s.memory);
    for at in 0..64 {
        let mut after = s.memory.clone();
        after[at] ^= 0x80;
        let kept = book.keeps_protected(&s.memory, &after);
        assert_eq!(kept.is_ok(), !(8..16).contains(&at), "{at}");
    }
    assert_eq!(book.keeps_protected(&s.memory, &s.memory), Ok(()));
    let empty = Book::new(B, 4_160..4_160, &[5, 7], &s.memory);
    assert_eq!(empty.keeps_protected(&s.memory, &[0xee; 64]), Ok(()));
}
