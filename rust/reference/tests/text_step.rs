//! The text step, from the sentences of document 02, Three, over the worked setup.

mod common;

use common::*;
use reference::{Book, Errno, NotServed, NotText, Refusal, Session, TextServed, LONGEST_TEXT};

const FILL: u8 = 0xee;

/// A text step over a buffer of so many bytes, with the buffer.
fn step(s: &mut Session, request: &[u8], room: usize) -> (Result<TextServed, NotServed>, Vec<u8>) {
    let mut reply = vec![FILL; room];
    let Session { stub, memory, registers } = s;
    let served = stub.text(memory, registers, request, &mut reply);
    (served, reply)
}

/// The text that answers a request of number 0, seen to be at the front of the buffer alone and to
/// say what the step says. Where ERRFLG is -1 nothing may have changed.
fn text(s: &mut Session, request: &str) -> String {
    let before = s.clone();
    let (served, reply) = step(s, request.as_bytes(), 50);
    let TextServed { done, filled } = served.expect("number 0");
    assert!(reply[filled..].iter().all(|&byte| byte == FILL), "{request}");
    let text = String::from_utf8(reply[..filled].to_vec()).unwrap();
    match done {
        Ok(response) => assert!(text.ends_with(&format!(" 0x0 {response:#x}")), "{text}"),
        Err(errno) => {
            assert!(text.ends_with(&format!(" 0xffffffff {:#x}", errno.number())), "{text}");
            assert_eq!(*s, before, "{request}");
        }
    }
    text
}

/// Whether a request fails with this errno.
fn fails(s: &mut Session, request: &str, errno: Errno) {
    let (served, _) = step(s, request.as_bytes(), LONGEST_TEXT);
    assert_eq!(served.map(|served| served.done), Ok(Err(errno)), "{request}");
}

/// A session in which process 7 is current and Stopped, with a block of cd and pc 4,104.
fn stopped() -> Session {
    let mut s = Session::worked();
    ask(&mut s, ten(12, 7, &[]));
    assert_eq!(schedule(&mut s, 7, 4_104), Ok(true));
    ask(&mut s, ten(6, 7, &[]));
    s
}

#[test]
fn words_are_low_order_first() {
    let mut s = Session::worked();
    assert_eq!(text(&mut s, "0x0 i 0x1004 0x0"), "0x0 i 0x0 0x7060504");
    assert_eq!(text(&mut s, "0x0 d 0x1000 0xffffffff"), "0x0 d 0x0 0x3020100");
    assert_eq!(text(&mut s, "0x0 I 0x1004 0xdeadbeef"), "0x0 I 0x0 0x7060504");
    assert_eq!(s.memory[4..8], [0xef, 0xbe, 0xad, 0xde]);
    assert_eq!(text(&mut s, "0x0 D 0x1004 0x1"), "0x0 D 0x0 0xdeadbeef");
    assert_eq!(text(&mut s, "0x0 i 0x1004 0x0"), "0x0 i 0x0 0x1");
    assert_eq!(text(&mut s, "0x0 D 0x103c 0x0"), "0x0 D 0x0 0x3f3e3d3c");
    assert_eq!(s.memory[58..], [0x3a, 0x3b, 0, 0, 0, 0]);
}

/// Words across one trap and two: the answers are plain, the traps stay, what was written is in
/// memory when they go.
#[test]
fn words_under_traps() {
    let mut s = Session::worked();
    plant(&mut s, 3, &[], 4_104);
    assert_eq!(text(&mut s, "0x0 i 0x1008 0x0"), "0x0 i 0x0 0xb0a0908");
    assert_eq!(text(&mut s, "0x0 I 0x1008 0x44332211"), "0x0 I 0x0 0xb0a0908");
    assert_eq!(s.memory[8..12], [0x02, 0x90, 0x33, 0x44]);
    plant(&mut s, 4, &[], 4_106);
    assert_eq!(text(&mut s, "0x0 d 0x1008 0x0"), "0x0 d 0x0 0x44332211");
    assert_eq!(text(&mut s, "0x0 D 0x1008 0x88776655"), "0x0 D 0x0 0x44332211");
    assert_eq!(s.memory[8..12], [0x02, 0x90, 0x02, 0x90]);
    assert_eq!(ask(&mut s, mget(4_104, 4)), reply(3, &[0x55, 0x66, 0x77, 0x88]));
    ask(&mut s, cond(b'd', 3));
    assert_eq!(s.memory[8..12], [0x55, 0x66, 0x02, 0x90]);
    ask(&mut s, cond(b'd', 4));
    assert_eq!(s.memory[8..12], [0x55, 0x66, 0x77, 0x88]);
}

#[test]
fn registers_are_those_of_the_current_process() {
    let mut s = stopped();
    assert_eq!(text(&mut s, "0x0 r 0x0 0x0"), "0x0 r 0x0 0xcdcdcdcd");
    assert_eq!(text(&mut s, "0x0 r 0x21 0x0"), "0x0 r 0x0 0x1008");
    assert_eq!(text(&mut s, "0x0 R 0x20 0x1020304"), "0x0 R 0x0 0xcdcdcdcd");
    assert_eq!(s.registers[136 + 128..136 + 132], [1, 2, 3, 4]);
    assert_eq!(text(&mut s, "0x0 R 0x20 0x5"), "0x0 R 0x0 0x1020304");
    assert_eq!(text(&mut s, "0x0 R 0x1 0xffffffff"), "0x0 R 0x0 0xcdcdcdcd");
    assert_eq!(text(&mut s, "0x0 R 0x21 0x100a"), "0x0 R 0x0 0x1008");
    assert_eq!(s.registers[136 + 132..], [0, 0, 0x10, 0x0a]);
    assert_eq!(s.registers[..136], [0; 136]);
    for letter in ["i", "d", "I", "D"] {
        // An address below 136 is no register here.
        fails(&mut s, &format!("0x0 {letter} 0x84 0x1"), Errno::Efault);
    }
}

#[test]
fn the_letter_goes_first_then_the_pid() {
    let mut s = stopped();
    for letter in (0x21..=0x7e).map(char::from) {
        let listed = "idIDrR".contains(letter);
        let (with_pid, other) = if listed { (3, 0) } else { (0x16, 0x16) };
        let request = format!("0x7 {letter} 0x1001 0x0");
        assert_eq!(text(&mut s, &request), format!("0x7 {letter} 0xffffffff {with_pid:#x}"));
        if !listed {
            let request = format!("0x0 {letter} 0x1 0x0");
            assert_eq!(text(&mut s, &request), format!("0x0 {letter} 0xffffffff {other:#x}"));
        }
    }
    assert_eq!(text(&mut s, "0xffffffff r 0x1 0x0"), "0xffffffff r 0xffffffff 0x3");
}

#[test]
fn alignment_comes_before_the_window() {
    let mut s = Session::worked();
    for letter in ["i", "d", "I", "D"] {
        for address in [1, 0x87, 0xfff, 0x1001, 0x1002, 0x1003, 0x103d, 0x1042, u32::MAX] {
            fails(&mut s, &format!("0x0 {letter} {address:#x} 0x1"), Errno::Einval);
        }
        for address in [0, 4, 0x84, 0x88, 0xffc, 0x1040, u32::MAX - 3] {
            fails(&mut s, &format!("0x0 {letter} {address:#x} 0x1"), Errno::Efault);
        }
    }
}

/// A window that ends at 2^32.
#[test]
fn the_last_word_there_is() {
    let (mut memory, mut registers) = (vec![7; 8], vec![0; 136]);
    let mut stub = reference::Stub::empty();
    let base = u32::MAX - 7;
    stub.setup(base, 8, base.into()..base.into(), &[(1, 0)], &memory, &registers).unwrap();
    let mut reply = [FILL; LONGEST_TEXT];
    let mut ask =
        |request: &[u8]| stub.text(&mut memory, &mut registers, request, &mut reply).unwrap().done;
    assert_eq!(ask(b"0x0 I 0xfffffffc 0x1"), Ok(0x0707_0707));
    assert_eq!(ask(b"0x0 i 0xfffffffc 0x0"), Ok(1));
    assert_eq!(ask(b"0x0 i 0x0 0x0"), Err(Errno::Efault));
    assert_eq!(ask(b"0x0 i 0xfffffff4 0x0"), Err(Errno::Efault));
}

#[test]
fn the_number_comes_before_the_process_and_that_before_its_state() {
    let mut s = Session::worked();
    let wrong = ["r 0x22", "R 0x22", "r 0xffffffff", "R 0x80000000", "r 0x84", "R 0x0"];
    for request in wrong {
        fails(&mut s, &format!("0x0 {request} 0x0"), Errno::Einval);
    }
    for request in ["r 0x0", "r 0x21", "R 0x1", "R 0x21"] {
        fails(&mut s, &format!("0x0 {request} 0x0"), Errno::Esrch);
    }
    ask(&mut s, ten(6, 5, &[]));
    for request in wrong {
        fails(&mut s, &format!("0x0 {request} 0x0"), Errno::Einval);
    }
    for request in ["r 0x0", "r 0x21", "R 0x1", "R 0x21"] {
        fails(&mut s, &format!("0x0 {request} 0x0"), Errno::Ebusy);
    }
    let mut s = stopped();
    for request in wrong {
        fails(&mut s, &format!("0x0 {request} 0x0"), Errno::Einval);
    }
}

#[test]
fn sizes_then_the_record_then_the_buffer_then_the_text() {
    let s = Session::worked();
    let number = |change: fn(&mut Session), request: &[u8], room: usize| {
        let mut spoiled = s.clone();
        change(&mut spoiled);
        let before = spoiled.clone();
        let (served, reply) = step(&mut spoiled, request, room);
        if served.is_err() {
            assert_eq!((spoiled, reply), (before, vec![FILL; room]));
        }
        served.map_or_else(NotServed::number, |_| 0)
    };
    let (whole, none) = (b"0x0 i 0x1004 0x0", b"0x0 i 0x01004 0x0");
    let unfit_and_short = |s: &mut Session| {
        s.stub.current = Some(6);
        s.memory.truncate(63);
    };
    assert_eq!(number(unfit_and_short, none, 0), 2);
    assert_eq!(number(|s| s.memory.truncate(63), whole, 34), 2);
    assert_eq!(number(|s| s.memory.push(0), whole, 34), 2);
    assert_eq!(number(|s| s.registers.truncate(271), whole, 34), 2);
    assert_eq!(number(|s| s.registers.push(0), whole, 34), 2);
    assert_eq!(number(|s| s.stub.current = Some(6), none, 0), 3);
    assert_eq!(number(|s| s.stub.current = Some(6), whole, 34), 3);
    for room in [0, 1, 16, 33] {
        assert_eq!(number(|_| {}, none, room), 11);
        assert_eq!(number(|_| {}, whole, room), 11);
    }
    for room in [34, 35, 100] {
        assert_eq!(number(|_| {}, none, room), 10);
        assert_eq!(number(|_| {}, b"", room), 10);
        assert_eq!(number(|_| {}, &[b'0'; 1_000], room), 10);
        assert_eq!(number(|_| {}, whole, room), 0);
    }
    assert_eq!(NotServed::Record(Refusal::Unfit).number(), 3);
    assert_eq!(NotServed::Text(NotText::Buffer).number(), 11);
}

/// Neither an accepted nor a refused text step touches the condition in hand.
#[test]
fn the_condition_in_hand_stays() {
    let mut s = stopped();
    ask(&mut s, cond(b'n', 9));
    ask(&mut s, cond(b'p', 1));
    let draft = s.stub.draft.clone();
    assert!(draft.is_some());
    for request in ["0x0 I 0x1004 0x1", "0x0 R 0x1 0x1", "0x0 c 0x1 0x0", "0x5 i 0x1004 0x0"] {
        text(&mut s, request);
        assert_eq!(s.stub.draft, draft, "{request}");
    }
    assert_eq!(step(&mut s, b"", 34).0, Err(NotServed::Text(NotText::NoPacket)));
    assert_eq!(s.stub.draft, draft);
}

#[test]
fn errnos_are_those_of_unix() {
    assert_eq!(Errno::ALL.map(Errno::number), [3, 13, 14, 16, 22]);
}

/// What the book says of text steps that are answered wrongly.
#[test]
fn the_book_reads_the_answers() {
    let s = Session::worked();
    let mut book = Book::new(B, B.into()..B.into(), &[5, 7], &s.memory);
    for (letter, val) in [(b'n', 4), (b'b', 4_104)] {
        assert_eq!(book.request(&cond(letter, val), &[], &reply(17, &[]), None), Ok(()));
    }
    let told = |request: &str, reply: &str| book.clone().text(request.as_bytes(), reply.as_bytes());
    let word = Err("a word is not that of plain memory");
    assert_eq!(told("0x0 i 0x1008 0x0", "0x0 i 0x0 0xb0a0908"), Ok(()));
    assert_eq!(told("0x0 i 0x1008 0x0", "0x0 i 0x0 0xb0a9002"), word);
    assert_eq!(told("0x0 d 0x1008 0x0", "0x0 d 0x0 0x8090a0b"), word);
    assert_eq!(told("0x0 I 0x1008 0x5", "0x0 I 0x0 0xb0a0908"), Ok(()));
    assert_eq!(told("0x0 D 0x1008 0x5", "0x0 D 0x0 0x5"), word);
    let outside = Err("a word was served that is not in the window");
    assert_eq!(told("0x0 I 0x1040 0x5", "0x0 I 0x0 0x0"), outside);
    assert_eq!(told("0x0 i 0xfffffffc 0x5", "0x0 i 0x0 0x0"), outside);
    let letter = Err("a letter was served that is not listed");
    assert_eq!(told("0x0 c 0x1 0x0", "0x0 c 0x0 0x0"), letter);
    assert_eq!(told("0x0 c 0x1 0x0", "0x0 c 0xffffffff 0x16"), Ok(()));
    let other = Err("a reply has not the PID and the letter of its request");
    assert_eq!(told("0x1 i 0x1 0x0", "0x0 i 0xffffffff 0x3"), other);
    assert_eq!(told("0x0 i 0x1008 0x0", "0x0 d 0x0 0xb0a0908"), other);
    let flag = Err("an error flag is neither 0 nor -1");
    assert_eq!(told("0x0 i 0x1 0x0", "0x0 i 0xff 0x16"), flag);
    assert_eq!(told("0x0 i 0x1", "0x0 i 0x0 0x0"), Err("a text was served that is no packet"));
    assert_eq!(told("0x0 i 0x1008 0x0", "0x0 i 0x0 0x"), Err("a reply is no packet"));
}

#[test]
fn the_book_writes_what_i_and_d_write() {
    let mut s = Session::worked();
    let mut book = Book::new(B, B.into()..B.into(), &[5, 7], &s.memory);
    let broken = Err("memory is not plain memory with the traps laid over it");
    for request in ["0x0 I 0x1008 0xa0b0c0d0", "0x0 D 0x103c 0x1", "0x0 I 0x1040 0x1"] {
        let answer = text(&mut s, request);
        let before = book.clone();
        assert_eq!(book.text(request.as_bytes(), answer.as_bytes()), Ok(()));
        assert_eq!(book.lies_under(&s.memory), Ok(()));
        if !answer.contains("0xffffffff") {
            assert_eq!(before.lies_under(&s.memory), broken);
        }
    }
}
