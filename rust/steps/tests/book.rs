//! The book of demand 3, kept beside the independent stub over random steps.

use reference::{
    body_length, fit, write_text, Book, Claim, Element, Errno, Places, Session, Stub, TextPacket,
    Verdict, BLOCK, LONGEST_TEXT, MESSAGE,
};
use std::ops::Range;
use steps::table::{lacking, table};
use steps::tally::Tally;
use steps::{program, Generator};

/// Nothing, and a word, both ends and the middle of the window of 64 bytes at 4,096.
const STRETCHES: [Range<u64>; 7] = [
    4_096..4_096,
    4_104..4_108,
    4_096..4_100,
    4_152..4_160,
    4_112..4_144,
    4_128..4_128,
    4_160..4_160,
];

/// Feeds a step that got number 0; `registers` are those lent to it.
fn feed(book: &mut Book, kind: u8, body: &[u8], answer: &[u8], registers: &[u8]) -> Claim {
    let pid = if body.len() < 4 { 0 } else { u32::from_be_bytes(body[..4].try_into().unwrap()) };
    let block = || <&[u8; BLOCK]>::try_from(&body[4..]).unwrap();
    match (kind, answer) {
        (1, _) => {
            let (reply, beside) = answer.split_first_chunk::<MESSAGE>().ok_or("a short reply")?;
            let plain = match *beside {
                [] => None,
                [2, a, b] => Some([a, b]),
                _ => return Err("an answer of another form"),
            };
            book.request(body.try_into().unwrap(), registers, reply, plain)?;
        }
        (2, &[1, id]) => book.trap(pid, block(), Verdict::Stop(id))?,
        (2, &[2, a, b]) => book.trap(pid, block(), Verdict::Pass([a, b]))?,
        (3, &[yes]) => book.schedule(pid, yes == 1),
        (4, &[]) => {}
        (5, _) => book.restart(),
        _ => return Err("an answer of another form"),
    }
    Ok(())
}

/// What the record has, the book has.
fn check_record(stub: &Stub, book: &Book) {
    let sent = |list: &[(u8, u32)]| -> Vec<Element> {
        list.iter().map(|&(letter, val)| Element::of(letter, val).unwrap()).collect()
    };
    assert_eq!(stub.table.iter().flatten().count(), book.planted().len());
    for one in book.planted() {
        let entry = stub.at_site(one.site).unwrap();
        assert_eq!(u32::from(entry.id), one.condition.id);
        assert_eq!(entry.elements[..], sent(&one.condition.elements));
    }
    for process in stub.processes.iter() {
        assert_eq!(process.state == 8, book.stopped().contains(&process.pid));
    }
    // The book keeps a draft that the stub dropped, so this goes one way.
    if let Some(draft) = &stub.draft {
        let kept = book.draft().unwrap();
        assert_eq!(u32::from(draft.id), kept.id);
        assert_eq!(draft.elements[..], sent(&kept.elements));
    }
}

/// A refused step changes nothing, but for the condition in hand of a Tcondbreak.
fn check_refused(before: &Session, s: &Session, kind: u8, body: &[u8]) {
    let mut wanted = before.clone();
    if kind == 1 && body[0] == 16 && body[5..9] != *b"d\0\0\0" {
        wanted.stub.draft = None;
    }
    assert_eq!(*s, wanted);
}

fn replay(steps: &[u8], protected: Range<u64>) {
    let (mut s, mut at) = (Session::protecting(protected.clone()).unwrap(), 0);
    let mut book = Book::new(s.stub.base, protected, &[5, 7], &s.memory);
    let mut places = Places::new();
    while at < steps.len() {
        let (kind, start) = (steps[at], at + 1);
        at = start + body_length(kind).unwrap();
        let body = &steps[start..at];
        let before = s.clone();
        let output = s.step(kind, body);
        if output[0] != 0 || (kind == 1 && output[1] == 1) {
            check_refused(&before, &s, kind, body);
        }
        if output[0] == 0 {
            assert_eq!(feed(&mut book, kind, body, &output[1..], &before.registers), Ok(()));
            match kind {
                1 => places.request(body.try_into().unwrap(), output[1..11].try_into().unwrap()),
                5 => places.restart(),
                _ => {}
            }
        }
        assert_eq!(s.stub.held() as u64, places.held());
        assert!(fit(&s.stub, &s.memory));
        assert_eq!(book.lies_under(&s.memory), Ok(()));
        assert_eq!(book.keeps_protected(&before.memory, &s.memory), Ok(()));
        check_record(&s.stub, &book);
    }
}

/// A text step, with what the book says of it. One with ERRFLG -1 changes nothing. Gives what it
/// answered.
fn text_step(s: &mut Session, book: &mut Book, packet: TextPacket) -> Result<u32, Errno> {
    let (mut request, mut reply) = ([0; LONGEST_TEXT], [0xee; LONGEST_TEXT + 3]);
    let length = write_text(packet, &mut request).unwrap();
    let before = s.clone();
    let Session { stub, memory, registers } = &mut *s;
    let served = stub.text(memory, registers, &request[..length], &mut reply).unwrap();
    assert_eq!(book.keeps_protected(&before.memory, memory), Ok(()));
    assert_eq!(book.text(&request[..length], &reply[..served.filled]), Ok(()));
    assert!(reply[served.filled..].iter().all(|&byte| byte == 0xee));
    if served.done.is_err() {
        assert_eq!(*s, before);
    }
    assert_eq!(s.stub.draft, before.stub.draft);
    served.done
}

/// Text steps between the steps of the program: every errno comes, and every letter is carried out.
#[test]
fn the_book_agrees_on_text_steps_too() {
    let protected = 4_112..4_120;
    let (mut s, mut generator) =
        (Session::protecting(protected.clone()).unwrap(), Generator::new(5));
    let mut book = Book::new(s.stub.base, protected, &[5, 7], &s.memory);
    let (mut done, mut errors) = ([0; 256], [0; 23]);
    for _ in 0..10_000 {
        let mut burst = generator.burst(&s.stub, &s.memory);
        burst.act();
        let steps = std::mem::take(&mut burst.steps);
        for step in steps {
            let (registers, output) = (s.registers.clone(), s.step(step.kind(), &step.body()));
            if let [0, answer @ ..] = &output[..] {
                let fed = feed(&mut book, step.kind(), &step.body(), answer, &registers);
                assert_eq!(fed, Ok(()));
            }
            let packet = generator.burst(&s.stub, &s.memory).packet();
            match text_step(&mut s, &mut book, packet) {
                Ok(_) => done[usize::from(packet.letter)] += 1,
                Err(errno) => errors[errno.number() as usize] += 1,
            }
            assert!(fit(&s.stub, &s.memory));
            assert_eq!(book.lies_under(&s.memory), Ok(()));
            check_record(&s.stub, &book);
        }
    }
    assert!(b"idIDrR".iter().all(|&letter| done[usize::from(letter)] > 100), "{done:?}");
    assert_eq!(done.iter().filter(|&&count| count > 0).count(), 6);
    assert!(Errno::ALL.iter().all(|errno| errors[errno.number() as usize] > 100), "{errors:?}");
}

/// With each stretch; together they meet it in every way.
#[test]
fn the_book_agrees() {
    let mut tally = Tally::default();
    for (seed, protected) in (1..).zip(STRETCHES) {
        let (mut steps, session) = (Vec::new(), Session::protecting(protected.clone()).unwrap());
        program::write_over(session, seed, 40_000, &mut steps, &mut tally).unwrap();
        replay(&steps, protected);
    }
    let met = [tally.protection.section()];
    assert_eq!(lacking(&met), Vec::<String>::new(), "{}", table(&met));
}
