//! No input makes the library panic, and a step with a number other than 0 changes nothing.

mod common;

use common::*;
use reference::{
    body_length, fit, Breakpoint, Draft, Element, NotServed, Process, Protected, Refusal, Session,
    Stub, ELEMENTS, PLACES,
};

/// A number that is often near a bound.
fn number(rng: &mut Rng) -> u32 {
    let near = [0, 4, 5, 7, 136, 4_096, 4_104, 4_160, 65_536, u32::MAX];
    match rng.below(3) {
        0 => near[rng.below(10) as usize],
        1 => near[rng.below(10) as usize].wrapping_add(rng.below(9) as u32).wrapping_sub(4),
        _ => rng.next() as u32,
    }
}

/// Mostly a few elements of any kind; else many that are well formed, up to too many.
fn elements(rng: &mut Rng) -> Vec<Element> {
    if rng.below(4) == 0 {
        return vec![Element::Indirect; rng.below(70) as usize];
    }
    let element = |rng: &mut Rng| {
        let letter = b"kkpp*&=!ao"[rng.below(10) as usize];
        Element::of(letter, number(rng)).unwrap()
    };
    (0..rng.below(17)).map(|_| element(rng)).collect()
}

/// A stretch, mostly a sound one of a window of 64 bytes.
fn stretch(rng: &mut Rng) -> Protected {
    if rng.below(4) == 0 {
        return Protected { offset: number(rng), length: number(rng) };
    }
    let offset = 4 * rng.below(17) as u32;
    Protected { offset, length: 4 * rng.below(u64::from(17 - offset / 4)) as u32 }
}

/// A record of anything that the types can hold.
fn spoiled(rng: &mut Rng) -> Stub {
    let mut stub = Stub { base: number(rng), size: number(rng) % 70_000, ..Stub::empty() };
    stub.protected = stretch(rng);
    for _ in 0..rng.below(5) {
        let (pid, state, wanted) = (number(rng), rng.next() as u8 % 10, rng.below(2) == 0);
        stub.processes.push(Process { pid, address: number(rng), state, wanted });
    }
    for slot in stub.table.iter_mut().filter(|_| rng.below(3) == 0).collect::<Vec<_>>() {
        let (id, site) = (rng.next() as u8, number(rng));
        *slot = Some(Breakpoint { id, site, plain: [1, 2], elements: elements(rng) });
    }
    if rng.below(2) == 0 {
        stub.draft = Some(Draft { id: rng.next() as u8, elements: elements(rng) });
    }
    stub.current = (rng.below(2) == 0).then(|| number(rng));
    stub
}

/// A fit session with one field or byte changed.
fn changed(rng: &mut Rng) -> Session {
    let mut s = Session::worked();
    for i in 0..rng.below(9) as u32 {
        plant(&mut s, i, &[(b'p', number(rng)), (b'*', 0), (b'a', 0)], 4_100 + 2 * i);
    }
    if rng.below(2) == 0 {
        ask(&mut s, cond(b'n', 100));
    }
    let slot = rng.below(8) as usize;
    match (rng.below(12), s.stub.table[slot].as_mut()) {
        (0, Some(entry)) => entry.site = number(rng),
        (1, Some(entry)) => entry.id = rng.next() as u8 % 9,
        (2, Some(entry)) => entry.elements = elements(rng),
        (3, _) => s.stub.processes[slot % 2].pid = number(rng),
        (4, _) => s.stub.base = number(rng),
        (5, _) => s.stub.size = number(rng),
        (6, _) => s.stub.current = Some(number(rng)),
        (7, _) => s.memory[rng.below(64) as usize] = rng.next() as u8,
        (8, _) => s.stub.processes[slot % 2].state = 8,
        (10, _) => s.stub.protected = stretch(rng),
        (9, _) => s.stub.table.iter_mut().flatten().for_each(|one| one.elements = elements(rng)),
        _ => {}
    }
    s
}

/// Runs one step of any kind; the buffers may have any size.
fn any_step(rng: &mut Rng, s: &mut Session, wild: bool) -> Result<(), Refusal> {
    let wrong = wild && rng.below(8) == 0;
    let length = |right: usize, rng: &mut Rng| if wrong { rng.below(200) as usize } else { right };
    let (ten, block) = (length(10, rng), length(136, rng));
    let (mut bytes, mut answer) = (rng.bytes(ten), vec![0xee; length(10, rng)]);
    let mut saved = rng.bytes(block);
    if let [kind, a, b, c, d, ..] = &mut bytes[..] {
        *kind = (rng.below(13) * 2) as u8;
        [*a, *b, *c, *d] = number(rng).to_be_bytes();
    }
    if let Some(pc) = saved.get_mut(132..136) {
        pc.copy_from_slice(&number(rng).to_be_bytes());
    }
    let pid = number(rng);
    let Session { stub, memory, registers } = s;
    match rng.below(6) {
        0 => stub.trap(memory, registers, pid, &saved).map(|_| ()),
        1 => stub.schedule(memory, registers, pid, &saved).map(|_| ()),
        2 => stub.state(memory, registers, pid, bytes.first().copied().unwrap_or(8)),
        3 => stub.restart(memory, registers, &mut answer),
        _ => stub.request(memory, registers, &bytes, &mut answer).map(|_| ()),
    }
}

#[test]
fn spoiled_records() {
    let mut rng = Rng(11);
    let mut numbers = [0u64; 8];
    for round in 0..200_000 {
        let mut s = if round % 2 == 0 {
            changed(&mut rng)
        } else {
            let stub = spoiled(&mut rng);
            let memory = vec![0x02; stub.size as usize];
            let registers = vec![0; 136 * stub.processes.len()];
            Session { stub, memory, registers }
        };
        let before = s.clone();
        let was_fit = fit(&s.stub, &s.memory);
        let done = any_step(&mut rng, &mut s, true);
        let number = done.map_or_else(Refusal::number, |()| 0);
        numbers[usize::from(number)] += 1;
        if number != 0 {
            assert_eq!(s, before);
        } else {
            assert!(was_fit && fit(&s.stub, &s.memory));
        }
        let over = s.stub.table.iter().flatten().any(|one| one.elements.len() > ELEMENTS);
        assert!(!was_fit || !over && s.stub.held() <= PLACES);
        assert!(number == 2 || (number == 3) != was_fit);
    }
    assert!([0, 2, 3, 4, 5, 6].iter().all(|&i| numbers[i] > 0), "{numbers:?}");
}

/// Parts that ask nothing of the record but its types.
#[test]
fn parts_on_spoiled_records() {
    let mut rng = Rng(12);
    for _ in 0..200_000 {
        let mut stub = spoiled(&mut rng);
        let length = rng.below(80) as usize;
        let mut memory = rng.bytes(length);
        let list = elements(&mut rng);
        let address = number(&mut rng);
        let n = rng.below(20) as usize;
        fit(&stub, &memory);
        stub.holds(&memory, &list, 5);
        stub.read_plain(&memory, address, &mut vec![0; n]);
        stub.write_plain(&mut memory, address, &vec![1; n]);
    }
}

#[test]
fn setups() {
    let mut rng = Rng(13);
    for _ in 0..100_000 {
        let mut stub = spoiled(&mut rng);
        let count = rng.below(6) as usize;
        let processes: Vec<_> = (0..count).map(|_| (number(&mut rng), number(&mut rng))).collect();
        let (base, size) = (number(&mut rng) & !3, (number(&mut rng) % 66_000) & !3);
        let memory = vec![0; size as usize + usize::from(rng.below(9) == 0)];
        let registers = vec![0; 136 * count + usize::from(rng.below(9) == 0)];
        let Protected { offset, length } = stretch(&mut rng);
        let from = u64::from(base) + u64::from(offset);
        let protected = from..from + u64::from(length);
        match stub.setup(base, size, protected, &processes, &memory, &registers) {
            Ok(()) => assert!(fit(&stub, &memory)),
            Err(refusal) => {
                assert!(matches!(refusal, Refusal::Setup | Refusal::Size));
                assert_eq!(stub, Stub::empty());
            }
        }
    }
}

/// A text of four fields, now and then with a byte changed.
fn any_text(rng: &mut Rng) -> Vec<u8> {
    let letter = char::from(b"iIdDrRcs!~"[rng.below(10) as usize]);
    let pid = if rng.below(8) == 0 { number(rng) } else { 0 };
    let mut text = format!("{pid:#x} {letter} {:#x} {:#x}", number(rng), number(rng)).into_bytes();
    if rng.below(8) == 0 {
        let place = rng.below(text.len() as u64) as usize;
        text[place] = rng.next() as u8;
    }
    text
}

/// Text steps over records of anything and buffers of any size: no number but theirs, and none but 0
/// changes anything.
#[test]
fn text_steps() {
    let mut rng = Rng(15);
    let mut numbers = [0u64; 12];
    for _ in 0..200_000 {
        let mut s = changed(&mut rng);
        if rng.below(9) == 0 {
            s.memory.truncate(rng.below(64) as usize);
        }
        let (before, was_fit) = (s.clone(), fit(&s.stub, &s.memory));
        let text = any_text(&mut rng);
        let mut answer = vec![0xee; 30 + rng.below(30) as usize];
        let Session { stub, memory, registers } = &mut s;
        let done = stub.text(memory, registers, &text, &mut answer);
        let number = done.map_or_else(NotServed::number, |_| 0);
        numbers[usize::from(number)] += 1;
        if done.map_or(true, |served| served.done.is_err()) {
            assert_eq!(s, before);
        }
        assert_eq!(number == 0, answer[0] == b'0');
        assert!(number == 2 || (number == 3) != was_fit);
        assert!(!was_fit || fit(&s.stub, &s.memory) || number == 2);
    }
    let reached: Vec<usize> = (0..12).filter(|&i| numbers[i] > 0).collect();
    assert_eq!(reached, [0, 2, 3, 10, 11], "{numbers:?}");
}

/// Random bytes as the program's steps; the record stays fit.
#[test]
fn random_program_steps() {
    let mut rng = Rng(14);
    let mut s = Session::worked();
    for _ in 0..300_000 {
        let kind = 1 + rng.below(5) as u8;
        let mut body = rng.bytes(body_length(kind).unwrap());
        if kind == 1 && rng.below(4) > 0 {
            body[0] %= 24;
            body[1..5].copy_from_slice(&number(&mut rng).to_be_bytes());
            body[5] = b"nkpbd*&=!ao\x01\x02\x03\x04\x09"[rng.below(16) as usize];
            body[6..].fill(0);
        } else if body.len() > 4 && rng.below(4) > 0 {
            body[..4].copy_from_slice(&number(&mut rng).to_be_bytes());
        }
        let output = s.step(kind, &body);
        assert!(matches!(output[0], 0 | 4 | 5 | 6));
        assert!(fit(&s.stub, &s.memory));
    }
    for kind in [0u8, 6, 7, 255] {
        assert_eq!(s.step(kind, &[])[..], [0xff]);
    }
    assert_eq!(s.step(1, &[0; 9])[..], [2]);
}
