//! Setup, the sizes of number 2, and when a record is fit.

mod common;

use common::*;
use reference::{fit, Breakpoint, Draft, Element, List, Protected, Refusal, Session, Stub};
use std::ops::Range;

const TWO: [(u32, u32); 2] = [(5, 0x8000_1000), (7, 0x8000_2000)];

/// Setup over a record that was in use, with buffers of the right size.
fn setup(base: u32, size: u32, processes: &[(u32, u32)]) -> (Result<(), Refusal>, Stub) {
    setup_protecting(base, size, base.into()..base.into(), processes)
}

/// The same with a protected stretch.
fn setup_protecting(
    base: u32,
    size: u32,
    protected: Range<u64>,
    processes: &[(u32, u32)],
) -> (Result<(), Refusal>, Stub) {
    let mut s = used();
    let memory = vec![0x11; size as usize & 0xf_ffff];
    let registers = vec![0x22; 136 * processes.len()];
    let done = s.stub.setup(base, size, protected, processes, &memory, &registers);
    (done, s.stub)
}

/// A session with breakpoints, a condition in hand, a current and a Stopped process.
fn used() -> Session {
    let mut s = Session::worked();
    plant(&mut s, 3, &[], 4_104);
    plant(&mut s, 4, &[(b'k', 7), (b'a', 0)], 4_106);
    ask(&mut s, cond(b'n', 9));
    ask(&mut s, cond(b'p', 9));
    ask(&mut s, ten(6, 5, &[]));
    trap(&mut s, 7, 4_104).unwrap();
    assert!(fit(&s.stub, &s.memory));
    s
}

#[test]
fn setup_keeps_its_bounds() {
    let accepted = [(4_096, 4), (4_096, 65_536), (0xffff_fffc, 4), (0xffff_0000, 65_536)];
    for (base, size) in accepted {
        let (done, stub) = setup(base, size, &TWO);
        assert_eq!(done, Ok(()), "{base} {size}");
        assert_eq!((stub.base, stub.size, stub.current), (base, size, None));
        assert!(stub.table.iter().all(Option::is_none) && stub.draft.is_none());
        assert!(stub.processes.iter().all(|process| process.state == 2 && !process.wanted));
    }
    let refused = [
        (4_096, 0),
        (4_096, 2),
        (4_096, 6),
        (4_096, 65_540),
        (4_092, 64),
        (4_098, 64),
        (0, 64),
        (0xffff_fffc, 8),
        (0xffff_0004, 65_536),
    ];
    for (base, size) in refused {
        assert_eq!(setup(base, size, &TWO), (Err(Refusal::Setup), Stub::empty()));
    }
}

#[test]
fn setup_takes_one_to_four_distinct_pids() {
    let four = [(1, 0), (2, 0), (u32::MAX, 0), (3, 0), (4, 0)];
    for count in 1..=4 {
        let (done, stub) = setup(B, 64, &four[..count]);
        assert_eq!((done, stub.processes.len()), (Ok(()), count));
    }
    for processes in [&[][..], &four, &[(0, 1)], &[(5, 1), (0, 1)], &[(5, 1), (7, 1), (5, 2)]] {
        assert_eq!(setup(B, 64, processes), (Err(Refusal::Setup), Stub::empty()));
    }
}

/// The bounds of a window, and what the record has of a stretch in it.
#[test]
fn setup_takes_a_stretch_of_the_window() {
    const TOP: u64 = 1 << 32;
    let accepted = [
        (B, 64, 4_096..4_096, (0, 0)),
        (B, 64, 4_128..4_128, (32, 0)),
        (B, 64, 4_160..4_160, (64, 0)),
        (B, 64, 4_096..4_100, (0, 4)),
        (B, 64, 4_156..4_160, (60, 4)),
        (B, 64, 4_096..4_160, (0, 64)),
        (B, 65_536, 4_096..69_632, (0, 65_536)),
        (0xffff_0000, 65_536, TOP - 65_536..TOP, (0, 65_536)),
        (0xffff_0000, 65_536, TOP - 4..TOP, (65_532, 4)),
        (0xffff_fffc, 4, TOP..TOP, (4, 0)),
        (0xffff_fffc, 4, TOP - 4..TOP - 4, (0, 0)),
    ];
    for (base, size, protected, (offset, length)) in accepted {
        let (done, stub) = setup_protecting(base, size, protected.clone(), &TWO);
        assert_eq!(done, Ok(()), "{base} {size} {protected:?}");
        assert_eq!(stub.protected, Protected { offset, length });
    }
    let refused = [
        (B, 4_097..4_100),
        (B, 4_098..4_100),
        (B, 4_096..4_099),
        (B, 4_098..4_098),
        (B, 4_092..4_100),
        (B, 4_092..4_092),
        (B, 0..0),
        (B, 0..4_100),
        (B, Range { start: 4_104, end: 4_100 }),
        (B, Range { start: 4_160, end: 4_096 }),
        (B, 4_156..4_164),
        (B, 4_164..4_164),
        (B, 4_096..TOP + 4_100),
        (B, TOP + 4_096..TOP + 4_100),
        (B, 4_096..u64::MAX - 3),
        (0xffff_ffc0, TOP - 4..TOP + 4),
        (0xffff_ffc0, TOP + 4..TOP + 4),
        (0xffff_ffc0, Range { start: TOP - 4, end: 0 }),
        (0xffff_ffc0, 0..0),
    ];
    for (base, protected) in refused {
        let done = setup_protecting(base, 64, protected.clone(), &TWO);
        assert_eq!(done, (Err(Refusal::Setup), Stub::empty()), "{base} {protected:?}");
    }
}

#[test]
fn setup_tests_rule_1_before_2() {
    for (memory, registers) in [(63, 272), (65, 272), (64, 271), (64, 136), (0, 0)] {
        let (memory, registers) = (vec![0; memory], vec![0; registers]);
        let mut stub = used().stub;
        let mut set = |base, from, to| stub.setup(base, 64, from..to, &TWO, &memory, &registers);
        assert_eq!(set(B + 2, 4_096, 4_096), Err(Refusal::Setup));
        assert_eq!(set(B, 4_096, 4_098), Err(Refusal::Setup));
        assert_eq!(set(B, 4_096, 4_100), Err(Refusal::Size));
        assert_eq!(stub, Stub::empty());
    }
}

/// The number of every step after setup, over these buffers; a refused step changes nothing.
fn numbers(s: &Session) -> [u8; 5] {
    let mut now = s.clone();
    let Session { stub, memory, registers } = &mut now;
    let mut answer = [0xee; 10];
    let done = [
        stub.request(memory, registers, &mget(0x1004, 4), &mut answer).map(|_| ()),
        stub.trap(memory, registers, 5, &block(0, 4_104)).map(|_| ()),
        stub.schedule(memory, registers, 5, &block(0, 4_104)).map(|_| ()),
        stub.state(memory, registers, 5, 3),
        stub.restart(memory, registers, &mut answer),
    ];
    if done.iter().all(Result::is_err) {
        assert_eq!((&now, answer), (s, [0xee; 10]));
    }
    done.map(|one| one.map_or_else(Refusal::number, |()| 0))
}

#[test]
fn every_step_tests_the_lent_buffers() {
    for (memory, registers) in [(63, 272), (68, 272), (0, 272), (64, 271), (64, 273), (64, 0)] {
        let mut s = used();
        s.memory.resize(memory, 0);
        s.registers.resize(registers, 0);
        assert_eq!(numbers(&s), [2; 5]);
        s.stub.current = Some(6);
        assert_eq!(numbers(&s), [2; 5], "2 comes before 3");
    }
    let empty = Session { stub: Stub::empty(), memory: vec![], registers: vec![] };
    assert_eq!(numbers(&empty), [3; 5]);
}

#[test]
fn requests_replies_and_blocks_have_one_size() {
    let mut s = used();
    s.stub.current = Some(6);
    let before = s.clone();
    let Session { stub, memory, registers } = &mut s;
    for length in [0, 9, 11, 135, 137] {
        let mut other = vec![0xee; length];
        let size = Err(Refusal::Size);
        assert_eq!(stub.request(memory, registers, &other, &mut [0; 10]), size);
        assert_eq!(stub.request(memory, registers, &mget(B, 1), &mut other), size);
        assert_eq!(stub.restart(memory, registers, &mut other), Err(Refusal::Size));
        assert_eq!(stub.trap(memory, registers, 99, &other), Err(Refusal::Size));
        assert_eq!(stub.schedule(memory, registers, 99, &other), Err(Refusal::Size));
        assert_eq!(other, vec![0xee; length]);
    }
    assert_eq!(s, before);
}

fn entry(id: u8, site: u32, elements: &[Element]) -> Option<Breakpoint> {
    Some(Breakpoint { id, site, plain: [0; 2], elements: elements.to_vec() })
}

type Change = fn(&mut Session);

/// Elements that are well formed, as many as asked for.
fn stars(count: usize) -> Vec<Element> {
    vec![Element::Indirect; count]
}

/// Conditions of so many elements for the two breakpoints and the one in hand.
fn conditions(s: &mut Session, counts: [usize; 3]) {
    for (slot, count) in s.stub.table.iter_mut().flatten().zip(counts) {
        slot.elements = stars(count);
    }
    s.stub.draft.as_mut().unwrap().elements = stars(counts[2]);
}

/// Changes that leave the used session fit.
const HARMLESS: [Change; 16] = [
    |s| s.stub.table[0].as_mut().unwrap().plain = [0x02, 0x90],
    |s| s.stub.processes[0].state = 200,
    |s| s.stub.processes[0].address = s.stub.processes[1].address,
    |s| s.stub.current = None,
    |s| s.stub.draft = None,
    |s| s.memory[0] = 0xff,
    |s| s.stub.draft = Some(Draft { id: 9, elements: vec![Element::Pid(1); 64] }),
    |s| conditions(s, [64, 64, 0]),
    |s| conditions(s, [0, 64, 64]),
    |s| conditions(s, [43, 42, 43]),
    |s| s.stub.table.swap(0, 7),
    |s| s.stub.protected = Protected { offset: 0, length: 8 },
    |s| s.stub.protected = Protected { offset: 12, length: 52 },
    |s| s.stub.protected = Protected { offset: 8, length: 0 },
    |s| s.stub.protected = Protected { offset: 64, length: 0 },
    |s| s.stub.protected = Protected { offset: 60, length: 4 },
];

/// Changes that spoil it, each by one rule.
const SPOILING: [Change; 47] = [
    |s| s.stub.base += 2,
    |s| s.stub.base = 0,
    |s| s.stub.base = 4_100,
    |s| s.stub.base = u32::MAX - 3,
    |s| s.stub.processes[0].pid = 0,
    |s| s.stub.processes[0].pid = 7,
    |s| s.stub.processes[0].pid = 6,
    |s| s.stub.processes[1].wanted = true,
    |s| s.stub.current = Some(6),
    |s| s.stub.current = Some(0),
    |s| s.memory[8] = 8,
    |s| s.memory[11] = 0x91,
    |s| s.stub.table[0].as_mut().unwrap().id = 4,
    |s| s.stub.table[1].as_mut().unwrap().site = 4_104,
    |s| s.stub.table[0].as_mut().unwrap().site = 4_105,
    |s| s.stub.table[0].as_mut().unwrap().site = 4_160,
    |s| s.stub.table[0].as_mut().unwrap().site = 4_094,
    |s| s.stub.table[0].as_mut().unwrap().site = u32::MAX,
    |s| s.stub.table[7] = entry(200, 4_096, &[]),
    |s| s.stub.table[0] = entry(3, 4_104, &[Element::And]),
    |s| s.stub.table[0] = entry(3, 4_104, &[Element::Pid(5)]),
    |s| s.stub.table[0] = entry(3, 4_104, &[Element::Pid(5), Element::Both, Element::Either]),
    |s| s.stub.draft = Some(Draft { id: 3, elements: vec![] }),
    |s| s.stub.draft.as_mut().unwrap().elements = vec![Element::Equal],
    |s| {
        for (i, slot) in s.stub.table.iter_mut().enumerate().skip(2) {
            *slot = entry(100 + i as u8, 4_096 + 20 + 2 * i as u32, &[]);
            s.memory[20 + 2 * i..22 + 2 * i].copy_from_slice(&[0x02, 0x90]);
        }
    },
    |s| {
        s.stub.size = 62;
        s.memory.truncate(62);
    },
    |s| {
        s.stub.processes = List::new();
        s.registers.clear();
    },
    |s| conditions(s, [65, 0, 0]),
    |s| conditions(s, [0, 65, 0]),
    |s| conditions(s, [0, 0, 65]),
    |s| conditions(s, [64, 64, 1]),
    |s| conditions(s, [1, 64, 64]),
    |s| conditions(s, [43, 43, 43]),
    |s| s.stub.protected = Protected { offset: 2, length: 0 },
    |s| s.stub.protected = Protected { offset: 1, length: 4 },
    |s| s.stub.protected = Protected { offset: 16, length: 2 },
    |s| s.stub.protected = Protected { offset: 16, length: 7 },
    |s| s.stub.protected = Protected { offset: 60, length: 8 },
    |s| s.stub.protected = Protected { offset: 68, length: 0 },
    |s| s.stub.protected = Protected { offset: u32::MAX - 3, length: 4 },
    |s| s.stub.protected = Protected { offset: 16, length: u32::MAX - 15 },
    |s| s.stub.protected = Protected { offset: u32::MAX - 3, length: u32::MAX - 3 },
    // The sites are at 8 and 10.
    |s| s.stub.protected = Protected { offset: 8, length: 4 },
    |s| s.stub.protected = Protected { offset: 0, length: 12 },
    |s| s.stub.protected = Protected { offset: 8, length: 56 },
    |s| {
        s.stub.table[1] = None;
        s.stub.protected = Protected { offset: 4, length: 8 };
    },
    |s| {
        s.stub.table[0] = None;
        s.stub.protected = Protected { offset: 8, length: 8 };
    },
];

#[test]
fn a_record_is_fit_or_number_3() {
    for (i, change) in HARMLESS.iter().enumerate() {
        let mut s = used();
        change(&mut s);
        assert!(fit(&s.stub, &s.memory), "harmless change {i}");
    }
    for (i, change) in SPOILING.iter().enumerate() {
        let mut s = used();
        change(&mut s);
        assert!(!fit(&s.stub, &s.memory), "spoiling change {i}");
        assert_eq!(numbers(&s), [3; 5], "spoiling change {i}");
    }
}

/// The full table is what spoils the record there, not the entries.
#[test]
fn a_full_table_is_fit_with_nothing_in_hand() {
    let mut s = used();
    SPOILING[24](&mut s);
    s.stub.draft = None;
    assert!(fit(&s.stub, &s.memory));
}

#[test]
fn short_memory_is_not_fit() {
    let s = used();
    for length in 0..64 {
        assert!(!fit(&s.stub, &s.memory[..length.min(9)]));
    }
}
