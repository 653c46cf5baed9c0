//! This stub beside the independent one: the same answers, buffers and records over random steps, and
//! the same judgement of spoiled records.

use bench_stub::{Element, Entry, Refusal, Replied, Stub, Verdict, BLOCK, MESSAGE};
use reference::{body_length, write_text, Breakpoint, Draft, NotServed, Session, LONGEST_TEXT};
use std::collections::BTreeMap;
use std::ops::Range;
use steps::table::lacking;
use steps::tally::Tally;
use steps::{program, Generator, Rng};

/// Nothing protected, at three places, and stretches at both ends and within.
const STRETCHES: [Range<u64>; 7] = [
    4_096..4_096,
    4_104..4_108,
    4_096..4_100,
    4_152..4_160,
    4_112..4_144,
    4_128..4_128,
    4_160..4_160,
];

/// The independent stub over the worked setup with this stretch.
fn session(protected: Range<u64>) -> Session {
    Session::protecting(protected).unwrap()
}

/// A stub and what is lent to it.
#[derive(Clone)]
struct Own {
    stub: Stub,
    memory: Vec<u8>,
    registers: Vec<u8>,
}

impl Own {
    /// The worked setup with this stretch.
    fn protecting(protected: Range<u64>) -> Self {
        let (memory, registers) = ((0..64).collect::<Vec<u8>>(), vec![0; 2 * BLOCK]);
        let processes = [(5, 0x8000_1000), (7, 0x8000_2000)];
        let mut stub = Stub::default();
        assert_eq!(stub.setup(4_096, 64, protected, &processes, &memory, &registers), Ok(()));
        Self { stub, memory, registers }
    }

    /// What the program writes for a step.
    fn step(&mut self, kind: u8, body: &[u8]) -> Vec<u8> {
        self.run(kind, body).unwrap_or_else(|refusal| vec![refusal.number()])
    }

    fn run(&mut self, kind: u8, body: &[u8]) -> Result<Vec<u8>, Refusal> {
        let Self { stub, memory, registers } = self;
        let pid = body.first_chunk().map_or(0, |pid| u32::from_be_bytes(*pid));
        let rest = body.get(4..).unwrap_or_default();
        let mut reply = [0; MESSAGE];
        Ok(match kind {
            1 => {
                let plain = stub.request(memory, registers, body, &mut reply)?;
                let beside = plain.map_or(vec![], |[a, b]| vec![2, a, b]);
                [&[0][..], &reply, &beside].concat()
            }
            2 => match stub.trap(memory, registers, pid, rest)? {
                Verdict::Stop(id) => vec![0, 1, id],
                Verdict::Pass([a, b]) => vec![0, 2, a, b],
            },
            3 => vec![0, stub.schedule(memory, registers, pid, rest)?.into()],
            4 => {
                stub.state(memory, registers, pid, rest[0])?;
                vec![0]
            }
            _ => {
                stub.restart(memory, registers, &mut reply)?;
                [&[0][..], &reply].concat()
            }
        })
    }
}

fn element(element: Element) -> reference::Element {
    use reference::Element as Other;
    match element {
        Element::Pid(val) => Other::Pid(val),
        Element::Literal(val) => Other::Literal(val),
        Element::Indirect => Other::Indirect,
        Element::And => Other::And,
        Element::Equal => Other::Equal,
        Element::Differ => Other::Differ,
        Element::Both => Other::Both,
        Element::Either => Other::Either,
    }
}

/// The record in the independent stub's types; none where it has more processes or places than
/// there is room for.
fn view(stub: &Stub) -> Option<reference::Stub> {
    let mut first = 0;
    let mut taken = |count: u8| {
        let from = first;
        first += usize::from(count);
        let elements = stub.places.get(from..first)?;
        Some(elements.iter().copied().map(element).collect::<Vec<_>>())
    };
    let mut other = reference::Stub { base: stub.base, size: stub.size, ..Default::default() };
    let (offset, length) = (stub.protected_offset, stub.protected_length);
    other.protected = reference::Protected { offset, length };
    for one in stub.processes.get(..stub.count)? {
        let &bench_stub::Process { pid, address, state, wanted } = one;
        other.processes.push(reference::Process { pid, address, state, wanted });
    }
    for (slot, entry) in other.table.iter_mut().zip(&stub.entries) {
        let &Entry { used, id, count, plain, site } = entry;
        if used {
            *slot = Some(Breakpoint { id, site, plain, elements: taken(count)? });
        }
    }
    if stub.draft.active {
        other.draft = Some(Draft { id: stub.draft.id, elements: taken(stub.draft.count)? });
    }
    other.current = stub.current;
    Some(other)
}

#[test]
fn both_stubs_do_the_same() {
    let mut tally = Tally::default();
    for (seed, protected) in (1..).zip(STRETCHES) {
        let (mut steps, own) = (Vec::new(), Own::protecting(protected.clone()));
        let other = session(protected);
        program::write_over(other.clone(), seed, 40_000, &mut steps, &mut tally).unwrap();
        let (mut own, mut other, mut at) = (own, other, 0);
        while at < steps.len() {
            let (kind, start) = (steps[at], at + 1);
            at = start + body_length(kind).unwrap();
            let body = &steps[start..at];
            assert_eq!(own.step(kind, body), other.step(kind, body)[..], "{kind} {body:02x?}");
            assert_eq!(view(&own.stub).as_ref(), Some(&other.stub), "{kind} {body:02x?}");
            assert_eq!((&own.memory, &own.registers), (&other.memory, &other.registers));
        }
    }
    assert_eq!(lacking(&[tally.protection.section()]), Vec::<String>::new());
}

/// Setups of both: the same numbers and records, whatever is asked for.
#[test]
fn both_stubs_take_the_same_setups() {
    let (mut rng, mut numbers) = (Rng(9), [0; 3]);
    for _ in 0..100_000 {
        let base = rng.pick(&[4_096, 4_100, 4_092, 4_098, u32::MAX - 63, u32::MAX - 59]);
        let size = rng.pick(&[64, 64, 64, 8, 4, 0, 6, 65_540]);
        let at = |rng: &mut Rng| {
            let edges = [u64::from(base), u64::from(base) + u64::from(size), 1 << 32, 0];
            let by = 4 * u64::from(rng.below(5)) + u64::from(rng.chance(6));
            let edge = rng.pick(&edges);
            rng.pick(&[edge + by, edge.wrapping_sub(by), edge])
        };
        let protected = Range { start: at(&mut rng), end: at(&mut rng) };
        let processes = [(5, 1), (rng.pick(&[0, 5, 7, 7, 7, 7, 7]), 2)];
        let (memory, registers) = (vec![0; 64], vec![0; 2 * BLOCK]);
        let (mut own, mut other) =
            (Own::protecting(4_096..4_100).stub, Session::protecting(4_096..4_100).unwrap().stub);
        let ours = own.setup(base, size, protected.clone(), &processes, &memory, &registers);
        let theirs = other.setup(base, size, protected, &processes, &memory, &registers);
        let number = theirs.map_or_else(|refusal| refusal.number(), |()| 0);
        assert_eq!(ours.map_or_else(Refusal::number, |()| 0), number);
        assert_eq!(view(&own).as_ref(), Some(&other));
        numbers[usize::from(number)] += 1;
    }
    assert!(numbers.iter().all(|&count| count > 500), "{numbers:?}");
}

#[test]
fn both_stubs_serve_texts_the_same() {
    let (mut steps, mut generator, mut answers) = (Vec::new(), Generator::new(6), BTreeMap::new());
    let protected = 4_112..4_120;
    let (mut own, mut other, mut at) = (Own::protecting(protected.clone()), session(protected), 0);
    let mut tally = Tally::default();
    program::write_over(other.clone(), 6, 40_000, &mut steps, &mut tally).unwrap();
    while at < steps.len() {
        let (kind, start) = (steps[at], at + 1);
        at = start + body_length(kind).unwrap();
        own.step(kind, &steps[start..at]);
        other.step(kind, &steps[start..at]);
        let packet = generator.burst(&other.stub, &other.memory).packet();
        let mut text = [0; LONGEST_TEXT];
        let length = write_text(packet, &mut text).unwrap();
        let rng = &mut generator.rng;
        if rng.chance(20) {
            text[rng.index(length)] = rng.pick(b" 0x19afAR-");
        }
        let (length, room) = (length - rng.index(10) / 9, 33 + rng.index(20).min(2));
        let mut replies = [vec![0xee; room], vec![0xee; room]];
        let Own { stub, memory, registers } = &mut own;
        let ours = stub.text(memory, registers, &text[..length], &mut replies[0]);
        let Session { stub, memory, registers, .. } = &mut other;
        let theirs = stub.text(memory, registers, &text[..length], &mut replies[1]);
        let seen = ours.map(|Replied { failed, filled }| (failed, filled));
        let wanted = theirs.map(|served| (served.done.is_err(), served.filled));
        assert_eq!(seen.map_err(Refusal::number), wanted.map_err(NotServed::number), "{packet:?}");
        assert_eq!(replies[0], replies[1], "{packet:?}");
        assert_eq!(view(&own.stub).as_ref(), Some(&other.stub), "{packet:?}");
        assert_eq!((&own.memory, &own.registers), (&other.memory, &other.registers));
        let errno = theirs.map(|served| served.done.map_err(|errno| errno.number()).err());
        *answers.entry(errno.map_err(NotServed::number)).or_insert(0) += 1;
    }
    // Served, five errors, no packet and too short a buffer.
    assert!(answers.len() == 8 && answers.values().all(|&count| count > 100), "{answers:?}");
}

/// Changes something of a record.
fn spoil(rng: &mut Rng, stub: &mut Stub) {
    let (i, j) = (rng.index(8), rng.index(8));
    let counts = [0, 1, 2, 63, 64, 65, 128, 255, rng.byte()];
    let (any, word) = (rng.word(), 4 * rng.below(18));
    match rng.below(17) {
        0 => stub.entries[i].used ^= true,
        1 => stub.entries[i].count = rng.pick(&counts),
        2 => stub.entries[i].id = stub.entries[j].id,
        3 => stub.entries[i].site = stub.entries[j].site,
        4 => stub.entries[i].site ^= 1 << rng.below(32),
        5 => stub.draft.active ^= true,
        6 => stub.draft.count = rng.pick(&counts),
        7 => stub.draft.id = stub.entries[i].id,
        8 => stub.places[rng.index(12)] = stub.places[rng.index(12)],
        9 => stub.processes[i % 4].pid = stub.processes[j % 4].pid,
        10 => stub.processes[i % 2].wanted ^= true,
        11 => stub.current = Some(rng.below(8)),
        12 => (stub.base, stub.size) = (stub.base ^ 1 << rng.below(32), stub.size),
        13 => stub.protected_offset = rng.pick(&[word, word, word + 2, any]),
        14 => stub.protected_length = rng.pick(&[word, word, word + 2, any]),
        15 => {
            stub.protected_offset = 4 * rng.below(17);
            stub.protected_length = rng.pick(&[4, 8, 60, 0u32.wrapping_sub(stub.protected_offset)]);
        }
        _ => stub.entries.iter_mut().for_each(|entry| entry.count = rng.pick(&counts)),
    }
}

#[test]
fn spoiled_records_are_judged_the_same() {
    let mut rng = Rng(5);
    let mut numbers = [0; 2];
    for seed in 0..60 {
        let protected = STRETCHES[seed as usize % STRETCHES.len()].clone();
        let (mut steps, mut tally) = (Vec::new(), Tally::default());
        program::write_over(session(protected.clone()), seed, 600, &mut steps, &mut tally).unwrap();
        let (mut own, mut at) = (Own::protecting(protected), 0);
        while at < steps.len() {
            let (kind, start) = (steps[at], at + 1);
            at = start + body_length(kind).unwrap();
            own.step(kind, &steps[start..at]);
            let mut spoiled = own.clone();
            (0..=rng.below(2)).for_each(|_| spoil(&mut rng, &mut spoiled.stub));
            let held = view(&spoiled.stub);
            let fit = held.is_some_and(|stub| reference::fit(&stub, &own.memory));
            let (before, mut after) = (format!("{:?}", spoiled.stub), spoiled);
            let number = after.step(1, &[16, 0, 0, 0, 3, b'd', 0, 0, 0, 0])[0];
            assert_eq!(number, if fit { 0 } else { 3 }, "{before}");
            assert!(fit || format!("{:?}", after.stub) == before);
            numbers[usize::from(fit)] += 1;
        }
    }
    assert!(numbers.iter().all(|&count| count > 5_000), "{numbers:?}");
}
