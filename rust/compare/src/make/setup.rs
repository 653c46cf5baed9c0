//! Setups, accepted and refused.

use super::texts::text_call;
use super::{call, setup_call, sizes};
use crate::op::{Op, Origin};
use crate::record::Record;
use reference::{TextPacket, BLOCK};
use sanirvoq::ffi::Target;
use std::ops::Range;
use steps::step::ten;
use steps::texts::SERVED;
use steps::{Rng, Step};

/// A rule of setup and a way to break it alone.
pub struct Rule {
    pub name: &'static str,
    spoil: Spoil,
}

enum Spoil {
    /// What the record says; the stretch is chosen after that.
    Record(fn(&mut Rng, &mut Target)),
    /// A stretch of a sound window, from its first address and the first behind it.
    Stretch(fn(&mut Rng, u64, u64) -> Range<u64>),
}

const fn rule(name: &'static str, spoil: fn(&mut Rng, &mut Target)) -> Rule {
    Rule { name, spoil: Spoil::Record(spoil) }
}

const fn of_stretch(name: &'static str, spoil: fn(&mut Rng, u64, u64) -> Range<u64>) -> Rule {
    Rule { name, spoil: Spoil::Stretch(spoil) }
}

pub const RULES: [Rule; 18] = [
    rule("M is 0", |_, asked| asked.size = 0),
    rule("M is no multiple of 4", |rng, asked| asked.size -= rng.pick(&[1, 2, 3])),
    rule("M is over 65,536", |rng, asked| {
        let any = 65_540 + (rng.word() & 0x7fff_fffc);
        (asked.base, asked.size) = (4_096, rng.pick(&[65_540, 131_072, 0x8000_0000, any]));
    }),
    rule("B is no multiple of 4", |rng, asked| {
        asked.base = asked.base.wrapping_sub(rng.pick(&[1, 2, 3])).max(4_097)
    }),
    rule("B is under 4,096", |rng, asked| {
        let any = 4 * rng.below(1_024);
        asked.base = rng.pick(&[0, 4, 136, 4_092, any]);
    }),
    rule("B + M is over 2^32", |rng, asked| {
        asked.size = asked.size.max(8);
        let over = 4 * (1 + rng.below(asked.size / 4 - 1));
        asked.base = over.wrapping_sub(asked.size);
    }),
    rule("there is no process", |_, asked| asked.count = 0),
    rule(
        "there are over four processes",
        // The last two wrap to 0 and to 1 where they are multiplied by 136 in 32 bits.
        |rng, asked| asked.count = rng.pick(&[5, 6, 8, 255, u32::MAX, 1 << 29, (1 << 29) + 1]),
    ),
    rule("a pid is 0", |rng, asked| asked.processes[rng.index(asked.count as usize)].pid = 0),
    rule("two pids are equal", |rng, asked| {
        asked.count = 2 + rng.below(3);
        let (one, other) = two(rng, asked.count as usize);
        for (i, process) in asked.processes.iter_mut().enumerate() {
            process.pid = 1 + i as u32;
        }
        asked.processes[one].pid = asked.processes[other].pid;
    }),
    of_stretch("from is no multiple of 4", |rng, base, end| {
        let to = above(rng, base, end);
        to - rng.pick(&[1, 2, 3])..to
    }),
    of_stretch("to is no multiple of 4", |rng, base, end| {
        let from = above(rng, base, end) - 4;
        from..from + rng.pick(&[1, 2, 3])
    }),
    of_stretch("from and to are no multiples of 4", |rng, base, end| {
        let within = above(rng, base, end) - rng.pick(&[1, 2, 3]);
        within..within
    }),
    of_stretch("from is under B", |rng, base, end| {
        let under = base - 4 * u64::from(1 + rng.below(1_024));
        let within = above(rng, base, end);
        let (from, low) = (rng.pick(&[base - 4, under, 0]), rng.chance(25));
        let to = if low { from } else { rng.pick(&[base, within, end]) };
        from..to
    }),
    of_stretch("to is under from", |rng, base, end| {
        let from = above(rng, base, end);
        let lower = base + 4 * u64::from(rng.below(((from - base) / 4) as u32));
        from..rng.pick(&[from - 4, lower, base, 0])
    }),
    of_stretch("to is over B + M", |rng, base, end| {
        let over = end + 4 * u64::from(1 + rng.below(1_024));
        let (to, high) = (rng.pick(&[end + 4, over, 1 << 40]), rng.chance(25));
        let within = above(rng, base, end);
        let from = if high { to } else { rng.pick(&[base, within, end]) };
        from..to
    }),
    of_stretch("to fits in 32 bits only", |rng, base, end| {
        let from = above(rng, base, end) - 4;
        from..from + 4 + (u64::from(1 + rng.below(9)) << 32)
    }),
    of_stretch("from and to fit in 32 bits only", |rng, base, end| {
        let (from, high) = (above(rng, base, end) - 4, u64::from(1 + rng.below(9)) << 32);
        from + high..from + 4 + high
    }),
];

/// A multiple of 4 over B and at most B + M.
fn above(rng: &mut Rng, base: u64, end: u64) -> u64 {
    base + 4 * u64::from(1 + rng.below(((end - base) / 4) as u32))
}

/// A sound stretch of a window; of one that breaks a rule, a stretch that itself breaks none.
pub fn stretch(rng: &mut Rng, base: u32, size: u32) -> Range<u64> {
    let (base, end) = (u64::from(base), u64::from(base) + u64::from(size));
    let (low, high) = (base.next_multiple_of(4), end / 4 * 4);
    let words = (high.saturating_sub(low) / 4) as u32;
    let at = |words: u32| low + 4 * u64::from(words);
    if words == 0 {
        return low..low;
    }
    let (word, some) = (rng.below(words), rng.below(words + 1));
    let most = at(word) + 4 * u64::from(1 + rng.below((words - word).min(8)));
    match rng.weighted(&[8, 8, 10, 26, 10, 10, 14, 12, 2]) {
        0 => low..low,
        1 => high..high,
        2 => at(some)..at(some),
        3 => at(word)..at(word) + 4,
        4 => low..low + 4,
        5 => high - 4..high,
        6 => at(word)..most,
        7 if rng.chance(50) => low..at(some),
        7 => at(some)..high,
        _ => low..high,
    }
}

/// Two different indices below `n`, which is at least 2.
pub fn two(rng: &mut Rng, n: usize) -> (usize, usize) {
    let one = rng.index(n);
    (one, (one + 1 + rng.index(n - 1)) % n)
}

/// Memory, register area, a record with the arguments of a setup and anything in the rest, and the
/// setup.
pub fn opening(rng: &mut Rng, record: &Record, rule: Option<usize>, ops: &mut Vec<Op>) {
    let mut asked = Box::new(dirt(rng, record));
    ask(rng, asked.target_mut());
    let spoil = rule.map(|rule| &RULES[rule].spoil);
    if let Some(Spoil::Record(spoil)) = spoil {
        spoil(rng, asked.target_mut());
    }
    let &Target { base, size, count, .. } = asked.target();
    let protected = match spoil {
        Some(Spoil::Stretch(spoil)) => spoil(rng, base.into(), u64::from(base) + u64::from(size)),
        _ => stretch(rng, base, size),
    };
    // Of the right size, unless the size is absurd; rule 1 comes before 2.
    let size = if size <= 65_536 { size as usize } else { 64 };
    let count = if count <= 8 { count as usize } else { 1 };
    ops.push(Op::Memory(content(rng, size)));
    ops.push(Op::Registers(rng.bytes(BLOCK * count)));
    ops.push(Op::Record(asked, Origin::Setup(rule)));
    ops.push(Op::Step(setup_call(rng, protected)));
}

/// The setup of an opening is lent buffers of wrong size.
pub fn spoil_sizes(rng: &mut Rng, ops: &mut [Op]) {
    if let [.., Op::Memory(memory), Op::Registers(registers), _, Op::Step(call)] = ops {
        sizes::spoil(rng, call, memory.len(), registers.len());
    }
}

/// What is in a record before a setup.
fn dirt(rng: &mut Rng, record: &Record) -> Record {
    let mut dirty = record.clone();
    match rng.weighted(&[25, 15, 40, 20]) {
        0 => dirty.bytes_mut().fill(0),
        1 => dirty.bytes_mut().fill(0xff),
        2 => rng.fill(dirty.bytes_mut()),
        _ => {}
    }
    dirty
}

/// Sound arguments.
fn ask(rng: &mut Rng, asked: &mut Target) {
    // Windows of many bytes cost time at each comparison; one session in a hundred has the largest.
    asked.size = match rng.weighted(&[5, 50, 29, 14, 1, 1]) {
        0 => 4,
        1 => 4 * (1 + rng.below(16)),
        2 => 4 * (1 + rng.below(64)),
        3 => 4 * (1 + rng.below(512)),
        4 => 4 * (1 + rng.below(16_384)),
        _ => 65_536,
    };
    let top = asked.size.wrapping_neg();
    asked.base = match rng.weighted(&[20, 25, 5, 15, 35]) {
        0 => 4_096,
        1 => top,
        2 => top - 4,
        3 => 4_096 + 4 * rng.below(1_024),
        _ => (rng.word() & !3).clamp(4_096, top),
    };
    asked.count = 1 + rng.below(4);
    for i in 0..asked.count as usize {
        let taken = |pid| asked.processes[..i].iter().any(|one| one.pid == pid);
        let any = rng.word().max(1);
        let choices = [1 + rng.below(12), 1 + rng.below(12), any, u32::MAX];
        let start = rng.pick(&choices);
        let pid = (0..4).map(|k| start.wrapping_sub(k).max(1)).find(|&pid| !taken(pid));
        asked.processes[i].pid = pid.unwrap_or(100 + i as u32);
        asked.processes[i].address = rng.word();
    }
}

/// Memory at setup; some of it has trap bytes of its own.
fn content(rng: &mut Rng, length: usize) -> Vec<u8> {
    let mut memory = rng.bytes(length);
    match rng.weighted(&[60, 20, 20]) {
        0 => {}
        1 => memory.iter_mut().for_each(|byte| *byte = [0, 1, 0x02, 0x90][usize::from(*byte % 4)]),
        _ => memory.iter_mut().enumerate().for_each(|(i, byte)| *byte = i as u8),
    }
    memory
}

/// Steps on an empty record: number 2 with the buffers there are, 3 with empty ones. A setup
/// between them finds B and M 0.
pub fn on_empty(rng: &mut Rng, ops: &mut Vec<Op>) {
    for _ in 0..rng.below(3) {
        ops.push(blind(rng));
    }
    if rng.chance(20) {
        ops.push(Op::Step(setup_call(rng, 0..0)));
    }
    ops.push(Op::Memory(Vec::new()));
    ops.push(Op::Registers(Vec::new()));
    for _ in 0..rng.below(4) {
        ops.push(blind(rng));
    }
}

/// A step of right size that was aimed at nothing.
fn blind(rng: &mut Rng) -> Op {
    let (pid, number, n) = (rng.below(12), 4_096 + rng.below(64), rng.below(5) as u8);
    if rng.chance(15) {
        let (letter, third, fourth) = (rng.pick(&SERVED), number & !3, pid);
        return Op::Step(text_call(rng, TextPacket { pid: 0, letter, third, fourth }));
    }
    let request = ten(2 * rng.below(12) as u8, number, &[n]);
    let step = Step::any(rng, request, pid, number);
    Op::Step(call(rng, step))
}
