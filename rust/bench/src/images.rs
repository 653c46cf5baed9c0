//! Image differences of 65,536 bytes: the archive's call beside two in Rust and beside `cmp -l`.

use crate::cmp::{self, Files, Taken};
use crate::timing::{in_turn, median, median_ratio, Plan};
use reference::Run;
use sanirvoq::call::image_differences;
use std::hint::black_box;
use std::io;

const LENGTH: usize = reference::LONGEST_IMAGE;
/// What every place of a list holds before the first call.
const UNUSED: u32 = 0xeeee_eeee;

/// How two images differ.
pub struct Case {
    pub name: &'static str,
    differs: fn(usize) -> bool,
}

pub const CASES: [Case; 4] = [
    Case { name: "images, equal", differs: |_| false },
    Case { name: "images, one run", differs: |_| true },
    Case { name: "images, alternating", differs: |i| i % 2 == 1 },
    // By a multiplicative hash, so that no branch predictor learns the places.
    Case {
        name: "images, 1 byte in 100",
        differs: |i| (i as u32).wrapping_mul(0x9e37_79b1) >> 8 < 167_772,
    },
];

/// Who compares.
#[derive(Debug, Clone, Copy, PartialEq, Eq)]
pub enum Side {
    /// The archive.
    Proved,
    /// rust/reference.
    Rust,
    /// The loops of the crate `image_diff`, in plain Rust.
    SameLoops,
}

impl Side {
    pub const ALL: [Self; 3] = [Self::Proved, Self::Rust, Self::SameLoops];

    pub fn name(self) -> &'static str {
        match self {
            Self::Proved => "proved",
            Self::Rust => "Rust",
            Self::SameLoops => "same loops",
        }
    }
}

/// One call on each side: what it answers must be the same.
pub struct Sides {
    pub a: Vec<u8>,
    pub b: Vec<u8>,
    proved: Vec<u32>,
    rust: Vec<Run>,
    same_loops: Vec<Run>,
}

impl Sides {
    pub fn new(case: &Case) -> Self {
        let a: Vec<u8> = (0..LENGTH).map(|i| (7 * i + i / 256) as u8).collect();
        let changed = |(i, byte): (usize, &u8)| byte ^ u8::from((case.differs)(i));
        let b = a.iter().enumerate().map(changed).collect();
        let list = vec![Run { start: UNUSED, length: UNUSED }; LENGTH / 2];
        Self { a, b, proved: vec![UNUSED; LENGTH], rust: list.clone(), same_loops: list }
    }

    fn proved(&mut self) -> Option<usize> {
        let done = image_differences(black_box(&self.a), black_box(&self.b), &mut self.proved);
        (done.number == 0).then_some(done.runs as usize)
    }

    #[inline(never)]
    fn rust(&mut self) -> Option<usize> {
        reference::differences(black_box(&self.a), black_box(&self.b), &mut self.rust).ok()
    }

    fn same_loops(&mut self) -> Option<usize> {
        same_loops(black_box(&self.a), black_box(&self.b), &mut self.same_loops)
    }

    /// So many calls of one side.
    pub fn calls(&mut self, side: Side, count: u64) {
        for _ in 0..count {
            keep(match side {
                Side::Proved => self.proved(),
                Side::Rust => self.rust(),
                Side::SameLoops => self.same_loops(),
            });
        }
    }

    /// All three give the same runs and leave the same list.
    fn agreed(mut self, name: &str) -> Self {
        let runs = self.proved();
        assert_eq!((self.rust(), self.same_loops()), (runs, runs), "{name}: how many runs");
        let numbers = |list: &[Run]| -> Vec<u32> {
            list.iter().flat_map(|run| [run.start, run.length]).collect()
        };
        assert_eq!(numbers(&self.rust), self.proved, "{name}: the list");
        assert_eq!(numbers(&self.same_loops), self.proved, "{name}: the list");
        self
    }
}

/// An answer that the compiler must not leave out.
fn keep(runs: Option<usize>) {
    black_box(runs);
}

/// The loops of the crate `image_diff` in plain Rust, its counter of sixteen bits too.
#[inline(never)]
fn same_loops(a: &[u8], b: &[u8], list: &mut [Run]) -> Option<usize> {
    if a.len() != b.len() || a.len() > LENGTH {
        return None;
    }
    let (mut count, mut inside) = (0u16, false);
    for (x, y) in a.iter().zip(b) {
        count += u16::from(inside && x == y);
        inside = x != y;
    }
    let count = usize::from(count + u16::from(inside));
    if count > list.len() {
        return None;
    }
    if count > 0 {
        fill(a, b, list);
    }
    Some(count)
}

fn fill(a: &[u8], b: &[u8], list: &mut [Run]) {
    let (mut at, mut start) = (0, 0);
    let mut store = |start: usize, end: usize| {
        list[at] = Run { start: start as u32, length: (end - start) as u32 };
        at += 1;
    };
    for (i, (x, y)) in a.iter().zip(b).enumerate() {
        if x == y {
            if start < i {
                store(start, i);
            }
            start = i + 1;
        }
    }
    if start < a.len() {
        store(start, a.len());
    }
}

/// Nanoseconds of each round: the archive, rust/reference, the same loops, and `cmp -l`.
pub struct Row {
    pub name: &'static str,
    proved: Vec<f64>,
    rust: Vec<f64>,
    same_loops: Vec<f64>,
    cmp: Taken,
}

impl Row {
    fn timed(case: &Case, plan: &Plan) -> io::Result<Self> {
        let mut sides = Sides::new(case).agreed(case.name);
        let (files, empty) = (Files::new(&sides.a, &sides.b)?, Files::new(&[], &[])?);
        let cmp = cmp::timed(&files, &empty, plan.rounds)?;
        let mut works: [fn(&mut Sides); 3] = [
            |sides| sides.calls(Side::Proved, 1),
            |sides| sides.calls(Side::Rust, 1),
            |sides| sides.calls(Side::SameLoops, 1),
        ];
        let [proved, rust, same_loops] = in_turn(plan, &mut sides, &mut works);
        Ok(Self { name: case.name, proved, rust, same_loops, cmp })
    }

    /// One line of the table. A process is not timed in the rounds of the calls, so its ratio is
    /// that of the medians.
    pub fn line(&self) -> String {
        let micros = |rounds: &[f64]| median(rounds) / 1e3;
        let beside = |rounds: &[f64]| {
            format!("{:>12.1}{:>7.2}", micros(rounds), median_ratio(&self.proved, rounds))
        };
        let (proved, more) = (micros(&self.proved), micros(&self.cmp.more));
        let rust = [&self.rust, &self.same_loops].map(|rounds| beside(rounds)).concat();
        let process =
            format!("{:>12.1}{more:>12.1}{:>8.3}", micros(&self.cmp.empty), proved / more);
        format!("{:<24}{proved:>8.1}{rust}{process}", self.name)
    }
}

pub fn heading() -> String {
    let rust = ["Rust", "same loops"].map(|name| format!("{name:>12}{:>7}", "ratio")).concat();
    let process = format!("{:>12}{:>12}{:>8}", "cmp starts", "cmp -l more", "ratio");
    format!("{:<24}{:>8}{rust}{process}", "case", "proved")
}

pub fn timed(cases: &[&Case], plan: &Plan) -> io::Result<Vec<Row>> {
    cases.iter().map(|case| Row::timed(case, plan)).collect()
}

#[cfg(test)]
mod tests {
    use super::*;

    #[test]
    fn the_cases_have_the_runs_that_their_names_say() {
        let runs = CASES.map(|case| Sides::new(&case).agreed(case.name).proved());
        assert_eq!(runs[..3], [Some(0), Some(1), Some(32_768)]);
        assert!(runs[3].is_some_and(|runs| (500..700).contains(&runs)), "{runs:?}");
    }

    #[test]
    fn a_row_has_each_side_and_its_ratio() {
        let rounds = |nanoseconds: f64| vec![nanoseconds; 3];
        let row = Row {
            name: "a",
            proved: rounds(6_000.0),
            rust: rounds(12_000.0),
            same_loops: rounds(6_000.0),
            cmp: Taken { empty: rounds(900_000.0), more: rounds(60_000.0) },
        };
        let words: Vec<String> = row.line().split_whitespace().map(String::from).collect();
        assert_eq!(words, ["a", "6.0", "12.0", "0.50", "6.0", "1.00", "900.0", "60.0", "0.100"]);
    }
}
