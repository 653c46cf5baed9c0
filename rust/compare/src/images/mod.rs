//! Image differences: random pairs of images, with lists of any room, on both sides.
//!
//! A pair is made so that it is known what must come out: its sort says how many runs there are, or
//! that the images are refused. That is a third opinion, beside the two sides.

mod make;
mod tally;

use crate::op::Hex;
use make::Pair;
use reference::{NotCompared, Run};
use sanirvoq::ffi::Comparison;
use std::fmt;
use steps::Rng;
use tally::Tally;

/// The call under comparison: the archive's, or in tests one with a fault.
pub type Call = fn(&[u8], &[u8], &mut [u32]) -> Comparison;

/// What a call gave and left.
#[derive(Debug, Clone, PartialEq, Eq)]
struct Seen {
    number: u8,
    runs: u32,
    list: Vec<u32>,
}

/// The sides differ on this pair, or both from what was made.
#[derive(Debug)]
pub struct Failure {
    pub pair: Pair,
    pub what: &'static str,
    proved: String,
    independent: String,
}

impl Failure {
    fn new(pair: &Pair, what: &'static str, ours: &Seen, theirs: &Seen) -> Self {
        let (proved, independent) = (ours.text(theirs), theirs.text(ours));
        Self { pair: pair.clone(), what, proved, independent }
    }
}

impl fmt::Display for Failure {
    fn fmt(&self, out: &mut fmt::Formatter<'_>) -> fmt::Result {
        let Pair { sort, a, b, places, fill, .. } = &self.pair;
        writeln!(out, "images ({}) of {} and {} bytes", sort.name(), a.len(), b.len())?;
        writeln!(out, "  {}\n  {}", Hex(a), Hex(b))?;
        writeln!(out, "and a list of {places} places, each {fill:08x}")?;
        writeln!(out, "{}", self.what)?;
        writeln!(out, "  proved       {}\n  independent  {}", self.proved, self.independent)
    }
}

fn proved(call: Call, pair: &Pair) -> Seen {
    let mut list = vec![pair.fill; pair.places];
    let Comparison { number, runs } = call(&pair.a, &pair.b, &mut list);
    Seen { number, runs, list }
}

fn independent(pair: &Pair) -> Seen {
    let mut list = vec![Run { start: pair.fill, length: pair.fill }; pair.places / 2];
    let done = reference::differences(&pair.a, &pair.b, &mut list);
    let (number, runs) = match done {
        Ok(runs) => (0, runs),
        Err(NotCompared::List(needed)) => (9, needed),
        Err(NotCompared::Images) => (8, 0),
    };
    let mut numbers: Vec<u32> = list.iter().flat_map(|run| [run.start, run.length]).collect();
    numbers.resize(pair.places, pair.fill);
    Seen { number, runs: runs as u32, list: numbers }
}

impl Seen {
    /// In words; of the list the part around the first place that differs from the other's.
    fn text(&self, other: &Self) -> String {
        let pairs = self.list.iter().zip(&other.list);
        let first = pairs.clone().position(|(a, b)| a != b).unwrap_or(0);
        let from = first.saturating_sub(4);
        let part = &self.list[from..self.list.len().min(from + 12)];
        format!("number {}, {} runs, list from place {from}: {part:x?}", self.number, self.runs)
    }
}

/// Where the sides differ on a pair, if they do.
fn differing(call: Call, pair: &Pair) -> Option<Failure> {
    let (ours, theirs) = (proved(call, pair), independent(pair));
    let what = if ours.number != theirs.number {
        "the number differs"
    } else if ours.runs != theirs.runs {
        "the count of runs differs"
    } else if ours.list != theirs.list {
        "the list differs"
    } else {
        return None;
    };
    Some(Failure::new(pair, what, &ours, &theirs))
}

/// Where both sides differ from what was made, if they do.
fn not_made(pair: &Pair, seen: &Seen) -> Option<Failure> {
    let what = if !pair.sort.can_have(seen.number) {
        "the number is none that such images have"
    } else if seen.number != 8 && pair.made().is_some_and(|runs| runs as u32 != seen.runs) {
        "the runs are not as many as were made"
    } else {
        return None;
    };
    Some(Failure::new(pair, what, seen, seen))
}

/// Leaves out what the sides need not have to differ in the same way: half of the images, a
/// quarter, and so on, for a limited number of tries.
fn shrunk(call: Call, mut failing: Failure) -> Failure {
    let mut tries = 400;
    let mut size = failing.pair.a.len().min(failing.pair.b.len()) / 2;
    while size > 0 && tries > 0 {
        let mut at = 0;
        while at + size <= failing.pair.a.len().min(failing.pair.b.len()) && tries > 0 {
            tries -= 1;
            let mut pair = failing.pair.clone();
            pair.a.drain(at..at + size);
            pair.b.drain(at..at + size);
            match differing(call, &pair).filter(|found| found.what == failing.what) {
                Some(found) => failing = found,
                None => at += size,
            }
        }
        size /= 2;
    }
    failing
}

/// Runs so many pairs on both sides.
pub fn run(call: Call, seed: u64, pairs: u64) -> Result<Tally, Box<Failure>> {
    let mut rng = Rng(seed);
    let mut tally = Tally::default();
    for _ in 0..pairs {
        let pair = Pair::new(&mut rng);
        if let Some(failing) = differing(call, &pair) {
            return Err(Box::new(shrunk(call, failing)));
        }
        let seen = independent(&pair);
        if let Some(failing) = not_made(&pair, &seen) {
            return Err(Box::new(failing));
        }
        tally.count(&pair, seen.number, seen.runs);
    }
    Ok(tally)
}
