//! Timing: calibrated batches, the two stubs in turn, the median of the rounds.

use crate::cases::Case;
use crate::proved::{Direct, Proved};
use crate::rust_stub::RustStub;
use crate::side::Side;
use crate::work::{run, Work};
use crate::worker::Worker;
use sanirvoq_sys::measure::time;

pub struct Plan {
    pub rounds: usize,
    /// What a batch takes at least, in nanoseconds.
    pub batch: u64,
}

/// What a step took in each round, in nanoseconds, with what the copying of the image takes
/// already off.
#[derive(Debug, Clone, PartialEq)]
pub struct Timing {
    pub proved: Vec<f64>,
    pub rust: Vec<f64>,
    /// What copying takes by itself, on each side, where the case copies.
    pub copying: Option<(f64, f64)>,
}

impl Timing {
    /// The median of the rounds' ratios: in a round both sides met the same machine, busy or not.
    pub fn ratio(&self) -> f64 {
        median_ratio(&self.proved, &self.rust)
    }
}

/// The median over the rounds of one figure by another.
pub fn median_ratio(over: &[f64], under: &[f64]) -> f64 {
    let ratios: Vec<f64> = over.iter().zip(under).map(|(over, under)| over / under).collect();
    median(&ratios)
}

/// Times a batch; one that is too short is done again with twice the turns. What a turn took.
fn timed(turns: &mut u64, least: u64, mut batch: impl FnMut(u64)) -> f64 {
    loop {
        let start = time::thread();
        batch(*turns);
        let taken = time::thread() - start;
        if taken >= least {
            return taken as f64 / *turns as f64;
        }
        *turns *= 2;
    }
}

/// Times each work in turn, in every round; which is first changes from round to round. Gives what
/// a turn of each took in each round, in nanoseconds.
pub fn in_turn<S, const N: usize>(
    plan: &Plan,
    side: &mut S,
    works: &mut [fn(&mut S); N],
) -> [Vec<f64>; N] {
    let mut turns = [1; N];
    let mut rounds = [const { Vec::new() }; N];
    for round in 0..WARM_UP + plan.rounds {
        for k in (0..N).map(|k| (k + round) % N) {
            let batch = |count| (0..count).for_each(|_| works[k](side));
            rounds[k].push(timed(&mut turns[k], plan.batch, batch));
        }
    }
    rounds.map(|all| all[WARM_UP..].to_vec())
}

/// One kind of work on one side: the turns of a batch, and what a turn took in each round.
struct Series<'a> {
    work: &'a Work,
    turns: u64,
    rounds: Vec<f64>,
}

impl<'a> Series<'a> {
    fn new(work: &'a Work) -> Self {
        Self { work, turns: 1, rounds: Vec::new() }
    }

    fn round(&mut self, side: &mut impl Side, least: u64) {
        let Self { work, turns, rounds } = self;
        rounds.push(timed(turns, least, |turns| run(side, work, turns, |_, _| ())));
    }
}

/// One side of a case: its work and, where that copies the image back, the copying alone.
struct Lane<'a, S> {
    side: S,
    work: Series<'a>,
    copying: Option<Series<'a>>,
}

impl<'a, S: Side> Lane<'a, S> {
    fn new(side: S, work: &'a Work) -> Self {
        let copying = work.copies().then(|| Series::new(&Work::Copy));
        Self { side, work: Series::new(work), copying }
    }

    fn round(&mut self, least: u64) {
        self.work.round(&mut self.side, least);
        if let Some(copying) = &mut self.copying {
            copying.round(&mut self.side, least);
        }
    }

    /// Nanoseconds a step in each round, and what copying took.
    fn result(&self) -> (Vec<f64>, Option<f64>) {
        let steps = self.work.work.steps() as f64;
        let work = self.work.rounds[WARM_UP..].iter();
        let Some(copying) = &self.copying else {
            return (work.map(|turn| turn / steps).collect(), None);
        };
        let copying = &copying.rounds[WARM_UP..];
        let net = work.zip(copying).map(|(turn, copying)| (turn - copying) / steps);
        (net.collect(), Some(median(copying)))
    }
}

/// Both sides of a case.
struct Pair<'a> {
    proved: Lane<'a, Proved<Direct>>,
    rust: Lane<'a, RustStub>,
}

impl<'a> Pair<'a> {
    /// Two stubs that were seen to do the same.
    fn new(case: &'a Case) -> Self {
        let (proved, rust) = case.agreed();
        Self { proved: Lane::new(proved, &case.work), rust: Lane::new(rust, &case.work) }
    }

    /// One side and then the other; which is first changes from round to round.
    fn round(&mut self, round: usize, least: u64) {
        if round.is_multiple_of(2) {
            self.proved.round(least);
            self.rust.round(least);
        } else {
            self.rust.round(least);
            self.proved.round(least);
        }
    }

    fn timing(&self) -> Timing {
        let ((proved, ours), (rust, theirs)) = (self.proved.result(), self.rust.result());
        Timing { proved, rust, copying: ours.zip(theirs) }
    }
}

/// The rounds that come first: they find the turns of a batch and are not counted.
const WARM_UP: usize = 1;

/// Times the cases. Every round goes through all of them, so that a busy spell of the machine
/// falls on one round of many cases and on no median.
pub fn times(cases: &[Case], plan: &Plan) -> Vec<Timing> {
    let mut pairs: Vec<Pair> = cases.iter().map(Pair::new).collect();
    for round in 0..WARM_UP + plan.rounds {
        for pair in &mut pairs {
            pair.round(round, plan.batch);
        }
    }
    pairs.iter().map(Pair::timing).collect()
}

/// Times the workers beside each other: what a turn of each took in each round. Which one is first
/// changes from round to round.
pub fn beside(workers: &mut [Worker], plan: &Plan) -> Vec<Vec<f64>> {
    let count = workers.len();
    let mut turns = vec![1; count];
    let mut taken = vec![Vec::new(); count];
    for round in 0..WARM_UP + plan.rounds {
        for i in (0..count).map(|i| (round + i) % count) {
            let turn = timed(&mut turns[i], plan.batch, &mut workers[i].turns);
            taken[i].extend((round >= WARM_UP).then_some(turn));
        }
    }
    taken
}

pub fn median(values: &[f64]) -> f64 {
    let mut values = values.to_vec();
    values.sort_by(f64::total_cmp);
    let middle = values.len() / 2;
    if values.len() % 2 == 1 {
        values[middle]
    } else {
        (values[middle - 1] + values[middle]) / 2.0
    }
}

#[cfg(test)]
mod tests {
    use super::*;
    use crate::cases::cases;
    use std::hint::black_box;

    #[test]
    fn the_median_is_the_middle() {
        assert_eq!(median(&[5.0, 1.0, 3.0]), 3.0);
        assert_eq!(median(&[4.0, 1.0, 3.0, 100.0]), 3.5);
    }

    #[test]
    fn a_busy_spell_of_both_sides_leaves_the_ratio() {
        let (proved, rust) = (vec![2.0, 8.0, 2.2], vec![1.0, 4.0, 1.0]);
        assert_eq!(Timing { proved, rust, copying: None }.ratio(), 2.0);
    }

    #[test]
    fn a_batch_is_as_long_as_planned() {
        let cases = cases(&[64]);
        let mut pair = Pair::new(&cases[0]);
        pair.round(0, 50_000);
        let Series { turns, rounds, .. } = &pair.rust.work;
        assert!(rounds[0] * *turns as f64 >= 50_000.0, "{turns} turns of {} ns", rounds[0]);
    }

    #[test]
    fn workers_are_timed_in_every_round_and_the_longer_one_takes_longer() {
        let worker = |label: &str, each: u64| {
            let turns = move |turns| {
                for i in 0..turns * each {
                    black_box(i);
                }
            };
            Worker { label: label.to_string(), turns: Box::new(turns) }
        };
        let mut workers = [worker("short", 10), worker("long", 1_000)];
        let taken = beside(&mut workers, &Plan { rounds: 5, batch: 100_000 });
        assert!(taken.iter().all(|rounds| rounds.len() == 5), "{taken:?}");
        assert!(median_ratio(&taken[1], &taken[0]) > 5.0, "{taken:?}");
    }

    #[test]
    fn works_in_turn_have_their_rounds() {
        let plan = Plan { rounds: 3, batch: 10_000 };
        let mut works: [fn(&mut u64); 2] = [|sum| *sum += 1, |sum| *sum += 1];
        let (mut sum, rounds) = (0, 3);
        let taken = in_turn(&plan, &mut sum, &mut works);
        assert!(taken.iter().all(|work| work.len() == rounds), "{taken:?}");
        assert!(sum >= 2 * (rounds as u64 + 1));
    }

    #[test]
    fn what_copying_takes_is_shown_where_the_case_copies() {
        let cases = cases(&[64]);
        let timings = times(&cases, &Plan { rounds: 1, batch: 1_000 });
        for (case, timing) in cases.iter().zip(timings) {
            assert_eq!(timing.copying.is_some(), case.work.copies(), "{}", case.name);
            assert_eq!((timing.proved.len(), timing.rust.len()), (1, 1), "{}", case.name);
        }
    }
}
