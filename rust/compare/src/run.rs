//! A whole run: sessions, sessions with damaged records, refused setups, until the steps are done.

use crate::archive::Stub;
use crate::difference::Difference;
use crate::make::setup::{spoil_sizes, RULES};
use crate::make::{Maker, Scene};
use crate::op::Op;
use crate::pair::Pair;
use crate::shrink::shrink;
use crate::tally::Tally;
use std::fmt;

/// The sides differ at the end of this list.
#[derive(Debug)]
pub struct Failure {
    pub ops: Vec<Op>,
    pub difference: Box<Difference>,
}

impl Failure {
    /// The shortest list that still shows it; the whole list where a replay does not.
    fn shrunk(stub: Stub, ops: Vec<Op>, difference: Box<Difference>) -> Self {
        match shrink(stub, ops.clone()) {
            Some((ops, difference)) => Self { ops, difference },
            None => Self { ops, difference },
        }
    }
}

impl fmt::Display for Failure {
    fn fmt(&self, out: &mut fmt::Formatter<'_>) -> fmt::Result {
        for op in &self.ops {
            writeln!(out, "{op}")?;
        }
        write!(out, "{}", self.difference)
    }
}

pub struct Runner {
    stub: Stub,
    pair: Pair,
    maker: Maker,
    pub tally: Tally,
    /// All since the episode began; an episode depends on nothing before it.
    history: Vec<Op>,
    /// Ops that are made and not yet run.
    ops: Vec<Op>,
    /// Steps that are left.
    left: u64,
}

type Done = Result<(), Failure>;

impl Runner {
    pub fn new(stub: Stub, seed: u64, steps: u64) -> Self {
        Self {
            stub,
            pair: Pair::new(stub),
            maker: Maker::new(seed),
            tally: Tally::default(),
            history: Vec::new(),
            ops: Vec::new(),
            left: steps,
        }
    }

    /// Runs all steps; tells after each episode how many are left.
    pub fn run(&mut self, mut progress: impl FnMut(u64)) -> Done {
        while self.left > 0 {
            self.history.clear();
            match self.maker.rng().weighted(&[72, 20, 8]) {
                0 => self.session()?,
                1 => self.damaged_session()?,
                _ => self.refused_setups()?,
            }
            progress(self.left);
        }
        Ok(())
    }

    /// An accepted setup, then what may happen; the book is kept all along.
    fn session(&mut self) -> Done {
        self.open()?;
        // Comparing a large window costs more than the steps.
        let most = if self.pair.lengths().0 > 4_096 { 30 } else { 130 };
        for _ in 0..20 + self.maker.rng().below(most) {
            self.burst(Maker::burst)?;
        }
        Ok(())
    }

    /// A session that comes to something, then damage and more of the session by turns.
    fn damaged_session(&mut self) -> Done {
        self.open()?;
        for _ in 0..3 + self.maker.rng().below(8) {
            self.burst(Maker::build_up)?;
        }
        for _ in 0..10 + self.maker.rng().below(20) {
            self.burst(Maker::damage)?;
            if self.maker.rng().chance(30) {
                self.burst(Maker::build_up)?;
            }
            if self.maker.rng().chance(30) {
                self.burst(Maker::burst)?;
            }
        }
        Ok(())
    }

    /// Setups that break a rule or have buffers of wrong size, and steps on what they leave.
    fn refused_setups(&mut self) -> Done {
        for _ in 0..4 + self.maker.rng().below(8) {
            let choice = self.maker.rng().index(RULES.len() + 3);
            let rule = (choice < RULES.len()).then_some(choice);
            self.maker.opening(self.pair.record(), rule, &mut self.ops);
            if rule.is_none() {
                spoil_sizes(self.maker.rng(), &mut self.ops);
            }
            self.maker.on_empty(&mut self.ops);
            self.apply()?;
        }
        Ok(())
    }

    fn open(&mut self) -> Done {
        self.maker.opening(self.pair.record(), None, &mut self.ops);
        self.apply()
    }

    /// Ops that are aimed at what there is now. A run may end with a record damaged, at which
    /// there is nothing to aim.
    fn burst(&mut self, make: fn(&mut Maker, Scene<'_>, &mut Vec<Op>)) -> Done {
        if self.left == 0 {
            return Ok(());
        }
        if let Some(scene) = self.pair.scene() {
            make(&mut self.maker, scene, &mut self.ops);
        }
        self.apply()
    }

    /// Runs the ops that are made, as long as steps are left.
    fn apply(&mut self) -> Done {
        for op in self.ops.drain(..) {
            if self.left == 0 {
                break;
            }
            self.left -= u64::from(matches!(op, Op::Step(_)));
            let seen = self.pair.run(&op);
            if let Ok(seen) = &seen {
                self.tally.count(&op, seen, &self.pair);
            }
            self.history.push(op);
            if let Err(difference) = seen {
                let ops = std::mem::take(&mut self.history);
                return Err(Failure::shrunk(self.stub, ops, difference));
            }
        }
        Ok(())
    }
}
