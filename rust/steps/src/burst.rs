//! Makes steps from a seed: a few at a time, aimed at what the stub has at that moment.

use crate::limits::Turns;
use crate::rng::Rng;
use crate::step::{ten, Step};
use reference::{Stub, MESSAGE};

/// What goes on from one burst to the next.
#[derive(Debug, Clone)]
pub struct Generator {
    pub rng: Rng,
    /// The type byte that a request of any type has next.
    next_type: u8,
    /// What the steps at the limits of conditions take in turn.
    turns: Turns,
}

impl Generator {
    pub fn new(seed: u64) -> Self {
        Self { rng: Rng(seed), next_type: 0, turns: Turns::default() }
    }

    /// A burst with no steps yet, aimed at this stub over this memory.
    pub fn burst<'a>(&'a mut self, stub: &'a Stub, memory: &'a [u8]) -> Burst<'a> {
        let Self { rng, next_type, turns } = self;
        Burst { rng, next_type, turns, stub, memory, steps: Vec::new() }
    }
}

/// Steps that belong together. What they are aimed at stays that of the burst's beginning.
pub struct Burst<'a> {
    pub rng: &'a mut Rng,
    pub(crate) next_type: &'a mut u8,
    pub(crate) turns: &'a mut Turns,
    pub(crate) stub: &'a Stub,
    pub(crate) memory: &'a [u8],
    pub steps: Vec<Step>,
}

impl Burst<'_> {
    /// A request as it is.
    pub(crate) fn send(&mut self, request: [u8; MESSAGE]) {
        self.steps.push(Step::Request(request));
    }

    /// A request, now and then with one byte changed.
    pub(crate) fn ask(&mut self, mut request: [u8; MESSAGE]) {
        if self.rng.chance(2) {
            let place = self.rng.index(MESSAGE);
            let noise = [self.rng.byte().max(1), 1, 0x20, 0x80];
            request[place] ^= self.rng.pick(&noise);
        }
        self.send(request);
    }

    /// A Tcondbreak.
    pub(crate) fn op(&mut self, letter: u8, val: u32) {
        self.ask(ten(16, val, &[letter]));
    }
}
