//! Makes ops from a seed: a few at a time, aimed at what the sides have at that moment.

mod acts;
mod damage;
mod pool;
pub mod setup;
mod sizes;
pub mod sorts;
mod texts;

use crate::op::{Call, Kind, Op};
use crate::record::Record;
use reference::Stub;
use std::ops::Range;
use steps::{Burst, Generator, Rng, Step};

/// What there is to aim at.
pub struct Scene<'a> {
    pub stub: &'a Stub,
    pub record: &'a Record,
    pub memory: &'a [u8],
    pub registers: &'a [u8],
}

/// What goes on from one burst to the next.
pub struct Maker {
    generator: Generator,
}

impl Maker {
    pub fn new(seed: u64) -> Self {
        Self { generator: Generator::new(seed) }
    }

    pub fn rng(&mut self) -> &mut Rng {
        &mut self.generator.rng
    }

    /// Arguments and buffers for a setup, and the setup; one that breaks a rule where one is named.
    pub fn opening(&mut self, record: &Record, rule: Option<usize>, ops: &mut Vec<Op>) {
        setup::opening(self.rng(), record, rule, ops);
    }

    /// Steps on the record that a refused setup leaves, with and without buffers.
    pub fn on_empty(&mut self, ops: &mut Vec<Op>) {
        setup::on_empty(self.rng(), ops);
    }

    /// One thing that may happen in a session.
    pub fn burst(&mut self, scene: Scene<'_>, ops: &mut Vec<Op>) {
        self.writer(scene, ops).act();
    }

    /// Something that gives damage a hold: breakpoints, a condition in hand, Stopped processes.
    pub fn build_up(&mut self, scene: Scene<'_>, ops: &mut Vec<Op>) {
        self.writer(scene, ops).build_up();
    }

    /// A damaged record, a few steps on it, and all as it was.
    pub fn damage(&mut self, scene: Scene<'_>, ops: &mut Vec<Op>) {
        self.writer(scene, ops).damage();
    }

    fn writer<'a>(&'a mut self, scene: Scene<'a>, ops: &'a mut Vec<Op>) -> Writer<'a> {
        Writer { burst: self.generator.burst(scene.stub, scene.memory), scene, ops }
    }
}

/// Writes the ops of one burst. The scene stays that of its beginning.
struct Writer<'a> {
    burst: Burst<'a>,
    scene: Scene<'a>,
    ops: &'a mut Vec<Op>,
}

/// A call with what its kind uses, and anything in what it does not.
fn call(rng: &mut Rng, step: Step) -> Call {
    let noise = rng.next_u64().to_le_bytes();
    let (any_pid, any_value) = (rng.word(), noise[3]);
    let spare = usize::from(noise[0] % 12);
    let any_input = vec![noise[1]; spare];
    let (kind, pid, value, input) = match step {
        Step::Request(request) => (Kind::Request, any_pid, any_value, request.to_vec()),
        Step::Trap { pid, block } => (Kind::Trap, pid, any_value, block.to_vec()),
        Step::Schedule { pid, block } => (Kind::Schedule, pid, any_value, block.to_vec()),
        Step::State { pid, value } => (Kind::State, pid, value, any_input),
        Step::Restart => (Kind::Restart, any_pid, any_value, any_input),
    };
    let reply = kind.reply().unwrap_or(spare);
    let (memory, registers, damage) = (None, None, None);
    let (protected, fill) = (u64::from(any_pid)..noise[4].into(), noise[2]);
    Call { kind, protected, pid, value, input, reply, fill, memory, registers, damage }
}

/// A setup with this stretch; what it does not use is anything.
fn setup_call(rng: &mut Rng, protected: Range<u64>) -> Call {
    Call { kind: Kind::Setup, protected, ..call(rng, Step::Restart) }
}

impl<'a> Writer<'a> {
    /// Steps of the session, now and then with a text step before one of them.
    fn steps(&mut self, make: impl FnOnce(&mut Burst<'a>)) {
        make(&mut self.burst);
        for step in std::mem::take(&mut self.burst.steps) {
            if self.burst.rng.chance(6) {
                self.text();
            }
            self.ops.push(Op::Step(call(self.burst.rng, step)));
        }
    }
}
