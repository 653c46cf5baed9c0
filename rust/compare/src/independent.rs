//! The independent stub, with the packed results of the C interface.

use crate::op::{Call, Kind};
use crate::raw::held;
use crate::record::Record;
use reference::{fit, Refusal, Stub, TextServed, Verdict, BLOCK, PROCESSES};
use sanirvoq::ffi;
use std::ops::Range;

/// The record that the independent side has.
pub enum Held {
    /// One that its types hold.
    Stub(Box<Stub>),
    /// One that they do not: not fit, whatever memory has.
    Raw(Box<ffi::Record>),
}

impl Held {
    pub fn new(record: &Record) -> Self {
        match held(record.raw()) {
            Some(stub) => Self::Stub(Box::new(stub)),
            None => Self::Raw(Box::new(*record.raw())),
        }
    }

    pub fn stub(&self) -> Option<&Stub> {
        match self {
            Self::Stub(stub) => Some(stub),
            Self::Raw(_) => None,
        }
    }

    /// The number that every step but setup has with these buffers and this record: 2, 3 or 0,
    /// where nothing else is in its way.
    pub fn number(&self, memory: &[u8], registers: &[u8]) -> u8 {
        let (size, count, fits) = match self {
            Self::Stub(stub) => (stub.size, stub.processes.len() as u32, fit(stub, memory)),
            Self::Raw(raw) => (raw.target.size, raw.target.count, false),
        };
        let area = BLOCK as u64 * u64::from(count);
        if (memory.len() as u64, registers.len() as u64) != (u64::from(size), area) {
            2
        } else if !fits {
            3
        } else {
            0
        }
    }

    /// Runs a step. Gives the number in the lowest byte, then the three bytes of the answer.
    pub fn step(
        &mut self,
        call: &Call,
        memory: &mut [u8],
        registers: &mut [u8],
        reply: &mut [u8],
    ) -> u32 {
        let done = match (call.kind, &mut *self) {
            (Kind::Setup, _) => {
                let protected = call.protected.clone();
                self.setup(protected, memory, registers).map_err(Refusal::number)
            }
            (_, Self::Raw(_)) => Err(self.raw_refusal(call, memory, registers).number()),
            (Kind::Text, Self::Stub(stub)) => {
                let served = stub.text(memory, registers, &call.input, reply);
                served.map(text_answer).map_err(|refusal| refusal.number())
            }
            (_, Self::Stub(stub)) => {
                stub_step(stub, call, memory, registers, reply).map_err(Refusal::number)
            }
        };
        match done {
            Ok([answer, first, second]) => u32::from_le_bytes([0, answer, first, second]),
            Err(number) => number.into(),
        }
    }

    /// Setup takes its arguments but for the stretch from the record, whatever else that holds.
    fn setup(
        &mut self,
        protected: Range<u64>,
        memory: &[u8],
        registers: &[u8],
    ) -> Result<[u8; 3], Refusal> {
        let (base, size, mut processes) = match self {
            Self::Stub(stub) => {
                let pairs = stub.processes.iter().map(|one| (one.pid, one.address));
                (stub.base, stub.size, pairs.collect::<Vec<_>>())
            }
            Self::Raw(raw) => {
                let target = &raw.target;
                let pairs = target.processes.iter().map(|one| (one.pid, one.address));
                (target.base, target.size, pairs.take(target.count as usize).collect())
            }
        };
        if matches!(self, Self::Raw(raw) if raw.target.count as usize > PROCESSES) {
            // One more than there may be stands for all counts over four.
            processes.push((u32::MAX, 0));
        }
        let mut stub = Stub::empty();
        let done = stub.setup(base, size, protected, &processes, memory, registers);
        *self = Self::Stub(Box::new(stub));
        done.map(|()| [0; 3])
    }

    /// Sizes come before the record.
    fn raw_refusal(&self, call: &Call, memory: &[u8], registers: &[u8]) -> Refusal {
        let input = call.kind.input().is_none_or(|length| length == call.input.len());
        let reply = call.kind.reply().is_none_or(|length| length == call.reply);
        if input && reply && self.number(memory, registers) != 2 {
            Refusal::Unfit
        } else {
            Refusal::Size
        }
    }
}

/// A step other than setup and text. Gives the three bytes of the answer.
fn stub_step(
    stub: &mut Stub,
    call: &Call,
    memory: &mut [u8],
    registers: &mut [u8],
    reply: &mut [u8],
) -> Result<[u8; 3], Refusal> {
    match call.kind {
        Kind::Trap => stub.trap(memory, registers, call.pid, &call.input).map(packed),
        Kind::Schedule => {
            let yes = stub.schedule(memory, registers, call.pid, &call.input)?;
            Ok([u8::from(yes), 0, 0])
        }
        Kind::State => stub.state(memory, registers, call.pid, call.value).map(|()| [0; 3]),
        Kind::Restart => stub.restart(memory, registers, reply).map(|()| [0; 3]),
        _ => {
            let plain = stub.request(memory, registers, &call.input, reply)?;
            Ok(plain.map_or([0; 3], |plain| packed(Verdict::Pass(plain))))
        }
    }
}

/// Whether ERRFLG is -1, and how much of the buffer is filled.
fn text_answer(TextServed { done, filled }: TextServed) -> [u8; 3] {
    [u8::from(done.is_err()), filled as u8, 0]
}

fn packed(verdict: Verdict) -> [u8; 3] {
    match verdict {
        Verdict::Stop(id) => [1, id, 0],
        Verdict::Pass([first, second]) => [2, first, second],
    }
}
