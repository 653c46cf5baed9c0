//! The program of 01: steps as raw bytes over the worked setup.

use crate::event::Verdict;
use crate::list::List;
use crate::record::{Refusal, Stub};
use crate::{word, BLOCK, MESSAGE};
use std::ops::Range;

/// What one step writes: its number, then at most ten bytes of reply, 02 and two plain bytes.
pub type Output = List<u8, 14>;

/// The bytes that follow a kind, or `None` for a kind that is none.
pub fn body_length(kind: u8) -> Option<usize> {
    match kind {
        1 => Some(MESSAGE),
        2 | 3 => Some(4 + BLOCK),
        4 => Some(5),
        5 => Some(0),
        _ => None,
    }
}

/// A stub with what is lent to it.
#[derive(Debug, Clone, PartialEq, Eq)]
pub struct Session {
    pub stub: Stub,
    pub memory: Vec<u8>,
    pub registers: Vec<u8>,
}

impl Session {
    /// The worked setup: 64 bytes at 4,096, the byte at B + i is i, nothing protected, processes 5
    /// and 7, and a register area of zeros.
    pub fn worked() -> Self {
        Self::protecting(4_096..4_096).expect("the worked setup")
    }

    /// The same with another stretch protected.
    pub fn protecting(protected: Range<u64>) -> Result<Self, Refusal> {
        let mut stub = Stub::empty();
        let memory: Vec<u8> = (0..64).collect();
        let registers = vec![0; 2 * BLOCK];
        let processes = [(5, 0x8000_1000), (7, 0x8000_2000)];
        stub.setup(4_096, 64, protected, &processes, &memory, &registers)?;
        Ok(Self { stub, memory, registers })
    }

    /// Runs one whole step. A step whose number is not 0 writes its number only; a kind that is
    /// none writes ff. A body of the wrong length is number 2.
    pub fn step(&mut self, kind: u8, body: &[u8]) -> Output {
        let Some(length) = body_length(kind) else { return written(0xff, &[]) };
        let done = if body.len() == length { self.run(kind, body) } else { Err(Refusal::Size) };
        done.unwrap_or_else(|refusal| written(refusal.number(), &[]))
    }

    fn run(&mut self, kind: u8, body: &[u8]) -> Result<Output, Refusal> {
        let Self { stub, memory, registers } = self;
        let (pid, rest) = (word(body), body.get(4..).unwrap_or_default());
        let mut reply = [0; MESSAGE];
        match kind {
            1 => Ok(match stub.request(memory, registers, body, &mut reply)? {
                Some(plain) => written(0, &[&reply, &[2], &plain]),
                None => written(0, &[&reply]),
            }),
            2 => Ok(match stub.trap(memory, registers, pid, rest)? {
                Verdict::Stop(id) => written(0, &[&[1, id]]),
                Verdict::Pass(plain) => written(0, &[&[2], &plain]),
            }),
            3 => {
                let stopped = stub.schedule(memory, registers, pid, rest)?;
                Ok(written(0, &[&[u8::from(stopped)]]))
            }
            4 => {
                stub.state(memory, registers, pid, rest.first().copied().unwrap_or_default())?;
                Ok(written(0, &[]))
            }
            _ => {
                stub.restart(memory, registers, &mut reply)?;
                Ok(written(0, &[&reply]))
            }
        }
    }
}

/// The number, then the bytes of the answer's parts.
fn written(number: u8, answer: &[&[u8]]) -> Output {
    let mut output = Output::new();
    output.push(number);
    for &byte in answer.iter().copied().flatten() {
        output.push(byte);
    }
    output
}
