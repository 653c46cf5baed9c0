//! Answers calls of kind 11 of `docs/CALLS.md` by the independent stub: a setup with a protected
//! stretch, ordinary steps, a text step, ordinary steps. `tests/protected_calls.py` makes such calls
//! from a description of its own:
//!
//!     python3 tests/protected_calls.py rust/target/release/examples/protected_calls

mod session;

use reference::{Session, Stub, BLOCK};
use session::{answer_all, Called, Input, Steps, MEMORY, PROCESSES};
use std::io;

fn call(input: &mut Input<'_>) -> Called {
    let (base, size) = (input.word()?, input.word()?);
    let (from, to) = (input.wide(8)?, input.wide(8)?);
    let count = input.word()?;
    let mut processes = Vec::new();
    for _ in 0..4 {
        processes.push((input.word()?, input.word()?));
    }
    let steps = match Steps::of(input)? {
        Ok(steps) => steps,
        Err(not_held) => return Some(Err(not_held)),
    };
    let memory: Vec<u8> = (0..size.min(MEMORY)).map(|i| i as u8).collect();
    let registers = vec![0; BLOCK * count.min(PROCESSES) as usize];
    // One process more than there may be stands for all counts over four.
    processes.push((u32::MAX, 0));
    processes.truncate(count as usize);
    let mut stub = Stub::empty();
    if let Err(refusal) = stub.setup(base, size, from..to, &processes, &memory, &registers) {
        return Some(Ok(vec![refusal.number()]));
    }
    let mut answer = vec![0];
    steps.run(Session { stub, memory, registers }, None, &mut answer);
    Some(Ok(answer))
}

fn main() -> io::Result<()> {
    answer_all(11, call)
}
