//! Answers calls of kind 14 of `docs/CALLS.md` by the independent stub: a record as it is, fit or not,
//! memory, ordinary steps, a text step, ordinary steps. `tests/record_calls.py` makes such calls from a
//! description of its own:
//!
//!     python3 tests/record_calls.py rust/target/release/examples/record_calls

mod session;

use reference::{Breakpoint, Draft, List, Process, Protected, Refusal, Session, Stub};
use reference::{BLOCK, ENTRIES};
use session::{answer_all, Called, Input, Steps, MEMORY, PROCESSES};
use std::io;

/// The bytes of a record as numbers.
struct Raw {
    base: u32,
    size: u32,
    protected: Protected,
    count: u32,
    processes: Vec<(u32, u32, u8, u8)>,
    selected: u8,
    current: u32,
    entries: Vec<([u8; 3], [u8; 2], u32)>,
    draft: [u8; 3],
}

fn bytes<const N: usize>(input: &mut Input<'_>) -> Option<[u8; N]> {
    input.take(N)?.try_into().ok()
}

fn raw(input: &mut Input<'_>) -> Option<Raw> {
    let (base, size) = (input.word()?, input.word()?);
    let protected = Protected { offset: input.word()?, length: input.word()? };
    let count = input.word()?;
    let mut processes = Vec::new();
    for _ in 0..PROCESSES {
        let (pid, address, [state, wanted]) = (input.word()?, input.word()?, bytes(input)?);
        processes.push((pid, address, state, wanted));
    }
    let ([selected], current) = (bytes(input)?, input.word()?);
    let mut entries = Vec::new();
    for _ in 0..ENTRIES {
        let (head, [first, second, _, _]) = (bytes(input)?, bytes(input)?);
        entries.push((head, [first, second], input.word()?));
    }
    let draft = bytes(input)?;
    Some(Raw { base, size, protected, count, processes, selected, current, entries, draft })
}

/// A flag, where the byte is one.
fn flag(byte: u8) -> Option<bool> {
    [false, true].get(usize::from(byte)).copied()
}

impl Raw {
    /// The stub with this record; none where its types do not hold it: a flag that is none, or an
    /// element, which in a pool of zeros has no letter. No such record is fit.
    fn stub(&self) -> Option<Stub> {
        let mut stub = Stub { base: self.base, size: self.size, ..Stub::empty() };
        stub.protected = self.protected;
        let mut processes = List::new();
        for &(pid, address, state, wanted) in self.processes.iter().take(self.count as usize) {
            processes.push(Process { pid, address, state, wanted: flag(wanted)? });
        }
        stub.processes = processes;
        stub.current = flag(self.selected)?.then_some(self.current);
        for (slot, &([used, id, count], plain, site)) in stub.table.iter_mut().zip(&self.entries) {
            if flag(used)? {
                *slot = Some(Breakpoint { id, site, plain, elements: no_elements(count)? });
            }
        }
        let [active, id, count] = self.draft;
        if flag(active)? {
            stub.draft = Some(Draft { id, elements: no_elements(count)? });
        }
        Some(stub)
    }
}

/// A condition of no elements, where the count is 0.
fn no_elements<T>(count: u8) -> Option<Vec<T>> {
    (count == 0).then(Vec::new)
}

fn call(input: &mut Input<'_>) -> Called {
    let raw = raw(input)?;
    let brought = input.take(MEMORY as usize)?;
    let steps = match Steps::of(input)? {
        Ok(steps) => steps,
        Err(not_held) => return Some(Err(not_held)),
    };
    let memory = brought[..raw.size.min(MEMORY) as usize].to_vec();
    let registers = vec![0; BLOCK * raw.count.min(PROCESSES) as usize];
    // Sizes come before the record: what is lent is too little for a larger window or more processes.
    let refusal = if raw.size > MEMORY || raw.count > PROCESSES {
        Some(Refusal::Size)
    } else {
        raw.stub().is_none().then_some(Refusal::Unfit)
    };
    let stub = raw.stub().unwrap_or_else(Stub::empty);
    let mut answer = Vec::new();
    steps.run(Session { stub, memory, registers }, refusal, &mut answer);
    Some(Ok(answer))
}

fn main() -> io::Result<()> {
    answer_all(14, call)
}
