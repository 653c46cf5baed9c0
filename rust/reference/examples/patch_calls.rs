//! Answers the calls of `tests/patch_calls.py` by the independent stub: a setup with a protected
//! stretch, ordinary steps, then a check of an offer (kind 12) or a plan (kind 13).
//!
//!     python3 tests/patch_calls.py rust/target/release/examples/patch_calls

use reference::patch::{Judged, NotPatched, PatchLent, Write};
use reference::{body_length, Session, Stub, BLOCK};
use std::io::{self, Read, Write as _};

const FILL: u32 = 0xeeee_eeee;

/// The input, taken from its front; the calls are whole.
struct Input<'a>(&'a [u8]);

impl<'a> Input<'a> {
    fn take(&mut self, n: usize) -> &'a [u8] {
        let (taken, rest) = self.0.split_at(n);
        self.0 = rest;
        taken
    }

    fn wide(&mut self, n: usize) -> u64 {
        self.take(n).iter().fold(0, |sum, &byte| sum << 8 | u64::from(byte))
    }

    fn word(&mut self) -> u32 {
        self.wide(4) as u32
    }
}

fn bytes_of(write: &Write) -> Vec<u8> {
    [&write.address.to_be_bytes()[..], &write.count.to_be_bytes(), &write.bytes].concat()
}

fn call(kind: u8, input: &mut Input<'_>, output: &mut Vec<u8>) {
    let (base, size, from, to) = (input.word(), input.word(), input.wide(8), input.wide(8));
    let count = input.word() as usize;
    let mut processes: Vec<_> = (0..4).map(|_| (input.word(), input.word())).collect();
    processes.truncate(count);
    let [steps, room, wanted, writes] = [(); 4].map(|()| input.word() as usize);
    let (mut steps, wanted) = (Input(input.take(steps)), input.take(wanted));
    let write = |input: &mut Input<'_>| {
        let (address, count, bytes) = (input.word(), input.word(), input.take(4));
        Write { address, count, bytes: bytes.try_into().expect("four bytes") }
    };
    let offer: Vec<_> = (0..if kind == 12 { writes } else { 0 }).map(|_| write(input)).collect();
    let (memory, registers) = ((0..size).map(|i| i as u8).collect(), vec![0; BLOCK * count]);
    let mut session = Session { stub: Stub::empty(), memory, registers };
    let Session { stub, memory, registers } = &mut session;
    if let Err(refusal) = stub.setup(base, size, from..to, &processes, memory, registers) {
        return output.push(refusal.number());
    }
    output.push(0);
    while let [kind, ..] = *steps.0 {
        steps.take(1);
        let body = steps.take(body_length(kind).expect("a kind of 1 to 5"));
        output.extend(&session.step(kind, body)[..]);
    }
    let Session { stub, memory, registers } = &session;
    let lent = PatchLent { memory, registers, wanted, room };
    if kind == 12 {
        match stub.patch_check(lent, &offer) {
            Ok(Judged::Accepted) => output.extend([0; 6]),
            Ok(Judged::Bound(index)) => {
                output.extend([0, 1]);
                output.extend((index as u32).to_be_bytes());
            }
            Ok(Judged::Differ) => output.extend([0, 2, 0, 0, 0, 0]),
            Err(refusal) => output.push(refusal.number()),
        }
        return;
    }
    let fill = Write { address: FILL, count: FILL, bytes: FILL.to_be_bytes() };
    let mut list = vec![fill; writes];
    let (number, address, filled) = match stub.patch_plan(lent, &mut list) {
        Ok(filled) => (0, 0, filled as u32),
        Err(refusal @ NotPatched::Protected(address)) => (refusal.number(), address, 0),
        Err(refusal) => (refusal.number(), 0, 0),
    };
    output.push(number);
    output.extend(address.to_be_bytes());
    output.extend(filled.to_be_bytes());
    output.extend(list.iter().flat_map(bytes_of));
}

fn main() -> io::Result<()> {
    let mut bytes = Vec::new();
    io::stdin().read_to_end(&mut bytes)?;
    let (mut input, mut output) = (Input(&bytes), Vec::new());
    while let [kind @ (12 | 13), ..] = *input.0 {
        input.take(1);
        call(kind, &mut input, &mut output);
    }
    io::stdout().write_all(&output)
}
