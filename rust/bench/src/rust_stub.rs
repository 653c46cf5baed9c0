//! The stub in plain Rust, through its own interface.
//!
//! Each step is called through a function that is never inlined: the call stays a call, as that of
//! a library is, and the step is not specialised to the benchmark's loops.

use crate::side::{protected, Event, Lent, Request, Side, BASE, LAST, PROCESSES};
use bench_stub::{Refusal, Replied, Stub, Verdict, READY};
use std::hint::black_box;

pub struct RustStub {
    stub: Box<Stub>,
    image: Box<Stub>,
    lent: Lent,
}

#[inline(never)]
fn setup(stub: &mut Stub, lent: &Lent, base: u32, list: &[(u32, u32)]) -> Result<(), Refusal> {
    let size = lent.memory.len() as u32;
    stub.setup(base, size, black_box(protected(size)), list, &lent.memory, &lent.registers)
}

#[inline(never)]
fn request(stub: &mut Stub, lent: &mut Lent, request: &[u8]) -> Result<Option<[u8; 2]>, Refusal> {
    stub.request(&mut lent.memory, &mut lent.registers, request, &mut lent.reply)
}

#[inline(never)]
fn text(stub: &mut Stub, lent: &mut Lent, request: &[u8]) -> Result<Replied, Refusal> {
    stub.text(&mut lent.memory, &mut lent.registers, request, &mut lent.text)
}

#[inline(never)]
fn trap(stub: &mut Stub, lent: &mut Lent, pid: u32, block: &[u8]) -> Result<Verdict, Refusal> {
    stub.trap(&lent.memory, &mut lent.registers, pid, block)
}

#[inline(never)]
fn schedule(stub: &mut Stub, lent: &mut Lent, pid: u32, block: &[u8]) -> Result<bool, Refusal> {
    stub.schedule(&lent.memory, &mut lent.registers, pid, block)
}

#[inline(never)]
fn state(stub: &mut Stub, lent: &Lent, pid: u32, value: u8) -> Result<(), Refusal> {
    stub.state(&lent.memory, &lent.registers, pid, value)
}

#[inline(never)]
fn restart(stub: &mut Stub, lent: &mut Lent) -> Result<(), Refusal> {
    stub.restart(&mut lent.memory, &lent.registers, &mut lent.reply)
}

/// The form of the C interface. The timed loops drop it, so that it costs nothing there: what they
/// need of an answer is held by a `black_box` around the stub's own.
#[inline(always)]
fn packed(answer: Result<[u8; 3], Refusal>) -> u32 {
    match answer {
        Ok([answer, first, second]) => u32::from_le_bytes([0, answer, first, second]),
        Err(refusal) => u32::from(refusal.number()),
    }
}

impl Side for RustStub {
    fn new(window: u32) -> Self {
        Self { stub: Box::default(), image: Box::default(), lent: Lent::new(window) }
    }

    fn lent(&self) -> &Lent {
        &self.lent
    }

    fn lent_mut(&mut self) -> &mut Lent {
        &mut self.lent
    }

    #[inline(always)]
    fn setup(&mut self) -> u32 {
        let (base, processes) = (black_box(BASE), black_box(&PROCESSES));
        let done = black_box(setup(&mut self.stub, &self.lent, base, processes));
        packed(done.map(|()| [0; 3]))
    }

    #[inline(always)]
    fn request(&mut self, bytes: &Request) -> u32 {
        let plain = black_box(request(&mut self.stub, &mut self.lent, bytes));
        packed(plain.map(|plain| plain.map_or([0; 3], |[first, second]| [2, first, second])))
    }

    #[inline(always)]
    fn text(&mut self, bytes: &[u8]) -> u32 {
        let replied = black_box(text(&mut self.stub, &mut self.lent, bytes));
        packed(replied.map(|Replied { failed, filled }| [failed.into(), filled as u8, 0]))
    }

    #[inline(always)]
    fn trap(&mut self, event: &Event) -> u32 {
        let verdict = black_box(trap(&mut self.stub, &mut self.lent, event.pid, &event.block));
        packed(verdict.map(|verdict| match verdict {
            Verdict::Stop(id) => [1, id, 0],
            Verdict::Pass([first, second]) => [2, first, second],
        }))
    }

    #[inline(always)]
    fn schedule(&mut self, event: &Event) -> u32 {
        let stops = black_box(schedule(&mut self.stub, &mut self.lent, event.pid, &event.block));
        packed(stops.map(|stops| [u8::from(stops), 0, 0]))
    }

    #[inline(always)]
    fn state(&mut self, pid: u32, value: u8) -> u32 {
        let done = black_box(state(&mut self.stub, &self.lent, pid, value));
        packed(done.map(|()| [0; 3]))
    }

    #[inline(always)]
    fn restart(&mut self) -> u32 {
        let done = black_box(restart(&mut self.stub, &mut self.lent));
        packed(done.map(|()| [0; 3]))
    }

    #[inline(always)]
    fn set_ready(&mut self) {
        self.stub.processes[LAST].state = READY;
    }

    fn select(&mut self, pid: u32) {
        self.stub.current = Some(pid);
    }

    fn keep(&mut self) {
        *self.image = *self.stub;
    }

    #[inline(always)]
    fn restore(&mut self) {
        *self.stub = **black_box(&self.image);
        self.lent.put_back();
    }
}
