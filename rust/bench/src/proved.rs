//! The proved stub through its C interface, the record lent by `&mut` as a kernel would.

use crate::side::{protected, Event, Lent, Request, Side, BASE, LAST, PROCESSES};
use reference::READY;
use sanirvoq::call::{self, Kind};
use sanirvoq::ffi;
use std::hint::black_box;
use std::ops::Range;

/// How a step is called: directly to be timed, or on a painted stack.
pub trait Caller: Default {
    fn call(&mut self, kind: Kind, lent: call::Lent<'_>) -> u32;
}

#[derive(Default)]
pub struct Direct;

impl Caller for Direct {
    /// Inlined where `kind` is a constant, so that the call is a direct one.
    #[inline(always)]
    fn call(&mut self, kind: Kind, lent: call::Lent<'_>) -> u32 {
        lent.call(kind)
    }
}

pub struct Proved<C> {
    record: Box<ffi::Record>,
    image: Box<ffi::Record>,
    lent: Lent,
    pub caller: C,
}

impl<C: Caller> Proved<C> {
    /// Every step: a reply buffer is lent to those that answer in it.
    #[inline(always)]
    fn step(&mut self, kind: Kind, pid: u32, value: u8, input: &[u8]) -> u32 {
        let Lent { memory, registers, reply, text, .. } = &mut self.lent;
        let reply: &mut [u8] = match kind {
            Kind::Request | Kind::Restart => reply,
            Kind::Text => text,
            _ => &mut [],
        };
        let record = &mut *self.record;
        let Range { start: from, end: to } = protected(memory.len() as u32);
        let lent = call::Lent { record, memory, registers, from, to, pid, value, input, reply };
        black_box(self.caller.call(kind, lent))
    }
}

impl<C: Caller> Side for Proved<C> {
    fn new(window: u32) -> Self {
        let caller = C::default();
        Self { record: Box::default(), image: Box::default(), lent: Lent::new(window), caller }
    }

    fn lent(&self) -> &Lent {
        &self.lent
    }

    fn lent_mut(&mut self) -> &mut Lent {
        &mut self.lent
    }

    /// As the header's `sanirvoq_setup`: a record cleared but for its places, with what setup takes
    /// from it, then the step.
    #[inline(always)]
    fn setup(&mut self) -> u32 {
        let target = &mut self.record.target;
        *target = ffi::Target::default();
        target.base = black_box(BASE);
        target.size = black_box(self.lent.memory.len() as u32);
        target.count = PROCESSES.len() as u32;
        for (process, (pid, address)) in target.processes.iter_mut().zip(black_box(PROCESSES)) {
            (process.pid, process.address) = (pid, address);
        }
        self.step(Kind::Setup, 0, 0, &[])
    }

    #[inline(always)]
    fn request(&mut self, request: &Request) -> u32 {
        self.step(Kind::Request, 0, 0, request)
    }

    #[inline(always)]
    fn text(&mut self, request: &[u8]) -> u32 {
        self.step(Kind::Text, 0, 0, request)
    }

    #[inline(always)]
    fn trap(&mut self, event: &Event) -> u32 {
        self.step(Kind::Trap, event.pid, 0, &event.block)
    }

    #[inline(always)]
    fn schedule(&mut self, event: &Event) -> u32 {
        self.step(Kind::Schedule, event.pid, 0, &event.block)
    }

    #[inline(always)]
    fn state(&mut self, pid: u32, value: u8) -> u32 {
        self.step(Kind::State, pid, value, &[])
    }

    #[inline(always)]
    fn restart(&mut self) -> u32 {
        self.step(Kind::Restart, 0, 0, &[])
    }

    #[inline(always)]
    fn set_ready(&mut self) {
        self.record.target.processes[LAST].state = READY;
    }

    fn select(&mut self, pid: u32) {
        let target = &mut self.record.target;
        (target.selected, target.current) = (1, pid);
    }

    fn keep(&mut self) {
        *self.image = *self.record;
    }

    #[inline(always)]
    fn restore(&mut self) {
        *self.record = **black_box(&self.image);
        self.lent.put_back();
    }
}
