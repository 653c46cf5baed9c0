//! Buffers of wrong size.

use super::texts::text_call;
use super::{call, Writer};
use crate::op::{Call, Op};
use reference::MESSAGE;
use steps::step::ten;
use steps::{Rng, Step};

impl Writer<'_> {
    /// A step that would do something, but for one buffer or more of wrong size.
    pub fn wrong_size(&mut self) {
        let mut call = if self.burst.rng.chance(35) {
            let packet = self.burst.packet();
            text_call(self.burst.rng, packet)
        } else {
            let (pid, site) = (self.burst.pid(10), self.burst.standing_site());
            let request = self.changing_request(pid, site);
            let step = Step::any(self.burst.rng, request, pid, site);
            call(self.burst.rng, step)
        };
        spoil(self.burst.rng, &mut call, self.scene.memory.len(), self.scene.registers.len());
        self.ops.push(Op::Step(call));
    }

    /// A request that mostly changes something.
    fn changing_request(&mut self, pid: u32, site: u32) -> [u8; MESSAGE] {
        let id = self.burst.free_id();
        let choices = [
            ten(4, site, &[1, self.burst.rng.byte()]),
            ten(16, id, b"n"),
            ten(6, pid, &[]),
            ten(12, pid, &[]),
            ten(14, pid, &[]),
        ];
        self.burst.rng.pick(&choices)
    }
}

/// Gives one of the buffers that the step uses a wrong size, now and then more of them.
pub fn spoil(rng: &mut Rng, call: &mut Call, memory: usize, registers: usize) {
    loop {
        match rng.below(4) {
            0 => call.memory = Some(wrong(rng, memory)),
            1 => call.registers = Some(wrong(rng, registers)),
            2 => match call.kind.input() {
                Some(right) => call.input.resize(wrong(rng, right), 0),
                None => continue,
            },
            _ => match call.kind.reply() {
                Some(right) => call.reply = wrong(rng, right),
                None => continue,
            },
        }
        if rng.chance(90) {
            break;
        }
    }
    // No room past the length, so that valgrind sees a read there.
    call.input.shrink_to_fit();
}

/// Another length: none, one less, one more, a block more or less, or any.
fn wrong(rng: &mut Rng, right: usize) -> usize {
    loop {
        let any = rng.index(right + 300);
        let near =
            [0, right.saturating_sub(1), right + 1, right.saturating_sub(136), right + 136, any];
        let length = rng.pick(&near);
        if length != right {
            return length;
        }
    }
}
