//! Text steps: packets that are aimed at the record, their texts whole or damaged, and buffers of any
//! length.

use super::{call, Writer};
use crate::op::{Call, Kind, Op};
use crate::texts::make::{damaged, Damage, Room};
use reference::TextPacket;
use steps::{Rng, Step};

/// How often each damage is done; most texts are whole.
const DAMAGES: [u32; Damage::ALL.len()] = [210, 3, 3, 3, 3, 3, 3, 3, 3, 3, 3, 3, 3, 6, 3, 3, 3];
/// How often a buffer is of each length; few are short.
const ROOMS: [u32; Room::ALL.len()] = [4, 4, 8, 40, 20, 24];

impl Writer<'_> {
    /// One text step.
    pub fn text(&mut self) {
        let packet = self.burst.packet();
        self.ops.push(Op::Step(text_call(self.burst.rng, packet)));
    }

    /// A few text steps, mostly after a request that makes a process current; now and then that
    /// process then goes on from a pc that a text step wrote.
    pub fn texts(&mut self) {
        let mut selected = None;
        if self.burst.rng.chance(70) {
            self.steps(|burst| selected = Some(burst.select()));
        }
        for _ in 0..=self.burst.rng.below(5) {
            self.text();
        }
        if let Some(pid) = selected.filter(|_| self.burst.rng.chance(30)) {
            let packet = self.burst.pc_packet();
            self.ops.push(Op::Step(text_call(self.burst.rng, packet)));
            self.steps(|burst| burst.start(pid));
        }
    }
}

/// A text step of this packet; what it does not use is anything.
pub fn text_call(rng: &mut Rng, packet: TextPacket) -> Call {
    let damage = Damage::ALL[rng.weighted(&DAMAGES)];
    let reply = Room::ALL[rng.weighted(&ROOMS)].make(rng);
    let mut input = damaged(rng, damage, packet);
    // No room past the length, so that valgrind sees a read there.
    input.shrink_to_fit();
    Call { kind: Kind::Text, input, reply, damage: Some(damage), ..call(rng, Step::Restart) }
}
