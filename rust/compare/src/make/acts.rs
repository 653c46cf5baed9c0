//! What may happen in a session: its steps, and what others do beside them.

use super::setup::stretch;
use super::{setup_call, Writer};
use crate::op::Op;
use reference::{BLOCK, PC};
use steps::Burst;

impl Writer<'_> {
    /// One thing that may happen in a session, now and then with another register area.
    pub fn act(&mut self) {
        if self.burst.rng.chance(6) {
            self.other_registers();
        }
        match self.burst.rng.weighted(&[260, 12, 5, 4, 8, 1, 14]) {
            0 => self.steps(Burst::act),
            1 => self.outside(),
            2 => self.interrupted(),
            3 => {
                self.other_registers();
                self.steps(Burst::release);
            }
            4 => self.wrong_size(),
            5 => self.setup_again(),
            _ => self.texts(),
        }
    }

    /// A setup over the record as it is, with its own window and processes, and any stretch; traps
    /// stay in memory.
    fn setup_again(&mut self) {
        let protected = stretch(self.burst.rng, self.scene.stub.base, self.scene.stub.size);
        let call = setup_call(self.burst.rng, protected);
        self.ops.push(Op::Step(call));
    }

    /// Another register area is lent from here on, with some pc's at sites.
    fn other_registers(&mut self) {
        let mut area = self.burst.rng.bytes(self.scene.registers.len());
        for block in area.chunks_exact_mut(BLOCK) {
            if self.burst.rng.chance(60) {
                block[PC..].copy_from_slice(&self.burst.standing_site().to_be_bytes());
            }
        }
        self.ops.push(Op::Registers(area));
    }

    /// Somebody else changes a byte that is under no trap.
    fn outside(&mut self) {
        let address = self.burst.inside();
        let site = address & !1;
        if self.scene.stub.at_site(site).is_none() {
            let any = self.burst.rng.byte();
            let byte = self.burst.rng.pick(&[any, any, 0x02, 0x90]);
            self.ops.push(Op::Outside { at: (address - self.scene.stub.base) as usize, byte });
        }
    }

    /// A condition with an outside change before one of its steps. Its trap comes with the last.
    fn interrupted(&mut self) {
        let first = self.ops.len();
        self.steps(Burst::condition);
        let place = first + self.burst.rng.index(self.ops.len() - first);
        let rest = self.ops.split_off(place);
        self.outside();
        self.ops.extend(rest);
    }
}
