//! What may happen in a session.

use crate::aim::EDGES;
use crate::burst::Burst;
use crate::step::{block, ten, Step};
use reference::{MESSAGE, PC, STOPPED};

/// Tproc, Tstatus, Trnote, Tstop and Tstart.
const PID_REQUESTS: [u8; 5] = [6, 8, 10, 12, 14];

/// How often each of the things below happens. The long conditions and the full pool take many steps
/// each, so they are rare.
const WEIGHTS: [u32; 17] = [80, 20, 26, 2, 2, 8, 32, 24, 96, 22, 18, 56, 8, 34, 2, 4, 1];
/// How often something is aimed at the protected stretch: where it is empty, and where not.
const AT_STRETCH: [u32; 2] = [6, 44];

impl Burst<'_> {
    /// One thing that may happen in a session.
    pub fn act(&mut self) {
        let at_stretch = AT_STRETCH[usize::from(self.protects())];
        match self.rng.weighted(&[&WEIGHTS[..], &[at_stretch]].concat()) {
            0 => self.memory(),
            1 => self.registers(),
            2 => self.condition(),
            3 => self.fill(),
            4 => self.long(),
            5 => self.stray(),
            6 => self.delete(),
            7 => self.pid_request(),
            8 => self.trap(),
            9 => self.schedule(),
            10 => self.state(),
            11 => self.release(),
            12 => self.stop_again(),
            13 => self.any_type(),
            14 => self.restart(),
            15 => self.noise(),
            16 => self.fill_pool(),
            _ => self.protected(),
        }
    }

    /// A step between the parts of a condition.
    pub(crate) fn between(&mut self) {
        match self.rng.weighted(&[2, 3, 1, 1, 1, 1]) {
            0 => self.memory(),
            1 => self.delete(),
            2 => self.schedule(),
            3 => self.state(),
            4 => self.pid_request(),
            _ => {
                let id = self.id([20, 70, 10]);
                self.op(b'n', id);
            }
        }
    }

    // ---- Memory and registers. ----

    fn get(&mut self, address: u32) {
        let n = match self.rng.weighted(&[90, 4, 6]) {
            0 => 1 + self.rng.below(9) as u8,
            1 => 0,
            _ => self.rng.byte().max(10),
        };
        self.ask(ten(2, address, &[n]));
    }

    fn put(&mut self, address: u32) {
        let n = match self.rng.weighted(&[90, 4, 6]) {
            0 => self.rng.pick(&[1, 2, 3, 4, 4]),
            1 => 0,
            _ => self.rng.byte().max(5),
        };
        let mut rest = [n, 0, 0, 0, 0];
        let trap_alike = self.rng.chance(10);
        for byte in rest.iter_mut().skip(1).take(usize::from(n.min(4))) {
            *byte = if trap_alike { self.rng.pick(&[0x02, 0x90]) } else { self.rng.byte() };
        }
        self.ask(ten(4, address, &rest));
    }

    fn get_or_put(&mut self, address: u32) {
        if self.rng.chance(50) {
            self.get(address);
        } else {
            self.put(address);
        }
    }

    /// A read, a write, or a write and a read over it; beside three sites in a row, over those.
    pub fn memory(&mut self) {
        let site = self.standing_site();
        let three = (0..3).all(|i| self.stub.at_site(site.wrapping_add(2 * i)).is_some());
        let address = if three { site + 1 } else { self.address() };
        match self.rng.below(3) {
            0 => self.get(address),
            1 => self.put(address),
            _ => {
                self.put(address);
                let before = self.rng.below(4);
                self.get(address.saturating_sub(before));
            }
        }
    }

    /// Registers of a current process, mostly a Stopped one.
    fn registers(&mut self) {
        let stopped = self.pid_where(true);
        let pid = stopped.unwrap_or_else(|| self.pid(0));
        if self.rng.chance(60) {
            self.ask(ten(6, pid, &[]));
        }
        for _ in 0..=self.rng.below(3) {
            let (low, edge) = (self.rng.below(136), self.rng.pick(&EDGES));
            let address = self.rng.pick(&[low, edge, edge]);
            self.get_or_put(address);
        }
    }

    // ---- Processes and events. ----

    pub fn pid_request(&mut self) {
        let kind = self.rng.pick(&PID_REQUESTS);
        let pid = self.pid(20);
        let mut unused = [0; 5];
        if self.rng.chance(6) {
            unused[self.rng.index(5)] = 1;
        }
        self.ask(ten(kind, pid, &unused));
    }

    /// A trap, mostly of a running process at a standing site.
    pub fn trap(&mut self) {
        if self.point().is_none() && self.rng.chance(70) {
            return self.condition();
        }
        let running = self.pid_where(false);
        let pid = match self.rng.weighted(&[82, 10, 8]) {
            0 => running.unwrap_or_else(|| self.pid(0)),
            1 => self.pid(0),
            _ => self.pid(100),
        };
        let site = self.standing_site();
        let pc = match self.rng.weighted(&[84, 10, 6]) {
            0 => site,
            1 => site.wrapping_add(self.rng.below(5)).wrapping_sub(2),
            _ => self.address(),
        };
        let block = block(self.rng, pc);
        self.steps.push(Step::Trap { pid, block });
    }

    /// A schedule event, often after a Tstop, now and then with a state event between the two.
    pub fn schedule(&mut self) {
        let pid = self.pid(8);
        if self.rng.chance(40) {
            self.ask(ten(12, pid, &[]));
            if self.rng.chance(20) {
                self.state_of(pid);
            }
        }
        self.schedule_of(pid);
    }

    fn schedule_of(&mut self, pid: u32) {
        let (site, any) = (self.standing_site(), self.rng.word());
        let pc = self.rng.pick(&[site, site, site.wrapping_add(1), any]);
        let block = block(self.rng, pc);
        self.steps.push(Step::Schedule { pid, block });
    }

    pub fn state(&mut self) {
        let pid = self.pid(8);
        self.state_of(pid);
        if self.rng.chance(50) {
            self.ask(ten(8, pid, &[]));
        }
    }

    fn state_of(&mut self, pid: u32) {
        let value = match self.rng.weighted(&[50, 12, 10, 18, 10]) {
            0 => self.rng.below(10) as u8,
            1 => STOPPED,
            2 => 255,
            3 => 9 + self.rng.below(9) as u8,
            _ => self.rng.byte(),
        };
        self.steps.push(Step::State { pid, value });
    }

    /// Lets a Stopped process go on, now and then from a pc that was written before; or one that is
    /// not Stopped.
    pub fn release(&mut self) {
        let (stopped, any) = (self.pid_where(true), self.pid(0));
        let pid = if self.rng.chance(90) { stopped.unwrap_or(any) } else { any };
        if self.rng.chance(25) {
            self.write_pc(pid);
        }
        self.ask(ten(14, pid, &[]));
    }

    /// Writes the saved pc of a process, or its last bytes: to a site, beside one or elsewhere.
    fn write_pc(&mut self, pid: u32) {
        let (site, any) = (self.standing_site(), self.address());
        let beside = site.wrapping_add(self.rng.below(5)).wrapping_sub(2);
        let pc = self.rng.pick(&[site, site, beside, any]).to_be_bytes();
        let from = self.rng.pick(&[0, 0, 2, 3]);
        let rest = [&[(pc.len() - from) as u8], &pc[from..]].concat();
        self.ask(ten(6, pid, &[]));
        self.ask(ten(4, (PC + from) as u32, &rest));
    }

    /// A stop at a breakpoint, now and then another register or other bytes under the trap, a
    /// continue, and the same trap again.
    fn stop_again(&mut self) {
        let (Some(pid), Some(point)) = (self.pid_where(false), self.point()) else {
            return self.condition();
        };
        let site = point.site;
        let block = block(self.rng, site);
        self.steps.push(Step::Trap { pid, block });
        if self.rng.chance(50) {
            let register = 4 + self.rng.below(128);
            self.ask(ten(6, pid, &[]));
            self.put(register);
        }
        if self.rng.chance(30) {
            self.put(site);
        }
        self.ask(ten(14, pid, &[]));
        self.steps.push(Step::Trap { pid, block });
    }

    /// A restart with a condition in hand, a mark and a current process now and then, and looks at
    /// what it left of them.
    fn restart(&mut self) {
        let pid = self.pid(0);
        let (held, marked) = (self.rng.chance(40), self.rng.chance(40));
        if held {
            let id = self.free_id();
            self.op(b'n', id);
        }
        if marked {
            self.ask(ten(12, pid, &[]));
        }
        self.steps.push(Step::Restart);
        if self.rng.chance(60) {
            self.ask(ten(8, pid, &[]));
        }
        if held {
            let site = self.free_site();
            self.op(b'b', site);
        }
        if marked {
            self.schedule_of(pid);
        }
        for _ in 0..self.rng.below(4) {
            let address = self.rng.pick(&EDGES);
            self.get_or_put(address);
        }
    }

    /// A request of any type byte over zeros, noise or a sound body.
    fn any_type(&mut self) {
        let next = *self.next_type;
        let kind = if self.rng.chance(85) { next } else { self.rng.below(25) as u8 };
        *self.next_type = next.wrapping_add(u8::from(kind == next));
        let (address, pid) = (self.address(), self.pid(10));
        let number = self.rng.pick(&[0, address, pid]);
        let mut rest = [0; 5];
        match self.rng.below(3) {
            0 => {}
            1 => self.rng.fill(&mut rest),
            _ => rest[0] = 4,
        }
        self.send(ten(kind, number, &rest));
    }

    /// A step of any kind with random bytes, or with numbers that mean something in the wrong
    /// place.
    pub fn noise(&mut self) {
        let (number, pid, any) = (self.address(), self.pid(50), self.rng.word());
        let mut request = [0; MESSAGE];
        self.rng.fill(&mut request);
        let pid = self.rng.pick(&[any, pid, number]);
        let step = Step::any(self.rng, request, pid, number);
        self.steps.push(step);
    }
}
