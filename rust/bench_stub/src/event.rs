//! The kernel's events and the restart.

use crate::record::{Draft, Refusal, Stub};
use crate::{word, BLOCK, ENTRIES, MESSAGE, PC, READY, STOPPED};

/// The answer to a trap.
#[derive(Debug, Clone, Copy, PartialEq, Eq)]
pub enum Verdict {
    Stop(u8),
    Pass([u8; 2]),
}

impl Stub {
    pub fn trap(
        &mut self,
        memory: &[u8],
        registers: &mut [u8],
        pid: u32,
        block: &[u8],
    ) -> Result<Verdict, Refusal> {
        let block: &[u8; BLOCK] = block.try_into().map_err(|_| Refusal::Size)?;
        self.enter(memory, registers)?;
        let index = self.listed(pid).ok_or(Refusal::Unlisted)?;
        if self.processes[index].state == STOPPED {
            return Err(Refusal::Stopped);
        }
        let at = self.at_site(word(block, PC)).ok_or(Refusal::NoSite)?;
        let (entry, first) = (self.entries[at], self.first_place(at));
        let elements = &self.places[first..first + usize::from(entry.count)];
        if !self.holds(memory, elements, pid) {
            return Ok(Verdict::Pass(entry.plain));
        }
        self.stop(registers, index, block);
        Ok(Verdict::Stop(entry.id))
    }

    pub fn schedule(
        &mut self,
        memory: &[u8],
        registers: &mut [u8],
        pid: u32,
        block: &[u8],
    ) -> Result<bool, Refusal> {
        let block: &[u8; BLOCK] = block.try_into().map_err(|_| Refusal::Size)?;
        self.enter(memory, registers)?;
        let index = self.listed(pid).ok_or(Refusal::Unlisted)?;
        let wanted = self.processes[index].wanted;
        if wanted {
            self.stop(registers, index, block);
        }
        Ok(wanted)
    }

    pub fn state(
        &mut self,
        memory: &[u8],
        registers: &[u8],
        pid: u32,
        value: u8,
    ) -> Result<(), Refusal> {
        self.enter(memory, registers)?;
        let index = self.listed(pid).ok_or(Refusal::Unlisted)?;
        let process = &mut self.processes[index];
        if process.state == STOPPED || value == STOPPED {
            return Err(Refusal::Stopped);
        }
        process.state = value;
        Ok(())
    }

    pub fn restart(
        &mut self,
        memory: &mut [u8],
        registers: &[u8],
        reply: &mut [u8],
    ) -> Result<(), Refusal> {
        let reply: &mut [u8; MESSAGE] = reply.try_into().map_err(|_| Refusal::Size)?;
        self.enter(memory, registers)?;
        for index in 0..ENTRIES {
            if self.entries[index].used {
                self.put_back(memory, index);
            }
        }
        (self.entries, self.draft, self.current) = (Default::default(), Draft::default(), None);
        for process in self.processes.iter_mut().take(self.count) {
            process.wanted = false;
            if process.state == STOPPED {
                process.state = READY;
            }
        }
        *reply = *b"\x01reset\0\0\0\0";
        Ok(())
    }

    #[inline(always)]
    fn stop(&mut self, registers: &mut [u8], index: usize, block: &[u8; BLOCK]) {
        if let Some(saved) = registers.get_mut(BLOCK * index..BLOCK * (index + 1)) {
            saved.copy_from_slice(block);
        }
        let process = &mut self.processes[index];
        (process.state, process.wanted) = (STOPPED, false);
    }
}
