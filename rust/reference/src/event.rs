//! The kernel's events and the restart.

use crate::message::{Message, Reason};
use crate::record::{Refusal, Stub};
use crate::{word, BLOCK, MESSAGE, PC, READY, STOPPED};

/// The answer to a trap.
#[derive(Debug, Clone, Copy, PartialEq, Eq)]
pub enum Verdict {
    /// The process is Stopped at the breakpoint of this id.
    Stop(u8),
    /// The condition is false; these are the plain bytes of the instruction.
    Pass([u8; 2]),
}

/// Number 2 of what has a fixed size.
pub(crate) fn exact<const N: usize>(bytes: &[u8]) -> Result<&[u8; N], Refusal> {
    bytes.try_into().map_err(|_| Refusal::Size)
}

impl Stub {
    /// A process ran into a trap: the condition of the site at the block's pc decides.
    pub fn trap(
        &mut self,
        memory: &[u8],
        registers: &mut [u8],
        pid: u32,
        block: &[u8],
    ) -> Result<Verdict, Refusal> {
        let block: &[u8; BLOCK] = exact(block)?;
        self.enter(memory, registers)?;
        let index = self.listed(pid).ok_or(Refusal::Unlisted)?;
        if self.processes[index].state == STOPPED {
            return Err(Refusal::Stopped);
        }
        let entry = self.at_site(word(&block[PC..])).ok_or(Refusal::NoSite)?;
        if !self.holds(memory, &entry.elements, pid) {
            return Ok(Verdict::Pass(entry.plain));
        }
        let id = entry.id;
        self.stop(registers, index, block);
        Ok(Verdict::Stop(id))
    }

    /// The scheduler meets a process: `true` where it was stopped because a stop was wanted.
    pub fn schedule(
        &mut self,
        memory: &[u8],
        registers: &mut [u8],
        pid: u32,
        block: &[u8],
    ) -> Result<bool, Refusal> {
        let block: &[u8; BLOCK] = exact(block)?;
        self.enter(memory, registers)?;
        let index = self.listed(pid).ok_or(Refusal::Unlisted)?;
        let wanted = self.processes[index].wanted;
        if wanted {
            self.stop(registers, index, block);
        }
        Ok(wanted)
    }

    /// The kernel sets a process's state byte; a mark stays.
    pub fn state(
        &mut self,
        memory: &[u8],
        registers: &[u8],
        pid: u32,
        value: u8,
    ) -> Result<(), Refusal> {
        self.enter(memory, registers)?;
        let index = self.listed(pid).ok_or(Refusal::Unlisted)?;
        let process = &mut self.processes[index];
        if process.state == STOPPED || value == STOPPED {
            return Err(Refusal::Stopped);
        }
        process.state = value;
        Ok(())
    }

    /// The target was restarted: traps go, marks and Stopped go, the register area stays.
    pub fn restart(
        &mut self,
        memory: &mut [u8],
        registers: &[u8],
        reply: &mut [u8],
    ) -> Result<(), Refusal> {
        exact::<MESSAGE>(reply)?;
        self.enter(memory, registers)?;
        for index in 0..self.table.len() {
            self.remove(memory, index);
        }
        self.draft = None;
        self.current = None;
        for process in self.processes.iter_mut() {
            process.wanted = false;
            if process.state == STOPPED {
                process.state = READY;
            }
        }
        reply.copy_from_slice(&Message::Rerr(Reason::Reset).bytes());
        Ok(())
    }

    /// Saves the block as it is, makes the process Stopped and clears its mark.
    fn stop(&mut self, registers: &mut [u8], index: usize, block: &[u8; BLOCK]) {
        if let Some(saved) = registers.chunks_exact_mut(BLOCK).nth(index) {
            saved.copy_from_slice(block);
        }
        if let Some(process) = self.processes.get_mut(index) {
            process.state = STOPPED;
            process.wanted = false;
        }
    }
}
