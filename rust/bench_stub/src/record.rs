//! The record, and setup.

use crate::condition::Element;
use crate::{BLOCK, ENTRIES, PLACES, PROCESSES, READY};
use std::ops::Range;

/// Why a step was refused; the numbers are those of 01's table.
#[derive(Debug, Clone, Copy, PartialEq, Eq)]
pub enum Refusal {
    Setup = 1,
    Size = 2,
    Unfit = 3,
    Unlisted = 4,
    Stopped = 5,
    NoSite = 6,
    NoPacket = 10,
    ShortText = 11,
    Image = 16,
    ShortList = 17,
}

impl Refusal {
    pub fn number(self) -> u8 {
        self as u8
    }
}

#[derive(Debug, Clone, Copy, Default, PartialEq, Eq)]
pub struct Process {
    pub pid: u32,
    pub address: u32,
    pub state: u8,
    pub wanted: bool,
}

/// A breakpoint; its elements stand in the pool.
#[derive(Debug, Clone, Copy, Default, PartialEq, Eq)]
pub struct Entry {
    pub used: bool,
    pub id: u8,
    pub count: u8,
    pub plain: [u8; 2],
    pub site: u32,
}

/// The condition in hand; its elements stand in the pool.
#[derive(Debug, Clone, Copy, Default, PartialEq, Eq)]
pub struct Draft {
    pub active: bool,
    pub id: u8,
    pub count: u8,
}

#[derive(Debug, Clone, Copy)]
pub struct Stub {
    pub base: u32,
    pub size: u32,
    /// The protected stretch, from the window's first byte on.
    pub protected_offset: u32,
    pub protected_length: u32,
    pub count: usize,
    pub processes: [Process; PROCESSES],
    pub current: Option<u32>,
    pub entries: [Entry; ENTRIES],
    pub draft: Draft,
    /// The elements of the used entries in the table's order, then those of the condition in hand.
    pub places: [Element; PLACES],
}

impl Default for Stub {
    /// The empty record.
    fn default() -> Self {
        Self {
            base: 0,
            size: 0,
            protected_offset: 0,
            protected_length: 0,
            count: 0,
            processes: Default::default(),
            current: None,
            entries: Default::default(),
            draft: Draft::default(),
            places: [Element::Indirect; PLACES],
        }
    }
}

impl Stub {
    /// Makes the record; the places stay as they are. A refused setup leaves it empty.
    pub fn setup(
        &mut self,
        base: u32,
        size: u32,
        protected: Range<u64>,
        processes: &[(u32, u32)],
        memory: &[u8],
        registers: &[u8],
    ) -> Result<(), Refusal> {
        self.clear();
        if processes.len() > PROCESSES {
            return Err(Refusal::Setup);
        }
        for (process, &(pid, address)) in self.processes.iter_mut().zip(processes) {
            *process = Process { pid, address, state: READY, wanted: false };
        }
        (self.base, self.size, self.count) = (base, size, processes.len());
        let done = if !self.window_fits() || !self.processes_fit() || !self.protect(protected) {
            Err(Refusal::Setup)
        } else {
            self.lent(memory, registers)
        };
        if done.is_err() {
            self.clear();
        }
        done
    }

    /// Takes a stretch; answers whether it is one of the window.
    #[inline(always)]
    fn protect(&mut self, Range { start, end }: Range<u64>) -> bool {
        let (base, size) = (u64::from(self.base), u64::from(self.size));
        let sound = (start | end) & 3 == 0 && base <= start && start <= end && end <= base + size;
        if sound {
            self.protected_offset = (start - base) as u32;
            self.protected_length = (end - start) as u32;
        }
        sound
    }

    fn clear(&mut self) {
        (self.base, self.size, self.count) = (0, 0, 0);
        (self.protected_offset, self.protected_length) = (0, 0);
        (self.processes, self.current) = (Default::default(), None);
        (self.entries, self.draft) = (Default::default(), Draft::default());
    }

    /// Number 2 of the two lent buffers.
    #[inline(always)]
    pub(crate) fn lent(&self, memory: &[u8], registers: &[u8]) -> Result<(), Refusal> {
        if memory.len() == self.size as usize && registers.len() == BLOCK * self.count {
            Ok(())
        } else {
            Err(Refusal::Size)
        }
    }

    /// The index of the process of this pid.
    #[inline(always)]
    pub(crate) fn listed(&self, pid: u32) -> Option<usize> {
        self.processes.iter().take(self.count).position(|process| process.pid == pid)
    }

    /// The index of the breakpoint at this site.
    #[inline(always)]
    pub(crate) fn at_site(&self, site: u32) -> Option<usize> {
        self.entries.iter().position(|entry| entry.used && entry.site == site)
    }

    /// The index of the breakpoint of this id.
    #[inline(always)]
    pub(crate) fn of_id(&self, id: u32) -> Option<usize> {
        self.entries.iter().position(|entry| entry.used && u32::from(entry.id) == id)
    }

    /// The first place of an entry's elements.
    #[inline(always)]
    pub(crate) fn first_place(&self, index: usize) -> usize {
        let held = |entry: &Entry| if entry.used { usize::from(entry.count) } else { 0 };
        self.entries.iter().take(index).map(held).sum()
    }
}
