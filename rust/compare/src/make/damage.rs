//! Records with damage: one field, one bit, all of it.

use super::sorts::{Expect, SORTS};
use super::{Scene, Writer};
use crate::op::{Op, Origin};
use crate::record::Record;
use reference::{BLOCK, ENTRIES, TRAP};
use sanirvoq::ffi::{self, Draft, Entry, Process, Table, Target};
use std::mem::offset_of;
use steps::{Burst, Rng, Step};

/// A record with damage, and other buffers where the damage needs them.
pub struct Damaged {
    pub record: Box<Record>,
    pub memory: Option<Vec<u8>>,
    pub registers: Option<Vec<u8>>,
}

/// Damage in the making.
pub struct Damage<'a> {
    pub rng: &'a mut Rng,
    pub scene: &'a Scene<'a>,
    pub made: Damaged,
}

impl Damage<'_> {
    pub fn target(&mut self) -> &mut Target {
        self.made.record.target_mut()
    }

    pub fn noise(&mut self) -> Record {
        let mut noise = Record::zeroed();
        self.rng.fill(noise.bytes_mut());
        noise
    }

    pub fn set(&mut self, change: impl FnOnce(&mut Target, &mut Rng)) -> Option<()> {
        change(self.made.record.target_mut(), self.rng);
        Some(())
    }

    /// Changes one of the listed processes.
    pub fn process(&mut self, change: impl FnOnce(&mut Process, &mut Rng)) -> Option<()> {
        let i = self.rng.index(self.scene.stub.processes.len());
        self.set(|target, rng| change(&mut target.processes[i], rng))
    }

    /// The index of a used entry.
    pub fn used(&mut self) -> Option<usize> {
        let start = self.rng.index(ENTRIES);
        let entries = &self.target().table.entries;
        (0..ENTRIES).map(|i| (start + i) % ENTRIES).find(|&i| entries[i].used == 1)
    }

    /// Changes a used entry.
    pub fn entry(&mut self, change: impl FnOnce(&mut Entry, &mut Rng)) -> Option<()> {
        let i = self.used()?;
        self.set(|target, rng| change(&mut target.table.entries[i], rng))
    }

    /// Changes a used entry by another.
    pub fn pair_up(&mut self, change: impl FnOnce(&mut Entry, &Entry)) -> Option<()> {
        let i = self.used()?;
        let entries = &mut self.target().table.entries;
        let j = (0..ENTRIES).find(|&j| j != i && entries[j].used == 1)?;
        let other = entries[j];
        change(&mut entries[i], &other);
        Some(())
    }

    /// Begins a condition as `n` does, and changes it.
    pub fn draft(&mut self, change: impl FnOnce(&mut Draft, &mut Rng)) -> Option<()> {
        self.scene.stub.free_entry()?;
        let id = self.free_id();
        self.set(|target, rng| {
            target.table.draft = Draft { active: 1, id, ..Draft::default() };
            change(&mut target.table.draft, rng);
        })
    }

    /// An id that no used entry has.
    pub fn free_id(&mut self) -> u8 {
        let start = self.rng.byte();
        let entries = &self.target().table.entries;
        let taken = |id| entries.iter().any(|entry| entry.used == 1 && entry.id == id);
        (0..=8).map(|i| start.wrapping_add(i)).find(|&id| !taken(id)).unwrap_or(start)
    }

    /// Sets breakpoints until no entry is free; None where the window is too small.
    pub fn fill_table(&mut self) -> Option<()> {
        let mut memory = self.scene.memory.to_vec();
        let base = self.target().base;
        for i in 0..ENTRIES {
            if self.target().table.entries[i].used == 1 {
                continue;
            }
            let entries = self.target().table.entries;
            let taken = |site| entries.iter().any(|entry| entry.used == 1 && entry.site == site);
            let mut sites = (0..memory.len() as u32 / 2).map(|k| base + 2 * k);
            let site = sites.find(|&site| !taken(site) && !self.scene.stub.protects(site, 2))?;
            let at = (site - base) as usize;
            let plain = [memory[at], memory[at + 1], 0, 0];
            memory[at..at + 2].copy_from_slice(&TRAP);
            let id = self.free_id();
            self.target().table.entries[i] = Entry { used: 1, id, plain, site, ..Entry::default() };
        }
        self.made.memory = Some(memory);
        Some(())
    }

    /// Another M, with memory of that size.
    pub fn resize_memory(&mut self, size: u32) -> Option<()> {
        self.target().size = size;
        let mut memory = self.scene.memory.to_vec();
        memory.resize(size as usize, 0);
        memory.shrink_to_fit();
        self.made.memory = Some(memory);
        Some(())
    }

    /// Another count of processes, with a register area of that size.
    pub fn resize_registers(&mut self, count: u32) -> Option<()> {
        self.target().count = count;
        let mut registers = self.scene.registers.to_vec();
        registers.resize(BLOCK * count as usize, 0);
        registers.shrink_to_fit();
        self.made.registers = Some(registers);
        Some(())
    }

    /// The offset of a byte that is mostly of account.
    pub fn telling_byte(&mut self) -> usize {
        let table = offset_of!(Target, table);
        match (self.rng.below(10), self.used()) {
            (0..=2, Some(i)) => table + i * size_of::<Entry>() + self.rng.index(size_of::<Entry>()),
            (3 | 4, Some(_)) => {
                let held = self.scene.stub.held().max(1);
                offset_of!(ffi::Record, places) + self.rng.index(8 * held)
            }
            (5, _) => table + self.rng.index(ENTRIES) * size_of::<Entry>(),
            (6, _) => table + offset_of!(Table, draft) + self.rng.index(size_of::<Draft>()),
            _ => self.rng.index(table),
        }
    }
}

/// The bytes of some words, of at least one: mostly few, up to 2^30.
pub fn some_words(rng: &mut Rng) -> u32 {
    let most = 1 << rng.below(28);
    4 * (1 + rng.below(most))
}

/// A byte that is no flag.
pub fn no_flag(rng: &mut Rng) -> u8 {
    2 + rng.below(254) as u8
}

/// Noise in all that lies past a count, unheld places among it.
pub fn past_counts(record: &mut ffi::Record, noise: &ffi::Record, held: usize) {
    let count = record.target.count as usize;
    record.target.processes[count..].copy_from_slice(&noise.target.processes[count..]);
    record.places[2 * held..].copy_from_slice(&noise.places[2 * held..]);
}

/// Entries of anything that the flags, counts and letters of a table can say; sites that hold traps
/// among them.
pub fn random_table(record: &mut ffi::Record, noise: &ffi::Record, rng: &mut Rng) {
    let sites = record.target.table.entries.map(|entry| entry.site);
    for (entry, noise) in record.target.table.entries.iter_mut().zip(&noise.target.table.entries) {
        let (count, site) = (rng.below(5) as u8, rng.pick(&sites));
        *entry = Entry { used: u8::from(rng.chance(25)), count, site, ..*noise };
    }
    for (place, noise) in record.places.chunks_exact_mut(2).zip(noise.places.chunks_exact(2)) {
        let letter = rng.pick(b"kkppp*&=!ao");
        let value = if matches!(letter, b'k' | b'p') { noise[1] } else { 0 };
        (place[0], place[1]) = (letter.into(), value);
    }
}

impl Writer<'_> {
    /// Something that gives damage a hold.
    pub fn build_up(&mut self) {
        match self.burst.rng.weighted(&[120, 45, 75, 30, 30, 4, 2]) {
            0 => self.steps(Burst::condition),
            1 => self.steps(Burst::fill),
            2 => self.steps(Burst::trap),
            3 => self.steps(Burst::schedule),
            4 => self.steps(Burst::begin),
            5 => self.steps(Burst::long),
            _ => self.steps(Burst::fill_pool),
        }
    }

    /// A damaged record, a few steps on it, and all as it was.
    pub fn damage(&mut self) {
        let (sort, Damaged { record, memory, registers }) = self.damaged();
        let unharmed = memory.is_none() && registers.is_none();
        let may_go_on = matches!(SORTS[sort].expect, Expect::Fit | Expect::Any(_));
        self.ops.extend(memory.map(Op::Memory));
        self.ops.extend(registers.map(Op::Registers));
        self.ops.push(Op::Record(record, Origin::Damaged(sort)));
        for _ in 0..=self.burst.rng.below(if may_go_on { 6 } else { 2 }) {
            self.try_out();
        }
        if may_go_on || !unharmed {
            self.ops.push(Op::Memory(self.scene.memory.to_vec()));
            self.ops.push(Op::Registers(self.scene.registers.to_vec()));
        }
        self.ops.push(Op::Record(Box::new(self.scene.record.clone()), Origin::Restored));
    }

    /// A record with damage of a sort that it has something for.
    fn damaged(&mut self) -> (usize, Damaged) {
        loop {
            let sort = self.burst.rng.index(SORTS.len());
            let record = Box::new(self.scene.record.clone());
            let made = Damaged { record, memory: None, registers: None };
            let mut damage = Damage { rng: self.burst.rng, scene: &self.scene, made };
            if (SORTS[sort].apply)(&mut damage).is_some() {
                return (sort, damage.made);
            }
        }
    }

    /// A step of any kind that would do something.
    fn try_out(&mut self) {
        match self.burst.rng.below(13) {
            0 => self.steps(Burst::memory),
            1 => self.steps(Burst::condition),
            2 => self.steps(Burst::pid_request),
            3 | 4 => self.steps(Burst::trap),
            5 => self.steps(Burst::schedule),
            6 => self.steps(Burst::state),
            7 => self.steps(Burst::release),
            8 => self.steps(|burst| burst.steps.push(Step::Restart)),
            9 => self.wrong_size(),
            10 | 11 => self.text(),
            _ => self.steps(Burst::noise),
        }
    }
}
