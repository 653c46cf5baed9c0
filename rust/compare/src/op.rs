//! What is done to both sides. A run is a list of these; any part of a list is a list too.

use crate::make::setup::RULES;
use crate::make::sorts::SORTS;
use crate::record::Record;
use crate::texts::make::Damage;
use reference::LONGEST_TEXT;
use std::fmt;
use std::ops::Range;
use steps::Step;

pub use sanirvoq::call::Kind;

/// One step. What its kind does not use may be anything.
#[derive(Debug, Clone)]
pub struct Call {
    pub kind: Kind,
    /// The protected stretch of a setup.
    pub protected: Range<u64>,
    pub pid: u32,
    pub value: u8,
    pub input: Vec<u8>,
    /// The length of the reply buffer that is lent, and the byte that it is full of.
    pub reply: usize,
    pub fill: u8,
    /// The length of the memory that this step alone is lent: a copy, cut or with zeros at its end.
    pub memory: Option<usize>,
    /// The same for the register area.
    pub registers: Option<usize>,
    /// What was done to the text of a text step, which says what numbers it can have.
    pub damage: Option<Damage>,
}

impl Call {
    /// The step, where the program has its kind and its input has the right size.
    pub fn step(&self) -> Option<Step> {
        let pid = self.pid;
        Some(match self.kind {
            Kind::Setup | Kind::Text => return None,
            Kind::Request => Step::Request(self.input[..].try_into().ok()?),
            Kind::Trap => Step::Trap { pid, block: self.input[..].try_into().ok()? },
            Kind::Schedule => Step::Schedule { pid, block: self.input[..].try_into().ok()? },
            Kind::State => Step::State { pid, value: self.value },
            Kind::Restart => Step::Restart,
        })
    }
}

/// Where a record comes from, which says what a step on it must give.
#[derive(Debug, Clone, Copy, PartialEq, Eq)]
pub enum Origin {
    /// The arguments of a setup that breaks this one of [`RULES`], or none.
    Setup(Option<usize>),
    /// A record with damage, by index in [`SORTS`].
    Damaged(usize),
    /// A record as it was before some damage.
    Restored,
}

#[derive(Debug, Clone)]
pub enum Op {
    /// From here on this memory is lent.
    Memory(Vec<u8>),
    /// From here on this register area is lent.
    Registers(Vec<u8>),
    /// From here on this record is handed over.
    Record(Box<Record>, Origin),
    /// Somebody else changes a byte of memory.
    Outside {
        at: usize,
        byte: u8,
    },
    Step(Call),
}

/// Bytes in hex.
pub struct Hex<'a>(pub &'a [u8]);

impl fmt::Display for Hex<'_> {
    fn fmt(&self, out: &mut fmt::Formatter<'_>) -> fmt::Result {
        if self.0.is_empty() {
            return write!(out, "(no bytes)");
        }
        self.0.iter().try_for_each(|byte| write!(out, "{byte:02x}"))
    }
}

impl fmt::Display for Origin {
    fn fmt(&self, out: &mut fmt::Formatter<'_>) -> fmt::Result {
        match *self {
            Self::Setup(None) => write!(out, "for setup"),
            Self::Setup(Some(rule)) => write!(out, "for setup, {}", RULES[rule].name),
            Self::Damaged(sort) => write!(out, "damaged, {}", SORTS[sort].name),
            Self::Restored => write!(out, "restored"),
        }
    }
}

impl fmt::Display for Call {
    fn fmt(&self, out: &mut fmt::Formatter<'_>) -> fmt::Result {
        write!(out, "{}", self.kind.name())?;
        if self.kind == Kind::Setup {
            write!(out, " protected {:#x} to {:#x}", self.protected.start, self.protected.end)?;
        }
        if matches!(self.kind, Kind::Trap | Kind::Schedule | Kind::State) {
            write!(out, " pid {:08x}", self.pid)?;
        }
        if self.kind == Kind::State {
            write!(out, " value {:02x}", self.value)?;
        }
        if self.kind == Kind::Text {
            write!(out, " {:?}", String::from_utf8_lossy(&self.input))?;
        }
        if self.kind.input().is_some() || self.kind == Kind::Text {
            write!(out, " input {}", Hex(&self.input))?;
        }
        let usual = if self.kind == Kind::Text { Some(LONGEST_TEXT) } else { self.kind.reply() };
        if usual.is_some_and(|usual| usual != self.reply) {
            write!(out, " reply of {:#x} bytes", self.reply)?;
        }
        for (name, length) in [("memory", self.memory), ("registers", self.registers)] {
            if let Some(length) = length {
                write!(out, " {name} cut to {length:#x}")?;
            }
        }
        Ok(())
    }
}

impl fmt::Display for Op {
    fn fmt(&self, out: &mut fmt::Formatter<'_>) -> fmt::Result {
        match self {
            Self::Memory(bytes) => write!(out, "memory {}", Hex(bytes)),
            Self::Registers(bytes) => write!(out, "registers {}", Hex(bytes)),
            Self::Record(record, origin) => {
                let bytes = record.bytes();
                let upto = bytes.iter().rposition(|&byte| byte != 0).map_or(0, |last| last + 1);
                write!(out, "record ({origin}) {}, then 00", Hex(&bytes[..upto]))
            }
            Self::Outside { at, byte } => write!(out, "outside change at {at:#x} to {byte:02x}"),
            Self::Step(call) => write!(out, "{call}"),
        }
    }
}
