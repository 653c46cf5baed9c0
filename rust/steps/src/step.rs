//! One step, and its bytes in the program's format.

use crate::rng::Rng;
use reference::{BLOCK, MESSAGE, PC};

#[derive(Debug, Clone, PartialEq, Eq)]
pub enum Step {
    Request([u8; MESSAGE]),
    Trap { pid: u32, block: [u8; BLOCK] },
    Schedule { pid: u32, block: [u8; BLOCK] },
    State { pid: u32, value: u8 },
    Restart,
}

impl Step {
    /// The kind byte.
    pub fn kind(&self) -> u8 {
        match self {
            Self::Request(_) => 1,
            Self::Trap { .. } => 2,
            Self::Schedule { .. } => 3,
            Self::State { .. } => 4,
            Self::Restart => 5,
        }
    }

    /// What follows the kind byte.
    pub fn body(&self) -> Vec<u8> {
        match self {
            Self::Request(request) => request.to_vec(),
            Self::Trap { pid, block } | Self::Schedule { pid, block } => {
                [&pid.to_be_bytes()[..], block].concat()
            }
            Self::State { pid, value } => [&pid.to_be_bytes()[..], &[*value]].concat(),
            Self::Restart => Vec::new(),
        }
    }

    /// A step of any kind; it takes of these what it has a place for.
    pub fn any(rng: &mut Rng, request: [u8; MESSAGE], pid: u32, pc: u32) -> Self {
        match rng.below(5) {
            0 => Self::Request(request),
            1 => Self::Trap { pid, block: block(rng, pc) },
            2 => Self::Schedule { pid, block: block(rng, pc) },
            3 => Self::State { pid, value: rng.byte() },
            _ => Self::Restart,
        }
    }
}

/// A type byte, a number and what follows, zero padded.
pub fn ten(kind: u8, number: u32, rest: &[u8]) -> [u8; MESSAGE] {
    let mut bytes = [0; MESSAGE];
    bytes[0] = kind;
    bytes[1..5].copy_from_slice(&number.to_be_bytes());
    bytes[5..5 + rest.len()].copy_from_slice(rest);
    bytes
}

/// A saved block with this pc.
pub fn block(rng: &mut Rng, pc: u32) -> [u8; BLOCK] {
    let mut bytes = [0; BLOCK];
    rng.fill(&mut bytes);
    bytes[PC..].copy_from_slice(&pc.to_be_bytes());
    bytes
}
