//! What differs between the sides, in words and in hex.

use crate::op::Hex;
use crate::pair::{Answer, Buffers};
use std::fmt;

/// What differs, and what both sides have then.
#[derive(Debug, Clone, PartialEq, Eq)]
pub struct Difference {
    pub what: String,
    pub proved: Vec<String>,
    pub independent: Vec<String>,
}

impl fmt::Display for Difference {
    fn fmt(&self, out: &mut fmt::Formatter<'_>) -> fmt::Result {
        writeln!(out, "{}", self.what)?;
        for (side, lines) in [("proved", &self.proved), ("independent", &self.independent)] {
            for line in lines {
                writeln!(out, "  {side:<11}  {line}")?;
            }
        }
        Ok(())
    }
}

/// What one side has; of buffers the part around the first byte that differs from the other's.
pub fn lines(
    answer: Option<&Answer>,
    record: String,
    own: &Buffers,
    other: &Buffers,
) -> Vec<String> {
    let mut lines = Vec::new();
    if let Some(Answer { result: [number, answer @ ..], reply }) = answer {
        lines.push(format!("number {number}, answer {}, reply {}", Hex(answer), Hex(reply)));
    }
    lines.push(record);
    lines.push(format!("memory {}", part(&own.memory, &other.memory)));
    lines.push(format!("registers {}", part(&own.registers, &other.registers)));
    lines
}

fn part(own: &[u8], other: &[u8]) -> String {
    let first = own.iter().zip(other).position(|(a, b)| a != b).unwrap_or(0);
    let from = first.saturating_sub(32);
    let part = &own[from..own.len().min(from + 96)];
    format!("of {} bytes, from {from:#x}: {}", own.len(), Hex(part))
}
