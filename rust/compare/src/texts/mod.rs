//! Packets of the text dialect: random ones written into buffers of any length, and texts, whole and
//! damaged, read, on both sides.
//!
//! A case is made so that it is mostly known what must come out: the letter and the room, or the
//! damage, say which numbers there can be, and a text as it was made is read as its packet. That is a
//! third opinion, beside the two sides.

pub mod make;
mod tally;

use crate::op::Hex;
use make::{Case, Damage};
use reference::TextPacket;
use sanirvoq::ffi;
use std::fmt;
use steps::Rng;
use tally::Tally;

/// The calls under comparison: the archive's, or in tests those with a fault.
#[derive(Debug, Clone, Copy)]
pub struct Calls {
    pub write: fn(ffi::TextPacket, &mut [u8]) -> ffi::TextWritten,
    pub read: fn(&[u8]) -> ffi::TextFound,
}

/// What a call gave and left.
#[derive(Debug, Clone, PartialEq, Eq)]
enum Seen {
    Written { number: u8, filled: u32, buffer: Vec<u8> },
    Found { number: u8, packet: TextPacket },
}

/// The sides differ on this case, or both from what was made.
#[derive(Debug)]
pub struct Failure {
    pub case: Case,
    pub what: &'static str,
    proved: Seen,
    independent: Seen,
}

impl Seen {
    fn number(&self) -> u8 {
        match self {
            Self::Written { number, .. } | Self::Found { number, .. } => *number,
        }
    }
}

impl fmt::Display for Seen {
    fn fmt(&self, out: &mut fmt::Formatter<'_>) -> fmt::Result {
        match self {
            Self::Written { number, filled, buffer } => {
                write!(out, "number {number}, {filled} bytes, buffer {}", Hex(buffer))
            }
            Self::Found { number, packet } => write!(out, "number {number}, {packet:x?}"),
        }
    }
}

impl fmt::Display for Failure {
    fn fmt(&self, out: &mut fmt::Formatter<'_>) -> fmt::Result {
        match &self.case {
            Case::Write { packet, buffer, .. } => {
                writeln!(out, "writing {packet:x?} into {} bytes", buffer.len())?;
            }
            Case::Read { damage, text, .. } => {
                let shown = String::from_utf8_lossy(text);
                writeln!(out, "reading ({}) {shown:?}\n  {}", damage.name(), Hex(text))?;
            }
        }
        writeln!(out, "{}", self.what)?;
        writeln!(out, "  proved       {}\n  independent  {}", self.proved, self.independent)
    }
}

fn proved(calls: Calls, case: &Case) -> Seen {
    match case {
        Case::Write { packet, buffer, .. } => {
            let TextPacket { pid, letter, third, fourth } = *packet;
            let mut buffer = buffer.clone();
            let done = (calls.write)(ffi::TextPacket { pid, letter, third, fourth }, &mut buffer);
            Seen::Written { number: done.number, filled: done.filled, buffer }
        }
        Case::Read { text, .. } => {
            let found = (calls.read)(text);
            let ffi::TextPacket { pid, letter, third, fourth } = found.packet;
            let packet = TextPacket { pid, letter, third, fourth };
            Seen::Found { number: found.number, packet }
        }
    }
}

fn independent(case: &Case) -> Seen {
    match case {
        Case::Write { packet, buffer, .. } => {
            let mut buffer = buffer.clone();
            let (number, filled) = match reference::write_text(*packet, &mut buffer) {
                Ok(filled) => (0, filled as u32),
                Err(refused) => (refused.number(), 0),
            };
            Seen::Written { number, filled, buffer }
        }
        Case::Read { text, .. } => match reference::read_text(text) {
            Ok(packet) => Seen::Found { number: 0, packet },
            Err(refused) => Seen::Found { number: refused.number(), packet: TextPacket::default() },
        },
    }
}

/// Where the sides differ on a case, if they do.
fn differing(ours: &Seen, theirs: &Seen) -> Option<&'static str> {
    if ours.number() != theirs.number() {
        return Some("the number differs");
    }
    match (ours, theirs) {
        (Seen::Written { filled: a, .. }, Seen::Written { filled: b, .. }) if a != b => {
            Some("the count of bytes differs")
        }
        (Seen::Written { buffer: a, .. }, Seen::Written { buffer: b, .. }) if a != b => {
            Some("the buffer differs")
        }
        (Seen::Found { packet: a, .. }, Seen::Found { packet: b, .. }) if a != b => {
            Some("the packet differs")
        }
        _ => None,
    }
}

/// Where both sides differ from what was made, if they do.
fn not_made(case: &Case, seen: &Seen) -> Option<&'static str> {
    let number = seen.number();
    let possible = match case {
        Case::Write { letter, room, .. } => {
            number
                == if room.is_short() {
                    11
                } else if letter.in_range() {
                    0
                } else {
                    10
                }
        }
        Case::Read { damage, .. } => damage.can_have(number),
    };
    if !possible {
        return Some("the number is none that such a call has");
    }
    match (case, seen) {
        (Case::Read { damage: Damage::None, packet: made, .. }, Seen::Found { packet, .. })
            if packet != made =>
        {
            Some("the packet is not the one that was made")
        }
        _ => None,
    }
}

/// Runs so many cases on both sides. A case is short as it is made, so none is made shorter.
pub fn run(calls: Calls, seed: u64, cases: u64) -> Result<Tally, Box<Failure>> {
    let mut rng = Rng(seed);
    let mut tally = Tally::default();
    for _ in 0..cases {
        let case = Case::new(&mut rng);
        let (ours, theirs) = (proved(calls, &case), independent(&case));
        if let Some(what) = differing(&ours, &theirs).or_else(|| not_made(&case, &theirs)) {
            return Err(Box::new(Failure { case, what, proved: ours, independent: theirs }));
        }
        tally.count(&case, ours.number());
    }
    Ok(tally)
}
