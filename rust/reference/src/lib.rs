//! An independent reference of the debug stub that document 01 describes, with requests Two (a
//! breakpoint survives a continue), Three (the text dialect), Five (a protected stretch) and Seven (all
//! elements share 128 places) of 02, and of the calls that document 02 adds: image differences (One),
//! text packets, frames (Nine) and patches (Twelve).
//!
//! It is written from the papers alone and shares nothing with the product. The stub lives in a
//! [`Stub`]; memory and the register area are lent to every step. A step is refused by a
//! [`Refusal`], whose [`number`](Refusal::number) is that of 01's table; number 0 is `Ok`.
//! A [`Book`] is the book of demand 3, kept beside a stub and knowing nothing of it; [`Places`]
//! counts from the same history how many places are held.

#![forbid(unsafe_code)]

mod book;
mod condition;
mod event;
pub mod frame;
mod image;
mod list;
mod message;
pub mod patch;
mod places;
mod program;
mod record;
mod request;
mod text;
mod text_step;
mod window;

pub use book::{Book, Claim, Condition, Evaluation, Planted};
pub use condition::{depth, Element};
pub use event::Verdict;
pub use image::{differences, NotCompared, Run, LONGEST_IMAGE};
pub use list::List;
pub use message::{read, state_text, write, Message, Reason};
pub use places::Places;
pub use program::{body_length, Output, Session};
pub use record::{fit, Breakpoint, Draft, Process, Protected, Refusal, Stub};
pub use text::{read_text, write_text, NotText, TextPacket, LONGEST_TEXT};
pub use text_step::{Errno, NotServed, TextServed};

/// The bytes of a message, of a request and of a reply.
pub const MESSAGE: usize = 10;
/// The bytes of one process in the register area: 34 words.
pub const BLOCK: usize = 136;
/// Where pc stands in a block.
pub const PC: usize = 132;
/// c.ebreak as it stands in memory.
pub const TRAP: [u8; 2] = [0x02, 0x90];
/// The breakpoints that a table has room for.
pub const ENTRIES: usize = 8;
/// The elements that one condition may have.
pub const ELEMENTS: usize = 64;
/// The elements that all conditions together may have, the one in hand among them.
pub const PLACES: usize = 128;
/// The processes that a record has room for.
pub const PROCESSES: usize = 4;
/// The highest id of a breakpoint.
pub const LAST_ID: u32 = 255;
/// The state byte of a process that may run.
pub const READY: u8 = 2;
/// The state byte of a process that the debugger holds.
pub const STOPPED: u8 = 8;

/// Four bytes, high-order first. Fewer bytes give the number that those are.
fn word(bytes: &[u8]) -> u32 {
    bytes.iter().take(4).fold(0, |sum, &byte| (sum << 8) | u32::from(byte))
}
