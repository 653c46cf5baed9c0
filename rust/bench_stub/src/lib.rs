//! The stub in plain Rust that `rust/bench` times beside the proved one: the same rules over a record
//! of the same shape, small entries and one pool of 128 places beside them, written for speed.
//!
//! It is no independent opinion on the rules; that is `rust/reference`, and the tests hold this stub
//! to it. Flags, letters and the current process have types here, so that of a spoiled record less
//! is left to test than of one that is plain numbers.

#![forbid(unsafe_code)]

mod condition;
mod event;
mod fit;
pub mod patch;
mod record;
mod request;
mod text;
mod window;

pub use condition::Element;
pub use event::Verdict;
pub use record::{Draft, Entry, Process, Refusal, Stub};
pub use text::{Replied, TEXT};

/// The bytes of a message, of a request and of a reply.
pub const MESSAGE: usize = 10;
/// The bytes of one process in the register area.
pub const BLOCK: usize = 136;
/// Where pc stands in a block.
pub const PC: usize = 132;
/// c.ebreak as it stands in memory.
pub const TRAP: [u8; 2] = [0x02, 0x90];
/// The processes that a record has room for.
pub const PROCESSES: usize = 4;
/// The breakpoints that a record has room for.
pub const ENTRIES: usize = 8;
/// The elements that one condition may have.
pub const ELEMENTS: usize = 64;
/// The elements that all conditions together may have.
pub const PLACES: usize = 128;
/// The state byte of a process that may run.
pub const READY: u8 = 2;
/// The state byte of a process that the debugger holds.
pub const STOPPED: u8 = 8;

/// Four bytes, high-order first.
#[inline(always)]
fn word(bytes: &[u8], at: usize) -> u32 {
    u32::from_be_bytes([bytes[at], bytes[at + 1], bytes[at + 2], bytes[at + 3]])
}
