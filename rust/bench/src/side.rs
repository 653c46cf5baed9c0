//! What the benchmark asks of a stub, so that the proved one and the Rust one get the same work.

use reference::{BLOCK, LONGEST_TEXT, MESSAGE, PC};
use std::ops::Range;

/// The address of every window.
pub const BASE: u32 = 4_096;
/// Pids and Proc addresses: as many as a record can have, so that the tests of the record are long.
pub const PROCESSES: [(u32, u32); 4] =
    [(5, 0x8000_1000), (7, 0x8000_2000), (9, 0x8000_3000), (11, 0x8000_4000)];
/// The process that the timed steps are about: the last one listed, so the last one found.
pub const LAST: usize = PROCESSES.len() - 1;

/// The protected stretch of a window: its last word, which no case writes but to be refused.
#[inline(always)]
pub fn protected(window: u32) -> Range<u64> {
    let end = u64::from(BASE) + u64::from(window);
    end - 4..end
}

pub type Request = [u8; MESSAGE];

/// What a trap or schedule event brings.
pub struct Event {
    pub pid: u32,
    pub block: [u8; BLOCK],
}

impl Event {
    /// The last process, at this pc.
    pub fn at(pc: u32) -> Self {
        let mut block = [0xab; BLOCK];
        block[PC..].copy_from_slice(&pc.to_be_bytes());
        Self { pid: PROCESSES[LAST].0, block }
    }
}

/// The buffers that a step is lent: on the heap, made once for each case and side.
pub struct Lent {
    pub memory: Vec<u8>,
    pub registers: Vec<u8>,
    pub reply: Vec<u8>,
    /// The reply buffer of a text step.
    pub text: Vec<u8>,
    /// The bytes of memory that the timed step changes, as they stood before it.
    pub undo: Vec<(usize, u8)>,
}

impl Lent {
    /// The byte at B + i is i, as in the worked set.
    pub fn new(window: u32) -> Self {
        Self {
            memory: (0..window).map(|i| i as u8).collect(),
            registers: vec![0; PROCESSES.len() * BLOCK],
            reply: vec![0; MESSAGE],
            text: vec![0; LONGEST_TEXT],
            undo: Vec::new(),
        }
    }

    /// Puts back the bytes that the timed step changes, and no others: the window may be large.
    pub fn put_back(&mut self) {
        for &(at, byte) in &self.undo {
            self.memory[at] = byte;
        }
    }
}

/// A stub with its record and what is lent to it. A step answers as the C interface does: the
/// number in the lowest byte, then the three bytes of the answer.
pub trait Side {
    /// A record not set up yet, for a window of this size.
    fn new(window: u32) -> Self;
    fn lent(&self) -> &Lent;
    fn lent_mut(&mut self) -> &mut Lent;

    fn setup(&mut self) -> u32;
    fn request(&mut self, request: &Request) -> u32;
    fn text(&mut self, request: &[u8]) -> u32;
    fn trap(&mut self, event: &Event) -> u32;
    fn schedule(&mut self, event: &Event) -> u32;
    fn state(&mut self, pid: u32, value: u8) -> u32;
    fn restart(&mut self) -> u32;

    /// Makes the last process Ready by one store, past the stub.
    fn set_ready(&mut self);
    /// Makes a pid current past the stub, listed or not.
    fn select(&mut self, pid: u32);
    /// Keeps the record as the image.
    fn keep(&mut self);
    /// Copies the image to the record and puts memory's changed bytes back.
    fn restore(&mut self);
}
