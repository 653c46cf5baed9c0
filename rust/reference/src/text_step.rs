//! The text step: document 02, Three, and source document 004. A request of four fields over the
//! same record as the requests of ten bytes.

use crate::record::{Refusal, Stub};
use crate::text::{read_text, write_text, NotText, TextPacket, LONGEST_TEXT};
use crate::{word, BLOCK, STOPPED};

/// The last register: 0 to 31, status, pc.
const LAST_REGISTER: u32 = 33;
/// "ERRFLG -1 is written 0xffffffff".
const MINUS_ONE: u32 = 0xffff_ffff;

/// Why a text request was answered with ERRFLG -1.
#[derive(Debug, Clone, Copy, PartialEq, Eq)]
pub enum Errno {
    Esrch = 3,
    Eacces = 13,
    Efault = 14,
    Ebusy = 16,
    Einval = 22,
}

impl Errno {
    pub const ALL: [Self; 5] = [Self::Esrch, Self::Eacces, Self::Efault, Self::Ebusy, Self::Einval];

    pub fn number(self) -> u32 {
        self as u32
    }
}

/// Why a text step has a number that is not 0.
#[derive(Debug, Clone, Copy, PartialEq, Eq)]
pub enum NotServed {
    /// Number 2 or 3.
    Record(Refusal),
    /// Number 11 or 10.
    Text(NotText),
}

impl NotServed {
    pub fn number(self) -> u8 {
        match self {
            Self::Record(refusal) => refusal.number(),
            Self::Text(refusal) => refusal.number(),
        }
    }
}

impl From<Refusal> for NotServed {
    fn from(refusal: Refusal) -> Self {
        Self::Record(refusal)
    }
}

impl From<NotText> for NotServed {
    fn from(refusal: NotText) -> Self {
        Self::Text(refusal)
    }
}

/// A text step of number 0.
#[derive(Debug, Clone, Copy, PartialEq, Eq)]
pub struct TextServed {
    /// The response, or why ERRFLG is -1.
    pub done: Result<u32, Errno>,
    /// How many bytes of the buffer the reply fills.
    pub filled: usize,
}

impl Stub {
    /// Serves a text request. Past numbers 2, 3, 11 and 10 it always writes a reply's text to the
    /// front of the buffer. It never touches the condition in hand.
    pub fn text(
        &mut self,
        memory: &mut [u8],
        registers: &mut [u8],
        request: &[u8],
        reply: &mut [u8],
    ) -> Result<TextServed, NotServed> {
        self.enter(memory, registers)?;
        if reply.len() < LONGEST_TEXT {
            return Err(NotText::Buffer.into());
        }
        let packet = read_text(request)?;
        let done = self.text_request(memory, registers, packet);
        let (third, fourth) = match done {
            Ok(response) => (0, response),
            Err(errno) => (MINUS_ONE, errno.number()),
        };
        let filled = write_text(TextPacket { third, fourth, ..packet }, reply)?;
        Ok(TextServed { done, filled })
    }

    /// "The letter goes first, then PID". c, s and every other letter are 22.
    fn text_request(
        &mut self,
        memory: &mut [u8],
        registers: &mut [u8],
        packet: TextPacket,
    ) -> Result<u32, Errno> {
        let TextPacket { pid, letter, third, fourth } = packet;
        let (of_memory, data) = match letter {
            b'i' | b'd' => (true, None),
            b'I' | b'D' => (true, Some(fourth)),
            b'r' => (false, None),
            b'R' => (false, Some(fourth)),
            _ => return Err(Errno::Einval),
        };
        if pid != 0 {
            return Err(Errno::Esrch);
        }
        if of_memory {
            self.text_word(memory, third, data)
        } else {
            self.text_register(registers, third, data)
        }
    }

    /// The plain word at an address, low-order first; then data is written there. Alignment comes
    /// first, then the window, then for data the protected stretch.
    fn text_word(
        &mut self,
        memory: &mut [u8],
        address: u32,
        data: Option<u32>,
    ) -> Result<u32, Errno> {
        if !address.is_multiple_of(4) {
            return Err(Errno::Einval);
        }
        let mut bytes = [0; 4];
        self.read_plain(memory, address, &mut bytes).ok_or(Errno::Efault)?;
        if let Some(data) = data {
            if self.protects(address, bytes.len()) {
                return Err(Errno::Eacces);
            }
            self.write_plain(memory, address, &data.to_le_bytes()).ok_or(Errno::Efault)?;
        }
        Ok(u32::from_le_bytes(bytes))
    }

    /// What a register of the current process holds, high-order first; then data is written there.
    /// A number over 33 or a write to 0, then none current, then not Stopped.
    fn text_register(
        &self,
        registers: &mut [u8],
        number: u32,
        data: Option<u32>,
    ) -> Result<u32, Errno> {
        if number > LAST_REGISTER || (number == 0 && data.is_some()) {
            return Err(Errno::Einval);
        }
        let index = self.current.and_then(|pid| self.listed(pid)).ok_or(Errno::Esrch)?;
        if self.processes[index].state != STOPPED {
            return Err(Errno::Ebusy);
        }
        let start = BLOCK * index + 4 * number as usize;
        let held = &mut registers[start..start + 4];
        let previous = word(held);
        if let Some(data) = data {
            held.copy_from_slice(&data.to_be_bytes());
        }
        Ok(previous)
    }
}
