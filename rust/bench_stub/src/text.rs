//! The text step: a packet read, carried out and answered.

use crate::record::{Refusal, Stub};
use crate::{word, BLOCK, STOPPED};

/// The bytes of the longest text, and so the least that a reply buffer may have.
pub const TEXT: usize = 34;
/// ERRFLG of a request that failed.
const FAILED: u32 = u32::MAX;

const ESRCH: u32 = 3;
const EACCES: u32 = 13;
const EFAULT: u32 = 14;
const EBUSY: u32 = 16;
const EINVAL: u32 = 22;

/// What a text step answers beside the reply.
#[derive(Debug, Clone, Copy, PartialEq, Eq)]
pub struct Replied {
    /// ERRFLG is -1.
    pub failed: bool,
    /// How many bytes of the buffer the reply fills.
    pub filled: usize,
}

/// Four fields; the last two are a request's ADDR and DATA, or a reply's ERRFLG and RESPONSE.
struct Packet {
    pid: u32,
    letter: u8,
    third: u32,
    fourth: u32,
}

/// A number, and what follows it.
#[inline(always)]
fn number(text: &[u8]) -> Option<(u32, &[u8])> {
    let digits = text.strip_prefix(b"0x")?;
    let (mut value, mut n) = (0, 0);
    while let Some(&digit) = digits.get(n) {
        let digit = match digit {
            b'0'..=b'9' => digit - b'0',
            b'a'..=b'f' => digit - b'a' + 10,
            _ => break,
        };
        if n == 8 {
            return None;
        }
        value = value << 4 | u32::from(digit);
        n += 1;
    }
    let leading_zero = n > 1 && digits[0] == b'0';
    (n > 0 && !leading_zero).then(|| (value, &digits[n..]))
}

#[inline(always)]
fn read(text: &[u8]) -> Option<Packet> {
    let (pid, rest) = number(text)?;
    let [b' ', letter @ 0x21..=0x7e, b' ', rest @ ..] = rest else { return None };
    let (third, rest) = number(rest)?;
    let (fourth, rest) = number(rest.strip_prefix(b" ")?)?;
    rest.is_empty().then_some(Packet { pid, letter: *letter, third, fourth })
}

/// Puts a number's text at a place; answers the place after it.
#[inline(always)]
fn put(out: &mut [u8; TEXT], at: usize, value: u32) -> usize {
    let digits = (35 - (value | 1).leading_zeros() as usize) / 4;
    (out[at], out[at + 1]) = (b'0', b'x');
    for k in 0..digits {
        let digit = (value >> (4 * (digits - 1 - k))) as u8 & 15;
        out[at + 2 + k] = digit + if digit < 10 { b'0' } else { b'a' - 10 };
    }
    at + 2 + digits
}

#[inline(always)]
fn write(out: &mut [u8; TEXT], packet: &Packet) -> usize {
    let at = put(out, 0, packet.pid);
    (out[at], out[at + 1], out[at + 2]) = (b' ', packet.letter, b' ');
    let at = put(out, at + 3, packet.third);
    out[at] = b' ';
    put(out, at + 1, packet.fourth)
}

impl Stub {
    /// Serves a text request.
    pub fn text(
        &mut self,
        memory: &mut [u8],
        registers: &mut [u8],
        request: &[u8],
        reply: &mut [u8],
    ) -> Result<Replied, Refusal> {
        self.enter(memory, registers)?;
        if reply.len() < TEXT {
            return Err(Refusal::ShortText);
        }
        let packet = read(request).ok_or(Refusal::NoPacket)?;
        let done = self.carried_out(memory, registers, &packet);
        let (third, fourth) = done.map_or_else(|errno| (FAILED, errno), |value| (0, value));
        // Written apart: the bytes after the text stay.
        let mut text = [0; TEXT];
        let filled = write(&mut text, &Packet { third, fourth, ..packet });
        reply[..filled].copy_from_slice(&text[..filled]);
        Ok(Replied { failed: done.is_err(), filled })
    }

    #[inline(always)]
    fn carried_out(
        &mut self,
        memory: &mut [u8],
        registers: &mut [u8],
        packet: &Packet,
    ) -> Result<u32, u32> {
        let &Packet { pid, letter, third, fourth } = packet;
        if !matches!(letter, b'i' | b'd' | b'I' | b'D' | b'r' | b'R') {
            return Err(EINVAL);
        }
        if pid != 0 {
            return Err(ESRCH);
        }
        let data = letter.is_ascii_uppercase().then_some(fourth);
        if letter | 0x20 == b'r' {
            self.on_register(registers, third, data)
        } else {
            self.on_word(memory, third, data)
        }
    }

    #[inline(always)]
    fn on_word(&mut self, memory: &mut [u8], at: u32, data: Option<u32>) -> Result<u32, u32> {
        if !at.is_multiple_of(4) {
            return Err(EINVAL);
        }
        let previous = self.word_at(memory, at).ok_or(EFAULT)?;
        if let Some(data) = data {
            let start = (at - self.base) as usize;
            if self.protects(start, 4) {
                return Err(EACCES);
            }
            self.write_plain(memory, start, &data.to_le_bytes()).ok_or(EFAULT)?;
        }
        Ok(previous)
    }

    #[inline(always)]
    fn on_register(&self, registers: &mut [u8], at: u32, data: Option<u32>) -> Result<u32, u32> {
        if at > 33 || (at == 0 && data.is_some()) {
            return Err(EINVAL);
        }
        let index = self.current.and_then(|pid| self.listed(pid)).ok_or(ESRCH)?;
        if self.processes[index].state != STOPPED {
            return Err(EBUSY);
        }
        let start = BLOCK * index + 4 * at as usize;
        let previous = word(registers, start);
        if let Some(data) = data {
            registers[start..start + 4].copy_from_slice(&data.to_be_bytes());
        }
        Ok(previous)
    }
}
