//! Packets of the text dialect: calls that need no stub.

use core::fmt;
use sanirvoq_sys::{call, ffi};

/// Why a text packet was not written or read.
#[derive(Debug, Clone, Copy, PartialEq, Eq, Hash)]
#[non_exhaustive]
pub enum NotText {
    /// No packet has the letter, or the bytes are no packet's text.
    NoPacket,
    /// The buffer is shorter than [`TEXT`](crate::TEXT).
    Buffer,
    /// A number that this edition has no name for.
    Other(u8),
}

impl NotText {
    /// The number in document 01's table, which document 02 continues.
    #[must_use]
    pub fn number(self) -> u8 {
        match self {
            Self::NoPacket => 10,
            Self::Buffer => 11,
            Self::Other(number) => number,
        }
    }

    /// What a number of the archive says.
    fn check(number: u8) -> Result<(), Self> {
        match number {
            0 => Ok(()),
            10 => Err(Self::NoPacket),
            11 => Err(Self::Buffer),
            other => Err(Self::Other(other)),
        }
    }
}

impl fmt::Display for NotText {
    fn fmt(&self, f: &mut fmt::Formatter<'_>) -> fmt::Result {
        f.write_str(match self {
            Self::NoPacket => "the letter or the bytes are those of no packet",
            Self::Buffer => "the buffer is shorter than the longest text",
            Self::Other(number) => return write!(f, "refused with number {number}"),
        })
    }
}

impl core::error::Error for NotText {}

/// A packet of the text dialect: `PID LETTER ADDR DATA`, or a reply's `PID LETTER ERRFLG RESPONSE`.
/// It is displayed as its text.
#[derive(Debug, Clone, Copy, Default, PartialEq, Eq, Hash)]
pub struct TextPacket {
    /// The process of a request; a reply repeats it.
    pub pid: u32,
    /// One byte, 0x21 to 0x7e.
    pub letter: u8,
    /// The address of a request, the error flag of a reply.
    pub third: u32,
    /// The data of a request, the response of a reply.
    pub fourth: u32,
}

impl TextPacket {
    /// Writes its one text to the front of the buffer and gives the part that is filled. The other
    /// places stay, and after a refusal all.
    ///
    #[cfg_attr(archive, doc = "```")]
    #[cfg_attr(not(archive), doc = "```no_run")]
    /// use sanirvoq::{TextPacket, TEXT};
    ///
    /// let mut buffer = [0; TEXT];
    /// let read = TextPacket { pid: 0, letter: b'i', third: 0x1004, fourth: 0 };
    /// assert_eq!(read.encode(&mut buffer)?, b"0x0 i 0x1004 0x0");
    /// # Ok::<(), sanirvoq::NotText>(())
    /// ```
    pub fn encode(self, buffer: &mut [u8]) -> Result<&mut [u8], NotText> {
        let done = call::text_encode(self.into(), buffer);
        NotText::check(done.number)?;
        Ok(&mut buffer[..done.filled as usize])
    }

    /// Reads the packet whose text these bytes are.
    ///
    #[cfg_attr(archive, doc = "```")]
    #[cfg_attr(not(archive), doc = "```no_run")]
    /// use sanirvoq::{NotText, TextPacket};
    ///
    /// let reply = TextPacket::decode(b"0x0 i 0x0 0x7060504")?;
    /// assert_eq!((reply.letter, reply.third, reply.fourth), (b'i', 0, 0x0706_0504));
    /// assert_eq!(TextPacket::decode(b"0x0 i 0x0 0x07060504"), Err(NotText::NoPacket));
    /// # Ok::<(), sanirvoq::NotText>(())
    /// ```
    pub fn decode(bytes: &[u8]) -> Result<Self, NotText> {
        let found = call::text_decode(bytes);
        NotText::check(found.number)?;
        Ok(found.packet.into())
    }
}

impl From<TextPacket> for ffi::TextPacket {
    fn from(TextPacket { pid, letter, third, fourth }: TextPacket) -> Self {
        Self { pid, letter, third, fourth }
    }
}

impl From<ffi::TextPacket> for TextPacket {
    fn from(ffi::TextPacket { pid, letter, third, fourth }: ffi::TextPacket) -> Self {
        Self { pid, letter, third, fourth }
    }
}

impl fmt::Display for TextPacket {
    fn fmt(&self, f: &mut fmt::Formatter<'_>) -> fmt::Result {
        let Self { pid, letter, third, fourth } = self;
        write!(f, "{pid:#x} {} {third:#x} {fourth:#x}", letter.escape_ascii())
    }
}

#[cfg(test)]
mod tests {
    extern crate std;
    use super::*;
    use std::string::ToString;

    #[test]
    fn every_number_is_kept() {
        assert_eq!(NotText::check(0), Ok(()));
        for number in 1..=255 {
            assert_eq!(NotText::check(number).map_err(NotText::number), Err(number));
        }
        assert_eq!(NotText::check(10), Err(NotText::NoPacket));
        assert_eq!(NotText::check(11), Err(NotText::Buffer));
    }

    #[test]
    fn a_packet_is_shown_as_its_text() {
        let packet = TextPacket { pid: 0, letter: b'D', third: 0x100c, fourth: u32::MAX };
        assert_eq!(packet.to_string(), "0x0 D 0x100c 0xffffffff");
    }
}
