//! Requests of the text dialect over a stub, and their replies.

use crate::TextPacket;
use core::fmt;
use sanirvoq_sys::call;

/// The space that a word is read from or written to. This target has one for both, so that the two
/// differ by the request's letter alone.
#[derive(Debug, Clone, Copy, PartialEq, Eq, Hash)]
#[non_exhaustive]
pub enum Space {
    /// Letters `i` and `I`.
    Instruction,
    /// Letters `d` and `D`.
    Data,
}

/// A text request that a stub serves. Any numbers make a request; what cannot be served is answered
/// with an [`Errno`].
#[derive(Debug, Clone, Copy, PartialEq, Eq, Hash)]
#[non_exhaustive]
pub enum TextRequest {
    /// Reads the word at an address, low-order byte first, as it is without traps.
    ReadWord {
        /// Of instructions or of data.
        space: Space,
        /// A multiple of 4 with all four bytes in the window.
        address: u32,
    },
    /// Writes the word at an address; the response is the word that was there. Under a trap the data
    /// is kept with the breakpoint, and the trap stays.
    WriteWord {
        /// Of instructions or of data.
        space: Space,
        /// A multiple of 4 with all four bytes in the window.
        address: u32,
        /// The new word.
        data: u32,
    },
    /// Reads a register of the current process, which must be Stopped.
    ReadRegister {
        /// 0 to 31, 32 status, 33 pc.
        number: u32,
    },
    /// Writes a register of the current process, which must be Stopped; the response is what it held.
    WriteRegister {
        /// 1 to 31, 32 status, 33 pc.
        number: u32,
        /// The new value.
        data: u32,
    },
}

impl From<TextRequest> for TextPacket {
    /// The request as a packet, for [`TextPacket::encode`]. Its PID is 0, the only one
    /// that is served; so is DATA where the request has none.
    fn from(request: TextRequest) -> Self {
        let (letter, third, fourth) = match request {
            TextRequest::ReadWord { space: Space::Instruction, address } => (b'i', address, 0),
            TextRequest::ReadWord { space: Space::Data, address } => (b'd', address, 0),
            TextRequest::WriteWord { space: Space::Instruction, address, data } => {
                (b'I', address, data)
            }
            TextRequest::WriteWord { space: Space::Data, address, data } => (b'D', address, data),
            TextRequest::ReadRegister { number } => (b'r', number, 0),
            TextRequest::WriteRegister { number, data } => (b'R', number, data),
        };
        Self { pid: 0, letter, third, fourth }
    }
}

/// Why a text request could not be served; the numbers are those of UNIX.
#[derive(Debug, Clone, Copy, PartialEq, Eq, Hash)]
#[non_exhaustive]
pub enum Errno {
    /// The PID is not 0; or a register is named, and no process is current.
    Esrch,
    /// The word to be written has a protected byte.
    Eacces,
    /// The word is not all in the window.
    Efault,
    /// A register is named, and the current process is not Stopped.
    Ebusy,
    /// The letter is not served, the address is no multiple of 4, or the register is over 33 or is
    /// register 0 and to be written.
    Einval,
    /// A number that this edition has no name for.
    Other(u32),
}

impl Errno {
    /// All that have a name.
    pub const ALL: [Self; 5] = [Self::Esrch, Self::Eacces, Self::Efault, Self::Ebusy, Self::Einval];

    /// The number in the reply's RESPONSE.
    #[must_use]
    pub fn number(self) -> u32 {
        match self {
            Self::Esrch => 3,
            Self::Eacces => 13,
            Self::Efault => 14,
            Self::Ebusy => 16,
            Self::Einval => 22,
            Self::Other(number) => number,
        }
    }

    /// The one with this number.
    #[must_use]
    pub fn from_number(number: u32) -> Self {
        let named = Self::ALL.into_iter().find(|errno| errno.number() == number);
        named.unwrap_or(Self::Other(number))
    }
}

impl fmt::Display for Errno {
    fn fmt(&self, f: &mut fmt::Formatter<'_>) -> fmt::Result {
        f.write_str(match self {
            Self::Esrch => "no such process",
            Self::Eacces => "the word is protected",
            Self::Efault => "bad address",
            Self::Ebusy => "the process is not stopped",
            Self::Einval => "invalid argument",
            Self::Other(number) => return write!(f, "errno {number}"),
        })
    }
}

impl core::error::Error for Errno {}

/// What the reply to a text request says: the response (the word or the register, of a write what
/// was there before), or why there is none. An error means that the request changed nothing.
pub type TextReply = Result<u32, Errno>;

impl TextPacket {
    /// What the packet says as a reply of the stub, for the host's side. None where its error flag is
    /// neither 0 nor -1.
    ///
    #[cfg_attr(archive, doc = "```")]
    #[cfg_attr(not(archive), doc = "```no_run")]
    /// use sanirvoq::{Errno, TextPacket};
    ///
    /// let said = |text: &[u8]| TextPacket::decode(text).map(|packet| packet.reply());
    /// assert_eq!(said(b"0x0 i 0x0 0x7060504"), Ok(Some(Ok(0x0706_0504))));
    /// assert_eq!(said(b"0x0 c 0xffffffff 0x16"), Ok(Some(Err(Errno::Einval))));
    /// assert_eq!(said(b"0x0 i 0xff 0x16"), Ok(None));
    /// ```
    #[must_use]
    pub fn reply(&self) -> Option<TextReply> {
        match self.third {
            0 => Some(Ok(self.fourth)),
            u32::MAX => Some(Err(Errno::from_number(self.fourth))),
            _ => None,
        }
    }
}

/// A text request that was answered.
#[derive(Debug, Clone, Copy, PartialEq, Eq)]
#[must_use = "the text is the reply to the host"]
pub struct TextServed<'a> {
    text: &'a [u8],
    carried_out: bool,
}

impl<'a> TextServed<'a> {
    /// What the archive answered: the text, and 0 where it says no error.
    pub(crate) fn new(text: &'a [u8], error: u8) -> Self {
        Self { text, carried_out: error == 0 }
    }

    /// The reply's text, to be sent to the host: the part of the buffer that was filled.
    #[must_use]
    pub fn text(&self) -> &'a [u8] {
        self.text
    }

    /// Whether the request was carried out; if not, the reply says an error and nothing was changed.
    #[must_use]
    pub fn is_carried_out(&self) -> bool {
        self.carried_out
    }

    /// What the text says.
    pub fn reply(&self) -> TextReply {
        // The text is proved to be a packet's.
        let response = call::text_decode(self.text).packet.fourth;
        if self.carried_out {
            Ok(response)
        } else {
            Err(Errno::from_number(response))
        }
    }
}

#[cfg(test)]
mod tests {
    use super::*;

    #[test]
    fn errnos_are_those_of_unix_and_no_other() {
        assert_eq!(Errno::ALL.map(Errno::number), [3, 13, 14, 16, 22]);
        for number in 0..256 {
            let listed = [3, 13, 14, 16, 22].contains(&number);
            let errno = Errno::from_number(number);
            assert_eq!(errno.number(), number);
            assert_eq!(errno == Errno::Other(number), !listed);
        }
    }

    #[test]
    fn every_request_has_its_letter() {
        let letter = |request: TextRequest| TextPacket::from(request).letter;
        let (address, data, number) = (0x1004, 9, 33);
        let [i, d] = [Space::Instruction, Space::Data].map(|space| {
            let read = letter(TextRequest::ReadWord { space, address });
            (read, letter(TextRequest::WriteWord { space, address, data }))
        });
        assert_eq!((i, d), ((b'i', b'I'), (b'd', b'D')));
        let write = TextPacket { pid: 0, letter: b'R', third: 33, fourth: 9 };
        assert_eq!(TextPacket::from(TextRequest::WriteRegister { number, data }), write);
        let read = TextPacket { pid: 0, letter: b'r', third: 33, fourth: 0 };
        assert_eq!(TextPacket::from(TextRequest::ReadRegister { number }), read);
    }

    #[test]
    fn a_flag_that_is_no_flag_is_no_reply() {
        let packet = |third, fourth| TextPacket { pid: 0, letter: b'i', third, fourth };
        assert_eq!(packet(0, 16).reply(), Some(Ok(16)));
        assert_eq!(packet(u32::MAX, 16).reply(), Some(Err(Errno::Ebusy)));
        assert_eq!(packet(u32::MAX, 99).reply(), Some(Err(Errno::Other(99))));
        assert_eq!(packet(1, 16).reply(), None);
    }
}
