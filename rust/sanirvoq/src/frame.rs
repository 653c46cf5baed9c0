//! Packets against noise: a reader of the line, and framed replies. Calls that need no stub.

use core::fmt;
use sanirvoq_sys::call;
use sanirvoq_sys::ffi::{FrameAnswer, FrameReader};

/// Why a buffer or a reply was not taken.
#[derive(Debug, Clone, Copy, PartialEq, Eq, Hash)]
#[non_exhaustive]
pub enum NotFramed {
    /// The message is not ten bytes.
    Message,
    /// The body buffer is under [`FRAME_BUFFER`](crate::FRAME_BUFFER) bytes, the buffer of a reply
    /// is not of [`FRAMED_REPLY`](crate::FRAMED_REPLY), or the sequence is over 255.
    Frame,
    /// A number that this edition has no name for.
    Other(u8),
}

impl NotFramed {
    /// The number in document 01's table, which document 02 continues.
    #[must_use]
    pub fn number(self) -> u8 {
        match self {
            Self::Message => 2,
            Self::Frame => 12,
            Self::Other(number) => number,
        }
    }

    /// What a number of the archive says.
    fn check(number: u8) -> Result<(), Self> {
        match number {
            0 => Ok(()),
            2 => Err(Self::Message),
            12 => Err(Self::Frame),
            other => Err(Self::Other(other)),
        }
    }
}

impl fmt::Display for NotFramed {
    fn fmt(&self, f: &mut fmt::Formatter<'_>) -> fmt::Result {
        f.write_str(match self {
            Self::Message => "the message is not ten bytes",
            Self::Frame => "a buffer has the wrong size for a frame, or the sequence is no byte",
            Self::Other(number) => return write!(f, "refused with number {number}"),
        })
    }
}

impl core::error::Error for NotFramed {}

/// What a reader answers.
#[derive(Debug, Clone, Copy, PartialEq, Eq, Hash)]
#[non_exhaustive]
pub enum Answer {
    /// A packet: its body is the first `size` bytes of the buffer.
    Packet {
        /// The logical ID.
        id: u32,
        /// The size of the body.
        size: usize,
        /// The sequence, where the packet is a request: CVK_HDR_DATA with a body of ten bytes.
        request: Option<u8>,
    },
    /// A bad header, or a bad body under a header that is not CVK_HDR_DATA.
    BadHeader,
    /// A bad body under CVK_HDR_DATA.
    BadBody {
        /// The index of its logical ID.
        index: u8,
        /// The sequence of its logical ID.
        sequence: u8,
    },
    /// An answer that this edition has no name for, as the archive has it.
    Other(FrameAnswer),
}

fn answer(a: FrameAnswer) -> Option<Answer> {
    match a.kind {
        0 => None,
        1 => Some(Answer::Packet {
            id: a.id,
            size: usize::from(a.size),
            request: (a.request == 1).then_some(a.sequence),
        }),
        2 => Some(Answer::BadHeader),
        3 => Some(Answer::BadBody { index: a.index, sequence: a.sequence }),
        _ => Some(Answer::Other(a)),
    }
}

/// A reader with its body buffer.
#[derive(Debug)]
pub struct Frames<'a> {
    reader: FrameReader,
    buffer: &'a mut [u8],
}

impl<'a> Frames<'a> {
    /// A reader that skips to the next begin byte.
    pub fn new(buffer: &'a mut [u8]) -> Result<Self, NotFramed> {
        Self::from(call::frame_reader(), buffer)
    }

    /// A reader of any content, as one kept from before.
    pub fn from(reader: FrameReader, buffer: &'a mut [u8]) -> Result<Self, NotFramed> {
        NotFramed::check(call::frame_feed(reader, &[], buffer).number)?;
        Ok(Self { reader, buffer })
    }

    /// The reader, to be kept.
    #[must_use]
    pub fn reader(&self) -> FrameReader {
        self.reader
    }

    /// The front of the buffer: after a packet of this size, its body.
    ///
    /// # Panics
    ///
    /// Where the buffer is shorter; no packet of an [`Answer`] has a body over it.
    #[must_use]
    pub fn body(&self, size: usize) -> &[u8] {
        &self.buffer[..size]
    }

    /// Takes a piece of the line up to its first answer; the rest of the piece, and the answer.
    #[must_use]
    pub fn feed<'p>(&mut self, piece: &'p [u8]) -> (&'p [u8], Option<Answer>) {
        let fed = call::frame_feed(self.reader, piece, self.buffer);
        self.reader = fed.reader;
        (&piece[fed.taken as usize..], answer(fed.answer))
    }

    /// The answers to a piece of the line, in order, each with how many bytes of the piece it comes
    /// after. Between two answers [`Answers::body`] is the body of the last one.
    ///
    #[cfg_attr(archive, doc = "```")]
    #[cfg_attr(not(archive), doc = "```no_run")]
    /// use sanirvoq::{frame_reply, Answer, Frames, FRAMED_REPLY, FRAME_BUFFER};
    ///
    /// let mut line = [0; FRAMED_REPLY];
    /// frame_reply(7, b"0123456789", &mut line)?;
    /// let mut buffer = [0; FRAME_BUFFER];
    /// let mut frames = Frames::new(&mut buffer)?;
    /// let mut answers = frames.answers(&line);
    /// assert_eq!(
    ///     answers.next(),
    ///     Some((26, Answer::Packet { id: 0x8007, size: 10, request: Some(7) }))
    /// );
    /// assert_eq!(answers.body(10), b"0123456789");
    /// assert_eq!(answers.next(), None);
    /// # Ok::<(), sanirvoq::NotFramed>(())
    /// ```
    pub fn answers<'f, 'p>(&'f mut self, piece: &'p [u8]) -> Answers<'f, 'a, 'p> {
        Answers { frames: self, piece, at: 0 }
    }
}

/// The answers to a piece of the line.
#[derive(Debug)]
pub struct Answers<'f, 'a, 'p> {
    frames: &'f mut Frames<'a>,
    piece: &'p [u8],
    at: usize,
}

impl Answers<'_, '_, '_> {
    /// The front of the buffer: after a packet of this size, its body.
    ///
    /// # Panics
    ///
    /// Where the buffer is shorter; no packet of an [`Answer`] has a body over it.
    #[must_use]
    pub fn body(&self, size: usize) -> &[u8] {
        self.frames.body(size)
    }
}

impl Iterator for Answers<'_, '_, '_> {
    type Item = (usize, Answer);

    fn next(&mut self) -> Option<Self::Item> {
        let (rest, answer) = self.frames.feed(&self.piece[self.at..]);
        self.at = self.piece.len() - rest.len();
        answer.map(|a| (self.at, a))
    }
}

/// Frames a reply of ten bytes with the sequence of the request that it answers.
pub fn frame_reply(sequence: u32, message: &[u8], buffer: &mut [u8]) -> Result<(), NotFramed> {
    NotFramed::check(call::frame_reply(sequence, message, buffer))
}

#[cfg(test)]
mod tests {
    use super::*;

    #[test]
    fn every_number_and_kind_is_kept() {
        assert_eq!(NotFramed::check(0), Ok(()));
        for number in 1..=255 {
            assert_eq!(NotFramed::check(number).map_err(NotFramed::number), Err(number));
        }
        assert_eq!(NotFramed::check(12), Err(NotFramed::Frame));
        let later = FrameAnswer { kind: 4, id: 9, ..FrameAnswer::default() };
        assert_eq!(answer(later), Some(Answer::Other(later)));
    }
}
