//! Packets against noise: document 02, Nine, over the packet mode of source document 002.

/// The longest body.
pub const LONGEST_BODY: usize = 532;
/// The shortest buffer that a reader takes: a body and its checksum.
pub const SHORTEST_BUFFER: usize = LONGEST_BODY + 2;
/// The bytes of a framed reply.
pub const FRAMED_REPLY: usize = 26;

const BEGIN: u8 = 0x1d;
const END: u8 = 0x1e;

/// What a reader answers.
#[derive(Debug, Clone, Copy, PartialEq, Eq)]
pub enum Answer {
    Packet { id: u32, length: usize },
    BadHeader,
    BadBody { index: u8, sequence: u8 },
}

impl Answer {
    /// "only such a packet with a body of ten bytes is a request"
    pub fn is_request(self) -> bool {
        matches!(self, Self::Packet { id, length: 10 } if is_data(id))
    }
}

fn is_data(id: u32) -> bool {
    id >> 16 == 0 && id & 0x8000 != 0
}

/// The checksum of 002 with one more byte.
fn summed(sum: u16, byte: u8) -> u16 {
    sum.wrapping_add(u16::from(byte)).rotate_left(3)
}

/// The checksum of 002.
pub fn checksum(bytes: &[u8]) -> u16 {
    bytes.iter().fold(0xa1e8, |sum, &byte| summed(sum, byte))
}

/// Seven bits to a byte, most significant first, padded with zeros.
pub fn stuff(bytes: &[u8], out: &mut Vec<u8>) {
    let (mut bits, mut count) = (0u32, 0);
    for &byte in bytes {
        bits = bits << 8 | u32::from(byte);
        count += 8;
        while count >= 7 {
            count -= 7;
            out.push(0x80 | (bits >> count & 0x7f) as u8);
        }
    }
    if count > 0 {
        out.push(0x80 | (bits << (7 - count) & 0x7f) as u8);
    }
}

fn stuff_checked(bytes: &[u8], out: &mut Vec<u8>) {
    stuff(&[bytes, &checksum(bytes).to_le_bytes()].concat(), out);
}

/// A packet on the line, for a body of at most 65,535 bytes.
pub fn frame(id: u32, body: &[u8]) -> Vec<u8> {
    let mut line = vec![BEGIN];
    let length = body.len() as u16;
    stuff_checked(&[&id.to_le_bytes()[..], &length.to_le_bytes()].concat(), &mut line);
    if !body.is_empty() {
        stuff_checked(body, &mut line);
    }
    line.push(END);
    line
}

/// Frames a reply: number 0, or 2 or 12 with the buffer as it was.
pub fn frame_reply(sequence: u32, message: &[u8], buffer: &mut [u8]) -> u8 {
    if message.len() != 10 {
        return 2;
    }
    if buffer.len() != FRAMED_REPLY || sequence > 255 {
        return 12;
    }
    buffer.copy_from_slice(&frame(0x8000 | sequence, message));
    0
}

/// What is due.
#[derive(Debug, Clone, Copy, PartialEq, Eq)]
pub enum Due {
    Begin,
    Header,
    Body,
    End,
}

/// A reader of the line.
#[derive(Debug, Clone, Copy)]
pub struct FrameReader {
    due: Due,
    bits: u32,
    count: u32,
    header: [u8; 8],
    bytes: usize,
    sum: u16,
    id: u32,
    length: usize,
}

impl Default for FrameReader {
    fn default() -> Self {
        Self::new()
    }
}

impl FrameReader {
    pub fn new() -> Self {
        Self {
            due: Due::Begin,
            bits: 0,
            count: 0,
            header: [0; 8],
            bytes: 0,
            sum: 0,
            id: 0,
            length: 0,
        }
    }

    pub fn due(&self) -> Due {
        self.due
    }

    fn start(&mut self, due: Due) {
        (self.due, self.bits, self.count, self.bytes, self.sum) = (due, 0, 0, 0, 0xa1e8);
    }

    /// A packet is bad: its header, or its body.
    fn bad(&mut self) -> Option<Answer> {
        let in_body = self.due == Due::Body || self.due == Due::End && self.length != 0;
        self.due = Due::Begin;
        Some(if in_body && is_data(self.id) {
            Answer::BadBody { index: (self.id >> 8 & 63) as u8, sequence: self.id as u8 }
        } else {
            Answer::BadHeader
        })
    }

    /// The byte that seven more bits complete.
    #[inline(always)]
    fn seven(&mut self, byte: u8) -> Option<u8> {
        self.bits = self.bits << 7 | u32::from(byte & 0x7f);
        self.count += 7;
        (self.count >= 8).then(|| {
            self.count -= 8;
            (self.bits >> self.count) as u8
        })
    }

    fn padded(&self) -> bool {
        self.bits & ((1 << self.count) - 1) == 0
    }

    #[inline(always)]
    fn header(&mut self, byte: u8) -> Option<Answer> {
        let byte = self.seven(byte)?;
        self.header[self.bytes] = byte;
        self.bytes += 1;
        if self.bytes <= 6 {
            self.sum = summed(self.sum, byte);
        }
        if self.bytes < 8 {
            return None;
        }
        let h = self.header;
        let length = usize::from(u16::from_le_bytes([h[4], h[5]]));
        if !self.padded() || u16::from_le_bytes([h[6], h[7]]) != self.sum || length > LONGEST_BODY {
            return self.bad();
        }
        (self.id, self.length) = (u32::from_le_bytes([h[0], h[1], h[2], h[3]]), length);
        self.start(if length == 0 { Due::End } else { Due::Body });
        None
    }

    #[inline(always)]
    fn body(&mut self, byte: u8, buffer: &mut [u8]) -> Option<Answer> {
        let byte = self.seven(byte)?;
        buffer[self.bytes] = byte;
        self.bytes += 1;
        if self.bytes <= self.length {
            self.sum = summed(self.sum, byte);
        }
        if self.bytes < self.length + 2 {
            return None;
        }
        let sent = u16::from_le_bytes([buffer[self.length], buffer[self.length + 1]]);
        if !self.padded() || sent != self.sum {
            return self.bad();
        }
        self.due = Due::End;
        None
    }

    /// One byte of the line, with a buffer that is long enough.
    #[inline(always)]
    fn byte(&mut self, byte: u8, buffer: &mut [u8]) -> Option<Answer> {
        if byte == BEGIN {
            self.start(Due::Header);
            self.id = 0;
            return None;
        }
        match self.due {
            Due::Begin => None,
            Due::Header | Due::Body if byte < 0x80 => self.bad(),
            Due::Header => self.header(byte),
            Due::Body => self.body(byte, buffer),
            Due::End if byte == END => {
                self.due = Due::Begin;
                Some(Answer::Packet { id: self.id, length: self.length })
            }
            Due::End => self.bad(),
        }
    }

    /// Takes a piece up to its first answer: how many bytes, and the answer. None is number 12.
    pub fn feed(&mut self, piece: &[u8], buffer: &mut [u8]) -> Option<(usize, Option<Answer>)> {
        if buffer.len() < SHORTEST_BUFFER {
            return None;
        }
        for (at, &byte) in piece.iter().enumerate() {
            if let Some(answer) = self.byte(byte, buffer) {
                return Some((at + 1, Some(answer)));
            }
        }
        Some((piece.len(), None))
    }
}
