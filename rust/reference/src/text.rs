//! The packets of the text dialect: document 02, Three, and source document 004.

/// The bytes of the longest text, which a buffer must have.
pub const LONGEST_TEXT: usize = 34;

/// `PID REQUEST ADDR DATA`, or the reply's `PID REQUEST ERRFLG RESPONSE`.
#[derive(Debug, Clone, Copy, Default, PartialEq, Eq)]
pub struct TextPacket {
    pub pid: u32,
    pub letter: u8,
    /// ADDR or ERRFLG.
    pub third: u32,
    /// DATA or RESPONSE.
    pub fourth: u32,
}

/// Why a packet was not written or read.
#[derive(Debug, Clone, Copy, PartialEq, Eq)]
pub enum NotText {
    /// Number 10: no such packet.
    NoPacket,
    /// Number 11: the buffer is under 34 bytes.
    Buffer,
}

impl NotText {
    pub fn number(self) -> u8 {
        match self {
            Self::NoPacket => 10,
            Self::Buffer => 11,
        }
    }
}

fn is_letter(byte: u8) -> bool {
    (0x21..=0x7e).contains(&byte)
}

/// Writes the text to the front of the buffer and says how long it is.
pub fn write_text(packet: TextPacket, buffer: &mut [u8]) -> Result<usize, NotText> {
    if buffer.len() < LONGEST_TEXT {
        return Err(NotText::Buffer);
    }
    if !is_letter(packet.letter) {
        return Err(NotText::NoPacket);
    }
    let TextPacket { pid, letter, third, fourth } = packet;
    let text = format!("{pid:#x} {} {third:#x} {fourth:#x}", char::from(letter));
    buffer[..text.len()].copy_from_slice(text.as_bytes());
    Ok(text.len())
}

/// "0x and lower-case hex without leading zeros, at most 32 bits".
fn number(field: &[u8]) -> Option<u32> {
    let digits = field.strip_prefix(b"0x")?;
    let lower = digits.iter().all(|digit| matches!(digit, b'0'..=b'9' | b'a'..=b'f'));
    let leading = digits.len() > 1 && digits[0] == b'0';
    if !lower || leading {
        return None;
    }
    u32::from_str_radix(std::str::from_utf8(digits).ok()?, 16).ok()
}

fn four_fields(bytes: &[u8]) -> Option<TextPacket> {
    let fields: Vec<&[u8]> = bytes.split(|&byte| byte == b' ').collect();
    let [pid, letter, third, fourth] = fields[..] else { return None };
    let &[letter] = letter else { return None };
    let packet =
        TextPacket { pid: number(pid)?, letter, third: number(third)?, fourth: number(fourth)? };
    is_letter(letter).then_some(packet)
}

/// Reads the packet whose text these bytes are.
pub fn read_text(bytes: &[u8]) -> Result<TextPacket, NotText> {
    four_fields(bytes).ok_or(NotText::NoPacket)
}
