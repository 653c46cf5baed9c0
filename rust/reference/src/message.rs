//! The ten-byte messages, for the host's side too. Neither writer nor reader needs a record.

use crate::event::exact;
use crate::record::Refusal;
use crate::{word, MESSAGE};

#[derive(Debug, Clone, Copy, PartialEq, Eq)]
pub enum Reason {
    Reset,
    Count,
    Unk,
    Inval,
    Pid,
    Unsup,
    Notstop,
}

impl Reason {
    pub const ALL: [Self; 7] =
        [Self::Reset, Self::Count, Self::Unk, Self::Inval, Self::Pid, Self::Unsup, Self::Notstop];

    /// The text, zero padded.
    pub fn text(self) -> [u8; 9] {
        *match self {
            Self::Reset => b"reset\0\0\0\0",
            Self::Count => b"count\0\0\0\0",
            Self::Unk => b"unk\0\0\0\0\0\0",
            Self::Inval => b"inval\0\0\0\0",
            Self::Pid => b"pid\0\0\0\0\0\0",
            Self::Unsup => b"unsup\0\0\0\0",
            Self::Notstop => b"notstop\0\0",
        }
    }
}

/// The names of states 0 to 9, cut to nine bytes, zero padded.
const STATES: [&[u8; 9]; 10] = [
    b"Dead\0\0\0\0\0",
    b"Moribund\0",
    b"Ready\0\0\0\0",
    b"Scheding\0",
    b"Running\0\0",
    b"Queueing\0",
    b"Wakeme\0\0\0",
    b"Broken\0\0\0",
    b"Stopped\0\0",
    b"Rendezvou",
];

const DIGITS: &[u8; 16] = b"0123456789abcdef";

/// The digit of the lowest four bits.
fn digit(value: u32) -> u8 {
    DIGITS[(value & 15) as usize]
}

/// The text of a state byte: a name, or lower-case hex without a leading zero.
pub fn state_text(state: u8) -> [u8; 9] {
    if let Some(name) = STATES.get(usize::from(state)) {
        return **name;
    }
    let (high, low) = (digit(u32::from(state) >> 4), digit(u32::from(state)));
    let mut text = [0; 9];
    if state < 16 {
        text[0] = low;
    } else {
        text[..2].copy_from_slice(&[high, low]);
    }
    text
}

/// A served T-message or a reply. The fields can also hold what is no message: a count too high,
/// data beyond n, a letter that is none, a val where it is unused.
#[derive(Debug, Clone, Copy, PartialEq, Eq)]
pub enum Message {
    Tmget { address: u32, n: u8 },
    Tmput { address: u32, n: u8, data: [u8; 4] },
    Tproc(u32),
    Tstatus(u32),
    Trnote(u32),
    Tstop(u32),
    Tstart(u32),
    Tcondbreak { val: u32, letter: u8 },
    Rerr(Reason),
    Rmget([u8; 9]),
    Rmput,
    Rproc(u32),
    Rstatus(u8),
    Rrnote,
    Rstop,
    Rstart,
    Rcondbreak,
}

impl Message {
    /// Whether the numbers pass the count, unused-byte and op rules.
    pub fn passes(&self) -> bool {
        match *self {
            Self::Tmget { n, .. } => n <= 9,
            Self::Tmput { n, data, .. } => {
                n <= 4 && data.iter().skip(usize::from(n)).all(|&byte| byte == 0)
            }
            Self::Tcondbreak { val, letter } => match letter {
                b'n' | b'k' | b'p' | b'b' | b'd' => true,
                b'*' | b'&' | b'=' | b'!' | b'a' | b'o' => val == 0,
                _ => false,
            },
            _ => true,
        }
    }

    /// Type, then nine; what the fields say, message or not.
    pub(crate) fn bytes(&self) -> [u8; MESSAGE] {
        match *self {
            Self::Rerr(reason) => ten(1, &reason.text()),
            Self::Tmget { address, n } => counted(2, address, n, [0; 4]),
            Self::Rmget(data) => ten(3, &data),
            Self::Tmput { address, n, data } => counted(4, address, n, data),
            Self::Rmput => ten(5, &[]),
            Self::Tproc(pid) => ten(6, &pid.to_be_bytes()),
            Self::Rproc(address) => ten(7, &hex(address)),
            Self::Tstatus(pid) => ten(8, &pid.to_be_bytes()),
            Self::Rstatus(state) => ten(9, &state_text(state)),
            Self::Trnote(pid) => ten(10, &pid.to_be_bytes()),
            Self::Rrnote => ten(11, &[]),
            Self::Tstop(pid) => ten(12, &pid.to_be_bytes()),
            Self::Rstop => ten(13, &[]),
            Self::Tstart(pid) => ten(14, &pid.to_be_bytes()),
            Self::Rstart => ten(15, &[]),
            Self::Tcondbreak { val, letter } => counted(16, val, letter, [0; 4]),
            Self::Rcondbreak => ten(17, &[]),
        }
    }
}

/// A type and at most nine bytes, zero padded.
fn ten(kind: u8, data: &[u8]) -> [u8; MESSAGE] {
    let mut bytes = [0; MESSAGE];
    bytes[0] = kind;
    for (byte, &value) in bytes[1..].iter_mut().zip(data) {
        *byte = value;
    }
    bytes
}

/// A type, a number of four bytes, one byte, and four more.
fn counted(kind: u8, number: u32, one: u8, data: [u8; 4]) -> [u8; MESSAGE] {
    let [a, b, c, d] = number.to_be_bytes();
    let [w, x, y, z] = data;
    [kind, a, b, c, d, one, w, x, y, z]
}

/// Eight lower-case hex digits.
fn hex(address: u32) -> [u8; 8] {
    [28, 24, 20, 16, 12, 8, 4, 0].map(|shift| digit(address >> shift))
}

/// Writes a message's ten bytes; number 2, then 7, changes nothing.
pub fn write(message: &Message, out: &mut [u8]) -> Result<(), Refusal> {
    exact::<MESSAGE>(out)?;
    if !message.passes() {
        return Err(Refusal::NoMessage);
    }
    out.copy_from_slice(&message.bytes());
    Ok(())
}

/// Reads exactly the bytes that some message writes, and gives that one back.
pub fn read(bytes: &[u8]) -> Result<Message, Refusal> {
    let bytes: &[u8; MESSAGE] = exact(bytes)?;
    candidate(bytes)
        .filter(|message| message.passes() && message.bytes() == *bytes)
        .ok_or(Refusal::NoMessage)
}

/// The only message that could have written these bytes.
fn candidate(bytes: &[u8; MESSAGE]) -> Option<Message> {
    let (data, number) = (&bytes[1..], word(&bytes[1..]));
    Some(match bytes[0] {
        1 => Message::Rerr(Reason::ALL.into_iter().find(|reason| reason.text() == *data)?),
        2 => Message::Tmget { address: number, n: data[4] },
        3 => Message::Rmget(data.try_into().ok()?),
        4 => Message::Tmput { address: number, n: data[4], data: data[5..].try_into().ok()? },
        5 => Message::Rmput,
        6 => Message::Tproc(number),
        7 => Message::Rproc(parsed(&data[..8])?),
        8 => Message::Tstatus(number),
        9 => Message::Rstatus(state_of(data)?),
        10 => Message::Trnote(number),
        11 => Message::Rrnote,
        12 => Message::Tstop(number),
        13 => Message::Rstop,
        14 => Message::Tstart(number),
        15 => Message::Rstart,
        16 => Message::Tcondbreak { val: number, letter: data[4] },
        17 => Message::Rcondbreak,
        _ => return None,
    })
}

/// The state byte that has this text.
fn state_of(text: &[u8]) -> Option<u8> {
    let named = STATES.iter().zip(0..).find(|(name, _)| name[..] == *text);
    if let Some((_, state)) = named {
        return Some(state);
    }
    let length = text.iter().position(|&byte| byte == 0)?;
    u8::try_from(parsed(&text[..length.min(8)])?).ok()
}

/// The number that hex digits give.
fn parsed(digits: &[u8]) -> Option<u32> {
    let value = |sum: u32, byte: &u8| Some((sum << 4) | char::from(*byte).to_digit(16)?);
    digits.iter().try_fold(0, value)
}
