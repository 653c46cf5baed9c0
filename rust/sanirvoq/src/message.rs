//! The ten-byte messages, for the host's side too.

use crate::{Refusal, MESSAGE};
use core::fmt;
use sanirvoq_sys::call;
use sanirvoq_sys::ffi::Fields;

/// Why a request is answered by Rerr.
#[derive(Debug, Clone, Copy, PartialEq, Eq, Hash)]
#[non_exhaustive]
pub enum Reason {
    /// The session was begun anew.
    Reset,
    /// Too many bytes, elements or breakpoints.
    Count,
    /// An unknown type.
    Unk,
    /// A value that is not allowed.
    Inval,
    /// An unlisted pid, or no current process.
    Pid,
    /// A type that is not served, or a protected byte that would be written.
    Unsup,
    /// The process is not Stopped.
    Notstop,
    /// A reason that this edition has no name for, by its code in the archive.
    Other(u8),
}

impl Reason {
    /// All that have a name, in the order of their codes in the archive.
    pub const ALL: [Self; 7] =
        [Self::Reset, Self::Count, Self::Unk, Self::Inval, Self::Pid, Self::Unsup, Self::Notstop];

    /// The code in the archive's [`Fields`].
    #[must_use]
    pub fn code(self) -> u8 {
        match self {
            Self::Reset => 0,
            Self::Count => 1,
            Self::Unk => 2,
            Self::Inval => 3,
            Self::Pid => 4,
            Self::Unsup => 5,
            Self::Notstop => 6,
            Self::Other(code) => code,
        }
    }

    fn of(code: u8) -> Self {
        Self::ALL.into_iter().find(|reason| reason.code() == code).unwrap_or(Self::Other(code))
    }
}

impl fmt::Display for Reason {
    fn fmt(&self, f: &mut fmt::Formatter<'_>) -> fmt::Result {
        f.write_str(match self {
            Self::Reset => "reset",
            Self::Count => "count",
            Self::Unk => "unk",
            Self::Inval => "inval",
            Self::Pid => "pid",
            Self::Unsup => "unsup",
            Self::Notstop => "notstop",
            Self::Other(code) => return write!(f, "reason {code}"),
        })
    }
}

/// A served T-message or a reply. It is displayed as in `docs/PROTOCOL.md`: its name and its fields,
/// addresses in hex, pids and ids in decimal. The fields of a T-message can also hold what is no message: a
/// count too high, data beyond `n`, a letter that is none, a `val` where it is unused.
#[derive(Debug, Clone, Copy, PartialEq, Eq, Hash)]
#[non_exhaustive]
pub enum Message {
    /// Reads `n` bytes, 9 at most.
    Tmget {
        /// Where from.
        addr: u32,
        /// How many.
        n: u8,
    },
    /// Writes `n` bytes, 4 at most.
    Tmput {
        /// Where to.
        addr: u32,
        /// How many.
        n: u8,
        /// The bytes, then zeros.
        data: [u8; 4],
    },
    /// Makes the process of this pid current.
    Tproc(u32),
    /// Asks for the state of the process of this pid.
    Tstatus(u32),
    /// Asks for the notes of the process of this pid.
    Trnote(u32),
    /// Stops the process of this pid when it is next to run.
    Tstop(u32),
    /// Starts the process of this pid.
    Tstart(u32),
    /// Builds a condition, or sets or removes a breakpoint.
    Tcondbreak {
        /// The value of the letters that have one, else 0.
        val: u32,
        /// The letter.
        op: u8,
    },
    /// The request is refused.
    Rerr(Reason),
    /// Nine bytes read.
    Rmget([u8; 9]),
    /// Written.
    Rmput,
    /// The Proc address of the process that is current now.
    Rproc(u32),
    /// The state byte of a process.
    Rstatus(u8),
    /// No notes.
    Rrnote,
    /// Marked, or Stopped already.
    Rstop,
    /// Started.
    Rstart,
    /// Taken.
    Rcondbreak,
    /// A type that this edition has no name for, as the archive has it.
    Other(Fields),
}

impl Message {
    /// Its ten bytes. Refused with [`Refusal::NoMessage`].
    pub fn encode(&self) -> Result<[u8; MESSAGE], Refusal> {
        let mut bytes = [0; MESSAGE];
        self.encode_to(&mut bytes).map(|()| bytes)
    }

    /// Writes its ten bytes to a buffer. Refused with [`Refusal::Size`] where the buffer is not ten
    /// bytes, then [`Refusal::NoMessage`]; the buffer is as it was then.
    pub fn encode_to(&self, buffer: &mut [u8]) -> Result<(), Refusal> {
        Refusal::check(call::message_encode(self.fields(), buffer))
    }

    /// Reads exactly the bytes that some message has, and gives that one. Refused with
    /// [`Refusal::Size`] where there are not ten, then [`Refusal::NoMessage`].
    pub fn decode(bytes: &[u8]) -> Result<Self, Refusal> {
        let found = call::message_decode(bytes);
        Refusal::check(found.number)?;
        Ok(Self::of(&found.fields))
    }

    /// The archive's form of it: the type byte and the fields that the type uses.
    fn fields(&self) -> Fields {
        let of = |kind, value| Fields { kind, value, ..Fields::default() };
        match *self {
            Self::Rerr(reason) => Fields { code: reason.code(), ..of(1, 0) },
            Self::Tmget { addr, n } => Fields { n, ..of(2, addr) },
            Self::Rmget(bytes) => Fields { bytes, ..of(3, 0) },
            Self::Tmput { addr, n, data: [a, b, c, d] } => {
                Fields { n, bytes: [a, b, c, d, 0, 0, 0, 0, 0], ..of(4, addr) }
            }
            Self::Rmput => of(5, 0),
            Self::Tproc(pid) => of(6, pid),
            Self::Rproc(address) => of(7, address),
            Self::Tstatus(pid) => of(8, pid),
            Self::Rstatus(state) => Fields { code: state, ..of(9, 0) },
            Self::Trnote(pid) => of(10, pid),
            Self::Rrnote => of(11, 0),
            Self::Tstop(pid) => of(12, pid),
            Self::Rstop => of(13, 0),
            Self::Tstart(pid) => of(14, pid),
            Self::Rstart => of(15, 0),
            Self::Tcondbreak { val, op } => Fields { op, ..of(16, val) },
            Self::Rcondbreak => of(17, 0),
            Self::Other(fields) => fields,
        }
    }

    /// The message of the fields that an accepted reading gives.
    fn of(fields: &Fields) -> Self {
        let Fields { kind, n, op, code, value, bytes } = *fields;
        let [a, b, c, d, ..] = bytes;
        match kind {
            1 => Self::Rerr(Reason::of(code)),
            2 => Self::Tmget { addr: value, n },
            3 => Self::Rmget(bytes),
            4 => Self::Tmput { addr: value, n, data: [a, b, c, d] },
            5 => Self::Rmput,
            6 => Self::Tproc(value),
            7 => Self::Rproc(value),
            8 => Self::Tstatus(value),
            9 => Self::Rstatus(code),
            10 => Self::Trnote(value),
            11 => Self::Rrnote,
            12 => Self::Tstop(value),
            13 => Self::Rstop,
            14 => Self::Tstart(value),
            15 => Self::Rstart,
            16 => Self::Tcondbreak { val: value, op },
            17 => Self::Rcondbreak,
            _ => Self::Other(*fields),
        }
    }
}

impl TryFrom<[u8; MESSAGE]> for Message {
    type Error = Refusal;

    /// The message of ten bytes, as [`Message::decode`] reads them.
    fn try_from(bytes: [u8; MESSAGE]) -> Result<Self, Refusal> {
        Self::decode(&bytes)
    }
}

impl TryFrom<Message> for [u8; MESSAGE] {
    type Error = Refusal;

    /// The ten bytes of a message, as [`Message::encode`] writes them.
    fn try_from(message: Message) -> Result<Self, Refusal> {
        message.encode()
    }
}

impl fmt::Display for Message {
    fn fmt(&self, f: &mut fmt::Formatter<'_>) -> fmt::Result {
        match *self {
            Self::Tmget { addr, n } => write!(f, "Tmget {addr:#x} n {n}"),
            Self::Tmput { addr, n, data } => {
                write!(f, "Tmput {addr:#x} n {n}")?;
                hex(f, &data[..usize::from(n).min(data.len())])
            }
            Self::Tproc(pid) => write!(f, "Tproc {pid}"),
            Self::Tstatus(pid) => write!(f, "Tstatus {pid}"),
            Self::Trnote(pid) => write!(f, "Trnote {pid}"),
            Self::Tstop(pid) => write!(f, "Tstop {pid}"),
            Self::Tstart(pid) => write!(f, "Tstart {pid}"),
            Self::Tcondbreak { val, op } => {
                write!(f, "Tcondbreak {}", op.escape_ascii())?;
                match op {
                    b'n' | b'k' | b'd' => write!(f, " {val}"),
                    b'*' | b'&' | b'=' | b'!' | b'a' | b'o' if val == 0 => Ok(()),
                    _ => write!(f, " {val:#x}"),
                }
            }
            Self::Rerr(reason) => write!(f, "Rerr {reason}"),
            Self::Rmget(bytes) => {
                f.write_str("Rmget")?;
                hex(f, &bytes)
            }
            Self::Rmput => f.write_str("Rmput"),
            Self::Rproc(address) => write!(f, "Rproc {address:08x}"),
            Self::Rstatus(state) => match STATES.get(usize::from(state)) {
                Some(name) => write!(f, "Rstatus {name}"),
                None => write!(f, "Rstatus {state:x}"),
            },
            Self::Rrnote => f.write_str("Rrnote"),
            Self::Rstop => f.write_str("Rstop"),
            Self::Rstart => f.write_str("Rstart"),
            Self::Rcondbreak => f.write_str("Rcondbreak"),
            Self::Other(fields) => write!(f, "type {}", fields.kind),
        }
    }
}

/// The names of states 0 to 9, as the line has them.
const STATES: [&str; 10] = [
    "Dead",
    "Moribund",
    "Ready",
    "Scheding",
    "Running",
    "Queueing",
    "Wakeme",
    "Broken",
    "Stopped",
    "Rendezvou",
];

fn hex(f: &mut fmt::Formatter<'_>, bytes: &[u8]) -> fmt::Result {
    bytes.iter().try_for_each(|byte| write!(f, " {byte:02x}"))
}

#[cfg(test)]
mod tests {
    extern crate std;
    use super::*;
    use std::string::ToString;

    /// One message of every type, with the type byte that document 01 gives it.
    const TYPES: [(u8, Message); 17] = [
        (1, Message::Rerr(Reason::Notstop)),
        (2, Message::Tmget { addr: 0x1004, n: 4 }),
        (3, Message::Rmget([1, 2, 3, 4, 5, 6, 7, 8, 9])),
        (4, Message::Tmput { addr: 0x1009, n: 4, data: [1, 2, 3, 4] }),
        (5, Message::Rmput),
        (6, Message::Tproc(5)),
        (7, Message::Rproc(0x8000_1000)),
        (8, Message::Tstatus(5)),
        (9, Message::Rstatus(12)),
        (10, Message::Trnote(5)),
        (11, Message::Rrnote),
        (12, Message::Tstop(5)),
        (13, Message::Rstop),
        (14, Message::Tstart(5)),
        (15, Message::Rstart),
        (16, Message::Tcondbreak { val: 7, op: b'k' }),
        (17, Message::Rcondbreak),
    ];

    #[test]
    fn fields_keep_the_message() {
        for (kind, message) in TYPES {
            assert_eq!(message.fields().kind, kind);
            assert_eq!(Message::of(&message.fields()), message);
        }
        for (code, reason) in (0..).zip(Reason::ALL) {
            assert_eq!(Message::Rerr(reason).fields().code, code);
            assert_eq!(Reason::of(code), reason);
        }
    }

    #[test]
    fn what_a_later_edition_says_is_kept() {
        for code in 0..=255 {
            assert_eq!(Reason::of(code).code(), code);
        }
        assert_eq!(Reason::of(7), Reason::Other(7));
        let fields = Fields { kind: 18, n: 1, op: 2, code: 3, value: 4, bytes: [5; 9] };
        assert_eq!(Message::of(&fields), Message::Other(fields));
        assert_eq!(Message::Other(fields).fields(), fields);
    }

    #[test]
    fn messages_are_shown_by_name_and_fields() {
        let shown = [
            "Rerr notstop",
            "Tmget 0x1004 n 4",
            "Rmget 01 02 03 04 05 06 07 08 09",
            "Tmput 0x1009 n 4 01 02 03 04",
            "Rmput",
            "Tproc 5",
            "Rproc 80001000",
            "Tstatus 5",
            "Rstatus c",
            "Trnote 5",
            "Rrnote",
            "Tstop 5",
            "Rstop",
            "Tstart 5",
            "Rstart",
            "Tcondbreak k 7",
            "Rcondbreak",
        ];
        for ((_, message), text) in TYPES.into_iter().zip(shown) {
            assert_eq!(message.to_string(), text);
        }
        let tmput = Message::Tmput { addr: 0x1009, n: 2, data: [0xaa, 0xbb, 0, 0] };
        assert_eq!(tmput.to_string(), "Tmput 0x1009 n 2 aa bb");
        let tmput = Message::Tmput { addr: 0, n: 9, data: [1, 2, 3, 4] };
        assert_eq!(tmput.to_string(), "Tmput 0x0 n 9 01 02 03 04", "no message");
        let of = |op, val| Message::Tcondbreak { val, op }.to_string();
        assert_eq!(of(b'b', 0x1008), "Tcondbreak b 0x1008");
        assert_eq!(of(b'a', 0), "Tcondbreak a");
        assert_eq!(of(b'a', 1), "Tcondbreak a 0x1", "no message");
        assert_eq!(of(0x1b, 1), "Tcondbreak \\x1b 0x1", "no message");
        assert_eq!(Message::Rstatus(8).to_string(), "Rstatus Stopped");
        assert_eq!(Message::Rerr(Reason::Other(9)).to_string(), "Rerr reason 9");
    }
}
