//! The calls into the archive, over references. Each answers as the archive does, in numbers.

use crate::ffi::{
    self, Comparison, Fields, Found, FrameFed, FrameReader, Length, Planning, Record,
};
use crate::ffi::{Run, Target, TextFound, TextPacket, TextWritten, Verdict, Write};
use crate::{BLOCK, MESSAGE};
use core::slice;

/// A pointer and a length for the archive, which only reads.
#[inline]
fn shared<T>(slice: &[T]) -> (*const T, Length) {
    (slice.as_ptr(), slice.len() as Length)
}

/// A pointer and a length for the archive, which may write.
#[inline]
fn lent<T>(slice: &mut [T]) -> (*mut T, Length) {
    (slice.as_mut_ptr(), slice.len() as Length)
}

/// The archive's seven steps.
#[derive(Debug, Clone, Copy, PartialEq, Eq)]
pub enum Kind {
    /// A setup.
    Setup,
    /// A request.
    Request,
    /// A trap event.
    Trap,
    /// A schedule event.
    Schedule,
    /// A state event.
    State,
    /// A restart.
    Restart,
    /// A request of the text dialect.
    Text,
}

impl Kind {
    /// All of them.
    pub const ALL: [Self; 7] = [
        Self::Setup,
        Self::Request,
        Self::Trap,
        Self::Schedule,
        Self::State,
        Self::Restart,
        Self::Text,
    ];

    /// The name that its function ends with.
    #[must_use]
    pub fn name(self) -> &'static str {
        match self {
            Self::Setup => "setup",
            Self::Request => "request",
            Self::Trap => "trap",
            Self::Schedule => "schedule",
            Self::State => "state",
            Self::Restart => "restart",
            Self::Text => "text",
        }
    }

    /// The bytes of input that it is to be lent, where these are fixed.
    #[must_use]
    pub fn input(self) -> Option<usize> {
        match self {
            Self::Request => Some(MESSAGE),
            Self::Trap | Self::Schedule => Some(BLOCK),
            _ => None,
        }
    }

    /// The bytes of reply that it is to be lent, where these are fixed.
    #[must_use]
    pub fn reply(self) -> Option<usize> {
        matches!(self, Self::Request | Self::Restart).then_some(MESSAGE)
    }

    /// Its function; the setup has another form. Inlined, so that a call of a constant kind is a
    /// direct one.
    #[must_use]
    #[inline(always)]
    pub fn function(self) -> Option<ffi::Step> {
        match self {
            Self::Setup => None,
            Self::Request => Some(ffi::sanirvoq_step_request),
            Self::Trap => Some(ffi::sanirvoq_step_trap),
            Self::Schedule => Some(ffi::sanirvoq_step_schedule),
            Self::State => Some(ffi::sanirvoq_step_state),
            Self::Restart => Some(ffi::sanirvoq_step_restart),
            Self::Text => Some(ffi::sanirvoq_step_text),
        }
    }
}

/// What a step is lent. A step leaves what it does not use as it is.
///
/// Memory and registers are `&mut` in every step but a setup, which takes them as shared. Those that
/// change neither are proved to leave them equal, which is less than to write nothing: over a shared
/// slice even a write of the byte that is there already would be a race with other readers.
#[derive(Debug)]
pub struct Lent<'a> {
    /// The record.
    pub record: &'a mut Record,
    /// The memory of the window.
    pub memory: &'a mut [u8],
    /// The register area.
    pub registers: &'a mut [u8],
    /// The first address of a setup's protected stretch.
    pub from: u64,
    /// The first address behind it.
    pub to: u64,
    /// The process of an event.
    pub pid: u32,
    /// The value of a state event.
    pub value: u8,
    /// A request, of ten bytes or of text, or the saved block of an event.
    pub input: &'a [u8],
    /// Where a request or a restart is answered.
    pub reply: &'a mut [u8],
}

impl Lent<'_> {
    /// The step's result: its number in the lowest byte, then the three bytes of its answer.
    #[must_use]
    #[inline(always)]
    pub fn call(self, kind: Kind) -> u32 {
        let Self { record, memory, registers, from, to, pid, value, input, reply } = self;
        let Some(function) = kind.function() else {
            return setup(&mut record.target, memory, registers, from, to);
        };
        let target = &raw mut record.target;
        let places = record.places.as_mut_ptr();
        let (memory, memory_length) = lent(memory);
        let (registers, registers_length) = lent(registers);
        let (input, input_length) = shared(input);
        let (reply, reply_length) = lent(reply);
        // SAFETY: A step asks for pointers that are valid for the lengths given, not null, apart
        // from each other and left alone by others during the call; places are 256. Each pointer
        // and its length come from one reference here; references are never null, the target and
        // the places are two fields of one record, and the four `&mut` and the `&` live until the
        // call returns, so the borrow rules keep them apart and others away. Any bytes are a
        // record. A step always returns, does not unwind and keeps no pointer.
        unsafe {
            function(
                target,
                places,
                memory,
                memory_length,
                registers,
                registers_length,
                pid,
                value,
                input,
                input_length,
                reply,
                reply_length,
            )
        }
    }
}

/// A setup by what the target holds, with a protected stretch from an address to before another; its
/// result.
#[must_use]
#[inline(always)]
pub fn setup(target: &mut Target, memory: &[u8], registers: &[u8], from: u64, to: u64) -> u32 {
    let (memory, memory_length) = shared(memory);
    let (registers, registers_length) = shared(registers);
    // SAFETY: As for a step; memory and registers are taken as `const`.
    unsafe {
        ffi::sanirvoq_step_setup(
            target,
            memory,
            memory_length,
            registers,
            registers_length,
            from,
            to,
        )
    }
}

/// Writes the message of these fields; answers the number.
#[must_use]
pub fn message_encode(fields: Fields, buffer: &mut [u8]) -> u8 {
    let (buffer, length) = lent(buffer);
    // SAFETY: The pointer is valid for the length, and nobody else has it: both come from one
    // `&mut`. Any fields may be passed. The function always returns, does not unwind and keeps no
    // pointer.
    unsafe { ffi::sanirvoq_message_encode(fields, buffer, length) }
}

/// The number and the fields that reading these bytes gives.
#[must_use]
pub fn message_decode(bytes: &[u8]) -> Found {
    let (bytes, length) = shared(bytes);
    // SAFETY: The pointer is valid for reading the length: both come from one `&`, and the function
    // takes it as `const`. It always returns, does not unwind and keeps no pointer.
    unsafe { ffi::sanirvoq_message_decode(bytes, length) }
}

/// Where two images differ, in a list of two numbers a run; answers as the archive does.
#[must_use]
pub fn image_differences(a: &[u8], b: &[u8], list: &mut [u32]) -> Comparison {
    let ((a, a_length), (b, b_length)) = (shared(a), shared(b));
    let (list, places) = lent(list);
    // SAFETY: Each pointer and its length come from one reference; the two `&` are taken as `const`,
    // and nobody else has what the `&mut` lends. The function always returns, does not unwind and
    // keeps no pointer.
    unsafe { ffi::sanirvoq_image_differences(a, a_length, b, b_length, list, places) }
}

/// A list of runs as the archive takes it.
#[must_use]
pub fn numbers(list: &mut [Run]) -> &mut [u32] {
    // SAFETY: A run is two `u32` and nothing else (asserted in `ffi`), so the memory of the list is
    // that of twice as many numbers, which the result borrows in its place. Any numbers are runs.
    unsafe { slice::from_raw_parts_mut(list.as_mut_ptr().cast(), 2 * list.len()) }
}

/// Checks an offer of writes from the plain window to a wanted image; answers as the archive does.
/// What the room holds afterwards is of no account.
#[must_use]
pub fn patch_check(
    record: &Record,
    memory: &[u8],
    registers: &[u8],
    offer: &[Write],
    wanted: &[u8],
    room: &mut [u8],
) -> Verdict {
    let ((memory, memory_length), (registers, registers_length)) =
        (shared(memory), shared(registers));
    let ((offer, offer_length), (wanted, wanted_length)) = (shared(offer), shared(wanted));
    let (room, room_length) = lent(room);
    // SAFETY: Each pointer and its length come from one reference; those of `&` are taken as `const`,
    // and nobody else has what the `&mut` lends. Any bytes are a record; places are 256. The function
    // always returns, does not unwind and keeps no pointer.
    unsafe {
        ffi::sanirvoq_patch_check(
            &raw const record.target,
            record.places.as_ptr(),
            memory,
            memory_length,
            registers,
            registers_length,
            offer,
            offer_length,
            wanted,
            wanted_length,
            room,
            room_length,
        )
    }
}

/// Plans the writes from the plain window to a wanted image, at the front of the list; answers as the
/// archive does. What the room holds afterwards is of no account.
#[must_use]
pub fn patch_plan(
    record: &Record,
    memory: &[u8],
    registers: &[u8],
    wanted: &[u8],
    room: &mut [u8],
    list: &mut [Write],
) -> Planning {
    let ((memory, memory_length), (registers, registers_length)) =
        (shared(memory), shared(registers));
    let (wanted, wanted_length) = shared(wanted);
    let ((room, room_length), (list, list_length)) = (lent(room), lent(list));
    // SAFETY: As for `patch_check`, and any numbers are writes.
    unsafe {
        ffi::sanirvoq_patch_plan(
            &raw const record.target,
            record.places.as_ptr(),
            memory,
            memory_length,
            registers,
            registers_length,
            wanted,
            wanted_length,
            room,
            room_length,
            list,
            list_length,
        )
    }
}

/// Writes a text packet; answers as the archive does.
#[must_use]
pub fn text_encode(packet: TextPacket, buffer: &mut [u8]) -> TextWritten {
    let (buffer, length) = lent(buffer);
    // SAFETY: The pointer and the length come from one reference, and nobody else has what it lends.
    // The function always returns, does not unwind and keeps no pointer.
    unsafe { ffi::sanirvoq_text_encode(packet, buffer, length) }
}

/// Reads a text packet; answers as the archive does.
#[must_use]
pub fn text_decode(bytes: &[u8]) -> TextFound {
    let (bytes, length) = shared(bytes);
    // SAFETY: The pointer and the length come from one reference, taken as `const`. The function
    // always returns, does not unwind and keeps no pointer.
    unsafe { ffi::sanirvoq_text_decode(bytes, length) }
}

/// A reader of packets that skips to the next begin byte.
#[must_use]
pub fn frame_reader() -> FrameReader {
    // SAFETY: The function takes nothing, always returns and does not unwind.
    unsafe { ffi::sanirvoq_frame_reader() }
}

/// Feeds a piece of the line to a reader; answers as the archive does.
#[must_use]
pub fn frame_feed(reader: FrameReader, piece: &[u8], buffer: &mut [u8]) -> FrameFed {
    let (piece, piece_length) = shared(piece);
    let (buffer, buffer_length) = lent(buffer);
    // SAFETY: Each pointer and its length come from one reference; the `&` is taken as `const`, and
    // nobody else has what the `&mut` lends. Any numbers are a reader. The function always returns,
    // does not unwind and keeps no pointer.
    unsafe { ffi::sanirvoq_frame_feed(reader, piece, piece_length, buffer, buffer_length) }
}

/// Frames a reply; answers the number.
#[must_use]
pub fn frame_reply(sequence: u32, message: &[u8], buffer: &mut [u8]) -> u8 {
    let (message, message_length) = shared(message);
    let (buffer, buffer_length) = lent(buffer);
    // SAFETY: As for `frame_feed`.
    unsafe { ffi::sanirvoq_frame_reply(sequence, message, message_length, buffer, buffer_length) }
}
