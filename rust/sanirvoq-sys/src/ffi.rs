//! The archive's functions and records, as `include/sanirvoq.h` has them. What the functions ask of
//! their caller is said there; [`call`](crate::call) keeps it.

use core::mem::{align_of, offset_of, size_of};

/// A length in bytes or places. The archive takes 64 bits on every machine.
pub type Length = u64;

/// The processes that a record has room for.
pub const PROCESSES: usize = 4;
/// The breakpoints that a record has room for.
pub const ENTRIES: usize = 8;
/// The elements that one condition may have.
pub const ELEMENTS: usize = 64;
/// The elements that all conditions together may have.
pub const PLACES: usize = 128;

/// A breakpoint.
#[repr(C)]
#[derive(Debug, Clone, Copy, Default, PartialEq, Eq)]
pub struct Entry {
    /// 0 free, 1 used.
    pub used: u8,
    /// Its id.
    pub id: u8,
    /// How many elements its condition has; they stand in [`Record::places`].
    pub count: u8,
    /// The first two are the bytes of the program under the trap.
    pub plain: [u8; 4],
    /// The address of its trap.
    pub site: u32,
}

/// The condition in hand.
#[repr(C)]
#[derive(Debug, Clone, Copy, Default, PartialEq, Eq)]
pub struct Draft {
    /// 1 where there is one, else 0.
    pub active: u8,
    /// The id that its breakpoint will have.
    pub id: u8,
    /// How many elements it has so far; they stand in [`Record::places`].
    pub count: u8,
}

/// The breakpoints and the condition in hand.
#[repr(C)]
#[derive(Debug, Clone, Copy, Default, PartialEq, Eq)]
pub struct Table {
    /// The breakpoints.
    pub entries: [Entry; ENTRIES],
    /// The condition in hand.
    pub draft: Draft,
}

/// A process.
#[repr(C)]
#[derive(Debug, Clone, Copy, Default, PartialEq, Eq)]
pub struct Process {
    /// Its pid, at least 1.
    pub pid: u32,
    /// Its Proc address.
    pub address: u32,
    /// Its state byte: 2 Ready, 8 Stopped.
    pub state: u8,
    /// 1 where a stop is wanted, else 0.
    pub wanted: u8,
}

/// What the record has besides its places.
#[repr(C)]
#[derive(Debug, Clone, Copy, Default, PartialEq, Eq)]
pub struct Target {
    /// The address of the window.
    pub base: u32,
    /// The bytes of the window.
    pub size: u32,
    /// The first byte of the protected stretch, from the window's first on.
    pub protected_offset: u32,
    /// The bytes of the protected stretch.
    pub protected_length: u32,
    /// How many of the processes there are.
    pub count: u32,
    /// The processes, in the order of their blocks in the register area.
    pub processes: [Process; PROCESSES],
    /// 1 where a process is current, else 0.
    pub selected: u8,
    /// The pid of the current process.
    pub current: u32,
    /// The breakpoints.
    pub table: Table,
}

/// The record. [`Record::condition`] and [`Record::in_hand`] show the conditions that it has.
#[repr(C)]
#[derive(Debug, Clone, Copy, PartialEq, Eq)]
pub struct Record {
    /// All but the elements of conditions.
    pub target: Target,
    /// Two words a place: the letter of an element, then the value of `k` and `p`, else 0. The
    /// elements of the used entries stand here in the table's order, then those of the condition in
    /// hand. What the places after them hold is of no account.
    pub places: [u32; 2 * PLACES],
}

impl Default for Record {
    /// The empty record.
    fn default() -> Self {
        Self { target: Target::default(), places: [0; 2 * PLACES] }
    }
}

/// A message by its type byte and its fields; see the header for which fields a type uses.
#[repr(C)]
#[derive(Debug, Clone, Copy, Default, PartialEq, Eq, Hash)]
pub struct Fields {
    /// The type byte.
    pub kind: u8,
    /// The count of Tmget and Tmput.
    pub n: u8,
    /// The letter of Tcondbreak.
    pub op: u8,
    /// The state byte of Rstatus, the reason of Rerr.
    pub code: u8,
    /// The address, pid or val.
    pub value: u32,
    /// The nine of Rmget, the first four of Tmput.
    pub bytes: [u8; 9],
}

/// What reading finds.
#[repr(C)]
#[derive(Debug, Clone, Copy, Default, PartialEq, Eq)]
pub struct Found {
    /// 0, 2 or 7.
    pub number: u8,
    /// The message where the number is 0, else all 0.
    pub fields: Fields,
}

/// A maximal run of differing bytes: two numbers of the archive's list.
#[repr(C)]
#[derive(Debug, Clone, Copy, Default, PartialEq, Eq, Hash)]
pub struct Run {
    /// The offset of its first byte.
    pub start: u32,
    /// How many bytes.
    pub length: u32,
}

/// What comparing two images answers.
#[repr(C)]
#[derive(Debug, Clone, Copy, Default, PartialEq, Eq)]
pub struct Comparison {
    /// 0, 8 or 9.
    pub number: u8,
    /// How many runs there are, unless the number is 8; then 0.
    pub runs: u32,
}

/// A write of a patch.
#[repr(C)]
#[derive(Debug, Clone, Copy, Default, PartialEq, Eq, Hash)]
pub struct Write {
    /// The address of its first byte.
    pub address: u32,
    /// How many bytes, 1 to 4.
    pub count: u32,
    /// The bytes; those beyond the count are ignored.
    pub bytes: [u8; 4],
}

/// What checking an offer of writes answers.
#[repr(C)]
#[derive(Debug, Clone, Copy, Default, PartialEq, Eq)]
pub struct Verdict {
    /// 0, 2, 3 or 16.
    pub number: u8,
    /// 0 accepted, 1 a broken bound, 2 that the images differ.
    pub verdict: u8,
    /// The first write that breaks a bound, else 0.
    pub index: u32,
}

/// What planning a patch answers.
#[repr(C)]
#[derive(Debug, Clone, Copy, Default, PartialEq, Eq)]
pub struct Planning {
    /// 0, 2, 3, 16, 17 or 21.
    pub number: u8,
    /// With number 21 the address of the lowest protected byte that differs, else 0.
    pub address: u32,
    /// With number 0 how many writes the plan has, else 0.
    pub writes: u32,
}

/// A packet of the text dialect: `PID LETTER ADDR DATA`, or a reply's `PID LETTER ERRFLG RESPONSE`.
#[repr(C)]
#[derive(Debug, Clone, Copy, Default, PartialEq, Eq, Hash)]
pub struct TextPacket {
    /// The process of a request; a reply repeats it.
    pub pid: u32,
    /// One byte, 0x21 to 0x7e.
    pub letter: u8,
    /// The address of a request, the error flag of a reply.
    pub third: u32,
    /// The data of a request, the response of a reply.
    pub fourth: u32,
}

/// What writing a text packet answers.
#[repr(C)]
#[derive(Debug, Clone, Copy, Default, PartialEq, Eq)]
pub struct TextWritten {
    /// 0, 10 or 11.
    pub number: u8,
    /// The bytes of the text; 0 where the number is not 0.
    pub filled: u32,
}

/// What reading a text packet answers.
#[repr(C)]
#[derive(Debug, Clone, Copy, Default, PartialEq, Eq)]
pub struct TextFound {
    /// 0 or 10.
    pub number: u8,
    /// Its fields are 0 where the number is not 0.
    pub packet: TextPacket,
}

/// A reader of packets between two bytes of the line: numbers only, and any numbers are one.
#[repr(C)]
#[derive(Debug, Clone, Copy, Default, PartialEq, Eq)]
pub struct FrameReader {
    /// The last eight bytes of a part, low-order first.
    pub last: u64,
    /// How many bytes of a part are complete.
    pub count: u32,
    /// The logical ID.
    pub id: u32,
    /// What the next seven bits are multiplied by.
    pub scale: u16,
    /// How many bytes a part has before its checksum.
    pub size: u16,
    /// The checksum so far.
    pub sum: u16,
    /// What is due: 1 header, 2 body, 3 the end; else the next begin byte.
    pub phase: u8,
    /// The bits of the next byte that are there.
    pub held: u8,
}

/// An answer; see the header for which fields a kind uses.
#[repr(C)]
#[derive(Debug, Clone, Copy, Default, PartialEq, Eq, Hash)]
pub struct FrameAnswer {
    /// The logical ID.
    pub id: u32,
    /// The size of the body.
    pub size: u16,
    /// 0 nothing yet, 1 packet, 2 header bad, 3 body bad.
    pub kind: u8,
    /// The index of the logical ID.
    pub index: u8,
    /// The sequence of the logical ID.
    pub sequence: u8,
    /// 1 where a packet is a request.
    pub request: u8,
}

/// What feeding gives.
#[repr(C)]
#[derive(Debug, Clone, Copy, Default, PartialEq, Eq)]
pub struct FrameFed {
    /// The reader after the piece.
    pub reader: FrameReader,
    /// How many bytes of the piece were taken.
    pub taken: Length,
    /// The answer.
    pub answer: FrameAnswer,
    /// 0 or 12.
    pub number: u8,
}

// The layout, as the header asserts it.
const _: () = assert!(size_of::<FrameReader>() == 24 && size_of::<FrameFed>() == 48);
const _: () = assert!(size_of::<Entry>() == 12 && offset_of!(Entry, count) == 2);
const _: () = assert!(offset_of!(Entry, plain) == 3 && offset_of!(Entry, site) == 8);
const _: () = assert!(size_of::<Draft>() == 3 && size_of::<Process>() == 12);
const _: () = assert!(size_of::<Table>() == 100 && offset_of!(Table, draft) == 96);
const _: () = assert!(size_of::<Target>() == 176 && offset_of!(Target, protected_offset) == 8);
const _: () = assert!(offset_of!(Target, processes) == 20 && offset_of!(Target, selected) == 68);
const _: () = assert!(offset_of!(Target, current) == 72 && offset_of!(Target, table) == 76);
const _: () = assert!(size_of::<Record>() == 1200 && align_of::<Record>() == 4);
const _: () = assert!(offset_of!(Record, places) == 176);
const _: () = assert!(size_of::<Fields>() == 20);
const _: () = assert!(size_of::<Comparison>() == 8);
const _: () = assert!(size_of::<Write>() == 12 && align_of::<Write>() == 4);
const _: () = assert!(size_of::<Verdict>() == 8 && size_of::<Planning>() == 12);
const _: () = assert!(size_of::<TextPacket>() == 16 && align_of::<TextPacket>() == 4);
const _: () = assert!(size_of::<TextWritten>() == 8 && size_of::<TextFound>() == 20);
// Two numbers and nothing else.
const _: () = assert!(size_of::<Run>() == 2 * size_of::<u32>());
const _: () = assert!(align_of::<Run>() == align_of::<u32>());

/// Declares the archive's functions. With no archive to link, for tests, it defines functions in their
/// place that stop the program and say what is missing.
macro_rules! exports {
    ($($(#[$doc:meta])* fn $name:ident($($argument:ident: $type:ty),* $(,)?) -> $result:ty;)*) => {
        #[cfg(not(stand_in))]
        unsafe extern "C" {
            $($(#[$doc])* pub fn $name($($argument: $type),*) -> $result;)*
        }
        $(
            $(#[$doc])*
            ///
            /// # Safety
            ///
            /// None is asked for: this stands in for an archive that is not there, and panics.
            #[cfg(stand_in)]
            #[allow(clippy::too_many_arguments)]
            pub unsafe extern "C" fn $name($(_: $type),*) -> $result {
                panic!(
                    "{} is not linked: libsanirvoq.a was not there when this was built. Run \
                     `tools/build.sh sanirvoq`, or name its folder by SANIRVOQ_LIB",
                    stringify!($name)
                )
            }
        )*
    };
}

/// Declares the steps that have one form, and the type of that form.
macro_rules! steps {
    (($($argument:ident: $type:ty),* $(,)?) -> $result:ty {
        $($(#[$doc:meta])* $name:ident),* $(,)?
    }) => {
        /// The form of every step but the setup; see the header for which arguments each uses.
        pub type Step = unsafe extern "C" fn($($argument: $type),*) -> $result;

        steps!(@each ($($argument: $type),*) -> $result { $($(#[$doc])* $name),* });
    };
    (@each $arguments:tt -> $result:ty { $($(#[$doc:meta])* $name:ident),* }) => {
        exports! { $($(#[$doc])* fn $name $arguments -> $result;)* }
    };
}

steps!((
    target: *mut Target,
    places: *mut u32,
    memory: *mut u8,
    memory_length: Length,
    registers: *mut u8,
    registers_length: Length,
    pid: u32,
    value: u8,
    input: *const u8,
    input_length: Length,
    reply: *mut u8,
    reply_length: Length,
) -> u32 {
    /// A request.
    sanirvoq_step_request,
    /// A trap event.
    sanirvoq_step_trap,
    /// A schedule event.
    sanirvoq_step_schedule,
    /// A state event.
    sanirvoq_step_state,
    /// A restart.
    sanirvoq_step_restart,
    /// A request of the text dialect.
    sanirvoq_step_text,
});

exports! {
    /// A setup, which has no places; the protected stretch is from the first of the last two
    /// addresses to before the second.
    fn sanirvoq_step_setup(
        target: *mut Target,
        memory: *const u8,
        memory_length: Length,
        registers: *const u8,
        registers_length: Length,
        protected_from: u64,
        protected_to: u64,
    ) -> u32;
    /// Writes a message's ten bytes.
    fn sanirvoq_message_encode(fields: Fields, buffer: *mut u8, length: Length) -> u8;
    /// Reads ten bytes.
    fn sanirvoq_message_decode(bytes: *const u8, length: Length) -> Found;
    /// Fills a list with the runs of differing bytes of two images, two places a run.
    fn sanirvoq_image_differences(
        a: *const u8,
        a_length: Length,
        b: *const u8,
        b_length: Length,
        list: *mut u32,
        places: Length,
    ) -> Comparison;
    /// Checks an offer of writes against a wanted image; lengths of lists count writes.
    fn sanirvoq_patch_check(
        target: *const Target,
        places: *const u32,
        memory: *const u8,
        memory_length: Length,
        registers: *const u8,
        registers_length: Length,
        offer: *const Write,
        offer_length: Length,
        wanted: *const u8,
        wanted_length: Length,
        room: *mut u8,
        room_length: Length,
    ) -> Verdict;
    /// Plans the writes to a wanted image.
    fn sanirvoq_patch_plan(
        target: *const Target,
        places: *const u32,
        memory: *const u8,
        memory_length: Length,
        registers: *const u8,
        registers_length: Length,
        wanted: *const u8,
        wanted_length: Length,
        room: *mut u8,
        room_length: Length,
        list: *mut Write,
        list_length: Length,
    ) -> Planning;
    /// Writes a text packet to the front of a buffer.
    fn sanirvoq_text_encode(packet: TextPacket, buffer: *mut u8, length: Length) -> TextWritten;
    /// Reads a text packet.
    fn sanirvoq_text_decode(bytes: *const u8, length: Length) -> TextFound;
    /// A reader of packets that skips to the next begin byte.
    fn sanirvoq_frame_reader() -> FrameReader;
    /// Feeds a piece of the line to a reader, up to the first answer.
    fn sanirvoq_frame_feed(
        reader: FrameReader,
        piece: *const u8,
        piece_length: Length,
        buffer: *mut u8,
        buffer_length: Length,
    ) -> FrameFed;
    /// Frames a reply of ten bytes.
    fn sanirvoq_frame_reply(
        sequence: u32,
        message: *const u8,
        message_length: Length,
        buffer: *mut u8,
        buffer_length: Length,
    ) -> u8;
}
