//! The proved debug stub, for kernels in Rust.
//!
//! The stub itself is the archive `libsanirvoq.a`, which `tools/build.sh sanirvoq` writes from what the
//! checker proved. This crate calls it with slices and answers with enums, and has no code of the
//! stub. It has no unsafe code either: that is in [`sanirvoq_sys`], which also says how the archive is
//! found.
//!
//! The kernel keeps a [`Stub`] and lends its memory window and its register area to every step. The
//! borrow rules give what the archive asks of its caller: buffers that are valid, apart from each
//! other, and left alone by others during the call. So no call here is unsafe, whatever the record,
//! the sizes and the bytes are; what does not fit is refused by a [`Refusal`].
//!
//! Numbers and answers of a later archive that this edition does not know are an `Other`; nothing
//! panics over them.
//!
#![cfg_attr(archive, doc = "```")]
#![cfg_attr(not(archive), doc = "```no_run")]
//! # fn main() -> Result<(), sanirvoq::Refusal> {
//! use sanirvoq::{Process, Served, Setup, Stub, BLOCK, MESSAGE};
//!
//! let mut memory: Vec<u8> = (0..64).collect();
//! let mut registers = vec![0; 2 * BLOCK];
//! let process = |pid, address| Process { pid, address };
//! let processes = [process(5, 0x8000_1000), process(7, 0x8000_2000)];
//! let setup = Setup::new(0x1000, 64, &processes).protecting(0x1038..0x103c);
//! let mut stub = Stub::setup(&setup, &memory, &registers)?;
//!
//! let request = [2, 0, 0, 0x10, 0x04, 4, 0, 0, 0, 0];
//! let mut reply = [0; MESSAGE];
//! let served = stub.request(&mut memory, &mut registers, &request, &mut reply)?;
//! assert_eq!(reply, [3, 4, 5, 6, 7, 0, 0, 0, 0, 0]);
//! assert_eq!(served, Served::Reply);
//! # Ok(())
//! # }
//! ```
//!
//! Buffers that overlap do not compile:
//!
//! ```compile_fail
//! # let (mut stub, mut memory) = (sanirvoq::Stub::default(), [0; 136]);
//! # let (request, mut reply) = ([0; 10], [0; 10]);
//! let done = stub.request(&mut memory, &mut memory, &request, &mut reply);
//! ```

#![no_std]
#![forbid(unsafe_code)]
#![deny(missing_debug_implementations, missing_docs)]
#![warn(clippy::must_use_candidate)]
#![cfg_attr(not(test), deny(clippy::expect_used, clippy::panic, clippy::unreachable))]
#![cfg_attr(not(test), deny(clippy::unwrap_used))]

mod frame;
mod image;
mod message;
mod patch;
mod refusal;
mod stub;
mod text;
mod text_step;

pub use frame::{frame_reply, Answer, Answers, Frames, NotFramed};
pub use image::{differences, NotCompared};
pub use message::{Message, Reason};
pub use patch::{NotPlanned, Offered};
pub use refusal::Refusal;
pub use sanirvoq_sys::ffi::{FrameReader, Run, Write as PatchWrite};
pub use sanirvoq_sys::{call, ffi, Element, RecordWords, BLOCK, MESSAGE, WORDS};
pub use stub::{Process, Served, Setup, Stub, Verdict};
pub use text::{NotText, TextPacket};
pub use text_step::{Errno, Space, TextReply, TextRequest, TextServed};

/// The bytes of the longest image that [`differences`] takes.
pub const IMAGE: usize = 65_536;
/// The bytes of the longest text of a packet, which the buffers of [`TextPacket::encode`]
/// and of [`Stub::text`] must have.
pub const TEXT: usize = 34;
/// The bytes of the shortest buffer that [`Frames`] takes: the longest body and its checksum.
pub const FRAME_BUFFER: usize = 534;
/// The writes of the longest offer that [`Stub::check_patch`] takes, and of the longest plan.
pub const PATCH_WRITES: usize = 16_384;
/// The bytes of a framed reply.
pub const FRAMED_REPLY: usize = 26;
