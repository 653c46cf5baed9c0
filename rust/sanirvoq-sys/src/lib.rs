//! The archive of the proved debug stub, `libsanirvoq.a`, which `tools/build.sh sanirvoq` writes from
//! what the checker proved.
//!
//! [`ffi`] has its functions and records, as `include/sanirvoq.h` has them; [`call`] calls them over
//! references, which is safe. All unsafe code between a program in Rust and the archive stands in this
//! crate; `sanirvoq` above it answers with enums in the place of numbers.
//!
//! `build.rs` says where the archive is looked for, and what is so where there is none.
//!
//! With the feature `measure`, which is for the benchmark, the module `measure` has the unsafe code that
//! measures: clocks, the painted stack and reads by themselves.

#![no_std]
#![deny(missing_debug_implementations, missing_docs, unsafe_op_in_unsafe_fn)]

#[cfg(feature = "measure")]
extern crate std;

pub mod call;
pub mod ffi;
#[cfg(feature = "measure")]
pub mod measure;
mod places;
mod words;

pub use places::Element;
pub use words::{RecordWords, WORDS};

/// The bytes of a message, of a request and of a reply.
pub const MESSAGE: usize = 10;
/// The bytes of one process in the register area: 32 registers, status, pc, four bytes each.
pub const BLOCK: usize = 136;
