//! Random steps, aimed at the state of an independent stub: sites that hold traps, ids in use,
//! processes that are Stopped. The binary `steps` writes them for the program; `rust/compare` makes
//! its sessions of them.
//!
//! - [`step`]: one step, and its bytes in the program's format
//! - [`burst`]: a few steps that belong together; what they are aimed at, their conditions and what
//!   they do are in modules of their own
//! - [`tally`]: counts what was reached, [`continues`] what a Tstart found, [`places`] how the limits
//!   of conditions were met, [`protection`] how the protected stretch was; [`table`] prints it and says
//!   what is lacking
//! - [`program`]: random steps over the worked setup
//! - [`texts`]: packets of the text dialect, which the program has not

#![forbid(unsafe_code)]

mod acts;
mod aim;
pub mod burst;
mod conditions;
pub mod continues;
mod limits;
pub mod places;
pub mod program;
mod protected;
pub mod protection;
pub mod rng;
pub mod step;
pub mod table;
pub mod tally;
pub mod texts;

pub use burst::{Burst, Generator};
pub use rng::Rng;
pub use step::Step;

/// The letters of Tcondbreak.
pub const LETTERS: [u8; 11] = *b"nkp*&=!aobd";
/// Those of elements.
pub const ELEMENT_LETTERS: [u8; 8] = *b"kp*&=!ao";
