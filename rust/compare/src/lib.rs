//! The comparison from outside: the proved stub, through its C interface, and the independent one
//! of `rust/reference` get the same random and damaged input, and after every step all that they
//! show is compared.
//!
//! - [`op`]: what is done to both sides; a run is a list of these
//! - [`archive`] and [`independent`]: the two sides; [`raw`] says what a record of any bytes is
//!   worth
//! - [`pair`]: runs one [`op::Op`] on both sides and compares; what is compared when is said there
//! - [`book`]: the book of demand 3 beside a session, and the places held by its history
//! - [`images`]: image differences, a call without a session: pairs, both sides, counts
//! - [`patches`]: patches checked and planned over a record: windows, images and offers, both sides,
//!   counts
//! - [`texts`]: text packets, calls without a session: packets and damaged texts, both sides, counts
//! - [`make`]: makes the lists, from a seed; the steps of a session come from `rust/steps`
//! - [`tally`]: counts what was reached, besides what `rust/steps` counts, and by itself what text
//!   steps reached
//! - [`run`] and [`shrink`]: the whole run, and the short list where the sides differ

pub mod archive;
pub mod book;
pub mod difference;
pub mod images;
pub mod independent;
pub mod make;
pub mod op;
pub mod pair;
pub mod patches;
pub mod raw;
pub mod record;
pub mod run;
pub mod shrink;
pub mod tally;
mod text_steps;
pub mod texts;
