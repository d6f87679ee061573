//! Independent engines of the model (CSMA/CD on one pair) with requests N1 and N5, to compare Wisavulome's answers and speed with.
//!
//! - [`layout`], [`frame`], [`crc`], [`events`]: the sheet, frames, check sequence and event words
//! - [`plain`]: the plain engine, which keeps every emission and looks back by distance
//! - [`area`]: the same calls on a work area of 57,344 octets, by decoding it into the plain engine
//! - [`marks`]: request N5's marks, on octets
//! - [`fast`]: the fast engine, with a delay ring for each station
//! - [`program`]: the run program, over either engine
//! - [`log`]: many windows over one log (request N14)
//! - [`rng`]: the generator that cases and rows come from
//! - [`ours`]: the project's own library, through its C interface

pub mod area;
pub mod crc;
pub mod events;
pub mod fast;
pub mod frame;
pub mod layout;
pub mod log;
pub mod marks;
#[cfg(feature = "linked")]
pub mod ours;
pub mod plain;
pub mod program;
pub mod rng;

/// The number of a refusal (docs/INDEX.md, "Refusals, in checking order").
pub type Refusal = u32;

/// The last clock value (refusals 2 and 13).
pub const LAST_CLOCK: u32 = 16_777_216;

/// The most stations of a layout.
pub const STATIONS: usize = 16;
