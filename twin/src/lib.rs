//! A second reading of document 01 (hazard and cancer sheets from a case deck) and of requests P1 (numbers of more than nine
//! digits), P2 (composite receptor), P4 (the soil's mean for cancer), P5 (quickly lost chemicals) and P6 (air by the 2009
//! guidance) in document 02, in plain Rust, written from these documents alone and kept apart from the library, so that an
//! agreement of the two says something about both.

// A remainder stands beside its quotient throughout.
#![allow(clippy::manual_is_multiple_of)]

pub mod calls;
pub mod deck;
pub mod decks;
#[cfg(feature = "library")]
pub mod ffi;
pub mod page;
pub mod pairs;
pub mod report;
pub mod rng;
pub mod vectors;
pub mod years;

pub use deck::{read, Sort};
pub use pairs::{mean_series, series};
pub use report::{report, total};

/// Number, line and field; on success 0, the report's length and 0.
pub type Outcome = (u32, usize, usize);

/// The longest report: 4 receptors of 16 × 6 lines and a total line.
pub const LONGEST_REPORT: usize = 4 * (16 * 6 + 1) * 95;
