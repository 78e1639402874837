//! Which neighbour a message may go to in a hypercube that has lost boards or links.
//!
//! Everything that decides is in a proved library; this crate is its safe interface. Start with a
//! [`Report`]: what is known of a cabinet. Ask it for a whole [`Journey`], or fill the
//! [`Vectors`] once and route hop by hop.
//!
//! ```
//! use deruvain::{byte, Kind, Node, Report};
//!
//! # fn main() -> Result<(), deruvain::Refusal> {
//! let mut report = Report::healthy(4)?;
//! for lost in [3, 4, 6, 9] {
//!     report.status[lost] = byte::DOWN;
//! }
//! let journey = report.journey(&[0; 5], Node(1), Node(12))?;
//! assert_eq!(journey.kind, Kind::Assured);
//! assert_eq!(journey.path, [Node(1), Node(0), Node(8), Node(12)]);
//! println!("{journey}"); // assured, 3 hops: 1 0 8 12
//! # Ok(())
//! # }
//! ```
//!
//! A job refuses what it cannot use, and says why with a [`Refusal`]. No job panics on any input.
//! The functions of [`raw`] are the C interface over slices that the caller lends.

#![warn(missing_docs)]

mod address;
mod answer;
pub mod byte;
mod number;
pub mod raw;
mod refusal;
mod report;

pub use address::{Node, Relative};
pub use answer::{Class, Decision, Journey, Kind, Offer, Step};
pub use number::NoSuchNumber;
pub use refusal::Refusal;
pub use report::{Report, Vectors};

/// The version of this crate, of the header and of the programs.
pub const VERSION: &str = env!("CARGO_PKG_VERSION");

/// The largest cube has this dimension.
pub const LARGEST_N: u32 = 10;
/// The largest cube has so many nodes.
pub const LARGEST_NODES: usize = 1 << LARGEST_N;
/// The longest record has so many bytes.
pub const LARGEST_RECORD: usize = 5 + 3 * LARGEST_NODES;

/// Compiles and runs the Rust of bindings/README.md with the tests.
#[cfg(doctest)]
#[doc = include_str!("../../README.md")]
struct Readme;
