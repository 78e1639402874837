//! The status bytes by name.
//!
//! A byte from [`HEARD`] to [`OLDEST_WORKING`] is a working board, one from [`FIRST_LATE`] to
//! [`OLDEST_LATE`] a late one. [`Class::from`](crate::Class) classes any byte.
//!
//! ```
//! use deruvain::{byte, Class};
//!
//! assert_eq!(Class::from(byte::HEARD), Class::Working);
//! assert_eq!(Class::from(byte::OLDEST_WORKING + 1), Class::Late);
//! assert_eq!(Class::from(byte::DOWN), Class::Down);
//! ```

/// The board was never heard.
pub const SILENT: u8 = 0;
/// The board was heard in the present sweep; one more for each sweep since.
pub const HEARD: u8 = 1;
/// The last byte of a working board: heard three sweeps ago.
pub const OLDEST_WORKING: u8 = 4;
/// The first byte of a late board: heard four sweeps ago.
pub const FIRST_LATE: u8 = 5;
/// The last byte of a late board: heard 252 sweeps ago, or before.
pub const OLDEST_LATE: u8 = 253;
/// The board is down, by its own word.
pub const DOWN: u8 = 254;
/// The slot is empty.
pub const EMPTY: u8 = 255;
