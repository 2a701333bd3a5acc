//! The still reader's nine questions. Every answer is proved for all bytes, numbers and lengths; this package only turns the archive's eight numbers into Rust's types.
//!
//! A question is asked of a [`Still`], the file's first bytes and its whole length, and is lent a [`Table`]; only [`transforms`] reads no file.
//! The archive is for x86-64 Linux and is written by `tools/archive`; without it only [`Fault`] and what reads a [`Table`] are here.

mod fault;
#[cfg(still_linked)]
mod questions;
mod table;

pub use fault::{Fault, Refusal};
#[cfg(still_linked)]
pub use questions::{transforms, Answer, End, Point, Still, Trace, Transform, Verdict};
pub use table::{Item, ItemId, Size, Table};

/// The most bytes of a file that a question is lent.
pub const HEAD_MAX: usize = 65_536;
/// The words of a table.
pub const TABLE_WORDS: usize = 11_280;
/// The bytes that `Still::body` must be lent: no body is longer.
pub const BODY_MAX: usize = 16_402;
/// The most points that `Still::points` answers at once.
pub const MAX_POINTS: usize = 512;
/// The most that a file may have. An item has at most `MAX_ITEMS` sources, so a list of that length is never too short.
pub const MAX_ITEMS: usize = 256;
pub const MAX_PROPERTIES: usize = 256;
pub const MAX_ASSOCIATIONS: usize = 2_048;
pub const MAX_TARGETS: usize = 2_048;
pub const MAX_EXTENTS: usize = 512;
