//! Block skipping: which blocks of a column store a formula must read, judged from each block's summary by a proved
//! library. A block is dropped only where its summary rules out that any of its rows matches.
//!
//! ```
//! use filughjosa::{Block, ColumnType, Plan, Schema, Summary, col};
//!
//! let schema = Schema::new([("price", ColumnType::Integer), ("item", ColumnType::Text)])?;
//! let plan = Plan::new(&schema, &(col("price").gt(40) & col("item").like("b%")))?;
//! let block = |least: i64, greatest: i64, first: &str, last: &str| {
//!     Block::new()
//!         .rows(100)
//!         .column("price", Summary::bounds(least, greatest).blanks(0))
//!         .column("item", Summary::bounds(first, last).blanks(2))
//! };
//! let blocks = [
//!     block(1, 40, "apple", "plum"),    // no price over 40
//!     block(5, 90, "apple", "plum"),    // may match
//!     block(5, 90, "cherry", "plum"),   // no item begins with b
//! ];
//! assert_eq!(plan.keep(&blocks)?, [false, true, false]);
//! # Ok::<(), filughjosa::Error>(())
//! ```
//!
//! - [`Schema`], [`Predicate`] (begun with [`col`], or read by [`formula`]), [`Plan`], [`Block`]: by column name.
//! - [`rows`]: a file of rows in blocks, and its summaries.
//! - [`packed`]: the two calls over packed bytes, safe, with refusals as errors. [`Packed`] packs a predicate.
//! - [`raw`]: the same over the caller's own buffers, answers as they come.
//! - [`vectors`]: the recorded answers, and their replay.
#![deny(unsafe_code)]
#![warn(missing_docs)]

pub mod block;
pub mod error;
#[allow(unsafe_code)]
mod ffi;
pub mod formula;
pub mod pack;
pub mod packed;
pub mod plan;
pub mod predicate;
pub mod raw;
pub mod refusal;
pub mod rows;
pub mod schema;
pub mod value;
pub mod vectors;
mod word;

pub use block::{Block, Cell, Summary};
pub use error::Error;
pub use pack::Packed;
pub use packed::{Grid, Rewritten, prune, rewrite};
pub use plan::{Answer, Asked, Guarantee, Kind, Plan};
pub use predicate::{Column, Operator, Predicate, col};
pub use refusal::Refusal;
pub use schema::Schema;
pub use value::{ColumnType, Value};
