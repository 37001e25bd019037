//! The two functions over the caller's own buffers, with the answers as they come: for differential runs, benchmarks
//! and whoever keeps buffers. Safe: the outputs are exclusive borrows, so none overlaps an input.
//!
//! ```
//! use filughjosa::raw::{PruneInput, prune_into};
//! // One word, constant true, over no columns.
//! let table = [1, 0, 0, 0, 0, 0, 0, 0];
//! let input = PruneInput {
//!     schema: &[], table: &table, table_pool: &[], statistics: &[], guarantees: &[],
//!     containers: 3, grid: &[], cell_pool: &[], answers: &[],
//! };
//! let mut flags = [7; 4];
//! assert_eq!(prune_into(input, &mut flags), 0);
//! assert_eq!(flags, [1, 1, 1, 7]);
//! ```
//!
//! The same with the table for the flags is no program:
//!
//! ```compile_fail,E0502
//! # use filughjosa::raw::{PruneInput, prune_into};
//! let mut table = [1, 0, 0, 0, 0, 0, 0, 0];
//! let input = PruneInput {
//!     schema: &[], table: &table, table_pool: &[], statistics: &[], guarantees: &[],
//!     containers: 3, grid: &[], cell_pool: &[], answers: &[],
//! };
//! assert_eq!(prune_into(input, &mut table), 0);
//! ```

use crate::ffi;

/// Bytes that rewriting is lent for the table.
pub const TABLE_ROOM: usize = 24_576;
/// Bytes that rewriting is lent for the table's literal pool.
pub const TABLE_POOL_ROOM: usize = 16_512;
/// Bytes that rewriting is lent for the statistics list.
pub const STATISTICS_ROOM: usize = 1_544;
/// Bytes that rewriting is lent for the guarantees.
pub const GUARANTEES_ROOM: usize = 1_024;
/// Containers that one pruning call takes.
pub const MAX_CONTAINERS: usize = 4_096;
/// The greatest list limit.
pub const MAX_LIST_LIMIT: u64 = 256;
/// The list limit of the original, and of the comfortable calls.
pub const LIST_LIMIT: u64 = 20;

/// What rewriting reads.
#[derive(Clone, Copy, Debug)]
pub struct RewriteInput<'a> {
    /// A byte a column: 1 integer, 2 text, 3 truth value.
    pub schema: &'a [u8],
    /// Node and literal words, in prefix order.
    pub predicate: &'a [u8],
    /// The bytes that literal words point into.
    pub pool: &'a [u8],
    /// Lists of more literals than this are unhandled.
    pub list_limit: u64,
}

/// Where rewriting writes. Nothing is written by a refused call, and only the counted front of each by an accepted one.
#[derive(Debug)]
pub struct RewriteOutput<'a> {
    /// At least [`TABLE_ROOM`] bytes.
    pub table: &'a mut [u8],
    /// At least [`TABLE_POOL_ROOM`] bytes.
    pub pool: &'a mut [u8],
    /// At least [`STATISTICS_ROOM`] bytes.
    pub statistics: &'a mut [u8],
    /// At least [`GUARANTEES_ROOM`] bytes.
    pub guarantees: &'a mut [u8],
}

/// What pruning reads.
#[derive(Clone, Copy, Debug)]
pub struct PruneInput<'a> {
    /// A byte a column: 1 integer, 2 text, 3 truth value.
    pub schema: &'a [u8],
    /// The rewritten table.
    pub table: &'a [u8],
    /// The table's literal pool.
    pub table_pool: &'a [u8],
    /// The statistics list.
    pub statistics: &'a [u8],
    /// The guarantees.
    pub guarantees: &'a [u8],
    /// How many containers (blocks) the grid has.
    pub containers: u64,
    /// A cell word for each container and statistic.
    pub grid: &'a [u8],
    /// The bytes that cell words point into.
    pub cell_pool: &'a [u8],
    /// A byte for each container and guarantee, or none at all.
    pub answers: &'a [u8],
}

/// Rewrites a predicate into the lent buffers; returns the answer word. [`crate::packed::Counts`] reads it.
pub fn rewrite_into(input: RewriteInput, output: RewriteOutput) -> u64 {
    ffi::rewrite(input, output)
}

/// Writes a byte a container to the front of `flags`, 0 drop or 1 keep; returns 0, or the refusal and nothing is written.
pub fn prune_into(input: PruneInput, flags: &mut [u8]) -> u64 {
    ffi::prune(input, flags)
}
