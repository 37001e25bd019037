//! The limits of document 01, "Room and refusals", each in one place.

pub const COLUMNS: usize = 64;
pub const NODES: usize = 255;
pub const DEPTH: usize = 32;
pub const LISTED: usize = 256;
pub const LITERAL_BYTES: usize = 1_024;
pub const ALL_LITERAL_BYTES: usize = 8_192;
pub const POOL_BYTES: usize = 65_536;
pub const CONTAINERS: u64 = 4_096;
pub const LIST_LIMIT: u64 = 256;

/// The four rooms that rewriting is lent, and that pruning's inputs keep to.
pub const TABLE_ROOM: usize = 24_576;
pub const TABLE_POOL_ROOM: usize = 16_512;
pub const STATISTICS_ROOM: usize = 1_544;
pub const GUARANTEES_ROOM: usize = 1_024;

pub const TABLE_DEPTH: usize = 289;
pub const TABLE_TEXT_BYTES: usize = 1_025;
