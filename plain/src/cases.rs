//! Calls that own their bytes, and the lent outputs of a call after it.

use std::sync::LazyLock;

use crate::prune::PruneCall;
use crate::rewrite::{RewriteCall, Rooms};
use crate::word::field;

#[derive(Clone, Debug, PartialEq, Eq)]
pub struct RewriteCase {
    pub schema: Vec<u8>,
    pub predicate: Vec<u8>,
    pub pool: Vec<u8>,
    pub list_limit: u64,
    pub rooms: Rooms,
}

impl RewriteCase {
    pub fn call(&self) -> RewriteCall<'_> {
        RewriteCall {
            schema: &self.schema,
            predicate: &self.predicate,
            pool: &self.pool,
            list_limit: self.list_limit,
            rooms: self.rooms,
        }
    }
}

#[derive(Clone, Debug, Default, PartialEq, Eq)]
pub struct PruneCase {
    pub schema: Vec<u8>,
    pub table: Vec<u8>,
    pub table_pool: Vec<u8>,
    pub statistics: Vec<u8>,
    pub guarantees: Vec<u8>,
    pub containers: u64,
    pub grid: Vec<u8>,
    pub cell_pool: Vec<u8>,
    pub answers: Vec<u8>,
    pub flag_room: usize,
}

impl PruneCase {
    pub fn call(&self) -> PruneCall<'_> {
        PruneCall {
            schema: &self.schema,
            table: &self.table,
            table_pool: &self.table_pool,
            statistics: &self.statistics,
            guarantees: &self.guarantees,
            containers: self.containers,
            grid: &self.grid,
            cell_pool: &self.cell_pool,
            answers: &self.answers,
            flag_room: self.flag_room,
        }
    }
}

/// The answer word and every byte of the four outputs after rewriting.
#[derive(Clone, Debug, PartialEq, Eq)]
pub struct Rewritten {
    pub answer: u64,
    pub table: Vec<u8>,
    pub pool: Vec<u8>,
    pub statistics: Vec<u8>,
    pub guarantees: Vec<u8>,
}

impl Rewritten {
    /// Outputs of these rooms, filled with the pattern.
    pub fn lent(rooms: Rooms) -> Rewritten {
        Rewritten {
            answer: 0,
            table: pattern(rooms.table),
            pool: pattern(rooms.pool),
            statistics: pattern(rooms.statistics),
            guarantees: pattern(rooms.guarantees),
        }
    }

    /// The pruning call that follows, with no cells or answers yet; nothing after a refusal.
    pub fn pruning(&self, schema: &[u8], containers: u64) -> Option<PruneCase> {
        if field(self.answer, 0, 8) != 0 {
            return None;
        }
        let counted = |from, width| field(self.answer, from, width) as usize;
        Some(PruneCase {
            schema: schema.to_vec(),
            table: self.table[..counted(8, 16) * 8].to_vec(),
            table_pool: self.pool[..counted(24, 16)].to_vec(),
            statistics: self.statistics[..counted(40, 8) * 8].to_vec(),
            guarantees: self.guarantees[..counted(48, 8) * 8].to_vec(),
            containers,
            flag_room: containers as usize,
            ..PruneCase::default()
        })
    }
}

/// The result and every flag byte after pruning.
#[derive(Clone, Debug, PartialEq, Eq)]
pub struct Pruned {
    pub result: u64,
    pub flags: Vec<u8>,
}

impl Pruned {
    /// Flag bytes filled with the pattern.
    pub fn lent(flag_room: usize) -> Pruned {
        Pruned { result: 0, flags: pattern(flag_room) }
    }
}

/// What outputs hold before a call: never 0 or 1, and not the same byte twice in a row.
fn pattern(length: usize) -> Vec<u8> {
    static PATTERN: LazyLock<Vec<u8>> = LazyLock::new(|| (0..1 << 15).map(|i| 0xA0 | (i % 13) as u8).collect());
    match PATTERN.get(..length) {
        Some(front) => front.to_vec(),
        None => PATTERN.iter().copied().cycle().take(length).collect(),
    }
}
