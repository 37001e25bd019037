//! Rewriting: from a call's bytes to table, pool, statistics and guarantees, or a refusal.

mod forms;
mod tree;

use crate::guarantee::{guarantee_bytes, guarantees};
use crate::limits;
use crate::literal::schema_types;
use crate::reader::read;
use crate::refusal::{self, refuse_unless};
use crate::rules::Rules;
use crate::table::Packed;
use crate::word::put;

/// The lengths of the lent outputs.
#[derive(Clone, Copy, Debug, PartialEq, Eq)]
pub struct Rooms {
    pub table: usize,
    pub pool: usize,
    pub statistics: usize,
    pub guarantees: usize,
}

impl Rooms {
    /// Exactly the rooms that document 01 asks for.
    pub const LEAST: Rooms = Rooms {
        table: limits::TABLE_ROOM,
        pool: limits::TABLE_POOL_ROOM,
        statistics: limits::STATISTICS_ROOM,
        guarantees: limits::GUARANTEES_ROOM,
    };

    fn suffice(self) -> bool {
        self.table >= Rooms::LEAST.table
            && self.pool >= Rooms::LEAST.pool
            && self.statistics >= Rooms::LEAST.statistics
            && self.guarantees >= Rooms::LEAST.guarantees
    }
}

/// What a call of rewriting is given.
#[derive(Clone, Copy, Debug)]
pub struct RewriteCall<'a> {
    pub schema: &'a [u8],
    pub predicate: &'a [u8],
    pub pool: &'a [u8],
    pub list_limit: u64,
    pub rooms: Rooms,
}

/// What an accepted call writes.
#[derive(Clone, Debug, PartialEq, Eq)]
pub struct Outputs {
    pub table: Vec<u8>,
    pub pool: Vec<u8>,
    pub statistics: Vec<u8>,
    pub guarantees: Vec<u8>,
}

pub fn rewrite(rules: &Rules, call: &RewriteCall) -> Result<Outputs, u8> {
    let schema = schema_types(call.schema).ok_or(refusal::SCHEMA)?;
    let sized = call.list_limit <= limits::LIST_LIMIT && call.pool.len() <= limits::POOL_BYTES;
    refuse_unless(sized, refusal::ARGUMENT)?;
    refuse_unless(call.rooms.suffice(), refusal::ROOM)?;
    let predicate = read(rules, &schema, call.predicate, call.pool)?;
    let (table, statistics) = tree::rewrite_tree(rules, call.list_limit as usize, &predicate);
    let Packed { table, pool } = Packed::of(&table);
    let guarantees = guarantee_bytes(&guarantees(rules, &predicate));
    Ok(Outputs { table, pool, statistics: statistics.bytes(), guarantees })
}

/// The word that rewriting answers with.
pub fn answer_word(result: &Result<Outputs, u8>) -> u64 {
    match result {
        Err(refusal) => put(*refusal as u64, 0, 8),
        Ok(outputs) => {
            put(outputs.table.len() as u64 / 8, 8, 16)
                | put(outputs.pool.len() as u64, 24, 16)
                | put(outputs.statistics.len() as u64 / 8, 40, 8)
                | put(outputs.guarantees.len() as u64 / 8, 48, 8)
        }
    }
}
