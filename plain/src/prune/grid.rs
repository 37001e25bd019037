//! The grid of cells: a container's statistics, read from their words and the cell pool.

use super::PruneCall;
use crate::literal::{LiteralWord, Type, Value};
use crate::rules::{Mutant, Rules};
use crate::statistic::{Kind, Statistic};

/// A present or absent statistic of a container.
#[derive(Clone, Debug, PartialEq, Eq)]
pub enum Cell<'a> {
    Absent,
    Count(u64),
    Bound(Value<'a>),
}

/// Every cell, container by container, or nothing if one is bad or their number is.
pub fn read_grid<'a>(
    rules: &Rules,
    schema: &[Type],
    statistics: &[Statistic],
    call: &PruneCall<'a>,
) -> Option<Vec<Cell<'a>>> {
    if call.grid.len() != call.containers as usize * statistics.len() * 8 {
        return None;
    }
    let (words, _) = call.grid.as_chunks::<8>();
    let listed = statistics.iter().cycle();
    let cells = words.iter().zip(listed).map(|(word, statistic)| {
        let word = LiteralWord::read(u64::from_be_bytes(*word));
        let column_type = schema[statistic.column as usize];
        read_cell(rules, word, statistic.kind, column_type, call.cell_pool)
    });
    cells.collect()
}

fn read_cell<'a>(rules: &Rules, word: LiteralWord, kind: Kind, column_type: Type, pool: &'a [u8]) -> Option<Cell<'a>> {
    if word.is_null() && rules.has(Mutant::AbsentWithRest) {
        return Some(Cell::Absent);
    }
    if !word.form_is_sound() {
        return None;
    }
    if word.is_null() {
        return Some(Cell::Absent);
    }
    match kind {
        Kind::Least | Kind::Greatest => word.value(column_type, pool).map(Cell::Bound),
        Kind::Blanks | Kind::Rows => count(rules, word, pool).map(Cell::Count),
    }
}

/// An integer cell, read unsigned.
fn count(rules: &Rules, word: LiteralWord, pool: &[u8]) -> Option<u64> {
    let Value::Integer(count) = word.value(Type::Integer, pool)? else {
        return None;
    };
    let signed = rules.has(Mutant::SignedBlanks);
    Some(if signed { count.max(0) as u64 } else { count as u64 })
}
