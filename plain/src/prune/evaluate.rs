//! The value of a table over a container's cells. A side that decides spares the other.

use super::grid::Cell;
use crate::kleene::{Truth, and, not, or};
use crate::literal::Value;
use crate::statistic::Place;
use crate::table::{Against, Table};

pub fn evaluate(table: &Table, cells: &[Cell]) -> Truth {
    match table {
        Table::Constant(value) => Some(*value),
        Table::And(first, second) => match evaluate(first, cells) {
            Some(false) => Some(false),
            value => and(value, evaluate(second, cells)),
        },
        Table::Or(first, second) => match evaluate(first, cells) {
            Some(true) => Some(true),
            value => or(value, evaluate(second, cells)),
        },
        Table::Not(inner) => not(evaluate(inner, cells)),
        Table::Against(comparison) => against(comparison, cells),
        Table::SomeBlank(blanks) => Some(count(cells, *blanks)? > 0),
        Table::SomeValue { blanks, rows } => Some(count(cells, *blanks)? != count(cells, *rows)?),
        Table::Truth(place) => match bound(cells, *place)? {
            Value::Truth(value) => Some(*value),
            _ => None,
        },
    }
}

fn against(comparison: &Against, cells: &[Cell]) -> Truth {
    let bound = bound(cells, comparison.place)?;
    let literal = comparison.literal.as_ref()?;
    let ordering = if comparison.literal_first { literal.cmp(bound) } else { bound.cmp(literal) };
    comparison.operator.holds(ordering)
}

fn count(cells: &[Cell], place: Place) -> Option<u64> {
    match cells[place.0 as usize] {
        Cell::Count(count) => Some(count),
        _ => None,
    }
}

fn bound<'c, 'a>(cells: &'c [Cell<'a>], place: Place) -> Option<&'c Value<'a>> {
    match &cells[place.0 as usize] {
        Cell::Bound(value) => Some(value),
        _ => None,
    }
}
