//! What a predicate means on a row: true, false or unknown.

use std::cmp::Ordering;

use crate::kleene::{Truth, and, not, or};
use crate::literal::{Literal, Value};
use crate::predicate::{Comparison, Like, List, Operand, Operator, Predicate};
use crate::text::matches;

/// A row: a value, or null for blank, for each column.
pub type Row<'a> = [Literal<'a>];

pub fn meaning(predicate: &Predicate, row: &Row) -> Truth {
    match predicate {
        Predicate::Constant(value) => *value,
        Predicate::And(first, second) => and(meaning(first, row), meaning(second, row)),
        Predicate::Or(first, second) => or(meaning(first, row), meaning(second, row)),
        Predicate::Not(inner) => not(meaning(inner, row)),
        Predicate::Truth(column) => match row[*column as usize] {
            Some(Value::Truth(value)) => Some(value),
            _ => None,
        },
        Predicate::IsNull(column) => Some(row[*column as usize].is_none()),
        Predicate::IsNotNull(column) => Some(row[*column as usize].is_some()),
        Predicate::Compare { comparison, .. } => compare(comparison, row),
        Predicate::List { list, .. } => listed(list, row),
        Predicate::Like(like) => alike(like, row),
    }
}

fn compare(comparison: &Comparison, row: &Row) -> Truth {
    let Comparison { operand, operator, literal_first, literal } = comparison;
    let ordering = ordering(*operand, row, literal);
    match operator {
        Operator::DistinctFrom => Some(distinct(ordering, *operand, row, literal)),
        Operator::NotDistinctFrom => Some(!distinct(ordering, *operand, row, literal)),
        _ => {
            let ordering = ordering?;
            operator.holds(if *literal_first { ordering.reverse() } else { ordering })
        }
    }
}

/// Unequal, where two nulls are equal and one null is not.
fn distinct(ordering: Option<Ordering>, operand: Operand, row: &Row, literal: &Literal) -> bool {
    match ordering {
        Some(ordering) => ordering.is_ne(),
        None => row[operand.column as usize].is_some() || literal.is_some(),
    }
}

/// The flipped column's value against the literal; nothing if either is null.
fn ordering(operand: Operand, row: &Row, literal: &Literal) -> Option<Ordering> {
    let odd = operand.flips % 2 == 1;
    match (row[operand.column as usize].as_ref()?, literal.as_ref()?) {
        (Value::Integer(value), Value::Integer(literal)) => {
            let value = *value as i128;
            let value = if odd { -value } else { value };
            Some(value.cmp(&(*literal as i128)))
        }
        (Value::Truth(value), Value::Truth(literal)) => Some((value ^ odd).cmp(literal)),
        (value, literal) => Some(value.cmp(literal)),
    }
}

/// IN is an OR of =, NOT IN an AND of ≠.
fn listed(list: &List, row: &Row) -> Truth {
    let mut value = Some(list.negated);
    for literal in &list.literals {
        let ordering = ordering(list.operand, row, literal);
        value = match list.negated {
            true => and(value, ordering.map(Ordering::is_ne)),
            false => or(value, ordering.map(Ordering::is_eq)),
        };
    }
    value
}

fn alike(like: &Like, row: &Row) -> Truth {
    let Some(Value::Text(bytes)) = &row[like.column as usize] else {
        return None;
    };
    let text = str::from_utf8(bytes).ok()?;
    let value = Some(matches(like.pattern?, text));
    if like.negated { not(value) } else { value }
}
