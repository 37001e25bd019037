//! Blocks: what is known of the rows that each holds.

use crate::plan::{Answer, Asked, Kind};
use crate::schema::Schema;
use crate::value::Value;
use std::collections::BTreeMap;

/// A statistic of a block, as it is handed to a plan.
#[derive(Clone, Copy, Debug, PartialEq, Eq)]
pub enum Cell<'a> {
    /// Not known.
    Absent,
    /// A bound of an integer column.
    Integer(i64),
    /// A bound of a text column.
    Text(&'a [u8]),
    /// A bound of a truth-value column.
    Truth(bool),
    /// Blanks or rows.
    Count(u64),
}

impl<'a> From<&'a Value> for Cell<'a> {
    fn from(value: &'a Value) -> Cell<'a> {
        match value {
            Value::Null => Cell::Absent,
            Value::Integer(i) => Cell::Integer(*i),
            Value::Text(t) => Cell::Text(t),
            Value::Truth(t) => Cell::Truth(*t),
        }
    }
}

/// What is known of one column in a block. What is not known is left out.
#[derive(Clone, Debug, PartialEq, Eq)]
pub struct Summary {
    least: Value,
    greatest: Value,
    blanks: Option<u64>,
}

impl Summary {
    /// Nothing is known.
    pub fn unknown() -> Summary {
        Summary { least: Value::Null, greatest: Value::Null, blanks: None }
    }

    /// Bounds of every value. They need not occur.
    pub fn bounds(least: impl Into<Value>, greatest: impl Into<Value>) -> Summary {
        Summary { least: least.into(), greatest: greatest.into(), blanks: None }
    }

    /// How many rows have no value.
    pub fn blanks(self, blanks: u64) -> Summary {
        Summary { blanks: Some(blanks), ..self }
    }

    /// The summary of values at hand: exact bounds and the number of blanks.
    pub fn of<'a>(values: impl IntoIterator<Item = &'a Value>) -> Summary {
        let mut summary = Summary::unknown().blanks(0);
        for value in values {
            if *value == Value::Null {
                summary.blanks = summary.blanks.map(|blanks| blanks + 1);
                continue;
            }
            if summary.least == Value::Null || *value < summary.least {
                summary.least = value.clone();
            }
            if summary.greatest == Value::Null || *value > summary.greatest {
                summary.greatest = value.clone();
            }
        }
        summary
    }
}

/// What is known of one block.
///
/// ```
/// use filughjosa::{Block, Summary};
/// let block = Block::new().rows(5).column("price", Summary::bounds(10, 20).blanks(0));
/// # let _ = block;
/// ```
#[derive(Clone, Debug, Default, PartialEq, Eq)]
pub struct Block {
    rows: Option<u64>,
    columns: BTreeMap<String, Summary>,
    pub(crate) answers: Vec<Answer>,
}

impl Block {
    /// A block of which nothing is known.
    pub fn new() -> Block {
        Block::default()
    }

    /// How many rows the block has.
    pub fn rows(self, rows: u64) -> Block {
        Block { rows: Some(rows), ..self }
    }

    /// What is known of a column.
    pub fn column(mut self, name: impl Into<String>, summary: Summary) -> Block {
        self.columns.insert(name.into(), summary);
        self
    }

    /// What is known of each of a plan's guarantees, in order; or nothing at all.
    pub fn answers(self, answers: impl IntoIterator<Item = Answer>) -> Block {
        Block { answers: answers.into_iter().collect(), ..self }
    }

    /// The exact summary of rows at hand, each with a value for each column of the schema, in order.
    pub fn of_rows(schema: &Schema, rows: &[Vec<Value>]) -> Block {
        let mut block = Block::new().rows(rows.len() as u64);
        for (at, (name, _)) in schema.columns().enumerate() {
            block = block.column(name, Summary::of(rows.iter().map(|row| row.get(at).unwrap_or(&Value::Null))));
        }
        block
    }

    /// The columns that the block has a summary of.
    pub fn columns(&self) -> impl Iterator<Item = &str> {
        self.columns.keys().map(String::as_str)
    }

    /// The cell of a statistic.
    pub(crate) fn cell(&self, asked: &Asked) -> Cell<'_> {
        let summary = self.columns.get(&asked.column);
        let count = |n: Option<u64>| n.map_or(Cell::Absent, Cell::Count);
        match asked.kind {
            Kind::Least => summary.map_or(Cell::Absent, |s| Cell::from(&s.least)),
            Kind::Greatest => summary.map_or(Cell::Absent, |s| Cell::from(&s.greatest)),
            Kind::Blanks => count(summary.and_then(|s| s.blanks)),
            Kind::Rows => count(self.rows),
        }
    }
}
