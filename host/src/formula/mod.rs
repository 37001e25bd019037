//! Formulas as text: `price > 40 AND (item LIKE 'b%' OR sold IS NULL)`. A mistake is reported with its place.
//!
//! ```text
//! or       and OR and ..
//! and      not AND not ..
//! not      NOT not | ( or ) | test
//! test     side [NOT] IN (value, ..) | side [NOT] LIKE 'pattern' | side [NOT] BETWEEN value AND value
//!          side IS [NOT] NULL | side = value | value < side | side IS [NOT] DISTINCT FROM value
//!          column | TRUE | FALSE | NULL
//! side     a column, or -column
//! value    17, -17, 'text' ('' inside for a quote), TRUE, FALSE, NULL
//! ```
//!
//! The comparisons are = <> != < <= > >=. Words may be in capitals or not. A column whose name is none of letters, digits
//! and _ stands in double quotes.

mod parse;
mod show;
mod token;

use crate::predicate::Predicate;
use crate::schema::Schema;
use std::fmt;
use std::ops::Range;

/// What is wrong with a formula, and where.
#[derive(Clone, Debug, PartialEq, Eq)]
pub struct Mistake {
    /// The formula.
    pub formula: String,
    /// The bytes of it that are wrong.
    pub at: Range<usize>,
    /// What is wrong with them.
    pub message: String,
}

/// Reads a formula over a schema's columns. Columns must be there, and values of their columns' types.
///
/// ```
/// use filughjosa::{ColumnType, Schema, col, formula};
/// let schema = Schema::new([("price", ColumnType::Integer), ("item", ColumnType::Text)])?;
/// let read = formula::read("price > 40 AND item LIKE 'b%'", &schema).unwrap();
/// assert_eq!(read, col("price").gt(40) & col("item").like("b%"));
///
/// let mistake = formula::read("price > 'b'", &schema).unwrap_err();
/// assert_eq!(&mistake.formula[mistake.at.clone()], "'b'");
/// # Ok::<(), filughjosa::Error>(())
/// ```
pub fn read(formula: &str, schema: &Schema) -> Result<Predicate, Mistake> {
    parse::formula(formula, schema).map_err(|(at, message)| Mistake { formula: formula.into(), at, message })
}

/// The message, the line of the formula that it is about, and a mark below its place.
impl fmt::Display for Mistake {
    fn fmt(&self, f: &mut fmt::Formatter) -> fmt::Result {
        let begin = self.formula[..self.at.start].rfind('\n').map_or(0, |at| at + 1);
        let end = self.formula[self.at.start..].find('\n').map_or(self.formula.len(), |at| self.at.start + at);
        let before = self.formula[begin..self.at.start].chars().count();
        let marked = self.formula[self.at.start..self.at.end.min(end).max(self.at.start)].chars().count().max(1);
        writeln!(f, "at character {}: {}", self.formula[..self.at.start].chars().count() + 1, self.message)?;
        writeln!(f, "  {}", &self.formula[begin..end])?;
        write!(f, "  {}{}", " ".repeat(before), "^".repeat(marked))
    }
}

impl std::error::Error for Mistake {}
