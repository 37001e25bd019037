//! Schemas: the names and types of columns.

use crate::error::Error;
use crate::value::ColumnType;

/// Columns a schema may have.
pub const MAX_COLUMNS: usize = 64;

/// The columns that predicates and summaries speak of, by name.
///
/// ```
/// use filughjosa::{ColumnType, Schema};
/// let schema = Schema::new([("price", ColumnType::Integer), ("item", ColumnType::Text)])?;
/// assert_eq!(schema.packed(), [1, 2]);
/// assert_eq!(schema.column("item"), Some(1));
/// assert!(Schema::new([("price", ColumnType::Integer), ("price", ColumnType::Text)]).is_err());
/// # Ok::<(), filughjosa::Error>(())
/// ```
#[derive(Clone, Debug, PartialEq, Eq)]
pub struct Schema {
    columns: Vec<(String, ColumnType)>,
}

impl Schema {
    /// A schema of named columns. Names differ from each other, and there are at most 64.
    pub fn new<N: Into<String>>(columns: impl IntoIterator<Item = (N, ColumnType)>) -> Result<Schema, Error> {
        let mut schema = Schema { columns: Vec::new() };
        for (name, kind) in columns {
            let name = name.into();
            if schema.column(&name).is_some() {
                return Err(Error::ColumnTwice(name));
            }
            if schema.columns.len() == MAX_COLUMNS {
                return Err(Error::TooManyColumns);
            }
            schema.columns.push((name, kind));
        }
        Ok(schema)
    }

    /// The number of a column, by name.
    pub fn column(&self, name: &str) -> Option<u8> {
        self.columns.iter().position(|(n, _)| n == name).map(|at| at as u8)
    }

    /// The name of a column, by number.
    pub fn name(&self, column: u8) -> Option<&str> {
        self.columns.get(usize::from(column)).map(|(name, _)| name.as_str())
    }

    /// The type of a column, by number.
    pub fn kind(&self, column: u8) -> Option<ColumnType> {
        self.columns.get(usize::from(column)).map(|(_, kind)| *kind)
    }

    /// The names and types, in order.
    pub fn columns(&self) -> impl Iterator<Item = (&str, ColumnType)> {
        self.columns.iter().map(|(name, kind)| (name.as_str(), *kind))
    }

    /// A byte a column, as the C functions take it.
    pub fn packed(&self) -> Vec<u8> {
        self.columns.iter().map(|(_, kind)| *kind as u8).collect()
    }
}
