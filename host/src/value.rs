//! Values: what literals and summaries hold.

use std::fmt;

/// A value of a column, or none.
#[derive(Clone, Debug, PartialEq, Eq, PartialOrd, Ord, Hash)]
pub enum Value {
    /// No value: NULL in a formula, a blank in a row.
    Null,
    /// A signed integer of 64 bits.
    Integer(i64),
    /// A text, as bytes. LIKE patterns must be UTF-8; other texts are compared byte by byte.
    Text(Vec<u8>),
    /// A truth value.
    Truth(bool),
}

/// The type of a column, with document 01's number.
#[derive(Clone, Copy, Debug, PartialEq, Eq, Hash)]
#[repr(u8)]
pub enum ColumnType {
    /// Signed integers of 64 bits.
    Integer = 1,
    /// Texts.
    Text = 2,
    /// Truth values.
    Truth = 3,
}

impl Value {
    /// The type, or none for a null.
    pub fn kind(&self) -> Option<ColumnType> {
        match self {
            Value::Null => None,
            Value::Integer(_) => Some(ColumnType::Integer),
            Value::Text(_) => Some(ColumnType::Text),
            Value::Truth(_) => Some(ColumnType::Truth),
        }
    }
}

impl fmt::Display for ColumnType {
    fn fmt(&self, f: &mut fmt::Formatter) -> fmt::Result {
        f.write_str(match self {
            ColumnType::Integer => "integer",
            ColumnType::Text => "text",
            ColumnType::Truth => "truth value",
        })
    }
}

/// As a formula writes it.
impl fmt::Display for Value {
    fn fmt(&self, f: &mut fmt::Formatter) -> fmt::Result {
        match self {
            Value::Null => f.write_str("NULL"),
            Value::Integer(i) => write!(f, "{i}"),
            Value::Text(t) => write!(f, "'{}'", String::from_utf8_lossy(t).replace('\'', "''")),
            Value::Truth(t) => f.write_str(if *t { "TRUE" } else { "FALSE" }),
        }
    }
}

impl From<i64> for Value {
    fn from(i: i64) -> Value {
        Value::Integer(i)
    }
}

impl From<i32> for Value {
    fn from(i: i32) -> Value {
        Value::Integer(i.into())
    }
}

impl From<&str> for Value {
    fn from(t: &str) -> Value {
        Value::Text(t.into())
    }
}

impl From<String> for Value {
    fn from(t: String) -> Value {
        Value::Text(t.into())
    }
}

impl From<bool> for Value {
    fn from(t: bool) -> Value {
        Value::Truth(t)
    }
}

impl<T: Into<Value>> From<Option<T>> for Value {
    fn from(some: Option<T>) -> Value {
        some.map_or(Value::Null, Into::into)
    }
}
