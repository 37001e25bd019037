//! Column types, values, and the literal words that name values in a pool.

use std::borrow::Cow;

use crate::word::{field, put};

#[derive(Clone, Copy, Debug, PartialEq, Eq)]
pub enum Type {
    Integer = 1,
    Text = 2,
    Truth = 3,
}

impl Type {
    pub fn from_code(code: u8) -> Option<Type> {
        match code {
            1 => Some(Type::Integer),
            2 => Some(Type::Text),
            3 => Some(Type::Truth),
            _ => None,
        }
    }
}

/// A value that is not null. Within a type the derived order is document 01's.
#[derive(Clone, Debug, PartialEq, Eq, PartialOrd, Ord)]
pub enum Value<'a> {
    Integer(i64),
    Text(Cow<'a, [u8]>),
    Truth(bool),
}

/// A value, or null.
pub type Literal<'a> = Option<Value<'a>>;

/// The fields of a literal word, before anything is asked of them.
#[derive(Clone, Copy, Debug, PartialEq, Eq)]
pub struct LiteralWord {
    pub code: u8,
    pub length: usize,
    pub zero: u64,
    pub offset: usize,
}

impl LiteralWord {
    pub fn read(word: u64) -> LiteralWord {
        LiteralWord {
            code: field(word, 0, 2) as u8,
            length: field(word, 2, 14) as usize,
            zero: field(word, 16, 24),
            offset: field(word, 40, 24) as usize,
        }
    }

    pub fn write(code: u8, length: usize, offset: usize) -> u64 {
        put(code as u64, 0, 2) | put(length as u64, 2, 14) | put(offset as u64, 40, 24)
    }

    pub fn is_null(self) -> bool {
        self.code == 0
    }

    /// No unnamed bit is set, and a null is nothing but null.
    pub fn form_is_sound(self) -> bool {
        self.zero == 0 && (!self.is_null() || (self.length == 0 && self.offset == 0))
    }

    /// The bytes it names, if they lie in the pool.
    pub fn bytes(self, pool: &[u8]) -> Option<&[u8]> {
        pool.get(self.offset..self.offset + self.length)
    }

    /// The eight bytes it names, as an integer word has them.
    pub fn eight(self, pool: &[u8]) -> Option<[u8; 8]> {
        self.bytes(pool)?.try_into().ok()
    }

    /// The value of type `wanted` that it names; nothing if type, length, truth value or range is bad.
    pub fn value(self, wanted: Type, pool: &[u8]) -> Option<Value<'_>> {
        if self.code != wanted as u8 {
            return None;
        }
        match wanted {
            Type::Integer => Some(Value::Integer(i64::from_be_bytes(self.eight(pool)?))),
            Type::Text => Some(Value::Text(Cow::Borrowed(self.bytes(pool)?))),
            Type::Truth if self.length == 0 && self.offset <= 1 => Some(Value::Truth(self.offset == 1)),
            Type::Truth => None,
        }
    }
}

/// The types of a schema's columns, or nothing if it is no schema.
pub fn schema_types(schema: &[u8]) -> Option<Vec<Type>> {
    if schema.len() > crate::limits::COLUMNS {
        return None;
    }
    schema.iter().map(|code| Type::from_code(*code)).collect()
}
