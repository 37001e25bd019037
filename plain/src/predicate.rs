//! Predicates as a tree: what the packed words say, once they are checked.

use std::cmp::Ordering;

use crate::literal::{Literal, Type};

#[derive(Clone, Copy, Debug, PartialEq, Eq)]
pub enum Operator {
    Equal,
    NotEqual,
    Less,
    LessEqual,
    Greater,
    GreaterEqual,
    DistinctFrom,
    NotDistinctFrom,
}

impl Operator {
    const BY_CODE: [Operator; 8] = [
        Operator::Equal,
        Operator::NotEqual,
        Operator::Less,
        Operator::LessEqual,
        Operator::Greater,
        Operator::GreaterEqual,
        Operator::DistinctFrom,
        Operator::NotDistinctFrom,
    ];

    pub fn from_code(code: u8) -> Option<Operator> {
        Operator::BY_CODE.get(code as usize).copied()
    }

    /// The operator with its sides changed over; the distinct-froms have none.
    pub fn swap(self) -> Option<Operator> {
        match self {
            Operator::Equal | Operator::NotEqual => Some(self),
            Operator::Less => Some(Operator::Greater),
            Operator::LessEqual => Some(Operator::GreaterEqual),
            Operator::Greater => Some(Operator::Less),
            Operator::GreaterEqual => Some(Operator::LessEqual),
            Operator::DistinctFrom | Operator::NotDistinctFrom => None,
        }
    }

    /// Does it hold of two sides so ordered? The distinct-froms are not asked here.
    pub fn holds(self, ordering: Ordering) -> Option<bool> {
        match self {
            Operator::Equal => Some(ordering.is_eq()),
            Operator::NotEqual => Some(ordering.is_ne()),
            Operator::Less => Some(ordering.is_lt()),
            Operator::LessEqual => Some(ordering.is_le()),
            Operator::Greater => Some(ordering.is_gt()),
            Operator::GreaterEqual => Some(ordering.is_ge()),
            Operator::DistinctFrom | Operator::NotDistinctFrom => None,
        }
    }
}

/// A column with minuses, or NOTs, before it.
#[derive(Clone, Copy, Debug, PartialEq, Eq)]
pub struct Operand {
    pub column: u8,
    pub column_type: Type,
    pub flips: u8,
}

#[derive(Clone, Debug, PartialEq, Eq)]
pub struct Comparison<'a> {
    pub operand: Operand,
    pub operator: Operator,
    pub literal_first: bool,
    pub literal: Literal<'a>,
}

/// IN, or NOT IN if `negated`.
#[derive(Clone, Debug, PartialEq, Eq)]
pub struct List<'a> {
    pub operand: Operand,
    pub negated: bool,
    pub literals: Vec<Literal<'a>>,
}

/// LIKE, or NOT LIKE if `negated`; a null pattern is `None`.
#[derive(Clone, Debug, PartialEq, Eq)]
pub struct Like<'a> {
    pub column: u8,
    pub negated: bool,
    pub pattern: Option<&'a str>,
}

/// A predicate. `place` counts the words before a comparison's or list's node word.
#[derive(Clone, Debug, PartialEq, Eq)]
pub enum Predicate<'a> {
    Constant(Option<bool>),
    And(Box<Predicate<'a>>, Box<Predicate<'a>>),
    Or(Box<Predicate<'a>>, Box<Predicate<'a>>),
    Not(Box<Predicate<'a>>),
    Truth(u8),
    IsNull(u8),
    IsNotNull(u8),
    Compare { place: usize, comparison: Comparison<'a> },
    List { place: usize, list: List<'a> },
    Like(Like<'a>),
}
