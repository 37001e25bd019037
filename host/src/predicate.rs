//! Predicates as a tree, and the words to build one.

use crate::value::Value;
use std::ops::{BitAnd, BitOr, Neg, Not};

/// A comparison, with document 01's number.
#[derive(Clone, Copy, Debug, PartialEq, Eq, Hash)]
#[repr(u8)]
pub enum Operator {
    /// =
    Equal = 0,
    /// ≠
    NotEqual = 1,
    /// <
    Less = 2,
    /// ≤
    LessOrEqual = 3,
    /// \>
    Greater = 4,
    /// ≥
    GreaterOrEqual = 5,
    /// IS DISTINCT FROM: ≠ that takes NULL for a value
    DistinctFrom = 6,
    /// IS NOT DISTINCT FROM: = that takes NULL for a value
    NotDistinctFrom = 7,
}

impl Operator {
    /// Every operator, by its number.
    pub const ALL: [Operator; 8] = [
        Operator::Equal,
        Operator::NotEqual,
        Operator::Less,
        Operator::LessOrEqual,
        Operator::Greater,
        Operator::GreaterOrEqual,
        Operator::DistinctFrom,
        Operator::NotDistinctFrom,
    ];
}

/// A column as one side of a comparison: its name, and how often it is flipped. A flip is a minus on an integer column
/// and a NOT on a truth value; text has none.
#[derive(Clone, Debug, PartialEq, Eq, Hash)]
pub struct Column {
    /// The column's name.
    pub name: String,
    /// How many minuses or NOTs stand before it.
    pub flips: u8,
}

/// A predicate over the columns of a schema.
///
/// ```
/// use filughjosa::{Predicate, col};
/// let cheap = col("price").lt(5) & !col("sold").truth();
/// let named = col("item").like("b%") | col("item").is_in(["apple", "plum"]);
/// let both: Predicate = cheap & named;
/// # let _ = both;
/// ```
#[derive(Clone, Debug, PartialEq, Eq, Hash)]
pub enum Predicate {
    /// False, true, or NULL.
    Constant(Option<bool>),
    /// Both.
    And(Box<Predicate>, Box<Predicate>),
    /// Either.
    Or(Box<Predicate>, Box<Predicate>),
    /// Not.
    Not(Box<Predicate>),
    /// A truth-value column by itself.
    Truth(String),
    /// The column has no value.
    IsNull(String),
    /// The column has a value.
    IsNotNull(String),
    /// A column against a literal.
    Compare {
        /// The column, flipped or not.
        column: Column,
        /// How they are compared.
        operator: Operator,
        /// The literal.
        literal: Value,
        /// Whether the literal is written on the left: 5 < c.
        literal_first: bool,
    },
    /// A column in a list of literals, or not in it.
    List {
        /// The column, flipped or not.
        column: Column,
        /// NOT IN.
        negated: bool,
        /// The literals.
        literals: Vec<Value>,
    },
    /// A text column against a pattern: % is any run, _ one character, a backslash makes the next character plain.
    Like {
        /// The column's name.
        column: String,
        /// NOT LIKE.
        negated: bool,
        /// The pattern, a text or null.
        pattern: Value,
    },
}

/// A column, to begin a predicate with. `-col("c")` is minus the column, `!col("c")` the NOT of a truth value in a comparison.
pub fn col(name: impl Into<String>) -> Column {
    Column { name: name.into(), flips: 0 }
}

impl Column {
    /// The column against a literal.
    pub fn compare(self, operator: Operator, literal: impl Into<Value>) -> Predicate {
        Predicate::Compare { column: self, operator, literal: literal.into(), literal_first: false }
    }

    /// column = literal
    pub fn eq(self, literal: impl Into<Value>) -> Predicate {
        self.compare(Operator::Equal, literal)
    }

    /// column ≠ literal
    pub fn ne(self, literal: impl Into<Value>) -> Predicate {
        self.compare(Operator::NotEqual, literal)
    }

    /// column < literal
    pub fn lt(self, literal: impl Into<Value>) -> Predicate {
        self.compare(Operator::Less, literal)
    }

    /// column ≤ literal
    pub fn le(self, literal: impl Into<Value>) -> Predicate {
        self.compare(Operator::LessOrEqual, literal)
    }

    /// column > literal
    pub fn gt(self, literal: impl Into<Value>) -> Predicate {
        self.compare(Operator::Greater, literal)
    }

    /// column ≥ literal
    pub fn ge(self, literal: impl Into<Value>) -> Predicate {
        self.compare(Operator::GreaterOrEqual, literal)
    }

    /// column IS DISTINCT FROM literal
    pub fn distinct_from(self, literal: impl Into<Value>) -> Predicate {
        self.compare(Operator::DistinctFrom, literal)
    }

    /// column IS NOT DISTINCT FROM literal
    pub fn not_distinct_from(self, literal: impl Into<Value>) -> Predicate {
        self.compare(Operator::NotDistinctFrom, literal)
    }

    /// column IN (literals)
    pub fn is_in<V: Into<Value>>(self, literals: impl IntoIterator<Item = V>) -> Predicate {
        Predicate::List { column: self, negated: false, literals: literals.into_iter().map(Into::into).collect() }
    }

    /// column NOT IN (literals)
    pub fn not_in<V: Into<Value>>(self, literals: impl IntoIterator<Item = V>) -> Predicate {
        Predicate::List { column: self, negated: true, literals: literals.into_iter().map(Into::into).collect() }
    }

    /// column LIKE pattern. Flips of the column are left out: text has none.
    pub fn like(self, pattern: impl Into<Value>) -> Predicate {
        Predicate::Like { column: self.name, negated: false, pattern: pattern.into() }
    }

    /// column NOT LIKE pattern. Flips of the column are left out: text has none.
    pub fn not_like(self, pattern: impl Into<Value>) -> Predicate {
        Predicate::Like { column: self.name, negated: true, pattern: pattern.into() }
    }

    /// column IS NULL. Flips change nothing here.
    pub fn is_null(self) -> Predicate {
        Predicate::IsNull(self.name)
    }

    /// column IS NOT NULL. Flips change nothing here.
    pub fn is_not_null(self) -> Predicate {
        Predicate::IsNotNull(self.name)
    }

    /// A truth-value column by itself, under a NOT for each flip.
    pub fn truth(self) -> Predicate {
        (0..self.flips).fold(Predicate::Truth(self.name), |predicate, _| !predicate)
    }
}

impl Predicate {
    /// All of some predicates, as a balanced tree so that many stay within the depth limit; true where there are none.
    pub fn all(parts: impl IntoIterator<Item = Predicate>) -> Predicate {
        balanced(parts.into_iter().collect(), Predicate::And).unwrap_or(Predicate::Constant(Some(true)))
    }

    /// Any of some predicates, as a balanced tree; false where there are none.
    pub fn any(parts: impl IntoIterator<Item = Predicate>) -> Predicate {
        balanced(parts.into_iter().collect(), Predicate::Or).unwrap_or(Predicate::Constant(Some(false)))
    }
}

/// Joins neighbours until one is left, in order.
fn balanced(mut parts: Vec<Predicate>, join: fn(Box<Predicate>, Box<Predicate>) -> Predicate) -> Option<Predicate> {
    while parts.len() > 1 {
        let mut joined = Vec::with_capacity(parts.len().div_ceil(2));
        let mut rest = parts.into_iter();
        while let Some(left) = rest.next() {
            joined.push(match rest.next() {
                Some(right) => join(left.into(), right.into()),
                None => left,
            });
        }
        parts = joined;
    }
    parts.pop()
}

impl Neg for Column {
    type Output = Column;
    fn neg(self) -> Column {
        // Past 255 the count goes two back: two flips undo each other.
        Column { flips: self.flips.checked_add(1).unwrap_or(254), ..self }
    }
}

impl Not for Column {
    type Output = Column;
    fn not(self) -> Column {
        -self
    }
}

impl Not for Predicate {
    type Output = Predicate;
    fn not(self) -> Predicate {
        Predicate::Not(self.into())
    }
}

impl BitAnd for Predicate {
    type Output = Predicate;
    fn bitand(self, other: Predicate) -> Predicate {
        Predicate::And(self.into(), other.into())
    }
}

impl BitOr for Predicate {
    type Output = Predicate;
    fn bitor(self, other: Predicate) -> Predicate {
        Predicate::Or(self.into(), other.into())
    }
}
