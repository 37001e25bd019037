//! What can go wrong before or in a call, each as a sentence.

use crate::plan::Asked;
use crate::refusal::Refusal;
use std::fmt;

/// Why something could not be built, packed or judged.
#[derive(Clone, Debug, PartialEq, Eq)]
pub enum Error {
    /// The library refused the call.
    Refused(Refusal),
    /// A name is no column of the schema.
    NoColumn(String),
    /// Two columns have one name.
    ColumnTwice(String),
    /// A schema of more than 64 columns.
    TooManyColumns,
    /// A literal, or all literals together, are longer than a packed word can say.
    LiteralTooLong,
    /// A list has more values than a packed word can say.
    ListTooLong,
    /// A packed predicate has a word that stands for nothing; the number is the word's place.
    BadWord(usize),
    /// A block's summary has a value of another type than its column.
    WrongType {
        /// The block, counted from 0.
        block: usize,
        /// The statistic that the value was given for.
        asked: Asked,
    },
    /// A block answers another number of guarantees than the plan has.
    WrongAnswers {
        /// The block, counted from 0.
        block: usize,
        /// How many guarantees the plan has.
        guarantees: usize,
    },
}

impl fmt::Display for Error {
    fn fmt(&self, f: &mut fmt::Formatter) -> fmt::Result {
        match self {
            Error::Refused(refusal) => refusal.fmt(f),
            Error::NoColumn(name) => write!(f, "there is no column {name}"),
            Error::ColumnTwice(name) => write!(f, "there are two columns {name}"),
            Error::TooManyColumns => f.write_str("a schema has at most 64 columns"),
            Error::LiteralTooLong => f.write_str("the literals are too long to be packed"),
            Error::ListTooLong => f.write_str("a list has too many values to be packed"),
            Error::BadWord(at) => write!(f, "word {at} of the packed predicate stands for nothing"),
            Error::WrongType { block, asked } => write!(f, "block {block}: the {asked} is of another type"),
            Error::WrongAnswers { block, guarantees } => {
                write!(f, "block {block}: the answers are not one for each of {guarantees} guarantees")
            }
        }
    }
}

impl std::error::Error for Error {}

impl From<Refusal> for Error {
    fn from(refusal: Refusal) -> Error {
        Error::Refused(refusal)
    }
}
