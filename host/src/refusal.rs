//! The refusals of document 01: a number and a sentence each.

use std::error::Error;
use std::fmt;

/// Why a call was refused. A refused call has written nothing.
#[derive(Clone, Copy, Debug, PartialEq, Eq, Hash, PartialOrd, Ord)]
#[repr(u8)]
pub enum Refusal {
    /// 1: over 64 columns, or an unknown column type.
    Schema = 1,
    /// 2: the list limit is over 256, or the literal pool over 65,536 bytes.
    ListLimitOrPool = 2,
    /// 3: a lent output is below its room.
    Room = 3,
    /// 4: the predicate's words are malformed.
    Malformed = 4,
    /// 5: a node, depth, list, literal or sum limit is passed.
    OverLimit = 5,
    /// 6: a column or a literal does not suit.
    Misfit = 6,
    /// 7: over 4,096 containers, or too few flag bytes.
    Containers = 7,
    /// 8: the table, its pool, the statistics list or the guarantees break their rules.
    Table = 8,
    /// 9: the grid's size or a cell is wrong.
    Grid = 9,
    /// 10: the number of answers or an answer is wrong.
    Answers = 10,
}

impl Refusal {
    /// Every refusal, by its number.
    pub const ALL: [Refusal; 10] = [
        Refusal::Schema,
        Refusal::ListLimitOrPool,
        Refusal::Room,
        Refusal::Malformed,
        Refusal::OverLimit,
        Refusal::Misfit,
        Refusal::Containers,
        Refusal::Table,
        Refusal::Grid,
        Refusal::Answers,
    ];

    /// Document 01's number.
    pub fn number(self) -> u8 {
        self as u8
    }

    /// The refusal with a number, if there is one.
    ///
    /// ```
    /// use filughjosa::Refusal;
    /// assert_eq!(Refusal::from_number(5), Some(Refusal::OverLimit));
    /// assert_eq!(Refusal::from_number(0), None);
    /// ```
    pub fn from_number(number: u64) -> Option<Refusal> {
        Refusal::ALL.into_iter().find(|r| u64::from(r.number()) == number)
    }

    /// What the refusal says, as a sentence.
    pub fn sentence(self) -> &'static str {
        match self {
            Refusal::Schema => "the schema has over 64 columns, or a type that is not integer, text or truth value",
            Refusal::ListLimitOrPool => "the list limit is over 256, or the literals take over 65,536 bytes",
            Refusal::Room => "an output buffer is smaller than rewriting asks for",
            Refusal::Malformed => "the predicate's words are not well formed",
            Refusal::OverLimit => {
                "the predicate passes a limit: 255 nodes, depth 32, 256 list literals, 1,024 bytes a literal, 8,192 bytes of literals"
            }
            Refusal::Misfit => "a column is not in the schema, or a literal or an operation does not suit its column",
            Refusal::Containers => "there are over 4,096 blocks, or fewer flag bytes than blocks",
            Refusal::Table => {
                "the rewritten table, its pool, the statistics list or the guarantees are not well formed"
            }
            Refusal::Grid => "the grid has not a cell for each block and statistic, or a cell is not well formed",
            Refusal::Answers => "the answers are neither none nor one for each block and guarantee, or one is over 2",
        }
    }
}

impl fmt::Display for Refusal {
    fn fmt(&self, f: &mut fmt::Formatter) -> fmt::Result {
        write!(f, "refusal {}: {}", self.number(), self.sentence())
    }
}

impl Error for Refusal {}
