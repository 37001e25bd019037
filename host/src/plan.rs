//! Plans: a predicate rewritten once, then any number of blocks judged by it.

use crate::block::{Block, Cell};
use crate::error::Error;
use crate::pack::Packed;
use crate::packed::{self, Grid, Rewritten};
use crate::predicate::Predicate;
use crate::raw;
use crate::schema::Schema;
use crate::value::{ColumnType, Value};
use crate::word::{self, GUARANTEE, LITERAL, NODE, STATISTIC};
use std::fmt;

/// A kind of statistic, with document 01's number.
#[derive(Clone, Copy, Debug, PartialEq, Eq, Hash)]
#[repr(u8)]
pub enum Kind {
    /// A lower bound of every value.
    Least = 0,
    /// An upper bound of every value.
    Greatest = 1,
    /// How many rows have no value.
    Blanks = 2,
    /// How many rows there are.
    Rows = 3,
}

/// A statistic that a plan asks each block for.
#[derive(Clone, Debug, PartialEq, Eq, Hash)]
pub struct Asked {
    /// The column's name. Rows are counted once for all columns, and stand under the first.
    pub column: String,
    /// What is asked of it.
    pub kind: Kind,
}

impl fmt::Display for Asked {
    fn fmt(&self, f: &mut fmt::Formatter) -> fmt::Result {
        match self.kind {
            Kind::Least => write!(f, "least {}", self.column),
            Kind::Greatest => write!(f, "greatest {}", self.column),
            Kind::Blanks => write!(f, "blanks of {}", self.column),
            Kind::Rows => f.write_str("rows"),
        }
    }
}

/// A set of values that the predicate demands, or rules out, on a column. A block whose values are known to lie all
/// outside, or all inside, can be dropped by it.
#[derive(Clone, Debug, PartialEq, Eq)]
pub struct Guarantee {
    /// The column's name.
    pub column: String,
    /// Whether a match must lie outside the set (≠, NOT IN) rather than inside it (=, IN).
    pub not_in: bool,
    /// The set.
    pub set: Vec<Value>,
}

/// What a block knows of a guarantee's set.
#[derive(Clone, Copy, Debug, Default, PartialEq, Eq, Hash)]
#[repr(u8)]
pub enum Answer {
    /// Nothing.
    #[default]
    Unknown = 0,
    /// Every value of the block is in the set.
    AllInside = 1,
    /// No value of the block is in the set.
    NoneInside = 2,
}

impl Answer {
    /// What is known of a guarantee where all values of its column in a block are at hand.
    pub fn of<'a>(guarantee: &Guarantee, values: impl IntoIterator<Item = &'a Value>) -> Answer {
        let (mut inside, mut outside) = (false, false);
        for value in values.into_iter().filter(|value| **value != Value::Null) {
            if guarantee.set.contains(value) { inside = true } else { outside = true }
        }
        match (inside, outside) {
            (true, true) => Answer::Unknown,
            (true, false) => Answer::AllInside,
            (false, _) => Answer::NoneInside,
        }
    }
}

/// A predicate, rewritten and ready to judge blocks.
#[derive(Clone, Debug)]
pub struct Plan {
    schema: Schema,
    packed_schema: Vec<u8>,
    rewritten: Rewritten,
    asked: Vec<Asked>,
    kinds: Vec<ColumnType>,
    guarantees: Vec<Guarantee>,
}

impl Plan {
    /// Rewrites a predicate; lists of up to 20 values are handled, as in the original.
    pub fn new(schema: &Schema, predicate: &Predicate) -> Result<Plan, Error> {
        Plan::with_list_limit(schema, predicate, raw::LIST_LIMIT)
    }

    /// The same with another limit, up to 256.
    pub fn with_list_limit(schema: &Schema, predicate: &Predicate, list_limit: u64) -> Result<Plan, Error> {
        let source = Packed::new(schema, predicate)?;
        let packed_schema = schema.packed();
        let rewritten = packed::rewrite(&packed_schema, &source.words, &source.pool, list_limit)?;
        let statistics: Vec<_> = word::words(&rewritten.statistics).map(|w| word::unpack(STATISTIC, w).0).collect();
        let name = |column: u64| schema.name(column as u8).unwrap_or_default().to_string();
        let kind = |code: u64| [Kind::Least, Kind::Greatest, Kind::Blanks, Kind::Rows][code as usize];
        Ok(Plan {
            asked: statistics.iter().map(|[column, code]| Asked { column: name(*column), kind: kind(*code) }).collect(),
            kinds: statistics.iter().filter_map(|[column, _]| schema.kind(*column as u8)).collect(),
            guarantees: read_guarantees(schema, &source, &rewritten.guarantees),
            schema: schema.clone(),
            packed_schema,
            rewritten,
        })
    }

    /// The statistics that the plan reads, in order. A block may leave any of them out; then it is kept more often.
    pub fn asked(&self) -> &[Asked] {
        &self.asked
    }

    /// The sets that a block may give answers about, in order.
    pub fn guarantees(&self) -> &[Guarantee] {
        &self.guarantees
    }

    /// The packed outcome of rewriting.
    pub fn rewritten(&self) -> &Rewritten {
        &self.rewritten
    }

    /// Judges blocks: true where a block must be read, false where no row of it can match.
    pub fn keep(&self, blocks: &[Block]) -> Result<Vec<bool>, Error> {
        for (at, block) in blocks.iter().enumerate() {
            if let Some(name) = block.columns().find(|name| self.schema.column(name).is_none()) {
                return Err(Error::NoColumn(name.into()));
            }
            if !block.answers.is_empty() && block.answers.len() != self.guarantees.len() {
                return Err(Error::WrongAnswers { block: at, guarantees: self.guarantees.len() });
            }
        }
        self.keep_with(
            blocks.len(),
            |at, asked| blocks[at].cell(asked),
            |at, guarantee| blocks[at].answers.get(guarantee).copied().unwrap_or_default(),
        )
    }

    /// Judges blocks whose summaries are kept elsewhere: `cell` is asked for a block's statistic, and `answer` for what a
    /// block knows of a guarantee, both by their place in order. More blocks than one call takes are judged in pieces.
    pub fn keep_with<'c>(
        &self,
        blocks: usize,
        mut cell: impl FnMut(usize, &Asked) -> Cell<'c>,
        mut answer: impl FnMut(usize, usize) -> Answer,
    ) -> Result<Vec<bool>, Error> {
        let mut kept = Vec::with_capacity(blocks);
        let mut piece = Piece::default();
        for block in 0..blocks {
            for (asked, kind) in self.asked.iter().zip(&self.kinds) {
                let wrong = || Error::WrongType { block, asked: asked.clone() };
                piece.put(cell(block, asked), asked.kind, *kind).ok_or_else(wrong)?;
            }
            piece.answers.extend((0..self.guarantees.len()).map(|at| answer(block, at) as u8));
            piece.containers += 1;
            if piece.is_full() {
                kept.extend(self.judge(&piece)?);
                piece = Piece::default();
            }
        }
        kept.extend(self.judge(&piece)?);
        Ok(kept)
    }

    fn judge(&self, piece: &Piece) -> Result<Vec<bool>, Error> {
        let grid = Grid {
            containers: piece.containers as u64,
            cells: &piece.cells,
            cell_pool: &piece.pool,
            answers: &piece.answers,
        };
        Ok(packed::prune(&self.packed_schema, &self.rewritten, grid)?)
    }
}

/// Blocks packed for one call.
#[derive(Default)]
struct Piece {
    containers: usize,
    cells: Vec<u8>,
    pool: Vec<u8>,
    answers: Vec<u8>,
}

/// A piece ends here, so that one more block's cells stay within a cell's offset field.
const PIECE_POOL: usize = 1 << 23;

impl Piece {
    fn is_full(&self) -> bool {
        self.containers == raw::MAX_CONTAINERS || self.pool.len() > PIECE_POOL
    }

    /// Adds a cell; none where its type is not what the statistic asks for.
    fn put(&mut self, cell: Cell, kind: Kind, column: ColumnType) -> Option<()> {
        let bound = matches!(kind, Kind::Least | Kind::Greatest);
        let word = match (cell, column) {
            (Cell::Absent, _) => 0,
            (Cell::Count(n), _) if !bound => word::put_bytes(1, &n.to_be_bytes(), &mut self.pool)?,
            (Cell::Integer(i), ColumnType::Integer) if bound => word::put_bytes(1, &i.to_be_bytes(), &mut self.pool)?,
            // A bound too long for a cell is left out, which only keeps more.
            (Cell::Text(t), ColumnType::Text) if bound && t.len() > word::MAX_LENGTH => 0,
            (Cell::Text(t), ColumnType::Text) if bound => word::put_bytes(2, t, &mut self.pool)?,
            (Cell::Truth(t), ColumnType::Truth) if bound => word::pack(LITERAL, [3, 0, 0, t.into()]),
            _ => return None,
        };
        self.cells.extend_from_slice(&word.to_be_bytes());
        Some(())
    }
}

/// The guarantees with their sets, read off the predicate's words that they point at.
fn read_guarantees(schema: &Schema, source: &Packed, guarantees: &[u8]) -> Vec<Guarantee> {
    let words: Vec<u64> = word::words(&source.words).collect();
    let set = |place: usize| {
        let ([kind, _, _, _, _, count], _) = word::unpack(NODE, words[place]);
        let literals = if kind == 8 { count as usize } else { 1 };
        let values = words[place + 1..].iter().take(literals).filter_map(|w| word::get_value(*w, &source.pool));
        values.filter(|value| *value != Value::Null).collect()
    };
    word::words(guarantees)
        .map(|w| {
            let ([column, not_in, place], _) = word::unpack(GUARANTEE, w);
            let column = schema.name(column as u8).unwrap_or_default().to_string();
            Guarantee { column, not_in: not_in == 1, set: set(place as usize) }
        })
        .collect()
}
