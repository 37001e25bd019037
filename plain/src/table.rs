//! Rewritten tables as a tree, and how they are packed into words and a literal pool.

use crate::literal::{Literal, LiteralWord, Type, Value};
use crate::predicate::Operator;
use crate::statistic::Place;
use crate::word::{push, put};

/// A statistic against a literal.
#[derive(Clone, Debug, PartialEq, Eq)]
pub struct Against<'a> {
    pub place: Place,
    pub operator: Operator,
    pub literal_first: bool,
    pub literal: Literal<'a>,
}

#[derive(Clone, Debug, PartialEq, Eq)]
pub enum Table<'a> {
    Constant(bool),
    And(Box<Table<'a>>, Box<Table<'a>>),
    Or(Box<Table<'a>>, Box<Table<'a>>),
    Not(Box<Table<'a>>),
    Against(Against<'a>),
    /// Blanks > 0.
    SomeBlank(Place),
    /// Blanks ≠ rows.
    SomeValue {
        blanks: Place,
        rows: Place,
    },
    Truth(Place),
}

impl<'a> Table<'a> {
    /// Unhandled: nothing can be said, so the container stays.
    pub const UNHANDLED: Table<'static> = Table::Constant(true);

    pub fn all(first: Table<'a>, second: Table<'a>) -> Table<'a> {
        Table::And(Box::new(first), Box::new(second))
    }

    pub fn any(first: Table<'a>, second: Table<'a>) -> Table<'a> {
        Table::Or(Box::new(first), Box::new(second))
    }

    /// AND with its constants folded away.
    pub fn folded_and(first: Table<'a>, second: Table<'a>) -> Table<'a> {
        match (first, second) {
            (Table::Constant(false), _) | (_, Table::Constant(false)) => Table::Constant(false),
            (Table::Constant(true), other) | (other, Table::Constant(true)) => other,
            (first, second) => Table::all(first, second),
        }
    }

    /// OR with its constants folded away.
    pub fn folded_or(first: Table<'a>, second: Table<'a>) -> Table<'a> {
        match (first, second) {
            (Table::Constant(true), _) | (_, Table::Constant(true)) => Table::Constant(true),
            (Table::Constant(false), other) | (other, Table::Constant(false)) => other,
            (first, second) => Table::any(first, second),
        }
    }
}

/// A table's words and its literals' bytes.
#[derive(Clone, Debug, Default, PartialEq, Eq)]
pub struct Packed {
    pub table: Vec<u8>,
    pub pool: Vec<u8>,
}

impl Packed {
    pub fn of(table: &Table) -> Packed {
        let mut packed = Packed::default();
        packed.add(table);
        packed
    }

    fn add(&mut self, table: &Table) {
        match table {
            Table::Constant(value) => self.node(0, *value as u8, 0, 0),
            Table::And(first, second) => {
                self.node(1, 0, 0, 0);
                self.add(first);
                self.add(second);
            }
            Table::Or(first, second) => {
                self.node(2, 0, 0, 0);
                self.add(first);
                self.add(second);
            }
            Table::Against(against) => self.against(against),
            Table::SomeBlank(blanks) => self.node(4, 0, blanks.0, 0),
            Table::SomeValue { blanks, rows } => self.node(5, 0, blanks.0, rows.0),
            Table::Truth(place) => self.node(6, 0, place.0, 0),
            Table::Not(inner) => {
                self.node(7, 0, 0, 0);
                self.add(inner);
            }
        }
    }

    fn node(&mut self, kind: u8, operator: u8, first: u8, second: u8) {
        push(&mut self.table, node_word(kind, operator, first, second));
    }

    fn against(&mut self, against: &Against) {
        let node = node_word(3, against.operator as u8, against.place.0, 0);
        push(&mut self.table, node | put(against.literal_first as u64, 24, 1));
        let word = self.literal(&against.literal);
        push(&mut self.table, word);
    }

    /// The literal's word; its bytes go to the pool's end.
    fn literal(&mut self, literal: &Literal) -> u64 {
        let (column_type, bytes): (_, &[u8]) = match literal {
            None => return 0,
            Some(Value::Truth(value)) => {
                return LiteralWord::write(Type::Truth as u8, 0, *value as usize);
            }
            Some(Value::Integer(value)) => (Type::Integer, &value.to_be_bytes()),
            Some(Value::Text(text)) => (Type::Text, text),
        };
        let word = LiteralWord::write(column_type as u8, bytes.len(), self.pool.len());
        self.pool.extend_from_slice(bytes);
        word
    }
}

fn node_word(kind: u8, operator: u8, first: u8, second: u8) -> u64 {
    put(kind as u64, 0, 4) | put(operator as u64, 4, 4) | put(first as u64, 8, 8) | put(second as u64, 16, 8)
}
