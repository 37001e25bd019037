//! Reads packed predicate words into a tree, or gives the refusal of the first faulty word.

use crate::limits;
use crate::literal::{Literal, LiteralWord, Type, Value};
use crate::predicate::{Comparison, Like, List, Operand, Operator, Predicate};
use crate::refusal::{self, refuse_unless};
use crate::rules::{Mutant, Rules};
use crate::word::{field, words};

/// The fields of a predicate's node word.
#[derive(Clone, Copy)]
struct NodeWord {
    kind: u8,
    operator: u8,
    column: u8,
    flips: u8,
    literal_first: bool,
    count: usize,
    zero: u64,
}

impl NodeWord {
    fn read(word: u64) -> NodeWord {
        NodeWord {
            kind: field(word, 0, 4) as u8,
            operator: field(word, 4, 4) as u8,
            column: field(word, 8, 8) as u8,
            flips: field(word, 16, 8) as u8,
            literal_first: field(word, 24, 1) == 1,
            count: field(word, 25, 15) as usize,
            zero: field(word, 40, 24),
        }
    }

    /// Known kind and operator, and no unused field set.
    fn form_is_sound(&self) -> bool {
        let last_operator = match self.kind {
            0 => 2,
            1..=6 => 0,
            7 => 7,
            8 | 9 => 1,
            _ => return false,
        };
        self.operator <= last_operator
            && (self.names_a_column() || self.column == 0)
            && (matches!(self.kind, 7 | 8) || self.flips == 0)
            && (self.kind == 7 || !self.literal_first)
            && (self.kind == 8 || self.count == 0)
            && self.zero == 0
    }

    fn names_a_column(&self) -> bool {
        self.kind >= 4
    }
}

struct Reader<'a> {
    rules: &'a Rules,
    schema: &'a [Type],
    pool: &'a [u8],
    words: Vec<u64>,
    next: usize,
    nodes: usize,
    listed: usize,
    literal_bytes: usize,
}

/// The predicate that `bytes` hold, or the refusal (4, 5 or 6).
pub fn read<'a>(rules: &'a Rules, schema: &'a [Type], bytes: &[u8], pool: &'a [u8]) -> Result<Predicate<'a>, u8> {
    let words = words(bytes).ok_or(refusal::FORM)?;
    let mut reader = Reader { rules, schema, pool, words, next: 0, nodes: 0, listed: 0, literal_bytes: 0 };
    let predicate = reader.predicate(1)?;
    refuse_unless(reader.next == reader.words.len(), refusal::FORM)?;
    Ok(predicate)
}

impl<'a> Reader<'a> {
    fn take(&mut self) -> Result<u64, u8> {
        let word = *self.words.get(self.next).ok_or(refusal::FORM)?;
        self.next += 1;
        Ok(word)
    }

    fn predicate(&mut self, depth: usize) -> Result<Predicate<'a>, u8> {
        let place = self.next;
        let node = NodeWord::read(self.take()?);
        refuse_unless(node.form_is_sound(), refusal::FORM)?;
        self.count_node(&node, depth)?;
        if node.names_a_column() {
            return self.leaf(place, &node);
        }
        let mut child = || self.predicate(depth + 1).map(Box::new);
        Ok(match node.kind {
            0 => Predicate::Constant([Some(false), Some(true), None][node.operator as usize]),
            1 => Predicate::And(child()?, child()?),
            2 => Predicate::Or(child()?, child()?),
            _ => Predicate::Not(child()?),
        })
    }

    /// The limits that a node word can pass.
    fn count_node(&mut self, node: &NodeWord, depth: usize) -> Result<(), u8> {
        self.nodes += 1;
        self.listed += node.count;
        let deepest = limits::DEPTH + self.rules.has(Mutant::DepthOneMore) as usize;
        let within = self.nodes <= limits::NODES && depth <= deepest && self.listed <= limits::LISTED;
        refuse_unless(within, refusal::LIMIT)
    }

    fn leaf(&mut self, place: usize, node: &NodeWord) -> Result<Predicate<'a>, u8> {
        let column = node.column;
        let column_type = *self.schema.get(column as usize).ok_or(refusal::TYPE)?;
        let fits = match node.kind {
            4 => column_type == Type::Truth,
            7 | 8 => column_type != Type::Text || node.flips == 0,
            9 => column_type == Type::Text,
            _ => true,
        };
        refuse_unless(fits, refusal::TYPE)?;
        let operand = Operand { column, column_type, flips: node.flips };
        match node.kind {
            4 => Ok(Predicate::Truth(column)),
            5 => Ok(Predicate::IsNull(column)),
            6 => Ok(Predicate::IsNotNull(column)),
            7 => self.comparison(place, node, operand),
            8 => self.list(place, node, operand),
            _ => self.like(node),
        }
    }

    fn comparison(&mut self, place: usize, node: &NodeWord, operand: Operand) -> Result<Predicate<'a>, u8> {
        let operator = Operator::from_code(node.operator).ok_or(refusal::FORM)?;
        let literal = self.literal(operand.column_type)?;
        let literal_first = node.literal_first;
        let comparison = Comparison { operand, operator, literal_first, literal };
        Ok(Predicate::Compare { place, comparison })
    }

    fn list(&mut self, place: usize, node: &NodeWord, operand: Operand) -> Result<Predicate<'a>, u8> {
        let mut literals = Vec::with_capacity(node.count);
        for _ in 0..node.count {
            literals.push(self.literal(operand.column_type)?);
        }
        let list = List { operand, negated: node.operator == 1, literals };
        Ok(Predicate::List { place, list })
    }

    fn like(&mut self, node: &NodeWord) -> Result<Predicate<'a>, u8> {
        let word = self.literal_word()?;
        let pattern = if word.is_null() {
            None
        } else {
            refuse_unless(word.code == Type::Text as u8, refusal::TYPE)?;
            let bytes = word.bytes(self.pool).ok_or(refusal::TYPE)?;
            Some(str::from_utf8(bytes).map_err(|_| refusal::TYPE)?)
        };
        Ok(Predicate::Like(Like { column: node.column, negated: node.operator == 1, pattern }))
    }

    fn literal(&mut self, column_type: Type) -> Result<Literal<'a>, u8> {
        let word = self.literal_word()?;
        if word.is_null() {
            return Ok(None);
        }
        let value: Value<'a> = word.value(column_type, self.pool).ok_or(refusal::TYPE)?;
        Ok(Some(value))
    }

    /// The next literal word, its form and its limits checked.
    fn literal_word(&mut self) -> Result<LiteralWord, u8> {
        let word = LiteralWord::read(self.take()?);
        refuse_unless(word.form_is_sound(), refusal::FORM)?;
        self.literal_bytes += word.length;
        let within = word.length <= limits::LITERAL_BYTES && self.literal_bytes <= limits::ALL_LITERAL_BYTES;
        refuse_unless(within, refusal::LIMIT)?;
        Ok(word)
    }
}
