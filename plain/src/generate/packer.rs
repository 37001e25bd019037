//! Packs words and the pool that their literals name.

use crate::literal::{Literal, LiteralWord, Type, Value};
use crate::random::Random;
use crate::word::{push, put};

#[derive(Clone, Debug, Default)]
pub struct Packer {
    pub words: Vec<u8>,
    pub pool: Vec<u8>,
}

/// The fields of a predicate's node word.
#[derive(Clone, Copy, Debug, Default)]
pub struct Node {
    pub kind: u8,
    pub operator: u8,
    pub column: u8,
    pub flips: u8,
    pub literal_first: bool,
    pub count: usize,
}

impl Packer {
    pub fn node(&mut self, node: Node) {
        let word = put(node.kind as u64, 0, 4)
            | put(node.operator as u64, 4, 4)
            | put(node.column as u64, 8, 8)
            | put(node.flips as u64, 16, 8)
            | put(node.literal_first as u64, 24, 1)
            | put(node.count as u64, 25, 15);
        push(&mut self.words, word);
    }

    /// A node word with no more than a kind and an operator.
    pub fn bare(&mut self, kind: u8, operator: u8) {
        self.node(Node { kind, operator, ..Node::default() });
    }

    pub fn literal(&mut self, literal: &Literal) {
        let word = self.literal_word(literal, None);
        push(&mut self.words, word);
    }

    /// As `literal`, but its bytes may be shared with, or stand apart from, those before.
    pub fn scattered(&mut self, random: &mut Random, literal: &Literal) {
        let word = self.literal_word(literal, Some(random));
        push(&mut self.words, word);
    }

    fn literal_word(&mut self, literal: &Literal, random: Option<&mut Random>) -> u64 {
        let (code, bytes): (_, &[u8]) = match literal {
            None => return 0,
            Some(Value::Truth(value)) => {
                return LiteralWord::write(Type::Truth as u8, 0, *value as usize);
            }
            Some(Value::Integer(value)) => (Type::Integer as u8, &value.to_be_bytes()),
            Some(Value::Text(text)) => (Type::Text as u8, text),
        };
        let mut offset = None;
        if let Some(random) = random {
            if random.one_in(3) && !bytes.is_empty() && self.pool.len() < 4_096 {
                offset = self.pool.windows(bytes.len()).position(|shared| shared == bytes);
            }
            if random.one_in(6) {
                self.pool.push(random.word() as u8);
            }
        }
        let offset = offset.unwrap_or_else(|| {
            self.pool.extend_from_slice(bytes);
            self.pool.len() - bytes.len()
        });
        LiteralWord::write(code, bytes.len(), offset)
    }
}
