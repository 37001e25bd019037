//! Valid predicates of every kind and type.

use std::borrow::Cow;

use super::packer::{Node, Packer};
use super::values;
use crate::cases::RewriteCase;
use crate::literal::{Literal, Type, Value};
use crate::random::Random;
use crate::rewrite::Rooms;

/// A rewriting call that is accepted: up to `nodes` nodes over up to `columns` columns.
pub fn accepted(random: &mut Random, nodes: usize, columns: usize) -> RewriteCase {
    let schema = values::schema(random, columns);
    let list_limit = random.pick(&[0, 1, 2, 3, 5, 20, 20, 20, 256]);
    let mut builder = Builder { random, schema: &schema, packer: Packer::default(), listed: 256 };
    let nodes = builder.random.between(1, nodes);
    builder.tree(nodes, 32);
    let Packer { words, pool } = builder.packer;
    let schema = values::schema_bytes(&schema);
    RewriteCase { schema, predicate: words, pool, list_limit, rooms: Rooms::LEAST }
}

struct Builder<'r> {
    random: &'r mut Random,
    schema: &'r [Type],
    packer: Packer,
    /// List literals that may still come.
    listed: usize,
}

impl Builder<'_> {
    /// A predicate of at most `nodes` nodes.
    fn tree(&mut self, nodes: usize, depth: usize) {
        if depth > 1 && nodes >= 3 && !self.random.one_in(6) {
            self.packer.bare(self.random.pick(&[1, 1, 1, 2, 2]), 0);
            let first = self.random.between(1, nodes - 2);
            self.tree(first, depth - 1);
            self.tree(nodes - 1 - first, depth - 1);
        } else if depth > 1 && nodes >= 2 && self.random.one_in(4) {
            self.packer.bare(3, 0);
            self.tree(nodes - 1, depth - 1);
        } else {
            self.leaf();
        }
    }

    fn leaf(&mut self) {
        if self.schema.is_empty() || self.random.one_in(10) {
            let operator = self.random.below(3) as u8;
            return self.packer.bare(0, operator);
        }
        let column = self.random.below(self.schema.len()) as u8;
        let column_type = self.schema[column as usize];
        let special = match column_type {
            Type::Integer => 7,
            Type::Text => 9,
            Type::Truth => 4,
        };
        let kind = self.random.pick(&[5, 6, 7, 7, 7, 8, 8, special, special]);
        let mut node = Node { kind, column, ..Node::default() };
        match kind {
            7 => self.comparison(node, column_type),
            8 => self.list(node, column_type),
            9 => {
                node.operator = self.random.one_in(6) as u8;
                self.packer.node(node);
                let pattern = self.pattern();
                self.packer.scattered(self.random, &pattern);
            }
            _ => self.packer.node(node),
        }
    }

    fn pattern(&mut self) -> Literal<'static> {
        let text = values::pattern(self.random).into_bytes();
        (!self.random.one_in(10)).then_some(Value::Text(Cow::Owned(text)))
    }

    fn flips(&mut self, column_type: Type) -> u8 {
        let any = self.random.word() as u8;
        let flips = self.random.pick(&[0, 0, 0, 0, 1, 1, 2, 3, any]);
        if column_type == Type::Text { 0 } else { flips }
    }

    fn comparison(&mut self, node: Node, column_type: Type) {
        let flips = self.flips(column_type);
        let operator = self.random.below(8) as u8;
        let literal_first = self.random.one_in(3);
        self.packer.node(Node { operator, flips, literal_first, ..node });
        let literal = self.literal(column_type, flips);
        self.packer.scattered(self.random, &literal);
    }

    /// A literal; below a minus it is often the one that can't be negated.
    fn literal(&mut self, column_type: Type, flips: u8) -> Literal<'static> {
        if column_type == Type::Integer && flips > 0 && self.random.one_in(6) {
            return Some(Value::Integer(i64::MIN));
        }
        values::literal(self.random, column_type)
    }

    fn list(&mut self, node: Node, column_type: Type) {
        let flips = self.flips(column_type);
        let longest = self.random.pick(&[1, 3, 3, 22]);
        let count = self.random.between(0, longest).min(self.listed);
        self.listed -= count;
        let operator = self.random.coin() as u8;
        self.packer.node(Node { operator, flips, count, ..node });
        for _ in 0..count {
            let literal = self.literal(column_type, flips);
            self.packer.scattered(self.random, &literal);
        }
    }
}
