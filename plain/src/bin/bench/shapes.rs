//! The predicates and grids that are timed.

use plain::cases::{PruneCase, RewriteCase};
use plain::generate::grids::listed;
use plain::generate::packer::{Node, Packer};
use plain::literal::{Literal, Type, Value};
use plain::rewrite::Rooms;
use plain::statistic::{Kind, Statistic};
use plain::subject::{Plain, Subject};

/// A predicate with a name.
pub struct Shape {
    pub name: String,
    pub case: RewriteCase,
}

/// Values of container `i` lie from i × SPAN to i × SPAN + SPAN - 1.
const SPAN: i64 = 10;
const MOST: usize = 4_096;

fn shape(name: impl Into<String>, schema: &[Type], packer: Packer) -> Shape {
    let case = RewriteCase {
        schema: schema.iter().map(|column| *column as u8).collect(),
        predicate: packer.words,
        pool: packer.pool,
        list_limit: 256,
        rooms: Rooms::LEAST,
    };
    Shape { name: name.into(), case }
}

/// The shapes that rewriting and pruning are timed on.
pub fn all() -> Vec<Shape> {
    vec![comparison(), list(20), list(256), like(), joined("AND of 16", 1), joined("OR of 16", 2)]
}

fn comparison() -> Shape {
    let mut packer = Packer::default();
    compared(&mut packer, 0, 4, SPAN * 2_000);
    shape("1 comparison", &[Type::Integer], packer)
}

fn compared(packer: &mut Packer, column: u8, operator: u8, value: i64) {
    packer.node(Node { kind: 7, operator, column, ..Node::default() });
    packer.literal(&Some(Value::Integer(value)));
}

/// IN over one integer column, its literals spread over the containers.
pub fn list(count: usize) -> Shape {
    let mut packer = Packer::default();
    packer.node(Node { kind: 8, count, ..Node::default() });
    for i in 0..count {
        packer.literal(&Some(Value::Integer((i * MOST / count) as i64 * SPAN + 3)));
    }
    shape(format!("IN of {count}"), &[Type::Integer], packer)
}

fn like() -> Shape {
    let mut packer = Packer::default();
    packer.node(Node { kind: 9, ..Node::default() });
    packer.literal(&Some(Value::Text(b"block-0001%"[..].into())));
    shape("LIKE 'block-0001%'", &[Type::Text], packer)
}

/// Sixteen comparisons of four integer columns, all six operators, as flat as can be.
fn joined(name: &str, kind: u8) -> Shape {
    let mut packer = Packer::default();
    let mut next = 0;
    let mut leaf = |packer: &mut Packer| {
        compared(packer, next % 4, next % 6, next as i64 * 2_500);
        next += 1;
    };
    lean(&mut packer, kind, &mut leaf, 31, 5);
    shape(name, &[Type::Integer; 4], packer)
}

/// 255 nodes that reach the depth: 8 is a balanced tree, 32 one that leans.
pub fn nodes(name: &str, depth: u32) -> Shape {
    let mut packer = Packer::default();
    let mut leaf = |packer: &mut Packer| compared(packer, 0, 4, 5);
    lean(&mut packer, 1, &mut leaf, 255, depth);
    shape(name, &[Type::Integer], packer)
}

/// 64 columns, each named once: the longest statistics list.
pub fn columns() -> Shape {
    let mut packer = Packer::default();
    let mut column = 0;
    let mut leaf = |packer: &mut Packer| {
        compared(packer, column, 0, 5);
        column += 1;
    };
    lean(&mut packer, 1, &mut leaf, 127, 7);
    shape("64 columns, = on each", &[Type::Integer; 64], packer)
}

/// A tree of an odd number of nodes whose first children are as small as the depth allows.
fn lean(packer: &mut Packer, kind: u8, leaf: &mut dyn FnMut(&mut Packer), nodes: usize, depth: u32) {
    if nodes == 1 {
        return leaf(packer);
    }
    packer.bare(kind, 0);
    let second_most = (1 << (depth - 1).min(20)) - 1;
    let first = (nodes - 1).saturating_sub(second_most).max(1);
    lean(packer, kind, leaf, first, depth - 1);
    lean(packer, kind, leaf, nodes - 1 - first, depth - 1);
}

/// Which statistics a grid has.
#[derive(Clone, Copy, PartialEq, Eq)]
pub enum Present {
    All,
    /// Those of every tenth container.
    Few,
}

/// The pruning call of a shape over so many containers.
pub fn pruning(shape: &Shape, containers: usize, present: Present) -> PruneCase {
    let rewritten = Plain::default().rewrite(&shape.case.call());
    let mut case = rewritten.pruning(&shape.case.schema, containers as u64).expect("accepted");
    let mut cells = Packer::default();
    for container in 0..containers {
        for statistic in listed(&case) {
            let there = present == Present::All || container % 10 == 9;
            let text = case.schema[statistic.column as usize] == Type::Text as u8;
            cells.literal(&if there { cell(statistic, container, text) } else { None });
        }
    }
    (case.grid, case.cell_pool) = (cells.words, cells.pool);
    case
}

fn cell(statistic: Statistic, container: usize, text: bool) -> Literal<'static> {
    let first = container as i64 * SPAN;
    Some(match statistic.kind {
        Kind::Blanks => Value::Integer(container as i64 % 3),
        Kind::Rows => Value::Integer(1_000),
        Kind::Least if text => Value::Text(format!("block-{first:06}").into_bytes().into()),
        Kind::Greatest if text => Value::Text(format!("block-{:06}", first + SPAN - 1).into_bytes().into()),
        Kind::Least => Value::Integer(first),
        Kind::Greatest => Value::Integer(first + SPAN - 1),
    })
}
