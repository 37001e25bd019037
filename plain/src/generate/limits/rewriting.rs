//! The limits of rewriting.

use std::borrow::Cow;

use crate::cases::RewriteCase;
use crate::generate::packer::{Node, Packer};
use crate::generate::values;
use crate::limits;
use crate::literal::{LiteralWord, Type, Value};
use crate::random::Random;
use crate::rewrite::Rooms;
use crate::word::push;

/// A call at one of the limits, or one past it.
pub fn rewriting(random: &mut Random) -> RewriteCase {
    let past = random.coin() as usize;
    match random.below(16) {
        0 => columns(random, limits::COLUMNS + past),
        1 => nodes(random, past),
        2 => depth(random, limits::DEPTH + past),
        3 => listed(random, limits::LISTED + past),
        4 => literal_length(random, limits::LITERAL_BYTES + past),
        5 => all_literals(random, past),
        6 => pool(random, limits::POOL_BYTES + past),
        7 => list_limit(random, limits::LIST_LIMIT + past as u64),
        8 => rooms(random, past),
        9 => list_at_limit(random, past),
        10 => most_statistics(random),
        11 => most_guarantees(random),
        12 => largest_table(random),
        13 => offsets(random, past),
        _ => nearly_utf8(random),
    }
}

fn case(schema: &[Type], packer: Packer) -> RewriteCase {
    RewriteCase {
        schema: values::schema_bytes(schema),
        predicate: packer.words,
        pool: packer.pool,
        list_limit: limits::LIST_LIMIT,
        rooms: Rooms::LEAST,
    }
}

/// A comparison of an integer column with a small number.
fn compared(random: &mut Random, packer: &mut Packer, column: u8, operator: u8) {
    packer.node(Node { kind: 7, operator, column, ..Node::default() });
    packer.literal(&Some(Value::Integer(random.below(9) as i64)));
}

/// A tree of `leaves` leaves, as flat as it can be, joined by the kind.
fn balanced(packer: &mut Packer, kind: u8, leaves: &mut dyn FnMut(&mut Packer), count: usize) {
    if count == 1 {
        return leaves(packer);
    }
    packer.bare(kind, 0);
    balanced(packer, kind, leaves, count / 2);
    balanced(packer, kind, leaves, count - count / 2);
}

fn columns(random: &mut Random, count: usize) -> RewriteCase {
    let mut packer = Packer::default();
    let last = random.between(count - 2, count) as u8;
    compared(random, &mut packer, last, 0);
    case(&vec![Type::Integer; count], packer)
}

/// 255 nodes; a NOT above them is one more.
fn nodes(random: &mut Random, past: usize) -> RewriteCase {
    let mut packer = Packer::default();
    let kind = random.pick(&[1, 2]);
    if past == 1 {
        packer.bare(3, 0);
    }
    let operator = random.below(8) as u8;
    balanced(&mut packer, kind, &mut |packer| compared(random, packer, 0, operator), 128);
    case(&[Type::Integer], packer)
}

/// A chain that leans right, left, or is of NOTs.
fn depth(random: &mut Random, depth: usize) -> RewriteCase {
    let mut packer = Packer::default();
    let kind = random.pick(&[1, 2, 3]);
    let left = random.coin();
    for _ in 1..depth {
        packer.bare(kind, 0);
        if kind != 3 && !left {
            compared(random, &mut packer, 0, 2);
        }
    }
    compared(random, &mut packer, 0, 0);
    for _ in 1..depth {
        if kind != 3 && left {
            compared(random, &mut packer, 0, 4);
        }
    }
    case(&[Type::Integer], packer)
}

/// So many list literals in one, two or three lists.
fn listed(random: &mut Random, count: usize) -> RewriteCase {
    let mut packer = Packer::default();
    let column_type = random.pick(&[Type::Integer, Type::Text, Type::Truth]);
    let lists = random.between(1, 3);
    for list in 0..lists {
        if list + 1 < lists {
            packer.bare(random.pick(&[1, 2]), 0);
        }
        let share = if list == 0 { count - (lists - 1) * 20 } else { 20 };
        let operator = random.coin() as u8;
        packer.node(Node { kind: 8, operator, count: share, ..Node::default() });
        for _ in 0..share {
            let literal = values::literal(random, column_type);
            packer.scattered(random, &literal);
        }
    }
    case(&[column_type], packer)
}

/// A text literal or pattern of this length; now and then on a column of another type.
fn literal_length(random: &mut Random, length: usize) -> RewriteCase {
    let mut packer = Packer::default();
    let kind = random.pick(&[7, 8, 9, 9]);
    let column_type = if random.one_in(4) { Type::Integer } else { Type::Text };
    packer.node(Node { kind, count: (kind == 8) as usize, ..Node::default() });
    let mut text = vec![random.pick(&[b'a', 0x7F]); length];
    if random.coin() {
        text[length - 1] = b'%';
    }
    packer.literal(&Some(Value::Text(Cow::Owned(text))));
    case(&[column_type], packer)
}

/// Eight literals of 1,024 bytes, and then one of none or of one byte.
fn all_literals(random: &mut Random, past: usize) -> RewriteCase {
    let mut packer = Packer::default();
    let operator = random.coin() as u8;
    packer.node(Node { kind: 8, operator, count: 9, ..Node::default() });
    for i in 0..8 {
        packer.literal(&Some(Value::Text(Cow::Owned(vec![b'a' + i; limits::LITERAL_BYTES]))));
    }
    packer.literal(&Some(Value::Text(Cow::Owned(vec![b'z'; past]))));
    case(&[Type::Text], packer)
}

/// A pool of this length, with the literal at its end.
fn pool(random: &mut Random, length: usize) -> RewriteCase {
    let mut packer = Packer { pool: vec![7; length - 8], ..Packer::default() };
    compared(random, &mut packer, 0, 1);
    case(&[Type::Integer], packer)
}

fn list_limit(random: &mut Random, list_limit: u64) -> RewriteCase {
    let mut packer = Packer::default();
    compared(random, &mut packer, 0, 3);
    RewriteCase { list_limit, ..case(&[Type::Integer], packer) }
}

/// Exactly the rooms, or one of them a byte short.
fn rooms(random: &mut Random, past: usize) -> RewriteCase {
    let mut packer = Packer::default();
    compared(random, &mut packer, 0, 5);
    let mut case = case(&[Type::Integer], packer);
    let rooms = &mut case.rooms;
    match random.below(4) {
        0 => rooms.table -= past,
        1 => rooms.pool -= past,
        2 => rooms.statistics -= past,
        _ => rooms.guarantees -= past,
    }
    case
}

/// A list as long as the list limit, or one longer.
fn list_at_limit(random: &mut Random, past: usize) -> RewriteCase {
    let limit = random.pick(&[0, 1, 2, 19, 20, 21, 255]);
    let mut packer = Packer::default();
    let operator = random.coin() as u8;
    packer.node(Node { kind: 8, operator, count: limit + past, ..Node::default() });
    for _ in 0..limit + past {
        packer.literal(&Some(Value::Integer(random.below(9) as i64)));
    }
    RewriteCase { list_limit: limit as u64, ..case(&[Type::Integer], packer) }
}

/// 64 columns with three statistics each, and rows: 193.
fn most_statistics(random: &mut Random) -> RewriteCase {
    let mut packer = Packer::default();
    let mut column = 0;
    let operator = random.pick(&[0, 1, 6, 7]);
    let mut leaf = |packer: &mut Packer| {
        compared(random, packer, column, operator);
        column += 1;
    };
    balanced(&mut packer, 1, &mut leaf, 64);
    case(&[Type::Integer; 64], packer)
}

/// 128 equalities under ANDs.
fn most_guarantees(random: &mut Random) -> RewriteCase {
    let mut packer = Packer::default();
    balanced(
        &mut packer,
        1,
        &mut |packer| {
            let operator = random.below(2) as u8;
            compared(random, packer, 0, operator);
        },
        128,
    );
    case(&[Type::Integer], packer)
}

/// 127 equalities and a list of 256: 3,063 table words.
fn largest_table(random: &mut Random) -> RewriteCase {
    let mut packer = Packer::default();
    let mut first = true;
    let negated = random.coin() as u8;
    let mut leaf = |packer: &mut Packer| {
        if !std::mem::take(&mut first) {
            return compared(random, packer, 0, negated);
        }
        packer.node(Node { kind: 8, operator: negated, count: 256, ..Node::default() });
        for i in 0..256 {
            packer.literal(&Some(Value::Integer(i)));
        }
    };
    balanced(&mut packer, 1, &mut leaf, 128);
    case(&[Type::Integer], packer)
}

/// A literal that ends where the pool does, or a byte later; an empty text too.
fn offsets(random: &mut Random, past: usize) -> RewriteCase {
    let column_type = random.pick(&[Type::Integer, Type::Text, Type::Truth]);
    let mut packer = Packer { pool: vec![b'a'; 20], ..Packer::default() };
    packer.node(Node { kind: 7, ..Node::default() });
    let (length, offset) = match column_type {
        Type::Integer => (8, 12 + past),
        Type::Text => random.pick(&[(0, 20 + past), (5, 15 + past), (20, past)]),
        Type::Truth => (0, 1 + past),
    };
    push(&mut packer.words, LiteralWord::write(column_type as u8, length, offset));
    case(&[column_type], packer)
}

/// A pattern at the edges of UTF-8.
fn nearly_utf8(random: &mut Random) -> RewriteCase {
    let mut packer = Packer::default();
    packer.node(Node { kind: 9, operator: random.one_in(4) as u8, ..Node::default() });
    packer.literal(&Some(Value::Text(Cow::Owned(values::nearly_utf8(random)))));
    case(&[Type::Text], packer)
}
