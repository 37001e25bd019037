//! Values that lie near each other and near the edges, so that comparisons go either way.

use std::borrow::Cow;

use crate::literal::{Literal, Type, Value};
use crate::random::Random;

const INTEGERS: [i64; 16] =
    [0, 1, -1, 2, -2, 3, 4, 5, -5, 255, 256, i64::MIN, i64::MIN + 1, i64::MIN + 2, i64::MAX, i64::MAX - 1];

/// Characters around the edges of UTF-8's lengths and of what increment steps to.
const CHARACTERS: [char; 24] = [
    '\0',
    '%',
    '_',
    '\\',
    'a',
    'b',
    'c',
    '~',
    '\u{7F}',
    '\u{80}',
    '\u{7FF}',
    '\u{800}',
    '\u{D7FE}',
    '\u{D7FF}',
    '\u{E000}',
    '\u{FDCF}',
    '\u{FDD0}',
    '\u{FDEF}',
    '\u{FFFD}',
    '\u{FFFF}',
    '\u{10000}',
    '\u{1FFFD}',
    '\u{1FFFF}',
    '\u{10FFFF}',
];

pub fn integer(random: &mut Random) -> i64 {
    match random.below(20) {
        0 => random.word() as i64,
        1..=9 => random.between(0, 6) as i64 - 3,
        _ => random.pick(&INTEGERS),
    }
}

fn character(random: &mut Random) -> char {
    if random.coin() { random.pick(&['a', 'b']) } else { random.pick(&CHARACTERS) }
}

pub fn text(random: &mut Random) -> String {
    let length = random.between(0, 3);
    (0..length).map(|_| character(random)).collect()
}

/// A LIKE pattern: a prefix and a wildcard, or text with more wildcards and backslashes in it.
pub fn pattern(random: &mut Random) -> String {
    if random.one_in(3) {
        let edge = random.pick(&CHARACTERS);
        let before = if random.one_in(4) { stem(random) } else { text(random) };
        return format!("{before}{edge}%");
    }
    let length = random.between(0, 5);
    let mut piece = || match random.below(6) {
        0 => '%',
        1 => random.pick(&['_', '\\']),
        _ => character(random),
    };
    (0..length).map(|_| piece()).collect()
}

/// Bytes of a text literal or cell: mostly UTF-8, now and then a long stem that ends otherwise.
pub fn bytes(random: &mut Random) -> Vec<u8> {
    let mut bytes = if random.one_in(3) { stem(random).into_bytes() } else { text(random).into_bytes() };
    if random.one_in(8) {
        bytes.push(random.word() as u8);
    }
    bytes
}

/// Texts that agree for a while, over several words, and then differ by a character or an end.
pub fn stem(random: &mut Random) -> String {
    let length = random.pick(&[6, 7, 8, 9, 15, 16, 17, 24]);
    let mut stem = "m".repeat(length);
    match random.below(3) {
        0 => stem.push(random.pick(&['\0', 'l', 'm', 'n', '\u{7F}', '\u{80}'])),
        1 => stem.replace_range(length - 2..length - 1, "n"),
        _ => {}
    }
    stem
}

/// Bytes at the edges of what is UTF-8, as a pattern.
pub fn nearly_utf8(random: &mut Random) -> Vec<u8> {
    const FIRST: [u8; 20] = [
        0x00, 0x7F, 0x80, 0xBF, 0xC0, 0xC1, 0xC2, 0xDF, 0xE0, 0xE1, 0xEC, 0xED, 0xEE, 0xEF, 0xF0, 0xF1, 0xF3, 0xF4,
        0xF5, 0xFF,
    ];
    const LATER: [u8; 12] = [0x80, 0x80, 0xBF, 0xBF, 0x8F, 0x90, 0x9F, 0xA0, 0x7F, 0xC0, 0x00, 0xFF];
    let mut bytes = text(random).into_bytes();
    let first = random.pick(&FIRST);
    bytes.push(first);
    let wanted = (first.leading_ones() as usize).clamp(1, 5) - 1;
    let length = if random.one_in(8) { random.below(5) } else { wanted };
    for _ in 0..length {
        bytes.push(random.pick(&LATER));
    }
    if random.coin() {
        bytes.push(b'%');
    }
    bytes
}

/// A value of the type, its text any bytes.
pub fn value(random: &mut Random, of: Type) -> Value<'static> {
    match of {
        Type::Integer => Value::Integer(integer(random)),
        Type::Text => Value::Text(Cow::Owned(bytes(random))),
        Type::Truth => Value::Truth(random.coin()),
    }
}

pub fn literal(random: &mut Random, of: Type) -> Literal<'static> {
    (!random.one_in(10)).then(|| value(random, of))
}

/// A schema of up to `columns` columns.
pub fn schema(random: &mut Random, columns: usize) -> Vec<Type> {
    let length = random.between(0, columns);
    (0..length).map(|_| random.pick(&[Type::Integer, Type::Text, Type::Truth])).collect()
}

pub fn schema_bytes(schema: &[Type]) -> Vec<u8> {
    schema.iter().map(|column| *column as u8).collect()
}
