//! Containers of rows near a predicate's own literals, with true summaries and true answers.

use std::borrow::Cow;

use super::grids::listed;
use super::packer::Packer;
use super::values;
use crate::cases::PruneCase;
use crate::guarantee::Guarantee;
use crate::literal::{Literal, Type, Value};
use crate::predicate::Predicate;
use crate::random::Random;
use crate::statistic::{Kind, Statistic};
use crate::text::{Piece, pieces};
use crate::word::words;

/// A row owns its values: one, or a blank, a column.
pub type OwnedRow = Vec<Literal<'static>>;

/// Containers of up to five rows each.
pub fn containers(random: &mut Random, schema: &[Type], predicate: &Predicate, count: usize) -> Vec<Vec<OwnedRow>> {
    let mut near = vec![Vec::new(); schema.len()];
    collect(random, predicate, &mut near);
    (0..count).map(|_| container(random, schema, &near)).collect()
}

/// Rows that have few different values in a column, so that the bounds are narrow.
fn container(random: &mut Random, schema: &[Type], near: &[Vec<Value<'static>>]) -> Vec<OwnedRow> {
    let length = random.between(0, 5);
    let mut rows = vec![Vec::new(); length];
    for (column, column_type) in schema.iter().enumerate() {
        let blank_in = random.pick(&[1, 3, 100, 100]);
        let few: Vec<_> = (0..random.between(1, 2)).map(|_| value(random, *column_type, &near[column])).collect();
        for row in &mut rows {
            let chosen = few[random.below(few.len())].clone();
            row.push((!random.one_in(blank_in)).then_some(chosen));
        }
    }
    rows
}

fn value(random: &mut Random, of: Type, near: &[Value<'static>]) -> Value<'static> {
    if !near.is_empty() && !random.one_in(3) {
        return near[random.below(near.len())].clone();
    }
    match of {
        Type::Text if random.one_in(4) => text(values::stem(random)),
        Type::Text => text(values::text(random)),
        _ => values::value(random, of),
    }
}

fn text(text: String) -> Value<'static> {
    Value::Text(Cow::Owned(text.into_bytes()))
}

/// Gathers, by column, values that could make a part of the predicate true.
fn collect(random: &mut Random, predicate: &Predicate, near: &mut [Vec<Value<'static>>]) {
    match predicate {
        Predicate::And(first, second) | Predicate::Or(first, second) => {
            collect(random, first, near);
            collect(random, second, near);
        }
        Predicate::Not(inner) => collect(random, inner, near),
        Predicate::Compare { comparison, .. } => {
            near[comparison.operand.column as usize].extend(around(&comparison.literal));
        }
        Predicate::List { list, .. } => {
            let column = &mut near[list.operand.column as usize];
            column.extend(list.literals.iter().flat_map(around));
        }
        Predicate::Like(like) => {
            let matching = like.pattern.map(|pattern| text(matching(random, pattern)));
            near[like.column as usize].extend(matching);
        }
        _ => {}
    }
}

/// The literal, its neighbours and its negation, as rows may have them.
fn around(literal: &Literal) -> Vec<Value<'static>> {
    match literal {
        Some(Value::Integer(value)) => {
            let near = [*value, value.wrapping_neg(), value.saturating_add(1), value.saturating_sub(1)];
            near.map(Value::Integer).to_vec()
        }
        Some(Value::Text(bytes)) => match str::from_utf8(bytes) {
            Ok(valid) => vec![text(valid.to_string()), text(format!("{valid}a"))],
            Err(_) => Vec::new(),
        },
        _ => Vec::new(),
    }
}

/// A text that matches the pattern.
fn matching(random: &mut Random, pattern: &str) -> String {
    let mut matching = String::new();
    for piece in pieces(pattern) {
        match piece {
            Piece::Plain(character) => matching.push(character),
            Piece::One => matching.push(random.pick(&['a', '\u{10FFFF}', '\0'])),
            Piece::Run => matching.push_str(&values::text(random)),
        }
    }
    matching
}

/// Fills in true summaries of the containers, some absent, and true answers.
pub fn fill(random: &mut Random, case: &mut PruneCase, predicate: &Predicate, containers: &[Vec<OwnedRow>]) {
    case.containers = containers.len() as u64;
    case.flag_room = containers.len();
    let statistics = listed(case);
    let guarantees = words(&case.guarantees).expect("whole words");
    let mut packer = Packer::default();
    for rows in containers {
        for statistic in &statistics {
            let cell = summary(random, rows, statistic).filter(|_| !random.one_in(8));
            packer.scattered(random, &cell);
        }
        for word in &guarantees {
            let guarantee = Guarantee::read(*word).expect("a guarantee");
            case.answers.push(answer(random, predicate, guarantee, rows));
        }
    }
    (case.grid, case.cell_pool) = (packer.words, packer.pool);
}

/// The values of a column that are not blank.
fn present(rows: &[OwnedRow], column: u8) -> impl Iterator<Item = &Value<'static>> {
    rows.iter().filter_map(move |row| row[column as usize].as_ref())
}

/// A true statistic; bounds are now and then wider than they need be.
fn summary(random: &mut Random, rows: &[OwnedRow], statistic: &Statistic) -> Literal<'static> {
    let values = present(rows, statistic.column);
    let count = |count: usize| Some(Value::Integer(count as i64));
    let wide = random.one_in(4);
    match statistic.kind {
        Kind::Rows => count(rows.len()),
        Kind::Blanks => count(rows.len() - values.count()),
        Kind::Least => values.min().cloned().map(|least| if wide { lower(least) } else { least }),
        Kind::Greatest => values.max().cloned().map(|most| if wide { higher(most) } else { most }),
    }
}

fn lower(value: Value<'static>) -> Value<'static> {
    match value {
        Value::Integer(value) => Value::Integer(value.saturating_sub(1)),
        Value::Text(text) => Value::Text(Cow::Owned(text[..text.len() / 2].to_vec())),
        Value::Truth(_) => Value::Truth(false),
    }
}

fn higher(value: Value<'static>) -> Value<'static> {
    match value {
        Value::Integer(value) => Value::Integer(value.saturating_add(1)),
        Value::Text(text) => Value::Text(Cow::Owned([&text, &b"~"[..]].concat())),
        Value::Truth(_) => Value::Truth(true),
    }
}

/// A true answer, or 0 which claims nothing.
fn answer(random: &mut Random, predicate: &Predicate, guarantee: Guarantee, rows: &[OwnedRow]) -> u8 {
    let Some(set) = set_at(predicate, guarantee.place) else {
        return 0;
    };
    let listed = |value: &Value<'static>| set.iter().flatten().any(|literal| literal == value);
    let within = present(rows, guarantee.column).all(listed);
    let outside = !present(rows, guarantee.column).any(listed);
    match (within, outside) {
        _ if random.one_in(4) => 0,
        (true, true) => random.pick(&[1, 2]),
        (true, false) => 1,
        (false, true) => 2,
        (false, false) => 0,
    }
}

/// The literals of the comparison or list whose node word stands at this place.
fn set_at<'p, 'a>(predicate: &'p Predicate<'a>, wanted: usize) -> Option<&'p [Literal<'a>]> {
    match predicate {
        Predicate::And(first, second) | Predicate::Or(first, second) => {
            set_at(first, wanted).or_else(|| set_at(second, wanted))
        }
        Predicate::Compare { place, comparison } if *place == wanted => Some(std::slice::from_ref(&comparison.literal)),
        Predicate::List { place, list } if *place == wanted => Some(&list.literals),
        _ => None,
    }
}
