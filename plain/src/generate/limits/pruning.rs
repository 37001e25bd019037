//! The limits of pruning.

use std::borrow::Cow;

use crate::cases::PruneCase;
use crate::generate::packer::Packer;
use crate::limits;
use crate::literal::{LiteralWord, Type, Value};
use crate::random::Random;
use crate::statistic::{Kind, Statistic};
use crate::word::{push, put};

/// A call at one of the limits, or one past it.
pub fn pruning(random: &mut Random) -> PruneCase {
    let past = random.coin() as usize;
    match random.below(13) {
        0 => containers(random, limits::CONTAINERS as usize + past),
        1 => short_flags(past),
        2 => table_words(random, past),
        3 => table_pool(past),
        4 => statistics(past),
        5 => guarantees(past),
        6 => depth(random, limits::TABLE_DEPTH + past),
        7 => table_text(limits::TABLE_TEXT_BYTES + past),
        8 => cell_text(random, past),
        9 => answer_bytes(random),
        10 => columns(limits::COLUMNS + past),
        11 => answer_lengths(random, past),
        _ => cell_range(random, past),
    }
}

/// A text column's `least ≤ 'a…'`, the literal of this length.
fn text_bound(length: usize) -> PruneCase {
    let mut packer = Packer::default();
    push(&mut packer.words, put(3, 0, 4) | put(3, 4, 4));
    packer.literal(&Some(Value::Text(Cow::Owned(vec![b'a'; length]))));
    PruneCase {
        schema: vec![Type::Text as u8],
        table: packer.words,
        table_pool: packer.pool,
        statistics: vec![0; 8],
        ..PruneCase::default()
    }
}

/// Gives the call containers, each with the same cell.
fn with_cells(case: PruneCase, containers: usize, cell: u64, cell_pool: Vec<u8>) -> PruneCase {
    let grid = cell.to_be_bytes().repeat(containers);
    PruneCase { containers: containers as u64, flag_room: containers, grid, cell_pool, ..case }
}

fn containers(random: &mut Random, count: usize) -> PruneCase {
    let cell = LiteralWord::write(Type::Text as u8, 1, 0);
    with_cells(text_bound(1), count, cell, vec![random.pick(b"ab")])
}

fn short_flags(past: usize) -> PruneCase {
    let case = containers(&mut Random::new(0), 9);
    PruneCase { flag_room: 9 - past, ..case }
}

/// 3,072 words of constants, ANDs, ORs and a NOT; or one word more.
fn table_words(random: &mut Random, past: usize) -> PruneCase {
    let words = limits::TABLE_ROOM / 8 + past;
    let mut table = Vec::new();
    let nots = (words + 1) % 2;
    for _ in 0..nots {
        push(&mut table, put(7, 0, 4));
    }
    flat(random, &mut table, words - nots);
    PruneCase { table, containers: 3, flag_room: 3, ..PruneCase::default() }
}

/// A balanced tree of an odd number of words, with constant leaves.
fn flat(random: &mut Random, table: &mut Vec<u8>, words: usize) {
    if words == 1 {
        return push(table, put(random.coin() as u64, 4, 4));
    }
    push(table, put(random.pick(&[1, 2]), 0, 4));
    let first = (words - 1) / 4 * 2 + 1;
    flat(random, table, first);
    flat(random, table, words - 1 - first);
}

fn table_pool(past: usize) -> PruneCase {
    let mut case = text_bound(1);
    case.table_pool.resize(limits::TABLE_POOL_ROOM + past, b'q');
    with_cells(case, 2, 0, Vec::new())
}

/// All 193 statistics of 64 columns; one more can only stand twice.
fn statistics(past: usize) -> PruneCase {
    let mut case = PruneCase { schema: vec![1; 64], ..PruneCase::default() };
    for column in 0..64 {
        for kind in [Kind::Least, Kind::Greatest, Kind::Blanks] {
            push(&mut case.statistics, Statistic { column, kind }.word());
        }
    }
    for _ in 0..1 + past {
        push(&mut case.statistics, Statistic { column: 0, kind: Kind::Rows }.word());
    }
    push(&mut case.table, put(5, 0, 4) | put(191, 8, 8) | put(192, 16, 8));
    let cells = case.statistics.len() / 8;
    PruneCase { containers: 1, flag_room: 1, grid: vec![0; cells * 8], ..case }
}

fn guarantees(past: usize) -> PruneCase {
    let count = limits::GUARANTEES_ROOM / 8 + past;
    let case = PruneCase { guarantees: vec![0; count * 8], ..text_bound(3) };
    let mut case = with_cells(case, 2, 0, Vec::new());
    case.answers = vec![0; 2 * count];
    case.answers[count - 1] = 2;
    case
}

/// A chain of NOTs, or of ANDs that lean left or right.
fn depth(random: &mut Random, depth: usize) -> PruneCase {
    let mut table = Vec::new();
    let kind = random.pick(&[1, 2, 7]);
    let left = random.coin();
    let side = |table: &mut Vec<u8>| push(table, put((kind == 1) as u64, 4, 4));
    for _ in 1..depth {
        push(&mut table, put(kind, 0, 4));
        if kind != 7 && !left {
            side(&mut table);
        }
    }
    side(&mut table);
    for _ in 1..depth {
        if kind != 7 && left {
            side(&mut table);
        }
    }
    PruneCase { table, containers: 2, flag_room: 2, ..PruneCase::default() }
}

fn table_text(length: usize) -> PruneCase {
    with_cells(text_bound(length), 1, LiteralWord::write(2, 2, 0), b"aa".to_vec())
}

/// The longest text cell, which ends with its pool or a byte after it.
fn cell_text(random: &mut Random, past: usize) -> PruneCase {
    let length = (1 << 14) - 1;
    let offset = random.pick(&[0, 1, 70_000]);
    let cell = LiteralWord::write(2, length, offset + past);
    with_cells(text_bound(1_025), 2, cell, vec![b'a'; offset + length])
}

/// Any answer byte at all, on In and on NotIn.
fn answer_bytes(random: &mut Random) -> PruneCase {
    let mut case = containers(random, 2);
    push(&mut case.guarantees, 0);
    push(&mut case.guarantees, put(1, 8, 1));
    case.answers = vec![0; 4];
    case.answers[random.below(4)] = random.word() as u8;
    case
}

fn columns(count: usize) -> PruneCase {
    let case = containers(&mut Random::new(0), 2);
    PruneCase { schema: vec![2; count], ..case }
}

/// Answers for every container and guarantee, or one too many; or without guarantees.
fn answer_lengths(random: &mut Random, past: usize) -> PruneCase {
    let guarantees = random.below(3);
    let case = containers(random, 2);
    let answers = vec![0; 2 * guarantees + past];
    PruneCase { guarantees: vec![0; 8 * guarantees], answers, ..case }
}

/// An integer, count or truth cell at the end of what is allowed, or one past it.
fn cell_range(random: &mut Random, past: usize) -> PruneCase {
    let (code, cell, kind) = random.pick(&[
        (1, LiteralWord::write(1, 8, 4 + past), Kind::Greatest),
        (2, LiteralWord::write(1, 8, 4 + past), Kind::Blanks),
        (3, LiteralWord::write(1, 8 - past, 4), Kind::Rows),
        (3, LiteralWord::write(3, 0, 1 + past), Kind::Least),
        (3, LiteralWord::write(3, past, 1), Kind::Least),
    ]);
    let mut statistics = Vec::new();
    push(&mut statistics, Statistic { column: 0, kind }.word());
    let table = put(1, 4, 4).to_be_bytes().to_vec();
    let case = PruneCase { schema: vec![code], table, statistics, ..PruneCase::default() };
    with_cells(case, 2, cell, vec![0xFF; 12])
}
