//! Recorded calls with their answers, one a line, and their replay against a subject.

use crate::cases::{PruneCase, Pruned, RewriteCase, Rewritten};
use crate::rewrite::Rooms;
use crate::statistic::Statistic;
use crate::subject::{Subject, front};
use crate::word::{push, words};

/// The fields of a line, read one after the other. A line that can't be read ends the run.
struct Fields<'a>(std::str::Split<'a, char>);

impl<'a> Fields<'a> {
    fn next(&mut self) -> &'a str {
        self.0.next().expect("a field is missing")
    }

    fn number(&mut self) -> u64 {
        self.next().parse().expect("a decimal number")
    }

    fn bytes(&mut self) -> Vec<u8> {
        bytes(self.next())
    }
}

/// Hex bytes, `-` for none, `XX*N.` for N times XX.
fn bytes(text: &str) -> Vec<u8> {
    let mut bytes = Vec::new();
    let mut rest = if text == "-" { "" } else { text };
    while !rest.is_empty() {
        let byte = u8::from_str_radix(&rest[..2], 16).expect("two hex digits");
        rest = &rest[2..];
        let mut times = 1;
        if let Some(repeated) = rest.strip_prefix('*') {
            let (number, after) = repeated.split_once('.').expect("a point after a number");
            times = number.parse().expect("a decimal number");
            rest = after;
        }
        bytes.extend(std::iter::repeat_n(byte, times));
    }
    bytes
}

/// How many lines were replayed, and the numbers of those whose answer differs.
#[derive(Debug, Default)]
pub struct Replay {
    pub rewrites: usize,
    pub prunes: usize,
    pub flags: usize,
    pub differ: Vec<usize>,
}

/// Replays every line of a list.
pub fn replay(subject: &impl Subject, list: &str) -> Replay {
    let mut replay = Replay::default();
    for (number, line) in list.lines().enumerate() {
        let mut fields = Fields(line.split(' '));
        let (count, same) = match fields.next() {
            "rewrite" => (&mut replay.rewrites, rewrite_agrees(subject, fields)),
            "prune" => (&mut replay.prunes, prune_agrees(subject, fields)),
            "flags" => (&mut replay.flags, flags_agree(subject, fields)),
            other => panic!("line {}: unknown call {other}", number + 1),
        };
        *count += 1;
        if !same {
            replay.differ.push(number + 1);
        }
    }
    replay
}

fn rewrite_agrees(subject: &impl Subject, mut fields: Fields) -> bool {
    let (schema, predicate, pool) = (fields.bytes(), fields.bytes(), fields.bytes());
    let list_limit = fields.number();
    let [table, pool_room, statistics, guarantees] = [(); 4].map(|()| fields.number() as usize);
    let rooms = Rooms { table, pool: pool_room, statistics, guarantees };
    let case = RewriteCase { schema, predicate, pool, list_limit, rooms };
    let mut wanted = Rewritten::lent(rooms);
    wanted.answer = u64::from_str_radix(fields.next(), 16).expect("the answer word");
    if wanted.answer >> 56 == 0 {
        front(&mut wanted.table, &fields.bytes());
        front(&mut wanted.pool, &fields.bytes());
        front(&mut wanted.statistics, &fields.bytes());
        front(&mut wanted.guarantees, &fields.bytes());
    }
    subject.rewrite(&case.call()) == wanted
}

fn prune_agrees(subject: &impl Subject, mut fields: Fields) -> bool {
    let case = PruneCase {
        schema: fields.bytes(),
        table: fields.bytes(),
        table_pool: fields.bytes(),
        statistics: fields.bytes(),
        guarantees: fields.bytes(),
        containers: fields.number(),
        grid: fields.bytes(),
        cell_pool: fields.bytes(),
        answers: fields.bytes(),
        flag_room: fields.number() as usize,
    };
    let mut wanted = Pruned::lent(case.flag_room);
    wanted.result = fields.number();
    if wanted.result == 0 {
        front(&mut wanted.flags, &fields.bytes());
    }
    subject.prune(&case.call()) == wanted
}

/// Rewrites, picks the grid out of the summaries by the statistics list, and prunes.
fn flags_agree(subject: &impl Subject, mut fields: Fields) -> bool {
    let (schema, predicate, pool) = (fields.bytes(), fields.bytes(), fields.bytes());
    let list_limit = fields.number();
    let rewriting = RewriteCase { schema, predicate, pool, list_limit, rooms: Rooms::LEAST };
    let containers = fields.number();
    let (summaries, cell_pool, flags) = (fields.bytes(), fields.bytes(), fields.bytes());
    let rewritten = subject.rewrite(&rewriting.call());
    let Some(case) = rewritten.pruning(&rewriting.schema, containers) else {
        return false;
    };
    let grid = picked(&case.statistics, &summaries, rewriting.schema.len(), containers as usize);
    let case = PruneCase { grid, cell_pool, ..case };
    subject.prune(&case.call()) == Pruned { result: 0, flags }
}

/// The cells of the listed statistics, out of four a column.
fn picked(statistics: &[u8], summaries: &[u8], columns: usize, containers: usize) -> Vec<u8> {
    let summaries = words(summaries).expect("whole words");
    let listed = words(statistics).expect("whole words");
    let mut grid = Vec::new();
    for container in 0..containers {
        for word in &listed {
            let statistic = Statistic::read(*word).expect("a statistic");
            let cell = (container * columns + statistic.column as usize) * 4;
            push(&mut grid, summaries[cell + statistic.kind as usize]);
        }
    }
    grid
}
