//! Pruning: from a call's bytes to a flag a container, or a refusal.

pub mod evaluate;
pub mod grid;
pub mod tables;

use crate::limits;
use crate::literal::schema_types;
use crate::refusal::{self, refuse_unless};
use crate::rules::{Mutant, Rules};
use evaluate::evaluate;
use grid::{Cell, read_grid};
use tables::{Checked, read_checked};

/// What a call of pruning is given.
#[derive(Clone, Copy, Debug)]
pub struct PruneCall<'a> {
    pub schema: &'a [u8],
    pub table: &'a [u8],
    pub table_pool: &'a [u8],
    pub statistics: &'a [u8],
    pub guarantees: &'a [u8],
    pub containers: u64,
    pub grid: &'a [u8],
    pub cell_pool: &'a [u8],
    pub answers: &'a [u8],
    pub flag_room: usize,
}

/// The flags, a byte a container: 0 drops, 1 keeps.
pub fn prune(rules: &Rules, call: &PruneCall) -> Result<Vec<u8>, u8> {
    let schema = schema_types(call.schema).ok_or(refusal::SCHEMA)?;
    let sized = call.containers <= limits::CONTAINERS && call.containers <= call.flag_room as u64;
    refuse_unless(sized, refusal::CONTAINERS)?;
    let containers = call.containers as usize;
    let checked = read_checked(&schema, call).ok_or(refusal::TABLE)?;
    let cells = read_grid(rules, &schema, &checked.statistics, call).ok_or(refusal::GRID)?;
    check_answers(call.answers, containers * checked.guarantees.len())?;
    let flags = (0..containers).map(|container| {
        let row = part(&cells, container, checked.statistics.len());
        let answers = part(call.answers, container, checked.guarantees.len());
        flag(rules, &checked, row, answers)
    });
    Ok(flags.collect())
}

/// The container's part of a grid; empty where the whole is.
fn part<T>(whole: &[T], container: usize, width: usize) -> &[T] {
    whole.get(container * width..(container + 1) * width).unwrap_or(&[])
}

/// Answers are none, or one a container and guarantee, each 0, 1 or 2.
fn check_answers(answers: &[u8], wanted: usize) -> Result<(), u8> {
    let sized = answers.is_empty() || answers.len() == wanted;
    refuse_unless(sized && answers.iter().all(|answer| *answer <= 2), refusal::ANSWERS)
}

fn flag(rules: &Rules, checked: &Checked, cells: &[Cell], answers: &[u8]) -> u8 {
    let value = evaluate(&checked.table, cells);
    let unknown_drops = value.is_none() && rules.has(Mutant::UnknownDrops);
    let mut answered = checked.guarantees.iter().zip(answers);
    let dropped =
        value == Some(false) || unknown_drops || answered.any(|(guarantee, answer)| guarantee.drops(rules, *answer));
    !dropped as u8
}
