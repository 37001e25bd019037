//! Cells for a statistics list: present and absent, true or not; and answers.

use super::packer::Packer;
use super::values;
use crate::cases::PruneCase;
use crate::literal::{Literal, Type, Value};
use crate::random::Random;
use crate::statistic::{Kind, Statistic};
use crate::word::words;

/// The statistics of a call whose list is whole words without damage.
pub fn listed(case: &PruneCase) -> Vec<Statistic> {
    let words = words(&case.statistics).expect("whole words");
    words.into_iter().map(|word| Statistic::read(word).expect("a statistic")).collect()
}

/// Fills in a grid of cells that fit their columns but are otherwise free, and answers.
pub fn fill(random: &mut Random, case: &mut PruneCase, containers: usize) {
    case.containers = containers as u64;
    case.flag_room = containers + random.below(3);
    let absent = random.pick(&[2, 5, 30]);
    let statistics = listed(case);
    let mut packer = Packer::default();
    for _ in 0..containers {
        for statistic in &statistics {
            let cell = cell(random, &case.schema, statistic);
            let cell = cell.filter(|_| !random.one_in(absent));
            packer.scattered(random, &cell);
        }
    }
    (case.grid, case.cell_pool) = (packer.words, packer.pool);
    case.answers = answers(random, containers * case.guarantees.len() / 8);
}

fn cell(random: &mut Random, schema: &[u8], statistic: &Statistic) -> Literal<'static> {
    match statistic.kind {
        Kind::Blanks | Kind::Rows => {
            let count = random.pick(&[0, 0, 1, 3, 3, 3, i64::MIN, -1, i64::MAX]);
            Some(Value::Integer(count))
        }
        Kind::Least | Kind::Greatest => {
            let column_type = Type::from_code(schema[statistic.column as usize])?;
            Some(values::value(random, column_type))
        }
    }
}

/// None at all, all 0, or any of the three.
fn answers(random: &mut Random, length: usize) -> Vec<u8> {
    match random.below(4) {
        0 => Vec::new(),
        1 => vec![0; length],
        _ => (0..length).map(|_| random.pick(&[0, 0, 0, 1, 2])).collect(),
    }
}
