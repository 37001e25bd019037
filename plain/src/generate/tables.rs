//! Tables that rewriting need not make: every node kind in every place.

use super::packer::Packer;
use super::values;
use crate::cases::PruneCase;
use crate::guarantee::{Guarantee, guarantee_bytes};
use crate::literal::Type;
use crate::random::Random;
use crate::statistic::{Kind, Statistic};
use crate::word::{push, put};

/// A pruning call whose table, statistics and guarantees are sound; no cells yet.
pub fn accepted(random: &mut Random, nodes: usize) -> PruneCase {
    let schema = values::schema(random, 5);
    let statistics = statistics(random, &schema);
    let mut builder = Builder { random, schema: &schema, statistics: &statistics, packer: Packer::default() };
    let nodes = builder.random.between(1, nodes);
    builder.tree(nodes);
    let Packer { words: table, pool: table_pool } = builder.packer;
    let mut case = PruneCase { table, table_pool, ..PruneCase::default() };
    case.guarantees = guarantee_bytes(&guarantees(random, schema.len()));
    case.schema = values::schema_bytes(&schema);
    for statistic in &statistics {
        push(&mut case.statistics, statistic.word());
    }
    case
}

/// Some of the statistics that the schema allows, in any order.
fn statistics(random: &mut Random, schema: &[Type]) -> Vec<Statistic> {
    let mut listed = Vec::new();
    for column in 0..schema.len() as u8 {
        for kind in [Kind::Least, Kind::Greatest, Kind::Blanks, Kind::Rows] {
            let allowed = kind != Kind::Rows || column == 0;
            if allowed && !random.one_in(4) {
                let at = random.between(0, listed.len());
                listed.insert(at, Statistic { column, kind });
            }
        }
    }
    listed
}

fn guarantees(random: &mut Random, columns: usize) -> Vec<Guarantee> {
    let length = if columns == 0 { 0 } else { random.pick(&[0, 0, 1, 2, 5]) };
    let mut guarantee =
        || Guarantee { column: random.below(columns) as u8, not_in: random.coin(), place: random.below(1 << 16) };
    (0..length).map(|_| guarantee()).collect()
}

struct Builder<'r> {
    random: &'r mut Random,
    schema: &'r [Type],
    statistics: &'r [Statistic],
    packer: Packer,
}

impl Builder<'_> {
    fn tree(&mut self, nodes: usize) {
        if nodes >= 3 && !self.random.one_in(6) {
            self.packer.bare(self.random.pick(&[1, 2]), 0);
            let first = self.random.between(1, nodes - 2);
            self.tree(first);
            self.tree(nodes - 1 - first);
        } else if nodes >= 2 && self.random.one_in(3) {
            self.packer.bare(7, 0);
            self.tree(nodes - 1);
        } else if self.leaf().is_none() {
            let operator = self.random.coin() as u8;
            self.packer.bare(0, operator);
        }
    }

    /// A leaf that reads statistics; nothing if none fits the kind drawn.
    fn leaf(&mut self) -> Option<()> {
        match self.random.below(7) {
            0..=2 => return self.against(),
            3 => {
                let blanks = self.place(|statistic, _| statistic.kind == Kind::Blanks)?;
                self.node(4, 0, blanks, 0, false);
            }
            4 | 5 => {
                let blanks = self.place(|statistic, _| statistic.kind == Kind::Blanks)?;
                let rows = self.place(|statistic, _| statistic.kind == Kind::Rows)?;
                self.node(5, 0, blanks, rows, false);
            }
            _ => {
                let truth = self.place(|statistic, of| is_bound(statistic) && of == Type::Truth)?;
                self.node(6, 0, truth, 0, false);
            }
        }
        Some(())
    }

    fn against(&mut self) -> Option<()> {
        let bound = self.place(|statistic, _| is_bound(statistic))?;
        let column = self.statistics[bound as usize].column;
        let operator = self.random.below(6) as u8;
        let literal_first = self.random.coin();
        self.node(3, operator, bound, 0, literal_first);
        let literal = values::literal(self.random, self.schema[column as usize]);
        self.packer.scattered(self.random, &literal);
        Some(())
    }

    /// The place of one statistic that fits.
    fn place(&mut self, fits: impl Fn(&Statistic, Type) -> bool) -> Option<u8> {
        let of = |statistic: &Statistic| self.schema[statistic.column as usize];
        let places = 0..self.statistics.len();
        let fitting: Vec<usize> =
            places.filter(|place| fits(&self.statistics[*place], of(&self.statistics[*place]))).collect();
        (!fitting.is_empty()).then(|| self.random.pick(&fitting) as u8)
    }

    fn node(&mut self, kind: u8, operator: u8, first: u8, second: u8, literal_first: bool) {
        let word = put(kind as u64, 0, 4)
            | put(operator as u64, 4, 4)
            | put(first as u64, 8, 8)
            | put(second as u64, 16, 8)
            | put(literal_first as u64, 24, 1);
        push(&mut self.packer.words, word);
    }
}

fn is_bound(statistic: &Statistic) -> bool {
    matches!(statistic.kind, Kind::Least | Kind::Greatest)
}
