//! Whole sweeps over small calls: every bit of every word, every schema, answer and first byte,
//! every list limit.

use super::Run;
use crate::cases::{PruneCase, RewriteCase};
use crate::generate::{grids, limits, predicates, tables};
use crate::random::Random;

const BASES: usize = 60;

impl Run<'_> {
    pub fn sweep(mut self, seed: u64) -> super::Report {
        let mut random = Random::new(seed);
        for _ in 0..BASES {
            let rewriting = predicates::accepted(&mut random, 3, 3);
            self.rewriting_bits(&rewriting);
            self.list_limits(&rewriting);
            let mut pruning = tables::accepted(&mut random, 5);
            grids::fill(&mut random, &mut pruning, 2);
            self.pruning_bits(&pruning);
            self.answer_bytes(&pruning);
        }
        for _ in 0..2_000 {
            self.rewrite(&limits::rewriting(&mut random));
            self.prune(&limits::pruning(&mut random));
        }
        self.report
    }

    /// Each bit of the words and the schema turned over, and each first byte of the words.
    fn rewriting_bits(&mut self, base: &RewriteCase) {
        for bit in 0..base.predicate.len() * 8 {
            let mut case = base.clone();
            case.predicate[bit / 8] ^= 1 << (bit % 8);
            self.rewrite(&case);
        }
        for byte in 0..=u8::MAX {
            for at in (0..base.predicate.len()).step_by(8) {
                let mut case = base.clone();
                case.predicate[at] = byte;
                self.rewrite(&case);
            }
            for at in 0..base.schema.len() {
                let mut case = base.clone();
                case.schema[at] = byte;
                self.rewrite(&case);
            }
        }
    }

    fn list_limits(&mut self, base: &RewriteCase) {
        for list_limit in 0..=257 {
            self.rewrite(&RewriteCase { list_limit, ..base.clone() });
        }
    }

    /// Each bit of each input turned over, the cell pool's too.
    fn pruning_bits(&mut self, base: &PruneCase) {
        let inputs: [fn(&mut PruneCase) -> &mut Vec<u8>; 8] = [
            |case| &mut case.schema,
            |case| &mut case.table,
            |case| &mut case.table_pool,
            |case| &mut case.statistics,
            |case| &mut case.guarantees,
            |case| &mut case.grid,
            |case| &mut case.cell_pool,
            |case| &mut case.answers,
        ];
        for input in inputs {
            let mut case = base.clone();
            for bit in 0..input(&mut case).len() * 8 {
                input(&mut case)[bit / 8] ^= 1 << (bit % 8);
                self.prune(&case);
                input(&mut case)[bit / 8] ^= 1 << (bit % 8);
            }
        }
    }

    /// Each byte as each answer, and as the first byte of each table word.
    fn answer_bytes(&mut self, base: &PruneCase) {
        let length = base.containers as usize * base.guarantees.len() / 8;
        for byte in 0..=u8::MAX {
            for at in 0..length {
                let mut case = PruneCase { answers: vec![0; length], ..base.clone() };
                case.answers[at] = byte;
                self.prune(&case);
            }
            for at in (0..base.table.len()).step_by(8) {
                let mut case = base.clone();
                case.table[at] = byte;
                self.prune(&case);
            }
        }
    }
}
