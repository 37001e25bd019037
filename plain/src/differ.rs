//! Differential runs: the plain Rust and a subject answer the same seeded calls. Rows are checked
//! too: a container that the subject drops holds no row that the predicate is true of.

mod report;
mod sweeps;

use crate::cases::{PruneCase, RewriteCase};
use crate::generate::{damage, grids, limits, predicates, rows, tables};
use crate::literal::schema_types;
use crate::meaning::meaning;
use crate::random::Random;
use crate::reader::read;
use crate::rules::Rules;
use crate::subject::{Plain, Subject};
pub use report::{Difference, Report};

pub struct Run<'s> {
    pub plain: Plain,
    pub subject: &'s dyn Subject,
    pub report: Report,
}

impl<'s> Run<'s> {
    pub fn new(plain: Plain, subject: &'s dyn Subject) -> Run<'s> {
        Run { plain, subject, report: Report::default() }
    }

    /// Cases `from` to `to` of a seed; a case is the same whatever came before it.
    pub fn cases(mut self, seed: u64, from: u64, to: u64) -> Report {
        for number in from..to {
            self.report.number = number;
            self.case(&mut Random::new(Random::new(seed ^ number.rotate_left(32)).word()));
        }
        self.report
    }

    fn case(&mut self, random: &mut Random) {
        match random.below(20) {
            0..=5 => self.predicate(random),
            6..=9 => self.damaged_predicate(random),
            10 => self.rewriting_limit(random),
            11 => self.pruning_limit(random),
            12..=15 => self.table(random),
            _ => self.rows(random),
        }
    }

    /// A valid predicate, rewritten and then pruned by.
    fn predicate(&mut self, random: &mut Random) {
        let nodes = random.pick(&[1, 3, 7, 15, 40]);
        let rewriting = predicates::accepted(random, nodes, 4);
        self.rewrite(&rewriting);
        self.prune_by(random, &rewriting);
    }

    fn damaged_predicate(&mut self, random: &mut Random) {
        let nodes = random.pick(&[1, 3, 7]);
        let mut rewriting = predicates::accepted(random, nodes, 3);
        damage::rewriting(random, &mut rewriting);
        self.rewrite(&rewriting);
    }

    fn rewriting_limit(&mut self, random: &mut Random) {
        let mut rewriting = limits::rewriting(random);
        if random.one_in(4) {
            damage::rewriting(random, &mut rewriting);
        }
        self.rewrite(&rewriting);
        if random.one_in(4) {
            self.prune_by(random, &rewriting);
        }
    }

    fn pruning_limit(&mut self, random: &mut Random) {
        let mut pruning = limits::pruning(random);
        if random.one_in(4) {
            damage::pruning(random, &mut pruning);
        }
        self.prune(&pruning);
    }

    /// A table of its own, not made by rewriting.
    fn table(&mut self, random: &mut Random) {
        let nodes = random.pick(&[1, 3, 7, 15]);
        let mut pruning = tables::accepted(random, nodes);
        let containers = random.below(5);
        grids::fill(random, &mut pruning, containers);
        if random.coin() {
            damage::pruning(random, &mut pruning);
        }
        self.prune(&pruning);
    }

    /// Prunes by what the plain Rust rewrites the call to.
    fn prune_by(&mut self, random: &mut Random, rewriting: &RewriteCase) {
        let rewritten = self.plain.rewrite(&rewriting.call());
        let Some(mut pruning) = rewritten.pruning(&rewriting.schema, 0) else {
            return;
        };
        let containers = if random.one_in(100) { 200 } else { random.below(6) };
        grids::fill(random, &mut pruning, containers);
        if random.one_in(3) {
            damage::pruning(random, &mut pruning);
        }
        self.prune(&pruning);
    }

    fn rewrite(&mut self, case: &RewriteCase) {
        let plain = self.plain.rewrite(&case.call());
        let other = self.subject.rewrite(&case.call());
        self.report.rewritten(case, &plain, &other);
    }

    fn prune(&mut self, case: &PruneCase) {
        let plain = self.plain.prune(&case.call());
        let other = self.subject.prune(&case.call());
        self.report.pruned(case, &plain, &other);
    }

    /// True summaries and answers of rows: what the subject drops holds no match.
    fn rows(&mut self, random: &mut Random) {
        let nodes = random.pick(&[1, 1, 3, 5, 9]);
        let rewriting = predicates::accepted(random, nodes, 3);
        let schema = schema_types(&rewriting.schema).expect("a schema");
        let predicate = read(&Rules::SOUND, &schema, &rewriting.predicate, &rewriting.pool);
        let predicate = predicate.expect("a valid predicate");
        let rewritten = self.subject.rewrite(&rewriting.call());
        let Some(mut pruning) = rewritten.pruning(&rewriting.schema, 0) else {
            return;
        };
        let containers = rows::containers(random, &schema, &predicate, 6);
        rows::fill(random, &mut pruning, &predicate, &containers);
        let pruned = self.subject.prune(&pruning.call());
        self.prune(&pruning);
        for (rows, flag) in containers.iter().zip(&pruned.flags) {
            let matches = rows.iter().filter(|row| meaning(&predicate, row) == Some(true)).count();
            self.report.rows(&rewriting, &pruning, matches, *flag);
        }
    }
}
