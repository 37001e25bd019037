//! What a run saw: counts, so that it can be seen to have tried everything, and what differs.

use std::fmt;

use crate::cases::{PruneCase, Pruned, RewriteCase, Rewritten};

/// A call that is answered in two ways, or a lost row, as a line of the recorded lists.
#[derive(Clone, Debug)]
pub struct Difference {
    pub number: u64,
    pub call: String,
    pub plain: String,
    pub other: String,
}

#[derive(Clone, Debug, Default)]
pub struct Report {
    /// The number of the case that runs.
    pub number: u64,
    pub rewrites: usize,
    pub prunes: usize,
    /// Accepted calls at 0, refusals at their numbers.
    pub results: [usize; 11],
    pub kept: usize,
    pub dropped: usize,
    pub row_containers: usize,
    pub row_dropped: usize,
    pub matching_rows: usize,
    /// Calls answered differently.
    pub differ: usize,
    /// Containers dropped with a match in them.
    pub lost: usize,
    /// The shortest call of those that differ or lose a row.
    pub shortest: Option<Difference>,
}

impl Report {
    pub fn is_clean(&self) -> bool {
        self.differ == 0 && self.lost == 0
    }

    pub fn rewritten(&mut self, case: &RewriteCase, plain: &Rewritten, other: &Rewritten) {
        self.rewrites += 1;
        self.results[(plain.answer >> 56) as usize] += 1;
        if plain != other {
            self.differ += 1;
            self.note(rewrite_line(case), outputs(plain), outputs(other));
        }
    }

    pub fn pruned(&mut self, case: &PruneCase, plain: &Pruned, other: &Pruned) {
        self.prunes += 1;
        self.results[plain.result as usize] += 1;
        if plain.result == 0 {
            let flags = &plain.flags[..case.containers as usize];
            let kept = flags.iter().filter(|flag| **flag == 1).count();
            self.kept += kept;
            self.dropped += flags.len() - kept;
        }
        if plain != other {
            self.differ += 1;
            self.note(prune_line(case), flags(plain), flags(other));
        }
    }

    pub fn rows(&mut self, rewriting: &RewriteCase, pruning: &PruneCase, matches: usize, flag: u8) {
        self.row_containers += 1;
        self.matching_rows += matches;
        self.row_dropped += (flag == 0) as usize;
        if flag == 0 && matches > 0 {
            self.lost += 1;
            let call = format!("{}\n{}", rewrite_line(rewriting), prune_line(pruning));
            self.note(call, format!("{matches} rows match"), "dropped".to_string());
        }
    }

    fn note(&mut self, call: String, plain: String, other: String) {
        if self.shortest.as_ref().is_none_or(|shortest| call.len() < shortest.call.len()) {
            self.shortest = Some(Difference { number: self.number, call, plain, other });
        }
    }
}

impl fmt::Display for Report {
    fn fmt(&self, f: &mut fmt::Formatter) -> fmt::Result {
        writeln!(f, "{} rewrites, {} prunes", self.rewrites, self.prunes)?;
        write!(f, "accepted {}; refused", self.results[0])?;
        for (refusal, count) in self.results.iter().enumerate().skip(1) {
            write!(f, " {refusal}: {count}")?;
        }
        writeln!(f, "\ncontainers kept {}, dropped {}", self.kept, self.dropped)?;
        writeln!(
            f,
            "containers of rows {}, dropped {}, matching rows {}",
            self.row_containers, self.row_dropped, self.matching_rows
        )?;
        write!(f, "{} differ, {} lost", self.differ, self.lost)?;
        if let Some(shortest) = &self.shortest {
            write!(f, "\nshortest, case {}:\n{}", shortest.number, shortest.call)?;
            write!(f, "\nplain: {}\nother: {}", shortest.plain, shortest.other)?;
        }
        Ok(())
    }
}

/// Bytes as the recorded lists have them; long runs are shortened.
fn hex(bytes: &[u8]) -> String {
    let mut text = String::new();
    for run in bytes.chunk_by(|a, b| a == b) {
        match run.len() {
            1..8 => text.extend(run.iter().map(|byte| format!("{byte:02X}"))),
            times => text.push_str(&format!("{:02X}*{times}.", run[0])),
        }
    }
    if text.is_empty() { "-".to_string() } else { text }
}

fn rewrite_line(case: &RewriteCase) -> String {
    let bytes = [&case.schema, &case.predicate, &case.pool].map(|bytes| hex(bytes)).join(" ");
    let rooms = case.rooms;
    let numbers = [rooms.table, rooms.pool, rooms.statistics, rooms.guarantees];
    let numbers = numbers.map(|room| room.to_string()).join(" ");
    format!("rewrite {bytes} {} {numbers}", case.list_limit)
}

fn prune_line(case: &PruneCase) -> String {
    let tables = [&case.schema, &case.table, &case.table_pool, &case.statistics, &case.guarantees];
    let tables = tables.map(|bytes| hex(bytes)).join(" ");
    let grid = [&case.grid, &case.cell_pool, &case.answers].map(|bytes| hex(bytes)).join(" ");
    format!("prune {tables} {} {grid} {}", case.containers, case.flag_room)
}

fn outputs(rewritten: &Rewritten) -> String {
    let outputs = [&rewritten.table, &rewritten.pool, &rewritten.statistics, &rewritten.guarantees];
    let outputs = outputs.map(|bytes| front_of(bytes)).join(" ");
    format!("{:016X} {outputs}", rewritten.answer)
}

fn flags(pruned: &Pruned) -> String {
    format!("{} {}", pruned.result, front_of(&pruned.flags))
}

/// The bytes without the pattern at their end.
fn front_of(bytes: &[u8]) -> String {
    let kept = bytes.iter().rposition(|byte| byte & 0xF0 != 0xA0).map_or(0, |last| last + 1);
    hex(&bytes[..kept])
}
