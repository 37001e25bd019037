//! Replays the recorded lists through the C functions and says how many lines of each sort differ.
//! Use: replay [LIST...]; with no list, those of this package. Exit status 1 where a line differs, 2 where one can't be read.

use filughjosa::vectors::Line;
use std::process::ExitCode;
use std::{env, fs};

/// Differences that are printed in full; the rest are only counted.
const SHOWN: usize = 20;

/// How many lines of each sort were replayed, and how many differ.
#[derive(Default)]
struct Tally {
    replayed: [usize; 3],
    differ: [usize; 3],
    unread: usize,
}

const SORTS: [&str; 3] = ["rewrite", "prune", "flags"];

fn main() -> ExitCode {
    let mut lists: Vec<String> = env::args().skip(1).collect();
    if lists.is_empty() {
        lists =
            ["paper.txt", "original.txt"].map(|name| format!("{}/vectors/{name}", env!("CARGO_MANIFEST_DIR"))).into();
    }
    let mut tally = Tally::default();
    for list in &lists {
        match fs::read_to_string(list) {
            Ok(text) => text.lines().enumerate().for_each(|(at, line)| tally.line(list, at + 1, line)),
            Err(e) => {
                eprintln!("{list}: {e}");
                tally.unread += 1;
            }
        }
    }
    tally.report()
}

impl Tally {
    fn line(&mut self, list: &str, at: usize, text: &str) {
        let line = match Line::read(text) {
            Ok(line) => line,
            Err(why) => {
                eprintln!("{list}, line {at}: not read: {why}");
                self.unread += 1;
                return;
            }
        };
        let sort = match line {
            Line::Rewrite(_) => 0,
            Line::Prune(_) => 1,
            Line::Flags(_) => 2,
        };
        self.replayed[sort] += 1;
        if let Err(why) = line.replay() {
            self.differ[sort] += 1;
            if self.differ.iter().sum::<usize>() <= SHOWN {
                eprintln!("{list}, line {at}, {}: {why}", SORTS[sort]);
            }
        }
    }

    fn report(&self) -> ExitCode {
        for (sort, name) in SORTS.iter().enumerate() {
            println!("{name}: {} replayed, {} differ", self.replayed[sort], self.differ[sort]);
        }
        println!("not read: {}", self.unread);
        match (self.unread, self.differ.iter().sum::<usize>()) {
            (0, 0) => ExitCode::SUCCESS,
            (0, _) => ExitCode::from(1),
            _ => ExitCode::from(2),
        }
    }
}
