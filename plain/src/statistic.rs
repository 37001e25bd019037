//! Statistics and the list of those that a rewritten table asks for.

use crate::rules::{Mutant, Rules};
use crate::word::{field, push, put};

#[derive(Clone, Copy, Debug, PartialEq, Eq)]
pub enum Kind {
    Least,
    Greatest,
    Blanks,
    Rows,
}

#[derive(Clone, Copy, Debug, PartialEq, Eq)]
pub struct Statistic {
    pub column: u8,
    pub kind: Kind,
}

impl Statistic {
    /// The statistic a word names, if its unnamed bits are zero.
    pub fn read(word: u64) -> Option<Statistic> {
        let kind = [Kind::Least, Kind::Greatest, Kind::Blanks, Kind::Rows];
        let statistic = Statistic { column: field(word, 0, 8) as u8, kind: kind[field(word, 8, 2) as usize] };
        (field(word, 10, 54) == 0).then_some(statistic)
    }

    pub fn word(self) -> u64 {
        put(self.column as u64, 0, 8) | put(self.kind as u64, 8, 2)
    }
}

/// A place in a statistics list; never a column number.
#[derive(Clone, Copy, Debug, PartialEq, Eq)]
pub struct Place(pub u8);

/// The list, in the order of first asking.
#[derive(Clone, Debug, Default)]
pub struct Statistics(Vec<Statistic>);

impl Statistics {
    /// The place of a statistic, listed now if it was not.
    pub fn place(&mut self, rules: &Rules, column: u8, kind: Kind) -> Place {
        let keeps_column = kind != Kind::Rows || rules.has(Mutant::RowsKeepColumn);
        let statistic = Statistic { column: if keeps_column { column } else { 0 }, kind };
        let listed = self.0.iter().position(|listed| *listed == statistic);
        let place = listed.unwrap_or_else(|| {
            self.0.push(statistic);
            self.0.len() - 1
        });
        Place(place as u8)
    }

    pub fn bytes(&self) -> Vec<u8> {
        let mut bytes = Vec::with_capacity(self.0.len() * 8);
        for statistic in &self.0 {
            push(&mut bytes, statistic.word());
        }
        bytes
    }
}
