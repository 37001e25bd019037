//! Guarantees: the sets of values that a root, or a part of its ANDs, allows or shuts out.

use crate::literal::Literal;
use crate::predicate::{Operator, Predicate};
use crate::rules::{Mutant, Rules};
use crate::word::{field, push, put};

/// In, or NotIn, of the non-null literals of the node at `place`.
#[derive(Clone, Copy, Debug, PartialEq, Eq)]
pub struct Guarantee {
    pub column: u8,
    pub not_in: bool,
    pub place: usize,
}

impl Guarantee {
    /// The guarantee a word states, if its unnamed bits are zero.
    pub fn read(word: u64) -> Option<Guarantee> {
        let guarantee = Guarantee {
            column: field(word, 0, 8) as u8,
            not_in: field(word, 8, 1) == 1,
            place: field(word, 9, 16) as usize,
        };
        (field(word, 25, 39) == 0).then_some(guarantee)
    }

    pub fn word(self) -> u64 {
        put(self.column as u64, 0, 8) | put(self.not_in as u64, 8, 1) | put(self.place as u64, 9, 16)
    }

    /// Does this answer leave no row that could match?
    pub fn drops(self, rules: &Rules, answer: u8) -> bool {
        let not_in = self.not_in && !rules.has(Mutant::NotInDropsOnTwo);
        answer == if not_in { 1 } else { 2 }
    }
}

/// The guarantees of a predicate, in prefix order.
pub fn guarantees(rules: &Rules, predicate: &Predicate) -> Vec<Guarantee> {
    let mut found = Vec::new();
    collect(rules, predicate, &mut found);
    found
}

/// The words of guarantees.
pub fn guarantee_bytes(guarantees: &[Guarantee]) -> Vec<u8> {
    let mut bytes = Vec::with_capacity(guarantees.len() * 8);
    for guarantee in guarantees {
        push(&mut bytes, guarantee.word());
    }
    bytes
}

fn collect(rules: &Rules, predicate: &Predicate, found: &mut Vec<Guarantee>) {
    match predicate {
        Predicate::And(first, second) => {
            collect(rules, first, found);
            collect(rules, second, found);
        }
        Predicate::Or(first, second) if rules.has(Mutant::GuaranteeUnderOr) => {
            collect(rules, first, found);
            collect(rules, second, found);
        }
        other => found.extend(single(other)),
    }
}

/// The guarantee of one comparison or list: unflipped, by (non-)equality, over some non-null literal.
fn single(predicate: &Predicate) -> Option<Guarantee> {
    let (place, operand, not_in, literals): (_, _, _, &[Literal]) = match predicate {
        Predicate::Compare { place, comparison } => {
            let not_in = match comparison.operator {
                Operator::Equal => false,
                Operator::NotEqual => true,
                _ => return None,
            };
            (*place, comparison.operand, not_in, std::slice::from_ref(&comparison.literal))
        }
        Predicate::List { place, list } => (*place, list.operand, list.negated, &list.literals),
        _ => return None,
    };
    let stated = operand.flips == 0 && literals.iter().any(Option::is_some);
    stated.then_some(Guarantee { column: operand.column, not_in, place })
}
