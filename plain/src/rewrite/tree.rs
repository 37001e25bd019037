//! The tree of a predicate, node by node, into the tree of a table.

use super::forms::Forms;
use crate::literal::{Literal, Type, Value};
use crate::predicate::{Comparison, List, Operand, Operator, Predicate};
use crate::rules::{Mutant, Rules};
use crate::statistic::Statistics;
use crate::table::Table;

/// The table of a predicate and the statistics it lists.
pub fn rewrite_tree<'a>(rules: &Rules, list_limit: usize, predicate: &Predicate<'a>) -> (Table<'a>, Statistics) {
    let forms = Forms { rules, statistics: Statistics::default() };
    let mut rewriter = Rewriter { list_limit, forms };
    let table = rewriter.tree(predicate);
    (table, rewriter.forms.statistics)
}

struct Rewriter<'r> {
    list_limit: usize,
    forms: Forms<'r>,
}

impl Rewriter<'_> {
    fn tree<'a>(&mut self, predicate: &Predicate<'a>) -> Table<'a> {
        match predicate {
            Predicate::Constant(value) => Table::Constant(*value != Some(false)),
            Predicate::And(first, second) => {
                let first = self.tree(first);
                if self.forms.rules.has(Mutant::LazyAnd) && first == Table::Constant(false) {
                    return first;
                }
                Table::folded_and(first, self.tree(second))
            }
            Predicate::Or(first, second) => {
                let first = self.tree(first);
                Table::folded_or(first, self.tree(second))
            }
            Predicate::Not(inner) => match **inner {
                Predicate::Truth(column) => self.forms.truth_is_false(column),
                _ => Table::UNHANDLED,
            },
            Predicate::Truth(column) => self.forms.truth_is_true(*column),
            Predicate::IsNull(column) => self.forms.some_blank(*column),
            Predicate::IsNotNull(column) => self.forms.some_value(*column),
            Predicate::Compare { comparison, .. } => self.comparison(comparison.clone()),
            Predicate::List { list, .. } => self.list(list),
            Predicate::Like(like) if like.negated => Table::UNHANDLED,
            Predicate::Like(like) => self.forms.like(like.column, like.pattern),
        }
    }

    /// A left-nested OR of =, or AND of ≠, of 1 to limit literals.
    fn list<'a>(&mut self, list: &List<'a>) -> Table<'a> {
        let spare = self.forms.rules.has(Mutant::ShortLimit) as usize;
        if list.literals.is_empty() || list.literals.len() + spare > self.list_limit {
            return Table::UNHANDLED;
        }
        let mut table = Table::Constant(list.negated);
        for literal in &list.literals {
            let operator = if list.negated { Operator::NotEqual } else { Operator::Equal };
            let (operand, literal) = (list.operand, literal.clone());
            let member = Comparison { operand, operator, literal_first: false, literal };
            let member = self.comparison(member);
            table = match list.negated {
                true => Table::folded_and(table, member),
                false => Table::folded_or(table, member),
            };
        }
        table
    }

    fn comparison<'a>(&mut self, comparison: Comparison<'a>) -> Table<'a> {
        let column = comparison.operand.column;
        match normalized(self.forms.rules, comparison) {
            Some((operator, literal)) => self.forms.comparison(column, operator, literal),
            None => Table::UNHANDLED,
        }
    }
}

/// The comparison with the bare column on its left, if that is handled.
fn normalized<'a>(rules: &Rules, comparison: Comparison<'a>) -> Option<(Operator, Literal<'a>)> {
    let Comparison { operand, mut operator, literal_first, mut literal } = comparison;
    if literal_first {
        operator = operator.swap()?;
    }
    let Operand { column_type, flips, .. } = operand;
    let equality = matches!(operator, Operator::Equal | Operator::NotEqual);
    if column_type == Type::Truth && (flips > 1 || (flips == 1 && !equality)) {
        return None;
    }
    for _ in 0..flips {
        literal = negated(rules, literal)?;
        if !rules.has(Mutant::FlipKeepsOrder) {
            operator = operator.swap()?;
        }
    }
    Some((operator, literal))
}

/// The literal with one flip; nothing for -2^63.
fn negated<'a>(rules: &Rules, literal: Literal<'a>) -> Option<Literal<'a>> {
    Some(match literal {
        Some(Value::Integer(value)) if rules.has(Mutant::MinimumWraps) => Some(Value::Integer(value.wrapping_neg())),
        Some(Value::Integer(value)) => Some(Value::Integer(value.checked_neg()?)),
        Some(Value::Truth(value)) => Some(Value::Truth(!value)),
        other => other,
    })
}
