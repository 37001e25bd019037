//! The forms that comparisons, LIKE and column tests are rewritten into, with what they list.

use std::borrow::Cow;

use crate::literal::{Literal, Value};
use crate::predicate::Operator;
use crate::rules::{Mutant, Rules};
use crate::statistic::{Kind, Place, Statistics};
use crate::table::{Against, Table};
use crate::text::{increment, prefix};

pub struct Forms<'r> {
    pub rules: &'r Rules,
    pub statistics: Statistics,
}

impl Forms<'_> {
    fn place(&mut self, column: u8, kind: Kind) -> Place {
        self.statistics.place(self.rules, column, kind)
    }

    /// The column itself: least OR greatest.
    pub fn truth_is_true(&mut self, column: u8) -> Table<'static> {
        let least = Table::Truth(self.place(column, Kind::Least));
        Table::any(least, Table::Truth(self.place(column, Kind::Greatest)))
    }

    /// NOT of the column: NOT (least AND greatest).
    pub fn truth_is_false(&mut self, column: u8) -> Table<'static> {
        let least = Table::Truth(self.place(column, Kind::Least));
        let greatest = Table::Truth(self.place(column, Kind::Greatest));
        Table::Not(Box::new(Table::all(least, greatest)))
    }

    pub fn some_blank(&mut self, column: u8) -> Table<'static> {
        Table::SomeBlank(self.place(column, Kind::Blanks))
    }

    pub fn some_value(&mut self, column: u8) -> Table<'static> {
        let blanks = self.place(column, Kind::Blanks);
        Table::SomeValue { blanks, rows: self.place(column, Kind::Rows) }
    }

    /// A bare column against a literal.
    pub fn comparison<'a>(&mut self, column: u8, operator: Operator, literal: Literal<'a>) -> Table<'a> {
        let bound = match operator {
            Operator::Equal => self.equal(column, literal),
            Operator::NotEqual => self.not_equal(column, literal),
            Operator::Less | Operator::LessEqual => self.against(column, Kind::Least, operator, literal),
            Operator::Greater | Operator::GreaterEqual => self.against(column, Kind::Greatest, operator, literal),
            Operator::DistinctFrom => return self.distinct(column, literal),
            Operator::NotDistinctFrom => return self.not_distinct(column, literal),
        };
        self.wrapped(column, bound)
    }

    /// (blanks ≠ rows) AND the form.
    fn wrapped<'a>(&mut self, column: u8, form: Table<'a>) -> Table<'a> {
        Table::all(self.some_value(column), form)
    }

    fn distinct<'a>(&mut self, column: u8, literal: Literal<'a>) -> Table<'a> {
        let some_value = self.some_value(column);
        let not_equal = self.not_equal(column, literal.clone());
        match literal {
            None => some_value,
            Some(_) => Table::any(self.some_blank(column), not_equal),
        }
    }

    fn not_distinct<'a>(&mut self, column: u8, literal: Literal<'a>) -> Table<'a> {
        let some_value = self.some_value(column);
        let equal = self.equal(column, literal.clone());
        match literal {
            None => self.some_blank(column),
            Some(_) => Table::all(some_value, equal),
        }
    }

    /// Least ≤ literal AND literal ≤ greatest.
    fn equal<'a>(&mut self, column: u8, literal: Literal<'a>) -> Table<'a> {
        self.between(column, Operator::LessEqual, literal.clone(), literal)
    }

    /// `least operator upper` AND `lower ≤ greatest`.
    fn between<'a>(&mut self, column: u8, operator: Operator, upper: Literal<'a>, lower: Literal<'a>) -> Table<'a> {
        let least = self.against(column, Kind::Least, operator, upper);
        Table::all(least, self.behind(column, Operator::LessEqual, lower))
    }

    /// Least ≠ literal OR literal ≠ greatest.
    fn not_equal<'a>(&mut self, column: u8, literal: Literal<'a>) -> Table<'a> {
        let least = self.against(column, Kind::Least, Operator::NotEqual, literal.clone());
        Table::any(least, self.behind(column, Operator::NotEqual, literal))
    }

    /// A bound, then the literal.
    fn against<'a>(&mut self, column: u8, kind: Kind, operator: Operator, literal: Literal<'a>) -> Table<'a> {
        let place = self.place(column, kind);
        Table::Against(Against { place, operator, literal_first: false, literal })
    }

    /// The literal, then the greatest.
    fn behind<'a>(&mut self, column: u8, operator: Operator, literal: Literal<'a>) -> Table<'a> {
        let place = self.place(column, Kind::Greatest);
        Table::Against(Against { place, operator, literal_first: true, literal })
    }

    /// LIKE: least ≤ upper AND prefix ≤ greatest.
    pub fn like(&mut self, column: u8, pattern: Option<&str>) -> Table<'static> {
        self.place(column, Kind::Least);
        self.place(column, Kind::Greatest);
        let Some((lower, wildcard)) = pattern.map(prefix) else {
            return Table::UNHANDLED;
        };
        let upper = if wildcard { increment(self.rules, &lower) } else { Some(lower.clone()) };
        let Some(upper) = upper else {
            return Table::UNHANDLED;
        };
        let strict = self.rules.has(Mutant::StrictUpper);
        let operator = if strict { Operator::Less } else { Operator::LessEqual };
        let form = self.between(column, operator, text(upper), text(lower));
        self.wrapped(column, form)
    }
}

fn text(text: String) -> Literal<'static> {
    Some(Value::Text(Cow::Owned(text.into_bytes())))
}
