//! Predicates written as formulas, so that reading gives them back. A NOT in a comparison (a truth value's flip) and a text
//! that is not UTF-8 are written too, though no formula reads so.

use super::parse::KEYWORDS;
use crate::predicate::{Column, Operator, Predicate};
use crate::value::Value;
use std::fmt::{Display, Formatter, Result};

/// ```
/// use filughjosa::col;
/// let predicate = !(col("price").gt(40) & col("in stock").is_null()) | col("item").like("b%");
/// assert_eq!(predicate.to_string(), "(NOT (price > 40 AND \"in stock\" IS NULL)) OR item LIKE 'b%'");
/// ```
impl Display for Predicate {
    fn fmt(&self, f: &mut Formatter) -> Result {
        match self {
            Predicate::Constant(value) => write!(f, "{}", Value::from(*value)),
            Predicate::And(left, right) => write!(f, "{} AND {}", Part(left), Part(right)),
            Predicate::Or(left, right) => write!(f, "{} OR {}", Part(left), Part(right)),
            Predicate::Not(inner) => write!(f, "NOT {}", Part(inner)),
            Predicate::Truth(name) => write!(f, "{}", Name(name)),
            Predicate::IsNull(name) => write!(f, "{} IS NULL", Name(name)),
            Predicate::IsNotNull(name) => write!(f, "{} IS NOT NULL", Name(name)),
            Predicate::Compare { column, operator, literal, literal_first: true } => {
                write!(f, "{literal} {operator} {column}")
            }
            Predicate::Compare { column, operator, literal, .. } => write!(f, "{column} {operator} {literal}"),
            Predicate::List { column, negated, literals } => {
                let literals: Vec<String> = literals.iter().map(Value::to_string).collect();
                write!(f, "{column} {}IN ({})", not(*negated), literals.join(", "))
            }
            Predicate::Like { column, negated, pattern } => {
                write!(f, "{} {}LIKE {pattern}", Name(column), not(*negated))
            }
        }
    }
}

fn not(negated: bool) -> &'static str {
    if negated { "NOT " } else { "" }
}

/// A part of a predicate, in brackets where it has parts itself.
struct Part<'a>(&'a Predicate);

impl Display for Part<'_> {
    fn fmt(&self, f: &mut Formatter) -> Result {
        match self.0 {
            Predicate::And(..) | Predicate::Or(..) | Predicate::Not(_) => write!(f, "({})", self.0),
            _ => self.0.fmt(f),
        }
    }
}

/// A column's name, in double quotes where it needs them.
struct Name<'a>(&'a str);

impl Display for Name<'_> {
    fn fmt(&self, f: &mut Formatter) -> Result {
        let plain = self.0.chars().all(|c| c.is_alphanumeric() || c == '_');
        let begins = self.0.chars().next().is_some_and(|c| !c.is_ascii_digit());
        if plain && begins && !KEYWORDS.iter().any(|keyword| self.0.eq_ignore_ascii_case(keyword)) {
            f.write_str(self.0)
        } else {
            write!(f, "\"{}\"", self.0.replace('"', "\"\""))
        }
    }
}

impl Display for Column {
    fn fmt(&self, f: &mut Formatter) -> Result {
        write!(f, "{}{}", "-".repeat(self.flips.into()), Name(&self.name))
    }
}

impl Display for Operator {
    fn fmt(&self, f: &mut Formatter) -> Result {
        f.write_str(match self {
            Operator::Equal => "=",
            Operator::NotEqual => "<>",
            Operator::Less => "<",
            Operator::LessOrEqual => "<=",
            Operator::Greater => ">",
            Operator::GreaterOrEqual => ">=",
            Operator::DistinctFrom => "IS DISTINCT FROM",
            Operator::NotDistinctFrom => "IS NOT DISTINCT FROM",
        })
    }
}
