//! The grammar of formulas, by descent.

use super::token::{Token, Wrong, tokens};
use crate::predicate::{Column, Operator, Predicate};
use crate::schema::Schema;
use crate::value::{ColumnType, Value};
use std::ops::Range;

/// Brackets and NOTs inside each other; rewriting takes fewer.
const MAX_NESTING: usize = 100;

/// Words that are no columns unless in double quotes.
pub(super) const KEYWORDS: [&str; 13] =
    ["AND", "OR", "NOT", "IN", "LIKE", "BETWEEN", "IS", "NULL", "TRUE", "FALSE", "DISTINCT", "FROM", "ESCAPE"];

struct Parser<'a> {
    schema: &'a Schema,
    tokens: Vec<(Range<usize>, Token)>,
    at: usize,
    nesting: usize,
}

/// A side of a test: a column or a value, with its place.
enum Side {
    Column(Column, ColumnType),
    Value(Value),
}

pub(super) fn formula(formula: &str, schema: &Schema) -> Result<Predicate, Wrong> {
    let mut parser = Parser { schema, tokens: tokens(formula)?, at: 0, nesting: 0 };
    let predicate = parser.or()?;
    match parser.token() {
        Token::End => Ok(predicate),
        _ => Err(parser.wrong("expected AND, OR or the end here")),
    }
}

impl Parser<'_> {
    fn token(&self) -> &Token {
        &self.tokens[self.at].1
    }

    fn place(&self) -> Range<usize> {
        self.tokens[self.at].0.clone()
    }

    /// The place from a token on to the one before the next.
    fn since(&self, first: usize) -> Range<usize> {
        let last = self.at.max(first + 1) - 1;
        self.tokens[first].0.start..self.tokens[last].0.end
    }

    fn wrong(&self, message: &str) -> Wrong {
        (self.place(), message.into())
    }

    fn is_word(&self, at: usize, word: &str) -> bool {
        matches!(self.tokens.get(at), Some((_, Token::Word(w))) if w.eq_ignore_ascii_case(word))
    }

    /// Takes a keyword, if it is next.
    fn word(&mut self, word: &str) -> bool {
        let there = self.is_word(self.at, word);
        self.at += usize::from(there);
        there
    }

    /// Takes a sign, if it is next.
    fn sign(&mut self, sign: &str) -> bool {
        let there = matches!(self.token(), Token::Sign(s) if *s == sign);
        self.at += usize::from(there);
        there
    }

    fn expect_word(&mut self, word: &str) -> Result<(), Wrong> {
        if self.word(word) { Ok(()) } else { Err(self.wrong(&format!("expected {word} here"))) }
    }

    fn expect_sign(&mut self, sign: &str) -> Result<(), Wrong> {
        if self.sign(sign) { Ok(()) } else { Err(self.wrong(&format!("expected {sign} here"))) }
    }

    fn or(&mut self) -> Result<Predicate, Wrong> {
        let mut parts = vec![self.and()?];
        while self.word("OR") {
            parts.push(self.and()?);
        }
        Ok(Predicate::any(parts))
    }

    fn and(&mut self) -> Result<Predicate, Wrong> {
        let mut parts = vec![self.not()?];
        while self.word("AND") {
            parts.push(self.not()?);
        }
        Ok(Predicate::all(parts))
    }

    fn not(&mut self) -> Result<Predicate, Wrong> {
        let open = matches!(self.token(), Token::Sign("("));
        if !open && !self.is_word(self.at, "NOT") {
            return self.test();
        }
        if self.nesting == MAX_NESTING {
            return Err(self.wrong("brackets and NOTs are nested too deep"));
        }
        self.at += 1;
        self.nesting += 1;
        let inner = if open { self.or()? } else { !self.not()? };
        self.nesting -= 1;
        if open {
            self.expect_sign(")")?;
        }
        Ok(inner)
    }

    fn test(&mut self) -> Result<Predicate, Wrong> {
        let first = self.at;
        match self.side()? {
            Side::Column(column, kind) => self.column_test(first, column, kind),
            Side::Value(value) => self.value_test(first, value),
        }
    }

    fn column_test(&mut self, first: usize, column: Column, kind: ColumnType) -> Result<Predicate, Wrong> {
        if self.word("IS") {
            return self.is_test(first, column, kind);
        }
        let before = self.at;
        let negated = self.word("NOT");
        if self.word("IN") {
            let literals = self.list(&column, kind)?;
            return Ok(Predicate::List { column, negated, literals });
        }
        if self.word("LIKE") {
            return self.like(first, column, kind, negated);
        }
        if self.word("BETWEEN") {
            let between = self.between(column, kind)?;
            return Ok(if negated { !between } else { between });
        }
        if negated {
            return Err(self.wrong("expected IN, LIKE or BETWEEN after NOT"));
        }
        self.at = before;
        if let Some(operator) = self.operator() {
            let literal = self.value_for(&column, kind)?;
            return Ok(Predicate::Compare { column, operator, literal, literal_first: false });
        }
        self.bare(first, column, kind)
    }

    /// A column with nothing behind it.
    fn bare(&mut self, first: usize, column: Column, kind: ColumnType) -> Result<Predicate, Wrong> {
        if kind != ColumnType::Truth {
            return Err(self.wrong(&format!("expected a comparison, IN, LIKE, BETWEEN or IS after {}", column.name)));
        }
        if column.flips != 0 {
            return Err((self.since(first), "minus is for integer columns".into()));
        }
        Ok(Predicate::Truth(column.name))
    }

    fn is_test(&mut self, first: usize, column: Column, kind: ColumnType) -> Result<Predicate, Wrong> {
        let negated = self.word("NOT");
        if self.word("DISTINCT") {
            self.expect_word("FROM")?;
            let literal = self.value_for(&column, kind)?;
            let operator = if negated { Operator::NotDistinctFrom } else { Operator::DistinctFrom };
            return Ok(Predicate::Compare { column, operator, literal, literal_first: false });
        }
        if !self.word("NULL") {
            return Err(self.wrong("expected NULL or DISTINCT FROM here"));
        }
        if column.flips != 0 {
            return Err((self.since(first), "IS NULL takes a column without a minus".into()));
        }
        Ok(if negated { Predicate::IsNotNull(column.name) } else { Predicate::IsNull(column.name) })
    }

    fn like(&mut self, first: usize, column: Column, kind: ColumnType, negated: bool) -> Result<Predicate, Wrong> {
        if kind != ColumnType::Text {
            return Err((self.tokens[first].0.clone(), format!("LIKE is for text, {} is {kind}", column.name)));
        }
        let pattern = self.value_for(&column, kind)?;
        if self.word("ESCAPE") {
            self.at -= 1;
            return Err(self.wrong("ESCAPE is not known: a backslash makes the next character plain"));
        }
        Ok(Predicate::Like { column: column.name, negated, pattern })
    }

    fn between(&mut self, column: Column, kind: ColumnType) -> Result<Predicate, Wrong> {
        let low = self.value_for(&column, kind)?;
        self.expect_word("AND")?;
        let high = self.value_for(&column, kind)?;
        Ok(column.clone().ge(low) & column.le(high))
    }

    fn list(&mut self, column: &Column, kind: ColumnType) -> Result<Vec<Value>, Wrong> {
        self.expect_sign("(")?;
        let mut literals = Vec::new();
        if self.sign(")") {
            return Ok(literals);
        }
        loop {
            literals.push(self.value_for(column, kind)?);
            if self.sign(")") {
                return Ok(literals);
            }
            if !self.sign(",") {
                return Err(self.wrong("expected , or ) here"));
            }
        }
    }

    /// A value, then a comparison and a column; or a constant.
    fn value_test(&mut self, first: usize, value: Value) -> Result<Predicate, Wrong> {
        let behind = self.since(first);
        let Some(operator) = self.value_operator()? else {
            return match value {
                Value::Null => Ok(Predicate::Constant(None)),
                Value::Truth(truth) => Ok(Predicate::Constant(Some(truth))),
                _ => Err(self.wrong("expected a comparison after the value")),
            };
        };
        let second = self.at;
        match self.side()? {
            Side::Value(_) => Err((self.since(second), "two values are compared: one side must be a column".into())),
            Side::Column(column, kind) => {
                suits(&value, &column, kind).map_err(|why| (behind, why))?;
                Ok(Predicate::Compare { column, operator, literal: value, literal_first: true })
            }
        }
    }

    fn operator(&mut self) -> Option<Operator> {
        let Token::Sign(sign) = self.token() else { return None };
        let operator = match *sign {
            "=" => Operator::Equal,
            "<>" | "!=" => Operator::NotEqual,
            "<" => Operator::Less,
            "<=" => Operator::LessOrEqual,
            ">" => Operator::Greater,
            ">=" => Operator::GreaterOrEqual,
            _ => return None,
        };
        self.at += 1;
        Some(operator)
    }

    /// A comparison behind a value, IS [NOT] DISTINCT FROM among them.
    fn value_operator(&mut self) -> Result<Option<Operator>, Wrong> {
        if !self.word("IS") {
            return Ok(self.operator());
        }
        let operator = if self.word("NOT") { Operator::NotDistinctFrom } else { Operator::DistinctFrom };
        self.expect_word("DISTINCT")?;
        self.expect_word("FROM")?;
        Ok(Some(operator))
    }

    /// A value that suits a column.
    fn value_for(&mut self, column: &Column, kind: ColumnType) -> Result<Value, Wrong> {
        let first = self.at;
        match self.side()? {
            Side::Value(value) => {
                suits(&value, column, kind).map_err(|why| (self.since(first), why))?;
                Ok(value)
            }
            Side::Column(..) => {
                Err((self.since(first), "expected a value here: columns are compared with values".into()))
            }
        }
    }

    /// A column or a value, with the minuses before it.
    fn side(&mut self) -> Result<Side, Wrong> {
        let first = self.at;
        while self.sign("-") {}
        let minuses = self.at - first;
        let token = self.token().clone();
        let side = match &token {
            Token::Number(size) => Side::Value(self.integer(*size, minuses)?),
            Token::Text(text) => Side::Value(text.as_str().into()),
            Token::Word(word) if word.eq_ignore_ascii_case("NULL") => Side::Value(Value::Null),
            Token::Word(word) if word.eq_ignore_ascii_case("TRUE") => Side::Value(true.into()),
            Token::Word(word) if word.eq_ignore_ascii_case("FALSE") => Side::Value(false.into()),
            Token::Word(word) if !KEYWORDS.iter().any(|k| word.eq_ignore_ascii_case(k)) => {
                self.column(word, minuses)?
            }
            Token::Name(name) => self.column(name, minuses)?,
            _ => return Err(self.wrong("expected a column or a value here")),
        };
        self.at += 1;
        if minuses != 0 && matches!(side, Side::Value(Value::Null | Value::Text(_) | Value::Truth(_))) {
            return Err((self.since(first), "minus is for integers".into()));
        }
        Ok(side)
    }

    fn column(&self, name: &str, minuses: usize) -> Result<Side, Wrong> {
        let Some(number) = self.schema.column(name) else {
            let names: Vec<&str> = self.schema.columns().map(|(name, _)| name).collect();
            return Err(self.wrong(&format!("there is no column {name}; there are: {}", names.join(", "))));
        };
        let kind = self.schema.kind(number).expect("the column is in the schema");
        if minuses != 0 && kind != ColumnType::Integer {
            return Err(self.wrong(&format!("minus is for integers, {name} is {kind}")));
        }
        let flips = u8::try_from(minuses).map_err(|_| self.wrong("too many minuses"))?;
        Ok(Side::Column(Column { name: name.into(), flips }, kind))
    }

    fn integer(&self, size: u64, minuses: usize) -> Result<Value, Wrong> {
        let size = i128::from(size);
        let signed = if minuses % 2 == 1 { -size } else { size };
        i64::try_from(signed).map(Value::Integer).map_err(|_| self.wrong("the number has over 64 bits"))
    }
}

fn suits(value: &Value, column: &Column, kind: ColumnType) -> Result<(), String> {
    match value.kind() {
        Some(other) if other != kind => Err(format!("{} is {kind}, this is {other}", column.name)),
        _ => Ok(()),
    }
}
