//! The tokens of a formula, each with its place.

use std::ops::Range;

/// A place and what is wrong there.
pub(super) type Wrong = (Range<usize>, String);

/// One token.
#[derive(Clone, Debug, PartialEq, Eq)]
pub(super) enum Token {
    /// A word of letters, digits and _: a keyword or a column.
    Word(String),
    /// A name in double quotes: a column.
    Name(String),
    /// Digits: the size of an integer, whose sign is a token of its own.
    Number(u64),
    /// A text in single quotes.
    Text(String),
    /// ( ) , - and the comparisons.
    Sign(&'static str),
    /// The formula's end.
    End,
}

/// Signs, the longer before those that they begin with.
const SIGNS: [&str; 11] = ["<=", ">=", "<>", "!=", "=", "<", ">", "(", ")", ",", "-"];

/// Cuts a formula into tokens; the last is the end.
pub(super) fn tokens(formula: &str) -> Result<Vec<(Range<usize>, Token)>, Wrong> {
    let mut tokens = Vec::new();
    let mut at = 0;
    while let Some(next) = formula[at..].chars().next() {
        if next.is_whitespace() {
            at += next.len_utf8();
            continue;
        }
        let (token, length) =
            one(&formula[at..], next).map_err(|(range, why)| (at + range.start..at + range.end, why))?;
        tokens.push((at..at + length, token));
        at += length;
    }
    tokens.push((formula.len()..formula.len(), Token::End));
    Ok(tokens)
}

/// The token that a text begins with, and its length.
fn one(rest: &str, next: char) -> Result<(Token, usize), Wrong> {
    if next == '\'' || next == '"' {
        let (text, length) = quoted(rest, next)?;
        let token = if next == '"' { Token::Name(text) } else { Token::Text(text) };
        return Ok((token, length));
    }
    if let Some(sign) = SIGNS.into_iter().find(|sign| rest.starts_with(sign)) {
        return Ok((Token::Sign(sign), sign.len()));
    }
    let length = rest.find(|c: char| !(c.is_alphanumeric() || c == '_')).unwrap_or(rest.len());
    let word = &rest[..length];
    if length == 0 {
        return Err((0..next.len_utf8(), format!("{next:?} has no meaning here")));
    }
    if !next.is_ascii_digit() {
        return Ok((Token::Word(word.into()), length));
    }
    if !word.bytes().all(|b| b.is_ascii_digit()) {
        return Err((0..length, "a number has digits only; a column name does not begin with one".into()));
    }
    let number = word.parse().map_err(|_| (0..length, "the number has over 64 bits".into()))?;
    Ok((Token::Number(number), length))
}

/// A quoted text, a doubled quote standing for one, and its length with the quotes.
fn quoted(rest: &str, quote: char) -> Result<(String, usize), Wrong> {
    let mut text = String::new();
    let mut chars = rest.char_indices().skip(1).peekable();
    while let Some((at, c)) = chars.next() {
        if c != quote {
            text.push(c);
        } else if chars.next_if(|(_, c)| *c == quote).is_some() {
            text.push(quote);
        } else {
            return Ok((text, at + 1));
        }
    }
    Err((0..rest.len(), format!("the closing {quote} is missing")))
}
