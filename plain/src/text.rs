//! LIKE patterns: their pieces, matching, the plain prefix, and the increment of a prefix.

use crate::rules::{Mutant, Rules};

/// A pattern's piece: any run, any one character, or a plain character.
#[derive(Clone, Copy, Debug, PartialEq, Eq)]
pub enum Piece {
    Run,
    One,
    Plain(char),
}

/// The pieces of a pattern. A backslash makes the next character plain; a last one is itself.
pub fn pieces(pattern: &str) -> Vec<Piece> {
    let mut pieces = Vec::with_capacity(pattern.len());
    let mut chars = pattern.chars();
    while let Some(character) = chars.next() {
        pieces.push(match character {
            '%' => Piece::Run,
            '_' => Piece::One,
            '\\' => Piece::Plain(chars.next().unwrap_or('\\')),
            plain => Piece::Plain(plain),
        });
    }
    pieces
}

/// Does the whole text match the pattern?
pub fn matches(pattern: &str, text: &str) -> bool {
    let pieces = pieces(pattern);
    let text: Vec<char> = text.chars().collect();
    // reached[i]: the pieces so far match the first i characters.
    let mut reached = vec![false; text.len() + 1];
    reached[0] = true;
    for piece in pieces {
        let mut next = vec![false; text.len() + 1];
        let mut earlier = false;
        for i in 0..=text.len() {
            let before = i > 0 && reached[i - 1];
            earlier |= reached[i];
            next[i] = match piece {
                Piece::Run => earlier,
                Piece::One => before,
                Piece::Plain(character) => before && text[i - 1] == character,
            };
        }
        reached = next;
    }
    reached[text.len()]
}

/// The plain characters before the first wildcard, and whether there is a wildcard.
pub fn prefix(pattern: &str) -> (String, bool) {
    let pieces = pieces(pattern);
    let plain = pieces.iter().map_while(|piece| match piece {
        Piece::Plain(character) => Some(*character),
        _ => None,
    });
    let wildcard = pieces.iter().any(|piece| !matches!(piece, Piece::Plain(_)));
    (plain.collect(), wildcard)
}

/// The prefix cut after its last character that has a next one, which takes its place.
pub fn increment(rules: &Rules, prefix: &str) -> Option<String> {
    for (start, character) in prefix.char_indices().rev() {
        if let Some(next) = next_character(rules, character) {
            let mut upper = prefix[..start].to_string();
            upper.push(next);
            return Some(upper);
        }
    }
    None
}

fn next_character(rules: &Rules, character: char) -> Option<char> {
    if rules.has(Mutant::OverSurrogates) && character == '\u{D7FF}' {
        return Some('\u{E000}');
    }
    match character as u32 + 1 {
        0xFDD0..=0xFDEF | 0xFFFE | 0xFFFF => None,
        next => char::from_u32(next),
    }
}
