//! The row meaning on its own: what comparisons, lists and LIKE say of single values.

use std::borrow::Cow;
use std::slice::from_ref;

use plain::kleene::{and, not, or};
use plain::literal::{Literal, Type, Value};
use plain::meaning::meaning;
use plain::predicate::{Comparison, Like, List, Operand, Operator, Predicate};
use plain::text::matches;

fn operand(column_type: Type, flips: u8) -> Operand {
    Operand { column: 0, column_type, flips }
}

fn compared(flips: u8, operator: Operator, literal: Literal<'static>) -> Predicate<'static> {
    let operand = operand(Type::Integer, flips);
    let comparison = Comparison { operand, operator, literal_first: false, literal };
    Predicate::Compare { place: 0, comparison }
}

fn listed(negated: bool, literals: Vec<Literal<'static>>) -> Predicate<'static> {
    let list = List { operand: operand(Type::Integer, 0), negated, literals };
    Predicate::List { place: 0, list }
}

fn integer(value: i64) -> Literal<'static> {
    Some(Value::Integer(value))
}

#[test]
fn three_values() {
    let (yes, no, unknown) = (Some(true), Some(false), None);
    assert_eq!([and(yes, unknown), and(no, unknown), and(unknown, no)], [unknown, no, no]);
    assert_eq!([or(yes, unknown), or(no, unknown), or(unknown, yes)], [yes, unknown, yes]);
    assert_eq!([not(yes), not(no), not(unknown)], [no, yes, unknown]);
}

#[test]
fn minus_is_exact() {
    let least = integer(i64::MIN);
    let above = compared(1, Operator::Greater, integer(i64::MAX));
    assert_eq!(meaning(&above, from_ref(&least)), Some(true));
    let twice = compared(2, Operator::Equal, integer(i64::MIN));
    assert_eq!(meaning(&twice, &[least]), Some(true));
}

#[test]
fn blanks() {
    assert_eq!(meaning(&compared(0, Operator::Equal, None), &[integer(1)]), None);
    assert_eq!(meaning(&compared(0, Operator::DistinctFrom, None), &[integer(1)]), Some(true));
    assert_eq!(meaning(&compared(0, Operator::NotDistinctFrom, None), &[None]), Some(true));
    assert_eq!(meaning(&listed(false, vec![]), &[None]), Some(false));
    assert_eq!(meaning(&listed(true, vec![]), &[None]), Some(true));
    assert_eq!(meaning(&listed(true, vec![integer(1), None]), &[integer(1)]), Some(false));
    assert_eq!(meaning(&listed(true, vec![integer(1), None]), &[integer(2)]), None);
}

#[test]
fn like_matches_whole_texts() {
    for (pattern, text, wanted) in [
        ("", "", true),
        ("%", "", true),
        ("_", "é", true),
        ("_", "", false),
        ("a%b", "axxb", true),
        ("a%b", "axxbc", false),
        ("%a%a%", "ba", false),
        ("\\%", "%", true),
        ("\\%", "x", false),
        ("a\\", "a\\", true),
        ("\\\\%", "\\x", true),
    ] {
        assert_eq!(matches(pattern, text), wanted, "{text} LIKE {pattern}");
    }
}

#[test]
fn like_with_nothing_is_unknown() {
    let text = Some(Value::Text(Cow::Borrowed(&b"a"[..])));
    for negated in [false, true] {
        let null = Predicate::Like(Like { column: 0, negated, pattern: None });
        assert_eq!(meaning(&null, from_ref(&text)), None);
        let any = Predicate::Like(Like { column: 0, negated, pattern: Some("%") });
        assert_eq!(meaning(&any, &[None]), None);
        assert_eq!(meaning(&any, from_ref(&text)), Some(!negated));
    }
}
