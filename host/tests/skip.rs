//! The program `skip` on the shipped orders: no dropped block holds a match, and bad input is told.

use filughjosa::Value;
use filughjosa::rows::Rows;
use std::process::{Command, Output};
use std::{fs, path::PathBuf};

const ORDERS: &str = concat!(env!("CARGO_MANIFEST_DIR"), "/data/orders.csv");

fn skip(arguments: &[&str]) -> Output {
    Command::new(env!("CARGO_BIN_EXE_skip")).args(arguments).output().expect("skip runs")
}

/// The verdicts that the program printed, true for keep.
fn verdicts(done: &Output) -> Vec<bool> {
    assert_eq!(done.status.code(), Some(0), "{}", String::from_utf8_lossy(&done.stderr));
    let out = String::from_utf8(done.stdout.clone()).unwrap();
    let last = |line: &str| line.split_whitespace().last().unwrap_or_default().to_string();
    out.lines().map(last).filter(|word| word == "keep" || word == "drop").map(|word| word == "keep").collect()
}

fn price(row: &[Value]) -> Option<i64> {
    if let Value::Integer(price) = row[0] { Some(price) } else { None }
}

fn item(row: &[Value]) -> Option<&str> {
    if let Value::Text(item) = &row[1] { std::str::from_utf8(item).ok() } else { None }
}

type Matches = fn(&[Value]) -> bool;

/// Formulas, and what each says of a row, written once more in Rust.
const FORMULAS: [(&str, Matches); 9] = [
    ("price > 40 AND item LIKE 'b%'", |r| price(r) > Some(40) && item(r).is_some_and(|i| i.starts_with('b'))),
    ("price = 25", |r| price(r) == Some(25)),
    ("price IN (2, 61)", |r| matches!(price(r), Some(2 | 61))),
    ("item <> 'banana' AND sold", |r| item(r).is_some_and(|i| i != "banana") && r[2] == Value::Truth(true)),
    ("NOT sold", |r| r[2] == Value::Truth(false)),
    ("item IS NULL", |r| item(r).is_none()),
    ("-price >= 4", |r| price(r).is_some_and(|p| -p >= 4)),
    ("price IS DISTINCT FROM 7", |r| price(r) != Some(7)),
    ("item = 'fig, dried' OR price BETWEEN 99 AND 120", |r| {
        item(r) == Some("fig, dried") || price(r).is_some_and(|p| (99..=120).contains(&p))
    }),
];

#[test]
fn no_dropped_block_holds_a_match() {
    let rows = Rows::read(&fs::read_to_string(ORDERS).unwrap()).unwrap();
    for (formula, matches) in FORMULAS {
        let kept = verdicts(&skip(&[formula]));
        assert_eq!(kept.len(), rows.blocks.len());
        for (at, (block, keep)) in rows.blocks.iter().zip(&kept).enumerate() {
            assert!(*keep || !block.iter().any(|row| matches(row)), "{formula}: block {at} holds a match");
        }
        assert!(kept.contains(&true), "{formula}: some block matches");
    }
}

#[test]
fn blocks_are_dropped_and_counted() {
    let done = skip(&["price > 40 AND item LIKE 'b%'", ORDERS]);
    assert_eq!(verdicts(&done), [false, true, false, true, false, false, false, true]);
    assert!(String::from_utf8(done.stdout).unwrap().ends_with("\nskipped 5 of 8 blocks, 18 of 27 rows\n"));
}

#[test]
fn a_constant_reads_nothing() {
    let done = skip(&["FALSE"]);
    assert_eq!(verdicts(&done), [false; 8]);
    assert!(String::from_utf8(done.stdout).unwrap().contains("reads    nothing\n"));
}

#[test]
fn with_no_arguments_it_shows_an_example() {
    assert_eq!(verdicts(&skip(&[])).len(), 8);
}

#[test]
fn a_bad_formula_is_told_with_its_place() {
    let done = skip(&["price > 'b'"]);
    assert_eq!(done.status.code(), Some(1));
    assert!(done.stdout.is_empty());
    let said = String::from_utf8(done.stderr).unwrap();
    assert!(said.contains("at character 9: ") && said.contains("\n          ^^^"), "{said}");
}

#[test]
fn a_formula_past_a_limit_is_told() {
    let list = (0..300).map(|n| n.to_string()).collect::<Vec<_>>().join(", ");
    let done = skip(&[&format!("price IN ({list})")]);
    assert_eq!(done.status.code(), Some(1));
    assert!(String::from_utf8(done.stderr).unwrap().contains("256 list literals"));
}

#[test]
fn bad_files_are_told_with_their_line() {
    for (name, text, line, word) in [
        ("empty.csv", "# nothing\n", 1, "no header"),
        ("header.csv", "price\n", 1, "NAME:TYPE"),
        ("type.csv", "price:money\n", 1, "no type"),
        ("twice.csv", "a:text,a:text\n", 1, "two columns"),
        ("width.csv", "a:text\nb,c\n", 2, "2 fields, not 1"),
        ("integer.csv", "# a\n\na:integer\n1\nx\n", 5, "no integer"),
        ("truth.csv", "a:truth\nyes\n", 2, "neither true nor false"),
        ("quote.csv", "a:text\n\"b\n", 2, "closing quote"),
        ("behind.csv", "a:text\n\"b\"c\n", 2, "behind a closing quote"),
    ] {
        let path = PathBuf::from(env!("CARGO_TARGET_TMPDIR")).join(name);
        fs::write(&path, text).unwrap();
        let done = skip(&["TRUE", path.to_str().unwrap()]);
        let said = String::from_utf8(done.stderr).unwrap();
        assert_eq!(done.status.code(), Some(1), "{name}");
        assert!(said.contains(&format!("line {line}: ")) && said.contains(word), "{name}: {said}");
    }
    assert_eq!(skip(&["TRUE", "no-such-file.csv"]).status.code(), Some(1));
}

#[test]
fn bad_use_is_told() {
    let done = skip(&["a", "b", "c"]);
    assert_eq!(done.status.code(), Some(2));
    assert!(String::from_utf8(done.stderr).unwrap().starts_with("use: skip"));
    assert_eq!(skip(&["--help"]).status.code(), Some(0));
}
