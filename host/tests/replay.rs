//! The program `replay`: the recorded lists replay without a difference, and it notices what it should notice.

use std::fs;
use std::path::PathBuf;
use std::process::{Command, Output};

fn list(name: &str) -> PathBuf {
    PathBuf::from(env!("CARGO_MANIFEST_DIR")).join("vectors").join(name)
}

fn replay(lists: &[PathBuf]) -> Output {
    Command::new(env!("CARGO_BIN_EXE_replay")).args(lists).output().expect("replay runs")
}

/// Writes a list of its own for a test.
fn scratch(name: &str, text: &str) -> PathBuf {
    let path = PathBuf::from(env!("CARGO_TARGET_TMPDIR")).join(name);
    fs::write(&path, text).expect("the scratch list is written");
    path
}

/// The first line of a list that begins as given.
fn first(name: &str, begins: &str) -> String {
    let text = fs::read_to_string(list(name)).unwrap();
    text.lines().find(|line| line.starts_with(begins)).unwrap().to_string()
}

#[test]
fn every_recorded_line_is_replayed_and_none_differs() {
    let done = replay(&[]);
    let out = String::from_utf8(done.stdout).unwrap();
    let paper = fs::read_to_string(list("paper.txt")).unwrap();
    let original = fs::read_to_string(list("original.txt")).unwrap();
    for sort in ["rewrite", "prune", "flags"] {
        let recorded = paper.lines().chain(original.lines()).filter(|line| line.starts_with(sort)).count();
        assert!(recorded > 0);
        assert!(out.contains(&format!("{sort}: {recorded} replayed, 0 differ\n")), "{out}");
    }
    assert!(out.contains("not read: 0\n"), "{out}");
    assert!(done.status.success(), "{}", String::from_utf8_lossy(&done.stderr));
}

#[test]
fn a_wrong_flag_is_noticed() {
    let line = first("paper.txt", "prune 02020201 0100000000000000 - - - 5");
    let wrong = line.strip_suffix("01").unwrap().to_string() + "00\n";
    let done = replay(&[scratch("wrong-flag.txt", &wrong)]);
    assert_eq!(done.status.code(), Some(1));
    assert!(String::from_utf8(done.stdout).unwrap().contains("prune: 1 replayed, 1 differ"));
}

#[test]
fn a_byte_too_many_is_noticed() {
    // Five flags recorded where the call writes six: the last byte counts as written for nothing.
    let line = first("paper.txt", "prune 02020201 0100000000000000 - - - 5");
    let wrong = line.replace(" 5 ", " 6 ");
    let done = replay(&[scratch("byte-too-many.txt", &wrong)]);
    assert_eq!(done.status.code(), Some(1));
    assert!(String::from_utf8(done.stderr).unwrap().contains("only 5 bytes are counted"));
}

#[test]
fn a_wrong_answer_word_is_noticed() {
    let line = first("paper.txt", "rewrite 02 9000000000000000").replace(" 0500000000000000", " 0600000000000000");
    let done = replay(&[scratch("wrong-word.txt", &line)]);
    assert_eq!(done.status.code(), Some(1));
}

#[test]
fn wrong_flags_of_the_original_are_noticed() {
    let line = first("original.txt", "flags");
    let (front, flags) = line.rsplit_once(' ').unwrap();
    let turned = if flags.ends_with("00") { "01" } else { "00" };
    let wrong = format!("{front} {}{turned}", &flags[..flags.len() - 2]);
    let done = replay(&[scratch("wrong-original.txt", &wrong)]);
    assert_eq!(done.status.code(), Some(1));
}

#[test]
fn lines_that_cannot_be_read_are_noticed() {
    let good = first("paper.txt", "prune");
    for (name, text) in [
        ("unknown-sort.txt", "prunes 01".to_string()),
        ("cut-short.txt", good[..good.len() / 2].trim_end().to_string()),
        ("left-over.txt", format!("{good} 00")),
        ("not-hex.txt", good.replacen("prune 0", "prune x", 1)),
        ("blank.txt", format!("{good}\n\n{good}\n")),
    ] {
        let done = replay(&[scratch(name, &text)]);
        assert_eq!(done.status.code(), Some(2), "{name}");
        assert!(String::from_utf8(done.stdout).unwrap().contains("not read: 1\n"), "{name}");
    }
}

#[test]
fn a_missing_list_is_noticed() {
    assert_eq!(replay(&[list("no-such-list.txt")]).status.code(), Some(2));
}
