//! Replays the recorded lists against the plain Rust. The folder is the host's, or that named by
//! the variable VECTORS; without one the test says so and does nothing.

use std::path::PathBuf;

use plain::recorded::replay;
use plain::subject::Plain;

fn list(name: &str) -> Option<String> {
    let ours = PathBuf::from(env!("CARGO_MANIFEST_DIR")).join("../host/vectors");
    let folder = std::env::var_os("VECTORS").map_or(ours, PathBuf::from);
    let list = std::fs::read_to_string(folder.join(name)).ok();
    if list.is_none() {
        println!("{name} is not there: nothing replayed");
    }
    list
}

#[test]
fn paper_calls_are_answered_alike() {
    let Some(list) = list("paper.txt") else { return };
    let replay = replay(&Plain::default(), &list);
    println!("{} rewrites, {} prunes", replay.rewrites, replay.prunes);
    assert_eq!(replay.differ, Vec::<usize>::new(), "lines that differ");
    assert!(replay.rewrites > 0 && replay.prunes > 0);
}

#[test]
fn original_flags_are_answered_alike() {
    let Some(list) = list("original.txt") else { return };
    let replay = replay(&Plain::default(), &list);
    println!("{} predicates", replay.flags);
    assert_eq!(replay.differ, Vec::<usize>::new(), "lines that differ");
    assert!(replay.flags > 0);
}
