//! The C side: the header is taken by a C compiler, the C example runs, and docs/FORMAT.md's example is what the library says.

use filughjosa::packed::{self, Grid, Rewritten};
use filughjosa::raw::{self, RewriteInput, RewriteOutput};
use filughjosa::vectors::read_bytes;
use filughjosa::{Refusal, Schema};
use std::path::{Path, PathBuf};
use std::process::Command;
use std::{collections::HashMap, fs};

fn package() -> &'static Path {
    Path::new(env!("CARGO_MANIFEST_DIR"))
}

/// Compiles a C file with the header in reach, and every warning an error.
fn compile(source: &Path, arguments: &[&str], program: &Path) {
    let compiler = std::env::var("CC").unwrap_or("cc".into());
    let done = Command::new(compiler)
        .args(["-std=c99", "-Wall", "-Wextra", "-Werror", "-pedantic", "-I"])
        .arg(package().join("include"))
        .arg(source)
        .args(arguments)
        .arg("-o")
        .arg(program)
        .output()
        .expect("a C compiler runs");
    assert!(done.status.success(), "{}", String::from_utf8_lossy(&done.stderr));
}

fn scratch(name: &str) -> PathBuf {
    PathBuf::from(env!("CARGO_TARGET_TMPDIR")).join(name)
}

#[test]
fn the_header_stands_by_itself() {
    let source = scratch("header.c");
    fs::write(&source, "#include \"spill.h\"\n#include \"spill.h\"\ntypedef int filler;\n").unwrap();
    compile(&source, &["-c"], &scratch("header.o"));
}

#[test]
fn the_example_runs() {
    let program = scratch("greater");
    compile(&package().join("examples/greater.c"), &[env!("SPILL_ARCHIVE")], &program);
    let done = Command::new(program).output().expect("the example runs");
    let out = String::from_utf8(done.stdout).unwrap();
    assert_eq!(out, "rewriting answers 0000040008030000\npruning answers 0: drop, keep\n");
    assert!(done.status.success());
}

/// The numbers that the header defines.
fn defined() -> HashMap<String, u64> {
    let header = fs::read_to_string(package().join("include/spill.h")).unwrap();
    let define = |line: &str| {
        let (name, value) = line.strip_prefix("#define ")?.split_once(' ')?;
        Some((name.to_string(), value.parse().ok()?))
    };
    header.lines().filter_map(define).collect()
}

#[test]
fn the_header_has_the_numbers_of_the_package() {
    let defined = defined();
    for (name, value) in [
        ("TABLE_ROOM", raw::TABLE_ROOM as u64),
        ("TABLE_POOL_ROOM", raw::TABLE_POOL_ROOM as u64),
        ("STATISTICS_ROOM", raw::STATISTICS_ROOM as u64),
        ("GUARANTEES_ROOM", raw::GUARANTEES_ROOM as u64),
        ("MAX_CONTAINERS", raw::MAX_CONTAINERS as u64),
        ("MAX_LIST_LIMIT", raw::MAX_LIST_LIMIT),
        ("BAD_SCHEMA", Refusal::Schema as u64),
        ("BAD_LIMIT_OR_POOL", Refusal::ListLimitOrPool as u64),
        ("NO_ROOM", Refusal::Room as u64),
        ("MALFORMED", Refusal::Malformed as u64),
        ("OVER_LIMIT", Refusal::OverLimit as u64),
        ("MISFIT", Refusal::Misfit as u64),
        ("BAD_CONTAINERS", Refusal::Containers as u64),
        ("BAD_TABLE", Refusal::Table as u64),
        ("BAD_GRID", Refusal::Grid as u64),
        ("BAD_ANSWERS", Refusal::Answers as u64),
    ] {
        assert_eq!(defined.get(&format!("SPILL_{name}")), Some(&value), "{name}");
    }
    assert_eq!(defined.len(), 16);
}

/// The lines of docs/FORMAT.md's example, by name.
fn example() -> HashMap<String, String> {
    let page = fs::read_to_string(package().join("../docs/FORMAT.md")).unwrap();
    let (_, part) = page.split_once("## An example, byte for byte").expect("the page has its example");
    let lines = part.lines().filter_map(|line| line.strip_prefix("    ")?.split_once(' '));
    lines.map(|(name, value)| (name.to_string(), value.replace(' ', ""))).collect()
}

#[test]
fn the_page_and_the_library_agree() {
    let example = example();
    let bytes = |name: &str| read_bytes(&example[name]).unwrap();
    let number = |name: &str| example[name].parse::<u64>().unwrap();
    let mut lent = [vec![0; raw::TABLE_ROOM], vec![0; raw::TABLE_POOL_ROOM], vec![0; raw::STATISTICS_ROOM]];
    let mut guarantees = vec![0; raw::GUARANTEES_ROOM];
    let [table, pool, statistics] = &mut lent;
    let answer = raw::rewrite_into(
        RewriteInput {
            schema: &bytes("schema"),
            predicate: &bytes("predicate"),
            pool: &bytes("pool"),
            list_limit: number("list-limit"),
        },
        RewriteOutput { table, pool, statistics, guarantees: &mut guarantees },
    );
    assert_eq!(format!("{answer:016X}"), example["answer"]);
    let rewritten = packed::rewrite(&bytes("schema"), &bytes("predicate"), &bytes("pool"), number("list-limit"));
    let page = Rewritten {
        table: bytes("table"),
        pool: bytes("table-pool"),
        statistics: bytes("statistics"),
        guarantees: bytes("guarantees"),
    };
    assert_eq!(rewritten.as_ref(), Ok(&page));
    let grid = Grid {
        containers: number("containers"),
        cells: &bytes("grid"),
        cell_pool: &bytes("cell-pool"),
        answers: &bytes("answers"),
    };
    let flags: Vec<u8> = bytes("flags");
    let kept = packed::prune(&bytes("schema"), &page, grid).unwrap();
    assert_eq!(kept.into_iter().map(u8::from).collect::<Vec<_>>(), flags);
}

#[test]
fn an_empty_schema_is_taken() {
    // No columns and a constant: nothing to list, nothing in the pools.
    let schema = Schema::new::<String>([]).unwrap().packed();
    let rewritten = packed::rewrite(&schema, &[0, 0, 0, 0, 0, 0, 0, 0], &[], 20).unwrap();
    let grid = Grid { containers: 2, cells: &[], cell_pool: &[], answers: &[] };
    assert_eq!(packed::prune(&schema, &rewritten, grid), Ok(vec![false, false]));
}
