//! Every recorded call once more, from C, each byte string against memory that must not be touched: what the library
//! reads and writes stays within what it is lent, and inputs are only read.

use filughjosa::vectors::{Line, PruneLine, RewriteLine};
use std::fs::{self, File};
use std::path::{Path, PathBuf};
use std::process::{Command, Output};

/// A call as guarded.c reads it: numbers of eight bytes, and byte strings behind their lengths.
struct Calls(Vec<u8>);

impl Calls {
    fn number(&mut self, number: u64) {
        self.0.extend(number.to_ne_bytes());
    }

    fn bytes(&mut self, bytes: &[u8]) {
        self.number(bytes.len() as u64);
        self.0.extend(bytes);
    }

    fn rewrite(&mut self, line: &RewriteLine) {
        self.0.push(b'r');
        self.number(line.list_limit);
        self.number(line.answer);
        [&line.schema, &line.predicate, &line.pool].into_iter().for_each(|input| self.bytes(input));
        line.rooms.iter().for_each(|room| self.number(*room as u64));
        line.written.iter().for_each(|front| self.bytes(front));
    }

    fn prune(&mut self, line: &PruneLine) {
        self.0.push(b'p');
        self.number(line.containers);
        self.number(line.result);
        let table = [&line.schema, &line.table, &line.table_pool, &line.statistics, &line.guarantees];
        table.into_iter().chain([&line.grid, &line.cell_pool, &line.answers]).for_each(|input| self.bytes(input));
        self.number(line.room as u64);
        self.bytes(&line.flags);
    }
}

fn scratch(name: &str) -> PathBuf {
    PathBuf::from(env!("CARGO_TARGET_TMPDIR")).join(name)
}

/// Compiles guarded.c against the archive, or against a library of a test's own.
fn compile(library: &Path, program: &Path) {
    let package = Path::new(env!("CARGO_MANIFEST_DIR"));
    let done = Command::new(std::env::var("CC").unwrap_or("cc".into()))
        .args(["-std=c99", "-O1", "-Wall", "-Wextra", "-Wno-unused-parameter", "-Werror", "-I"])
        .args([package.join("include"), package.join("tests/guarded.c")])
        .args([library, Path::new("-o"), program])
        .output()
        .expect("a C compiler runs");
    assert!(done.status.success(), "{}", String::from_utf8_lossy(&done.stderr));
}

fn run(program: &Path, end: &str, calls: &Path) -> Output {
    Command::new(program).arg(end).stdin(File::open(calls).unwrap()).output().expect("the program runs")
}

#[test]
fn recorded_calls_stay_within_what_they_are_lent() {
    let text = fs::read_to_string(concat!(env!("CARGO_MANIFEST_DIR"), "/vectors/paper.txt")).unwrap();
    let mut calls = Calls(Vec::new());
    let mut count = 0;
    for line in text.lines() {
        match Line::read(line).unwrap() {
            Line::Rewrite(line) => calls.rewrite(&line),
            Line::Prune(line) => calls.prune(&line),
            Line::Flags(_) => continue,
        }
        count += 1;
    }
    let (program, list) = (scratch("guarded"), scratch("guarded.calls"));
    fs::write(&list, calls.0).unwrap();
    compile(Path::new(env!("SPILL_ARCHIVE")), &program);
    for end in ["end", "start"] {
        let done = run(&program, end, &list);
        let said = String::from_utf8_lossy(&done.stderr).to_string();
        assert_eq!(String::from_utf8_lossy(&done.stdout), format!("{count} calls, 0 differ\n"), "{end} {said}");
        assert!(done.status.success(), "{end}: {}", done.status);
    }
}

/// A call that keeps two containers.
fn two_kept() -> PruneLine {
    PruneLine {
        schema: vec![],
        table: vec![1, 0, 0, 0, 0, 0, 0, 0],
        table_pool: vec![],
        statistics: vec![],
        guarantees: vec![],
        containers: 2,
        grid: vec![],
        cell_pool: vec![],
        answers: vec![],
        room: 3,
        result: 0,
        flags: vec![1, 1],
    }
}

/// Writes one call of pruning to a file.
fn one_call(line: &PruneLine, name: &str) -> PathBuf {
    let (mut calls, list) = (Calls(Vec::new()), scratch(name));
    calls.prune(line);
    fs::write(&list, calls.0).unwrap();
    list
}

#[test]
fn a_recorded_difference_is_noticed() {
    let program = scratch("guarded-difference");
    compile(Path::new(env!("SPILL_ARCHIVE")), &program);
    for (flags, differ) in [(vec![1, 1], 0), (vec![1], 1), (vec![1, 0], 1)] {
        let list = one_call(&PruneLine { flags, ..two_kept() }, "guarded-difference.calls");
        let done = run(&program, "end", &list);
        assert_eq!(String::from_utf8_lossy(&done.stdout), format!("1 calls, {differ} differ\n"));
    }
}

/// A library of two functions, the second with a fault.
const FAULTY: &str = "#include \"spill.h\"
uint64_t spill_rewrite(const uint8_t *a, size_t al, const uint8_t *b, size_t bl, const uint8_t *c, size_t cl, uint64_t d,
    uint8_t *e, size_t el, uint8_t *f, size_t fl, uint8_t *g, size_t gl, uint8_t *h, size_t hl) {
    return d;
}
uint64_t spill_prune(const uint8_t *a, size_t al, const uint8_t *table, size_t length, const uint8_t *c, size_t cl,
    const uint8_t *d, size_t dl, const uint8_t *e, size_t el, uint64_t f, const uint8_t *g, size_t gl, const uint8_t *h,
    size_t hl, const uint8_t *i, size_t il, uint8_t *flags, size_t room) {
    flags[0] = flags[1] = 1;
    volatile uint8_t *touched = (volatile uint8_t *)FAULT;
    *touched = *touched;
    return 0;
}
";

#[test]
fn a_touch_outside_is_noticed() {
    let (library, program) = (scratch("faulty.c"), scratch("guarded-faulty"));
    let list = one_call(&two_kept(), "guarded-faulty.calls");
    // The place that the faulty library touches, the end that shows it, and whether it is a fault at all.
    for (fault, end, stopped) in [
        ("(flags + room)", "end", true),
        ("(flags - 1)", "start", true),
        ("(table + length)", "end", true),
        ("(uintptr_t)(table + 1)", "end", true),
        ("(flags + 2)", "end", false),
    ] {
        fs::write(&library, FAULTY.replace("FAULT", fault)).unwrap();
        compile(&library, &program);
        let done = run(&program, end, &list);
        assert_eq!(done.status.code().is_none(), stopped, "{fault}: {}", done.status);
    }
}
