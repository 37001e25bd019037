//! The tables of results, in Markdown.

use plain::cases::PruneCase;
use plain::library::Library;
use plain::rewrite::{answer_word, rewrite};
use plain::rules::Rules;
use plain::subject::{Plain, Subject};

use crate::grid_loop;
use crate::packed::Packed;
use crate::shapes::{self, Present, Shape};
use crate::timing::{Variant, shown, time};
use crate::variants;

pub fn all() {
    rewriting();
    growth();
    pruning();
    ordinary();
}

/// Library, plain Rust and their ratio, as cells of a row.
fn pair(variants: &mut [Variant]) -> String {
    let times = time(variants);
    format!("{} | {} | {:.2}", shown(times[0]), shown(times[1]), times[0] / times[1])
}

fn rewriting() {
    println!("### Rewriting\n\n| predicate | library | plain Rust | ratio |\n|---|---|---|---|");
    for shape in shapes::all() {
        agree_on_rewriting(&shape);
        println!("| {} | {} |", shape.name, pair(&mut variants::rewriting("", &shape.case)));
    }
}

/// Predicates that grow, with their words and depth: time should grow no faster than both together.
fn growth() {
    println!("\n### How rewriting grows\n");
    println!("Words are those of predicate and table together.\n");
    println!("| predicate | words | depth | library | plain Rust | ratio | by word | by word × depth |");
    println!("|---|---|---|---|---|---|---|---|");
    let lists = [1, 16, 64, 256].map(|count| (shapes::list(count), 1));
    let trees = [("255 nodes, balanced", 8), ("255 nodes, deep", 32)];
    let trees = trees.map(|(name, depth)| (shapes::nodes(name, depth), depth));
    let wide = (shapes::columns(), 7);
    for (shape, depth) in lists.into_iter().chain(trees).chain([wide]) {
        agree_on_rewriting(&shape);
        let times = time(&mut variants::rewriting("", &shape.case));
        grown(&shape, depth, times[0], times[1]);
    }
}

fn grown(shape: &Shape, depth: u32, library: f64, plain: f64) {
    let answer = answer_word(&rewrite(&Rules::SOUND, &shape.case.call()));
    let words = shape.case.predicate.len() / 8 + (answer >> 40 & 0xFFFF) as usize;
    let by_word = library / words as f64;
    println!(
        "| {} | {words} | {depth} | {} | {} | {:.2} | {by_word:.1} ns | {:.1} ns |",
        shape.name,
        shown(library),
        shown(plain),
        library / plain,
        by_word / depth as f64
    );
}

fn pruning() {
    println!("\n### Pruning\n");
    println!("| predicate | containers | statistics | library | plain Rust | ratio |");
    println!("|---|---|---|---|---|---|");
    for shape in shapes::all() {
        for containers in [1, 64, 4_096] {
            for (present, name) in [(Present::All, "all"), (Present::Few, "few")] {
                let case = shapes::pruning(&shape, containers, present);
                agree_on_pruning(&case);
                let times = pair(&mut variants::pruning("", &case));
                println!("| {} | {containers} | {name} | {times} |", shape.name);
            }
        }
    }
}

/// The library against the two ordinary programs, over the same bytes.
fn ordinary() {
    println!("\n### Pruning, 4,096 containers, IN of 20 integers, all statistics present\n");
    println!("| program | time | library takes |\n|---|---|---|");
    let case = variants::main_case();
    let bad = variants::with_bad_cell(&case);
    ordinary_agree(&case);
    let mut variants = variants::pruning("", &case);
    variants.extend(variants::ordinary(&case));
    variants.push(variants::checks(&bad));
    let times = time(&mut variants);
    let names = [
        "library",
        "plain Rust, tree in memory",
        "recursion over the packed table, with checks",
        "- its table check",
        "- its grid check",
        "- its evaluation",
        "loop for this grid alone, no checks",
        "- the library's checks alone: refused at the last cell",
    ];
    for (name, taken) in names.iter().zip(&times) {
        let part = name.starts_with('-');
        let ratio = if part { String::new() } else { format!("{:.2} ×", times[0] / taken) };
        println!("| {name} | {} | {ratio} |", shown(*taken));
    }
}

fn agree_on_rewriting(shape: &Shape) {
    let call = shape.case.call();
    assert_eq!(Library.rewrite(&call), Plain::default().rewrite(&call), "{}", shape.name);
}

fn agree_on_pruning(case: &PruneCase) {
    assert_eq!(Library.prune(&case.call()), Plain::default().prune(&case.call()));
}

fn ordinary_agree(case: &PruneCase) {
    agree_on_pruning(case);
    let wanted = Plain::default().prune(&case.call()).flags;
    let mut flags = vec![2; wanted.len()];
    let packed = Packed::new(case);
    assert!(packed.table_is_sound() && packed.grid_is_sound());
    packed.flags(&mut flags);
    assert_eq!(flags, wanted);
    flags.fill(2);
    grid_loop::flags(case, &grid_loop::wanted(case), &mut flags);
    assert_eq!(flags, wanted);
}
