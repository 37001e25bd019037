//! What is timed or counted: a call of the library, or of ordinary Rust in its place.

use std::hint::black_box;

use filughjosa::raw::{RewriteOutput, prune_into, rewrite_into};
use plain::cases::{PruneCase, RewriteCase, Rewritten};
use plain::library::{prune_input, rewrite_input};
use plain::prune::prune;
use plain::rewrite::rewrite;
use plain::rules::Rules;

use crate::grid_loop;
use crate::packed::Packed;
use crate::shapes::{self, Present};
use crate::timing::Variant;

/// The refusal of a bad grid.
const BAD_GRID: u64 = 9;

/// Rewriting by the library and by the plain Rust.
pub fn rewriting<'a>(name: &str, case: &'a RewriteCase) -> Vec<Variant<'a>> {
    let mut lent = Rewritten::lent(case.rooms);
    let library = move || {
        let output = RewriteOutput {
            table: &mut lent.table,
            pool: &mut lent.pool,
            statistics: &mut lent.statistics,
            guarantees: &mut lent.guarantees,
        };
        black_box(rewrite_into(rewrite_input(black_box(&case.call())), output));
    };
    let plain = || {
        black_box(rewrite(&Rules::SOUND, black_box(&case.call()))).expect("accepted");
    };
    vec![Variant::new(format!("rewrite library {name}"), library), Variant::new(format!("rewrite plain {name}"), plain)]
}

/// Pruning by the library and by the plain Rust.
pub fn pruning<'a>(name: &str, case: &'a PruneCase) -> Vec<Variant<'a>> {
    let mut flags = vec![0; case.flag_room];
    let library = move || {
        let result = prune_into(prune_input(black_box(&case.call())), &mut flags);
        assert_eq!(black_box(result), 0);
    };
    let plain = || {
        black_box(prune(&Rules::SOUND, black_box(&case.call()))).expect("accepted");
    };
    vec![Variant::new(format!("prune library {name}"), library), Variant::new(format!("prune plain {name}"), plain)]
}

/// Two more ordinary programs over the same bytes, the first in its parts too.
pub fn ordinary(case: &PruneCase) -> Vec<Variant<'_>> {
    let packed = |case| Packed::new(black_box(case));
    let sound = move || packed(case).table_is_sound() && packed(case).grid_is_sound();
    let wanted = grid_loop::wanted(case);
    let mut flags = [(); 3].map(|()| vec![0; case.flag_room]).into_iter();
    let mut next = || flags.next().expect("flags for each");
    let (mut first, mut second, mut third) = (next(), next(), next());
    vec![
        Variant::new("prune packed", move || {
            assert!(black_box(sound()));
            packed(case).flags(black_box(&mut first));
        }),
        Variant::new("prune packed table check", move || {
            assert!(black_box(packed(case).table_is_sound()));
        }),
        Variant::new("prune packed grid check", move || {
            assert!(black_box(packed(case).grid_is_sound()));
        }),
        Variant::new("prune packed evaluation", move || {
            packed(case).flags(black_box(&mut second));
        }),
        Variant::new("prune loop", move || {
            grid_loop::flags(black_box(case), black_box(&wanted), black_box(&mut third));
        }),
    ]
}

/// The library on a grid whose last cell is bad: its checks, and nothing evaluated.
pub fn checks(case: &PruneCase) -> Variant<'_> {
    let mut flags = vec![0; case.flag_room];
    Variant::new("prune library checks", move || {
        let result = prune_into(prune_input(black_box(&case.call())), &mut flags);
        assert_eq!(black_box(result), BAD_GRID);
    })
}

/// The same call with a last cell that no type allows.
pub fn with_bad_cell(case: &PruneCase) -> PruneCase {
    let mut bad = case.clone();
    let last = bad.grid.len() - 8;
    bad.grid[last..].copy_from_slice(&1u64.to_be_bytes());
    bad
}

/// The call that the ordinary programs are compared on.
pub fn main_case() -> PruneCase {
    shapes::pruning(&shapes::list(20), 4_096, Present::All)
}

/// Every variant that can be run alone, handed to `each`.
fn with_all(each: &mut dyn FnMut(&mut Variant)) {
    for shape in shapes::all() {
        rewriting(&shape.name, &shape.case).iter_mut().for_each(&mut *each);
    }
    for shape in shapes::all() {
        let case = shapes::pruning(&shape, 4_096, Present::All);
        pruning(&shape.name, &case).iter_mut().for_each(&mut *each);
    }
    let case = main_case();
    ordinary(&case).iter_mut().for_each(&mut *each);
    each(&mut checks(&with_bad_cell(&case)));
}

pub fn names() -> Vec<String> {
    let mut names = Vec::new();
    with_all(&mut |variant| names.push(variant.name.clone()));
    names
}

/// Runs one variant so many times.
pub fn run(name: &str, times: usize) {
    let mut found = false;
    with_all(&mut |variant| {
        if variant.name == name {
            found = true;
            (0..times).for_each(|_| (variant.run)());
        }
    });
    assert!(found, "no variant has this name: see `bench list`");
}
