//! A short differential run against the proved library, and proof that such a run can fail.

use plain::differ::{Report, Run};
use plain::library::Library;
use plain::rules::{Mutant, Rules};
use plain::subject::{Plain, Subject};

const CASES: u64 = 100_000;
const MUTANT_CASES: u64 = 40_000;

fn run(rules: Rules, subject: &dyn Subject, seed: u64, cases: u64) -> Report {
    Run::new(Plain { rules }, subject).cases(seed, 0, cases)
}

#[test]
fn library_answers_as_the_plain_rust() {
    let report = run(Rules::SOUND, &Library, 1, CASES);
    println!("{CASES} cases\n{report}");
    assert!(report.is_clean(), "{report}");
    assert!(report.results.iter().all(|count| *count > 100), "a refusal is hardly tried");
    assert!(report.kept > 10_000 && report.dropped > 10_000, "flags are one-sided");
    assert!(report.row_dropped > 10_000 && report.matching_rows > 10_000, "rows are one-sided");
}

#[test]
fn library_answers_alike_in_sweeps() {
    let report = Run::new(Plain::default(), &Library).sweep(5);
    println!("{report}");
    assert!(report.is_clean(), "{report}");
}

#[test]
fn every_mistake_is_found() {
    for mutant in Mutant::ALL {
        let report = run(Rules::with(mutant), &Library, 2, MUTANT_CASES);
        println!("{mutant:?}: {} differ", report.differ);
        assert!(report.differ > 0, "{mutant:?} is not found");
    }
}

#[test]
fn mistakes_that_lose_rows_are_found_by_rows() {
    let losing = [
        Mutant::UnknownDrops,
        Mutant::StrictUpper,
        Mutant::MinimumWraps,
        Mutant::FlipKeepsOrder,
        Mutant::GuaranteeUnderOr,
        Mutant::NotInDropsOnTwo,
    ];
    for mutant in losing {
        let mistaken = Plain { rules: Rules::with(mutant) };
        let report = run(Rules::SOUND, &mistaken, 3, MUTANT_CASES);
        println!("{mutant:?}: {} lost", report.lost);
        assert!(report.lost > 0, "{mutant:?} loses no row");
    }
}
