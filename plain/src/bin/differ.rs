//! A long differential run: `differ [cases] [seed] [mutant]`. Ends with 1 if anything differs.

use plain::differ::Run;
use plain::library::Library;
use plain::rules::{Mutant, Rules};
use plain::subject::Plain;

fn main() {
    let mut arguments = std::env::args().skip(1);
    let mut number = |otherwise| match arguments.next() {
        Some(text) => text.parse().expect("a number"),
        None => otherwise,
    };
    let (cases, seed) = (number(100_000), number(1));
    let mutant = arguments.next().map(|name| {
        let named = Mutant::ALL.into_iter().find(|mutant| format!("{mutant:?}") == name);
        named.expect("the name of a mutant")
    });
    let plain = Plain { rules: mutant.map_or(Rules::SOUND, Rules::with) };
    let sweep = Run::new(plain, &Library).sweep(seed);
    println!("sweeps\n{sweep}\n");
    let report = Run::new(plain, &Library).cases(seed, 0, cases);
    println!("{cases} cases, seed {seed}\n{report}");
    std::process::exit(!(sweep.is_clean() && report.is_clean()) as i32);
}
