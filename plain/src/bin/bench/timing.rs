//! Times closures against each other in one run: rounds in turn, the best round of each counts.

use std::time::{Duration, Instant};

/// Something to time, by name.
pub struct Variant<'a> {
    pub name: String,
    pub run: Box<dyn FnMut() + 'a>,
}

impl<'a> Variant<'a> {
    pub fn new(name: impl Into<String>, run: impl FnMut() + 'a) -> Variant<'a> {
        Variant { name: name.into(), run: Box::new(run) }
    }
}

const ROUNDS: usize = 15;
const ROUND: Duration = Duration::from_millis(2);

/// Nanoseconds a call of each variant takes.
pub fn time(variants: &mut [Variant]) -> Vec<f64> {
    let batches: Vec<u32> = variants.iter_mut().map(|variant| batch(&mut variant.run)).collect();
    let mut best = vec![f64::INFINITY; variants.len()];
    for _ in 0..ROUNDS {
        for (i, variant) in variants.iter_mut().enumerate() {
            let taken = calls(&mut variant.run, batches[i]);
            best[i] = best[i].min(taken.as_nanos() as f64 / batches[i] as f64);
        }
    }
    best
}

/// How many calls fill a round.
fn batch(run: &mut dyn FnMut()) -> u32 {
    let mut batch = 1;
    while calls(run, batch) < ROUND {
        batch *= 2;
    }
    batch
}

fn calls(run: &mut dyn FnMut(), times: u32) -> Duration {
    let start = Instant::now();
    for _ in 0..times {
        run();
    }
    start.elapsed()
}

/// Nanoseconds, in a unit that is easy to read.
pub fn shown(nanoseconds: f64) -> String {
    match nanoseconds {
        n if n < 1_000.0 => format!("{n:.0} ns"),
        n if n < 100_000.0 => format!("{:.1} µs", n / 1_000.0),
        n if n < 1_000_000.0 => format!("{:.0} µs", n / 1_000.0),
        n => format!("{:.1} ms", n / 1_000_000.0),
    }
}
