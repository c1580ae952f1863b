//! How long calls take beside others.

use std::time::Instant;

/// Returns the nanoseconds that a call takes, over `rounds` calls.
fn sample(rounds: u32, f: &mut dyn FnMut()) -> f64 {
    let start = Instant::now();
    for _ in 0..rounds {
        f();
    }
    start.elapsed().as_nanos() as f64 / f64::from(rounds)
}

/// How many runs each time and each ratio is the median of. They are short, so that what else the
/// processor does falls into few of them.
const RUNS: usize = 401;

/// Prints the medians of both, and the median of the ratios of neighbouring runs with its
/// quartiles.
pub fn compare(name: &str, rounds: u32, mut ours: impl FnMut(), mut plain: impl FnMut()) {
    let mut runs: Vec<(f64, f64)> = (0..RUNS)
        .map(|_| (sample(rounds, &mut ours), sample(rounds, &mut plain)))
        .collect();
    let mut ratios: Vec<f64> = runs.iter().map(|(a, b)| a / b).collect();
    ratios.sort_by(f64::total_cmp);
    let mut median = |of: fn(&(f64, f64)) -> f64| {
        runs.sort_by(|a, b| of(a).total_cmp(&of(b)));
        of(&runs[RUNS / 2])
    };
    let (a, b) = (median(|run| run.0), median(|run| run.1));
    let (low, middle, high) = (ratios[RUNS / 4], ratios[RUNS / 2], ratios[RUNS * 3 / 4]);
    println!("{name:<34} {a:>9.1} ns {b:>9.1} ns  {middle:.2} ({low:.2} to {high:.2})");
}
