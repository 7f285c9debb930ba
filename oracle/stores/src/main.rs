//! Compares the calls of a store with a plain model of 02's T-02, T-13 and T-08. See oracle/README.md.
mod compare;
#[allow(dead_code)]
#[path = "../../compare/src/layout.rs"]
mod layout;
mod model;
mod port;
#[allow(dead_code)]
#[path = "../../compare/src/random.rs"]
mod random;
mod random_stores;
mod reclaimed;
mod records;
mod samples;
mod short;

use compare::Counts;
use random::Random;
use std::time::Instant;

/// From this many random stores on each call must have given each of its refusals.
const ENOUGH: u64 = 10_000;

/// Samples, short stores, random stores, then the table.
fn run(seed: u64, stores: u64) -> Result<(), String> {
    let start = Instant::now();
    let mut counts = Counts::new();
    println!("{} samples", samples::run(&mut counts)?);
    short::run(&mut counts)?;
    let seconds = start.elapsed().as_secs_f64();
    println!(
        "short stores: {} comparisons, {seconds:.1} s",
        counts.total()
    );
    let mut counts = Counts::new();
    let randoms = [Random::new(seed), Random::looking(seed)];
    random_stores::run(randoms, stores, &mut counts)?;
    let seconds = start.elapsed().as_secs_f64();
    println!("{stores} random stores, seed {seed}, {seconds:.1} s\n");
    counts.print();
    match counts.never() {
        Some(never) if stores >= ENOUGH => Err(never),
        _ => {
            println!("{} comparisons; all as 02 says", counts.total());
            Ok(())
        }
    }
}

/// The number behind an option.
fn number(words: &[String], option: &str, default: u64) -> u64 {
    let place = words.iter().position(|word| word == option);
    let value = place.and_then(|place| words.get(place + 1));
    value.map_or(default, |value| value.parse().expect("a number"))
}

/// Reads the options and runs.
fn main() {
    let words: Vec<String> = std::env::args().skip(1).collect();
    let seed = number(&words, "--seed", 1);
    if let Err(fault) = run(seed, number(&words, "--stores", 100_000)) {
        println!("{fault}\nFAILED, seed {seed}");
        std::process::exit(1);
    }
}
