//! Compares the calls of interleaved streams with a plain model of 02's T-07. See oracle/README.md.
mod any_tables;
mod apart;
mod compare;
#[allow(dead_code)]
#[path = "../../compare/src/layout.rs"]
mod layout;
mod model;
mod packets;
mod port;
#[allow(dead_code)]
#[path = "../../compare/src/random.rs"]
mod random;
mod random_runs;
mod short;
mod slots;

use std::time::Instant;

/// From this many packets on all that can come out must have come.
const ENOUGH: u64 = 500_000;

/// What came out of the random runs, of tables of any words, and of a port in several runs.
type Results = (compare::Counts, any_tables::Counts, apart::Same);

/// Short rows, random runs, tables of any words, a port in several runs.
fn run(seed: u64, packets: u64) -> Result<Results, String> {
    let start = Instant::now();
    let line = |text: String| println!("{text}, {:.1} s", start.elapsed().as_secs_f64());
    let rows = short::run(&mut compare::Counts::default())?;
    line(format!("short rows: {rows} packets"));
    let (mut counts, mut any) = (compare::Counts::default(), any_tables::Counts::default());
    let runs = random_runs::run(seed, packets, &mut counts)?;
    let first = packets.min(random_runs::FIRST);
    line(format!(
        "{runs} random runs: {packets} packets, {first} of them in the first, seed {seed}"
    ));
    let tables = packets / 20;
    any_tables::run(seed, tables, &mut any)?;
    let total = any.total();
    line(format!(
        "{tables} tables of any words: {total} packets, seed {seed}"
    ));
    let times = packets / 5_000;
    let same = apart::run(seed, times)?;
    line(format!("{times} times a port in four runs, seed {seed}"));
    Ok((counts, any, same))
}

/// Prints the tables. What never came is a fault, after enough packets.
fn print((counts, any, same): Results, packets: u64) -> Result<(), String> {
    println!();
    counts.print();
    println!();
    any.print();
    println!(
        "\n{} answers of a port are the same in two runs, {} of them Full; {} pairs of runs parted at a Full",
        same.answers, same.full, same.parted
    );
    let alone = (same.full == 0 || same.parted == 0).then(|| "never came: Full in two runs".into());
    match counts.never().or(any.never()).or(alone) {
        Some(never) if packets >= ENOUGH => return Err(never),
        _ => println!("all as 02 says"),
    }
    Ok(())
}

/// The number behind an option.
fn number(words: &[String], option: &str, default: u64) -> u64 {
    let place = words.iter().position(|word| word == option);
    let value = place.and_then(|place| words.get(place + 1));
    value.map_or(default, |value| value.parse().expect("a number"))
}

/// Reads the options and runs.
fn main() {
    let words: Vec<String> = std::env::args().skip(1).collect();
    let seed = number(&words, "--seed", 1);
    let packets = number(&words, "--packets", 1_000_000);
    if let Err(fault) = run(seed, packets).and_then(|results| print(results, packets)) {
        println!("{fault}\nFAILED, seed {seed}");
        std::process::exit(1);
    }
}
