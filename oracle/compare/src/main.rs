//! Compares the original and ours. See oracle/README.md.
mod answers;
mod asking;
mod carried;
mod chains;
mod compare;
mod counts;
mod differences;
mod document;
mod examples;
mod exhaustive;
mod expect;
mod inputs;
mod layout;
mod looks;
mod model;
mod options;
mod original;
mod original_text;
mod ours_text;
mod port;
mod queries;
mod random;
mod record;
mod sampled;

use counts::Counts;
use options::{stop, Options};
use random::Random;
use std::time::{Duration, Instant};

/// The numbers that random inputs are made of. Those for ours alone, byte streams with real-time bytes, looks, and payloads
/// carried have numbers of their own, so that the others are the same with and without them.
struct Numbers {
    random: Random,
    apart: Random,
    clocked: Random,
    looking: Random,
    carrying: Random,
}

impl Numbers {
    /// The numbers of a seed.
    fn new(seed: u64) -> Numbers {
        Numbers {
            random: Random::new(seed),
            apart: Random::new(!seed),
            clocked: Random::clocked(seed),
            looking: Random::looking(seed),
            carrying: Random::carrying(seed),
        }
    }

    /// The largest messages.
    fn largest(&mut self, counts: &mut Counts) -> Result<(), String> {
        sampled::largest(&mut self.random, counts)?;
        sampled::largest_origins(&mut self.apart, counts)?;
        sampled::longest_streams(&mut self.clocked, counts)?;
        looks::largest(&mut self.looking, counts)?;
        carried::largest(&mut self.carrying, counts)
    }

    /// One round of random inputs.
    fn round(&mut self, counts: &mut Counts) -> Result<(), String> {
        sampled::round(&mut self.random, counts)?;
        sampled::origins(&mut self.apart, counts)?;
        sampled::clocked_streams(&mut self.clocked, counts)?;
        looks::round(&mut self.looking, counts)?;
        carried::round(&mut self.carrying, counts)
    }
}

/// Runs the exhaustive part, the largest messages, then rounds of random inputs until the time is over.
fn compare_all(options: &Options, counts: &mut Counts) -> Result<(), String> {
    let start = Instant::now();
    exhaustive::run(counts)?;
    looks::exhaustive(counts)?;
    carried::exhaustive(counts)?;
    println!(
        "short inputs: {} comparisons, {:.1} s",
        counts.total(),
        start.elapsed().as_secs_f64()
    );
    let mut numbers = Numbers::new(options.seed);
    numbers.largest(counts)?;
    println!(
        "largest messages done, {:.1} s",
        start.elapsed().as_secs_f64()
    );
    let mut rounds = 0;
    while match options.rounds {
        Some(most) => rounds < most,
        None => start.elapsed() < Duration::from_secs(options.seconds),
    } {
        numbers.round(counts)?;
        rounds += 1;
    }
    println!(
        "{rounds} rounds of random inputs, seed {}, {:.1} s\n",
        options.seed,
        start.elapsed().as_secs_f64()
    );
    Ok(())
}

/// Examples, document and queries, then the comparison, then the tables.
fn run(options: &Options) -> Result<(), String> {
    examples::check()?;
    document::check(&options.document, &options.queries)?;
    asking::run(&options.queries, &options.build)?;
    let mut counts = Counts::new();
    compare_all(options, &mut counts)?;
    counts.print();
    Ok(())
}

/// Reads the options and does what they ask for.
fn main() {
    original::silence();
    let options = Options::from_arguments();
    let outcome = match options.command.as_str() {
        "run" => run(&options),
        "queries" => asking::run(&options.queries, &options.build),
        "unlike" => asking::list_unlike(&options.queries),
        "record" => record::write(&options.queries, &options.made_by, options.seed)
            .map(|text| print!("{text}")),
        other => stop(&format!("unknown command {other:?}")),
    };
    if let Err(fault) = outcome {
        println!("{fault}\nFAILED, seed {}", options.seed);
        std::process::exit(1);
    }
}
