//! Times the original and the port on the same inputs in one run: ns per call, best of many, ratios and goals; how the time of a list of
//! edits grows; then the calls of a store of dumps, looks, and interleaved streams, which the port alone has. With the word `chain`,
//! `look` or `ports` it times these alone, with more words it does one call so many times (counted.rs).
mod calls;
mod chains;
mod counted;
mod inputs;
mod iterating;
mod lists;
mod looks;
mod original;
mod port;
mod ports;
mod table;
mod time;

/// All calls on a payload of so many bytes.
fn run(size: usize) {
    let bytes = inputs::bytes(size);
    let words = inputs::packed(&bytes);
    original::check(&words);
    let floor = table::memmove(&words);
    calls::reads(&bytes, &words, floor);
    calls::carrying(&bytes, &words, floor);
    calls::setters(&words, size, floor);
    calls::splices(&bytes, &words, (size / 2).saturating_sub(4), "", floor);
    calls::splices(&bytes, &words, 0, ", at 0", floor);
    calls::packing(&bytes, floor);
    lists::rows(&words, size, floor);
    calls::origin(&words, size, floor);
    calls::streams(size.min(inputs::MOST_STREAM));
    iterating::rows(&bytes, &words, floor);
}

/// The call that the arguments name, or the tables, a size after the other.
fn main() {
    let arguments: Vec<String> = std::env::args().skip(1).collect();
    if arguments == ["chain"] {
        return chains::run();
    }
    if arguments == ["look"] {
        return looks::run();
    }
    if arguments == ["ports"] {
        return ports::run();
    }
    if !arguments.is_empty() {
        assert!(counted::run(&arguments), "chain, look, ports, or CALL SIDE SIZE TIMES");
        return;
    }
    table::head();
    table::SIZES.into_iter().for_each(run);
    println!();
    lists::growth();
    println!();
    chains::run();
    println!();
    looks::run();
    println!();
    ports::run();
}
