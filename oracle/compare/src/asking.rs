//! Asks all queries of docs/differences and compares the answers with those that are written down.
use crate::ours_text::demanded;
use crate::queries::{lines, Query};
use crate::{original_text, port};
use std::fs::read_to_string;

/// A file of docs/differences.
fn file(folder: &str, name: &str) -> Result<String, String> {
    read_to_string(format!("{folder}/{name}")).map_err(|error| format!("{folder}/{name}: {error}"))
}

/// The queries with the answers of the original's build and of ours, as written down.
pub fn written(folder: &str, build: &str) -> Result<Vec<[String; 3]>, String> {
    let texts = [
        file(folder, "queries.txt")?,
        file(folder, &format!("answers-{build}.txt"))?,
        file(folder, "answers-ours.txt")?,
    ];
    let columns: Vec<Vec<&str>> = texts.iter().map(|text| lines(text).collect()).collect();
    if columns
        .iter()
        .any(|column| column.len() != columns[0].len())
    {
        return Err(format!("{folder}: not as many answers as queries"));
    }
    let row = |place: usize| [0, 1, 2].map(|column: usize| columns[column][place].to_string());
    Ok((0..columns[0].len()).map(row).collect())
}

/// Whether ours answers a query as written down.
fn ours_is(query: &Query, line: &str) -> Result<bool, String> {
    let Some(input) = query.input() else {
        return Ok(line == "no call");
    };
    let steps = query.parts.get(2).copied().unwrap_or("");
    let demanded =
        demanded(line, steps, &input).ok_or(format!("the answer cannot be read: {line}"))?;
    let ours = port::answer(&input);
    if ours != demanded {
        println!("  ours      {ours:X?}");
    }
    Ok(ours == demanded)
}

/// Asks the build of the original that this program has, and ours. Prints what is not as written down; an error
/// if there is any.
pub fn run(folder: &str, build: &str) -> Result<(), String> {
    let (mut count, mut faults, mut asked) = (0, 0, 0);
    for [line, original, ours] in written(folder, build)? {
        let query = Query::new(&line);
        let answer = original_text::answer(&query);
        if answer != original {
            println!("{line}\n  written   {original}\n  original  {answer}");
            faults += 1;
        }
        if !ours_is(&query, &ours)? {
            println!("{line}\n  written   {ours}");
            faults += 1;
        }
        asked += usize::from(query.input().is_some());
        count += 1;
    }
    println!("queries of docs/differences: {count} of the original ({build}), {asked} of ours, {faults} not as written down");
    match faults {
        0 => Ok(()),
        _ => Err("answers not as written down".to_string()),
    }
}

/// Lists the queries that the two builds of the original answer differently.
pub fn list_unlike(folder: &str) -> Result<(), String> {
    println!("Queries that only the debug build answers so:");
    for ([line, release, _], [_, debug, _]) in written(folder, "release")?
        .iter()
        .zip(written(folder, "debug")?.iter())
    {
        if release != debug {
            println!("  {line}\n    release  {release}\n    debug    {debug}");
        }
    }
    Ok(())
}
