//! docs/DIFFERENCES.md: its list of entries and its boxes of queries and answers.
use crate::asking::written;
use crate::differences::{ALL, ONLY_QUERIES};
use std::fs::read_to_string;

/// A query of a box with the answers that stand below it.
struct Boxed {
    query: String,
    release: String,
    debug: String,
    ours: String,
}

/// The lines in the boxes, with an empty line after each box.
fn boxed_lines(document: &str) -> Vec<&str> {
    let mut inside = false;
    let mut lines = Vec::new();
    for line in document.lines() {
        match line == "```" {
            true => {
                inside = !inside;
                lines.push("");
            }
            false if inside => lines.push(line),
            false => {}
        }
    }
    lines
}

/// The answer behind a name in the lines below queries.
fn answer(lines: &[&str], names: [&str; 2]) -> String {
    let named = |line: &&str| {
        names.iter().find_map(|name| {
            line.strip_prefix(&format!("  {name:10}"))
                .map(str::to_string)
        })
    };
    lines.iter().find_map(named).unwrap_or_default()
}

/// What ours must answer, without what is said for reading only.
fn plain(ours: &str) -> String {
    let end = ours.find([';', '(']).unwrap_or(ours.len());
    ours[..end].trim().replace(", ", " ")
}

/// The queries of all boxes. Several that stand together have the same answers.
fn boxes(document: &str) -> Vec<Boxed> {
    let lines = boxed_lines(document);
    let mut boxes = Vec::new();
    for group in lines.split(|line| line.is_empty()) {
        let first = group
            .iter()
            .position(|line| line.starts_with("  "))
            .unwrap_or(group.len());
        let (queries, answers) = group.split_at(first);
        boxes.extend(queries.iter().map(|query| {
            Boxed {
                query: query
                    .split_once(": ")
                    .map_or(*query, |(_, query)| query)
                    .to_string(),
                release: answer(answers, ["original", "release"]),
                debug: answer(answers, ["original", "debug"]),
                ours: plain(&answer(answers, ["ours", "ours"])),
            }
        }));
    }
    boxes
}

/// Checks that the boxes and the files of docs/differences have the same queries and answers.
fn same_answers(document: &str, folder: &str) -> Result<(), String> {
    let release = written(folder, "release")?;
    let debug = written(folder, "debug")?;
    let boxes = boxes(document);
    for ([query, release, ours], [_, debug, _]) in release.iter().zip(&debug) {
        let same = |boxed: &&Boxed| {
            boxed.query == *query
                && [&boxed.release, &boxed.debug, &boxed.ours] == [release, debug, ours]
        };
        if !boxes.iter().any(|boxed| same(&boxed)) {
            return Err(format!(
                "no box of the document has this query with these answers: {query}"
            ));
        }
    }
    let asked = |boxed: &&Boxed| release.iter().any(|[query, ..]| *query == boxed.query);
    match boxes.iter().find(|boxed| !asked(boxed)) {
        None => Ok(()),
        Some(boxed) => Err(format!(
            "a box has a query that is not asked: {}",
            boxed.query
        )),
    }
}

/// Checks that the list of the document and this program have the same entries.
fn same_entries(document: &str) -> Result<(), String> {
    let rows = document.lines().filter_map(|line| line.strip_prefix("| D"));
    let listed: Vec<&str> = rows.filter_map(|row| row.split(" |").next()).collect();
    let names = ALL
        .iter()
        .map(|difference| difference.name)
        .chain(ONLY_QUERIES);
    let tested: Vec<&str> = names.filter_map(|name| name.strip_prefix('D')).collect();
    let apart = |name: &&str| !listed.contains(name) || !tested.contains(name);
    match listed.iter().chain(&tested).find(|name| apart(name)) {
        None => Ok(()),
        Some(name) => Err(format!(
            "D{name} is not both in the document's list and in this program"
        )),
    }
}

/// Checks the document against this program and the files of docs/differences.
pub fn check(path: &str, folder: &str) -> Result<(), String> {
    let document = read_to_string(path).map_err(|error| format!("{path}: {error}"))?;
    same_entries(&document)?;
    same_answers(&document, folder)
}
