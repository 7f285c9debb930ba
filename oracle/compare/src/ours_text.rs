//! What ours must answer to a query, as docs/differences/answers-ours.txt writes it, and as numbers.
//!
//! A line is one of: `words W`; `length L words W`; `length L growth G words W`; `refused N at P`, with `words W`
//! behind it where words are lent to be written; bytes of steps, `.` for the end; `kind K group G id I size S
//! payload B`; `needed N`; `no call`.
use crate::answers::{Input, Kind, Ours, ENDED};
use crate::layout::{as_values, compared};
use crate::model;
use crate::queries::{bytes, number, words};

/// The value behind a name in a line.
fn behind<'a>(line: &'a str, name: &str) -> Option<&'a str> {
    let mut parts = line.split_whitespace();
    parts.find(|part| *part == name)?;
    parts.next()
}

/// The values of a line of steps: the bytes are the line's; the bytes remaining are counted by 01's rules.
fn step_values(line: &str, steps: &str, input: &Input) -> Option<Vec<u64>> {
    let mut values = model::answer(input).values;
    let mut place = 0;
    for (answer, step) in line.split(',').zip(steps.split(',')) {
        match (step, answer) {
            ("l", remaining) if values[place - 1] != number(remaining) => return None,
            ("l", _) => {}
            (_, byte) => {
                values[place] = if byte == "." {
                    ENDED
                } else {
                    bytes(byte)[0].into()
                };
                place += 2;
            }
        }
    }
    (place == values.len()).then_some(values)
}

/// The values of an accepted line.
fn values(line: &str, steps: &str, input: &Input) -> Option<Vec<u64>> {
    if matches!(input.kind, Kind::Reader | Kind::Steps8 | Kind::Steps7) {
        return step_values(line, steps, input);
    }
    if let Some(needed) = behind(line, "needed") {
        return Some(vec![number(needed)]);
    }
    if let Some(kind) = behind(line, "kind") {
        let mut values = vec![number(kind), number(behind(line, "group")?)];
        values.extend(bytes(behind(line, "id")?).into_iter().map(u64::from));
        values.push(number(behind(line, "size")?));
        values.extend(bytes(behind(line, "payload")?).into_iter().map(u64::from));
        return Some(values);
    }
    let all = words(behind(line, "words")?);
    match behind(line, "length").map(|length| &all[..number(length) as usize]) {
        Some(packets) if input.kind == Kind::Stream => Some(as_values(packets)),
        Some(message) => Some(compared(message)),
        None => Some(as_values(&all)),
    }
}

/// What ours must answer, by a line; the steps of the query are needed where there are some. None if the line
/// cannot be read.
pub fn demanded(line: &str, steps: &str, input: &Input) -> Option<Ours> {
    let writes = matches!(input.kind.row(), 6 | 7 | 11..=19);
    let all = behind(line, "words").map(words);
    if let Some(refusal) = behind(line, "refused") {
        let lent = if writes { &input.words[..] } else { &[] };
        let given = all.unwrap_or_else(|| lent.to_vec());
        return Some(Ours::refused(
            refusal.parse().ok()?,
            number(behind(line, "at")?),
            &given,
        ));
    }
    let growth = match (
        behind(line, "growth"),
        input.kind.is_splice() || input.kind.is_payload(),
    ) {
        (Some(growth), true) => growth.parse().ok()?,
        (None, false) => 0,
        _ => return None,
    };
    Some(Ours {
        refusal: 0,
        place: 0,
        values: values(line, steps, input)?,
        growth,
        words: if writes { all? } else { Vec::new() },
    })
}
