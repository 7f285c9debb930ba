//! One comparison: ours with 01's rules, the original with what is expected of it, and both with each other.
use crate::answers::{End, Input, Kind, Ours, Theirs};
use crate::counts::{Counts, Outcome, StandIn};
use crate::differences::{self, Builds, Place, ALL};
use crate::expect::{expected, text, Expected};
use crate::layout::SYSEX8;
use crate::{model, original, port};

/// The largest payload that the original is asked to make by `new()`.
const MOST_NEW: u64 = 60_000;

/// Whether the original can be asked. Not where it has no such call (a length above the words lent; a group or
/// room for a byte stream; an origin; a look), where it takes no message at all (a call on a message that is refused) or no such group,
/// and where it may end the process (D15 on a growing buffer).
pub fn asked(input: &Input, ours: &Ours) -> bool {
    match input.kind {
        Kind::Check8 | Kind::Check7 => ours.refusal != 2,
        Kind::Stream => input.numbers[0] == 0 && !matches!(ours.refusal, 1 | 14),
        Kind::Needed => input.numbers[0] <= MOST_NEW,
        Kind::Origin | Kind::LookRun | Kind::LookByte | Kind::LookMessage => false,
        Kind::Carries => matches!(ours.refusal, 0 | 26),
        kind if kind.on_message() && (1..=12).contains(&ours.refusal) => false,
        kind if kind.is_growing() => match ours.refusal {
            13 => input.numbers[1] > input.numbers[2] && input.numbers[1] < 1000,
            14 => false,
            _ => true,
        },
        _ => true,
    }
}

/// The stand-in that a comparison rests on, if any.
pub fn rests_on(input: &Input, ours: &Ours) -> Option<StandIn> {
    let behind = !input.kind.is_growing() && input.kind.on_message() && !input.behind().is_empty();
    let too_big = matches!(
        input.kind,
        Kind::Set(_) | Kind::PacketGroup8 | Kind::PacketGroup7 | Kind::SetGroup
    );
    match input.kind {
        Kind::Check8 | Kind::Check7 if ours.refusal == 3 => Some(StandIn::TooShort),
        Kind::Check8 | Kind::Check7 if ours.refusal != 0 => Some(StandIn::Order),
        Kind::Check7 if !input.behind().is_empty() => Some(StandIn::Data),
        Kind::Check8 | Kind::Reader | Kind::Pack if behind => Some(StandIn::Data),
        Kind::PayloadLent if behind || input.length() > 4 => Some(StandIn::Data),
        kind if kind.is_splice() && (behind || packs_shorter(input)) => Some(StandIn::Data),
        Kind::Needed => Some(StandIn::New),
        Kind::Stream => stream_rests_on(&input.bytes),
        _ if too_big && ours.refusal == 16 && !index_too_big(input) => Some(StandIn::Ux),
        _ => None,
    }
}

/// The same for a byte stream: one under 2 bytes, one without its frame, one with a byte that `u7` does not hold.
fn stream_rests_on(bytes: &[u8]) -> Option<StandIn> {
    match differences::framed(bytes) {
        _ if bytes.len() < 2 => Some(StandIn::TooShort),
        None => Some(StandIn::Order),
        Some(data) if data.iter().any(|&byte| byte > 0x7F) => Some(StandIn::Ux),
        Some(_) => None,
    }
}

/// Whether the refusal of a field is for its index, which the original checks itself.
fn index_too_big(input: &Input) -> bool {
    matches!(input.kind, Kind::Set(field) if input.numbers[0] >= field.indexes())
}

/// Whether the message takes fewer packets once packed: then words stand behind it in the midst of a splice.
fn packs_shorter(input: &Input) -> bool {
    SYSEX8.words_for(differences::size(input.message())) < input.length()
}

/// Whether the original answers as ours does.
fn alike(input: &Input, ours: &Ours, theirs: &Theirs) -> bool {
    match ours.refusal {
        0 => theirs.end == End::Done && theirs.values == ours.values,
        number => theirs.end == End::Refused(text(model::shape_of(input.kind), number)),
    }
}

/// Whether the words that 01 does not compare are the same too.
fn words_alike(input: &Input, ours: &Ours, theirs: &Theirs) -> bool {
    if !input.kind.rewrites() || ours.refusal != 0 {
        return true;
    }
    let all = if input.kind.is_growing() {
        ours.values[0] as usize
    } else {
        ours.words.len()
    };
    theirs.words[..] == ours.words[..all]
}

/// Whether a difference is about words that are not compared in a rewritten message.
pub fn only_words(index: usize) -> bool {
    ALL[index].place == Place::NotCompared && ALL[index].name != "D17"
}

/// The differences whose test holds for an input, in the build that this program has.
pub fn held(input: &Input) -> Vec<usize> {
    let in_build =
        |index: &usize| cfg!(debug_assertions) || ALL[*index].builds != Builds::DebugOnly;
    (0..ALL.len())
        .filter(in_build)
        .filter(|&index| (ALL[index].shows)(input))
        .collect()
}

/// Whether an answer is a panic of the debug build that an entry tells of.
fn debug_panic(input: &Input, theirs: &Theirs) -> bool {
    let told = |index: usize| ALL[index].builds != Builds::Both;
    cfg!(debug_assertions) && theirs.end == End::Panicked && held(input).into_iter().any(told)
}

/// An input and its answers, for a report.
pub fn report(fault: &str, input: &Input, parts: &[(&str, String)]) -> String {
    let mut text = format!("{fault}\n  kind     {:?}\n  words    ", input.kind);
    text += &input
        .words
        .iter()
        .map(|word| format!("{word:08X} "))
        .collect::<String>();
    text += "\n  bytes    ";
    text += &input
        .bytes
        .iter()
        .map(|byte| format!("{byte:02X} "))
        .collect::<String>();
    text += &format!("\n  numbers  {:?}", input.numbers);
    for (name, part) in parts {
        text += &format!("\n  {name:8} {part}");
    }
    text
}

/// Checks ours against 01's rules.
pub fn against_rules(input: &Input) -> Result<Ours, String> {
    let (demanded, ours) = (model::answer(input), port::answer(input));
    if demanded != ours {
        let parts = [
            ("01", format!("{demanded:X?}")),
            ("ours", format!("{ours:X?}")),
        ];
        return Err(report("ours is not as 01 says", input, &parts));
    }
    Ok(ours)
}

/// Asks the original and checks that it answers as the entries say; tells whether they leave part of it open.
pub fn as_expected(input: &Input, ours: &Ours) -> Result<(Theirs, bool), String> {
    let theirs = original::answer(input);
    let expected = expected(input, ours);
    if !expected.holds(&theirs) && !debug_panic(input, &theirs) {
        let wanted = match &expected {
            Expected::Exactly(answer) => format!("{answer:X?}"),
            Expected::Beginning(values) => format!("beginning with {values:X?}"),
        };
        let parts = [
            ("ours", format!("{ours:X?}")),
            ("original", format!("{theirs:X?}")),
            ("expected", wanted),
        ];
        return Err(report(
            "the original is not as docs/DIFFERENCES.md says",
            input,
            &parts,
        ));
    }
    Ok((theirs, matches!(expected, Expected::Beginning(_))))
}

/// Counts the differences whose test held, those that differed, and those whose answer is open; answers whether
/// answers may differ, and whether words that are not compared may.
fn count_held(input: &Input, same: [bool; 2], open: bool, counts: &mut Counts) -> (bool, bool) {
    let held = held(input);
    for &index in &held {
        let differs = !same[usize::from(only_words(index))];
        counts.held[index] += 1;
        counts.differed[index] += u64::from(differs);
        counts.open[index] += u64::from(open);
    }
    let listed = |words: bool| held.iter().any(|&index| only_words(index) == words);
    (listed(false), listed(true))
}

/// Compares one input and counts it. An error is a fault of the run.
pub fn compare(input: &Input, counts: &mut Counts) -> Result<(), String> {
    let ours = against_rules(input)?;
    let row = input.kind.row();
    if !asked(input, &ours) {
        counts.note(row, None, Outcome::Alone);
        return Ok(());
    }
    let (theirs, open) = as_expected(input, &ours)?;
    let same = alike(input, &ours, &theirs);
    let same_words = !same || words_alike(input, &ours, &theirs);
    let (listed, words_listed) = count_held(input, [same, same_words], open, counts);
    if !same && !listed || !same_words && !words_listed {
        let parts = [
            ("ours", format!("{ours:X?}")),
            ("original", format!("{theirs:X?}")),
        ];
        return Err(report(
            "a difference that docs/DIFFERENCES.md does not list",
            input,
            &parts,
        ));
    }
    let outcome = match (ours.refusal, same) {
        (0, true) => Outcome::Equal,
        (0, false) => Outcome::Listed,
        (_, true) => Outcome::RefusedAlike,
        (_, false) => Outcome::RefusedListed,
    };
    counts.note(row, rests_on(input, &ours), outcome);
    Ok(())
}
