//! Chained edits: both sides go on from what they left themselves.
use crate::answers::{End, Input, Kind, Ours, CHAINED};
use crate::compare::{against_rules, as_expected, held, only_words, rests_on};
use crate::counts::{Counts, Outcome};
use crate::differences::size;
use crate::inputs;
use crate::layout::compared;
use crate::model;
use crate::random::Random;

/// The words that a chain has room for.
const ROOM: usize = 64;

/// One side of a chain: all its words, and the message's length.
#[derive(Clone)]
struct Side {
    words: Vec<u32>,
    length: usize,
}

impl Side {
    /// What 01 compares of the side's message.
    fn compared(&self) -> Vec<u64> {
        compared(&self.words[..self.length])
    }
}

/// An edit: kind, bytes and the numbers behind the length.
type Edit = (Kind, Vec<u8>, Vec<u64>);

/// An edit for a payload size.
fn edit(random: &mut Random, size: usize, growing: bool) -> Edit {
    let (splice, payload) = match growing {
        true => (Kind::SpliceGrowing, Kind::PayloadGrowing),
        false => (Kind::SpliceLent, Kind::PayloadLent),
    };
    match random.below(10) {
        0 => {
            let bytes = inputs::payload_size(random).min(120);
            (payload, random.bytes(bytes), vec![])
        }
        1 => (Kind::Pack, vec![], vec![]),
        2 => (Kind::SetGroup, vec![], vec![random.below(16) as u64]),
        3 if size > 0 => {
            let index = random.below(size) as u64;
            (Kind::SetByte, vec![], vec![index, random.byte().into()])
        }
        4 if random.once_in(4) => (Kind::SetStreamId, vec![], vec![random.byte().into()]),
        _ => {
            let from = random.between(0, size);
            let to = random.between(from, size.min(from + 30));
            let bytes = random.between(0, (ROOM / 4 * 13 - size).min(30));
            (splice, random.bytes(bytes), vec![from as u64, to as u64])
        }
    }
}

/// The question of an edit to one side.
fn question(side: &Side, edit: &Edit) -> Input {
    let numbers = [&[side.length as u64], &edit.2[..]].concat();
    Input::with_bytes(edit.0, &side.words, &edit.1, &numbers)
}

/// Makes an edit on our side.
fn our_step(side: &mut Side, edit: &Edit) -> Result<(), String> {
    let ours = against_rules(&question(side, edit))?;
    if edit.0.rewrites() && ours.refusal == 0 {
        side.length = ours.values[0] as usize;
    }
    side.words = ours.words;
    Ok(())
}

/// Makes an edit on the original's side; answers the input, which is its own.
fn their_step(side: &mut Side, edit: &Edit) -> Result<Input, String> {
    let input = question(side, edit);
    let (theirs, _) = as_expected(&input, &model::answer(&input))?;
    if edit.0.rewrites() && theirs.end != End::Panicked {
        side.length = theirs.values[0] as usize;
        side.words = theirs.words;
        side.words.resize(ROOM, 0);
    } else if theirs.end != End::Panicked {
        side.words = theirs.values.iter().map(|&word| word as u32).collect();
    }
    Ok(input)
}

/// A message in words enough, on both sides.
fn start(random: &mut Random) -> Option<Side> {
    let payload = random.between(0, 60);
    let mut words = inputs::message_of(random, payload);
    let length = words.len();
    words.resize(ROOM, 0);
    (length <= ROOM).then_some(Side { words, length })
}

/// One chain of twelve edits. Where a listed difference shows, the original goes on from our words.
pub fn chain(random: &mut Random, counts: &mut Counts) -> Result<(), String> {
    let growing = random.once_in(2);
    let Some(mut ours) = start(random) else {
        return Ok(());
    };
    let mut theirs = ours.clone();
    for _ in 0..12 {
        let edit = edit(random, size(&ours.words[..ours.length]), growing);
        our_step(&mut ours, &edit)?;
        let input = their_step(&mut theirs, &edit)?;
        let same = ours.compared() == theirs.compared();
        if !same && held(&input).into_iter().all(only_words) {
            let edit = format!("{edit:X?} {:X?}", theirs.words);
            return Err(format!("a chained edit differs, none is listed: {edit}"));
        }
        if !same {
            theirs = ours.clone();
        }
        let outcome = if same {
            Outcome::Equal
        } else {
            Outcome::Listed
        };
        counts.note(CHAINED, rests_on(&input, &Ours::default()), outcome);
    }
    Ok(())
}
