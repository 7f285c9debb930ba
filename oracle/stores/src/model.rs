//! The rules of 02's T-02, T-13 and T-08, stated once more and plainly: what the calls of a store must answer. It shares no text with our
//! code: it reads by the grammar, follows the bases with a list of those passed, and splices the edits from the last to the first.
//! What is kept is a set of numbers that bases are added to until none is new.
use crate::layout::{MOST_WORDS, SYSEX8};
use std::collections::HashSet;
use std::ops::Range;

/// The most dumps of a store.
const MOST_DUMPS: usize = 256;

/// The number of a refusal. Every place is 0.
pub type Refusal = u8;

/// An edit of a base's payload.
pub struct Edit {
    pub from: usize,
    pub to: usize,
    pub data: Vec<u8>,
}

/// What a dump is.
pub enum Body {
    Whole { group: u8, id: u8, data: Vec<u8> },
    Delta { base: usize, edits: Vec<Edit> },
}

/// A dump of a store: also whether it is wanted, and where its records stand.
pub struct Dump {
    pub number: usize,
    pub body: Body,
    wanted: bool,
    place: Range<usize>,
}

// ---- the grammar: (01 data* | 02 (03 data*)*)*, where 11 stands for 01 and 12 for 02 if the dump is not wanted any more

/// Takes `size` bytes off the front, or says that they are not there.
fn take<'a>(rest: &mut &'a [u8], size: usize) -> Result<&'a [u8], Refusal> {
    if rest.len() < size {
        return Err(21);
    }
    let (taken, left) = rest.split_at(size);
    *rest = left;
    Ok(taken)
}

/// Takes a kind and its body of four bytes.
fn take_four(rest: &mut &[u8]) -> Result<[u8; 4], Refusal> {
    let record = take(rest, 5)?;
    Ok([record[1], record[2], record[3], record[4]])
}

/// Takes all data that comes next.
fn take_data(rest: &mut &[u8]) -> Result<Vec<u8>, Refusal> {
    let mut data = Vec::new();
    while let Some(&kind @ 0x81..=0x8D) = rest.first() {
        let record = take(rest, 1 + usize::from(kind - 0x80))?;
        data.extend_from_slice(&record[1..]);
    }
    Ok(data)
}

/// Takes all edits that come next, each with its data.
fn take_edits(rest: &mut &[u8]) -> Result<Vec<Edit>, Refusal> {
    let mut edits: Vec<Edit> = Vec::new();
    while rest.first() == Some(&0x03) {
        let [a, b, c, d] = take_four(rest)?;
        let (from, to) = (number(a, b), number(c, d));
        if edits.last().is_some_and(|before| from < before.to) {
            return Err(21);
        }
        let data = take_data(rest)?;
        edits.push(Edit { from, to, data });
    }
    Ok(edits)
}

/// A number of two bytes.
fn number(high: u8, low: u8) -> usize {
    usize::from(u16::from_be_bytes([high, low]))
}

/// The dumps of a store, or 21.
fn dumps(store: &[u8]) -> Result<Vec<Dump>, Refusal> {
    let mut rest = store;
    let mut dumps = Vec::new();
    while let Some(&kind) = rest.first() {
        let start = store.len() - rest.len();
        let (number, body) = match kind {
            0x01 | 0x11 => {
                let [a, b, group, id] = take_four(&mut rest)?;
                if group > 15 {
                    return Err(21);
                }
                let data = take_data(&mut rest)?;
                (number(a, b), Body::Whole { group, id, data })
            }
            0x02 | 0x12 => {
                let [a, b, c, d] = take_four(&mut rest)?;
                let (base, edits) = (number(c, d), take_edits(&mut rest)?);
                (number(a, b), Body::Delta { base, edits })
            }
            _ => return Err(21),
        };
        dumps.push(Dump {
            number,
            body,
            wanted: kind < 0x10,
            place: start..store.len() - rest.len(),
        });
    }
    Ok(dumps)
}

/// The check: 21, 22, 23, each over the whole store before the next.
pub fn check(store: &[u8]) -> Result<Vec<Dump>, Refusal> {
    let dumps = dumps(store)?;
    let mut used = HashSet::new();
    if !dumps.iter().all(|dump| used.insert(dump.number)) {
        return Err(22);
    }
    match dumps.len() > MOST_DUMPS {
        true => Err(23),
        false => Ok(dumps),
    }
}

// ---- the walk

/// The dumps from the one of this number to its whole dump: 24 where a number is not held, 25 where one comes again.
pub fn walk(dumps: &[Dump], number: usize) -> Result<Vec<&Dump>, Refusal> {
    let mut passed: Vec<&Dump> = Vec::new();
    let mut next = number;
    loop {
        if passed.iter().any(|dump| dump.number == next) {
            return Err(25);
        }
        let Some(dump) = dumps.iter().find(|dump| dump.number == next) else {
            return Err(24);
        };
        passed.push(dump);
        match dump.body {
            Body::Whole { .. } => return Ok(passed),
            Body::Delta { base, .. } => next = base,
        }
    }
}

/// 14 if a payload needs more words than lent; `None` is no limit.
fn room(payload: &[u8], lent: Option<usize>) -> Result<(), Refusal> {
    match lent {
        Some(lent) if SYSEX8.words_for(payload.len()) > lent => Err(14),
        _ => Ok(()),
    }
}

/// A dump restored: group, id and payload; and the most words that it, or one that it rests on, needs.
struct Restored {
    group: u8,
    id: u8,
    payload: Vec<u8>,
    most: usize,
}

/// Restores along a walk, from its whole dump up: that one's 14; for each delta 13, then 14.
fn restored(walk: &[&Dump], lent: Option<usize>) -> Result<Restored, Refusal> {
    let mut found = Restored {
        group: 0,
        id: 0,
        payload: Vec::new(),
        most: 0,
    };
    for dump in walk.iter().rev() {
        match &dump.body {
            Body::Whole { group, id, data } => {
                (found.group, found.id) = (*group, *id);
                found.payload.clone_from(data);
            }
            Body::Delta { edits, .. } => {
                let size = found.payload.len();
                if edits
                    .iter()
                    .any(|edit| edit.from > edit.to || edit.to > size)
                {
                    return Err(13);
                }
                for edit in edits.iter().rev() {
                    let data = edit.data.iter().copied();
                    found.payload.splice(edit.from..edit.to, data);
                }
            }
        }
        room(&found.payload, lent)?;
        found.most = found.most.max(SYSEX8.words_for(found.payload.len()));
    }
    Ok(found)
}

// ---- what is kept

/// The numbers of the dumps that are kept: those of the wanted ones, and of the base of each that is kept.
fn kept(dumps: &[Dump]) -> HashSet<usize> {
    let wanted = dumps.iter().filter(|dump| dump.wanted);
    let mut kept: HashSet<usize> = wanted.map(|dump| dump.number).collect();
    loop {
        let before = kept.len();
        for dump in dumps {
            match dump.body {
                Body::Delta { base, .. } if kept.contains(&dump.number) => kept.insert(base),
                _ => continue,
            };
        }
        if kept.len() == before {
            return kept;
        }
    }
}

/// What a collection does with a number.
#[derive(Clone, Copy, PartialEq)]
pub enum Fate {
    /// It is not held, before and after.
    NotHeld,
    /// It is held and stays: wanted, or rested on by a wanted one.
    Wanted,
    RestedOn,
    /// It is held, and freed.
    Freed,
}

/// What a collection of a good store does with a number.
pub fn fate(store: &[u8], number: usize) -> Fate {
    let dumps = check(store).unwrap_or_default();
    match dumps.iter().find(|dump| dump.number == number) {
        None => Fate::NotHeld,
        Some(dump) if dump.wanted => Fate::Wanted,
        Some(_) if kept(&dumps).contains(&number) => Fate::RestedOn,
        Some(_) => Fate::Freed,
    }
}

// ---- the calls, each as the fields of its answer

/// The check: refusal, place, dumps.
pub fn check_answer(store: &[u8]) -> [usize; 3] {
    match check(store) {
        Err(refusal) => [refusal.into(), 0, 0],
        Ok(dumps) => [0, 0, dumps.len()],
    }
}

/// The description: refusal, place, delta, group, id, base, size, words, steps.
pub fn describe_answer(store: &[u8], number: usize) -> [usize; 9] {
    let described = || {
        let dumps = check(store)?;
        let walk = walk(&dumps, number)?;
        let found = restored(&walk, None)?;
        let (delta, base) = match walk[0].body {
            Body::Whole { .. } => (0, 0),
            Body::Delta { base, .. } => (1, base),
        };
        let (group, id) = (found.group.into(), found.id.into());
        let (size, steps) = (found.payload.len(), walk.len() - 1);
        Ok([0, 0, delta, group, id, base, size, found.most, steps])
    };
    described().unwrap_or_else(|refusal: Refusal| [refusal.into(), 0, 0, 0, 0, 0, 0, 0, 0])
}

/// Restoring: refusal, place, length; and all words lent after it.
pub fn restore_answer(store: &[u8], number: usize, words: &[u32]) -> ([usize; 3], Vec<u32>) {
    let message = || {
        if words.len() > MOST_WORDS {
            return Err(1);
        }
        let dumps = check(store)?;
        let found = restored(&walk(&dumps, number)?, Some(words.len()))?;
        let (group, id) = (found.group.into(), found.id.into());
        Ok(SYSEX8.fewest_form(group, id, &found.payload))
    };
    match message() {
        Err(refusal) => ([Refusal::into(refusal), 0, 0], words.to_vec()),
        Ok(mut message) => {
            let length = message.len();
            message.resize(words.len(), 0);
            ([0, 0, length], message)
        }
    }
}

/// The payload of a dump, with no limit of words.
pub fn payload(store: &[u8], number: usize) -> Result<Vec<u8>, Refusal> {
    let dumps = check(store)?;
    Ok(restored(&walk(&dumps, number)?, None)?.payload)
}

/// A byte of a dump's payload: refusal, place, byte.
pub fn look_answer(payload: &Result<Vec<u8>, Refusal>, position: usize) -> [usize; 3] {
    match payload {
        Err(refusal) => [usize::from(*refusal), 0, 0],
        Ok(bytes) => match bytes.get(position) {
            Some(&byte) => [0, 0, byte.into()],
            None => [13, 0, 0],
        },
    }
}

/// An answer of one number, and the bytes lent after it: on a refusal as they were.
fn written(store: &[u8], outcome: Result<(usize, Vec<u8>), Refusal>) -> ([usize; 3], Vec<u8>) {
    match outcome {
        Err(refusal) => ([refusal.into(), 0, 0], store.to_vec()),
        Ok((value, bytes)) => ([0, 0, value], bytes),
    }
}

/// Marking: refusal, place, 0; and all bytes lent after it.
pub fn mark_answer(store: &[u8], number: usize) -> ([usize; 3], Vec<u8>) {
    let marked = || {
        let dumps = check(store)?;
        let dump = dumps.iter().find(|dump| dump.number == number).ok_or(24)?;
        let mut bytes = store.to_vec();
        bytes[dump.place.start] = match dump.body {
            Body::Whole { .. } => 0x11,
            Body::Delta { .. } => 0x12,
        };
        Ok((0, bytes))
    };
    written(store, marked())
}

/// Collecting: refusal, place, new length; and all bytes lent after it.
pub fn collect_answer(store: &[u8]) -> ([usize; 3], Vec<u8>) {
    let collected = || {
        let dumps = check(store)?;
        let kept = kept(&dumps);
        let stay = dumps.iter().filter(|dump| kept.contains(&dump.number));
        let mut bytes: Vec<u8> = stay
            .flat_map(|dump| store[dump.place.clone()].to_vec())
            .collect();
        let length = bytes.len();
        bytes.resize(store.len(), 0);
        Ok((length, bytes))
    };
    written(store, collected())
}
