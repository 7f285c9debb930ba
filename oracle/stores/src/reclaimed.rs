//! What marking and collecting leave of a store: the answers of its numbers before and after, by ours. Each call is compared with the
//! model too.
use crate::compare::{Counts, Restored};
use crate::layout::MOST_WORDS;
use crate::model::{self, Fate};
use crate::records::whole;

/// What a number is described as before and after, and restored to. The words are as many as the description before says.
fn answers(
    counts: &mut Counts,
    stores: [&[u8]; 2],
    number: usize,
) -> Result<[([usize; 9], Restored); 2], String> {
    let [before, after] = stores;
    let old = counts.describe(before, number)?;
    let words = vec![0xA5A5_A5A5; old[7].clamp(4, MOST_WORDS)];
    Ok([
        (old, counts.restore(before, number, &words)?),
        (
            counts.describe(after, number)?,
            counts.restore(after, number, &words)?,
        ),
    ])
}

/// Whether a number has the answers that it had.
fn same(counts: &mut Counts, stores: [&[u8]; 2], number: usize) -> Result<bool, String> {
    let [old, new] = answers(counts, stores, number)?;
    Ok(old == new)
}

/// Marks a dump; answers the bytes after it. The check and each of these numbers have the answers that they had. Marking again changes
/// nothing.
pub fn mark(
    counts: &mut Counts,
    store: &[u8],
    number: usize,
    asked: &[usize],
) -> Result<Vec<u8>, String> {
    let marked = counts.mark(store, number)?;
    let after = marked.clone().unwrap_or(store.to_vec());
    if counts.mark(&after, number)? != marked {
        counts.wrong("marking again changes the store", store, number)?;
    }
    if counts.check(store)? != counts.check(&after)? {
        counts.wrong("marking changes the check", store, number)?;
    }
    for &other in asked {
        if !same(counts, [store, &after], other)? {
            counts.wrong("marking changes an answer", store, other)?;
        }
    }
    Ok(after)
}

/// A number that a collection freed is Missing, and may be used again.
fn freed(counts: &mut Counts, before: &[u8], after: &[u8], number: usize) -> Result<(), String> {
    let [_, (described, (restored, _))] = answers(counts, [before, after], number)?;
    if [described[0], restored[0]] != [24; 2] {
        counts.wrong("a number that was freed is not missing", before, number)?;
    }
    let more = whole(number as u16, &[1, 2, 3]);
    let [old, new] = [before, after].map(|store| [store, &more[..]].concat());
    let (old, count) = (counts.check(&old)?, counts.check(after)?[2]);
    if old != [22, 0, 0] || counts.check(&new)? != [0, 0, count + 1] {
        counts.wrong("a number that was freed is not used again", before, number)?;
    }
    let restored = counts.restore(&new, number, &[0; 4])?.1;
    if restored != [0x5304_0901, 0x0203_0000, 0, 0] {
        counts.wrong("a number used again is not restored", before, number)?;
    }
    Ok(())
}

/// Collects a store. Each of these numbers that stays has the answers that it had, each that is freed is missing. Collecting again
/// changes nothing.
pub fn collect(counts: &mut Counts, store: &[u8], asked: &[usize]) -> Result<(), String> {
    let Ok(after) = counts.collect(store)? else {
        return Ok(());
    };
    if counts.collect(&after)?.as_ref() != Ok(&after) {
        counts.wrong("collecting again changes the store", store, 0)?;
    }
    for &number in asked {
        let fate = model::fate(store, number);
        counts.count_fate(fate);
        if fate == Fate::Freed {
            freed(counts, store, &after, number)?;
        } else if !same(counts, [store, &after], number)? {
            counts.wrong("collecting changes an answer", store, number)?;
        }
    }
    Ok(())
}
