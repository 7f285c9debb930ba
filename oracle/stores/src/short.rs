//! All short stores of some kinds.
use crate::compare::Counts;
use crate::layout::SYSEX8;
use crate::reclaimed;
use crate::records::{data, delta, gone, pair, record, whole};

/// The words that are lent where nothing else is said.
const WORDS: [u32; 9] = [0x0102_0304; 9];

/// Every row of the items, of up to `most`, is given to `visit`.
fn rows<T: Clone>(
    items: &[T],
    most: usize,
    row: &mut Vec<T>,
    visit: &mut impl FnMut(&[T]) -> Result<(), String>,
) -> Result<(), String> {
    visit(row)?;
    if most > 0 {
        for item in items {
            row.push(item.clone());
            rows(items, most - 1, row, visit)?;
            row.pop();
        }
    }
    Ok(())
}

/// Every row of up to four records out of seventeen, whole and with the last cut off at every byte.
fn records(counts: &mut Counts) -> Result<(), String> {
    let kinds = [
        whole(1, &[]),
        record(0x01, &[0, 2, 15, 0xFF]),
        record(0x01, &[0, 3, 16, 0]),
        gone(whole(1, &[])),
        pair(0x02, 1, 2),
        pair(0x02, 2, 1),
        pair(0x12, 2, 1),
        pair(0x03, 0, 0),
        pair(0x03, 1, 2),
        pair(0x03, 2, 1),
        data(&[7]),
        data(&[8; 13]),
        record(0x00, &[0; 4]),
        record(0x10, &[0; 4]),
        record(0x13, &[0; 4]),
        record(0x80, &[0; 4]),
        record(0x8E, &[0; 14]),
    ];
    rows(&kinds, 4, &mut Vec::new(), &mut |row| {
        let store = row.concat();
        let last = row.last().map_or(0, Vec::len);
        for length in store.len() - last..store.len() {
            counts.check(&store[..length])?;
        }
        counts.check(&store)?;
        counts.describe(&store, 1)?;
        counts.restore(&store, 1, &WORDS)?;
        counts.look(&store, 1, [0, 1])?;
        _ = counts.mark(&store, 1)?;
        counts.collect(&store).map(drop)
    })
}

/// Every way in which so many dumps rest on each other: each is whole, or a delta of any of them or of one that is not held. Each
/// delta puts its own number in, so that the payload shows the walk.
fn ways(count: u16) -> impl Iterator<Item = Vec<Vec<u8>>> {
    let ways = usize::from(count) + 2;
    let dump = move |code: usize, number: u16| match (code / ways.pow(number.into()) % ways) as u16
    {
        base if base <= count => delta(number, base, &[(1, 1, &[number as u8])]),
        _ => whole(number, &[0xD0, 0xD1]),
    };
    (0..ways.pow(count.into()))
        .map(move |code| (0..count).map(|number| dump(code, number)).collect())
}

/// Every way in which up to five dumps rest on each other.
fn walks(counts: &mut Counts) -> Result<(), String> {
    for count in 1..=5 {
        for dumps in ways(count) {
            let store = dumps.concat();
            counts.check(&store)?;
            for number in 0..=count {
                counts.both(&store, number.into(), &WORDS[..4])?;
                counts.look_at_all(&store, number.into())?;
            }
        }
    }
    Ok(())
}

/// Every way in which up to five dumps rest on each other, with any of them wanted: collected, and of up to four dumps each number
/// before and after; of up to three each number marked.
fn collections(counts: &mut Counts) -> Result<(), String> {
    for count in 1..=5u16 {
        for (dumps, unwanted) in
            ways(count).flat_map(|dumps| (0..1 << count).map(move |set| (dumps.clone(), set)))
        {
            let dumps = dumps.into_iter().enumerate();
            let dump = |(index, dump)| {
                if unwanted >> index & 1 == 1 {
                    gone(dump)
                } else {
                    dump
                }
            };
            let store: Vec<u8> = dumps.flat_map(dump).collect();
            let numbers: Vec<usize> = (0..=count.into()).filter(|_| count < 5).collect();
            reclaimed::collect(counts, &store, &numbers)?;
            for &number in numbers.iter().filter(|_| count < 4) {
                reclaimed::mark(counts, &store, number, &numbers)?;
            }
        }
    }
    Ok(())
}

/// Every list of up to two edits of payloads of 0 to 3 bytes, with numbers of 0 to 4, each by 0 or 2 bytes.
fn edits(counts: &mut Counts) -> Result<(), String> {
    type Edit = (u16, u16, &'static [u8]);
    let mut all: Vec<Edit> = Vec::new();
    for from in 0..=4 {
        for to in 0..=4 {
            all.extend([(from, to, &[][..]), (from, to, &[0xE0, 0xE1])]);
        }
    }
    for size in 0..=3 {
        let base = whole(1, &[1, 2, 3][..size]);
        rows(&all, 2, &mut Vec::new(), &mut |list| {
            let store = [&delta(2, 1, list)[..], &base].concat();
            counts.check(&store)?;
            counts.both(&store, 2, &WORDS)?;
            counts.look_at_all(&store, 2)
        })?;
    }
    Ok(())
}

/// Every size of 0 to 28 bytes made from every size of 0 to 28, and emptied again, in 0 to 13 words.
fn sizes(counts: &mut Counts) -> Result<(), String> {
    let bytes: Vec<u8> = (0..28).collect();
    for old in 0..=28u16 {
        for new in 0..=28u16 {
            let replaced = delta(2, 1, &[(0, old, &bytes[..new.into()])]);
            let emptied = delta(3, 2, &[(0, new, &[])]);
            let store = [whole(1, &bytes[..old.into()]), replaced, emptied].concat();
            for lent in 0..=13 {
                let words = vec![0x0102_0304; lent];
                counts.restore(&store, 2, &words)?;
                counts.restore(&store, 3, &words)?;
            }
            counts.look_at_all(&store, 2)?;
            counts.look_at_all(&store, 3)?;
        }
    }
    Ok(())
}

/// Sizes around 3,328 bytes, which 1,024 words hold, and around 53,248, which 16,384 hold; made of each other, and emptied again, in
/// words around these.
fn boundaries(counts: &mut Counts) -> Result<(), String> {
    for (most, step) in [(3_328u16, 3), (53_248, 13)] {
        let bytes: Vec<u8> = (0..most + 40).map(|byte| (byte % 251) as u8).collect();
        for old in (most - 20..=most + 20).step_by(step) {
            for new in [0, 13, most - 1, most, most + 1, most + 14] {
                let replaced = delta(2, 1, &[(0, old, &bytes[..new.into()])]);
                let emptied = delta(3, 2, &[(0, new, &[])]);
                let store = [whole(1, &bytes[..old.into()]), replaced, emptied].concat();
                let full = SYSEX8.words_for(most.into());
                for lent in [full - 4, full - 1, full, full + 1, full + 4] {
                    let words = vec![0x0102_0304; lent];
                    for number in 1..=3 {
                        counts.restore(&store, number, &words)?;
                    }
                }
                counts.describe(&store, 3)?;
                for number in 1..=3 {
                    let (old, new) = (usize::from(old), usize::from(new));
                    let ends = [0, 1, old, new, usize::MAX];
                    counts.look(&store, number, ends.into_iter().flat_map(near))?;
                }
            }
        }
    }
    Ok(())
}

/// The positions around one.
fn near(position: usize) -> [usize; 3] {
    let [before, after] = [position.saturating_sub(1), position.saturating_add(1)];
    [before, position, after]
}

/// All of them.
pub fn run(counts: &mut Counts) -> Result<(), String> {
    records(counts)?;
    walks(counts)?;
    collections(counts)?;
    edits(counts)?;
    sizes(counts)?;
    boundaries(counts)
}
