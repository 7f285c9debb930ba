//! Random stores: mostly good ones with chains, in any order, with some rings, missing bases, bad ranges, numbers used twice and
//! unwanted dumps; and damaged copies.
use crate::compare::Counts;
use crate::layout::MOST_WORDS;
use crate::port;
use crate::random::Random;
use crate::reclaimed;
use crate::records::{pair, record};

/// Payload sizes around the boundaries of packets.
const SIZES: [usize; 14] = [0, 1, 2, 5, 12, 13, 14, 15, 25, 26, 27, 28, 39, 40];

/// Bytes that are kinds, or nearly.
const KINDS: [u8; 17] = [
    0x00, 0x01, 0x02, 0x03, 0x04, 0x0F, 0x10, 0x11, 0x12, 0x13, 0x80, 0x81, 0x82, 0x8C, 0x8D, 0x8E,
    0xFF,
];

/// A dump as it is written: its number, and its payload size if all goes well.
struct Planned {
    number: u16,
    size: usize,
    bytes: Vec<u8>,
}

/// Data in records: full ones, or of any sizes.
fn data(random: &mut Random, size: usize) -> Vec<u8> {
    let (full, mut left) = (!random.once_in(3), size);
    let mut bytes = Vec::with_capacity(size + size / 13 + 1);
    while left > 0 {
        let most = left.min(13);
        let count = if full { most } else { random.between(1, most) };
        bytes.push(0x80 + count as u8);
        (0..count).for_each(|_| bytes.push(random.byte()));
        left -= count;
    }
    bytes
}

/// How many bytes of data a dump or an edit has.
fn data_size(random: &mut Random, small: bool) -> usize {
    match random.below(3000) {
        0 if !small => random.between(53_230, 53_260),
        1..=4 if !small => random.below(3000),
        5..=10 if !small => random.between(3_310, 3_345),
        11..=500 => random.below(60),
        501..=1200 => 0,
        _ => random.pick(&SIZES),
    }
}

/// A whole dump.
fn whole(random: &mut Random, number: u16, small: bool) -> Planned {
    let size = data_size(random, small);
    let [high, low] = number.to_be_bytes();
    let (group, id) = (random.below(16) as u8, random.byte());
    let head = record(0x01, &[high, low, group, id]);
    let bytes = [head, data(random, size)].concat();
    Planned {
        number,
        size,
        bytes,
    }
}

/// A delta of a base with a payload of so many bytes; seldom an edit is reversed or past it.
fn delta(random: &mut Random, number: u16, base: u16, old: usize, small: bool) -> Planned {
    let count = random.pick(&[0, 1, 1, 2, 2, 3, 5]);
    let mut ends: Vec<usize> = (0..2 * count).map(|_| random.below(old + 1)).collect();
    ends.sort_unstable();
    let bad = random.once_in(if small { 500 } else { 15 });
    let bad = bad.then(|| random.below(count.max(1)));
    let mut bytes = pair(0x02, number, base);
    let mut size = old;
    for (index, ends) in ends.chunks(2).enumerate() {
        let (mut from, mut to) = (ends[0], random.pick(ends));
        if bad == Some(index) {
            let last = index + 1 == count;
            (from, to) = match random.below(4) {
                0 if last => (from, old + random.between(1, 3)),
                1 if last => (from, 65_535),
                2 => (from.max(old) + 1, from),
                _ => (to + 1, from),
            };
        }
        let added = data_size(random, small);
        bytes.extend(pair(0x03, from.min(65_535) as u16, to.min(65_535) as u16));
        bytes.extend(data(random, added));
        size = (size + added).saturating_sub(to.saturating_sub(from));
    }
    Planned {
        number,
        size,
        bytes,
    }
}

/// How many dumps a store has.
fn dump_count(random: &mut Random) -> usize {
    match random.below(1000) {
        0..=4 => random.between(253, 259),
        5..=30 => random.between(20, 90),
        31..=45 => 0,
        _ => random.between(1, 9),
    }
}

/// The base of the next dump, one of `numbers` at `index`; none for a whole dump.
fn base(random: &mut Random, numbers: &[u16], index: usize, long: bool) -> Option<u16> {
    if index == 0 && !random.once_in(20) || random.once_in(if long { 60 } else { 4 }) {
        return None;
    }
    let base = match random.below(60) {
        0 => numbers[index],
        1 | 2 => random.pick(numbers),
        3 => random.word() as u16,
        4..=20 => numbers[random.below(index + 1).min(index.saturating_sub(1))],
        _ => numbers[index.saturating_sub(1)],
    };
    Some(base)
}

/// So many numbers, none like another: in a row, or far apart.
fn numbers(random: &mut Random, count: usize) -> Vec<u16> {
    let (first, step) = (
        random.word() as u16,
        random.pick(&[1, 1, 3, 255, 257, 4099]),
    );
    let first = random.pick(&[0, 1, 65_530, first]);
    (0..count as u16)
        .map(|index| first.wrapping_add(index.wrapping_mul(step)))
        .collect()
}

/// Some dumps are not wanted any more: none, few, many or all.
fn unwant(random: &mut Random, dumps: &mut [Planned]) {
    let wanted = random.pick(&[8, 8, 7, 6, 4, 2, 1, 0]);
    for dump in dumps {
        if random.below(8) >= wanted {
            dump.bytes[0] += 0x10;
        }
    }
}

/// The dumps in another order.
fn shuffle(random: &mut Random, dumps: &mut [Planned]) {
    match random.below(4) {
        0 => {}
        1 => dumps.reverse(),
        _ => (1..dumps.len()).for_each(|index| dumps.swap(index, random.below(index + 1))),
    }
}

/// A store and its numbers.
fn store(random: &mut Random) -> (Vec<u8>, Vec<u16>) {
    let count = dump_count(random);
    let (small, long) = (count > 20, count > 20 && !random.once_in(3));
    let numbers = numbers(random, count);
    let mut dumps: Vec<Planned> = Vec::new();
    for index in 0..count {
        let number = numbers[index];
        let planned = match base(random, &numbers, index, long) {
            None => whole(random, number, small),
            Some(base) => {
                let size = dumps
                    .iter()
                    .find(|dump| dump.number == base)
                    .map_or(9, |dump| dump.size);
                delta(random, number, base, size, small)
            }
        };
        dumps.push(planned);
    }
    if count > 1 && random.once_in(25) {
        let copied = numbers[random.below(count)].to_be_bytes();
        dumps[random.below(count)].bytes[1..3].copy_from_slice(&copied);
    }
    unwant(random, &mut dumps);
    shuffle(random, &mut dumps);
    (
        dumps.into_iter().flat_map(|dump| dump.bytes).collect(),
        numbers,
    )
}

/// A damaged copy: bytes changed, taken out, put in, or cut off.
fn damaged(random: &mut Random, mut store: Vec<u8>) -> Vec<u8> {
    for _ in 0..random.between(1, 3) {
        let at = random.below(store.len() + 1);
        match random.below(8) {
            0 => store.truncate(at),
            1 => store.insert(at, random.pick(&KINDS)),
            2 => store.insert(at, random.byte()),
            3 if at < store.len() => _ = store.remove(at),
            4 if at < store.len() => store[at] ^= 1 << random.below(8),
            5 if at < store.len() => store[at] = random.byte(),
            6 if at < store.len() => store[at] = random.pick(&KINDS),
            _ if at < store.len() => store[at] = store[at].wrapping_add(random.pick(&[1, 255])),
            _ => store.push(random.pick(&KINDS)),
        }
    }
    store
}

/// How many words are lent, where so many are enough.
fn lent(random: &mut Random, enough: usize) -> usize {
    match random.below(200) {
        0 => MOST_WORDS + 1,
        1..=3 => MOST_WORDS,
        4..=6 => random.between(1_023, 1_025),
        7..=60 => enough.min(MOST_WORDS),
        61..=120 => enough.min(MOST_WORDS) - 1,
        121..=150 => random.below(enough.min(MOST_WORDS) + 1),
        _ => (enough + random.below(12)).min(MOST_WORDS),
    }
}

/// Words that stand in what is lent.
fn words(random: &mut Random, count: usize) -> Vec<u32> {
    (0..count).map(|_| random.word()).collect()
}

/// A number to ask for: mostly one of the store's.
fn asked(random: &mut Random, numbers: &[u16]) -> usize {
    match random.below(30) {
        0 => usize::MAX - random.below(3),
        1 => 65_536 + random.below(65_536),
        2 => random.word() as u16 as usize,
        _ if numbers.is_empty() => 0,
        _ => random.pick(numbers).into(),
    }
}

/// Marks none to three numbers of a store, held or not, and then collects it. Compared before and after are three answers, then those
/// of all numbers of a small store or some of a large one, and of one that may not be held.
fn reclaim(
    random: &mut Random,
    counts: &mut Counts,
    mut store: Vec<u8>,
    numbers: &[u16],
) -> Result<(), String> {
    for _ in 0..random.pick(&[0, 0, 1, 1, 2, 3]) {
        let number = asked(random, numbers);
        let watched = [number, asked(random, numbers), asked(random, numbers)];
        store = reclaimed::mark(counts, &store, number, &watched)?;
    }
    let mut watched = match numbers.len() {
        0..=9 => numbers.to_vec(),
        _ => (0..9).map(|_| random.pick(numbers)).collect(),
    };
    watched.push(random.word() as u16);
    let watched: Vec<usize> = watched.into_iter().map(usize::from).collect();
    reclaimed::collect(counts, &store, &watched)
}

/// Looks at some bytes of a dump: anywhere, around the end, and far past it.
fn look(
    random: &mut Random,
    counts: &mut Counts,
    store: &[u8],
    number: usize,
) -> Result<(), String> {
    let size = port::describe(store, number)[6];
    let any = [(); 2].map(|()| random.below(size + 1));
    let ends = [size.saturating_sub(1), size, usize::MAX];
    counts.look(store, number, any.into_iter().chain(ends))
}

/// Looks at all dumps of a small store or some of a large one, and at one that may not be held; once in ten at every byte of a small
/// dump.
fn look_around(
    random: &mut Random,
    counts: &mut Counts,
    store: &[u8],
    numbers: &[u16],
) -> Result<(), String> {
    let mut watched: Vec<usize> = match numbers.len() {
        0..=9 => numbers.iter().copied().map(usize::from).collect(),
        _ => (0..3).map(|_| random.pick(numbers).into()).collect(),
    };
    watched.push(asked(random, numbers));
    for number in watched {
        look(random, counts, store, number)?;
        if random.once_in(10) && port::describe(store, number)[6] < 100 {
            counts.look_at_all(store, number)?;
        }
    }
    Ok(())
}

/// Compares one random store: the check, then two to four dumps, each described and restored, then looks, then marking and
/// collecting. Looks have numbers of their own, so that all else is the same with and without them.
fn one(random: &mut Random, looking: &mut Random, counts: &mut Counts) -> Result<(), String> {
    let (mut store, numbers) = store(random);
    if random.once_in(4) {
        store = damaged(random, store);
    }
    counts.check(&store)?;
    for _ in 0..random.between(2, 4) {
        let number = asked(random, &numbers);
        let dump = counts.describe(&store, number)?;
        let count = lent(random, dump[7].max(4));
        counts.restore(&store, number, &words(random, count))?;
    }
    look_around(looking, counts, &store, &numbers)?;
    reclaim(random, counts, store, &numbers)
}

/// A good store with a dump of it marked.
fn marked(counts: &mut Counts, store: &[u8], number: usize) -> Result<Vec<u8>, String> {
    let marked = counts.mark(store, number)?;
    marked.map_err(|refusal| format!("marking {number} of a long chain is refused with {refusal}"))
}

/// A store with a long chain of deltas of ten edits each over some 53,000 bytes; its last dump, in words enough and one fewer, and
/// looked at; and collected, with any dumps wanted, and then with none above one of them.
fn long_chain(
    random: &mut Random,
    looking: &mut Random,
    counts: &mut Counts,
) -> Result<(), String> {
    let size = random.between(52_900, 53_000);
    let head = record(0x01, &[0, 0, random.below(16) as u8, random.byte()]);
    let mut store = [head, data(random, size)].concat();
    for number in 1..=255 {
        store.extend(pair(0x02, number, number - 1));
        for edit in 0..10 {
            let from = (5000 * edit + random.below(4000)) as u16;
            store.extend(pair(0x03, from, from + 8));
            let count = random.pick(&[7, 8, 9]);
            store.extend(data(random, count));
        }
    }
    counts.check(&store)?;
    let start = words(random, MOST_WORDS);
    counts.both(&store, 255, &start)?;
    let places = (0..50).map(|_| looking.below(53_000));
    counts.look(&store, 255, places)?;
    let last = random.between(100, 254);
    for number in 0..last {
        if random.once_in(2) {
            store = marked(counts, &store, number)?;
        }
    }
    reclaimed::collect(counts, &store, &[last, 255])?;
    for number in last + 1..=255 {
        store = marked(counts, &store, number)?;
    }
    reclaimed::collect(counts, &store, &[last, 255])
}

/// So many random stores. The second generator is that of looks.
pub fn run(randoms: [Random; 2], stores: u64, counts: &mut Counts) -> Result<(), String> {
    let [mut random, mut looking] = randoms;
    for index in 0..stores {
        one(&mut random, &mut looking, counts)?;
        if index % 10_000 == 0 {
            long_chain(&mut random, &mut looking, counts)?;
        }
    }
    Ok(())
}
