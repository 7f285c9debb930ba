//! Stores with what they must answer, made by hand. Ours and the model are both held to it.
use crate::compare::{Changed, Counts};
use crate::layout::SYSEX8;
use crate::port;
use crate::records::{data, delta, gone, pair, record, whole};

/// What restoring must come to: a payload, of group 3 and stream id 9, or a refusal.
enum Wanted {
    Payload(Vec<u8>),
    Refused(usize),
}

use Wanted::{Payload, Refused};

/// A name, a store, the number asked for, the words lent and what must come out.
type Sample = (&'static str, Vec<u8>, usize, usize, Wanted);

/// A chain: dump 0 is whole, and each further one puts its own number before the payload of the one before it.
fn chain(deltas: u16) -> Vec<u8> {
    let links = (1..=deltas).flat_map(chain_link);
    whole(0, &[0]).into_iter().chain(links).collect()
}

/// A delta of that chain.
fn chain_link(number: u16) -> Vec<u8> {
    delta(number, number - 1, &[(0, 0, &[number as u8])])
}

/// A ring of so many deltas, from 0.
fn ring(count: u16) -> Vec<u8> {
    let link = |number| delta(number, (number + 1) % count, &[]);
    (0..count).flat_map(link).collect()
}

/// So many whole dumps.
fn many(count: u16) -> Vec<u8> {
    (0..count).flat_map(|number| whole(number, &[])).collect()
}

/// Stores that are restored.
fn restored() -> Vec<Sample> {
    let (base, first) = (whole(1, &[1, 2, 3]), delta(2, 1, &[(0, 1, &[8, 9])]));
    let second = delta(3, 2, &[(1, 2, &[]), (4, 4, &[7])]);
    let trap = [
        whole(1, &[1; 13]),
        delta(2, 1, &[(0, 0, &[2; 5]), (8, 13, &[])]),
    ]
    .concat();
    vec![
        ("a whole dump", base.clone(), 1, 5, Payload(vec![1, 2, 3])),
        (
            "a whole dump without data",
            whole(0, &[]),
            0,
            4,
            Payload(vec![]),
        ),
        (
            "a delta on a delta",
            [&base[..], &first, &second].concat(),
            3,
            4,
            Payload(vec![8, 2, 3, 7]),
        ),
        (
            "a base behind its delta",
            [&second[..], &first, &base].concat(),
            3,
            9,
            Payload(vec![8, 2, 3, 7]),
        ),
        (
            "a delta without edits",
            [base, delta(2, 1, &[])].concat(),
            2,
            4,
            Payload(vec![1, 2, 3]),
        ),
        ("256 dumps", many(256), 255, 4, Payload(vec![])),
        (
            "the trap",
            trap,
            2,
            4,
            Payload([&[2; 5][..], &[1; 8]].concat()),
        ),
        (
            "a chain of 255 deltas",
            chain(255),
            255,
            80,
            Payload((0..=255).rev().collect()),
        ),
        (
            "beside a ring",
            [ring(3), whole(9, &[5])].concat(),
            9,
            4,
            Payload(vec![5]),
        ),
    ]
}

/// Stores that are refused as rings, or for a number that is not held.
fn on_the_walk() -> Vec<Sample> {
    let into = [delta(9, 0, &[]), ring(2)].concat();
    let missing = [delta(1, 2, &[]), delta(2, 3, &[]), whole(4, &[])].concat();
    vec![
        ("a ring of one", ring(1), 0, 4, Refused(25)),
        ("a ring of two", ring(2), 1, 4, Refused(25)),
        ("a ring of three", ring(3), 2, 4, Refused(25)),
        (
            "a walk into a ring that does not hold its start",
            into,
            9,
            4,
            Refused(25),
        ),
        ("a ring of 256", ring(256), 77, 4, Refused(25)),
        ("missing at the start", missing.clone(), 3, 4, Refused(24)),
        ("missing in the middle", missing, 1, 4, Refused(24)),
        (
            "missing, above two bytes",
            whole(0, &[]),
            65_536,
            4,
            Refused(24),
        ),
    ]
}

/// Stores whose format is at fault, each in one way.
fn format() -> Vec<Sample> {
    let good = whole(1, &[5]);
    let with = |bytes: &[u8]| [&good[..], bytes].concat();
    let sample = |name, store| (name, store, 1, 4, Refused(21));
    vec![
        sample("an unknown kind", with(&record(0x04, &[0; 4]))),
        sample("kind 00", with(&record(0x00, &[0; 4]))),
        sample("kind 10", with(&record(0x10, &[0; 4]))),
        sample("kind 13", with(&record(0x13, &[0; 4]))),
        sample("kind 80", with(&record(0x80, &[]))),
        sample("kind 8E", with(&record(0x8E, &[0; 14]))),
        sample("a short whole dump", with(&[0x01, 0, 2, 0])),
        sample("a short delta", with(&[0x02, 0, 2, 0])),
        sample("a short edit", with(&[0x02, 0, 2, 0, 1, 0x03, 0, 0, 0])),
        sample("short data", with(&[0x82, 0])),
        sample("an edit first", pair(0x03, 0, 0)),
        sample("an edit behind a whole dump", with(&pair(0x03, 0, 0))),
        sample("data first", data(&[1])),
        sample(
            "data behind a delta",
            with(&[pair(0x02, 2, 1), data(&[1])].concat()),
        ),
        sample("a group of 16", with(&record(0x01, &[0, 2, 16, 0]))),
        sample(
            "edits out of order",
            with(&delta(2, 1, &[(0, 1, &[]), (0, 0, &[])])),
        ),
    ]
}

/// Stores that are refused for their numbers, or for ranges and room; a base's refusal before its delta's.
fn others() -> Vec<Sample> {
    let full = [many(257), whole(0, &[])].concat();
    let range = [
        whole(1, &[1; 14]),
        delta(2, 1, &[(0, 15, &[])]),
        delta(3, 2, &[(0, 0, &[2; 99])]),
    ]
    .concat();
    let room = [
        whole(1, &[1]),
        delta(2, 1, &[(1, 1, &[2; 13])]),
        delta(3, 2, &[(0, 15, &[])]),
    ]
    .concat();
    let reversed = [whole(1, &[1; 14]), delta(2, 1, &[(2, 1, &[])])].concat();
    vec![
        ("a 257th dump", many(257), 0, 4, Refused(23)),
        ("twice beside full", full, 0, 4, Refused(22)),
        (
            "twice, off the walk",
            [many(2), ring(1)].concat(),
            1,
            4,
            Refused(22),
        ),
        ("long before all", vec![0], 0, 16_385, Refused(1)),
        (
            "a base's room before its delta's range",
            range.clone(),
            3,
            7,
            Refused(14),
        ),
        (
            "a base's range before its delta's room",
            range,
            3,
            8,
            Refused(13),
        ),
        (
            "a delta's room before the next one's range",
            room.clone(),
            3,
            4,
            Refused(14),
        ),
        ("a delta's range", room, 3, 8, Refused(13)),
        ("a reversed edit", reversed, 2, 8, Refused(13)),
    ]
}

/// A name, a store, the numbers to mark before it is collected, and the bytes in use then, or the refusal of the first call that refuses.
type Reclaimed = (&'static str, Vec<u8>, Vec<usize>, Changed);

/// Chains that are collected: dump 1 is whole, 2 is a delta of it, 3 one of 2.
fn collected_chains() -> Vec<Reclaimed> {
    let (one, two, three) = (
        whole(1, &[1; 14]),
        delta(2, 1, &[(0, 1, &[8, 9]), (3, 3, &[])]),
        delta(3, 2, &[(1, 2, &[0x01, 0, 9, 0, 0])]),
    );
    let store = [&one[..], &two, &three].concat();
    let [gone_one, gone_two, gone_three] = [&one, &two, &three].map(|dump| gone(dump.clone()));
    let backwards = [&three[..], &two, &one].concat();
    let gone_links = (1..=254).flat_map(|number| gone(chain_link(number)));
    let gone_chain = gone(whole(0, &[0])).into_iter().chain(gone_links);
    let last_wanted: Vec<u8> = gone_chain.chain(chain_link(255)).collect();
    vec![
        ("nothing at all", vec![], vec![], Ok(vec![])),
        ("nothing unwanted", store.clone(), vec![], Ok(store.clone())),
        ("all unwanted", store.clone(), vec![3, 1, 2], Ok(vec![])),
        (
            "unwanted bases",
            store.clone(),
            vec![1, 2],
            Ok([&gone_one[..], &gone_two, &three].concat()),
        ),
        (
            "unwanted bases behind their deltas",
            backwards.clone(),
            vec![1, 2],
            Ok([&three[..], &gone_two, &gone_one].concat()),
        ),
        (
            "the middle unwanted",
            store.clone(),
            vec![2, 2],
            Ok([&one[..], &gone_two, &three].concat()),
        ),
        (
            "the last unwanted",
            backwards.clone(),
            vec![3],
            Ok([&two[..], &one].concat()),
        ),
        (
            "the last two unwanted",
            backwards,
            vec![2, 3],
            Ok(one.clone()),
        ),
        (
            "unwanted before",
            [&gone_three[..], &gone_one, &two].concat(),
            vec![],
            Ok([&gone_one[..], &two].concat()),
        ),
        (
            "256 dumps, the last wanted",
            chain(255),
            (0..255).collect(),
            Ok(last_wanted),
        ),
        (
            "256 dumps, the last unwanted",
            chain(255),
            vec![255],
            Ok(chain(254)),
        ),
        (
            "256 dumps, the first wanted",
            chain(255),
            (1..256).collect(),
            Ok(chain(0)),
        ),
    ]
}

/// Rings and walks that end at a number not held, collected.
fn collected_walks() -> Vec<Reclaimed> {
    let (into, missing) = (
        [delta(9, 0, &[]), ring(2)].concat(),
        [delta(1, 2, &[]), delta(2, 3, &[]), whole(4, &[])].concat(),
    );
    let gone_ring = [gone(delta(0, 1, &[])), gone(delta(1, 0, &[]))].concat();
    vec![
        (
            "a ring that no wanted dump leads into",
            [ring(3), whole(9, &[5])].concat(),
            vec![0, 1, 2],
            Ok(whole(9, &[5])),
        ),
        (
            "a ring that a wanted dump leads into",
            into.clone(),
            vec![0, 1],
            Ok([delta(9, 0, &[]), gone_ring].concat()),
        ),
        (
            "a ring with one wanted dump, and an unwanted one that leads into it",
            into,
            vec![9, 0],
            Ok([gone(delta(0, 1, &[])), delta(1, 0, &[])].concat()),
        ),
        ("a ring of one", ring(1), vec![], Ok(ring(1))),
        ("a ring of one, unwanted", ring(1), vec![0], Ok(vec![])),
        (
            "a walk to a number not held",
            missing.clone(),
            vec![2, 4],
            Ok([delta(1, 2, &[]), gone(delta(2, 3, &[]))].concat()),
        ),
        (
            "an unwanted walk to a number not held",
            missing.clone(),
            vec![1, 2],
            Ok(whole(4, &[])),
        ),
        (
            "a base that is not held is marked",
            missing.clone(),
            vec![3],
            Err(24),
        ),
        (
            "a number of three bytes is marked",
            missing,
            vec![65_537],
            Err(24),
        ),
        ("no number is held", vec![], vec![0], Err(24)),
    ]
}

/// Stores that are neither marked nor collected.
fn not_collected() -> Vec<Reclaimed> {
    let format = vec![0x11, 0, 1, 16, 0];
    let twice = [whole(1, &[]), gone(delta(1, 1, &[]))].concat();
    let full = [many(256), gone(whole(256, &[]))].concat();
    vec![
        ("format, marked", format.clone(), vec![1], Err(21)),
        ("format, collected", format, vec![], Err(21)),
        ("twice, marked", twice.clone(), vec![7], Err(22)),
        ("twice, collected", twice, vec![], Err(22)),
        ("full, marked", full.clone(), vec![999], Err(23)),
        ("full, collected", full, vec![], Err(23)),
    ]
}

/// Marks numbers of a store and collects it: the bytes in use then, or the first refusal.
fn reclaim(counts: &mut Counts, mut store: Vec<u8>, marks: &[usize]) -> Result<Changed, String> {
    for &number in marks {
        match counts.mark(&store, number)? {
            Err(refusal) => return Ok(Err(refusal)),
            Ok(bytes) => store = bytes,
        }
    }
    counts.collect(&store)
}

/// Runs all samples that are marked and collected; answers how many there are.
fn run_reclaimed(counts: &mut Counts) -> Result<usize, String> {
    let lists = [collected_chains(), collected_walks(), not_collected()];
    let samples: Vec<Reclaimed> = lists.into_iter().flatten().collect();
    for (name, store, marks, wanted) in &samples {
        if reclaim(counts, store.clone(), marks)? != *wanted {
            return Err(format!(
                "{name}: not what was worked out by hand, {wanted:X?}"
            ));
        }
    }
    Ok(samples.len())
}

/// What looking must come to: each byte of the payload, and then Range; or the refusal, if it is not for the words lent.
fn look(counts: &mut Counts, store: &[u8], number: usize, wanted: &Wanted) -> Result<bool, String> {
    counts.look(store, number, [0, 1, usize::MAX])?;
    let looked = |position| port::look(store, number, position);
    Ok(match wanted {
        Refused(1 | 14) => true,
        Refused(number) => looked(0) == [*number, 0, 0],
        Payload(payload) => {
            let bytes = (0..payload.len()).map(|position| [0, 0, payload[position].into()]);
            bytes
                .chain([[13, 0, 0]])
                .eq((0..=payload.len()).map(looked))
        }
    })
}

/// Runs all samples; answers how many there are.
pub fn run(counts: &mut Counts) -> Result<usize, String> {
    let lists = [restored(), on_the_walk(), format(), others()];
    let samples: Vec<Sample> = lists.into_iter().flatten().collect();
    for (name, store, number, lent, wanted) in &samples {
        if !look(counts, store, *number, wanted)? {
            return Err(format!(
                "{name}: looked at, not what was worked out by hand"
            ));
        }
        let before = vec![0x0102_0304; *lent];
        let wanted = match wanted {
            Refused(number) => ([*number, 0, 0], before.clone()),
            Payload(payload) => {
                let mut words = SYSEX8.fewest_form(3, 9, payload);
                let length = words.len();
                words.resize(*lent, 0);
                ([0, 0, length], words)
            }
        };
        counts.check(store)?;
        counts.describe(store, *number)?;
        if counts.restore(store, *number, &before)? != wanted {
            return Err(format!(
                "{name}: not what was worked out by hand, {wanted:X?}"
            ));
        }
    }
    Ok(samples.len() + run_reclaimed(counts)?)
}
