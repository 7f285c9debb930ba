//! Stores of dumps: each kind of store, each refusal and their order, through the bindings.

mod common;
mod stores;

use common::Numbers;
use latchbeacon::{move_edit, sysex8, Basis, Description, Error, Message, Refusal, Store};
use stores::{data, delta, pair, record, whole};

const REST: u32 = 0xEEEE_EEEE;

// ---- stores

// A chain: dump 0 is whole, and each of `deltas` more rests on the one before it, which it prepends its own number to.
fn chain(deltas: u16) -> Vec<u8> {
    let links = (1..=deltas).flat_map(|number| delta(number, number - 1, &[(0, 0, &[number as u8])]));
    whole(0, &[0]).into_iter().chain(links).collect()
}

// ---- answers

// Restores a dump in so many words; answers the number of the refusal. Nothing is changed by it.
fn refused(store: &[u8], number: usize, lent: usize) -> u8 {
    let mut words = vec![REST; lent];
    let error = Store::new(store).restore(number, &mut words).unwrap_err();
    assert_eq!(error.place, 0);
    assert!(words.iter().all(|word| *word == REST));
    error.number()
}

// Restores a dump in just the words that its description says, and in one more; answers its payload. One word fewer is refused.
fn restored(store: &[u8], number: usize) -> Vec<u8> {
    let dump = Store::new(store).describe(number).unwrap();
    assert_eq!(refused(store, number, dump.words - 1), 14);
    let mut payloads = [dump.words, dump.words + 1].map(|lent| {
        let mut words = vec![REST; lent];
        let length = Store::new(store).restore(number, &mut words).unwrap();
        assert_eq!(length, sysex8::words_needed(dump.size));
        assert!(words[length..].iter().all(|word| *word == 0));
        let message = Message::check(&mut words, length).unwrap();
        assert_eq!((message.group(), message.stream_id(), message.size()), (dump.group, dump.stream_id, dump.size));
        message.payload().collect::<Vec<u8>>()
    });
    assert_eq!(payloads[0], payloads[1]);
    std::mem::take(&mut payloads[0])
}

// The number of the refusal that all three calls give a store.
fn refused_by_all(store: &[u8]) -> u8 {
    let error = Store::new(store).check().unwrap_err();
    assert_eq!(Store::new(store).describe(1), Err(error));
    assert_eq!((refused(store, 1, 8), error.place), (error.number(), 0));
    error.number()
}

// ---- what is restored

// A store without bytes has no dumps.
#[test]
fn the_empty_store() {
    let store = Store::new(&[]);
    assert_eq!((store.check(), store.bytes()), (Ok(0), &[][..]));
    assert_eq!(store.describe(0).unwrap_err().refusal, Refusal::Missing);
    assert_eq!(refused(&[], 0, 4), 24);
}

// Whole dumps: without data, with data in records of any size, of any number.
#[test]
fn whole_dumps() {
    assert_eq!(restored(&whole(0, &[]), 0), []);
    assert_eq!(restored(&whole(65_535, &[7; 40]), 65_535), [7; 40]);
    let store = [&record(0x01, &[0x12, 0x34, 15, 0xFE])[..], &[0x81, 1, 0x83, 2, 3, 4, 0x81, 5]].concat();
    assert_eq!(restored(&store, 0x1234), [1, 2, 3, 4, 5]);
    let wanted = Description { basis: Basis::Whole, group: 15, stream_id: 0xFE, size: 5, words: 4, steps: 0 };
    assert_eq!(Store::new(&store).describe(0x1234), Ok(wanted));
    let mut words = [REST; 6];
    assert_eq!(Store::new(&store).restore(0x1234, &mut words), Ok(4));
    assert_eq!(words, [0x5F06_FE01, 0x0203_0405, 0, 0, 0, 0]);
}

// A delta on a delta, its base in front of it or behind it; an edit's data in several records; touching edits; no edits.
#[test]
fn deltas() {
    let (base, first) = (whole(1, &[1, 2, 3, 4, 5]), delta(2, 1, &[(0, 1, &[9; 20]), (1, 2, &[]), (5, 5, &[6])]));
    let (second, bare) = (delta(3, 2, &[(19, 20, &[7, 8]), (20, 20, &[10])]), delta(4, 3, &[]));
    let payload = [&[9; 19][..], &[7, 8, 10, 3, 4, 5, 6]].concat();
    let orders = [[&base, &first, &second, &bare], [&bare, &second, &first, &base], [&second, &base, &bare, &first]];
    for order in orders {
        let store = order.into_iter().flatten().copied().collect::<Vec<u8>>();
        assert_eq!(Store::new(&store).check(), Ok(4));
        assert_eq!(restored(&store, 1), [1, 2, 3, 4, 5]);
        assert_eq!(restored(&store, 2), [&[9; 20][..], &[3, 4, 5, 6]].concat());
        assert_eq!(restored(&store, 3), payload);
        assert_eq!(restored(&store, 4), payload);
        let dump = Store::new(&store).describe(4).unwrap();
        assert_eq!((dump.basis, dump.steps, dump.size, dump.words), (Basis::Delta { base: 3 }, 3, 26, 8));
    }
}

// 13 bytes, five put in and then five taken out: Room is judged on the result, so that four words are enough.
#[test]
fn room_is_not_judged_between_edits() {
    let store = [whole(1, &[1; 13]), delta(2, 1, &[(0, 0, &[2; 5]), (8, 13, &[])])].concat();
    assert_eq!(restored(&store, 2), [&[2; 5][..], &[1; 8]].concat());
    assert_eq!(Store::new(&store).describe(2).unwrap().words, 4);
}

// A chain of 255 deltas; and the words that its largest dump takes, though the last is empty.
#[test]
fn a_chain_of_255_deltas() {
    let store = chain(255);
    assert_eq!(Store::new(&store).check(), Ok(256));
    assert_eq!(restored(&store, 255), (0..=255).rev().collect::<Vec<u8>>());
    assert_eq!(Store::new(&store).describe(255).unwrap().steps, 255);
    let store = [chain(254), delta(255, 254, &[(0, 255, &[])])].concat();
    assert_eq!(restored(&store, 255), []);
    let dump = Store::new(&store).describe(255).unwrap();
    assert_eq!((dump.size, dump.words), (0, sysex8::words_needed(255)));
}

// The largest dump, and one byte more: described, but not to be restored.
#[test]
fn the_largest_dump() {
    let bytes: Vec<u8> = (0..53_249u32).map(|index| (index % 251) as u8).collect();
    let store = [whole(1, &bytes[..53_248]), whole(2, &bytes), delta(3, 2, &[(0, 53_249, &[])])].concat();
    let mut words = vec![REST; 16_384];
    assert_eq!(Store::new(&store).restore(1, &mut words), Ok(16_384));
    assert!(Message::check(&mut words, 16_384).unwrap().payload().eq(bytes[..53_248].iter().copied()));
    for number in [2, 3] {
        assert_eq!(Store::new(&store).describe(number).unwrap().words, 16_388);
        assert_eq!(refused(&store, number, 16_384), 14);
    }
}

// Around 1,024 words lent, which hold 3,328 bytes: up to there a smaller scratch is used.
#[test]
fn around_a_thousand_words() {
    let bytes: Vec<u8> = (0..3_342u32).map(|index| (index % 251) as u8).collect();
    for size in [3_315, 3_316, 3_327, 3_328, 3_329, 3_341, 3_342] {
        let store = [whole(1, &bytes[..size]), delta(2, 1, &[(0, 1, &[]), (1, 1, &[7])])].concat();
        assert_eq!(restored(&store, 1), bytes[..size]);
        assert_eq!(restored(&store, 2), [&[7], &bytes[1..size]].concat());
        for lent in [1_020, 1_023, 1_024, 1_025, 1_028, 1_032] {
            let outcome = Store::new(&store).restore(2, &mut vec![REST; lent]).map_err(|error| error.number());
            let needed = sysex8::words_needed(size);
            assert_eq!(outcome, if needed <= lent { Ok(needed) } else { Err(14) });
        }
    }
}

// A delta is what the port's own calls make of its base, in whatever packets that is: all edits at once, and one after the other from
// the last to the first.
#[test]
fn a_delta_is_its_edits_spliced() {
    let mut numbers = Numbers::of_seed(40);
    for _ in 0..500 {
        let (mut packets, bytes) = numbers.message(6);
        let length = packets.len();
        let edits = numbers.edits(6, bytes.len());
        packets.resize(128, 0);
        let mut message = Message::check(&mut packets, length).unwrap();
        message.set_group(3).unwrap();
        message.set_stream_id(9).unwrap();
        let listed: Vec<(u16, u16, &[u8])> =
            edits.iter().map(|(edit, bytes)| (edit.from as u16, edit.to as u16, &bytes[..])).collect();
        let store = [whole(1, &bytes), delta(2, 1, &listed)].concat();
        let mut words = [REST; 128];
        let restored = Store::new(&store).restore(2, &mut words).unwrap();
        let mut copy = packets.clone();
        let mut at_once = Message::check(&mut copy, length).unwrap();
        let ranges: Vec<_> = edits.iter().map(|(edit, bytes)| (edit.range(), &bytes[..])).collect();
        at_once.splice_all(&ranges).unwrap();
        assert_eq!(at_once.words(), &words[..restored]);
        let mut in_turn = Message::check(&mut packets, length).unwrap();
        for (done, (edit, bytes)) in edits.iter().enumerate().rev() {
            in_turn.splice(edit.range(), bytes).unwrap();
            let mut before = edits[..done].iter().map(|(pending, _)| pending);
            assert!(before.all(|pending| move_edit(*edit, *pending, false) == Ok(*pending)));
        }
        assert_eq!(in_turn.words(), &words[..restored]);
    }
}

// ---- refusals

// Format: each fault alone. Kinds that are none, bodies cut off, records that stand wrong, a group, edits out of order.
#[test]
fn format() {
    let good = [whole(1, &[5; 14]), delta(2, 1, &[(1, 4, &[6]), (4, 4, &[])])].concat();
    assert_eq!(Store::new(&good).check(), Ok(2));
    for kind in (0..=255).filter(|kind| !matches!(kind, 0x01..=0x03 | 0x11 | 0x12 | 0x81..=0x8D)) {
        assert_eq!(refused_by_all(&[&good[..], &record(kind, &[0, 3, 0, 1])].concat()), 21);
    }
    let ends = [5, 19, 21, 26, 31, 33, 38];
    for length in 1..good.len() {
        match ends.contains(&length) {
            true => assert!(Store::new(&good[..length]).check().is_ok()),
            false => assert_eq!(refused_by_all(&good[..length]), 21),
        }
    }
    let edit = pair(0x03, 0, 0);
    let misplaced: [Vec<u8>; 5] = [
        data(&[1]),
        edit.clone(),
        [pair(0x02, 1, 2), data(&[1])].concat(),
        [whole(1, &[]), edit.clone()].concat(),
        [delta(2, 1, &[(0, 0, &[1])]), whole(1, &[1]), edit].concat(),
    ];
    misplaced.iter().for_each(|store| assert_eq!(refused_by_all(store), 21));
    for group in [16, 255] {
        assert_eq!(refused_by_all(&record(0x01, &[0, 1, group, 0])), 21);
    }
    assert_eq!(refused_by_all(&delta(1, 2, &[(0, 3, &[]), (2, 4, &[])])), 21);
    assert_eq!(refused_by_all(&delta(1, 2, &[(0, 3, &[1, 2]), (2, 1, &[])])), 21);
    // A delta's first edit may begin anywhere, and a reversed edit is no fault of the format.
    let store = [delta(1, 3, &[(0, 3, &[])]), delta(2, 3, &[(2, 1, &[]), (1, 1, &[])]), whole(3, &[0; 3])].concat();
    assert_eq!(Store::new(&store).check(), Ok(3));
    assert_eq!((refused(&store, 2, 4), restored(&store, 1)), (13, vec![]));
}

// Twice and Full: a number used again, by dumps of either kind; 256 dumps and a 257th; the order of the three.
#[test]
fn twice_and_full() {
    for second in [whole(1, &[]), delta(1, 2, &[])] {
        assert_eq!(refused_by_all(&[whole(1, &[]), second, whole(2, &[])].concat()), 22);
    }
    let many = |count: u16| (0..count).flat_map(|number| whole(number, &[])).collect::<Vec<u8>>();
    assert_eq!(Store::new(&many(256)).check(), Ok(256));
    assert_eq!(restored(&many(256), 255), []);
    assert_eq!(refused_by_all(&many(257)), 23);
    assert_eq!(refused_by_all(&[many(257), whole(0, &[])].concat()), 22);
    assert_eq!(refused_by_all(&[many(257), whole(0, &[]), vec![0]].concat()), 21);
    let all: Vec<u8> = (0..=65_535).flat_map(|number| whole(number, &[])).collect();
    assert_eq!(refused_by_all(&all), 23);
    assert_eq!(refused_by_all(&[all, whole(65_535, &[])].concat()), 22);
}

// Missing: at the start, in the middle; numbers that no two bytes hold.
#[test]
fn missing() {
    let store = [whole(1, &[1]), delta(2, 9, &[]), delta(3, 2, &[(9, 1, &[])])].concat();
    for number in [0, 2, 3, 9, 65_536, 65_537, usize::MAX] {
        assert_eq!(Store::new(&store).describe(number).unwrap_err().refusal, Refusal::Missing);
        assert_eq!(refused(&store, number, 4), 24);
    }
    assert_eq!(restored(&store, 1), [1]);
}

// Rings of one, two, three and 256 dumps, and walks into a ring that does not hold their start; who is off it is restored.
#[test]
fn rings() {
    for length in [1, 2, 3, 256] {
        let ring: Vec<u8> = (0..length).flat_map(|number| delta(number, (number + 1) % length, &[(9, 1, &[])])).collect();
        for number in 0..usize::from(length) {
            assert_eq!(Store::new(&ring).describe(number).unwrap_err().refusal, Refusal::Ring);
            assert_eq!(refused(&ring, number, 0), 25);
        }
    }
    let ring = [delta(1, 2, &[]), delta(2, 3, &[]), delta(3, 2, &[])].concat();
    let store = [ring, delta(4, 1, &[]), whole(5, &[8]), delta(6, 5, &[(1, 1, &[9])])].concat();
    for number in 1..=4 {
        assert_eq!(refused(&store, number, 4), 25);
    }
    assert_eq!(restored(&store, 6), [8, 9]);
}

// Range and Room: from the whole dump up, a base's before its delta's, and in a dump Range before Room.
#[test]
fn range_and_room() {
    let base = whole(1, &[1; 14]);
    let over = [(0, 15, &[][..]), (2, 1, &[]), (14, 14, &[1]), (15, 15, &[])];
    let outcomes = over.map(|edit| {
        let store = [&base[..], &delta(2, 1, &[edit])].concat();
        let described = Store::new(&store).describe(2).map(|dump| dump.size);
        (described.map_err(|error| error.number()), refused(&store, 2, 7))
    });
    assert_eq!(outcomes, [(Err(13), 14), (Err(13), 14), (Ok(15), 14), (Err(13), 14)]);
    // The base's Room is before its delta's Range, that one's Range before its Room.
    let store = [base.clone(), delta(2, 1, &[(0, 0, &[2; 13]), (20, 20, &[])])].concat();
    assert_eq!([0, 4, 7, 8, 12].map(|lent| refused(&store, 2, lent)), [14, 14, 14, 13, 13]);
    // A delta's Room is before the Range of the delta on it.
    let store = [delta(3, 2, &[(0, 28, &[])]), base, delta(2, 1, &[(0, 0, &[2; 13])])].concat();
    assert_eq!([7, 8, 11, 12, 16_384].map(|lent| refused(&store, 3, lent)), [14, 14, 14, 13, 13]);
    // A delta's data of more than 53,248 bytes is Room.
    let store = [whole(1, &[]), delta(2, 1, &[(0, 0, &vec![1; 53_249])])].concat();
    assert_eq!((refused(&store, 2, 16_384), Store::new(&store).describe(2).unwrap().size), (14, 53_249));
}

// Each refusal with all later ones at fault too.
#[test]
fn the_order_of_the_refusals() {
    let bad = delta(2, 1, &[(0, 9, &[2; 30])]);
    let (base, ring) = (whole(1, &[1; 14]), delta(3, 3, &[(2, 1, &[])]));
    let more: Vec<u8> = (1000..1254).flat_map(|number| whole(number, &[])).collect();
    let all = [&base[..], &bad, &ring, &more].concat();
    let twice = [&all[..], &base].concat();
    let format = [&twice[..], &[0x13]].concat();
    assert_eq!(refused(&format, 9, 16_385), 1);
    assert_eq!(refused(&format, 9, 0), 21);
    assert_eq!(refused(&twice, 9, 0), 22);
    assert_eq!(refused(&all, 9, 0), 23);
    let good = [&base[..], &bad, &ring].concat();
    assert_eq!(refused(&good, 9, 0), 24);
    assert_eq!(refused(&good, 3, 0), 25);
    assert_eq!(refused(&good, 2, 7), 14);
    assert_eq!(Store::new(&good).restore(2, &mut [0; 12]), Ok(12));
    let too_long = Error { refusal: Refusal::Long, place: 0 };
    assert_eq!(Store::new(&good).restore(1, &mut [0; 16_385]), Err(too_long));
}
