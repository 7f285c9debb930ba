//! Looking at an edited payload, held to what a splice leaves: runs and where they are lent from, bytes of lists, of messages and of
//! stores.

mod common;
mod stores;

use common::Numbers;
use latchbeacon::look::{self, Run, Source};
use latchbeacon::{sysex8, Edit, Error, Message, Refusal, Store, View, MOST_BYTES};
use std::ops::Range;
use stores::{delta, whole};

const RANGE: Error = Error { refusal: Refusal::Range, place: 0 };

// Holds every run of an edit to a vector with the range replaced; answers how many runs there are one after the other.
fn assert_runs(payload: &[u8], range: Range<usize>, replacement: &[u8]) -> usize {
    let mut spliced = payload.to_vec();
    spliced.splice(range.clone(), replacement.iter().copied());
    for position in 0..spliced.len() {
        let run = look::run(payload, range.clone(), replacement, position).unwrap();
        assert_lent(&run, payload, range.clone(), replacement);
        assert_eq!(run.bytes, &spliced[position..position + run.bytes.len()]);
    }
    for position in [spliced.len(), spliced.len() + 1, usize::MAX] {
        assert_eq!(look::run(payload, range.clone(), replacement, position), Err(RANGE));
    }
    let mut runs = look::runs(payload, range.clone(), replacement).unwrap();
    let listed: Vec<Run> = runs.by_ref().collect();
    assert_eq!((runs.next(), runs.next()), (None, None));
    assert_eq!(listed.iter().flat_map(|run| run.bytes.to_vec()).collect::<Vec<u8>>(), spliced);
    listed.len()
}

// A run is not empty, is lent from where it says, and ends where its part of the result ends.
fn assert_lent(run: &Run, payload: &[u8], range: Range<usize>, replacement: &[u8]) {
    let (buffer, end) = match run.source {
        Source::Before => (payload, range.start),
        Source::Within => (replacement, replacement.len()),
        Source::Behind => (payload, payload.len()),
    };
    assert!(run.start < end);
    assert_eq!(run.bytes.as_ptr_range(), buffer[run.start..end].as_ptr_range());
    assert!(run.source != Source::Behind || run.start >= range.end);
}

// Every edit of payloads of 0 to 6 bytes by 0 to 3 bytes. There is a run for each part that has bytes, also around an empty edit.
#[test]
fn runs_are_those_of_a_splice() {
    let (bytes, replacement) = ([1, 2, 3, 4, 5, 6], [7, 8, 9]);
    for size in 0..=6 {
        for (from, to) in (0..=size).flat_map(|from| (from..=size).map(move |to| (from, to))) {
            for length in 0..=3 {
                let parts = [from, length, size - to].into_iter().filter(|part| *part > 0).count();
                assert_eq!(assert_runs(&bytes[..size], from..to, &replacement[..length]), parts);
            }
        }
    }
}

// Ranges in each way that they can be said; one that no number can say is refused.
#[test]
fn ranges_are_taken_as_by_a_splice() {
    let bytes = |runs: Result<look::Runs, Error>| runs.map(|runs| runs.flat_map(|run| run.bytes.to_vec()).collect::<Vec<u8>>());
    let payload = [1, 2, 3];
    assert_eq!(bytes(look::runs(&payload, .., &[9])), Ok(vec![9]));
    assert_eq!(bytes(look::runs(&payload, 1.., &[9])), Ok(vec![1, 9]));
    assert_eq!(bytes(look::runs(&payload, ..=1, &[9])), Ok(vec![9, 3]));
    assert_eq!(bytes(look::runs(&payload, ..=usize::MAX, &[9])), Err(RANGE));
    assert_eq!(look::run(&payload, ..=usize::MAX, &[9], 0), Err(RANGE));
    assert_eq!(look::run(&payload, .., &[9], 0).map(|run| run.source), Ok(Source::Within));
}

// Edits that are refused, at every position, and as runs.
#[test]
fn runs_are_refused() {
    let (payload, replacement) = (vec![1; MOST_BYTES + 9], vec![2; MOST_BYTES + 1]);
    let bad = [
        (3, Edit { from: 2, to: 1, length: 0 }),
        (3, Edit::new(0..4, 0)),
        (3, Edit::new(4..4, 0)),
        (3, Edit::new(usize::MAX..usize::MAX, 0)),
        (3, Edit::new(0..0, MOST_BYTES + 1)),
        (MOST_BYTES + 9, Edit::new(0..MOST_BYTES + 1, 0)),
        (MOST_BYTES + 9, Edit::new(MOST_BYTES + 1..MOST_BYTES + 1, 0)),
    ];
    for (size, edit) in bad {
        for position in [0, 1, 2, 3, MOST_BYTES, usize::MAX] {
            let run = look::run(&payload[..size], edit.range(), &replacement[..edit.length], position);
            assert_eq!(run, Err(RANGE));
        }
        assert_eq!(look::runs(&payload[..size], edit.range(), &replacement[..edit.length]).unwrap_err(), RANGE);
    }
}

// The payload may be longer than a message's, the edit's numbers are at their most.
#[test]
fn a_payload_longer_than_a_message() {
    let (payload, replacement) = (vec![1; 3 * MOST_BYTES], vec![2; MOST_BYTES]);
    let runs: Vec<Run> = look::runs(&payload, MOST_BYTES..MOST_BYTES, &replacement).unwrap().collect();
    let wanted = [(Source::Before, 0, MOST_BYTES), (Source::Within, 0, MOST_BYTES), (Source::Behind, MOST_BYTES, 2 * MOST_BYTES)];
    assert_eq!(runs.iter().map(|run| (run.source, run.start, run.bytes.len())).collect::<Vec<_>>(), wanted);
    let edits = [Edit::new(0..MOST_BYTES, 0), Edit::new(MOST_BYTES..MOST_BYTES, MOST_BYTES)];
    for (position, wanted) in [(0, Ok(2)), (MOST_BYTES - 1, Ok(2)), (MOST_BYTES, Ok(1)), (3 * MOST_BYTES - 1, Ok(1))] {
        assert_eq!(look::byte(&payload, &edits, &replacement, position), wanted);
    }
    assert_eq!(look::byte(&payload, &edits, &replacement, 3 * MOST_BYTES), Err(RANGE));
    assert_eq!(look::byte(&payload, &[], &[], 3 * MOST_BYTES - 1), Ok(1));
    for past in [Edit::new(0..MOST_BYTES + 1, 0), Edit::new(MOST_BYTES + 1..MOST_BYTES + 1, 0)] {
        assert_eq!(look::byte(&payload, &[past], &[], 0), Err(RANGE));
    }
}

// Every byte of many messages with lists of edits, held to what the edits then leave: by the payload, by the message and its view. A
// list of one edit is looked at by its runs too.
#[test]
fn bytes_are_those_of_a_splice() {
    let mut numbers = Numbers::of_seed(80);
    for _ in 0..400 {
        let (mut buffer, payload) = numbers.message(6);
        let length = buffer.len();
        let list = numbers.edits(6, payload.len());
        let edits: Vec<Edit> = list.iter().map(|(edit, _)| *edit).collect();
        let bytes: Vec<u8> = list.iter().flat_map(|(_, bytes)| bytes.clone()).collect();
        let copy = buffer.clone();
        let view = View::check(&copy, length).unwrap();
        buffer.resize(sysex8::words_needed(payload.len() + bytes.len()).max(length), 0);
        let mut message = Message::check(&mut buffer, length).unwrap();
        let positions = 0..=payload.len() + bytes.len();
        let looked: Vec<u8> = positions.map_while(|position| look::byte(&payload, &edits, &bytes, position).ok()).collect();
        for position in 0..looked.len() + 2 {
            let byte = look::byte(&payload, &edits, &bytes, position);
            assert_eq!([view.byte_after(&edits, &bytes, position), message.byte_after(&edits, &bytes, position)], [byte; 2]);
        }
        assert_eq!(message.words(), copy);
        message.splice_edits(&edits, &bytes).unwrap();
        assert_eq!(message.payload().to_vec(), looked);
        if let [(edit, bytes)] = &list[..] {
            assert_runs(&payload, edit.range(), bytes);
        }
    }
}

// Every byte of every dump of many chains, held to what is restored.
#[test]
fn bytes_are_those_of_a_restored_dump() {
    let mut numbers = Numbers::of_seed(81);
    for _ in 0..100 {
        let count = numbers.below(60);
        let mut store = whole(0, &numbers.bytes(count));
        for number in 1..=6 {
            let base = numbers.below(number.into());
            let size = Store::new(&store).describe(base).unwrap().size;
            let edits = numbers.edits(4, size);
            let listed: Vec<(u16, u16, &[u8])> =
                edits.iter().map(|(edit, bytes)| (edit.from as u16, edit.to as u16, &bytes[..])).collect();
            store = [delta(number, base as u16, &listed), store].concat();
        }
        for number in 0..=6 {
            let mut words = vec![0; Store::new(&store).describe(number).unwrap().words];
            let length = Store::new(&store).restore(number, &mut words).unwrap();
            let payload = Message::check(&mut words, length).unwrap().payload().to_vec();
            let positions = 0..=payload.len();
            let looked: Vec<u8> = positions.map_while(|position| Store::new(&store).byte(number, position).ok()).collect();
            assert_eq!(looked, payload);
            assert_eq!([payload.len(), usize::MAX].map(|position| Store::new(&store).byte(number, position)), [Err(RANGE); 2]);
        }
    }
}

// Dumps that are too long to be restored, edited above the numbers that a list of edits may have; and a chain of 255 deltas.
#[test]
fn dumps_that_cannot_be_restored() {
    let bytes: Vec<u8> = (0..65_535u32).map(|index| (index % 251) as u8).collect();
    let store = [whole(1, &bytes), delta(2, 1, &[(65_000, 65_001, &[0xFE; 60_000])])].concat();
    let byte = |number, position| Store::new(&store).byte(number, position);
    assert_eq!(Store::new(&store).restore(2, &mut [0; 16_384]).unwrap_err().refusal, Refusal::Room);
    assert_eq!([0, 64_999, 65_534].map(|position| byte(1, position)), [0, 64_999, 65_534].map(|place| Ok(bytes[place])));
    assert_eq!([64_999, 65_000, 124_999].map(|position| byte(2, position)), [Ok(bytes[64_999]), Ok(0xFE), Ok(0xFE)]);
    assert_eq!([125_000, 125_533].map(|position| byte(2, position)), [65_001, 65_534].map(|place| Ok(bytes[place])));
    assert_eq!(byte(2, 125_534), Err(RANGE));
    let links = (1..=255).flat_map(|number| delta(number, number - 1, &[(0, 0, &[number as u8])]));
    let store: Vec<u8> = whole(0, &[0]).into_iter().chain(links).collect();
    for (position, wanted) in (0..=255).rev().enumerate() {
        assert_eq!(Store::new(&store).byte(255, position), Ok(wanted));
    }
}

// The refusals of a store in their order, each with the next at fault too; the position is past the payload in all.
#[test]
fn bytes_of_a_store_are_refused() {
    let (base, bad) = (whole(1, &[1, 2, 3]), delta(2, 1, &[(0, 4, &[])]));
    let rest = [delta(3, 3, &[(2, 1, &[])]), delta(4, 9, &[(2, 1, &[])]), delta(5, 2, &[])].concat();
    let good = [&base[..], &bad, &rest].concat();
    let full = (0..252).fold(good.clone(), |store, number| [store, whole(1000 + number, &[])].concat());
    let twice = [&full[..], &base].concat();
    let format = [&twice[..], &[0x13]].concat();
    let refused = |store: &[u8], number| {
        let error = Store::new(store).byte(number, 3).unwrap_err();
        assert_eq!(error.place, 0);
        error.number()
    };
    assert_eq!([&format, &twice, &full].map(|store| refused(store, 9)), [21, 22, 23]);
    assert_eq!([9, 4, 65_537, usize::MAX].map(|number| refused(&good, number)), [24; 4]);
    assert_eq!([3, 2, 5, 1].map(|number| refused(&good, number)), [25, 13, 13, 13]);
    assert_eq!(Store::new(&good).byte(1, 2), Ok(3));
    assert_eq!(refused(&[], 0), 24);
}
