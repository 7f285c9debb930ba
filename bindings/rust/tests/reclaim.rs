//! Reclaiming a store of dumps: marking and collecting, through the bindings.

#[allow(dead_code)]
mod common;
mod stores;

use common::Numbers;
use latchbeacon::{Description, Error, Refusal, Store};
use std::thread;
use stores::{data, delta, pair, record, whole};

const REST: u32 = 0xEEEE_EEEE;

// ---- stores

// The records of a dump that is not wanted any more.
fn gone(mut dump: Vec<u8>) -> Vec<u8> {
    dump[0] += 0x10;
    dump
}

// A delta without edits.
fn bare(number: u16, base: u16) -> Vec<u8> {
    pair(0x02, number, base)
}

// So many whole dumps.
fn many(count: u16) -> Vec<u8> {
    (0..count).flat_map(|number| whole(number, &[])).collect()
}

// The dumps 0 to `count`, in any order. Each is whole, or a delta of any number up to `count`, which is not held. Half are wanted.
fn random_dumps(numbers: &mut Numbers, count: usize) -> Vec<Vec<u8>> {
    let mut dumps: Vec<Vec<u8>> = Vec::new();
    for number in 0..count {
        let (size, base, to) = (numbers.below(20), numbers.below(count + 1), numbers.below(3));
        let bytes = numbers.bytes(size);
        let dump = match numbers.below(3) {
            0 => whole(number as u16, &bytes),
            _ => delta(number as u16, base as u16, &[(0, to as u16, &bytes)]),
        };
        let place = numbers.below(number + 1);
        dumps.insert(place, if numbers.below(2) == 0 { dump } else { gone(dump) });
    }
    dumps
}

// ---- answers

type Restored = (Result<usize, Error>, Vec<u32>);

// What a number is described as, and what it is restored to in 4 words and in 40.
fn answers(store: &[u8], number: usize) -> (Result<Description, Error>, [Restored; 2]) {
    let restored = [4, 40].map(|lent| {
        let mut words = vec![REST; lent];
        (Store::new(store).restore(number, &mut words), words)
    });
    (Store::new(store).describe(number), restored)
}

// The answers of a number that is not held.
fn missing() -> (Result<Description, Error>, [Restored; 2]) {
    let error = Error { refusal: Refusal::Missing, place: 0 };
    (Err(error), [4, 40].map(|lent| (Err(error), vec![REST; lent])))
}

// Marks a dump; marking it again changes nothing.
fn marked(store: &[u8], number: usize) -> Vec<u8> {
    let mut bytes = store.to_vec();
    assert_eq!(Store::mark(&mut bytes, number), Ok(()));
    let mut again = bytes.clone();
    assert_eq!(Store::mark(&mut again, number), Ok(()));
    assert_eq!(again, bytes);
    bytes
}

// Collects a store; answers the bytes in use. All others are zero, and collecting again changes nothing.
fn collected(store: &[u8]) -> Vec<u8> {
    let mut bytes = store.to_vec();
    let length = Store::collect(&mut bytes).unwrap();
    assert!(bytes[length..].iter().all(|byte| *byte == 0));
    bytes.truncate(length);
    let mut again = bytes.clone();
    assert_eq!(Store::collect(&mut again), Ok(length));
    assert_eq!(again, bytes);
    bytes
}

// The number of the refusal that marking gives. Nothing is changed by it.
fn mark_refused(store: &[u8], number: usize) -> u8 {
    let mut bytes = store.to_vec();
    let error = Store::mark(&mut bytes, number).unwrap_err();
    assert_eq!((error.place, &bytes[..]), (0, store));
    error.number()
}

// The number of the refusal that both calls give a store. Nothing is changed by it.
fn refused_by_both(store: &[u8]) -> u8 {
    let mut bytes = store.to_vec();
    let error = Store::collect(&mut bytes).unwrap_err();
    assert_eq!((error.place, &bytes[..]), (0, store));
    assert_eq!([0, 1, usize::MAX].map(|number| mark_refused(store, number)), [error.number(); 3]);
    error.number()
}

// ---- marking

// Each dump of a store is marked: one byte changes, its kind. A second one is marked beside it.
#[test]
fn marking_changes_one_byte() {
    let dumps = [delta(300, 1, &[(0, 1, &[1; 20])]), whole(1, &[0x01, 0, 1, 0, 0]), bare(65_535, 300)];
    let with = |unwanted: &[usize]| {
        let dump = |(index, dump): (usize, &Vec<u8>)| if unwanted.contains(&index) { gone(dump.clone()) } else { dump.clone() };
        dumps.iter().enumerate().flat_map(dump).collect::<Vec<u8>>()
    };
    for (index, number) in [300, 1, 65_535].into_iter().enumerate() {
        assert_eq!(marked(&with(&[]), number), with(&[index]));
        assert_eq!(marked(&with(&[(index + 1) % 3]), number), with(&[index, (index + 1) % 3]));
    }
}

// Kinds 11 and 12 are read as 01 and 02: any dumps of a store may be unwanted, its check and all answers are the same.
#[test]
fn unwanted_dumps_are_read_as_before() {
    let dumps =
        [delta(3, 2, &[(1, 2, &[7])]), whole(1, &[5; 14]), delta(2, 1, &[(0, 3, &[]), (3, 3, &[6])]), bare(4, 4), bare(5, 9)];
    let wanted = dumps.concat();
    assert_eq!(Store::new(&wanted).describe(3).unwrap().steps, 2);
    for unwanted in 0..32 {
        let dump = |(index, dump): (usize, &Vec<u8>)| if unwanted >> index & 1 == 1 { gone(dump.clone()) } else { dump.clone() };
        let store: Vec<u8> = dumps.iter().enumerate().flat_map(dump).collect();
        assert_eq!(Store::new(&store).check(), Ok(5));
        (0..8).for_each(|number| assert_eq!(answers(&store, number), answers(&wanted, number)));
    }
}

// Marking changes no answer of any number.
#[test]
fn marking_changes_no_answer() {
    let mut numbers = Numbers::of_seed(50);
    for _ in 0..300 {
        let count = 1 + numbers.below(9);
        let store = random_dumps(&mut numbers, count).concat();
        let after = marked(&store, numbers.below(count));
        assert_eq!(Store::new(&after).check(), Ok(count));
        (0..count + 2).for_each(|number| assert_eq!(answers(&after, number), answers(&store, number)));
    }
}

// ---- which dumps stay

// Collects a store of these dumps: those that are to stay are left, in their old order.
fn stays(dumps: &[(Vec<u8>, bool)]) {
    let store: Vec<u8> = dumps.iter().flat_map(|(dump, _)| dump.clone()).collect();
    let left: Vec<u8> = dumps.iter().filter(|(_, stays)| *stays).flat_map(|(dump, _)| dump.clone()).collect();
    assert_eq!(collected(&store), left);
}

// Nothing at all; nothing unwanted; all unwanted.
#[test]
fn all_or_nothing() {
    stays(&[]);
    stays(&[(delta(2, 1, &[(0, 1, &[3; 20])]), true), (whole(1, &[1, 2]), true), (bare(3, 9), true)]);
    stays(&[(gone(delta(2, 1, &[(0, 1, &[3; 20])])), false), (gone(whole(1, &[1, 2])), false), (gone(bare(3, 3)), false)]);
    let mut bytes = gone(whole(1, &[1; 30]));
    assert_eq!(Store::collect(&mut bytes), Ok(0));
    assert_eq!(bytes, [0; 38]);
}

// What a wanted dump rests on stays, in whatever order; edits and data go and stay with their dump.
#[test]
fn bases_stay() {
    let (base, middle, last) = (whole(1, &[1; 40]), delta(2, 1, &[(0, 9, &[2; 14]), (9, 9, &[])]), delta(3, 2, &[(1, 1, &[3])]));
    stays(&[(gone(base.clone()), true), (gone(middle.clone()), true), (last.clone(), true)]);
    stays(&[(last.clone(), true), (gone(middle.clone()), true), (gone(base.clone()), true)]);
    stays(&[(gone(last.clone()), false), (middle.clone(), true), (gone(base.clone()), true)]);
    stays(&[(gone(middle.clone()), false), (base.clone(), true), (gone(last.clone()), false)]);
    stays(&[(gone(last), false), (gone(base), false), (gone(middle), false), (whole(4, &[]), true)]);
}

// A ring that no wanted dump leads into goes, one that a wanted dump leads into or is in stays whole; and so for walks that end at a
// number that is not held.
#[test]
fn rings_and_missing_bases() {
    stays(&[(gone(bare(2, 3)), false), (whole(1, &[1]), true), (gone(bare(3, 2)), false)]);
    stays(&[(gone(bare(2, 3)), true), (bare(4, 3), true), (gone(bare(3, 2)), true), (gone(whole(1, &[1])), false)]);
    stays(&[(gone(bare(2, 3)), true), (bare(3, 4), true), (gone(bare(4, 2)), true), (gone(bare(5, 2)), false)]);
    stays(&[(bare(2, 2), true), (gone(bare(3, 3)), false)]);
    stays(&[(gone(bare(2, 9)), true), (gone(whole(1, &[1])), false), (bare(3, 2), true)]);
    stays(&[(gone(bare(2, 9)), false), (gone(bare(3, 2)), false), (bare(4, 9), true)]);
}

// 256 dumps: a chain with its last dump wanted alone, with its first; a star with every other one wanted.
#[test]
fn many_dumps() {
    let link = |number: u16| if number == 0 { whole(0, &[7; 14]) } else { delta(number, number - 1, &[(0, 0, &[1])]) };
    let chain = |wanted: u16| (0..256).map(move |number| if number == wanted { link(number) } else { gone(link(number)) });
    for wanted in [0, 1, 100, 255] {
        let dumps: Vec<(Vec<u8>, bool)> = chain(wanted).enumerate().map(|(index, dump)| (dump, index <= wanted.into())).collect();
        stays(&dumps);
        stays(&dumps.into_iter().rev().collect::<Vec<_>>());
    }
    let ray = |number: u16| if number % 2 == 0 { (bare(number, 255), true) } else { (gone(bare(number, 255)), false) };
    let star: Vec<(Vec<u8>, bool)> = (0..255).map(ray).chain([(gone(whole(255, &[1; 100])), true)]).collect();
    stays(&star);
}

// ---- what collecting leaves

// Each wanted dump has the answers that it had. Each other one has too, or it is missing then. What is wanted stays so.
#[test]
fn answers_stay() {
    let mut numbers = Numbers::of_seed(51);
    let (mut freed, mut kept) = (0, 0);
    for _ in 0..500 {
        let count = 1 + numbers.below(9);
        let dumps = random_dumps(&mut numbers, count);
        let store = dumps.concat();
        let after = collected(&store);
        for dump in &dumps {
            let number = usize::from(u16::from_be_bytes([dump[1], dump[2]]));
            let (before, now) = (answers(&store, number), answers(&after, number));
            match dump[0] {
                0x01 | 0x02 => assert_eq!(now, before),
                _ if now == before => kept += 1,
                _ => {
                    freed += 1;
                    assert_eq!(now, missing());
                }
            }
        }
        assert_eq!(answers(&after, count + 1), missing());
    }
    assert!(freed > 300 && kept > 300, "{freed} dumps freed, {kept} unwanted ones kept");
}

// A number that was freed may be used again, and a store that was full has room.
#[test]
fn freed_numbers_are_used_again() {
    let store = [whole(1, &[1]), gone(bare(2, 1)), whole(3, &[3])].concat();
    let new = delta(2, 3, &[(1, 1, &[8])]);
    assert_eq!(refused_by_both(&[&store[..], &new].concat()), 22);
    let after = [collected(&store), new].concat();
    assert_eq!(Store::new(&after).check(), Ok(3));
    assert_eq!(answers(&after, 2).1[0].1, [0x5303_0903, 0x0800_0000, 0, 0]);
    assert_eq!(answers(&after, 1), answers(&store, 1));

    let full = marked(&many(256), 99);
    assert_eq!(refused_by_both(&[full.clone(), whole(256, &[])].concat()), 23);
    assert_eq!(Store::new(&[collected(&full), whole(256, &[])].concat()).check(), Ok(256));
}

// The bytes behind the new length are zeros, which are no records: the caller goes on with the length answered.
#[test]
fn zeros_are_no_records() {
    let mut bytes = [gone(whole(1, &[1])), whole(2, &[2])].concat();
    let length = Store::collect(&mut bytes).unwrap();
    assert_eq!((bytes.len(), length), (14, 7));
    assert_eq!(refused_by_both(&bytes), 21);
    assert_eq!(Store::new(&bytes[..length]).check(), Ok(1));
}

// ---- refusals

// Missing: numbers that are not held, though a base or data may name them; numbers that no two bytes hold.
#[test]
fn marking_a_number_that_is_not_held() {
    let store = [bare(2, 9), whole(1, &[0x01, 0, 7, 0, 0])].concat();
    for number in [0, 7, 9, 65_536, 65_537, 65_538, usize::MAX] {
        assert_eq!(mark_refused(&store, number), 24);
    }
    assert_eq!(mark_refused(&[], 0), 24);
    let after = collected(&marked(&store, 2));
    assert_eq!(mark_refused(&after, 2), 24);
}

// Format, Twice and Full, each before the next and before Missing; unwanted dumps count as wanted ones do.
#[test]
fn the_checks_refusals() {
    for kind in [0x00, 0x04, 0x10, 0x13, 0x80, 0x8E] {
        assert_eq!(refused_by_both(&[whole(1, &[5]), record(kind, &[0; 4])].concat()), 21);
    }
    for store in [&[0x11, 0, 1, 0][..], &[0x12, 0, 1, 0], &[0x11, 0, 1, 16, 0], &data(&[1]), &pair(0x03, 0, 0)] {
        assert_eq!(refused_by_both(store), 21);
    }
    assert_eq!(refused_by_both(&[gone(whole(1, &[])), pair(0x03, 0, 0)].concat()), 21);
    assert_eq!(refused_by_both(&[gone(bare(1, 1)), data(&[1])].concat()), 21);
    assert_eq!(refused_by_both(&[whole(2, &[]), gone(bare(2, 1))].concat()), 22);
    assert_eq!(refused_by_both(&[many(256), gone(whole(256, &[]))].concat()), 23);
    assert_eq!(refused_by_both(&[many(257), gone(whole(0, &[]))].concat()), 22);
    assert_eq!(refused_by_both(&[many(257), gone(whole(0, &[])), vec![0]].concat()), 21);
}

// ---- threads

// A store, and its dumps to mark, in two orders.
type Case = (Vec<u8>, [Vec<usize>; 2]);

// The next case.
fn case(numbers: &mut Numbers) -> Case {
    let count = 2 + numbers.below(20);
    let marks: Vec<usize> = (0..numbers.below(12)).map(|_| numbers.below(count)).collect();
    let reversed = marks.iter().rev().copied().collect();
    (random_dumps(numbers, count).concat(), [marks, reversed])
}

// Two threads, each with its own copy of a store, mark the same dumps in an order of its own and collect: they end with the same bytes.
#[test]
fn two_threads_end_with_the_same_store() {
    let mut numbers = Numbers::of_seed(52);
    let cases: Vec<Case> = (0..500).map(|_| case(&mut numbers)).collect();
    let worker = |which: usize| {
        let reclaimed = |(store, orders): &Case| {
            let mark = |store: Vec<u8>, number: &usize| marked(&store, *number);
            collected(&orders[which].iter().fold(store.clone(), mark))
        };
        cases.iter().map(reclaimed).collect::<Vec<Vec<u8>>>()
    };
    let (one, other) = thread::scope(|scope| {
        let (one, other) = (scope.spawn(|| worker(0)), scope.spawn(|| worker(1)));
        (one.join().unwrap(), other.join().unwrap())
    });
    assert_eq!(one, other);
}
