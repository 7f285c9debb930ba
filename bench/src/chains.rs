//! The calls of a store of dumps, which the original does not have.
use crate::inputs::{self, Store};
use crate::port;
use crate::time::{best, less};
use std::hint::black_box;

/// The deltas of the long chain, and the edits of each.
pub const DELTAS: usize = 255;
const EDITS: usize = 10;

/// The payload bytes of a large dump and of a small one.
const LARGE: usize = 53_000;
const SMALL: usize = 100;

/// The long chain, with a whole dump of so many bytes.
pub fn long(size: usize) -> Store {
    inputs::chain(size, DELTAS, EDITS)
}

/// The same deltas in a star.
fn star(size: usize) -> Store {
    inputs::star(size, DELTAS, EDITS)
}

/// A whole dump alone.
pub fn whole(size: usize) -> Store {
    inputs::chain(size, 0, 0)
}

/// Three dumps: a whole one, a delta of it, and a delta of that.
pub fn small(size: usize) -> Store {
    inputs::chain(size, 2, 3)
}

/// Prints a row: port, and a memmove of so many bytes so many times.
fn print(call: &str, store: &Store, port: f64, moved: usize, times: usize) {
    let (from, mut to) = (vec![7u8; moved], vec![0u8; moved]);
    let floor = best(|| {
        for _ in 0..times {
            to.copy_from_slice(black_box(&from));
            black_box(&mut to);
        }
    });
    println!("| {call} | {} | {} | {port:.0} | {floor:.0} | {:.1} |", store.dumps, store.bytes.len(), port / floor);
}

/// Restores the last dump of a store. The memmove is of its message, as often as there are banks.
fn restore(call: &str, store: &Store, banks: usize) {
    let last = store.dumps - 1;
    let mut words = vec![0; port::describe(&store.bytes, last).words];
    let port = best(|| _ = black_box(port::restore(black_box(&store.bytes), black_box(last), black_box(&mut words))));
    let length = port::restore(&store.bytes, last, &mut words);
    let mut payload = vec![0; store.payload.len()];
    port::payload(&words[..length], &mut payload);
    assert_eq!(payload, store.payload);
    print(call, store, port, 4 * length, banks);
}

/// Checks a store. The memmove is of the store.
fn check(call: &str, store: &Store) {
    let port = best(|| assert!(port::check_store(black_box(&store.bytes)) == store.dumps));
    print(call, store, port, store.bytes.len(), 1);
}

/// Describes the last dump of a store. The memmove is of the store.
fn describe(call: &str, store: &Store) {
    let last = store.dumps - 1;
    let port = best(|| _ = black_box(port::describe(black_box(&store.bytes), black_box(last))));
    print(call, store, port, store.bytes.len(), 1);
}

/// Marks the last dump of a store. It is marked already but for the first time, which changes a byte more. The memmove is of the store.
fn mark(call: &str, store: &Store) {
    let (mut bytes, last) = (store.bytes.clone(), store.dumps - 1);
    let port = best(|| port::mark(black_box(&mut bytes), black_box(last)));
    print(call, store, port, bytes.len(), 1);
}

/// Collects a store with these dumps unwanted, of which so many are left. Copying it in is timed alone and taken off. The memmove is
/// of the store.
fn collect(call: &str, store: &Store, unwanted: impl Fn(usize) -> bool, left: usize) {
    let mut bytes = store.bytes.clone();
    (0..store.dumps).filter(|&number| unwanted(number)).for_each(|number| port::mark(&mut bytes, number));
    let mut room = bytes.clone();
    let copy = best(|| {
        room.copy_from_slice(black_box(&bytes));
        black_box(&mut room);
    });
    let port = best(|| {
        room.copy_from_slice(black_box(&bytes));
        _ = black_box(port::collect(black_box(&mut room)));
    });
    room.copy_from_slice(&bytes);
    let length = port::collect(&mut room);
    assert_eq!(port::check_store(&room[..length]), left);
    print(call, store, less(port, copy), bytes.len(), 1);
}

/// The rows of marking and collecting.
fn reclaim(long: &Store, small: &Store) {
    let star = star(LARGE);
    mark("mark, 255 deltas of 10 edits on 53,000 bytes", long);
    collect("collect, the same in a chain, all wanted", long, |_| false, 256);
    collect("collect, the same, every other one wanted, all stay", long, |number| number % 2 == 0, 256);
    collect("collect, the same, the first half wanted, the rest goes", long, |number| number >= 128, 128);
    collect("collect, the same in a star, all wanted", &star, |_| false, 256);
    collect("collect, the same, every other one wanted, the rest but the base goes", &star, |number| number % 2 == 0, 129);
    mark("mark, 2 deltas of 3 edits on 100 bytes", small);
    collect("collect, the same, all wanted", small, |_| false, 3);
    collect("collect, the same, the last goes", small, |number| number == 2, 2);
}

/// The table.
pub fn run() {
    println!("| call | dumps | bytes of the store | port, ns | memmove, ns | ratio |");
    println!("|---|---|---|---|---|---|");
    let (long, whole, small) = (long(LARGE), whole(LARGE), small(SMALL));
    restore("restore, 255 deltas of 10 edits on 53,000 bytes", &long, DELTAS);
    check("check, the same", &long);
    describe("describe, the same", &long);
    restore("restore, a whole dump of 53,000 bytes", &whole, 1);
    check("check, the same", &whole);
    describe("describe, the same", &whole);
    restore("restore, 2 deltas of 3 edits on 100 bytes", &small, 1);
    check("check, the same", &small);
    describe("describe, the same", &small);
    reclaim(&long, &small);
}
