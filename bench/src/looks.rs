//! Looks at a byte of a result that is not written, which the original does not have; beside writing it and then reading the byte.
use crate::inputs::{self, List, Store};
use crate::port;
use crate::time::best;
use std::hint::black_box;

/// The payload bytes of a list of edits and of a store, and those of 4,096 full packets.
const LARGE: usize = 53_000;
const FULL: usize = 53_248;

/// The edits of each delta.
const EDITS: usize = 10;

/// The position that is looked at after a list of edits: the middle of the result, which has about the size of the payload.
pub fn middle(size: usize) -> usize {
    size / 2
}

/// The position that is looked at in a dump, at three quarters: no edit on the way replaces it, so that all of them are passed and the
/// byte is the whole dump's.
pub fn kept(size: usize) -> usize {
    size / 4 * 3
}

/// Prints a row: the call, the payload size, how many edits or deltas, the look, and writing the result and then reading.
fn print(call: &str, size: usize, count: usize, look: f64, write: f64) {
    println!("| {call} | {size} | {count} | {look:.1} | {write:.0} | {:.4} |", look / write);
}

/// A message copied in, all edits done at once, and the byte read.
fn spliced(bank: &mut port::Bank, words: &[u32], list: &List, position: usize) -> u8 {
    bank.copy_in(black_box(words));
    bank.splice_all(black_box(&list.numbers), black_box(&list.bytes));
    bank.byte(black_box(position))
}

/// A byte after so many edits, of a payload or of its message.
fn list(call: &str, size: usize, count: usize, of_message: bool) {
    let bytes = inputs::bytes(size);
    let (words, list, position) = (inputs::packed(&bytes), inputs::list(size, count, false), middle(size));
    let mut bank = port::Bank::new(&words);
    let look = || match of_message {
        true => port::look_message(black_box(&words), black_box(&list.numbers), black_box(&list.bytes), black_box(position)),
        false => port::look_byte(black_box(&bytes), black_box(&list.numbers), black_box(&list.bytes), black_box(position)),
    };
    assert_eq!(look(), spliced(&mut bank, &words, &list, position));
    let ours = best(|| _ = black_box(look()));
    let write = best(|| _ = black_box(spliced(&mut bank, &words, &list, position)));
    print(call, size, count, ours, write);
}

/// A byte of the last dump of a store, and the same restored in just the words that it needs.
fn store(call: &str, store: &Store) {
    let (last, position) = (store.dumps - 1, kept(LARGE));
    // The bytes of the whole dump go up by 7, those of an edit are all the same.
    assert_eq!(store.payload[position].wrapping_add(7), store.payload[position + 1]);
    let mut words = vec![0; port::describe(&store.bytes, last).words];
    let look = || port::look_store(black_box(&store.bytes), black_box(last), black_box(position));
    let mut restored = || {
        let length = port::restore(black_box(&store.bytes), black_box(last), black_box(&mut words));
        port::byte(&words[..length], black_box(position))
    };
    assert_eq!([look(), restored()], [store.payload[position]; 2]);
    let ours = best(|| _ = black_box(look()));
    let write = best(|| _ = black_box(restored()));
    print(call, LARGE, last, ours, write);
}

/// The table.
pub fn run() {
    println!("| look at a byte | bytes | edits, or deltas | ours, ns | written and read, ns | ratio |");
    println!("|---|---|---|---|---|---|");
    for count in [2, 200, 2_000] {
        list("of a payload with a list of edits", LARGE, count, false);
    }
    list("of a message of 4,096 packets with a list of edits", FULL, 200, true);
    for deltas in [10, 255] {
        store("of a dump along deltas of 10 edits", &inputs::chain(LARGE, deltas, EDITS));
    }
}
