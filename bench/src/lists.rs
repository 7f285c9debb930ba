//! All edits of a list at once. The original does them one after the other, from the last to the first, so that none has to be moved.
use crate::inputs::{self, List};
use crate::table::row;
use crate::time::{best, less, Times};
use crate::{original, port};
use std::hint::black_box;

/// The edits of the lists for a payload of so many bytes.
fn counts(size: usize) -> &'static [usize] {
    match size {
        0..=99 => &[2],
        100..=9_999 => &[16, 200],
        _ => &[16, 200, 2_000],
    }
}

/// A message copied in, and all edits done at once.
fn ours(bank: &mut port::Bank, words: &[u32], list: &List) {
    bank.copy_in(black_box(words));
    bank.splice_all(black_box(&list.numbers), black_box(&list.bytes));
}

/// What a list of edits takes; and the original, its bare calls or each with `try_from` before it. Copying the message in is timed alone
/// and taken off.
fn times(words: &[u32], list: &List) -> Times {
    let theirs = |splice: fn(&mut original::Bank, usize, usize, &[u8])| {
        let mut bank = original::Bank::new(black_box(words));
        list.edits().rev().for_each(|(from, to, bytes)| splice(&mut bank, from, to, bytes));
        bank
    };
    let mut bank = port::Bank::new(words);
    let (copy, new) = (best(|| bank.copy_in(black_box(words))), best(|| _ = black_box(original::Bank::new(black_box(words)))));
    let times = Times::of(
        || ours(&mut bank, words, list),
        || _ = black_box(theirs(original::Bank::splice)),
        || _ = black_box(theirs(original::Bank::checked_splice)),
    );
    assert_eq!(bank.payload(), theirs(original::Bank::splice).payload());
    times.less(copy, new)
}

/// The rows of a payload: lists whose edits keep the size about the same, and one that grows first and then shrinks.
pub fn rows(words: &[u32], size: usize, floor: f64) {
    let counts = counts(size);
    for &count in counts {
        row(&format!("{count} edits at once"), size, 0.02, times(words, &inputs::list(size, count, false)), floor);
    }
    let most = counts[counts.len() - 1];
    row(&format!("{most} edits at once, growing first"), size, 0.02, times(words, &inputs::list(size, most, true)), floor);
}

/// How the time of a list grows with the payload and with the edits.
pub fn growth() {
    println!("| bytes | edits | ours, ns | ns for each byte and edit |");
    println!("|---|---|---|---|");
    for size in [1_300, 13_000, 53_000] {
        let words = inputs::packed(&inputs::bytes(size));
        for count in [16, 200, 2_000, 8_000].into_iter().filter(|count| 6 * count <= size) {
            let (list, mut bank) = (inputs::list(size, count, false), port::Bank::new(&words));
            let copy = best(|| bank.copy_in(black_box(&words)));
            let time = less(best(|| ours(&mut bank, &words, &list)), copy);
            println!("| {size} | {count} | {time:.0} | {:.2} |", time / (size + count) as f64);
        }
    }
}
