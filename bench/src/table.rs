//! The table of times, a row for each call and size, with ratios and goals.
use crate::time::{best, Times};
use std::hint::black_box;

/// The payload sizes in bytes. The goals are for all but the first; there nothing is to take longer than `try_from` and the call.
pub const SIZES: [usize; 4] = [13, 1_300, 13_000, 53_000];

/// The head of the table.
pub fn head() {
    println!("| call | bytes | ours, ns | original, ns | ratio | try_from + call, ns | ratio | goal | memmove, ns | ratio |");
    println!("|---|---|---|---|---|---|---|---|---|---|");
}

/// A time, with a decimal where it is short.
fn ns(time: f64) -> String {
    if time < 99.95 {
        format!("{time:.1}")
    } else {
        format!("{time:.0}")
    }
}

/// A row: the call, its payload size, its goal at the larger sizes, the times, and the time of a memmove. The goal is for ours divided by
/// `try_from` and the call.
pub fn row(call: &str, size: usize, goal: f64, times: Times, floor: f64) {
    let Times { ours, bare, checked } = times;
    let goal = if size == SIZES[0] { 1.0 } else { goal };
    let missed = if ours / checked > goal { ", missed" } else { "" };
    println!(
        "| {call} | {size} | {} | {} | {:.3} | {} | {:.3} | {goal:.2}{missed} | {} | {:.1} |",
        ns(ours),
        ns(bare),
        ours / bare,
        ns(checked),
        ours / checked,
        ns(floor),
        ours / floor
    );
}

/// A row of a call that the original does not have.
pub fn row_alone(call: &str, size: usize, ours: f64, floor: f64) {
    println!("| {call} | {size} | {} | - | - | - | - | - | {} | {:.1} |", ns(ours), ns(floor), ours / floor);
}

/// A memmove of the words.
pub fn memmove(words: &[u32]) -> f64 {
    let mut room = words.to_vec();
    best(|| {
        room.copy_from_slice(black_box(words));
        black_box(&mut room);
    })
}
