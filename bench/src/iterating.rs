//! Reading a payload through the iterator of the Rust bindings, and through the original's. Ours makes a checked view of the words first.
use crate::original;
use crate::table::row;
use crate::time::Times;
use latchbeacon::View;
use midi2::{inside, Sysex};
use std::hint::black_box;

/// The bytes, by the iterator's `next`.
#[inline(never)]
fn by_next(bytes: &mut [u8], payload: impl Iterator<Item = u8>) {
    for (to, from) in bytes.iter_mut().zip(payload) {
        *to = from;
    }
}

/// The bytes, by the iterator's `fold`.
#[inline(never)]
fn by_fold(bytes: &mut [u8], payload: impl Iterator<Item = u8>) {
    let mut room = bytes.iter_mut();
    payload.for_each(|from| {
        if let Some(to) = room.next() {
            *to = from;
        }
    });
}

/// The message, checked by the bindings.
fn view(words: &[u32]) -> View<'_> {
    View::try_from(words).expect("a message")
}

/// The payload by `next`.
pub fn our_next(words: &[u32], bytes: &mut [u8]) {
    by_next(bytes, view(words).payload());
}

/// The payload by `fold`.
pub fn our_fold(words: &[u32], bytes: &mut [u8]) {
    by_fold(bytes, view(words).payload());
}

/// The payload to a new vector.
pub fn our_vector(words: &[u32], _: &mut [u8]) {
    _ = black_box(view(words).payload().to_vec());
}

/// The original's payload by `next`.
pub fn their_next(words: &[u32], bytes: &mut [u8]) {
    by_next(bytes, inside::sysex8(words).payload());
}

/// The original's payload by `fold`.
pub fn their_fold(words: &[u32], bytes: &mut [u8]) {
    by_fold(bytes, inside::sysex8(words).payload());
}

/// The original's payload to a new vector.
pub fn their_vector(words: &[u32], _: &mut [u8]) {
    _ = black_box(inside::sysex8(words).payload().collect::<Vec<u8>>());
}

/// A way to read a payload.
type Read = fn(&[u32], &mut [u8]);

/// The rows of a payload.
pub fn rows(bytes: &[u8], words: &[u32], floor: f64) {
    let calls: [(&str, Read, Read); 3] = [
        ("bindings: payload by `next`", our_next, their_next),
        ("bindings: payload by `fold`", our_fold, their_fold),
        ("bindings: payload to a vector", our_vector, their_vector),
    ];
    assert_eq!(view(words).payload().to_vec(), bytes);
    for (call, ours, theirs) in calls {
        let mut rooms = [(); 3].map(|()| bytes.to_vec());
        let [one, two, three] = &mut rooms;
        let times = Times::of(
            || ours(black_box(words), black_box(one)),
            || theirs(black_box(words), black_box(two)),
            || {
                original::check(black_box(words));
                theirs(black_box(words), black_box(three))
            },
        );
        assert!(rooms.iter().all(|room| room == bytes));
        row(call, bytes.len(), 0.20, times, floor);
    }
}
