//! The calls of one message: reading, setting, splicing, packing; and the byte stream.
use crate::table::{memmove, row, row_alone};
use crate::time::{best, Times};
use crate::{inputs, original, port};
use std::hint::black_box;

/// Calls that only read.
pub fn reads(bytes: &[u8], words: &[u32], floor: f64) {
    let (size, middle) = (bytes.len(), bytes.len() / 2);
    let check = || original::check(black_box(words));
    row("check", size, 0.20, Times::of(|| port::check(black_box(words)), check, check), floor);
    let mut rooms = [(); 3].map(|()| vec![0; size]);
    let [one, two, three] = &mut rooms;
    let times = Times::of(
        || port::payload(black_box(words), black_box(one)),
        || original::payload(black_box(words), black_box(two)),
        || {
            original::check(black_box(words));
            original::payload(black_box(words), black_box(three))
        },
    );
    assert!(rooms.iter().all(|room| room == bytes));
    row("whole payload", size, 0.08, times, floor);
    assert_eq!(port::byte(words, middle), original::byte(words, middle));
    let times = Times::of(
        || _ = black_box(port::byte(black_box(words), black_box(middle))),
        || _ = black_box(original::byte(black_box(words), black_box(middle))),
        || {
            original::check(black_box(words));
            _ = black_box(original::byte(black_box(words), black_box(middle)))
        },
    );
    row("byte in the middle", size, 0.15, times, floor);
}

/// Whether a message carries a payload: packed, and uneven. The original has no such call; what it reads of a message is compared.
pub fn carrying(bytes: &[u8], words: &[u32], floor: f64) {
    let other: Vec<u8> = bytes.iter().copied().take(bytes.len() - 1).chain([!bytes[bytes.len() - 1]]).collect();
    for (call, words, goal) in [("carries the payload", words, 0.08), ("carries the payload, uneven", &inputs::uneven(bytes), 0.20)] {
        assert!(port::carries(words, bytes) && original::carries(words, bytes));
        assert!(!port::carries(words, &other) && !original::carries(words, &other));
        let times = Times::of(
            || _ = black_box(port::carries(black_box(words), black_box(bytes))),
            || _ = black_box(original::carries(black_box(words), black_box(bytes))),
            || {
                original::check(black_box(words));
                _ = black_box(original::carries(black_box(words), black_box(bytes)))
            },
        );
        row(call, bytes.len(), goal, times, floor);
    }
}

/// A call that sets something of a message: at an index, to a value.
type Set = fn(&mut [u32], usize, u8);

/// Setting the byte in the middle, the group, the stream id. The original's stream id is another octet, so that its words are not compared.
pub fn setters(words: &[u32], size: usize, floor: f64) {
    let calls: [(&str, f64, Set, Set, bool); 3] = [
        ("set byte", 0.15, port::set_byte, original::set_byte, true),
        ("set group", 0.20, port::set_group, original::set_group, true),
        ("set stream id", 0.20, port::set_stream_id, original::set_stream_id, false),
    ];
    for (call, goal, ours, theirs, alike) in calls {
        let (mut one, mut two, mut three, middle) = (words.to_vec(), words.to_vec(), words.to_vec(), size / 2);
        let times = Times::of(
            || ours(black_box(&mut one), black_box(middle), black_box(5)),
            || theirs(black_box(&mut two), black_box(middle), black_box(5)),
            || {
                original::check(black_box(&three));
                theirs(black_box(&mut three), black_box(middle), black_box(5))
            },
        );
        assert!(two == three && (!alike || one == two));
        row(call, size, goal, times, floor);
    }
}

/// Splices from a byte on: 8 bytes by 16, 16 by 8, 8 by 8.
pub fn splices(bytes: &[u8], words: &[u32], from: usize, place: &str, floor: f64) {
    let (eight, sixteen) = ([7u8; 8], [9u8; 16]);
    let (mut ours, mut bare, mut checked) = (port::Bank::new(words), original::Bank::new(words), original::Bank::new(words));
    let (grow, shrink) = Times::in_turn(
        (&mut ours, (|bank| bank.splice(from, from + 8, &sixteen), |bank| bank.splice(from, from + 16, &eight))),
        (&mut bare, (|bank| bank.splice(from, from + 8, &sixteen), |bank| bank.splice(from, from + 16, &eight))),
        (
            &mut checked,
            (|bank| bank.checked_splice(from, from + 8, &sixteen), |bank| bank.checked_splice(from, from + 16, &eight)),
        ),
    );
    let same = Times::of(
        || ours.splice(black_box(from), black_box(from + 8), black_box(&eight)),
        || bare.splice(black_box(from), black_box(from + 8), black_box(&eight)),
        || checked.checked_splice(black_box(from), black_box(from + 8), black_box(&eight)),
    );
    assert!(ours.payload() == bare.payload() && ours.payload() == checked.payload());
    for (call, times) in [("splice 8 by 16", grow), ("splice 16 by 8", shrink), ("splice 8 by 8", same)] {
        row(&format!("{call}{place}"), bytes.len(), 0.05, times, floor);
    }
}

/// Packing an uneven message. Copying it in is timed alone and taken off.
pub fn packing(bytes: &[u8], floor: f64) {
    let uneven = inputs::uneven(bytes);
    let mut rooms = [(); 4].map(|()| uneven.clone());
    let [zero, one, two, three] = &mut rooms;
    let packing = |room: &mut Vec<u32>, pack: &dyn Fn(&mut [u32])| {
        room.copy_from_slice(black_box(&uneven));
        pack(black_box(room));
    };
    let copy = best(|| packing(zero, &|_| ()));
    let times = Times::of(
        || packing(one, &port::pack),
        || packing(two, &original::pack),
        || {
            packing(three, &|words| {
                original::check(words);
                original::pack(words)
            })
        },
    );
    row("packing, uneven", bytes.len(), 0.25, times.less(copy, copy), floor);
}

/// The origin of a payload octet in the middle, with two edits to 13 bytes.
pub fn origin(words: &[u32], size: usize, floor: f64) {
    let (edits, bytes) = inputs::edits(size);
    let middle = inputs::middle_octet(words);
    let ours = best(|| _ = black_box(port::origin(black_box(words), black_box(&edits), black_box(&bytes), black_box(middle))));
    row_alone("origin in the middle", size, ours, floor);
}

/// A byte stream to SysEx7 packets, and one with a clock byte behind each data byte, at which the original panics. The floor is a
/// memmove of the packets. The original makes a new `Vec` each time.
pub fn streams(size: usize) {
    let (plain, clocked) = (inputs::stream(size, false), inputs::stream(size, true));
    let theirs = original::Stream::new(&plain);
    let words = theirs.words();
    let floor = memmove(&words);
    let (mut one, mut two) = (vec![0; words.len()], vec![0; words.len()]);
    let times = Times::of(
        || port::stream(black_box(&plain), black_box(&mut one)),
        || _ = black_box(black_box(&theirs).packets()),
        || _ = black_box(original::Stream::new(black_box(&plain)).packets()),
    );
    let alone = best(|| port::stream(black_box(&clocked), black_box(&mut two)));
    assert!(one == words && two == words);
    row("bytes to SysEx7", size, 0.05, times, floor);
    row_alone("bytes to SysEx7, with clock", size, alone, floor);
}
