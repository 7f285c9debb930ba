//! The reader of a payload, which takes a packet at a time, held to the library's reader, which takes a byte at a time.

#[allow(dead_code)]
mod common;

use common::{message, Numbers};
use latchbeacon::{sysex8, Cursor, Message, Payload, View};

// Reads a byte by one call of the library: `nth` keeps no bytes at hand.
struct ByteByByte<'a>(Payload<'a>);

impl Iterator for ByteByByte<'_> {
    type Item = u8;

    // The next byte.
    fn next(&mut self) -> Option<u8> {
        self.0.nth(0)
    }
}

// Holds what a reader answers, without being moved on, to a reader that stands at its cursor.
fn assert_stands(ours: &Payload, slow: &ByteByByte) {
    assert_eq!(ours.cursor(), slow.0.cursor());
    assert_eq!((ours.len(), ours.size_hint()), (slow.0.len(), slow.0.size_hint()));
    assert_eq!(format!("{ours:?}"), format!("{:?}", slow.0));
    let wanted: Vec<u8> = ByteByByte(slow.0.clone()).collect();
    assert_eq!(ours.to_vec(), wanted);
    assert_eq!(ours.clone().collect::<Vec<u8>>(), wanted);
    assert_eq!(ours.clone().fold(Vec::new(), |bytes, byte| [bytes, vec![byte]].concat()), wanted);
    assert_eq!((ours.clone().count(), ours.clone().last()), (wanted.len(), wanted.last().copied()));
}

// Reads both to the end by steps of `next` and `nth`, and past it.
fn assert_reads(words: &[u32], cursor: Cursor, numbers: &mut Numbers) {
    let (mut ours, mut slow) = (Payload::at(words, cursor), ByteByByte(Payload::at(words, cursor)));
    assert_stands(&ours, &slow);
    while ours.len() > 0 {
        if numbers.below(4) > 0 {
            assert_eq!(ours.next(), slow.next());
        } else {
            let skip = [0, 1, numbers.below(13), numbers.below(40)][numbers.below(4)];
            assert_eq!(ours.nth(skip), slow.nth(skip));
        }
        assert_stands(&ours, &slow);
    }
    for _ in 0..2 {
        assert_eq!((ours.next(), slow.next()), (None, None));
        assert_stands(&ours, &slow);
    }
}

// Messages of full, short and empty packets.
#[test]
fn uneven_messages() {
    let mut numbers = Numbers::of_seed(21);
    for _ in 0..300 {
        let (words, payload) = numbers.message(6);
        assert_eq!(View::check(&words, words.len()).unwrap().payload().to_vec(), payload);
        assert_eq!(Payload::open(&words, words.len()).unwrap().to_vec(), payload);
        assert_reads(&words, Cursor { packet: 0, byte: 0, remaining: payload.len() }, &mut numbers);
    }
}

// Any words, and any cursor.
#[test]
fn any_words_and_cursors() {
    let mut numbers = Numbers::of_seed(22);
    for _ in 0..2_000 {
        let count = numbers.below(24);
        let words: Vec<u32> = (0..count).map(|_| numbers.below(1 << 32) as u32).collect();
        let any = [0, numbers.below(3), numbers.below(30), usize::MAX];
        let cursor = Cursor { packet: any[numbers.below(4)], byte: any[numbers.below(4)], remaining: any[numbers.below(4)] };
        assert_reads(&words, cursor, &mut numbers);
    }
}

// Every row of up to three packets of 0, 1, 7, 12 and 13 bytes: each number of bytes read by `next`, then each number skipped.
#[test]
fn short_messages() {
    let sizes = [0, 1, 7, 12, 13];
    let rows = |rows: Vec<Vec<usize>>| rows.into_iter().flat_map(|row| sizes.map(|size| [&row[..], &[size]].concat())).collect();
    let one: Vec<Vec<usize>> = rows(vec![vec![]]);
    let two: Vec<Vec<usize>> = rows(one.clone());
    let three: Vec<Vec<usize>> = rows(two.clone());
    for row in [one, two, three].concat() {
        let payload: Vec<u8> = (1..=row.iter().sum::<usize>() as u8).collect();
        let words = message(0, 0, &payload, &row);
        let view = View::check(&words, words.len()).unwrap();
        for read in 0..=payload.len() {
            for skip in 0..=payload.len() - read {
                let (mut ours, mut wanted) = (view.payload(), payload.iter());
                assert!(ours.by_ref().take(read).eq(wanted.by_ref().copied().take(read)));
                assert_eq!(ours.nth(skip), wanted.nth(skip).copied());
                assert_eq!(ours.next(), wanted.next().copied());
                assert_eq!((ours.len(), &ours.to_vec()[..]), (wanted.len(), wanted.as_slice()));
                ours.for_each(|byte| assert_eq!(Some(&byte), wanted.next()));
                assert_eq!(wanted.next(), None);
            }
        }
    }
}

// The longest payload, all three ways.
#[test]
fn the_longest_payload() {
    let bytes: Vec<u8> = (0..53_248u32).map(|index| (index % 251) as u8).collect();
    let mut words = vec![0; 16_384];
    words[..4].copy_from_slice(&sysex8::EMPTY);
    let mut message = Message::check(&mut words, 4).unwrap();
    message.set_payload(&bytes).unwrap();
    assert_eq!(message.payload().to_vec(), bytes);
    assert!(message.payload().eq(bytes.iter().copied()));
    assert_eq!(message.payload().map(u64::from).sum::<u64>(), bytes.iter().copied().map(u64::from).sum::<u64>());
}
