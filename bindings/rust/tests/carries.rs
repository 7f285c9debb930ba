//! Whether packets carry a payload: packings of the payload that they were made of, and payloads that differ from it.

#[allow(dead_code)]
mod common;

use common::{message, Numbers};
use latchbeacon::{sysex8, Error, Message, Refusal, View, MOST_BYTES, MOST_WORDS};

const YES: Result<(), Error> = Ok(());
const GROUP: u8 = 5;
const ID: u8 = 0x66;

// The answer for another group, stream id or payload.
fn other(place: usize) -> Result<(), Error> {
    Err(Error { refusal: Refusal::Other, place })
}

// Asks a view, and a message that has a packet more behind it, checked before or not; all answer the same, and no word changes.
fn asked(words: &[u32], payload: &[u8], group: u8, id: u8) -> Result<(), Error> {
    let answer = View::check(words, words.len()).unwrap().carries(payload, group, id);
    let behind = [words[words.len() - 4], 0x0101_0101, 0, 0];
    let mut buffer = [words, &behind].concat();
    let message = Message::check(&mut buffer, words.len()).unwrap();
    assert_eq!(message.carries(payload, group, id), answer);
    assert_eq!((message.words(), &message.buffer()[words.len()..]), (words, &behind[..]));
    assert_eq!(sysex8::carries(message.buffer(), words.len(), payload, group, id), answer);
    answer
}

// Every row of one to `most` sizes of 0 to 13 that has this sum.
fn packings(sum: usize, most: usize) -> Vec<Vec<usize>> {
    let mut found = Vec::new();
    let mut rows = vec![vec![]];
    for _ in 0..most {
        rows = rows.iter().flat_map(|row: &Vec<usize>| (0..=13).map(|size| [&row[..], &[size]].concat())).collect();
        rows.retain(|row| row.iter().sum::<usize>() <= sum);
        found.extend(rows.iter().filter(|row| row.iter().sum::<usize>() == sum).cloned());
    }
    found
}

// The first word of the packet that holds a byte.
fn place_of(sizes: &[usize], byte: usize) -> usize {
    let ends = sizes.iter().scan(0, |end, size| {
        *end += size;
        Some(*end)
    });
    4 * ends.take_while(|end| *end <= byte).count()
}

// Writes to each unused octet of packets in which they are zero.
fn soil(words: &mut [u32], mut byte: impl FnMut() -> u8) {
    for packet in words.chunks_mut(4) {
        let used = 3 + (packet[0] >> 16 & 15) as usize - 1;
        (used..16).for_each(|octet| packet[octet / 4] |= u32::from(byte()) << (24 - 8 * (octet % 4)));
    }
}

// Holds a packing to its payload: yes, and a no for each byte changed, for a byte more and less, for another group and stream id.
fn assert_carries(words: &[u32], payload: &[u8], sizes: &[usize]) {
    assert_eq!(asked(words, payload, GROUP, ID), YES);
    for byte in 0..payload.len() {
        let mut changed = payload.to_vec();
        changed[byte] ^= 1 << (byte % 8);
        assert_eq!(asked(words, &changed, GROUP, ID), other(place_of(sizes, byte)));
        // What is before it decides, and a byte more is not asked for.
        changed.push(0);
        changed[byte + 1] ^= 0xFF;
        assert_eq!(asked(words, &changed, GROUP, ID), other(place_of(sizes, byte)));
        assert_eq!(asked(words, &changed, GROUP ^ 1, ID), other(0));
        assert_eq!(asked(words, &payload[..byte], GROUP, ID), other(0));
    }
    for more in [0, 1, 0x77] {
        assert_eq!(asked(words, &[payload, &[more]].concat(), GROUP, ID), other(0));
    }
    for (group, id) in [(GROUP ^ 8, ID), (GROUP, ID ^ 0x80), (ID & 15, GROUP)] {
        assert_eq!(asked(words, payload, group, id), other(0));
    }
}

// Payloads of no, one, two and three packets in every packing into at most three, with unused octets of zero, of one byte, and of the
// bytes that follow.
#[test]
fn every_packing() {
    for (size, wanted) in [(0, 3), (1, 6), (13, 120), (14, 130), (26, 106), (27, 91)] {
        let payload: Vec<u8> = (0..size as u8).map(|byte| 3 * byte + 1).collect();
        let packings = packings(size, 3);
        assert_eq!(packings.len(), wanted);
        for sizes in packings {
            let words = message(GROUP.into(), ID.into(), &payload, &sizes);
            assert_carries(&words, &payload, &sizes);
            let mut soiled = words.clone();
            soil(&mut soiled, || 0x77);
            assert_carries(&soiled, &payload, &sizes);
            let mut followed = words;
            let first = sizes[0];
            let mut rest = payload[first..].iter();
            soil(&mut followed, || rest.next().copied().unwrap_or(0));
            assert_carries(&followed, &payload, &sizes);
        }
    }
}

// Empty packets alone carry the empty payload, and no other.
#[test]
fn empty_packets() {
    for packets in 1..=40 {
        let words = message(GROUP.into(), ID.into(), &[], &vec![0; packets]);
        assert_eq!(asked(&words, &[], GROUP, ID), YES);
        assert_eq!(asked(&words, &[0], GROUP, ID), other(0));
        assert_eq!(asked(&words, &[], GROUP, ID + 1), other(0));
    }
}

// Every group and every stream id: one of each is a yes, and what is no group is refused as such.
#[test]
fn every_group_and_id() {
    let words = message(GROUP.into(), ID.into(), &[1, 2, 3], &[1, 0, 2]);
    for number in 0..=255 {
        let group = match number {
            GROUP => YES,
            0..=15 => other(0),
            _ => Err(Error { refusal: Refusal::Field, place: 0 }),
        };
        assert_eq!(asked(&words, &[1, 2, 3], number, ID), group);
        assert_eq!(asked(&words, &[1, 2, 3], GROUP, number), if number == ID { YES } else { other(0) });
    }
}

// What must be answered for a payload: that of the packets, sizes and bytes compared as vectors.
fn wanted(carried: &[u8], sizes: &[usize], payload: &[u8]) -> Result<(), Error> {
    match carried.iter().zip(payload).position(|(one, other)| one != other) {
        Some(byte) => other(place_of(sizes, byte)),
        None if carried.len() == payload.len() => YES,
        None => other(0),
    }
}

// Many messages with any unused octets, each asked for payloads that are like its own: cut, longer, with bytes changed.
#[test]
fn many_messages() {
    let mut numbers = Numbers::of_seed(40);
    let mut yes = 0;
    for _ in 0..3_000 {
        let (mut words, carried) = numbers.message(8);
        soil(&mut words, || numbers.below(256) as u8);
        let sizes: Vec<usize> = words.chunks(4).map(|packet| (packet[0] >> 16 & 15) as usize - 1).collect();
        let (group, id) = ((words[0] >> 24 & 15) as u8, (words[0] >> 8) as u8);
        let mut payload = carried.clone();
        for _ in 0..numbers.below(3) {
            let (place, byte) = (numbers.below(payload.len() + 1), numbers.below(256) as u8);
            match numbers.below(4) {
                0 => payload.truncate(place),
                1 => payload.push(byte),
                2 => payload.insert(place, byte),
                _ => payload.iter_mut().skip(place).take(1).for_each(|old| *old = byte),
            }
        }
        let answer = asked(&words, &payload, group, id);
        assert_eq!(answer, wanted(&carried, &sizes, &payload));
        assert_eq!(asked(&words, &payload, group ^ 4, id), other(0));
        yes += usize::from(answer == YES);
    }
    assert!((900..2_100).contains(&yes), "{yes} of 3,000 are carried");
}

// The longest message, and payloads that no message carries.
#[test]
fn the_longest_payload() {
    let mut bytes: Vec<u8> = (0..1_000_000u32).map(|index| (index % 251) as u8).collect();
    let words = message(GROUP.into(), ID.into(), &bytes[..MOST_BYTES], &[13; MOST_WORDS / 4]);
    let view = View::check(&words, MOST_WORDS).unwrap();
    assert_eq!(view.carries(&bytes[..MOST_BYTES], GROUP, ID), YES);
    for size in [0, 1, MOST_BYTES - 1, MOST_BYTES + 1, 65_536, MOST_BYTES + 65_536, 1_000_000] {
        assert_eq!(view.carries(&bytes[..size], GROUP, ID), other(0));
    }
    for byte in [MOST_BYTES, MOST_BYTES - 1, MOST_BYTES - 13, MOST_BYTES - 14, 13, 12, 0] {
        bytes[byte] ^= 0x10;
        let place = if byte < MOST_BYTES { byte / 13 * 4 } else { 0 };
        assert_eq!(view.carries(&bytes, GROUP, ID), other(place));
    }
    assert_eq!(view.carries(&bytes, GROUP, ID ^ 1), other(0));
}

// Words that are not checked before: the check's refusals come first, also before a group above 15, and their places are the check's.
#[test]
fn unchecked_words() {
    let bytes = [1, 2, 3];
    let good = message(GROUP.into(), ID.into(), &bytes, &[1, 0, 2]);
    let refused = |words: &[u32], length, group| {
        sysex8::carries(words, length, &bytes, group, ID).map_err(|error| (error.number(), error.place))
    };
    assert_eq!(refused(&good, 12, GROUP), Ok(()));
    assert_eq!(refused(&vec![0; MOST_WORDS + 1], 4, 16), Err((1, 0)));
    assert_eq!(refused(&good, 13, 16), Err((2, 0)));
    assert_eq!(refused(&good, 3, 16), Err((3, 0)));
    assert_eq!(refused(&good, 9, 16), Err((4, 0)));
    assert_eq!(refused(&good, 4, 16), Err((6, 0)));
    assert_eq!(refused(&good, 8, 16), Err((9, 4)));
    for (bits, number) in [(0x1000_0000, 5), (0x0010_0000, 9), (0x0003_0000, 10), (0x0100_0000, 11), (0x0000_0100, 12)] {
        let mut words = good.clone();
        words[8] ^= bits;
        assert_eq!(refused(&words, 12, 16), Err((number, 8)));
    }
    assert_eq!(refused(&good, 12, 16), Err((16, 0)));
    assert_eq!(refused(&good, 12, GROUP ^ 1), Err((26, 0)));
}
