//! Many calls on many messages, held to a vector of bytes; and what a message keeps, held to a new check of its words.

mod common;

use common::Numbers;
use latchbeacon::{fields, sysex8, Cursor, Edit, Message, Origin, Payload, Refusal, View};

// Holds every reader of a message to its payload.
fn assert_reads(message: &Message, payload: &[u8], numbers: &mut Numbers) {
    assert_eq!(message.summary(), View::check(message.buffer(), message.length()).unwrap().summary());
    assert_eq!(message.size(), payload.len());
    assert!(message.payload().eq(payload.iter().copied()));
    assert_eq!(message.payload().len(), payload.len());
    assert_eq!(message.payload().last(), payload.last().copied());
    let mut bytes = vec![0xEE; payload.len() + 3];
    assert_eq!(message.copy_payload(&mut bytes), Ok(payload.len()));
    assert_eq!((&bytes[..payload.len()], &bytes[payload.len()..]), (payload, &[0xEE; 3][..]));
    let index = numbers.below(payload.len() + 2);
    assert_eq!(message.byte(index).ok(), payload.get(index).copied());
}

// Holds skips of the reader to those of a slice, to the end and past it.
fn assert_skips(message: &Message, payload: &[u8], numbers: &mut Numbers) {
    let (mut ours, mut wanted) = (message.payload(), payload.iter().copied());
    for _ in 0..6 {
        let skip = numbers.below(20);
        assert_eq!(ours.nth(skip), wanted.nth(skip));
        assert_eq!(ours.len(), wanted.len());
        assert!(Payload::at(message.words(), ours.cursor()).eq(wanted.clone()));
        assert_eq!(ours.next(), wanted.next());
    }
    assert_eq!(ours.nth(usize::MAX), None);
    assert_eq!((ours.next(), ours.len()), (None, 0));
}

// One call on a message and the same on its payload.
fn step(message: &mut Message, payload: &mut Vec<u8>, numbers: &mut Numbers) {
    let (from, other) = (numbers.below(payload.len() + 1), numbers.below(payload.len() + 1));
    let (from, to) = (from.min(other), from.max(other));
    let count = numbers.below(30);
    let bytes = numbers.bytes(count);
    let growth = bytes.len() as i64;
    match numbers.below(8) {
        0 => message.set_group((count % 16) as u8).unwrap(),
        1 => message.set_stream_id(count as u8).unwrap(),
        2 => assert_eq!(message.repack(), Ok(sysex8::words_needed(payload.len()))),
        3 if from < payload.len() => {
            message.set_byte(from, count as u8).unwrap();
            payload[from] = count as u8;
        }
        4 => {
            assert_eq!(message.set_payload(&bytes), Ok(growth - payload.len() as i64));
            *payload = bytes;
        }
        5 => {
            assert_eq!(message.append(&bytes), Ok(growth));
            payload.extend(bytes);
        }
        _ => {
            assert_eq!(message.splice(from..to, &bytes), Ok(growth - (to - from) as i64));
            payload.splice(from..to, bytes);
        }
    }
}

// Many calls on many messages.
#[test]
fn messages_are_vectors_of_bytes() {
    let mut numbers = Numbers::of_seed(7);
    for _ in 0..200 {
        let (mut buffer, mut payload) = numbers.message(10);
        let length = buffer.len();
        buffer.resize(length + 400, 0);
        let mut message = Message::check(&mut buffer, length).unwrap();
        for _ in 0..15 {
            assert_reads(&message, &payload, &mut numbers);
            assert_skips(&message, &payload, &mut numbers);
            step(&mut message, &mut payload, &mut numbers);
        }
    }
}

// Lists of edits at once, each also as a list of edits and their bytes.
#[test]
fn lists_at_once() {
    let mut numbers = Numbers::of_seed(8);
    for _ in 0..500 {
        let (mut buffer, mut payload) = numbers.message(10);
        let length = buffer.len();
        let list = numbers.edits(8, payload.len());
        buffer.resize(length + 200, 0);
        let mut message = Message::check(&mut buffer, length).unwrap();
        let edits: Vec<_> = list.iter().map(|(edit, _)| *edit).collect();
        let bytes: Vec<u8> = list.iter().flat_map(|(_, bytes)| bytes.clone()).collect();
        let growth: i64 = edits.iter().map(|edit| edit.growth().unwrap()).sum();
        assert_eq!(message.splice_edits(&edits, &bytes), Ok(growth));
        for (edit, bytes) in list.into_iter().rev() {
            payload.splice(edit.range(), bytes);
        }
        assert_reads(&message, &payload, &mut numbers);
    }
}

// The origins of all octets of a buffer: the bytes of the dump and of the edits as tags, spliced as a vector and then framed.
fn tags(size: usize, edits: &[Edit], old_words: usize, words_lent: usize) -> Vec<Origin> {
    let mut payload: Vec<Origin> = (0..size).map(|byte| Origin::Dump { byte }).collect();
    for (edit, done) in edits.iter().enumerate().rev() {
        payload.splice(done.range(), (0..done.length).map(|byte| Origin::Edit { edit, byte }));
    }
    payload.resize(payload.len().div_ceil(13).max(1) * 13, Origin::Filler);
    let mut octets = Vec::new();
    for (packet, bytes) in payload.chunks(13).enumerate() {
        octets.extend((0..3).map(|octet| Origin::Header { packet, octet }));
        octets.extend(bytes);
    }
    octets.resize(octets.len().max(4 * old_words), Origin::Zeroed);
    octets.resize(4 * words_lent, Origin::Untouched);
    octets
}

// The octets of words, the most significant first.
fn octets(words: &[u32]) -> Vec<u8> {
    words.iter().flat_map(|word| word.to_be_bytes()).collect()
}

// The status of a packet of so many: complete, start, end, continue.
fn status(packet: usize, packets: usize) -> u8 {
    match packet {
        _ if packets == 1 => 0,
        0 => 1,
        _ if packet + 1 == packets => 3,
        _ => 2,
    }
}

// Holds the octets that a list of edits left to their origins: each is the byte of the dump or of the edit, the header's, zero, or
// what it was.
fn assert_octets(message: &Message, origins: &[Origin], payload: &[u8], list: &[(Edit, Vec<u8>)], before: &[u8]) {
    let after = octets(message.buffer());
    let (packets, head) = (message.length() / 4, [0x50 | message.group(), 0, message.stream_id()]);
    for (place, (octet, origin)) in after.iter().zip(origins).enumerate() {
        let wanted = match *origin {
            Origin::Header { packet, octet: 1 } => {
                status(packet, packets) << 4 | (message.size() - 13 * packet).min(13) as u8 + 1
            }
            Origin::Header { octet, .. } => head[octet],
            Origin::Dump { byte } => payload[byte],
            Origin::Edit { edit, byte } => list[edit].1[byte],
            Origin::Filler | Origin::Zeroed => 0,
            Origin::Untouched => before[place],
        };
        assert_eq!((place, *octet), (place, wanted));
    }
}

// The origin of every octet of many messages and lists, held to tags, and to what the edits then leave.
#[test]
fn origins_are_tags() {
    let mut numbers = Numbers::of_seed(11);
    for _ in 0..400 {
        let (mut buffer, payload) = numbers.message(6);
        let length = buffer.len();
        let list = numbers.edits(6, payload.len());
        let edits: Vec<Edit> = list.iter().map(|(edit, _)| *edit).collect();
        let bytes: Vec<u8> = list.iter().flat_map(|(_, bytes)| bytes.clone()).collect();
        let needed = sysex8::words_needed(payload.len() + bytes.len());
        buffer.resize_with(needed.max(length) + 5, || numbers.below(1 << 32) as u32);
        let (lent, before) = (buffer.len(), octets(&buffer));
        let mut message = Message::check(&mut buffer, length).unwrap();
        let origins: Vec<Origin> = (0..4 * lent).map(|octet| message.origin(&edits, &bytes, octet).unwrap()).collect();
        assert_eq!(origins, tags(payload.len(), &edits, length, lent));
        assert_eq!(message.origin(&edits, &bytes, 4 * lent).unwrap_err().refusal, Refusal::Range);
        message.splice_edits(&edits, &bytes).unwrap();
        assert_octets(&message, &origins, &payload, &list, &before);
    }
}

// A reader takes any words and any cursor, and knows how many bytes it has left.
#[test]
fn readers_take_anything() {
    let mut numbers = Numbers::of_seed(9);
    for _ in 0..2_000 {
        let count = numbers.below(24);
        let words: Vec<u32> = (0..count).map(|_| numbers.below(1 << 32) as u32).collect();
        let any = [0, numbers.below(20), usize::MAX];
        let cursor = Cursor { packet: any[numbers.below(3)], byte: any[numbers.below(3)], remaining: any[numbers.below(3)] };
        let mut payload = Payload::at(&words, cursor);
        let wanted = payload.len();
        assert!(wanted <= cursor.remaining);
        assert_eq!(payload.by_ref().map(drop).fold(0, |count, ()| count + 1), wanted);
        assert_eq!((payload.next(), payload.len()), (None, 0));
    }
}

// What is set in a word is read back, and nothing else is changed.
#[test]
fn fields_are_read_back() {
    let mut numbers = Numbers::of_seed(10);
    for _ in 0..2_000 {
        let word = numbers.below(1 << 32) as u32;
        let (index, value) = (numbers.below(4), numbers.below(128) as u8);
        let set = fields::set_septet(word, index, value).unwrap();
        assert_eq!(fields::septet(set, index), Ok(value));
        assert_eq!((set ^ word) & !(0x7F << (24 - 8 * index)), 0);
        let octet = fields::set_octet(word, index, value).unwrap();
        assert_eq!(octet.to_be_bytes()[index], value);
        assert_eq!(fields::octet(word, index), Ok(word.to_be_bytes()[index]));
        assert_eq!(fields::word(word, index % 2), Ok((word >> (16 - 16 * (index % 2))) as u16));
        assert_eq!(fields::bit(word, 31 - index), Ok(word >> index & 1 == 1));
    }
}
