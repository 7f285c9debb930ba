//! Random inputs: messages around every boundary, words behind them, damaged copies.
use crate::answers::{Input, Kind, FIELDS};
use crate::differences::size;
use crate::layout::*;
use crate::random::Random;

/// Payload sizes around the boundaries of packets.
pub const BOUNDARIES: [usize; 16] = [0, 1, 2, 11, 12, 13, 14, 15, 25, 26, 27, 28, 38, 39, 40, 52];

/// A payload size: mostly at a boundary, seldom a large one.
pub fn payload_size(random: &mut Random) -> usize {
    match random.below(400) {
        0 => random.below(3000),
        1..=100 => random.below(120),
        _ => random.pick(&BOUNDARIES),
    }
}

/// Sizes of packets for a payload: the fewest, or uneven with empty packets among them.
fn packet_sizes(random: &mut Random, size: usize) -> Vec<usize> {
    if !random.once_in(3) {
        return SYSEX8.fewest(size);
    }
    let mut sizes = Vec::new();
    let mut left = size;
    while left > 0 || sizes.is_empty() || random.once_in(4) {
        let most = left.min(13);
        let packet = match random.below(3) {
            0 => most,
            1 => 0,
            _ => random.between(0, most),
        };
        sizes.push(packet);
        left -= packet;
    }
    sizes
}

/// A stream id, often 0.
fn any_id(random: &mut Random) -> u32 {
    match random.below(3) {
        0 => 0,
        _ => random.word() & 0xFF,
    }
}

/// A valid message of a payload size, with unused octets that may not be zero.
pub fn message_of(random: &mut Random, size: usize) -> Vec<u32> {
    let sizes = packet_sizes(random, size);
    let (group, id) = (random.word() & 15, any_id(random));
    let payload = random.bytes(size);
    let mut words = SYSEX8.message(group, id, &sizes, &payload);
    if random.once_in(3) {
        for (packet, &size) in sizes.iter().enumerate() {
            for index in size..13 {
                SYSEX8.put(&mut words, 4 * packet, index, random.byte());
            }
        }
    }
    words
}

/// A valid message.
pub fn message(random: &mut Random) -> Vec<u32> {
    let size = payload_size(random);
    message_of(random, size)
}

/// Words to stand behind a message: none, zeros, anything, packets, or another message.
pub fn behind(random: &mut Random) -> Vec<u32> {
    match random.below(8) {
        0 => vec![0; random.between(1, 3)],
        1 => vec![0; 4 * random.between(1, 3)],
        2 => (0..random.between(1, 12)).map(|_| random.word()).collect(),
        3 => message(random),
        4 => (0..random.between(4, 12))
            .map(|word| {
                if word % 4 == 0 {
                    0x5000_0000 | random.word() & 0x0F3F_FFFF
                } else {
                    random.word()
                }
            })
            .collect(),
        _ => Vec::new(),
    }
}

/// A message and what stands behind it.
pub fn lent(random: &mut Random) -> (Vec<u32>, u64) {
    let mut words = message(random);
    let length = words.len() as u64;
    words.extend(behind(random));
    (words, length)
}

/// A damaged copy: a nibble or octet of a first word changed, words cut off, or a packet moved.
pub fn damaged(random: &mut Random, words: &[u32]) -> Vec<u32> {
    let mut words = words.to_vec();
    for _ in 0..random.between(1, 2) {
        let packet = 4 * random.below(words.len().div_ceil(4).max(1));
        match random.below(8) {
            0 => words.truncate(random.below(words.len() + 1)),
            1 => words.extend((0..random.between(1, 4)).map(|_| random.word())),
            2 if packet + 8 <= words.len() => words[packet..packet + 8].rotate_left(4),
            3 if packet < words.len() => words[packet] ^= 1 << random.pick(&[28, 29, 30, 31]),
            4 if packet < words.len() => words[packet] ^= random.word() & 0x00F0_0000,
            5 if packet < words.len() => {
                words[packet] = words[packet] & 0xFFF0_FFFF | random.pick(&[0, 0xF_0000])
            }
            6 if packet < words.len() => words[packet] ^= random.word() & 0x0F00_FF00,
            _ if packet < words.len() => words[packet] ^= 1 << random.below(32),
            _ => words.push(random.word()),
        }
    }
    words
}

/// Letters and numbers of some steps over a payload of a size.
pub fn steps(random: &mut Random, size: usize) -> (Vec<u8>, Vec<u64>) {
    let count = random.between(1, 6);
    let mut letters = Vec::new();
    let mut numbers = Vec::new();
    for _ in 0..count {
        let next = random.once_in(3);
        letters.push(if next { b'n' } else { b't' });
        let skip = match random.below(24) {
            0 => u64::MAX - random.below(3) as u64,
            1 => random.between(size, size + 3) as u64,
            _ => random.below(size / 2 + 2) as u64,
        };
        numbers.push(if next { 0 } else { skip });
    }
    (letters, numbers)
}

/// A single packet of either kind.
pub fn packet(random: &mut Random, shape: &Shape) -> Vec<u32> {
    let mut words: Vec<u32> = (0..shape.words).map(|_| random.word()).collect();
    if random.once_in(3) {
        words.fill(0);
    }
    let first = words[0];
    words[0] = shape.kind << 28 | first & 0x0F3F_FFFF;
    match random.below(12) {
        0 => words[0] = first,
        1 => words.truncate(random.below(shape.words)),
        2 => words.extend((0..random.below(5)).map(|_| random.word())),
        3 => words[0] |= random.word() & 0x00F0_0000,
        _ if !shape.has_id => words[0] &= 0xFFF7_FFFF,
        _ => {}
    }
    words
}

/// A question about a field of a word.
pub fn field(random: &mut Random, set: bool) -> Input {
    let field = random.pick(&FIELDS);
    let index = match random.below(200) {
        0 => field.indexes() + random.below(3) as u64,
        1 => u64::MAX - random.below(40) as u64,
        _ => random.below(field.indexes() as usize) as u64,
    };
    let word = [random.word()];
    if !set {
        return Input::new(Kind::Read(field), &word, &[index]);
    }
    let most = field.most() as usize;
    let value = match random.below(200) {
        0 if most < 200 && most > 1 => random.between(most + 1, 255),
        _ => random.between(0, most),
    };
    Input::new(Kind::Set(field), &word, &[index, value as u64])
}

/// A question about a single packet.
pub fn single(random: &mut Random, kind: Kind) -> Input {
    let shape = crate::model::shape_of(kind);
    let words = packet(random, shape);
    match kind {
        Kind::Packet8 | Kind::Packet7 => Input::new(kind, &words, &[]),
        Kind::Steps8 | Kind::Steps7 => {
            let (letters, numbers) = steps(random, shape.room);
            Input::with_bytes(kind, &words, &letters, &numbers)
        }
        _ => {
            let group = if random.once_in(50) {
                random.between(16, 255)
            } else {
                random.below(16)
            };
            Input::new(kind, &words, &[group as u64])
        }
    }
}

/// A question about a message's setters.
fn setter(random: &mut Random, kind: Kind, words: &[u32], length: u64) -> Input {
    let size = size(&words[..length as usize]);
    match kind {
        Kind::SetGroup => {
            let group = if random.once_in(50) {
                random.between(16, 255)
            } else {
                random.below(16)
            };
            Input::new(kind, words, &[length, group as u64])
        }
        Kind::SetStreamId => Input::new(kind, words, &[length, random.byte().into()]),
        _ => {
            let index = if random.once_in(20) {
                size + random.below(20)
            } else {
                random.below(size.max(1))
            };
            Input::new(kind, words, &[length, index as u64, random.byte().into()])
        }
    }
}

/// Words behind a message for a result of a size: a growing buffer's port gets just enough; lent words are
/// sometimes exactly full, or one word short.
fn make_room(random: &mut Random, kind: Kind, words: &mut Vec<u32>, length: usize, size: usize) {
    let needed = SYSEX8.words_for(size);
    if kind.is_growing() {
        words.truncate(length);
        words.resize(needed.max(length), 0);
        return;
    }
    match random.below(4) {
        0 => words.resize(needed.max(length), 0),
        1 => words.resize((needed - 1).max(length), 0),
        2 => words.extend((0..needed).map(|_| random.word())),
        _ => words.resize(words.len().max(needed + random.below(5)), 0),
    }
}

/// The range of a splice: inside the payload, sometimes reversed or past it.
fn range(random: &mut Random, size: usize) -> (u64, u64) {
    let from = random.between(0, size);
    let most = size.min(from + random.between(0, 40));
    match random.below(40) {
        0 => (from as u64, random.below(from + 1) as u64),
        1 => (from as u64, (size + random.between(1, 20)) as u64),
        _ => (from as u64, random.between(from, most) as u64),
    }
}

/// A question that rewrites a message.
pub fn rewriting(random: &mut Random, kind: Kind, words: Vec<u32>, length: u64) -> Input {
    let mut words = words;
    let old = size(&words[..length as usize]);
    if kind == Kind::Pack {
        return Input::new(kind, &words, &[length]);
    }
    let inserted = payload_size(random);
    let bytes = random.bytes(inserted);
    if kind.is_payload() {
        make_room(random, kind, &mut words, length as usize, inserted);
        return Input::with_bytes(kind, &words, &bytes, &[length]);
    }
    let (from, to) = range(random, old);
    let new = (old + inserted + from as usize).saturating_sub(to as usize);
    make_room(random, kind, &mut words, length as usize, new);
    Input::with_bytes(kind, &words, &bytes, &[length, from, to])
}

/// A question about a message, which is valid, or damaged once in `damage`.
pub fn on_message(random: &mut Random, kind: Kind, damage: usize) -> Input {
    let (mut words, length) = lent(random);
    if kind == Kind::Check8 && random.once_in(2) {
        words.truncate(length as usize);
    }
    let mut input = match kind {
        Kind::Check8 => Input::new(kind, &words, &[length]),
        Kind::Reader => {
            let (letters, numbers) = steps(random, size(&words[..length as usize]));
            Input::with_bytes(kind, &words, &letters, &[&[length], &numbers[..]].concat())
        }
        Kind::SetGroup | Kind::SetStreamId | Kind::SetByte => setter(random, kind, &words, length),
        _ => rewriting(random, kind, words, length),
    };
    if random.once_in(damage) {
        spoil_message(random, &mut input);
    }
    input
}

/// Damages the message of a question; its length is then mostly that of all words lent.
pub fn spoil_message(random: &mut Random, input: &mut Input) {
    input.words = damaged(random, &input.words);
    let lent = input.words.len();
    input.numbers[0] = match random.below(8) {
        0 => lent as u64 + random.between(1, 5) as u64,
        1 => u64::MAX,
        2 => random.below(lent + 1) as u64,
        _ => lent as u64,
    };
}

/// A list of up to `most` edits of a payload, as numbers, in ascending order; each ends no later than the next begins.
pub fn edits(random: &mut Random, size: usize, most: usize) -> Vec<u64> {
    let count = random.between(0, most);
    let mut ends: Vec<usize> = (0..2 * count).map(|_| random.between(0, size)).collect();
    ends.sort_unstable();
    let mut numbers = Vec::new();
    for pair in ends.chunks_exact(2) {
        let to = random.pick(&[pair[0], pair[1]]);
        let length = random.pick(&[0, 0, 1, 2, 5, 12, 13, 14, 27]);
        numbers.extend([pair[0] as u64, to as u64, length]);
    }
    numbers
}

/// Spoils a list of edits in one place: a number changed, two edits the wrong way round, a number cut off or put behind.
pub fn spoil(random: &mut Random, numbers: &mut Vec<u64>) {
    let any = random.pick(&[0, 1, 53_248, 53_249, 1 << 32, u64::MAX]);
    match (random.below(4), numbers.len()) {
        (0, count @ 1..) => numbers[random.below(count)] = any,
        (1, 6..) => numbers.rotate_left(3),
        (2, 1..) => drop(numbers.pop()),
        _ => numbers.push(any),
    }
}

/// A question about the origin of an octet: of any, of one around the ends of the messages, or of one that is not lent. Once
/// in ten the list is spoiled, once in thirty the bytes are one too many, once in thirty the message is damaged.
pub fn origin(random: &mut Random) -> Input {
    let (mut words, length) = lent(random);
    let old = size(&words[..length as usize]);
    let mut list = edits(random, old, 6);
    let inserted: u64 = list.chunks_exact(3).map(|edit| edit[2]).sum();
    let removed: u64 = list.chunks_exact(3).map(|edit| edit[1] - edit[0]).sum();
    let new = old + inserted as usize - removed as usize;
    make_room(random, Kind::Origin, &mut words, length as usize, new);
    let more = usize::from(random.once_in(30));
    let bytes = random.bytes(inserted as usize + more);
    if random.once_in(10) {
        spoil(random, &mut list);
    }
    if random.once_in(30) {
        words = damaged(random, &words);
    }
    let ends = [length as usize, words.len(), SYSEX8.words_for(new)];
    let octet = match random.below(8) {
        0 => (4 * random.pick(&ends) + random.below(3)).saturating_sub(1),
        1 => random.pick(&[usize::MAX, 4 * MOST_WORDS, 1 << 32, 1 << 62]),
        _ => random.below(4 * words.len() + 1),
    };
    let numbers = [&[length, octet as u64], &list[..]].concat();
    Input::with_bytes(Kind::Origin, &words, &bytes, &numbers)
}

/// A message whose packets have its id in octet 3 too, and that id set.
pub fn own_id(random: &mut Random) -> Input {
    let mut words = message(random);
    let id = stream_id(words[0]);
    for first in words.iter_mut().step_by(4) {
        *first = *first & !0xFF | id;
    }
    let length = words.len() as u64;
    Input::new(Kind::SetStreamId, &words, &[length, id.into()])
}

/// A question about a SysEx7 message.
pub fn check7(random: &mut Random) -> Input {
    let size = random.pick(&[0, 1, 5, 6, 7, 11, 12, 13, 18, 19]);
    let payload: Vec<u8> = random.bytes(size);
    let mut words = SYSEX7.fewest_form(random.word() & 15, 0, &payload);
    if random.once_in(3) {
        let word = random.below(words.len());
        words[word] ^= 1 << random.below(32);
    }
    if random.once_in(6) {
        words.truncate(random.below(words.len() + 1));
    }
    let length = words.len() as u64;
    Input::new(Kind::Check7, &words, &[length])
}

/// A question about a byte stream, with the words to write to.
pub fn stream(random: &mut Random) -> Input {
    let size = random.pick(&[0, 1, 5, 6, 7, 11, 12, 13, 17, 18, 19, 40]);
    let mut bytes = vec![0xF0];
    bytes.extend((0..size).map(|_| random.byte() & 0x7F));
    bytes.push(0xF7);
    let needed = SYSEX7.words_for(size);
    let mut group = 0;
    let mut room = needed + random.below(4);
    match random.below(16) {
        0 => bytes.truncate(random.below(bytes.len())),
        1 => bytes[0] = random.byte(),
        2 => bytes.push(random.byte()),
        3 => {
            let place = random.below(bytes.len());
            bytes[place] = random.byte() | 0x80;
        }
        4 => group = random.between(1, 20) as u64,
        5 => room = random.below(needed),
        _ => {}
    }
    let words: Vec<u32> = (0..room).map(|_| random.word()).collect();
    Input::with_bytes(Kind::Stream, &words, &bytes, &[group])
}

/// Puts a byte in at a place behind the first byte of a stream and before its last; in front, if it has no two.
fn put_inside(random: &mut Random, bytes: &mut Vec<u8>, byte: u8) {
    let last = bytes.len().saturating_sub(1);
    bytes.insert(random.between(last.min(1), last), byte);
}

/// A real-time byte.
fn real_time(random: &mut Random) -> u8 {
    random.byte() | 0xF8
}

/// A question about a byte stream with real-time bytes between its ends: once in four with one of 80 to F7 too, once in six with
/// a real-time byte before or behind the stream.
pub fn clocked_stream(random: &mut Random) -> Input {
    let mut input = stream(random);
    let bytes = &mut input.bytes;
    for _ in 0..random.pick(&[1, 1, 2, 3, 6, 12, 40]) {
        let byte = real_time(random);
        put_inside(random, bytes, byte);
    }
    match random.below(12) {
        0..=2 => {
            let byte = random.between(0x80, 0xF7) as u8;
            put_inside(random, bytes, byte);
        }
        3 => bytes.insert(0, real_time(random)),
        4 => bytes.push(real_time(random)),
        _ => {}
    }
    input
}
