//! The messages, byte streams and stores that are timed.

/// The data bytes of the longest byte stream. 16,384 words hold 49,152.
pub const MOST_STREAM: usize = 49_000;

/// So many payload bytes, none like its neighbour.
pub fn bytes(size: usize) -> Vec<u8> {
    (0..size).map(|index| (index * 7 + 3) as u8).collect()
}

/// The bytes in packets of these sizes.
fn packets(bytes: &[u8], sizes: &[usize]) -> Vec<u32> {
    let mut words = Vec::new();
    let mut rest = bytes;
    for (packet, &size) in sizes.iter().enumerate() {
        let status = match (packet, sizes.len()) {
            (_, 1) => 0,
            (0, _) => 1,
            (last, count) if last + 1 == count => 3,
            _ => 2,
        };
        let mut octets = [0u8; 16];
        octets[0] = 0x50;
        octets[1] = (status << 4 | (size + 1)) as u8;
        octets[3..3 + size].copy_from_slice(&rest[..size]);
        rest = &rest[size..];
        words.extend(octets.chunks(4).map(|four| u32::from_be_bytes(four.try_into().expect("four octets"))));
    }
    assert!(rest.is_empty() && words.len() <= 16_384);
    words
}

/// The fewest-packet form.
pub fn packed(bytes: &[u8]) -> Vec<u32> {
    let sizes: Vec<usize> = bytes.chunks(13).map(<[u8]>::len).collect();
    packets(bytes, &sizes)
}

/// Edits of a payload of so many bytes, two to 13 bytes, each of one byte by another: their numbers and their bytes.
pub fn edits(size: usize) -> (Vec<usize>, Vec<u8>) {
    let count = 2 * size / 13;
    let numbers = (0..count).flat_map(|edit| [13 * edit / 2, 13 * edit / 2 + 1, 1]).collect();
    (numbers, bytes(count))
}

/// A list of edits: from, to and length of each, and the bytes of all.
pub struct List {
    pub numbers: Vec<usize>,
    pub bytes: Vec<u8>,
}

impl List {
    /// The edits: from, to and bytes of each.
    pub fn edits(&self) -> impl DoubleEndedIterator<Item = (usize, usize, &[u8])> {
        let mut rest = &self.bytes[..];
        let edits: Vec<_> = self
            .numbers
            .chunks(3)
            .map(|edit| {
                let (bytes, behind) = rest.split_at(edit[2]);
                rest = behind;
                (edit[0], edit[1], bytes)
            })
            .collect();
        edits.into_iter()
    }
}

/// So many edits, evenly apart, each of four bytes: by three, four or five in turn; or, growing first, the first half by five and the
/// others by three. There are six bytes or more to an edit.
pub fn list(size: usize, count: usize, growing_first: bool) -> List {
    assert!(6 * count <= size);
    let length = |edit| match growing_first {
        false => 3 + edit % 3,
        true if 2 * edit < count => 5,
        true => 3,
    };
    let numbers: Vec<usize> = (0..count).flat_map(|edit| [size * edit / count, size * edit / count + 4, length(edit)]).collect();
    let total = numbers.chunks(3).map(|edit| edit[2]).sum();
    List { numbers, bytes: (0..total).map(|index| (index * 5 + 1) as u8).collect() }
}

/// A payload octet of the packet in the middle.
pub fn middle_octet(words: &[u32]) -> usize {
    words.len() / 8 * 16 + 8
}

/// Seven bytes in each packet where 4,096 packets hold that; else seven in the first and thirteen in the others.
pub fn uneven(bytes: &[u8]) -> Vec<u32> {
    let sizes: Vec<usize> = if bytes.len() <= 7 * 4_096 {
        bytes.chunks(7).map(<[u8]>::len).collect()
    } else {
        std::iter::once(7).chain(bytes[7..].chunks(13).map(<[u8]>::len)).collect()
    };
    packets(bytes, &sizes)
}

/// A byte stream of so many data bytes: F0, bytes below 80 hex, F7. With a clock an F8 stands behind each data byte.
pub fn stream(size: usize, clock: bool) -> Vec<u8> {
    let data = bytes(size).into_iter().flat_map(|byte| [byte & 0x7F, 0xF8].into_iter().take(if clock { 2 } else { 1 }));
    std::iter::once(0xF0).chain(data).chain(std::iter::once(0xF7)).collect()
}

/// A store of dumps, and the payload of its last one.
pub struct Store {
    pub bytes: Vec<u8>,
    pub dumps: usize,
    pub payload: Vec<u8>,
}

/// A record of two numbers.
fn record(kind: u8, first: usize, second: usize) -> [u8; 5] {
    let ([a, b], [c, d]) = ((first as u16).to_be_bytes(), (second as u16).to_be_bytes());
    [kind, a, b, c, d]
}

/// Bytes in data records, all but the last full.
fn data(bytes: &[u8]) -> Vec<u8> {
    bytes.chunks(13).flat_map(|chunk| [&[0x80 + chunk.len() as u8], chunk].concat()).collect()
}

/// Dump 0 is whole, of so many bytes, and each of `deltas` more rests on the one before it, or in a star on dump 0. Each has so many
/// edits, evenly apart, of 8 bytes by 7, 8 or 9 in turn, so that the size stays about the same.
fn dumps(size: usize, deltas: usize, edits: usize, star: bool) -> Store {
    let whole = bytes(size);
    let mut payload = whole.clone();
    let mut store = [record(0x01, 0, 0).to_vec(), data(&whole)].concat();
    for number in 1..=deltas {
        if star {
            payload.clone_from(&whole);
        }
        store.extend(record(0x02, number, if star { 0 } else { number - 1 }));
        let ranges: Vec<(usize, Vec<u8>)> = (0..edits)
            .map(|edit| ((size - 20) / edits * edit + number % 11, vec![number as u8; 7 + (number + edit) % 3]))
            .collect();
        for (from, bytes) in &ranges {
            store.extend(record(0x03, *from, from + 8));
            store.extend(data(bytes));
        }
        for (from, bytes) in ranges.into_iter().rev() {
            payload.splice(from..from + 8, bytes);
        }
    }
    Store { bytes: store, dumps: deltas + 1, payload }
}

/// A chain: each delta rests on the dump before it.
pub fn chain(size: usize, deltas: usize, edits: usize) -> Store {
    dumps(size, deltas, edits, false)
}

/// A star: each delta rests on the whole dump.
pub fn star(size: usize, deltas: usize, edits: usize) -> Store {
    dumps(size, deltas, edits, true)
}
