//! Stores of dumps are made of these.

/// A record: a kind and its body.
pub fn record(kind: u8, body: &[u8]) -> Vec<u8> {
    [&[kind], body].concat()
}

/// A record of two numbers.
pub fn pair(kind: u8, first: u16, second: u16) -> Vec<u8> {
    record(kind, &[first.to_be_bytes(), second.to_be_bytes()].concat())
}

/// Data records of 13 bytes, the last shorter.
pub fn data(bytes: &[u8]) -> Vec<u8> {
    bytes.chunks(13).flat_map(|chunk| record(0x80 + chunk.len() as u8, chunk)).collect()
}

/// A whole dump of group 3 and stream id 9.
pub fn whole(number: u16, bytes: &[u8]) -> Vec<u8> {
    let [high, low] = number.to_be_bytes();
    [record(0x01, &[high, low, 3, 9]), data(bytes)].concat()
}

/// A delta: its number, its base and its edits, each from, to and data.
pub fn delta(number: u16, base: u16, edits: &[(u16, u16, &[u8])]) -> Vec<u8> {
    let edits = edits.iter().flat_map(|(from, to, bytes)| [pair(0x03, *from, *to), data(bytes)].concat());
    pair(0x02, number, base).into_iter().chain(edits).collect()
}
