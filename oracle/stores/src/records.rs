//! Stores are made of these.

/// A record: kind and body.
pub fn record(kind: u8, body: &[u8]) -> Vec<u8> {
    [&[kind], body].concat()
}

/// A record of two numbers.
pub fn pair(kind: u8, first: u16, second: u16) -> Vec<u8> {
    record(kind, &[first.to_be_bytes(), second.to_be_bytes()].concat())
}

/// Data in records of 13 bytes, the last shorter.
pub fn data(bytes: &[u8]) -> Vec<u8> {
    let one = |bytes: &[u8]| record(0x80 + bytes.len() as u8, bytes);
    bytes.chunks(13).flat_map(one).collect()
}

/// A whole dump of group 3 and stream id 9.
pub fn whole(number: u16, bytes: &[u8]) -> Vec<u8> {
    let [high, low] = number.to_be_bytes();
    [record(0x01, &[high, low, 3, 9]), data(bytes)].concat()
}

/// A delta: number, base, and edits of from, to and data.
pub fn delta(number: u16, base: u16, edits: &[(u16, u16, &[u8])]) -> Vec<u8> {
    let mut bytes = pair(0x02, number, base);
    for (from, to, replacement) in edits {
        bytes.extend(pair(0x03, *from, *to));
        bytes.extend(data(replacement));
    }
    bytes
}

/// A dump that is not wanted any more.
pub fn gone(mut dump: Vec<u8>) -> Vec<u8> {
    dump[0] += 0x10;
    dump
}
