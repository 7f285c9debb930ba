//! The original: the calls that a user of it makes.
use midi2::inside;
use midi2::sysex7::Sysex7;
use midi2::sysex8::Sysex8;
use midi2::{FromBytes, Grouped, Sysex};
use ux::u4;

/// `try_from`.
#[inline(never)]
pub fn check(words: &[u32]) {
    Sysex8::try_from(words).expect("a message");
}

/// The payload, through its iterator, into the bytes.
#[inline(never)]
pub fn payload(words: &[u32], bytes: &mut [u8]) {
    for (to, from) in bytes.iter_mut().zip(inside::sysex8(words).payload()) {
        *to = from;
    }
}

/// A byte, by the iterator's `nth`.
#[inline(never)]
pub fn byte(words: &[u32], index: usize) -> u8 {
    inside::sysex8(words).payload().nth(index).expect("a byte")
}

/// Whether the payload, through its iterator, is the bytes, and the group and the stream id are 0.
#[inline(never)]
pub fn carries(words: &[u32], bytes: &[u8]) -> bool {
    let message = inside::sysex8(words);
    message.group() == u4::new(0) && message.stream_id() == 0 && message.payload().eq(bytes.iter().copied())
}

/// `set_byte`.
#[inline(never)]
pub fn set_byte(words: &mut [u32], index: usize, value: u8) {
    inside::sysex8(words).set_byte(value, index);
}

/// `set_group`.
#[inline(never)]
pub fn set_group(words: &mut [u32], _: usize, group: u8) {
    inside::sysex8(words).set_group(u4::new(group));
}

/// `set_stream_id`.
#[inline(never)]
pub fn set_stream_id(words: &mut [u32], _: usize, id: u8) {
    inside::sysex8(words).set_stream_id(id);
}

/// `compact`.
#[inline(never)]
pub fn pack(words: &mut [u32]) {
    inside::compact(&mut inside::sysex8(words));
}

/// A byte stream that `try_from` took.
pub struct Stream<'a>(Sysex7<&'a [u8]>);

impl<'a> Stream<'a> {
    /// `try_from`.
    #[inline(never)]
    pub fn new(bytes: &'a [u8]) -> Stream<'a> {
        Stream(Sysex7::try_from(bytes).expect("a byte stream"))
    }

    /// `from_bytes`: its packets, in a `Vec` that is made each time.
    #[inline(never)]
    pub fn packets(&self) -> Sysex7<Vec<u32>> {
        Sysex7::from_bytes(self.0.clone())
    }

    /// The words of its packets.
    pub fn words(&self) -> Vec<u32> {
        inside::words_of7(&self.packets()).to_vec()
    }
}

/// A message in a `Vec` with room for more.
pub struct Bank(Sysex8<Vec<u32>>);

impl Bank {
    /// A copy of the words.
    pub fn new(words: &[u32]) -> Bank {
        let mut room = Vec::with_capacity(words.len() + 16);
        room.extend_from_slice(words);
        Bank(inside::sysex8(room))
    }

    /// `splice_payload`.
    #[inline(never)]
    pub fn splice(&mut self, from: usize, to: usize, replacement: &[u8]) {
        self.0.splice_payload(replacement.iter().copied(), from..to);
    }

    /// `try_from` of the words, then `splice_payload`.
    #[inline(never)]
    pub fn checked_splice(&mut self, from: usize, to: usize, replacement: &[u8]) {
        check(inside::words_of(&self.0));
        self.splice(from, to, replacement);
    }

    /// The payload.
    pub fn payload(&self) -> Vec<u8> {
        self.0.payload().collect()
    }
}
