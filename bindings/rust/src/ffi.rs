//! The calls of the static library, each wrapped in a safe function. All unsafe code is here.
//!
//! The declarations are include/latchbeacon.h's, in its order; tests/header.rs holds them to it. Each wrapper lends slices, so the
//! header's demands on buffers hold: a slice is there for the length of the call, and one that is changed overlaps no other. The calls
//! take any other numbers.

#![allow(unsafe_code)]

use crate::error::{Error, Refusal};
use crate::Edit;

#[repr(C)]
pub(crate) struct Number {
    refusal: u8,
    place: usize,
    pub(crate) value: usize,
}

#[repr(C)]
pub(crate) struct Packet {
    refusal: u8,
    place: usize,
    pub(crate) kind: u8,
    pub(crate) group: u8,
    pub(crate) id: u8,
    pub(crate) size: usize,
}

#[repr(C)]
pub(crate) struct Message {
    refusal: u8,
    place: usize,
    pub(crate) group: u8,
    pub(crate) id: u8,
    pub(crate) size: usize,
    pub(crate) words: usize,
}

#[repr(C)]
pub(crate) struct Change {
    refusal: u8,
    place: usize,
    pub(crate) length: usize,
    pub(crate) growth: i64,
}

#[repr(C)]
pub(crate) struct EditGrowth {
    refusal: u8,
    place: usize,
    pub(crate) growth: i64,
}

#[repr(C)]
pub(crate) struct Range {
    refusal: u8,
    place: usize,
    pub(crate) from: usize,
    pub(crate) to: usize,
}

#[repr(C)]
pub(crate) struct Origin {
    refusal: u8,
    place: usize,
    pub(crate) kind: u8,
    pub(crate) number: usize,
    pub(crate) index: usize,
}

#[repr(C)]
pub(crate) struct Run {
    refusal: u8,
    place: usize,
    pub(crate) source: u8,
    pub(crate) start: usize,
    pub(crate) end: usize,
}

#[repr(C)]
pub(crate) struct Dump {
    refusal: u8,
    place: usize,
    pub(crate) delta: bool,
    pub(crate) group: u8,
    pub(crate) id: u8,
    pub(crate) base: usize,
    pub(crate) size: usize,
    pub(crate) words: usize,
    pub(crate) steps: usize,
}

#[repr(C)]
struct Cursor {
    refusal: u8,
    place: usize,
    packet: usize,
    byte: usize,
    remaining: usize,
}

#[repr(C)]
struct Read {
    ended: bool,
    value: u8,
    packet: usize,
    byte: usize,
    remaining: usize,
}

#[rustfmt::skip]
extern "C" {
    fn latchbeacon_bit(word: u32, index: usize) -> Number;
    fn latchbeacon_crumb(word: u32, index: usize) -> Number;
    fn latchbeacon_nibble(word: u32, index: usize) -> Number;
    fn latchbeacon_septet(word: u32, index: usize) -> Number;
    fn latchbeacon_octet(word: u32, index: usize) -> Number;
    fn latchbeacon_word(word: u32, index: usize) -> Number;
    fn latchbeacon_set_bit(word: u32, index: usize, value: bool) -> Number;
    fn latchbeacon_set_crumb(word: u32, index: usize, value: u8) -> Number;
    fn latchbeacon_set_nibble(word: u32, index: usize, value: u8) -> Number;
    fn latchbeacon_set_septet(word: u32, index: usize, value: u8) -> Number;
    fn latchbeacon_set_octet(word: u32, index: usize, value: u8) -> Number;
    fn latchbeacon_set_word(word: u32, index: usize, value: u16) -> Number;
    fn latchbeacon_sysex8_packet(words: *const u32, words_lent: usize) -> Packet;
    fn latchbeacon_sysex8_packet_byte(words: *const u32, words_lent: usize, index: usize) -> Number;
    fn latchbeacon_sysex8_packet_set_group(words: *mut u32, words_lent: usize, group: u8) -> Number;
    fn latchbeacon_sysex7_packet(words: *const u32, words_lent: usize) -> Packet;
    fn latchbeacon_sysex7_packet_byte(words: *const u32, words_lent: usize, index: usize) -> Number;
    fn latchbeacon_sysex7_packet_set_group(words: *mut u32, words_lent: usize, group: u8) -> Number;
    fn latchbeacon_sysex8_check(words: *const u32, words_lent: usize, length: usize) -> Message;
    fn latchbeacon_sysex7_check(words: *const u32, words_lent: usize, length: usize) -> Message;
    fn latchbeacon_sysex8_byte(words: *const u32, words_lent: usize, length: usize, index: usize) -> Number;
    fn latchbeacon_sysex8_payload(words: *const u32, words_lent: usize, length: usize, bytes: *mut u8, bytes_lent: usize) -> Number;
    fn latchbeacon_sysex8_carries(words: *const u32, words_lent: usize, length: usize, payload: *const u8,
                                  payload_size: usize, group: u8, id: u8) -> Number;
    fn latchbeacon_sysex8_set_group(words: *mut u32, words_lent: usize, length: usize, group: u8) -> Number;
    fn latchbeacon_sysex8_set_stream_id(words: *mut u32, words_lent: usize, length: usize, id: u8) -> Number;
    fn latchbeacon_sysex8_set_byte(words: *mut u32, words_lent: usize, length: usize, index: usize, value: u8) -> Number;
    fn latchbeacon_sysex8_words_needed(size: usize) -> usize;
    fn latchbeacon_sysex8_repack(words: *mut u32, words_lent: usize, length: usize) -> Number;
    fn latchbeacon_sysex8_splice(words: *mut u32, words_lent: usize, length: usize, from: usize, to: usize,
                                 replacement: *const u8, replacement_lent: usize) -> Change;
    fn latchbeacon_sysex8_set_payload(words: *mut u32, words_lent: usize, length: usize, bytes: *const u8,
                                      bytes_lent: usize) -> Change;
    fn latchbeacon_sysex8_splice_all(words: *mut u32, words_lent: usize, length: usize, numbers: *const usize,
                                     numbers_lent: usize, bytes: *const u8, bytes_lent: usize) -> Change;
    fn latchbeacon_sysex8_origin(words: *const u32, words_lent: usize, length: usize, numbers: *const usize,
                                 numbers_lent: usize, bytes: *const u8, bytes_lent: usize, octet: usize) -> Origin;
    fn latchbeacon_growth(from: usize, to: usize, length: usize) -> EditGrowth;
    fn latchbeacon_move_edit(done_from: usize, done_to: usize, done_length: usize, pending_from: usize,
                             pending_to: usize, pending_length: usize, done_first: bool) -> Range;
    fn latchbeacon_look_run(payload_size: usize, from: usize, to: usize, replacement_size: usize, position: usize) -> Run;
    fn latchbeacon_look_byte(payload: *const u8, payload_size: usize, numbers: *const usize, numbers_lent: usize,
                             bytes: *const u8, bytes_lent: usize, position: usize) -> Number;
    fn latchbeacon_sysex8_look_byte(words: *const u32, words_lent: usize, length: usize, numbers: *const usize,
                                    numbers_lent: usize, bytes: *const u8, bytes_lent: usize, position: usize) -> Number;
    fn latchbeacon_sysex8_open(words: *const u32, words_lent: usize, length: usize) -> Cursor;
    fn latchbeacon_sysex8_next(words: *const u32, words_lent: usize, packet: usize, byte: usize, remaining: usize) -> Read;
    fn latchbeacon_sysex8_nth(words: *const u32, words_lent: usize, packet: usize, byte: usize, remaining: usize,
                              skip: usize) -> Read;
    fn latchbeacon_sysex8_remaining(words: *const u32, words_lent: usize, packet: usize, byte: usize, remaining: usize) -> usize;
    fn latchbeacon_bytes_to_sysex7(bytes: *const u8, bytes_lent: usize, group: u8, words: *mut u32,
                                   words_lent: usize) -> Number;
    fn latchbeacon_store_check(store: *const u8, store_size: usize) -> Number;
    fn latchbeacon_store_describe(store: *const u8, store_size: usize, number: usize) -> Dump;
    fn latchbeacon_store_restore(store: *const u8, store_size: usize, number: usize, words: *mut u32,
                                 words_lent: usize) -> Number;
    fn latchbeacon_store_look_byte(store: *const u8, store_size: usize, number: usize, position: usize) -> Number;
    fn latchbeacon_store_mark(store: *mut u8, store_size: usize, number: usize) -> Number;
    fn latchbeacon_store_collect(store: *mut u8, store_size: usize) -> Number;
}

/// The words of a table of ports.
pub(crate) const PORTS_TABLE: usize = 32;

#[repr(C)]
pub(crate) struct Received {
    refusal: u8,
    place: usize,
    pub(crate) kind: u8,
    pub(crate) words: usize,
}

#[rustfmt::skip]
extern "C" {
    fn latchbeacon_ports_clear(table: *mut u32);
    fn latchbeacon_ports_receive(table: *mut u32, words: *mut u32, words_lent: usize, port: u8, packet: *const u32,
                                 packet_lent: usize, output: *mut u32, output_lent: usize) -> Received;
}

// An answer of the library that may be a refusal.
trait Answer: Sized {
    // The number of the refusal, 0 for none, and its place.
    fn refusal(&self) -> (u8, usize);

    // The answer if the call is accepted, else why it is refused.
    #[inline]
    fn accepted(self) -> Result<Self, Error> {
        match self.refusal() {
            (0, _) => Ok(self),
            (number, place) => Err(Error { refusal: Refusal::from_number(number), place }),
        }
    }
}

macro_rules! answers {
    ($($name:ident),*) => {
        $(impl Answer for $name {
            #[inline]
            fn refusal(&self) -> (u8, usize) {
                (self.refusal, self.place)
            }
        })*
    };
}

answers!(Number, Packet, Message, Change, EditGrowth, Range, Origin, Run, Dump, Cursor, Received);

// The value of an answer of one number, as the type that it fits: the library's answer is never too big for it.
#[inline]
fn value<T: TryFrom<usize> + Default>(answer: Number) -> Result<T, Error> {
    Ok(T::try_from(answer.accepted()?.value).unwrap_or_default())
}

// ---- fields of a word

macro_rules! fields {
    ($($name:ident $call:ident $field:ty, $set_name:ident $set_call:ident $set_field:ty;)*) => {
        $(
            // Reads the field.
            #[inline]
            pub(crate) fn $name(word: u32, index: usize) -> Result<$field, Error> {
                // SAFETY: the call takes numbers alone, any of them.
                value(unsafe { $call(word, index) })
            }

            // The word with the field set.
            #[inline]
            pub(crate) fn $set_name(word: u32, index: usize, field: $set_field) -> Result<u32, Error> {
                // SAFETY: the call takes numbers alone, any of them.
                value(unsafe { $set_call(word, index, field) })
            }
        )*
    };
}

fields! {
    bit latchbeacon_bit u8, set_bit latchbeacon_set_bit bool;
    crumb latchbeacon_crumb u8, set_crumb latchbeacon_set_crumb u8;
    nibble latchbeacon_nibble u8, set_nibble latchbeacon_set_nibble u8;
    septet latchbeacon_septet u8, set_septet latchbeacon_set_septet u8;
    octet latchbeacon_octet u8, set_octet latchbeacon_set_octet u8;
    word latchbeacon_word u16, set_word latchbeacon_set_word u16;
}

// ---- single packets

// Reads a SysEx8 packet.
pub(crate) fn sysex8_packet(words: &[u32]) -> Result<Packet, Error> {
    // SAFETY: `words` is a slice.
    unsafe { latchbeacon_sysex8_packet(words.as_ptr(), words.len()) }.accepted()
}

// Reads a payload byte of a SysEx8 packet.
pub(crate) fn sysex8_packet_byte(words: &[u32], index: usize) -> Result<u8, Error> {
    // SAFETY: `words` is a slice.
    value(unsafe { latchbeacon_sysex8_packet_byte(words.as_ptr(), words.len(), index) })
}

// Sets the group of a SysEx8 packet.
pub(crate) fn sysex8_packet_set_group(words: &mut [u32], group: u8) -> Result<(), Error> {
    // SAFETY: `words` is a slice that is lent to this call alone.
    unsafe { latchbeacon_sysex8_packet_set_group(words.as_mut_ptr(), words.len(), group) }.accepted().map(drop)
}

// Reads a SysEx7 packet.
pub(crate) fn sysex7_packet(words: &[u32]) -> Result<Packet, Error> {
    // SAFETY: `words` is a slice.
    unsafe { latchbeacon_sysex7_packet(words.as_ptr(), words.len()) }.accepted()
}

// Reads a payload byte of a SysEx7 packet.
pub(crate) fn sysex7_packet_byte(words: &[u32], index: usize) -> Result<u8, Error> {
    // SAFETY: `words` is a slice.
    value(unsafe { latchbeacon_sysex7_packet_byte(words.as_ptr(), words.len(), index) })
}

// Sets the group of a SysEx7 packet.
pub(crate) fn sysex7_packet_set_group(words: &mut [u32], group: u8) -> Result<(), Error> {
    // SAFETY: `words` is a slice that is lent to this call alone.
    unsafe { latchbeacon_sysex7_packet_set_group(words.as_mut_ptr(), words.len(), group) }.accepted().map(drop)
}

// ---- messages

// Checks a SysEx8 message.
pub(crate) fn sysex8_check(words: &[u32], length: usize) -> Result<Message, Error> {
    // SAFETY: `words` is a slice.
    unsafe { latchbeacon_sysex8_check(words.as_ptr(), words.len(), length) }.accepted()
}

// Checks a SysEx7 message.
pub(crate) fn sysex7_check(words: &[u32], length: usize) -> Result<Message, Error> {
    // SAFETY: `words` is a slice.
    unsafe { latchbeacon_sysex7_check(words.as_ptr(), words.len(), length) }.accepted()
}

// Reads a payload byte of a message.
pub(crate) fn sysex8_byte(words: &[u32], length: usize, index: usize) -> Result<u8, Error> {
    // SAFETY: `words` is a slice.
    value(unsafe { latchbeacon_sysex8_byte(words.as_ptr(), words.len(), length, index) })
}

// Copies the payload of a message to bytes; answers its size.
pub(crate) fn sysex8_payload(words: &[u32], length: usize, bytes: &mut [u8]) -> Result<usize, Error> {
    let (address, lent) = (bytes.as_mut_ptr(), bytes.len());
    // SAFETY: `words` is a slice; `bytes` is a slice that is lent to this call alone, so they do not overlap.
    value(unsafe { latchbeacon_sysex8_payload(words.as_ptr(), words.len(), length, address, lent) })
}

// Whether a message carries a payload with a group and a stream id; a no is the refusal.
pub(crate) fn sysex8_carries(words: &[u32], length: usize, payload: &[u8], group: u8, id: u8) -> Result<(), Error> {
    let (address, lent) = (words.as_ptr(), words.len());
    // SAFETY: `words` and `payload` are slices. The call only reads.
    unsafe { latchbeacon_sysex8_carries(address, lent, length, payload.as_ptr(), payload.len(), group, id) }.accepted().map(drop)
}

// Sets the group of a message.
pub(crate) fn sysex8_set_group(words: &mut [u32], length: usize, group: u8) -> Result<(), Error> {
    // SAFETY: `words` is a slice that is lent to this call alone.
    unsafe { latchbeacon_sysex8_set_group(words.as_mut_ptr(), words.len(), length, group) }.accepted().map(drop)
}

// Sets the stream id of a message.
pub(crate) fn sysex8_set_stream_id(words: &mut [u32], length: usize, id: u8) -> Result<(), Error> {
    // SAFETY: `words` is a slice that is lent to this call alone.
    unsafe { latchbeacon_sysex8_set_stream_id(words.as_mut_ptr(), words.len(), length, id) }.accepted().map(drop)
}

// Sets a payload byte of a message.
pub(crate) fn sysex8_set_byte(words: &mut [u32], length: usize, index: usize, byte: u8) -> Result<(), Error> {
    // SAFETY: `words` is a slice that is lent to this call alone.
    unsafe { latchbeacon_sysex8_set_byte(words.as_mut_ptr(), words.len(), length, index, byte) }.accepted().map(drop)
}

// ---- fewest-packet form

// The words that the fewest-packet form of a payload takes.
pub(crate) fn sysex8_words_needed(size: usize) -> usize {
    // SAFETY: the call takes a number alone, any of them.
    unsafe { latchbeacon_sysex8_words_needed(size) }
}

// Packs a message; answers its new length.
pub(crate) fn sysex8_repack(words: &mut [u32], length: usize) -> Result<usize, Error> {
    // SAFETY: `words` is a slice that is lent to this call alone.
    value(unsafe { latchbeacon_sysex8_repack(words.as_mut_ptr(), words.len(), length) })
}

// Replaces the payload bytes `from..to` of a message.
pub(crate) fn sysex8_splice(words: &mut [u32], length: usize, from: usize, to: usize, bytes: &[u8]) -> Result<Change, Error> {
    let (address, lent) = (words.as_mut_ptr(), words.len());
    // SAFETY: `bytes` is a slice; `words` is a slice that is lent to this call alone, so they do not overlap.
    unsafe { latchbeacon_sysex8_splice(address, lent, length, from, to, bytes.as_ptr(), bytes.len()) }.accepted()
}

// Sets the payload of a message.
pub(crate) fn sysex8_set_payload(words: &mut [u32], length: usize, bytes: &[u8]) -> Result<Change, Error> {
    let (address, lent) = (words.as_mut_ptr(), words.len());
    // SAFETY: `bytes` is a slice; `words` is a slice that is lent to this call alone, so they do not overlap.
    unsafe { latchbeacon_sysex8_set_payload(address, lent, length, bytes.as_ptr(), bytes.len()) }.accepted()
}

// Replaces all ranges of a list of edits at once.
pub(crate) fn sysex8_splice_all(words: &mut [u32], length: usize, edits: &[Edit], bytes: &[u8]) -> Result<Change, Error> {
    let (address, lent) = (words.as_mut_ptr(), words.len());
    let (numbers, numbers_lent) = (edits.as_ptr().cast::<usize>(), edits.len() * 3);
    // SAFETY: `bytes` and `edits` are slices, and an edit is three numbers of `usize` in the order from, to, length, with nothing
    // between (`repr(C)`), so that there are three times as many numbers as edits; `words` is a slice that is lent to this call
    // alone, so it overlaps neither.
    unsafe { latchbeacon_sysex8_splice_all(address, lent, length, numbers, numbers_lent, bytes.as_ptr(), bytes.len()) }.accepted()
}

// Where an octet of the words comes from once all edits of a list are done.
pub(crate) fn sysex8_origin(words: &[u32], length: usize, edits: &[Edit], bytes: &[u8], octet: usize) -> Result<Origin, Error> {
    let (address, lent) = (words.as_ptr(), words.len());
    let (numbers, numbers_lent) = (edits.as_ptr().cast::<usize>(), edits.len() * 3);
    // SAFETY: `words`, `bytes` and `edits` are slices, and an edit is three numbers of `usize` in the order from, to, length, with
    // nothing between (`repr(C)`), so that there are three times as many numbers as edits. The call only reads.
    unsafe { latchbeacon_sysex8_origin(address, lent, length, numbers, numbers_lent, bytes.as_ptr(), bytes.len(), octet) }
        .accepted()
}

// ---- edits

// The growth of an edit.
pub(crate) fn growth(edit: Edit) -> Result<i64, Error> {
    // SAFETY: the call takes numbers alone, any of them.
    Ok(unsafe { latchbeacon_growth(edit.from, edit.to, edit.length) }.accepted()?.growth)
}

// The pending edit's range once the done one is spliced.
pub(crate) fn move_edit(done: Edit, pending: Edit, done_first: bool) -> Result<Range, Error> {
    // SAFETY: the call takes numbers alone, any of them.
    unsafe { latchbeacon_move_edit(done.from, done.to, done.length, pending.from, pending.to, pending.length, done_first) }
        .accepted()
}

// ---- looking at the result of edits

// The run at a position of a payload of so many bytes with one edit.
pub(crate) fn look_run(payload_size: usize, edit: Edit, position: usize) -> Result<Run, Error> {
    // SAFETY: the call takes numbers alone, any of them.
    unsafe { latchbeacon_look_run(payload_size, edit.from, edit.to, edit.length, position) }.accepted()
}

// The byte at a position of a payload with all edits of a list.
pub(crate) fn look_byte(payload: &[u8], edits: &[Edit], bytes: &[u8], position: usize) -> Result<u8, Error> {
    let (address, size) = (payload.as_ptr(), payload.len());
    let (numbers, numbers_lent) = (edits.as_ptr().cast::<usize>(), edits.len() * 3);
    // SAFETY: `payload`, `bytes` and `edits` are slices, and an edit is three numbers of `usize` in the order from, to, length, with
    // nothing between (`repr(C)`), so that there are three times as many numbers as edits. The call only reads.
    value(unsafe { latchbeacon_look_byte(address, size, numbers, numbers_lent, bytes.as_ptr(), bytes.len(), position) })
}

// The byte at a position of a message's payload with all edits of a list.
pub(crate) fn sysex8_look_byte(words: &[u32], length: usize, edits: &[Edit], bytes: &[u8], position: usize) -> Result<u8, Error> {
    let (address, lent) = (words.as_ptr(), words.len());
    let (numbers, numbers_lent) = (edits.as_ptr().cast::<usize>(), edits.len() * 3);
    // SAFETY: `words`, `bytes` and `edits` are slices, and an edit is three numbers of `usize` in the order from, to, length, with
    // nothing between (`repr(C)`), so that there are three times as many numbers as edits. The call only reads.
    value(unsafe {
        latchbeacon_sysex8_look_byte(address, lent, length, numbers, numbers_lent, bytes.as_ptr(), bytes.len(), position)
    })
}

// ---- reading a payload

// The cursor at the start of a message.
pub(crate) fn sysex8_open(words: &[u32], length: usize) -> Result<crate::Cursor, Error> {
    // SAFETY: `words` is a slice.
    let answer = unsafe { latchbeacon_sysex8_open(words.as_ptr(), words.len(), length) }.accepted()?;
    Ok(crate::Cursor { packet: answer.packet, byte: answer.byte, remaining: answer.remaining })
}

// What a reader read, and where it stands then.
#[inline]
fn read(answer: Read) -> (Option<u8>, crate::Cursor) {
    let cursor = crate::Cursor { packet: answer.packet, byte: answer.byte, remaining: answer.remaining };
    ((!answer.ended).then_some(answer.value), cursor)
}

// Reads the next byte.
#[inline]
pub(crate) fn sysex8_next(words: &[u32], at: crate::Cursor) -> (Option<u8>, crate::Cursor) {
    // SAFETY: `words` is a slice.
    read(unsafe { latchbeacon_sysex8_next(words.as_ptr(), words.len(), at.packet, at.byte, at.remaining) })
}

// Skips bytes and reads one.
#[inline]
pub(crate) fn sysex8_nth(words: &[u32], at: crate::Cursor, skip: usize) -> (Option<u8>, crate::Cursor) {
    // SAFETY: `words` is a slice.
    read(unsafe { latchbeacon_sysex8_nth(words.as_ptr(), words.len(), at.packet, at.byte, at.remaining, skip) })
}

// How many bytes remain.
#[inline]
pub(crate) fn sysex8_remaining(words: &[u32], at: crate::Cursor) -> usize {
    // SAFETY: `words` is a slice.
    unsafe { latchbeacon_sysex8_remaining(words.as_ptr(), words.len(), at.packet, at.byte, at.remaining) }
}

// ---- byte stream to SysEx7

// Writes a byte stream as SysEx7 packets; answers their words.
pub(crate) fn bytes_to_sysex7(bytes: &[u8], group: u8, words: &mut [u32]) -> Result<usize, Error> {
    let (address, lent) = (words.as_mut_ptr(), words.len());
    // SAFETY: `bytes` is a slice; `words` is a slice that is lent to this call alone, so they do not overlap.
    value(unsafe { latchbeacon_bytes_to_sysex7(bytes.as_ptr(), bytes.len(), group, address, lent) })
}

// ---- the chain

// Checks a store; answers how many dumps it has.
pub(crate) fn store_check(store: &[u8]) -> Result<usize, Error> {
    // SAFETY: `store` is a slice.
    value(unsafe { latchbeacon_store_check(store.as_ptr(), store.len()) })
}

// Describes a dump of a store.
pub(crate) fn store_describe(store: &[u8], number: usize) -> Result<Dump, Error> {
    // SAFETY: `store` is a slice.
    unsafe { latchbeacon_store_describe(store.as_ptr(), store.len(), number) }.accepted()
}

// Restores a dump of a store; answers the length of its message.
pub(crate) fn store_restore(store: &[u8], number: usize, words: &mut [u32]) -> Result<usize, Error> {
    let (address, lent) = (words.as_mut_ptr(), words.len());
    // SAFETY: `store` is a slice; `words` is a slice that is lent to this call alone, so they do not overlap.
    value(unsafe { latchbeacon_store_restore(store.as_ptr(), store.len(), number, address, lent) })
}

// The byte at a position of a dump's payload.
pub(crate) fn store_look_byte(store: &[u8], number: usize, position: usize) -> Result<u8, Error> {
    // SAFETY: `store` is a slice.
    value(unsafe { latchbeacon_store_look_byte(store.as_ptr(), store.len(), number, position) })
}

// Marks a dump of a store unwanted.
pub(crate) fn store_mark(store: &mut [u8], number: usize) -> Result<(), Error> {
    // SAFETY: `store` is a slice that is lent to this call alone.
    unsafe { latchbeacon_store_mark(store.as_mut_ptr(), store.len(), number) }.accepted().map(drop)
}

// Collects a store; answers its new length.
pub(crate) fn store_collect(store: &mut [u8]) -> Result<usize, Error> {
    // SAFETY: `store` is a slice that is lent to this call alone.
    value(unsafe { latchbeacon_store_collect(store.as_mut_ptr(), store.len()) })
}

// ---- interleaved streams

// Empties a table of ports.
pub(crate) fn ports_clear(table: &mut [u32; PORTS_TABLE]) {
    // SAFETY: `table` is an array of a table's words that is lent to this call alone.
    unsafe { latchbeacon_ports_clear(table.as_mut_ptr()) }
}

// Receives a packet from a port.
pub(crate) fn ports_receive(
    table: &mut [u32; PORTS_TABLE],
    words: &mut [u32],
    port: u8,
    packet: &[u32],
    output: &mut [u32],
) -> Result<Received, Error> {
    let (address, lent) = (words.as_mut_ptr(), words.len());
    let (from, from_lent) = (packet.as_ptr(), packet.len());
    let (to, to_lent) = (output.as_mut_ptr(), output.len());
    // SAFETY: `table` is an array of a table's words; `packet` is a slice; `words` and `output` are slices that, like `table`, are lent
    // to this call alone, so no two of the four overlap.
    unsafe { latchbeacon_ports_receive(table.as_mut_ptr(), address, lent, port, from, from_lent, to, to_lent) }.accepted()
}
