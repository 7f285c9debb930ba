//! MIDI 2.0 SysEx8 bulk dumps: receive, check, read, compare with a payload, set, pack and splice, look at bytes of a result that is
//! not written, and restore from a store, in words that the caller lends.
//!
//! This crate is a safe skin over the static library `latchbeacon`, whose calls are proved to meet their contracts for every
//! input. It has no other dependencies. It links on Linux, on x86-64 and on Arm (aarch64), with the library that is proved for that
//! machine.
//!
//! A [`Message`] borrows a buffer of words and keeps the message's length in it. It is made by the check, or handed out by [`Ports`],
//! so what it holds is a whole message: one complete packet, or start, continue and end packets of one group and stream id. The calls
//! on it answer, or refuse with an [`Error`] and change nothing.
//!
//! ```
//! use latchbeacon::Message;
//!
//! // A bank of three bytes in three packets, and room for more.
//! let mut buffer = [0u32; 32];
//! buffer[..12].copy_from_slice(&[0x5113_05A0, 0xA100_0000, 0, 0, 0x5121_0500, 0, 0, 0, 0x5132_05A2, 0, 0, 0]);
//!
//! let mut message = Message::check(&mut buffer, 12)?;
//! assert_eq!((message.group(), message.stream_id(), message.size()), (1, 5, 3));
//!
//! let growth = message.splice(0..1, &[0xB0, 0xB1])?;
//! assert_eq!(growth, 1);
//! assert!(message.payload().eq([0xB0, 0xB1, 0xA1, 0xA2]));
//! assert_eq!(message.words(), [0x5105_05B0, 0xB1A1_A200, 0, 0]);
//!
//! let error = message.splice(3..9, &[]).unwrap_err();
//! assert_eq!((error.name(), error.number(), error.place), ("Range", 13, 0));
//! # Ok::<(), latchbeacon::Error>(())
//! ```
//!
//! A [`Store`] has many dumps, each whole or a delta of another, and restores one of them to such words. Dumps that are not wanted any
//! more are marked and collected.
//!
//! Where only some bytes of a patched dump are asked for, nothing needs to be written: module [`look`] lends them run by run,
//! [`Message::byte_after`] and [`Store::byte`] answer one of them.
//!
//! Packets of several messages that come interleaved, on two ports, are put together by [`Ports`], which keeps them until the message
//! is whole.
//!
//! Whether the packets that somebody else made carry a payload, in whatever packing, is said by [`sysex8::carries`]. A no names the packet
//! at fault.
//!
//! # Limits
//!
//! A buffer has at most [`MOST_WORDS`] words: 4,096 packets with [`MOST_BYTES`] payload bytes. Lend no more than that;
//! [`Refusal::Long`] says so.
//!
//! # Coming from midi2
//!
//! | in midi2 | here |
//! |---|---|
//! | `Sysex8::try_from(&words[..])` | [`View::try_from(&words[..])`](View), or [`View::check(&words, length)`](View::check) |
//! | `Sysex8::try_from(&mut words[..])` | [`Message::try_from(&mut words[..])`](Message), or [`Message::check(&mut words, length)`](Message::check) |
//! | `Sysex8::<Vec<u32>>::new()`, `Sysex8::<[u32; N]>::new()` | [`sysex8::EMPTY`] copied to a buffer, then [`Message::check(&mut buffer, 4)`](Message::check) |
//! | a buffer that resizes itself | a buffer lent with room in it; [`sysex8::words_needed(size)`](sysex8::words_needed) says how much |
//! | `message.data()` | [`message.words()`](Message::words) |
//! | `message.packets()` | `message.words().chunks(4)`, each to be read by [`sysex8::Packet::read`] |
//! | `message.group()`, `set_group(u4)` | [`message.group()`](Message::group), [`set_group(u8)?`](Message::set_group) |
//! | `message.stream_id()`, `set_stream_id(id)` | [`message.stream_id()`](Message::stream_id), [`set_stream_id(id)?`](Message::set_stream_id); it writes octet 2, where midi2 writes a payload byte |
//! | `message.payload_size()` | [`message.size()`](Message::size) |
//! | `message.payload()` | [`message.payload()`](Message::payload), the same kind of iterator |
//! | `message.payload().nth(i)` | [`message.byte(i)?`](Message::byte), or `message.payload().nth(i)` |
//! | `message.payload().collect::<Vec<u8>>()` | [`message.payload().to_vec()`](Payload::to_vec), or [`message.copy_payload(&mut bytes)?`](Message::copy_payload) |
//! | `message.payload().eq(bytes)`, and the same of `group()` and `stream_id()` | [`message.carries(&bytes, group, id)?`](Message::carries) |
//! | `message.set_payload(data)`, `try_set_payload(data)?` | [`message.set_payload(&bytes)?`](Message::set_payload) |
//! | `message.set_byte(byte, index)` | [`message.set_byte(index, byte)?`](Message::set_byte); mind the order |
//! | `message.splice_payload(data, range)`, `try_splice_payload(data, range)?` | [`message.splice(range, &bytes)?`](Message::splice), which answers the growth; mind the order |
//! | `message.insert_payload(data, index)`, `try_insert_payload(data, index)?` | [`message.insert(index, &bytes)?`](Message::insert); mind the order |
//! | `message.append_payload(data)`, `append_byte(byte)` and their `try_` forms | [`message.append(&bytes)?`](Message::append) |
//! | several `splice_payload` calls, ranges adjusted by hand | [`message.splice_all(&edits)?`](Message::splice_all), or one at a time with [`move_edit`] |
//! | `sysex8::Packet::try_from(&words[..])`, `sysex7::Packet::try_from(&words[..])` | the same: [`sysex8::Packet`], [`sysex7::Packet`] |
//! | `packet.status()` | [`packet.kind()`](sysex8::Packet::kind) |
//! | packets of interleaved streams put together by hand, then `Sysex8::try_from` | [`ports.receive(port, &packet, &mut output)?`](Ports::receive) |
//! | `sysex7::Sysex7::try_from(&words[..])`, to check it | [`sysex7::check(&words, length)`](sysex7::check) |
//! | `Sysex7::try_from(&bytes[..])?.try_into_ump()?` | [`bytes_to_sysex7(&bytes, group, &mut words)?`](bytes_to_sysex7); it passes over real-time bytes, where midi2 panics |
//! | `ux::u4`, `ux::u7` | `u8`; what does not fit is refused with [`Refusal::Field`] or [`Refusal::Byte`]; real-time bytes of a stream are passed over |
//! | `error::InvalidData("...")` | [`Error`] with [`Refusal`]s 1 to 12, and the place |
//! | `error::BufferOverflow`, which may leave the message empty | [`Error`] with [`Refusal::Room`]; the message stays |
//! | `assert!` and panics | [`Error`] |
//!
//! # Threads
//!
//! The library keeps nothing between calls. A [`Message`] can be sent to another thread, and messages over different buffers can be
//! worked on at the same time. [`Ports`] can be sent too; two threads, one for each port, share it behind a lock.

#![deny(missing_docs)]
#![deny(unsafe_code)]
#![warn(unsafe_op_in_unsafe_fn)]

mod edit;
mod error;
mod ffi;
pub mod fields;
pub mod look;
mod message;
mod origin;
mod packet;
mod payload;
mod ports;
mod store;
pub mod sysex7;
pub mod sysex8;

pub use edit::{move_edit, Edit};
pub use error::{Error, Refusal};
pub use message::{Message, Summary, View};
pub use origin::Origin;
pub use packet::Kind;
pub use payload::{Cursor, Payload};
pub use ports::{Ports, Received};
pub use store::{Basis, Description, Store};
pub use sysex7::bytes_to_sysex7;

/// The most words that a message may be lent in.
///
/// ```
/// use latchbeacon::{Message, Refusal, MOST_WORDS};
///
/// let mut words = vec![0; MOST_WORDS + 1];
/// assert_eq!(Message::check(&mut words, 4).unwrap_err().refusal, Refusal::Long);
/// ```
pub const MOST_WORDS: usize = 16_384;

/// The most payload bytes of a SysEx8 message: as many as [`MOST_WORDS`] words hold. More never fit. No number within an edit is above
/// it.
///
/// ```
/// use latchbeacon::{sysex8::words_needed, MOST_BYTES, MOST_WORDS};
///
/// assert_eq!(words_needed(MOST_BYTES), MOST_WORDS);
/// assert!(words_needed(MOST_BYTES + 1) > MOST_WORDS);
/// ```
pub const MOST_BYTES: usize = 53_248;

// The example of the README runs as a doc test.
#[cfg(doctest)]
#[doc = include_str!("../README.md")]
struct Readme;
