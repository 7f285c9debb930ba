//! Reading a payload, a packet at a time.

use crate::error::Error;
use crate::ffi;
use std::fmt;
use std::iter::FusedIterator;

/// Where a reader of a payload stands. It can be kept, and read on from with [`Payload::at`].
#[derive(Clone, Copy, Debug, Default, PartialEq, Eq, Hash)]
pub struct Cursor {
    /// The packet, from 0.
    pub packet: usize,
    /// The byte within the packet, from 0.
    pub byte: usize,
    /// How many bytes are to be read.
    pub remaining: usize,
}

/// The payload bytes of a SysEx8 message, in order.
///
/// It knows how many are left, skips without reading each byte between (`nth`), and after the end answers `None` for ever. The library
/// is asked once for each packet, not for each byte. `fold`, and what is made of it (`for_each`, `sum`), is faster than `next`, and
/// [`to_vec`](Payload::to_vec), which copies a whole payload in one call, is the fastest way to a vector.
///
/// ```
/// use latchbeacon::View;
///
/// // Start with A0 A1, an empty packet, end with A2.
/// let words = [0x5113_05A0, 0xA100_0000, 0, 0, 0x5121_0500, 0, 0, 0, 0x5132_05A2, 0, 0, 0];
/// let mut payload = View::check(&words, 12)?.payload();
/// assert_eq!(payload.len(), 3);
/// assert_eq!(payload.next(), Some(0xA0));
/// assert_eq!(payload.nth(1), Some(0xA2));
/// assert_eq!(payload.next(), None);
/// # Ok::<(), latchbeacon::Error>(())
/// ```
#[derive(Clone)]
pub struct Payload<'a> {
    words: &'a [u32],
    held: Held,
}

// Bytes of one packet at hand, and where the reader stands behind them. Its `remaining` is never above the bytes that stand there.
#[derive(Clone, Copy)]
struct Held {
    // The first byte highest.
    bytes: u128,
    count: usize,
    behind: Cursor,
}

impl Held {
    // No bytes at hand.
    fn none(cursor: Cursor) -> Held {
        Held { bytes: 0, count: 0, behind: cursor }
    }

    // The bytes of the first packet that has some, from this packet and byte on; none if nothing remains. It takes and answers values, so
    // that those of a loop over `next` stay in registers.
    #[cold]
    #[inline(never)]
    fn next(words: &[u32], packet: usize, byte: usize, remaining: usize) -> Held {
        // No packet has more than 13 bytes.
        let (packet, byte) = if byte < 13 { (packet, byte) } else { (packet.saturating_add(1), 0) };
        let mut cursor = Cursor { packet, byte, remaining };
        while cursor.remaining > 0 {
            let Some(packet) = words.chunks_exact(4).nth(cursor.packet) else { break };
            let count = standing(packet, cursor);
            if count > 0 {
                let octets = packet.iter().fold(0, |octets, &word| octets << 32 | u128::from(word));
                let behind = Cursor { byte: cursor.byte + count, remaining: remaining - count, ..cursor };
                return Held { bytes: octets << (24 + 8 * cursor.byte), count, behind };
            }
            cursor = Cursor { packet: cursor.packet + 1, byte: 0, remaining };
        }
        Held::none(ffi::sysex8_next(words, cursor).1)
    }
}

// How many bytes of this packet are to be read from the cursor's byte on: the library's answer for the packet alone.
#[inline]
fn standing(packet: &[u32], cursor: Cursor) -> usize {
    ffi::sysex8_remaining(packet, Cursor { packet: 0, ..cursor })
}

// The octets of a packet; its payload stands from octet 3 on.
#[inline]
fn octets(packet: &[u32]) -> [u8; 16] {
    let mut octets = [0; 16];
    octets.chunks_exact_mut(4).zip(packet).for_each(|(to, word)| to.copy_from_slice(&word.to_be_bytes()));
    octets
}

impl<'a> Payload<'a> {
    // A reader that stands at a cursor, whose `remaining` is not above the bytes that stand there.
    fn standing(words: &'a [u32], cursor: Cursor) -> Payload<'a> {
        Payload { words, held: Held::none(cursor) }
    }

    // The payload of a checked message, all of `words`, with `size` bytes.
    pub(crate) fn of_message(words: &'a [u32], size: usize) -> Payload<'a> {
        Payload::standing(words, Cursor { packet: 0, byte: 0, remaining: size })
    }

    /// Checks the message in the first `length` words and reads its payload.
    ///
    /// # Errors
    ///
    /// The refusals of [`View::check`](crate::View::check).
    ///
    /// ```
    /// use latchbeacon::Payload;
    ///
    /// let words = [0x5203_0741, 0x4200_0000, 0, 0];
    /// assert!(Payload::open(&words, 4)?.eq([0x41, 0x42]));
    /// # Ok::<(), latchbeacon::Error>(())
    /// ```
    pub fn open(words: &'a [u32], length: usize) -> Result<Payload<'a>, Error> {
        let cursor = ffi::sysex8_open(words, length)?;
        Ok(Payload::standing(words.get(..length).unwrap_or(words), cursor))
    }

    /// Reads on from a cursor. It takes any words and any cursor: a packet of count 0 or 15 is empty, a byte at or past its
    /// packet's size moves on to the next packet, and words short of a packet are ignored.
    ///
    /// ```
    /// use latchbeacon::{Payload, View};
    ///
    /// let words = [0x5203_0741, 0x4200_0000, 0, 0];
    /// let view = View::check(&words, 4)?;
    /// let mut payload = view.payload();
    /// payload.next();
    /// let kept = payload.cursor();
    /// assert!(Payload::at(view.words(), kept).eq([0x42]));
    /// # Ok::<(), latchbeacon::Error>(())
    /// ```
    pub fn at(words: &'a [u32], cursor: Cursor) -> Payload<'a> {
        let remaining = ffi::sysex8_remaining(words, cursor);
        Payload::standing(words, Cursor { remaining, ..cursor })
    }

    /// Where the reader stands.
    #[inline]
    pub fn cursor(&self) -> Cursor {
        let Held { count, behind, .. } = self.held;
        Cursor { byte: behind.byte - count, remaining: behind.remaining + count, ..behind }
    }

    /// The bytes that are left, in a vector. The reader stays where it is.
    ///
    /// ```
    /// use latchbeacon::View;
    ///
    /// let words = [0x5203_0741, 0x4200_0000, 0, 0];
    /// let mut payload = View::check(&words, 4)?.payload();
    /// assert_eq!(payload.to_vec(), [0x41, 0x42]);
    /// payload.next();
    /// assert_eq!(payload.to_vec(), [0x42]);
    /// # Ok::<(), latchbeacon::Error>(())
    /// ```
    pub fn to_vec(&self) -> Vec<u8> {
        let left = self.len();
        let mut bytes = vec![0; left];
        // All bytes of a message are one copy. Else there are more than are left, or the words are no message.
        if ffi::sysex8_payload(self.words, self.words.len(), &mut bytes) != Ok(left) {
            bytes.clear();
            self.clone().for_each(|byte| bytes.push(byte));
        }
        bytes
    }
}

impl Iterator for Payload<'_> {
    type Item = u8;

    // The next byte.
    #[inline]
    fn next(&mut self) -> Option<u8> {
        if self.held.count == 0 {
            let Cursor { packet, byte, remaining } = self.held.behind;
            self.held = Held::next(self.words, packet, byte, remaining);
            if self.held.count == 0 {
                return None;
            }
        }
        let [byte, ..] = self.held.bytes.to_be_bytes();
        self.held.bytes <<= 8;
        self.held.count -= 1;
        Some(byte)
    }

    // The byte after the next `skip` bytes.
    #[inline]
    fn nth(&mut self, skip: usize) -> Option<u8> {
        let (byte, cursor) = ffi::sysex8_nth(self.words, self.cursor(), skip);
        self.held = Held::none(cursor);
        byte
    }

    // Exactly the bytes that are left.
    #[inline]
    fn size_hint(&self) -> (usize, Option<usize>) {
        let left = self.held.behind.remaining + self.held.count;
        (left, Some(left))
    }

    // The bytes that are left, none of them read.
    fn count(self) -> usize {
        self.len()
    }

    // The last byte, those before it skipped.
    fn last(mut self) -> Option<u8> {
        self.nth(self.len().checked_sub(1)?)
    }

    // The bytes at hand, then those of each packet.
    #[inline]
    fn fold<T, F: FnMut(T, u8) -> T>(self, start: T, mut join: F) -> T {
        let Held { bytes, count, behind: mut cursor } = self.held;
        let mut folded = bytes.to_be_bytes().into_iter().take(count).fold(start, &mut join);
        for packet in self.words.chunks_exact(4).skip(cursor.packet) {
            if cursor.remaining == 0 {
                break;
            }
            let (count, octets) = (standing(packet, cursor), octets(packet));
            // A full packet stands apart, as its loop is then of a fixed length.
            folded = match count {
                13 => octets[3..].iter().copied().fold(folded, &mut join),
                _ => octets.iter().copied().skip(3).skip(cursor.byte).take(count).fold(folded, &mut join),
            };
            cursor = Cursor { byte: 0, remaining: cursor.remaining - count, ..cursor };
        }
        folded
    }
}

impl ExactSizeIterator for Payload<'_> {}

impl FusedIterator for Payload<'_> {}

impl fmt::Debug for Payload<'_> {
    // The words, and where the reader stands.
    fn fmt(&self, formatter: &mut fmt::Formatter<'_>) -> fmt::Result {
        formatter.debug_struct("Payload").field("words", &self.words).field("cursor", &self.cursor()).finish()
    }
}
