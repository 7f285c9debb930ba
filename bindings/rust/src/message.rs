//! SysEx8 messages in lent words: a view that reads, and a message that also changes them.

use crate::edit::{self, Edit};
use crate::error::Error;
use crate::ffi;
use crate::origin::Origin;
use crate::payload::Payload;
use std::fmt;
use std::ops::{Range, RangeBounds};

/// What the check of a message answers.
#[derive(Clone, Copy, Debug, PartialEq, Eq, Hash)]
pub struct Summary {
    /// The group, 0 to 15.
    pub group: u8,
    /// The stream id; 0 for SysEx7.
    pub stream_id: u8,
    /// The payload size in bytes.
    pub size: usize,
    /// The length in words.
    pub words: usize,
}

impl Summary {
    // The summary that an accepted check answers.
    pub(crate) fn of_answer(answer: ffi::Message) -> Summary {
        Summary { group: answer.group, stream_id: answer.id, size: answer.size, words: answer.words }
    }
}

/// A checked SysEx8 message in words that are only read.
///
/// ```
/// use latchbeacon::View;
///
/// let words = [0x5203_0741, 0x4200_0000, 0, 0];
/// let view = View::check(&words, 4)?;
/// assert_eq!((view.group(), view.stream_id(), view.size()), (2, 0x07, 2));
/// assert!(view.payload().eq([0x41, 0x42]));
/// # Ok::<(), latchbeacon::Error>(())
/// ```
#[derive(Clone, Copy)]
pub struct View<'a> {
    // The words of the message alone; they pass the check, and this is its answer.
    words: &'a [u32],
    summary: Summary,
}

impl<'a> View<'a> {
    /// Checks the message in the first `length` words.
    ///
    /// # Errors
    ///
    /// The check's refusals, 1 to 12, in this order, each over all packets before the next, except that 6 to 9 are one walk:
    /// [`Long`](crate::Refusal::Long), [`Length`](crate::Refusal::Length), [`Short`](crate::Refusal::Short),
    /// [`Ragged`](crate::Refusal::Ragged), [`Type`](crate::Refusal::Type), [`Complete`](crate::Refusal::Complete),
    /// [`Begin`](crate::Refusal::Begin), [`Continue`](crate::Refusal::Continue), [`End`](crate::Refusal::End),
    /// [`Count`](crate::Refusal::Count), [`Group`](crate::Refusal::Group), [`Stream`](crate::Refusal::Stream).
    pub fn check(words: &'a [u32], length: usize) -> Result<View<'a>, Error> {
        let summary = Summary::of_answer(ffi::sysex8_check(words, length)?);
        Ok(View { words: words.get(..length).unwrap_or(words), summary })
    }

    /// What the check answered: group, stream id, payload size and words.
    pub fn summary(&self) -> Summary {
        self.summary
    }

    /// The group, 0 to 15.
    pub fn group(&self) -> u8 {
        self.summary.group
    }

    /// The stream id.
    pub fn stream_id(&self) -> u8 {
        self.summary.stream_id
    }

    /// The payload size in bytes.
    pub fn size(&self) -> usize {
        self.summary.size
    }

    /// The words of the message.
    pub fn words(&self) -> &'a [u32] {
        self.words
    }

    /// The payload byte at `index`.
    ///
    /// # Errors
    ///
    /// [`Range`](crate::Refusal::Range) if `index` is not below the payload size.
    pub fn byte(&self, index: usize) -> Result<u8, Error> {
        ffi::sysex8_byte(self.words, self.words.len(), index)
    }

    /// An iterator over the payload.
    pub fn payload(&self) -> Payload<'a> {
        Payload::of_message(self.words, self.summary.size)
    }

    /// Copies the payload to the front of `bytes` and answers its size; bytes past it stay.
    ///
    /// # Errors
    ///
    /// [`Room`](crate::Refusal::Room) if `bytes` is shorter than the payload.
    pub fn copy_payload(&self, bytes: &mut [u8]) -> Result<usize, Error> {
        ffi::sysex8_payload(self.words, self.words.len(), bytes)
    }

    /// Whether the message carries this payload, with this group and stream id, in whatever packing: packets of any sizes, empty ones
    /// too, whatever their unused octets hold. `Ok` is a yes, and a no is the error.
    ///
    /// The payload may be of any size. Words that somebody else packed, and that are not checked yet, are asked at once by
    /// [`sysex8::carries`](crate::sysex8::carries).
    ///
    /// # Errors
    ///
    /// [`Field`](crate::Refusal::Field) if `group` is over 15; then [`Other`](crate::Refusal::Other) if the group, the stream id or the
    /// payload differs. Its place is 0 if the group or the stream id differs, else the word index of the packet with the first byte that
    /// differs, or 0 if only the sizes differ.
    ///
    /// ```
    /// use latchbeacon::{Error, Refusal, View};
    ///
    /// // Payload A0 A1 A2 with group 1 and stream id 5, in packets of two, no and one bytes; and all in one packet, with unused octets
    /// // that are not zero.
    /// let uneven = [0x5113_05A0, 0xA100_0000, 0, 0, 0x5121_0500, 0, 0, 0, 0x5132_05A2, 0, 0, 0];
    /// let dirty = [0x5104_05A0, 0xA1A2_7777, 7, 7];
    /// assert_eq!(View::check(&uneven, 12)?.carries(&[0xA0, 0xA1, 0xA2], 1, 5), Ok(()));
    /// assert_eq!(View::check(&dirty, 4)?.carries(&[0xA0, 0xA1, 0xA2], 1, 5), Ok(()));
    ///
    /// let no = |payload: &[u8], group, id| View::check(&uneven, 12)?.carries(payload, group, id);
    /// let other = |place| Err(Error { refusal: Refusal::Other, place });
    /// assert_eq!(no(&[0xA0, 0xFF, 0xA2], 1, 5), other(0)); // a byte of the first packet
    /// assert_eq!(no(&[0xA0, 0xA1, 0xFF], 1, 5), other(8)); // a byte of the third
    /// assert_eq!(no(&[0xA0, 0xA1], 1, 5), other(0)); // one byte less
    /// assert_eq!(no(&[0xA0, 0xA1, 0xA2, 0], 1, 5), other(0)); // one more
    /// assert_eq!(no(&[0xA0, 0xA1, 0xFF], 2, 5), other(0)); // another group
    /// assert_eq!(no(&[0xA0, 0xA1, 0xFF], 1, 6), other(0)); // another stream id
    /// assert_eq!(no(&[0xA0, 0xA1, 0xA2], 16, 5), Err(Error { refusal: Refusal::Field, place: 0 })); // no group
    /// # Ok::<(), Error>(())
    /// ```
    pub fn carries(&self, payload: &[u8], group: u8, id: u8) -> Result<(), Error> {
        ffi::sysex8_carries(self.words, self.words.len(), payload, group, id)
    }

    /// Where an octet of the words comes from once all edits of a list are done, as [`Message::origin`]. The words lent are those
    /// of the message alone.
    ///
    /// # Errors
    ///
    /// Those of [`Message::origin`]; [`Room`](crate::Refusal::Room) if the result takes more words than the message has.
    ///
    /// ```
    /// use latchbeacon::{Origin, Refusal, View};
    ///
    /// let words = [0x5203_0741, 0x4200_0000, 0, 0];
    /// let view = View::check(&words, 4)?;
    /// assert_eq!(view.origin(&[], &[], 2), Ok(Origin::Header { packet: 0, octet: 2 }));
    /// assert_eq!(view.origin(&[], &[], 5), Ok(Origin::Filler));
    /// assert_eq!(view.origin(&[], &[], 16).unwrap_err().refusal, Refusal::Range);
    /// # Ok::<(), latchbeacon::Error>(())
    /// ```
    pub fn origin(&self, edits: &[Edit], bytes: &[u8], octet: usize) -> Result<Origin, Error> {
        ffi::sysex8_origin(self.words, self.words.len(), edits, bytes, octet).map(Origin::of_answer)
    }

    /// The payload byte at `position` once all edits of a list are done, without doing them, as [`Message::byte_after`].
    ///
    /// # Errors
    ///
    /// Those of [`Message::byte_after`].
    ///
    /// ```
    /// use latchbeacon::{Edit, Refusal, View};
    ///
    /// // Payload 41 42, and 10 put in between.
    /// let words = [0x5203_0741, 0x4200_0000, 0, 0];
    /// let view = View::check(&words, 4)?;
    /// let edits = [Edit::new(1..1, 1)];
    /// assert_eq!([0, 1, 2].map(|position| view.byte_after(&edits, &[0x10], position)), [Ok(0x41), Ok(0x10), Ok(0x42)]);
    /// assert_eq!(view.byte_after(&edits, &[0x10], 3).unwrap_err().refusal, Refusal::Range);
    /// # Ok::<(), latchbeacon::Error>(())
    /// ```
    pub fn byte_after(&self, edits: &[Edit], bytes: &[u8], position: usize) -> Result<u8, Error> {
        ffi::sysex8_look_byte(self.words, self.words.len(), edits, bytes, position)
    }
}

impl<'a> TryFrom<&'a [u32]> for View<'a> {
    type Error = Error;

    // All the words are the message.
    fn try_from(words: &'a [u32]) -> Result<View<'a>, Error> {
        View::check(words, words.len())
    }
}

impl fmt::Debug for View<'_> {
    // The words of the message, in hex.
    fn fmt(&self, formatter: &mut fmt::Formatter<'_>) -> fmt::Result {
        write!(formatter, "View({:08X?})", self.words)
    }
}

impl PartialEq for View<'_> {
    // Equal messages are equal words.
    fn eq(&self, other: &View<'_>) -> bool {
        self.words == other.words
    }
}

impl Eq for View<'_> {}

/// A checked SysEx8 message in lent words.
///
/// It borrows a buffer of at most [`MOST_WORDS`](crate::MOST_WORDS) words and keeps the message's length in it. It can only be made by
/// the check, or handed out by [`Ports`](crate::Ports), where all that is handed out passes it; and every call keeps what the check
/// found, so no reader of it can fail for broken packets. A call that is refused changes nothing. A call that is accepted updates
/// [`length`](Message::length); the buffer's words past it are room to grow.
///
/// ```
/// use latchbeacon::Message;
///
/// let mut buffer = [0; 64];
/// buffer[..4].copy_from_slice(&[0x5203_0741, 0x4200_0000, 0, 0]);
/// let mut message = Message::check(&mut buffer, 4)?;
/// assert_eq!((message.group(), message.stream_id(), message.size()), (2, 0x07, 2));
///
/// message.splice(1..1, &[0x10, 0x11])?;
/// assert!(message.payload().eq([0x41, 0x10, 0x11, 0x42]));
/// assert_eq!(message.words(), [0x5205_0741, 0x1011_4200, 0, 0]);
/// # Ok::<(), latchbeacon::Error>(())
/// ```
pub struct Message<'a> {
    // The first `summary.words` of the words pass the check, and the summary is its answer.
    words: &'a mut [u32],
    summary: Summary,
}

impl<'a> Message<'a> {
    /// Checks the message in the first `length` words of a buffer.
    ///
    /// # Errors
    ///
    /// The refusals of [`View::check`], 1 to 12.
    ///
    /// ```
    /// use latchbeacon::{Message, Refusal};
    ///
    /// let mut words = [0x501E_0001, 0x0203_0405, 0x0607_0809, 0x0A0B_0C0D, 0x5031_0000];
    /// let error = Message::check(&mut words, 5).unwrap_err();
    /// assert_eq!(error.refusal, Refusal::Ragged);
    /// ```
    pub fn check(words: &'a mut [u32], length: usize) -> Result<Message<'a>, Error> {
        let summary = Summary::of_answer(ffi::sysex8_check(words, length)?);
        Ok(Message { words, summary })
    }

    // The message in the first `length` words, of 16,384 or fewer, that were handed out for packets received: they pass the check.
    pub(crate) fn handed_out(words: &'a mut [u32], length: usize) -> Message<'a> {
        let (packets, first) = (words.chunks_exact(4).take(length / 4), words.first().copied().unwrap_or(0));
        // The count of a packet is its payload size and one.
        let size = packets.map(|packet| (packet[0] >> 16 & 15).saturating_sub(1) as usize).sum();
        let summary = Summary { group: (first >> 24 & 15) as u8, stream_id: (first >> 8) as u8, size, words: length };
        debug_assert_eq!(ffi::sysex8_check(words, length).map(Summary::of_answer), Ok(summary));
        Message { words, summary }
    }

    /// The message, only to be read.
    pub fn view(&self) -> View<'_> {
        View { words: self.words(), summary: self.summary }
    }

    /// What a check of the message answers: group, stream id, payload size and words.
    pub fn summary(&self) -> Summary {
        self.summary
    }

    /// The group, 0 to 15.
    pub fn group(&self) -> u8 {
        self.summary.group
    }

    /// The stream id.
    pub fn stream_id(&self) -> u8 {
        self.summary.stream_id
    }

    /// The payload size in bytes.
    pub fn size(&self) -> usize {
        self.summary.size
    }

    /// The length of the message in words.
    pub fn length(&self) -> usize {
        self.summary.words
    }

    /// The words of the message.
    pub fn words(&self) -> &[u32] {
        self.words.get(..self.summary.words).unwrap_or(self.words)
    }

    /// All the words that are lent, those past the message too.
    pub fn buffer(&self) -> &[u32] {
        self.words
    }

    /// Gives the lent words back, the message at their front.
    pub fn into_buffer(self) -> &'a mut [u32] {
        self.words
    }

    /// The payload byte at `index`.
    ///
    /// # Errors
    ///
    /// [`Range`](crate::Refusal::Range) if `index` is not below the payload size.
    ///
    /// ```
    /// use latchbeacon::{Message, Refusal};
    ///
    /// let mut words = [0x5203_0741, 0x4200_0000, 0, 0];
    /// let message = Message::check(&mut words, 4)?;
    /// assert_eq!(message.byte(1), Ok(0x42));
    /// assert_eq!(message.byte(2).unwrap_err().refusal, Refusal::Range);
    /// # Ok::<(), latchbeacon::Error>(())
    /// ```
    pub fn byte(&self, index: usize) -> Result<u8, Error> {
        self.view().byte(index)
    }

    /// An iterator over the payload.
    ///
    /// ```
    /// use latchbeacon::Message;
    ///
    /// let mut words = [0x5203_0741, 0x4200_0000, 0, 0];
    /// let message = Message::check(&mut words, 4)?;
    /// assert_eq!(message.payload().collect::<Vec<u8>>(), [0x41, 0x42]);
    /// # Ok::<(), latchbeacon::Error>(())
    /// ```
    pub fn payload(&self) -> Payload<'_> {
        self.view().payload()
    }

    /// Copies the payload to the front of `bytes` and answers its size; bytes past it stay.
    ///
    /// # Errors
    ///
    /// [`Room`](crate::Refusal::Room) if `bytes` is shorter than the payload.
    ///
    /// ```
    /// use latchbeacon::Message;
    ///
    /// let mut words = [0x5203_0741, 0x4200_0000, 0, 0];
    /// let message = Message::check(&mut words, 4)?;
    /// let mut bytes = [0xFF; 3];
    /// assert_eq!(message.copy_payload(&mut bytes), Ok(2));
    /// assert_eq!(bytes, [0x41, 0x42, 0xFF]);
    /// # Ok::<(), latchbeacon::Error>(())
    /// ```
    pub fn copy_payload(&self, bytes: &mut [u8]) -> Result<usize, Error> {
        self.view().copy_payload(bytes)
    }

    /// Whether the message carries this payload, with this group and stream id, in whatever packing, as [`View::carries`].
    ///
    /// # Errors
    ///
    /// Those of [`View::carries`].
    ///
    /// ```
    /// use latchbeacon::{Message, Refusal};
    ///
    /// let mut words = [0x5112_05A0, 0, 0, 0, 0x5133_05A1, 0xA200_0000, 0, 0];
    /// let mut message = Message::check(&mut words, 8)?;
    /// assert_eq!(message.carries(&[0xA0, 0xA1, 0xA2], 1, 5), Ok(()));
    /// let error = message.carries(&[0xA0, 0xA1, 0xFF], 1, 5).unwrap_err();
    /// assert_eq!((error.refusal, error.place), (Refusal::Other, 4));
    ///
    /// // In another packing it is the same.
    /// message.repack()?;
    /// assert_eq!(message.carries(&[0xA0, 0xA1, 0xA2], 1, 5), Ok(()));
    /// # Ok::<(), latchbeacon::Error>(())
    /// ```
    pub fn carries(&self, payload: &[u8], group: u8, id: u8) -> Result<(), Error> {
        self.view().carries(payload, group, id)
    }

    /// Where an octet of the buffer comes from once all edits of a list are done by [`splice_edits`](Message::splice_edits).
    ///
    /// Edits and bytes are those of that call, and it is asked before it; nothing is changed. Octet 4w + b is octet b of word w of
    /// [`buffer`](Message::buffer), 0 the most significant. Two workers that do the edits one after the other, each in its own
    /// order and with [`move_edit`](crate::move_edit), end with the same message, if there is at least one edit and the buffer has
    /// room for the payload and all replacement bytes; then the answer holds for every octet of it. Behind it the answer is what
    /// `splice_edits` leaves.
    ///
    /// # Errors
    ///
    /// Those of [`splice_edits`](Message::splice_edits), then [`Range`](crate::Refusal::Range) if `octet` is not below 4 times the
    /// words of the buffer.
    ///
    /// A whole bank by origin:
    ///
    /// ```
    /// use latchbeacon::{Edit, Error, Message, Origin};
    ///
    /// // Payload A0 A1 A2 in three packets, and two words behind it.
    /// let mut buffer = [0x5113_05A0, 0xA100_0000, 0, 0, 0x5121_0500, 0, 0, 0, 0x5132_05A2, 0, 0, 0, 7, 7];
    /// let mut message = Message::check(&mut buffer, 12)?;
    /// let (edits, bytes) = ([Edit::new(0..1, 2), Edit::new(2..3, 0)], [0xB0, 0xB1]);
    ///
    /// let origins = (0..56).map(|octet| message.origin(&edits, &bytes, octet)).collect::<Result<Vec<Origin>, Error>>()?;
    /// assert_eq!(
    ///     origins[..6],
    ///     [
    ///         Origin::Header { packet: 0, octet: 0 },
    ///         Origin::Header { packet: 0, octet: 1 },
    ///         Origin::Header { packet: 0, octet: 2 },
    ///         Origin::Edit { edit: 0, byte: 0 },
    ///         Origin::Edit { edit: 0, byte: 1 },
    ///         Origin::Dump { byte: 1 },
    ///     ]
    /// );
    /// assert_eq!(origins[6..16], [Origin::Filler; 10]);
    /// assert_eq!(origins[16..48], [Origin::Zeroed; 32]);
    /// assert_eq!(origins[48..], [Origin::Untouched; 8]);
    ///
    /// message.splice_edits(&edits, &bytes)?;
    /// assert_eq!(message.buffer(), [0x5104_05B0, 0xB1A1_0000, 0, 0, 0, 0, 0, 0, 0, 0, 0, 0, 7, 7]);
    /// # Ok::<(), latchbeacon::Error>(())
    /// ```
    pub fn origin(&self, edits: &[Edit], bytes: &[u8], octet: usize) -> Result<Origin, Error> {
        ffi::sysex8_origin(self.words, self.summary.words, edits, bytes, octet).map(Origin::of_answer)
    }

    /// The payload byte at `position` once all edits of a list are done by [`splice_edits`](Message::splice_edits), without doing
    /// them: nothing is changed, and no room is needed. With no edits it is [`byte`](Message::byte).
    ///
    /// # Errors
    ///
    /// [`Range`](crate::Refusal::Range) if a range is reversed or ends above the payload size, a number is above
    /// [`MOST_BYTES`](crate::MOST_BYTES), or there are not as many bytes as the lengths say; then
    /// [`Overlap`](crate::Refusal::Overlap) if the edits are not in ascending order, each ending no later than the next begins; then
    /// `Range` if `position` is not below the size of the result.
    ///
    /// ```
    /// use latchbeacon::{Edit, Message, Refusal};
    ///
    /// // Payload A0 A1 A2, in a buffer that has no room for more than 13 bytes.
    /// let mut words = [0x5104_05A0, 0xA1A2_0000, 0, 0];
    /// let message = Message::check(&mut words, 4)?;
    /// let edits = [Edit::new(0..1, 20), Edit::new(2..3, 0)];
    /// assert_eq!(message.byte_after(&edits, &[0xB0; 20], 19), Ok(0xB0));
    /// assert_eq!(message.byte_after(&edits, &[0xB0; 20], 20), Ok(0xA1));
    ///
    /// let refused = |edits: &[Edit], bytes: &[u8], position| message.byte_after(edits, bytes, position).unwrap_err().refusal;
    /// assert_eq!(refused(&[Edit { from: 1, to: 0, length: 0 }], &[], 0), Refusal::Range); // reversed
    /// assert_eq!(refused(&[Edit::new(0..4, 0)], &[], 0), Refusal::Range); // past the payload
    /// assert_eq!(refused(&[Edit::new(0..0, 53_249)], &[0; 53_249], 0), Refusal::Range); // a number above 53,248
    /// assert_eq!(refused(&edits, &[0xB0; 19], 0), Refusal::Range); // a byte too few
    /// assert_eq!(refused(&[Edit::new(2..3, 0), Edit::new(0..1, 0)], &[], 0), Refusal::Overlap);
    /// assert_eq!(refused(&edits, &[0xB0; 20], 21), Refusal::Range); // behind the result
    /// # Ok::<(), latchbeacon::Error>(())
    /// ```
    pub fn byte_after(&self, edits: &[Edit], bytes: &[u8], position: usize) -> Result<u8, Error> {
        self.view().byte_after(edits, bytes, position)
    }

    /// Sets the group of every packet. Every other bit stays.
    ///
    /// # Errors
    ///
    /// [`Field`](crate::Refusal::Field) if `group` is over 15.
    ///
    /// ```
    /// use latchbeacon::{Message, Refusal};
    ///
    /// let mut words = [0x5203_0741, 0x4200_0000, 0, 0];
    /// let mut message = Message::check(&mut words, 4)?;
    /// message.set_group(9)?;
    /// assert_eq!(message.group(), 9);
    /// assert_eq!(message.set_group(16).unwrap_err().refusal, Refusal::Field);
    /// # Ok::<(), latchbeacon::Error>(())
    /// ```
    pub fn set_group(&mut self, group: u8) -> Result<(), Error> {
        ffi::sysex8_set_group(self.words, self.summary.words, group)?;
        self.summary.group = group;
        Ok(())
    }

    /// Sets the stream id of every packet. Every other bit stays.
    ///
    /// # Errors
    ///
    /// None: a checked message is not refused.
    ///
    /// ```
    /// use latchbeacon::Message;
    ///
    /// let mut words = [0x5203_0741, 0x4200_0000, 0, 0];
    /// let mut message = Message::check(&mut words, 4)?;
    /// message.set_stream_id(0xC3)?;
    /// assert_eq!(message.words()[0], 0x5203_C341);
    /// # Ok::<(), latchbeacon::Error>(())
    /// ```
    pub fn set_stream_id(&mut self, id: u8) -> Result<(), Error> {
        ffi::sysex8_set_stream_id(self.words, self.summary.words, id)?;
        self.summary.stream_id = id;
        Ok(())
    }

    /// Sets the payload byte at `index`. Every other bit stays.
    ///
    /// # Errors
    ///
    /// [`Range`](crate::Refusal::Range) if `index` is not below the payload size.
    ///
    /// ```
    /// use latchbeacon::Message;
    ///
    /// let mut words = [0x5203_0741, 0x4200_0000, 0, 0];
    /// let mut message = Message::check(&mut words, 4)?;
    /// message.set_byte(1, 0x99)?;
    /// assert!(message.payload().eq([0x41, 0x99]));
    /// # Ok::<(), latchbeacon::Error>(())
    /// ```
    pub fn set_byte(&mut self, index: usize, byte: u8) -> Result<(), Error> {
        ffi::sysex8_set_byte(self.words, self.summary.words, index, byte)
    }

    /// Rewrites the message in fewest-packet form and answers its new length in words.
    ///
    /// Every packet but the last then carries 13 bytes. Words past the new end that belonged to the old message are zero; all
    /// others past it stay.
    ///
    /// # Errors
    ///
    /// None: no checked message needs more words than it has.
    ///
    /// ```
    /// use latchbeacon::Message;
    ///
    /// let mut words = [0x5113_05A0, 0xA100_0000, 0, 0, 0x5121_0500, 0, 0, 0, 0x5132_05A2, 0, 0, 0];
    /// let mut message = Message::check(&mut words, 12)?;
    /// assert_eq!(message.repack(), Ok(4));
    /// assert_eq!(message.words(), [0x5104_05A0, 0xA1A2_0000, 0, 0]);
    /// # Ok::<(), latchbeacon::Error>(())
    /// ```
    pub fn repack(&mut self) -> Result<usize, Error> {
        self.summary.words = ffi::sysex8_repack(self.words, self.summary.words)?;
        Ok(self.summary.words)
    }

    /// Replaces a range of the payload by `replacement`, which need not be as long, and writes the fewest-packet form. Answers the
    /// growth: replacement length minus range length, which may be below zero.
    ///
    /// # Errors
    ///
    /// [`Range`](crate::Refusal::Range) if the range is reversed or ends above the payload size, then
    /// [`Room`](crate::Refusal::Room) if the words lent are too few.
    ///
    /// ```
    /// use latchbeacon::{Message, Refusal};
    ///
    /// let mut words = [0x5203_0741, 0x4200_0000, 0, 0, 0, 0, 0, 0];
    /// let mut message = Message::check(&mut words, 4)?;
    /// let bytes = [0x10, 0x11, 0x12, 0x13, 0x14, 0x15, 0x16, 0x17, 0x18, 0x19, 0x1A, 0x1B, 0x1C];
    /// assert_eq!(message.splice(1..1, &bytes), Ok(13));
    /// assert_eq!(message.length(), 8);
    /// assert_eq!(message.splice(2.., &[]), Ok(-13));
    /// assert_eq!(message.words(), [0x5203_0741, 0x1000_0000, 0, 0]);
    /// assert_eq!(message.splice(0..3, &[]).unwrap_err().refusal, Refusal::Range);
    /// # Ok::<(), latchbeacon::Error>(())
    /// ```
    pub fn splice(&mut self, range: impl RangeBounds<usize>, replacement: &[u8]) -> Result<i64, Error> {
        let range = edit::numbers(range, self.summary.size);
        let change = ffi::sysex8_splice(self.words, self.summary.words, range.start, range.end, replacement)?;
        Ok(self.changed(change))
    }

    /// Puts `bytes` in at `index`: a splice of an empty range.
    ///
    /// # Errors
    ///
    /// Those of [`splice`](Message::splice).
    ///
    /// ```
    /// use latchbeacon::Message;
    ///
    /// let mut words = [0x5203_0741, 0x4200_0000, 0, 0];
    /// let mut message = Message::check(&mut words, 4)?;
    /// message.insert(1, &[0x99])?;
    /// assert!(message.payload().eq([0x41, 0x99, 0x42]));
    /// # Ok::<(), latchbeacon::Error>(())
    /// ```
    pub fn insert(&mut self, index: usize, bytes: &[u8]) -> Result<i64, Error> {
        self.splice(index..index, bytes)
    }

    /// Puts `bytes` after the payload: a splice of the empty range at its end.
    ///
    /// # Errors
    ///
    /// [`Room`](crate::Refusal::Room) if the words lent are too few.
    ///
    /// ```
    /// use latchbeacon::Message;
    ///
    /// let mut words = [0x5203_0741, 0x4200_0000, 0, 0];
    /// let mut message = Message::check(&mut words, 4)?;
    /// message.append(&[0x43, 0x44])?;
    /// assert!(message.payload().eq([0x41, 0x42, 0x43, 0x44]));
    /// # Ok::<(), latchbeacon::Error>(())
    /// ```
    pub fn append(&mut self, bytes: &[u8]) -> Result<i64, Error> {
        self.splice(self.size().., bytes)
    }

    /// Sets the payload: a splice of the whole. Answers the growth.
    ///
    /// # Errors
    ///
    /// [`Room`](crate::Refusal::Room) if the words lent are too few.
    ///
    /// ```
    /// use latchbeacon::Message;
    ///
    /// let mut words = [0x5203_0741, 0x4200_0000, 0, 0];
    /// let mut message = Message::check(&mut words, 4)?;
    /// assert_eq!(message.set_payload(&[0x01, 0x02, 0x03]), Ok(1));
    /// assert_eq!(message.words(), [0x5204_0701, 0x0203_0000, 0, 0]);
    /// # Ok::<(), latchbeacon::Error>(())
    /// ```
    pub fn set_payload(&mut self, bytes: &[u8]) -> Result<i64, Error> {
        let change = ffi::sysex8_set_payload(self.words, self.summary.words, bytes)?;
        Ok(self.changed(change))
    }

    /// Replaces all ranges of a list at once, each by its bytes. Answers the growth of all of them.
    ///
    /// The ranges are those of the message before the call, in ascending order, each ending no later than the next begins. The
    /// list is copied; [`splice_edits`](Message::splice_edits) takes no memory.
    ///
    /// # Errors
    ///
    /// [`Range`](crate::Refusal::Range) if a range is reversed or ends above the payload size, or a number is above [`MOST_BYTES`](crate::MOST_BYTES); then
    /// [`Overlap`](crate::Refusal::Overlap) if they are not in that order; then [`Room`](crate::Refusal::Room).
    ///
    /// ```
    /// use latchbeacon::Message;
    ///
    /// let mut words = [0x5104_05A0, 0xA1A2_0000, 0, 0];
    /// let mut message = Message::check(&mut words, 4)?;
    /// assert_eq!(message.splice_all(&[(0..1, &[0xB0, 0xB1]), (2..3, &[])]), Ok(0));
    /// assert!(message.payload().eq([0xB0, 0xB1, 0xA1]));
    /// # Ok::<(), latchbeacon::Error>(())
    /// ```
    pub fn splice_all(&mut self, edits: &[(Range<usize>, &[u8])]) -> Result<i64, Error> {
        let numbers: Vec<Edit> = edits.iter().map(|(range, bytes)| Edit::new(range.clone(), bytes.len())).collect();
        let bytes: Vec<u8> = edits.iter().flat_map(|(_, bytes)| bytes.iter().copied()).collect();
        self.splice_edits(&numbers, &bytes)
    }

    /// Replaces all ranges of a list of edits at once, as [`splice_all`](Message::splice_all); the bytes of each edit follow those
    /// of the edits before it in `bytes`.
    ///
    /// # Errors
    ///
    /// Those of [`splice_all`](Message::splice_all); [`Range`](crate::Refusal::Range) also if there are not as many bytes as the
    /// lengths say.
    ///
    /// ```
    /// use latchbeacon::{Edit, Message};
    ///
    /// let mut words = [0x5104_05A0, 0xA1A2_0000, 0, 0];
    /// let mut message = Message::check(&mut words, 4)?;
    /// let edits = [Edit::new(1..1, 1), Edit::new(1..1, 1)];
    /// assert_eq!(message.splice_edits(&edits, &[0xC0, 0xC1]), Ok(2));
    /// assert!(message.payload().eq([0xA0, 0xC0, 0xC1, 0xA1, 0xA2]));
    /// # Ok::<(), latchbeacon::Error>(())
    /// ```
    pub fn splice_edits(&mut self, edits: &[Edit], bytes: &[u8]) -> Result<i64, Error> {
        let change = ffi::sysex8_splice_all(self.words, self.summary.words, edits, bytes)?;
        Ok(self.changed(change))
    }

    // Keeps the new length and payload size of an accepted change, and answers its growth.
    fn changed(&mut self, change: ffi::Change) -> i64 {
        self.summary.words = change.length;
        self.summary.size = self.summary.size.wrapping_add_signed(change.growth as isize);
        change.growth
    }
}

impl<'a> TryFrom<&'a mut [u32]> for Message<'a> {
    type Error = Error;

    // All the words are the message.
    fn try_from(words: &'a mut [u32]) -> Result<Message<'a>, Error> {
        let length = words.len();
        Message::check(words, length)
    }
}

impl fmt::Debug for Message<'_> {
    // The words of the message, in hex.
    fn fmt(&self, formatter: &mut fmt::Formatter<'_>) -> fmt::Result {
        write!(formatter, "Message({:08X?})", self.words())
    }
}

impl PartialEq for Message<'_> {
    // Equal messages are equal words; the words past them do not count.
    fn eq(&self, other: &Message<'_>) -> bool {
        self.words() == other.words()
    }
}

impl Eq for Message<'_> {}
