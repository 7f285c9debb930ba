//! Interleaved streams: the packets of several messages, from two ports.

use crate::error::{Error, Refusal};
use crate::{ffi, Message, MOST_WORDS};
use std::fmt;

/// Two ports on which the packets of several SysEx8 messages come interleaved. It keeps the packets of each stream until its end comes,
/// and then hands out the message.
///
/// A stream is told by its port, group and stream id. At most 16 are open at a time, and at most 12 of one port, so that a port with
/// fewer than four is never refused room for one more. Each of the 16 has an equal part of the words, rounded down: 64 words for each
/// packet that a stream may have before its end.
///
/// It owns its table and its words. The words are on the heap, taken once by [`new`](Ports::new): how many are needed is often known
/// only when the program runs, a message of the longest kind takes 64 KB, and what keeps packets between calls should not borrow. Only
/// the output is lent, anew for each packet.
///
/// What a port is answered does not depend on the other port, but for [`Full`](crate::Refusal::Full).
///
/// ```
/// use latchbeacon::{Ports, Received, Refusal};
///
/// // Room for two packets of each stream before its end.
/// let mut ports = Ports::new(2 * 64)?;
/// let mut output = [0; 12];
///
/// // Two messages interleaved on port 0: stream ids 5 and 6.
/// assert_eq!(ports.receive(0, &[0x5113_05A0, 0xA100_0000, 0, 0], &mut output)?, Received::Kept);
/// assert_eq!(ports.receive(0, &[0x5112_06B0, 0, 0, 0], &mut output)?, Received::Kept);
/// assert_eq!(ports.receive(0, &[0x5122_05A2, 0, 0, 0], &mut output)?, Received::Kept);
/// match ports.receive(0, &[0x5132_06B1, 0, 0, 0], &mut output)? {
///     Received::Message(message) => assert!(message.payload().eq([0xB0, 0xB1])),
///     other => panic!("{other:?}"),
/// }
/// match ports.receive(0, &[0x5131_0500, 0, 0, 0], &mut output)? {
///     Received::Message(message) => assert_eq!((message.group(), message.stream_id(), message.size()), (1, 5, 3)),
///     other => panic!("{other:?}"),
/// }
///
/// // Both streams are closed now.
/// let error = ports.receive(0, &[0x5131_0500, 0, 0, 0], &mut output).unwrap_err();
/// assert_eq!((error.refusal, error.place), (Refusal::Closed, 0));
/// # Ok::<(), latchbeacon::Error>(())
/// ```
#[derive(Clone)]
pub struct Ports {
    // A table that began empty and was changed by the calls on these words alone, so that what they hand out passes the check.
    table: [u32; ffi::PORTS_TABLE],
    words: Box<[u32]>,
}

/// What a received packet did.
#[derive(Debug, PartialEq, Eq)]
pub enum Received<'a> {
    /// It is kept in its stream.
    Kept,
    /// Its stream was dropped: it is closed, and nothing is handed out.
    Dropped,
    /// A message was handed out: it stands at the front of the output. It can be read, and changed in the output.
    Message(Message<'a>),
}

impl Ports {
    /// No open streams, and so many words for those to come. Each stream has a 16th of them, rounded down: 64 words are room for one
    /// packet of each before its end.
    ///
    /// # Errors
    ///
    /// [`Long`](crate::Refusal::Long) above [`MOST_WORDS`], which are room for 256 packets of each stream before its end.
    ///
    /// ```
    /// use latchbeacon::{Ports, Refusal, MOST_WORDS};
    ///
    /// assert!(Ports::new(MOST_WORDS).is_ok());
    /// assert_eq!(Ports::new(MOST_WORDS + 1).unwrap_err().refusal, Refusal::Long);
    /// ```
    pub fn new(words: usize) -> Result<Ports, Error> {
        match words {
            0..=MOST_WORDS => Ok(Ports { table: [0; ffi::PORTS_TABLE], words: vec![0; words].into() }),
            _ => Err(Error { refusal: Refusal::Long, place: 0 }),
        }
    }

    /// Receives the packet in the first 4 words of `packet` from port 0 or 1.
    ///
    /// | Packet | What it does | Answer |
    /// |---|---|---|
    /// | start | opens its stream, or begins it afresh if it is open: the packets that it had are gone | [`Kept`](Received::Kept) |
    /// | continue | stands behind the packets of its stream | `Kept` |
    /// | end, or an unexpected end with valid earlier data | closes its stream; the packets of the stream and then the end are handed out as they came | [`Message`](Received::Message) |
    /// | complete | is handed out alone, and closes the open stream of its port, group and stream id, if there is one | `Message` |
    /// | unexpected end with invalid earlier data | closes its stream; no output is needed | [`Dropped`](Received::Dropped) |
    ///
    /// A message needs an output of as many words as it has. Words of the output past it stay. The end itself needs no room in the part
    /// of its stream. [`MOST_WORDS`] over 16, and 4 for the end, are enough for every message that is handed out.
    ///
    /// # Errors
    ///
    /// In this order: [`Long`](crate::Refusal::Long) if the output has more than [`MOST_WORDS`]; those of
    /// [`sysex8::Packet::read`](crate::sysex8::Packet::read); [`Port`](crate::Refusal::Port); [`Closed`](crate::Refusal::Closed) for a
    /// continue or end, of whatever kind, without a start; [`Share`](crate::Refusal::Share) for a new stream, 12 of its port open;
    /// [`Full`](crate::Refusal::Full) for a new stream, 16 open; [`Room`](crate::Refusal::Room) for a start or continue past the part
    /// of its stream, or an output too short for the message. A start of an open stream is never `Share` or `Full`. The streams and the
    /// output stay as they were, and the place is 0.
    ///
    /// ```
    /// use latchbeacon::{Ports, Received, Refusal};
    ///
    /// // Room for one packet of each stream before its end.
    /// let mut ports = Ports::new(64)?;
    /// let mut output = [7; 8];
    /// let [start, more, end] = [[0x5212_0741, 0, 0, 0], [0x5222_0742, 0, 0, 0], [0x5232_0743, 0, 0, 0]];
    /// assert_eq!(ports.receive(1, &start, &mut [])?, Received::Kept);
    ///
    /// // A second packet is too much, and stream 7 of port 0 is another one. The stream stays open.
    /// assert_eq!(ports.receive(1, &more, &mut output).unwrap_err().refusal, Refusal::Room);
    /// assert_eq!(ports.receive(0, &end, &mut output).unwrap_err().refusal, Refusal::Closed);
    /// assert_eq!(ports.receive(2, &end, &mut output).unwrap_err().refusal, Refusal::Port);
    /// assert_eq!(ports.receive(1, &end, &mut output[..7]).unwrap_err().refusal, Refusal::Room);
    /// assert_eq!(output, [7; 8]);
    ///
    /// // The end goes straight to the output. The message can be changed there.
    /// let Received::Message(mut message) = ports.receive(1, &end, &mut output)? else { panic!("no message") };
    /// assert_eq!(message.words(), [start, end].concat());
    /// message.append(&[0x44])?;
    /// assert_eq!(output, [0x5204_0741, 0x4344_0000, 0, 0, 0, 0, 0, 0]);
    ///
    /// // A sender that gives up.
    /// ports.receive(1, &start, &mut [])?;
    /// assert_eq!(ports.receive(1, &[0x523F_0700, 0, 0, 0], &mut [])?, Received::Dropped);
    /// # Ok::<(), latchbeacon::Error>(())
    /// ```
    pub fn receive<'a>(&mut self, port: u8, packet: &[u32], output: &'a mut [u32]) -> Result<Received<'a>, Error> {
        let answer = ffi::ports_receive(&mut self.table, &mut self.words, port, packet, output)?;
        Ok(match answer.kind {
            0 => Received::Kept,
            1 => Received::Dropped,
            _ => Received::Message(Message::handed_out(output, answer.words)),
        })
    }

    /// Closes all streams of both ports. Their packets are gone.
    ///
    /// ```
    /// use latchbeacon::{Ports, Received, Refusal};
    ///
    /// let mut ports = Ports::new(64)?;
    /// ports.receive(0, &[0x5011_0900, 0, 0, 0], &mut [])?;
    /// ports.clear();
    /// assert_eq!(ports.receive(0, &[0x5031_0900, 0, 0, 0], &mut [0; 8]).unwrap_err().refusal, Refusal::Closed);
    /// # Ok::<(), latchbeacon::Error>(())
    /// ```
    pub fn clear(&mut self) {
        ffi::ports_clear(&mut self.table);
    }
}

impl fmt::Debug for Ports {
    // How many words it has. Those of the table mean nothing outside of the library.
    fn fmt(&self, formatter: &mut fmt::Formatter<'_>) -> fmt::Result {
        write!(formatter, "Ports({} words)", self.words.len())
    }
}
