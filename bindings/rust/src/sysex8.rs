//! SysEx8: single packets, what the fewest-packet form takes, and whether words that somebody else packed carry a payload. Messages are
//! [`Message`](crate::Message) and [`View`](crate::View).

use crate::error::Error;
use crate::ffi;
use crate::packet::Kind;

/// The empty message of group 0 and stream id 0: one complete packet. Copy it to the front of a buffer to make a message there.
///
/// ```
/// use latchbeacon::{sysex8, Message};
///
/// let mut buffer = [0; 64];
/// buffer[..4].copy_from_slice(&sysex8::EMPTY);
/// let mut message = Message::check(&mut buffer, 4)?;
/// message.set_group(1)?;
/// message.set_stream_id(5)?;
/// message.set_payload(&[0xA0, 0xA1, 0xA2])?;
/// assert_eq!(message.words(), [0x5104_05A0, 0xA1A2_0000, 0, 0]);
/// # Ok::<(), latchbeacon::Error>(())
/// ```
pub const EMPTY: [u32; 4] = [0x5001_0000, 0, 0, 0];

/// The words that the fewest-packet form of a payload of `size` bytes takes: four for each packet. That is one packet if there are no
/// bytes, else `size` over 13, rounded up. The largest sizes are answered with the exact number too.
///
/// ```
/// use latchbeacon::sysex8::words_needed;
///
/// assert_eq!([0, 13, 14, 26, 27].map(words_needed), [4, 4, 8, 8, 12]);
/// assert_eq!(words_needed(usize::MAX), 4 * usize::MAX.div_ceil(13));
/// ```
pub fn words_needed(size: usize) -> usize {
    ffi::sysex8_words_needed(size)
}

/// Whether words that somebody else packed are one message that carries this payload, with this group and stream id, in whatever
/// packing. `Ok` is a yes, and a no is the error. The words need not be checked before: this is
/// [`View::check`](crate::View::check) and [`View::carries`](crate::View::carries) in one call.
///
/// # Errors
///
/// The check's refusals, 1 to 12, then those of [`View::carries`](crate::View::carries).
///
/// ```
/// use latchbeacon::{sysex8, Error, Refusal};
///
/// // Payload A0 A1 A2 with group 1 and stream id 5, in packets of two, no and one bytes.
/// let mut words = [0x5113_05A0, 0xA100_0000, 0, 0, 0x5121_0500, 0, 0, 0, 0x5132_05A2, 0, 0, 0];
/// assert_eq!(sysex8::carries(&words, 12, &[0xA0, 0xA1, 0xA2], 1, 5), Ok(()));
/// assert_eq!(sysex8::carries(&words, 12, &[0xA0, 0xA1, 0xFF], 1, 5), Err(Error { refusal: Refusal::Other, place: 8 }));
///
/// words[8] = 0x5122_05A2; // the last packet does not end the message
/// assert_eq!(sysex8::carries(&words, 12, &[0xA0, 0xA1, 0xFF], 16, 5), Err(Error { refusal: Refusal::End, place: 8 }));
/// ```
pub fn carries(words: &[u32], length: usize, payload: &[u8], group: u8, id: u8) -> Result<(), Error> {
    ffi::sysex8_carries(words, length, payload, group, id)
}

/// A SysEx8 packet, copied from the first 4 words of a slice.
///
/// ```
/// use latchbeacon::sysex8::Packet;
/// use latchbeacon::Kind;
///
/// let packet = Packet::read(&[0x5203_0741, 0x4200_0000, 0, 0])?;
/// assert_eq!((packet.kind(), packet.group(), packet.stream_id()), (Kind::Complete, 2, 0x07));
/// assert!(packet.payload().eq([0x41, 0x42]));
/// # Ok::<(), latchbeacon::Error>(())
/// ```
#[derive(Clone, Copy, Debug, PartialEq, Eq, Hash)]
pub struct Packet {
    // They are not refused, and the rest is what the reader answers for them.
    words: [u32; 4],
    kind: Kind,
    group: u8,
    id: u8,
    size: u8,
}

impl Packet {
    /// Reads the first 4 words.
    ///
    /// An end packet whose octet 3 and words 1 to 3 are zero is an unexpected end: at count 1 the earlier data is valid, at count 15
    /// it is not.
    ///
    /// # Errors
    ///
    /// In this order: [`Short`](crate::Refusal::Short), [`Type`](crate::Refusal::Type), [`Status`](crate::Refusal::Status),
    /// [`Count`](crate::Refusal::Count).
    ///
    /// ```
    /// use latchbeacon::sysex8::Packet;
    /// use latchbeacon::{Kind, Refusal};
    ///
    /// assert_eq!(Packet::read(&[0x503F_0900, 0, 0, 0])?.kind(), Kind::UnexpectedEndInvalid);
    /// assert_eq!(Packet::read(&[0x503F_0901, 0, 0, 0]).unwrap_err().refusal, Refusal::Count);
    /// # Ok::<(), latchbeacon::Error>(())
    /// ```
    pub fn read(words: &[u32]) -> Result<Packet, Error> {
        let answer = ffi::sysex8_packet(words)?;
        let mut copy = [0; 4];
        copy.iter_mut().zip(words).for_each(|(to, from)| *to = *from);
        Ok(Packet {
            words: copy,
            kind: Kind::from_number(answer.kind),
            group: answer.group,
            id: answer.id,
            size: answer.size as u8,
        })
    }

    /// What the packet is.
    pub fn kind(&self) -> Kind {
        self.kind
    }

    /// The group, 0 to 15.
    pub fn group(&self) -> u8 {
        self.group
    }

    /// The stream id.
    pub fn stream_id(&self) -> u8 {
        self.id
    }

    /// The payload size in bytes, 0 to 13.
    pub fn size(&self) -> usize {
        usize::from(self.size)
    }

    /// The 4 words.
    pub fn words(&self) -> &[u32; 4] {
        &self.words
    }

    /// The payload byte at `index`.
    ///
    /// # Errors
    ///
    /// [`Range`](crate::Refusal::Range) if `index` is not below the payload size.
    pub fn byte(&self, index: usize) -> Result<u8, Error> {
        ffi::sysex8_packet_byte(&self.words, index)
    }

    /// An iterator over the payload.
    pub fn payload(&self) -> impl Iterator<Item = u8> + '_ {
        (0..self.size()).map_while(|index| self.byte(index).ok())
    }

    /// Sets the group. Every other bit stays.
    ///
    /// # Errors
    ///
    /// [`Field`](crate::Refusal::Field) if `group` is over 15.
    ///
    /// ```
    /// use latchbeacon::sysex8::Packet;
    ///
    /// let mut packet = Packet::read(&[0x5203_0741, 0x4200_0000, 0, 0])?;
    /// packet.set_group(9)?;
    /// assert_eq!(packet.words(), &[0x5903_0741, 0x4200_0000, 0, 0]);
    /// # Ok::<(), latchbeacon::Error>(())
    /// ```
    pub fn set_group(&mut self, group: u8) -> Result<(), Error> {
        ffi::sysex8_packet_set_group(&mut self.words, group)?;
        self.group = group;
        Ok(())
    }
}

impl TryFrom<&[u32]> for Packet {
    type Error = Error;

    // Reads the first words.
    fn try_from(words: &[u32]) -> Result<Packet, Error> {
        Packet::read(words)
    }
}
