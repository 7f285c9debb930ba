//! SysEx7: single packets, the check of a message, and a byte stream written as packets.

use crate::error::Error;
use crate::ffi;
use crate::message::Summary;
use crate::packet::Kind;

/// Checks the SysEx7 message in the first `length` words.
///
/// # Errors
///
/// The check's refusals, 1 to 11.
///
/// ```
/// use latchbeacon::sysex7;
///
/// let summary = sysex7::check(&[0x3016_0102, 0x0304_0506, 0x3031_0700, 0], 4)?;
/// assert_eq!((summary.group, summary.size, summary.words), (0, 7, 4));
/// # Ok::<(), latchbeacon::Error>(())
/// ```
pub fn check(words: &[u32], length: usize) -> Result<Summary, Error> {
    ffi::sysex7_check(words, length).map(Summary::of_answer)
}

/// Writes the byte stream F0, data, F7 as SysEx7 packets of six bytes, only the last shorter, and answers their words. Words past
/// them stay.
///
/// Real-time bytes (F8 to FF hex, such as timing clock) after F0 and before the last byte are passed over: they are no data and
/// take no room. The stream may be of any length.
///
/// # Errors
///
/// In this order: [`Long`](crate::Refusal::Long), [`Field`](crate::Refusal::Field) if `group` is over 15,
/// [`Frame`](crate::Refusal::Frame), [`Byte`](crate::Refusal::Byte), [`Room`](crate::Refusal::Room). The place of `Byte` counts all
/// bytes, real-time bytes too; F0 has index 0. A real-time byte as the first or the last byte is refused with `Frame`.
///
/// ```
/// use latchbeacon::bytes_to_sysex7;
///
/// let mut words = [0; 8];
/// let length = bytes_to_sysex7(&[0xF0, 1, 2, 3, 4, 5, 6, 7, 0xF7], 0, &mut words)?;
/// assert_eq!(words[..length], [0x3016_0102, 0x0304_0506, 0x3031_0700, 0]);
///
/// // A sequencer that sends its clock (F8) and active sensing (FE) while it dumps.
/// let length = bytes_to_sysex7(&[0xF0, 0xF8, 1, 0xFE, 2, 0xF7], 0, &mut words)?;
/// assert_eq!(words[..length], [0x3002_0102, 0]);
///
/// let error = bytes_to_sysex7(&[0xF0, 0xF8, 0xF8, 0x90, 0xF7], 0, &mut words).unwrap_err();
/// assert_eq!(error.to_string(), "refusal 18 (Byte) at byte 3: a byte of 80 to F7 hex between F0 and F7");
/// # Ok::<(), latchbeacon::Error>(())
/// ```
pub fn bytes_to_sysex7(bytes: &[u8], group: u8, words: &mut [u32]) -> Result<usize, Error> {
    ffi::bytes_to_sysex7(bytes, group, words)
}

/// A SysEx7 packet, copied from the first 2 words of a slice.
///
/// ```
/// use latchbeacon::sysex7::Packet;
/// use latchbeacon::Kind;
///
/// // Payload bytes are the low seven bits.
/// let packet = Packet::read(&[0x3002_C142, 0])?;
/// assert_eq!((packet.kind(), packet.group(), packet.size()), (Kind::Complete, 0, 2));
/// assert!(packet.payload().eq([0x41, 0x42]));
/// # Ok::<(), latchbeacon::Error>(())
/// ```
#[derive(Clone, Copy, Debug, PartialEq, Eq, Hash)]
pub struct Packet {
    // They are not refused, and the rest is what the reader answers for them.
    words: [u32; 2],
    kind: Kind,
    group: u8,
    size: u8,
}

impl Packet {
    /// Reads the first 2 words.
    ///
    /// # Errors
    ///
    /// In this order: [`Short`](crate::Refusal::Short), [`Type`](crate::Refusal::Type), [`Count`](crate::Refusal::Count),
    /// [`Status`](crate::Refusal::Status).
    ///
    /// ```
    /// use latchbeacon::sysex7::Packet;
    /// use latchbeacon::Refusal;
    ///
    /// assert_eq!(Packet::read(&[0x30F9_0000, 0]).unwrap_err().refusal, Refusal::Count);
    /// assert_eq!(Packet::read(&[0x30F6_0000, 0]).unwrap_err().refusal, Refusal::Status);
    /// ```
    pub fn read(words: &[u32]) -> Result<Packet, Error> {
        let answer = ffi::sysex7_packet(words)?;
        let mut copy = [0; 2];
        copy.iter_mut().zip(words).for_each(|(to, from)| *to = *from);
        Ok(Packet { words: copy, kind: Kind::from_number(answer.kind), group: answer.group, size: answer.size as u8 })
    }

    /// What the packet is.
    pub fn kind(&self) -> Kind {
        self.kind
    }

    /// The group, 0 to 15.
    pub fn group(&self) -> u8 {
        self.group
    }

    /// The payload size in bytes, 0 to 6.
    pub fn size(&self) -> usize {
        usize::from(self.size)
    }

    /// The 2 words.
    pub fn words(&self) -> &[u32; 2] {
        &self.words
    }

    /// The payload byte at `index`, its low seven bits.
    ///
    /// # Errors
    ///
    /// [`Range`](crate::Refusal::Range) if `index` is not below the payload size.
    pub fn byte(&self, index: usize) -> Result<u8, Error> {
        ffi::sysex7_packet_byte(&self.words, index)
    }

    /// An iterator over the payload.
    pub fn payload(&self) -> impl Iterator<Item = u8> + '_ {
        (0..self.size()).map_while(|index| self.byte(index).ok())
    }

    /// Sets the group. Every other bit stays.
    ///
    /// # Errors
    ///
    /// [`Field`](crate::Refusal::Field) if `group` is over 15.
    ///
    /// ```
    /// use latchbeacon::sysex7::Packet;
    ///
    /// let mut packet = Packet::read(&[0x3002_C142, 0])?;
    /// packet.set_group(9)?;
    /// assert_eq!(packet.words(), &[0x3902_C142, 0]);
    /// # Ok::<(), latchbeacon::Error>(())
    /// ```
    pub fn set_group(&mut self, group: u8) -> Result<(), Error> {
        ffi::sysex7_packet_set_group(&mut self.words, group)?;
        self.group = group;
        Ok(())
    }
}

impl TryFrom<&[u32]> for Packet {
    type Error = Error;

    // Reads the first words.
    fn try_from(words: &[u32]) -> Result<Packet, Error> {
        Packet::read(words)
    }
}
