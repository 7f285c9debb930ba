//! Where the octets of a message come from.

use crate::ffi;

/// Where an octet of a buffer comes from once all edits of a list are done.
///
/// [`Message::origin`](crate::Message::origin) answers it, and so does [`View::origin`](crate::View::origin).
///
/// ```
/// use latchbeacon::{Edit, Origin, View};
///
/// // Payload 41 42, and 10 put in between.
/// let words = [0x5203_0741, 0x4200_0000, 0, 0];
/// let view = View::check(&words, 4)?;
/// let edits = [Edit::new(1..1, 1)];
/// assert_eq!(view.origin(&edits, &[0x10], 3)?, Origin::Dump { byte: 0 });
/// assert_eq!(view.origin(&edits, &[0x10], 4)?, Origin::Edit { edit: 0, byte: 0 });
/// assert_eq!(view.origin(&edits, &[0x10], 5)?, Origin::Dump { byte: 1 });
/// # Ok::<(), latchbeacon::Error>(())
/// ```
#[derive(Clone, Copy, Debug, PartialEq, Eq, Hash)]
pub enum Origin {
    /// The header of a packet.
    Header {
        /// The packet of the new message, from 0.
        packet: usize,
        /// The octet of its header. 0: type and group, 1: status and count, 2: stream id.
        octet: usize,
    },
    /// The payload before the edits.
    Dump {
        /// The byte of that payload, from 0.
        byte: usize,
    },
    /// The replacement of an edit.
    Edit {
        /// The edit of the list, from 0.
        edit: usize,
        /// The byte of its replacement, from 0.
        byte: usize,
    },
    /// An unused octet of the last packet. It is zero.
    Filler,
    /// Behind the new message, where the old one stood. It is zero.
    Zeroed,
    /// Behind both messages. It is what it was.
    Untouched,
}

impl Origin {
    // The origin that an accepted call answers; its kind is 0 to 5.
    pub(crate) fn of_answer(answer: ffi::Origin) -> Origin {
        let (number, index) = (answer.number, answer.index);
        match answer.kind {
            0 => Origin::Header { packet: number, octet: index },
            1 => Origin::Dump { byte: index },
            2 => Origin::Edit { edit: number, byte: index },
            3 => Origin::Filler,
            4 => Origin::Zeroed,
            _ => Origin::Untouched,
        }
    }
}
