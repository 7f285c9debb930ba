//! What a call answers when it refuses.

use std::fmt;

/// Why a call refuses: the refusals of the library by name.
///
/// Refusals that are added later have 27, 28 or numbers from 32. None has 19, and none will: it was taken out, as no input was ever
/// given it.
///
/// ```
/// use latchbeacon::Refusal;
///
/// assert_eq!(Refusal::Range.number(), 13);
/// assert_eq!(Refusal::Range.name(), "Range");
/// assert_eq!(Refusal::from_number(13), Refusal::Range);
/// assert_eq!(Refusal::from_number(19), Refusal::Unknown(19));
/// ```
#[derive(Clone, Copy, Debug, PartialEq, Eq, Hash)]
#[non_exhaustive]
pub enum Refusal {
    /// 1: more than [`MOST_WORDS`](crate::MOST_WORDS) words lent.
    Long,
    /// 2: message length above the words lent.
    Length,
    /// 3: under 4 words (SysEx7: 2).
    Short,
    /// 4: not whole packets.
    Ragged,
    /// 5: a packet of another type.
    Type,
    /// 6: one packet, status not 0.
    Complete,
    /// 7: several packets, first not 1.
    Begin,
    /// 8: an inner packet not 2.
    Continue,
    /// 9: last of several not 3.
    End,
    /// 10: a count that is, for SysEx8, 0 or 15, for SysEx7 over 6.
    Count,
    /// 11: the group differs from the first packet's.
    Group,
    /// 12: the SysEx8 stream id differs from the first packet's.
    Stream,
    /// 13: from above to, or to above the payload size; byte index not below it; a number within an edit above
    /// [`MOST_BYTES`](crate::MOST_BYTES); octet index not below 4 times the words lent; position not below the size of the result.
    Range,
    /// 14: words needed exceed words lent for output (payload out: bytes; store: also of a dump on the way; ports: or the part of a
    /// stream).
    Room,
    /// 15: single packet, status over 3.
    Status,
    /// 16: field index, or value for a field, too big.
    Field,
    /// 17: stream under 2 bytes, first not F0 or last not F7.
    Frame,
    /// 18: a byte of 80 to F7 hex between them.
    Byte,
    /// 20: edits not in the stated order.
    Overlap,
    /// 21: of a store: unknown kind, short body, misplaced record, group above 15, or an edit's from below the to of the edit before
    /// it.
    Format,
    /// 22: of a store: a number used again.
    Twice,
    /// 23: of a store: a 257th dump; of ports: a new stream, 16 open.
    Full,
    /// 24: following bases from a dump comes to a number that the store does not hold; or it does not hold the dump itself.
    Missing,
    /// 25: following bases from a dump comes back to a number already passed.
    Ring,
    /// 26: the message has another group, stream id or payload than the one named.
    Other,
    /// 29: of ports: a port other than 0 and 1.
    Port,
    /// 30: of ports: continue or end, and no start before it.
    Closed,
    /// 31: of ports: a new stream, 12 of its port open.
    Share,
    /// Any other number: a refusal that a later library has and these bindings do not know.
    Unknown(u8),
}

// Numbers, names and meanings, in the order of the numbers.
const TABLE: [(u8, Refusal, &str, &str); 28] = [
    (1, Refusal::Long, "Long", "more than 16,384 words lent"),
    (2, Refusal::Length, "Length", "message length above the words lent"),
    (3, Refusal::Short, "Short", "under 4 words (SysEx7: 2)"),
    (4, Refusal::Ragged, "Ragged", "not whole packets"),
    (5, Refusal::Type, "Type", "a packet of another type"),
    (6, Refusal::Complete, "Complete", "one packet, its status not 0 (complete)"),
    (7, Refusal::Begin, "Begin", "several packets, status of the first not 1 (start)"),
    (8, Refusal::Continue, "Continue", "status of an inner packet not 2 (continue)"),
    (9, Refusal::End, "End", "status of the last of several packets not 3 (end)"),
    (10, Refusal::Count, "Count", "packet count of SysEx8 0 or 15, of SysEx7 over 6"),
    (11, Refusal::Group, "Group", "group differs from the first packet's"),
    (12, Refusal::Stream, "Stream", "SysEx8 stream id differs from the first packet's"),
    (
        13,
        Refusal::Range,
        "Range",
        "from above to, or to above the payload size; byte index not below it; a number within an edit above 53,248; octet index \
         not below 4 times the words lent; position not below the size of the result",
    ),
    (
        14,
        Refusal::Room,
        "Room",
        "words needed exceed words lent for output (payload out: bytes; store: also of a dump on the way; ports: or the part of a \
         stream)",
    ),
    (15, Refusal::Status, "Status", "single packet, status over 3"),
    (16, Refusal::Field, "Field", "field index, or value for a field, too big"),
    (17, Refusal::Frame, "Frame", "stream under 2 bytes, first not F0 or last not F7"),
    (18, Refusal::Byte, "Byte", "a byte of 80 to F7 hex between F0 and F7"),
    (20, Refusal::Overlap, "Overlap", "edits not in the stated order"),
    (
        21,
        Refusal::Format,
        "Format",
        "unknown kind, short body, misplaced record, group above 15, or an edit's from below the to of the edit before it",
    ),
    (22, Refusal::Twice, "Twice", "a number of the store used again"),
    (23, Refusal::Full, "Full", "a 257th dump in the store; or a new stream, 16 open"),
    (24, Refusal::Missing, "Missing", "following bases comes to a number that the store does not hold"),
    (25, Refusal::Ring, "Ring", "following bases comes back to a number already passed"),
    (26, Refusal::Other, "Other", "the message has another group, stream id or payload than the one named"),
    (29, Refusal::Port, "Port", "a port other than 0 and 1"),
    (30, Refusal::Closed, "Closed", "continue or end, and no start before it"),
    (31, Refusal::Share, "Share", "a new stream, 12 of its port open"),
];

impl Refusal {
    /// Every refusal that has a name, in the order of the numbers.
    pub fn all() -> impl ExactSizeIterator<Item = Refusal> {
        TABLE.iter().map(|entry| entry.1)
    }

    /// The refusal of a number.
    pub fn from_number(number: u8) -> Refusal {
        TABLE.iter().find(|entry| entry.0 == number).map_or(Refusal::Unknown(number), |entry| entry.1)
    }

    /// Its number.
    pub fn number(self) -> u8 {
        match self {
            Refusal::Unknown(number) => number,
            named => TABLE.iter().find(|entry| entry.1 == named).map_or(0, |entry| entry.0),
        }
    }

    /// Its name.
    pub fn name(self) -> &'static str {
        TABLE.iter().find(|entry| entry.1 == self).map_or("Unknown", |entry| entry.2)
    }

    /// When it is given, in a few words.
    pub fn meaning(self) -> &'static str {
        let unknown = "a refusal that these bindings do not know";
        TABLE.iter().find(|entry| entry.1 == self).map_or(unknown, |entry| entry.3)
    }
}

/// A call that was refused: why, and where. Nothing that was lent to it has changed.
///
/// ```
/// use latchbeacon::{Message, Refusal};
///
/// // A start packet, then an end packet of another group.
/// let mut words = [0x5011_0900, 0, 0, 0, 0x5131_0900, 0, 0, 0];
/// let error = Message::check(&mut words, 8).unwrap_err();
/// assert_eq!((error.refusal, error.place), (Refusal::Group, 4));
/// assert_eq!(error.to_string(), "refusal 11 (Group) at word 4: group differs from the first packet's");
/// ```
#[derive(Clone, Copy, Debug, PartialEq, Eq, Hash)]
pub struct Error {
    /// Why the call refuses.
    pub refusal: Refusal,
    /// Where: the word index of the first packet at fault for refusals 5 to 12 and 26 (0 where only the sizes differ), the index of the
    /// first such byte for 18, else 0.
    pub place: usize,
}

impl Error {
    /// The number of the refusal.
    pub fn number(&self) -> u8 {
        self.refusal.number()
    }

    /// The name of the refusal.
    pub fn name(&self) -> &'static str {
        self.refusal.name()
    }
}

impl fmt::Display for Error {
    // Number, name, place and meaning, on one line.
    fn fmt(&self, formatter: &mut fmt::Formatter<'_>) -> fmt::Result {
        let unit = match self.number() {
            5..=12 | 26 => "word ",
            18 => "byte ",
            _ => "",
        };
        let (number, name, meaning) = (self.number(), self.name(), self.refusal.meaning());
        write!(formatter, "refusal {number} ({name}) at {unit}{}: {meaning}", self.place)
    }
}

impl std::error::Error for Error {}
