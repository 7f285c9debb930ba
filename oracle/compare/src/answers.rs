//! What is asked, and what either side answers.

/// A field of a word.
#[derive(Clone, Copy, PartialEq, Eq, Debug)]
pub enum Field {
    Bit,
    Crumb,
    Nibble,
    Septet,
    Octet,
    Word,
}

/// All fields, in 01's order.
pub const FIELDS: [Field; 6] = [
    Field::Bit,
    Field::Crumb,
    Field::Nibble,
    Field::Septet,
    Field::Octet,
    Field::Word,
];

impl Field {
    /// How many such fields a word has.
    pub fn indexes(self) -> u64 {
        [32, 16, 8, 4, 4, 2][self as usize]
    }

    /// The largest value that the field holds.
    pub fn most(self) -> u64 {
        [1, 3, 15, 127, 255, 65535][self as usize]
    }

    /// The bits between the field's end and the end of the word.
    pub fn shift(self, index: u64) -> u64 {
        32 - [1, 2, 4, 8, 8, 16][self as usize] * (index + 1)
    }
}

/// A kind of call. "Growing" is the original's `Vec`, "lent" its `&mut [u32]`.
#[derive(Clone, Copy, PartialEq, Eq, Debug)]
pub enum Kind {
    Read(Field),
    Set(Field),
    Packet8,
    Packet7,
    Steps8,
    Steps7,
    PacketGroup8,
    PacketGroup7,
    Check8,
    Check7,
    Reader,
    SetGroup,
    SetStreamId,
    SetByte,
    Pack,
    SpliceGrowing,
    SpliceLent,
    PayloadGrowing,
    PayloadLent,
    Stream,
    Needed,
    Origin,
    LookRun,
    LookByte,
    LookMessage,
    Carries,
}

/// The kinds as rows of the table of counts.
pub const KIND_NAMES: [&str; 27] = [
    "word field, read",
    "word field, set",
    "single SysEx8 packet",
    "single SysEx7 packet",
    "steps over a SysEx8 packet",
    "steps over a SysEx7 packet",
    "group of a SysEx8 packet",
    "group of a SysEx7 packet",
    "message check",
    "SysEx7 message check (outside the port)",
    "reader",
    "set group",
    "set stream id",
    "set byte",
    "packing",
    "splice, growing buffer",
    "splice, lent words",
    "set payload, growing buffer",
    "set payload, lent words",
    "byte stream (outside the port)",
    "words needed",
    "origin of an octet, all edits (added)",
    "run of an edited payload (added)",
    "byte of an edited payload (added)",
    "byte of an edited message (added)",
    "whether a payload is carried (added)",
    "chained edits",
];

/// The row of chained edits, which are of several kinds.
pub const CHAINED: usize = 26;

impl Kind {
    /// The kind's row in the table of counts.
    pub fn row(self) -> usize {
        match self {
            Kind::Read(_) => 0,
            Kind::Set(_) => 1,
            Kind::Packet8 => 2,
            Kind::Packet7 => 3,
            Kind::Steps8 => 4,
            Kind::Steps7 => 5,
            Kind::PacketGroup8 => 6,
            Kind::PacketGroup7 => 7,
            Kind::Check8 => 8,
            Kind::Check7 => 9,
            Kind::Reader => 10,
            Kind::SetGroup => 11,
            Kind::SetStreamId => 12,
            Kind::SetByte => 13,
            Kind::Pack => 14,
            Kind::SpliceGrowing => 15,
            Kind::SpliceLent => 16,
            Kind::PayloadGrowing => 17,
            Kind::PayloadLent => 18,
            Kind::Stream => 19,
            Kind::Needed => 20,
            Kind::Origin => 21,
            Kind::LookRun => 22,
            Kind::LookByte => 23,
            Kind::LookMessage => 24,
            Kind::Carries => 25,
        }
    }

    /// Whether the call works on a SysEx8 message: the first number is its length.
    pub fn on_message(self) -> bool {
        matches!(self.row(), 8 | 10..=18 | 21 | 24 | 25)
    }

    /// Whether the call rewrites the message in fewest-packet form.
    pub fn rewrites(self) -> bool {
        matches!(self.row(), 14..=18)
    }

    /// Whether the call is a splice.
    pub fn is_splice(self) -> bool {
        matches!(self, Kind::SpliceGrowing | Kind::SpliceLent)
    }

    /// Whether the call sets the payload.
    pub fn is_payload(self) -> bool {
        matches!(self, Kind::PayloadGrowing | Kind::PayloadLent)
    }

    /// Whether the original works on a `Vec`.
    pub fn is_growing(self) -> bool {
        matches!(self, Kind::SpliceGrowing | Kind::PayloadGrowing)
    }
}

/// One question. Numbers are: index (and value) of a field; the group of a packet; else the message's length
/// first, then the call's own; for an origin the octet, then three of each edit; for a byte of an edited message the position, then
/// the same. A byte of an edited payload has the payload's size in the place of the length, and its bytes before those of the edits.
/// A run has sizes alone: of the payload, from, to, of the replacement, and the position. Whether a payload is carried, which is the
/// bytes, has the group and the stream id. Steps are letters in `bytes`, n or t, with a number each (0 for n).
#[derive(Clone, PartialEq, Eq, Debug)]
pub struct Input {
    pub kind: Kind,
    pub words: Vec<u32>,
    pub bytes: Vec<u8>,
    pub numbers: Vec<u64>,
}

impl Input {
    /// A question without bytes.
    pub fn new(kind: Kind, words: &[u32], numbers: &[u64]) -> Input {
        Input::with_bytes(kind, words, &[], numbers)
    }

    /// A question with bytes.
    pub fn with_bytes(kind: Kind, words: &[u32], bytes: &[u8], numbers: &[u64]) -> Input {
        Input {
            kind,
            words: words.to_vec(),
            bytes: bytes.to_vec(),
            numbers: numbers.to_vec(),
        }
    }

    /// The message's length, for a call on a message.
    pub fn length(&self) -> usize {
        usize::try_from(self.numbers[0]).unwrap_or(usize::MAX)
    }

    /// The message's words, none if the length is above the words lent.
    pub fn message(&self) -> &[u32] {
        self.words.get(..self.length()).unwrap_or(&[])
    }

    /// The words behind the message.
    pub fn behind(&self) -> &[u32] {
        self.words.get(self.length()..).unwrap_or(&[])
    }
}

/// The answer for the end of a payload in a list of bytes.
pub const ENDED: u64 = 0x100;

/// What ours answers, or must answer: refusal and place, or values; the growth; and all words lent, after the
/// call, if it may write.
#[derive(Clone, PartialEq, Eq, Debug, Default)]
pub struct Ours {
    pub refusal: u8,
    pub place: u64,
    pub values: Vec<u64>,
    pub growth: i64,
    pub words: Vec<u32>,
}

impl Ours {
    /// An accepted answer of a call that does not write.
    pub fn values(values: Vec<u64>) -> Ours {
        Ours {
            values,
            ..Ours::default()
        }
    }

    /// A refused answer; the words lent are as they were.
    pub fn refused(refusal: u8, place: u64, words: &[u32]) -> Ours {
        Ours {
            refusal,
            place,
            words: words.to_vec(),
            ..Ours::default()
        }
    }
}

/// What is said for the original where a message that it takes is not the one that is named; it has no call for that.
pub const OTHER: &str = "another group, stream id or payload";

/// How a call of the original ended.
#[derive(Clone, Copy, PartialEq, Eq, Debug)]
pub enum End {
    Done,
    Refused(&'static str),
    Overflow,
    Panicked,
}

/// What the original answers: the values up to its end, how it ended, and the words of its buffer after a call
/// that rewrites a message.
#[derive(Clone, PartialEq, Eq, Debug)]
pub struct Theirs {
    pub values: Vec<u64>,
    pub end: End,
    pub words: Vec<u32>,
}

impl Theirs {
    /// An answer without words.
    pub fn new(values: Vec<u64>, end: End) -> Theirs {
        Theirs {
            values,
            end,
            words: Vec::new(),
        }
    }

    /// A refusal.
    pub fn refused(text: &'static str) -> Theirs {
        Theirs::new(Vec::new(), End::Refused(text))
    }
}
