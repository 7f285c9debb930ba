//! What a packet is.

/// What a packet is. An unexpected end is SysEx8's alone.
#[derive(Clone, Copy, Debug, PartialEq, Eq, Hash)]
#[repr(u8)]
pub enum Kind {
    /// The whole message.
    Complete = 0,
    /// The first packet of several.
    Start = 1,
    /// A packet between the first and the last.
    Continue = 2,
    /// The last packet of several.
    End = 3,
    /// An unexpected end; the earlier data is valid.
    UnexpectedEndValid = 4,
    /// An unexpected end; the earlier data is invalid.
    UnexpectedEndInvalid = 5,
}

impl Kind {
    // The kind of a number that the library answers, 0 to 5.
    pub(crate) fn from_number(number: u8) -> Kind {
        match number {
            0 => Kind::Complete,
            1 => Kind::Start,
            2 => Kind::Continue,
            3 => Kind::End,
            4 => Kind::UnexpectedEndValid,
            _ => Kind::UnexpectedEndInvalid,
        }
    }
}
