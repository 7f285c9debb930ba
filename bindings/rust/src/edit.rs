//! Edits: a range of a payload and how many bytes replace it.

use crate::error::Error;
use crate::ffi;
use std::ops::{Bound, Range, RangeBounds};

/// An edit of a payload: the bytes `from..to` are replaced by `length` bytes.
///
/// It has no bytes of its own. A list of edits and their bytes is what
/// [`Message::splice_edits`](crate::Message::splice_edits) and [`Message::origin`](crate::Message::origin) take, and
/// [`Message::byte_after`](crate::Message::byte_after) and [`look::byte`](crate::look::byte).
///
/// ```
/// use latchbeacon::Edit;
///
/// let edit = Edit::new(2..7, 1);
/// assert_eq!((edit.from, edit.to, edit.length), (2, 7, 1));
/// assert_eq!(edit.range(), 2..7);
/// ```
#[derive(Clone, Copy, Debug, Default, PartialEq, Eq, Hash)]
#[repr(C)]
pub struct Edit {
    /// The first payload byte that is replaced.
    pub from: usize,
    /// The payload byte after the last that is replaced.
    pub to: usize,
    /// How many bytes replace them.
    pub length: usize,
}

impl Edit {
    /// The edit that replaces `range` by `length` bytes.
    pub fn new(range: Range<usize>, length: usize) -> Edit {
        Edit { from: range.start, to: range.end, length }
    }

    /// The range that is replaced, to be given to [`Message::splice`](crate::Message::splice).
    pub fn range(&self) -> Range<usize> {
        self.from..self.to
    }

    /// How much a payload grows by the edit: `length` minus the length of the range. It may be below zero.
    ///
    /// # Errors
    ///
    /// [`Range`](crate::Refusal::Range) if `from` is above `to` or a number is above [`MOST_BYTES`](crate::MOST_BYTES).
    ///
    /// ```
    /// use latchbeacon::Edit;
    ///
    /// assert_eq!(Edit::new(2..7, 1).growth(), Ok(-4));
    /// ```
    pub fn growth(&self) -> Result<i64, Error> {
        ffi::growth(*self)
    }
}

// The two numbers of a range of a payload of `size` bytes; one that no number can say ends above every payload.
pub(crate) fn numbers(range: impl RangeBounds<usize>, size: usize) -> Range<usize> {
    let from = match range.start_bound() {
        Bound::Included(&index) => index,
        Bound::Excluded(&index) => index.saturating_add(1),
        Bound::Unbounded => 0,
    };
    let to = match range.end_bound() {
        Bound::Included(&index) => index.saturating_add(1),
        Bound::Excluded(&index) => index,
        Bound::Unbounded => size,
    };
    from..to
}

/// The pending edit as it is to be done once the done one is spliced.
///
/// Both are given as of the message just before the done one was spliced. `done_first` says that the done edit stands first:
/// that matters when both are empty ranges at one place. The pending edit is moved by the growth of the done one if that stands
/// first, else it stays.
///
/// So two workers that do a list of edits in any two orders, each moving those that are left after each that is done, end with the
/// same words.
///
/// # Errors
///
/// [`Range`](crate::Refusal::Range) if either edit has `from` above `to` or a number above [`MOST_BYTES`](crate::MOST_BYTES), then
/// [`Overlap`](crate::Refusal::Overlap) if the first ends after the second begins.
///
/// ```
/// use latchbeacon::{move_edit, Edit, Message};
///
/// let done = Edit::new(0..1, 2);
/// let pending = Edit::new(2..3, 0);
/// assert_eq!(move_edit(done, pending, true)?, Edit::new(3..4, 0));
///
/// // Payload A0 A1 A2: the first edit, then the second where it stands by then.
/// let mut words = [0x5104_05A0, 0xA1A2_0000, 0, 0];
/// let mut message = Message::check(&mut words, 4)?;
/// message.splice(done.range(), &[0xB0, 0xB1])?;
/// message.splice(move_edit(done, pending, true)?.range(), &[])?;
/// assert!(message.payload().eq([0xB0, 0xB1, 0xA1]));
/// # Ok::<(), latchbeacon::Error>(())
/// ```
pub fn move_edit(done: Edit, pending: Edit, done_first: bool) -> Result<Edit, Error> {
    let range = ffi::move_edit(done, pending, done_first)?;
    Ok(Edit { from: range.from, to: range.to, length: pending.length })
}
