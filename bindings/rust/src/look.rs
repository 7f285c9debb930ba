//! Looking at bytes of an edited payload, without writing the result.
//!
//! A position counts in the payload that a splice of the edits would leave. What is answered is what stands there then: for one edit
//! the longest run of bytes, lent out of the payload or out of the replacement ([`run`], [`runs`]), for a list of edits one byte
//! ([`byte`]). The payload is bytes here, and may be longer than [`MOST_BYTES`](crate::MOST_BYTES); that of a message is looked at by
//! [`Message::byte_after`](crate::Message::byte_after), and that of a dump in a store by [`Store::byte`](crate::Store::byte).

use crate::edit::{self, Edit};
use crate::error::{Error, Refusal};
use crate::ffi;
use std::iter::FusedIterator;
use std::ops::{Range, RangeBounds};

/// Where the bytes of a run stand.
#[derive(Clone, Copy, Debug, PartialEq, Eq, Hash)]
#[repr(u8)]
pub enum Source {
    /// In the payload, before the edit.
    Before = 0,
    /// In the replacement.
    Within = 1,
    /// In the payload, behind the edit.
    Behind = 2,
}

impl Source {
    // The source of a number that the library answers, 0 to 2.
    fn from_number(number: u8) -> Source {
        match number {
            0 => Source::Before,
            1 => Source::Within,
            _ => Source::Behind,
        }
    }
}

/// A run of bytes of an edited payload, lent out of the payload or out of the replacement. It is never empty.
#[derive(Clone, Copy, Debug, PartialEq, Eq, Hash)]
pub struct Run<'a> {
    /// Where its bytes stand.
    pub source: Source,
    /// The index of its first byte in the payload, or in the replacement.
    pub start: usize,
    /// Its bytes.
    pub bytes: &'a [u8],
}

/// The longest run of bytes that starts at `position` once a range of the payload is replaced.
///
/// Before the edit it goes up to the start of the range, in the replacement to its end, behind the edit to the end of the payload. So
/// an edit's end always ends a run, also if the edit is empty. No byte is copied.
///
/// # Errors
///
/// [`Range`](crate::Refusal::Range) if the range is reversed or ends above the payload size, or its end or the size of the replacement
/// is above [`MOST_BYTES`](crate::MOST_BYTES); then `Range` if `position` is not below the size of the result.
///
/// ```
/// use latchbeacon::look::{run, Run, Source};
/// use latchbeacon::{Edit, Refusal};
///
/// // PIANO 1 becomes PIANOLA 1.
/// let (payload, replacement) = (b"PIANO 1", b"OLA");
/// assert_eq!(run(payload, 4..5, replacement, 1)?, Run { source: Source::Before, start: 1, bytes: b"IAN" });
/// assert_eq!(run(payload, 4..5, replacement, 5)?, Run { source: Source::Within, start: 1, bytes: b"LA" });
/// assert_eq!(run(payload, 4..5, replacement, 7)?, Run { source: Source::Behind, start: 5, bytes: b" 1" });
/// assert_eq!(run(payload, 4..5, replacement, 7)?.bytes.as_ptr(), payload[5..].as_ptr());
///
/// let refused = |range, replacement, position| run(payload, range, replacement, position).unwrap_err().refusal;
/// assert_eq!(refused(Edit { from: 5, to: 4, length: 0 }.range(), &[], 0), Refusal::Range); // reversed
/// assert_eq!(refused(4..8, &[], 0), Refusal::Range); // past the payload
/// assert_eq!(refused(4..5, &[0; 53_249], 0), Refusal::Range); // a replacement above 53,248 bytes
/// assert_eq!(run(&[0; 60_000], 53_248..53_249, &[], 0).unwrap_err().refusal, Refusal::Range); // an end above 53,248
/// assert_eq!(refused(4..5, replacement, 9), Refusal::Range); // behind the result
/// # Ok::<(), latchbeacon::Error>(())
/// ```
///
/// A run is lent for as long as both buffers are:
///
/// ```compile_fail,E0597
/// use latchbeacon::look::run;
///
/// let payload = [1, 2, 3];
/// let kept = {
///     let replacement = [9];
///     run(&payload, 1..2, &replacement, 0)
/// };
/// assert!(kept.is_ok());
/// ```
pub fn run<'a>(
    payload: &'a [u8],
    range: impl RangeBounds<usize>,
    replacement: &'a [u8],
    position: usize,
) -> Result<Run<'a>, Error> {
    run_of(payload, edit::numbers(range, payload.len()), replacement, position)
}

// The run at a position; the answer of an accepted call stands within its source.
fn run_of<'a>(payload: &'a [u8], range: Range<usize>, replacement: &'a [u8], position: usize) -> Result<Run<'a>, Error> {
    let answer = ffi::look_run(payload.len(), Edit::new(range, replacement.len()), position)?;
    let source = Source::from_number(answer.source);
    let bytes = match source {
        Source::Within => replacement,
        Source::Before | Source::Behind => payload,
    };
    Ok(Run { source, start: answer.start, bytes: bytes.get(answer.start..answer.end).unwrap_or_default() })
}

/// The runs of an edited payload, one after the other; made by [`runs`]. Their bytes end to end are the whole result.
#[derive(Clone, Debug)]
pub struct Runs<'a> {
    payload: &'a [u8],
    range: Range<usize>,
    replacement: &'a [u8],
    // Where the next run starts; at the end it is the size of the result.
    position: usize,
}

/// The runs of a payload with a range of it replaced, one after the other: at most three, none of them empty.
///
/// # Errors
///
/// [`Range`](crate::Refusal::Range) for the edit, as [`run`].
///
/// ```
/// use latchbeacon::look::runs;
/// use latchbeacon::{Edit, Refusal};
///
/// let list = |range, replacement| runs(b"PIANO 1", range, replacement).map(|runs| runs.map(|run| run.bytes).collect::<Vec<_>>());
/// assert_eq!(list(4..5, &b"OLA"[..])?, [&b"PIAN"[..], b"OLA", b" 1"]);
/// assert_eq!(list(0..5, b"ORGAN")?, [&b"ORGAN"[..], b" 1"]);
/// assert_eq!(list(5..7, b"")?, [b"PIANO"]);
/// // An empty edit ends a run too.
/// assert_eq!(list(5..5, b"")?, [&b"PIANO"[..], b" 1"]);
/// // No bytes are left, so that there is no run.
/// assert_eq!(list(0..7, b"")?, [b""; 0]);
///
/// assert_eq!(list(Edit { from: 5, to: 4, length: 0 }.range(), b"").unwrap_err().refusal, Refusal::Range); // reversed
/// assert_eq!(list(0..8, b"").unwrap_err().refusal, Refusal::Range); // past the payload
/// assert_eq!(list(0..7, &[0; 53_249]).unwrap_err().refusal, Refusal::Range); // a replacement above 53,248 bytes
/// # Ok::<(), latchbeacon::Error>(())
/// ```
///
/// Its runs are lent too:
///
/// ```compile_fail,E0597
/// use latchbeacon::look::runs;
///
/// let replacement = [9];
/// let kept = {
///     let payload = [1, 2, 3];
///     runs(&payload, 1..2, &replacement).ok().and_then(|mut runs| runs.next())
/// };
/// assert!(kept.is_some());
/// ```
pub fn runs<'a>(payload: &'a [u8], range: impl RangeBounds<usize>, replacement: &'a [u8]) -> Result<Runs<'a>, Error> {
    let range = edit::numbers(range, payload.len());
    // The run at 0 would be refused for the edit, but also where no bytes are left; so the edit is asked alone.
    Edit::new(range.clone(), replacement.len()).growth()?;
    if range.end > payload.len() {
        return Err(Error { refusal: Refusal::Range, place: 0 });
    }
    Ok(Runs { payload, range, replacement, position: 0 })
}

impl<'a> Iterator for Runs<'a> {
    type Item = Run<'a>;

    // The next run; at the end of the result there is none. No run is empty: it would come again for ever.
    fn next(&mut self) -> Option<Run<'a>> {
        let run = run_of(self.payload, self.range.clone(), self.replacement, self.position).ok();
        let run = run.filter(|run| !run.bytes.is_empty())?;
        self.position = self.position.saturating_add(run.bytes.len());
        Some(run)
    }
}

impl FusedIterator for Runs<'_> {}

/// The byte at `position` of a payload once all edits of a list are done at once, each by its bytes, which follow those of the edits
/// before it in `bytes`. With no edits it is the payload's byte.
///
/// # Errors
///
/// [`Range`](crate::Refusal::Range) if a range is reversed or ends above the payload size, a number is above
/// [`MOST_BYTES`](crate::MOST_BYTES), or there are not as many bytes as the lengths say; then [`Overlap`](crate::Refusal::Overlap) if
/// the edits are not in ascending order, each ending no later than the next begins; then `Range` if `position` is not below the size of
/// the result.
///
/// ```
/// use latchbeacon::look::byte;
/// use latchbeacon::{Edit, Refusal};
///
/// // A0 A1 A2 becomes B0 B1 A1.
/// let payload = [0xA0, 0xA1, 0xA2];
/// let (edits, bytes) = ([Edit::new(0..1, 2), Edit::new(2..3, 0)], [0xB0, 0xB1]);
/// assert_eq!([0, 1, 2].map(|position| byte(&payload, &edits, &bytes, position)), [Ok(0xB0), Ok(0xB1), Ok(0xA1)]);
/// assert_eq!(byte(&payload, &[], &[], 2), Ok(0xA2));
///
/// let refused = |edits: &[Edit], bytes: &[u8], position| byte(&payload, edits, bytes, position).unwrap_err().refusal;
/// assert_eq!(refused(&[Edit { from: 1, to: 0, length: 0 }], &[], 0), Refusal::Range); // reversed
/// assert_eq!(refused(&[Edit::new(0..4, 0)], &[], 0), Refusal::Range); // past the payload
/// assert_eq!(refused(&[Edit::new(0..0, 53_249)], &[0; 53_249], 0), Refusal::Range); // a number above 53,248
/// assert_eq!(refused(&edits, &[0xB0], 0), Refusal::Range); // a byte too few
/// assert_eq!(refused(&[Edit::new(2..3, 0), Edit::new(0..1, 0)], &[], 0), Refusal::Overlap);
/// assert_eq!(refused(&edits, &bytes, 3), Refusal::Range); // behind the result
/// ```
pub fn byte(payload: &[u8], edits: &[Edit], bytes: &[u8], position: usize) -> Result<u8, Error> {
    ffi::look_byte(payload, edits, bytes, position)
}
