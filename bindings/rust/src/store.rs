//! The chain: a store of dumps, each whole or a delta of another.

use crate::error::Error;
use crate::ffi;

/// A store of dumps in bytes that are only read: each dump is whole, or a delta of another. A dump is restored to a SysEx8 message.
///
/// The bytes are those in use, and are any bytes: each call checks them. They are records, a byte of kind (hex) and a body. Numbers
/// have two bytes, the highest first.
///
/// | Kind | What it is | Body | Stands behind |
/// |---|---|---|---|
/// | 01 | a whole dump | number, group (1 byte, 0 to 15), stream id (1 byte) | anything |
/// | 02 | a delta | number, number of its base | anything |
/// | 11, 12 | a whole dump, a delta, that is not wanted any more; else it is read as 01, 02 | as of 01, 02 | anything |
/// | 03 | an edit of a delta | from, to | its delta, or that one's edits and data |
/// | 81 to 8D | data | 1 to 13 bytes | a whole dump, an edit, other data |
///
/// The payload of a whole dump is its data. That of a delta is its base's payload with the ranges of all its edits replaced at once,
/// each by its data. The ranges count in the base's payload and stand in ascending order, each ending no later than the next begins.
/// A base may stand behind its delta. No two dumps have one number, and there are at most 256. A store without bytes is good.
///
/// [`mark`](Store::mark) and [`collect`](Store::collect) change the bytes of a store: dumps that are not wanted any more are freed.
///
/// ```
/// use latchbeacon::{Basis, Message, Refusal, Store};
///
/// let store = Store::new(&[
///     0x01, 0, 7, 1, 5, // dump 7 is whole, of group 1 and stream id 5
///     0x83, 0xA0, 0xA1, 0xA2, // its three bytes
///     0x02, 0, 8, 0, 7, // dump 8 is a delta, its base is 7
///     0x03, 0, 0, 0, 1, // its bytes 0..1 are replaced
///     0x82, 0xB0, 0xB1, // by two bytes
///     0x03, 0, 2, 0, 3, // and its bytes 2..3 by nothing
/// ]);
/// assert_eq!(store.check()?, 2);
///
/// // How many words must be lent?
/// let dump = store.describe(8)?;
/// assert_eq!((dump.basis, dump.steps), (Basis::Delta { base: 7 }, 1));
/// assert_eq!((dump.group, dump.stream_id, dump.size), (1, 5, 3));
/// let mut words = vec![0; dump.words];
///
/// let length = store.restore(8, &mut words)?;
/// assert_eq!(words[..length], [0x5104_05B0, 0xB1A1_0000, 0, 0]);
/// let bank = Message::check(&mut words, length)?;
/// assert!(bank.payload().eq([0xB0, 0xB1, 0xA1]));
///
/// // A dump that is not there is refused, and the words stay.
/// let error = store.restore(9, &mut words).unwrap_err();
/// assert_eq!((error.refusal, error.number()), (Refusal::Missing, 24));
/// assert_eq!(words, [0x5104_05B0, 0xB1A1_0000, 0, 0]);
/// # Ok::<(), latchbeacon::Error>(())
/// ```
#[derive(Clone, Copy, Debug, PartialEq, Eq, Hash)]
pub struct Store<'a>(&'a [u8]);

/// What a dump is.
#[derive(Clone, Copy, Debug, PartialEq, Eq, Hash)]
pub enum Basis {
    /// A whole dump.
    Whole,
    /// Edits of another dump.
    Delta {
        /// The number of that dump.
        base: usize,
    },
}

/// What a store says of a dump.
#[derive(Clone, Copy, Debug, PartialEq, Eq, Hash)]
pub struct Description {
    /// Whether it is whole or a delta.
    pub basis: Basis,
    /// The group of its whole dump, 0 to 15: of itself, or of the one that its bases lead to.
    pub group: u8,
    /// The stream id of its whole dump.
    pub stream_id: u8,
    /// Its payload size in bytes.
    pub size: usize,
    /// The words to lend for restoring it: the most that the dump, or one that it rests on, needs. The message itself takes
    /// [`words_needed(size)`](crate::sysex8::words_needed), which may be fewer. Above [`MOST_WORDS`](crate::MOST_WORDS) the dump cannot be restored.
    pub words: usize,
    /// How many bases are followed to its whole dump; 0 for a whole dump.
    pub steps: usize,
}

impl Description {
    // The description that an accepted call answers.
    fn of_answer(answer: ffi::Dump) -> Description {
        let basis = match answer.delta {
            false => Basis::Whole,
            true => Basis::Delta { base: answer.base },
        };
        Description {
            basis,
            group: answer.group,
            stream_id: answer.id,
            size: answer.size,
            words: answer.words,
            steps: answer.steps,
        }
    }
}

impl<'a> Store<'a> {
    /// The store in these bytes, which are all in use. Nothing is checked here.
    pub fn new(bytes: &'a [u8]) -> Store<'a> {
        Store(bytes)
    }

    /// Its bytes.
    pub fn bytes(&self) -> &'a [u8] {
        self.0
    }

    /// Checks the store and answers how many dumps it has.
    ///
    /// # Errors
    ///
    /// In this order, each over the whole store before the next: [`Format`](crate::Refusal::Format),
    /// [`Twice`](crate::Refusal::Twice), [`Full`](crate::Refusal::Full).
    ///
    /// ```
    /// use latchbeacon::{Refusal, Store};
    ///
    /// assert_eq!(Store::new(&[]).check(), Ok(0));
    /// // A whole dump, then an edit, which no delta stands before.
    /// let error = Store::new(&[0x01, 0, 7, 0, 0, 0x03, 0, 0, 0, 0]).check().unwrap_err();
    /// assert_eq!((error.refusal, error.place), (Refusal::Format, 0));
    /// ```
    pub fn check(&self) -> Result<usize, Error> {
        ffi::store_check(self.0)
    }

    /// Describes the dump of this number: what it is, how large, how many words to lend for it, how far its whole dump is.
    ///
    /// # Errors
    ///
    /// Those of [`check`](Store::check), then [`Missing`](crate::Refusal::Missing), [`Ring`](crate::Refusal::Ring), and
    /// [`Range`](crate::Refusal::Range) if an edit of the dump, or of one that it rests on, is reversed or past its base's payload.
    ///
    /// ```
    /// use latchbeacon::{Basis, Description, Store};
    ///
    /// // A delta of 14 bytes cut down to one.
    /// let store = Store::new(&[
    ///     0x02, 0, 2, 0, 1, 0x03, 0, 1, 0, 14, 0x01, 0, 1, 3, 9, 0x8D, 1, 2, 3, 4, 5, 6, 7, 8, 9, 10, 11, 12, 13, 0x81, 14,
    /// ]);
    /// let wanted =
    ///     Description { basis: Basis::Delta { base: 1 }, group: 3, stream_id: 9, size: 1, words: 8, steps: 1 };
    /// assert_eq!(store.describe(2)?, wanted);
    ///
    /// // One packet holds its byte, but its base needs two.
    /// assert_eq!(store.restore(2, &mut [0; 8])?, 4);
    /// assert!(store.restore(2, &mut [0; 7]).is_err());
    /// # Ok::<(), latchbeacon::Error>(())
    /// ```
    pub fn describe(&self, number: usize) -> Result<Description, Error> {
        ffi::store_describe(self.0, number).map(Description::of_answer)
    }

    /// Restores the dump of this number: its base first, then its edits. It writes the message in fewest-packet form, with the group
    /// and stream id of its whole dump, zeroes all other words lent, and answers the length of the message in words.
    ///
    /// It takes up to 167 KB of stack; a thread has 2 MB if nothing else is said.
    ///
    /// # Errors
    ///
    /// In this order: [`Long`](crate::Refusal::Long), those of [`check`](Store::check), [`Missing`](crate::Refusal::Missing),
    /// [`Ring`](crate::Refusal::Ring). Then from the whole dump up: its [`Room`](crate::Refusal::Room), and for each delta
    /// [`Range`](crate::Refusal::Range) and then its `Room`, judged once all its edits are done.
    ///
    /// ```
    /// use latchbeacon::{Refusal, Store};
    ///
    /// // Dump 1 is a delta of 2, and that one of 1.
    /// let store = Store::new(&[0x02, 0, 1, 0, 2, 0x02, 0, 2, 0, 1]);
    /// let mut words = [0xFFFF_FFFF; 4];
    /// assert_eq!(store.restore(1, &mut words).unwrap_err().refusal, Refusal::Ring);
    /// assert_eq!(words, [0xFFFF_FFFF; 4]);
    /// ```
    pub fn restore(&self, number: usize, words: &mut [u32]) -> Result<usize, Error> {
        ffi::store_restore(self.0, number, words)
    }

    /// The byte at `position` of the payload of the dump of this number, without restoring it: no words are lent, and a dump that is
    /// too long to be restored is read too.
    ///
    /// # Errors
    ///
    /// Those of [`describe`](Store::describe), then [`Range`](crate::Refusal::Range) if `position` is not below the payload size.
    ///
    /// ```
    /// use latchbeacon::{Refusal, Store};
    ///
    /// let records = [
    ///     0x01, 0, 7, 1, 5, 0x83, 0xA0, 0xA1, 0xA2, // dump 7 is whole
    ///     0x02, 0, 8, 0, 7, 0x03, 0, 0, 0, 1, 0x82, 0xB0, 0xB1, // dump 8 is a delta of 7: its first byte is replaced by two
    /// ];
    /// let store = Store::new(&records);
    /// assert_eq!((store.byte(7, 0), store.byte(8, 0)), (Ok(0xA0), Ok(0xB0)));
    /// assert_eq!((store.byte(7, 1), store.byte(8, 2)), (Ok(0xA1), Ok(0xA1)));
    ///
    /// // Each refusal, with records that are put behind these.
    /// let refused = |more: &[u8], number, position| {
    ///     Store::new(&[&records[..], more].concat()).byte(number, position).unwrap_err().refusal
    /// };
    /// let many: Vec<u8> = (0..255).flat_map(|number| [0x01, 1, number, 0, 0]).collect();
    /// assert_eq!(refused(&[0x13], 8, 0), Refusal::Format); // no such kind
    /// assert_eq!(refused(&[0x01, 0, 7, 0, 0], 8, 0), Refusal::Twice); // a second dump 7
    /// assert_eq!(refused(&many, 8, 0), Refusal::Full); // 257 dumps
    /// assert_eq!(refused(&[], 9, 0), Refusal::Missing); // no dump 9
    /// assert_eq!(refused(&[0x02, 0, 9, 0, 9], 9, 0), Refusal::Ring); // dump 9 is its own base
    /// assert_eq!(refused(&[0x02, 0, 9, 0, 7, 0x03, 0, 0, 0, 4], 9, 0), Refusal::Range); // an edit past its base's payload
    /// assert_eq!(refused(&[], 8, 4), Refusal::Range); // behind the payload
    /// ```
    pub fn byte(&self, number: usize, position: usize) -> Result<u8, Error> {
        ffi::store_look_byte(self.0, number, position)
    }
}

/// Reclaiming a store. These calls change its bytes, so they are lent them as such.
impl Store<'_> {
    /// Marks the dump of this number unwanted, in the bytes of a store: its kind 01 becomes 11 hex, 02 becomes 12, and no other byte
    /// is changed. Every number is still described and restored as before, this one too. Marking again is accepted and changes
    /// nothing. [`collect`](Store::collect) then frees what can go.
    ///
    /// # Errors
    ///
    /// Those of [`check`](Store::check), then [`Missing`](crate::Refusal::Missing) if the store does not hold the number. The bytes
    /// stay.
    ///
    /// ```
    /// use latchbeacon::{Refusal, Store};
    ///
    /// let mut bytes = [0x01, 0, 7, 1, 5, 0x81, 0xA0];
    /// Store::mark(&mut bytes, 7)?;
    /// assert_eq!(bytes, [0x11, 0, 7, 1, 5, 0x81, 0xA0]);
    /// assert_eq!(Store::new(&bytes).describe(7)?.size, 1);
    /// assert_eq!(Store::mark(&mut bytes, 8).unwrap_err().refusal, Refusal::Missing);
    /// # Ok::<(), latchbeacon::Error>(())
    /// ```
    pub fn mark(store: &mut [u8], number: usize) -> Result<(), Error> {
        ffi::store_mark(store, number)
    }

    /// Collects the bytes of a store: keeps each wanted dump and each dump that a wanted one rests on, also where that one's bases
    /// lead into a ring or to a number that is not held. It moves their records down in their old order, zeroes all other bytes, and
    /// answers how many are in use now. Go on with those alone: zeros are no records.
    ///
    /// Each dump that is kept is described and restored as before, or gets the same refusal. Any other number is
    /// [`Missing`](crate::Refusal::Missing), until a new dump has it. Collecting again changes nothing.
    ///
    /// # Errors
    ///
    /// Those of [`check`](Store::check). The bytes stay.
    ///
    /// ```
    /// use latchbeacon::{Refusal, Store};
    ///
    /// let mut bytes = vec![
    ///     0x02, 0, 6, 0, 7, // dump 6 is a delta of 7
    ///     0x01, 0, 7, 1, 5, 0x83, 0xA0, 0xA1, 0xA2, // dump 7 is whole
    ///     0x02, 0, 8, 0, 7, 0x03, 0, 1, 0, 3, // dump 8 is a delta of 7, without its last two bytes
    /// ];
    ///
    /// // 6 and 7 are not wanted any more. 8 rests on 7, so that only 6 can go.
    /// Store::mark(&mut bytes, 6)?;
    /// Store::mark(&mut bytes, 7)?;
    /// let length = Store::collect(&mut bytes)?;
    /// assert_eq!((length, &bytes[length..]), (19, &[0; 5][..]));
    ///
    /// // The bytes in use are the store now.
    /// bytes.truncate(length);
    /// let store = Store::new(&bytes);
    /// assert_eq!(store.check()?, 2);
    /// assert_eq!(store.describe(6).unwrap_err().refusal, Refusal::Missing);
    /// let mut words = [0; 4];
    /// assert_eq!(store.restore(8, &mut words)?, 4);
    /// assert_eq!(words, [0x5102_05A0, 0, 0, 0]);
    ///
    /// // A number that was freed may be used again: dump 6 is whole now.
    /// bytes.extend([0x01, 0, 6, 2, 9, 0x81, 0xC0]);
    /// assert_eq!(Store::new(&bytes).check()?, 3);
    /// assert_eq!(Store::new(&bytes).restore(6, &mut words)?, 4);
    /// assert_eq!(words, [0x5202_09C0, 0, 0, 0]);
    /// # Ok::<(), latchbeacon::Error>(())
    /// ```
    ///
    /// In an array or another fixed room, write the next record at the new length:
    ///
    /// ```
    /// use latchbeacon::Store;
    ///
    /// let mut room = [0; 20];
    /// room[..10].copy_from_slice(&[0x01, 0, 1, 0, 0, 0x01, 0, 2, 0, 0]);
    /// Store::mark(&mut room[..10], 1)?;
    /// let mut used = Store::collect(&mut room[..10])?;
    /// assert_eq!((used, room[..used].to_vec()), (5, vec![0x01, 0, 2, 0, 0]));
    ///
    /// let next = [0x02, 0, 1, 0, 2];
    /// room[used..used + next.len()].copy_from_slice(&next);
    /// used += next.len();
    /// assert_eq!(Store::new(&room[..used]).check()?, 2);
    /// # Ok::<(), latchbeacon::Error>(())
    /// ```
    pub fn collect(store: &mut [u8]) -> Result<usize, Error> {
        ffi::store_collect(store)
    }
}
