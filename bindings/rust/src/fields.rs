//! Fields of a 32-bit word. Index 0 is the most significant.
//!
//! Each reader and each setter refuses an index that is too big, and a setter also a value that the field cannot hold, with
//! [`Field`](crate::Refusal::Field). A setter answers the word with the field set and every other bit kept.

use crate::error::Error;
use crate::ffi;

/// The bit at `index`: one bit.
///
/// # Errors
///
/// [`Field`](crate::Refusal::Field) for an `index` over 31.
///
/// ```
/// assert_eq!(latchbeacon::fields::bit(0x8000_0000, 0), Ok(true));
/// ```
pub fn bit(word: u32, index: usize) -> Result<bool, Error> {
    ffi::bit(word, index).map(|bit| bit != 0)
}

/// The word with the bit at `index` set to `value`.
///
/// # Errors
///
/// [`Field`](crate::Refusal::Field) for an `index` over 31.
///
/// ```
/// assert_eq!(latchbeacon::fields::set_bit(0x8000_0000, 0, false), Ok(0));
/// ```
pub fn set_bit(word: u32, index: usize, value: bool) -> Result<u32, Error> {
    ffi::set_bit(word, index, value)
}

/// The crumb at `index`: two bits.
///
/// # Errors
///
/// [`Field`](crate::Refusal::Field) for an `index` over 15.
///
/// ```
/// assert_eq!(latchbeacon::fields::crumb(0x3000_0000, 1), Ok(3));
/// ```
pub fn crumb(word: u32, index: usize) -> Result<u8, Error> {
    ffi::crumb(word, index)
}

/// The word with the crumb at `index` set to `value`.
///
/// # Errors
///
/// [`Field`](crate::Refusal::Field) for an `index` over 15, or a `value` over 3.
///
/// ```
/// assert_eq!(latchbeacon::fields::set_crumb(0x3000_0000, 1, 2), Ok(0x2000_0000));
/// ```
pub fn set_crumb(word: u32, index: usize, value: u8) -> Result<u32, Error> {
    ffi::set_crumb(word, index, value)
}

/// The nibble at `index`: four bits.
///
/// # Errors
///
/// [`Field`](crate::Refusal::Field) for an `index` over 7.
///
/// ```
/// assert_eq!(latchbeacon::fields::nibble(0x5203_0741, 1), Ok(2));
/// ```
pub fn nibble(word: u32, index: usize) -> Result<u8, Error> {
    ffi::nibble(word, index)
}

/// The word with the nibble at `index` set to `value`.
///
/// # Errors
///
/// [`Field`](crate::Refusal::Field) for an `index` over 7, or a `value` over 15.
///
/// ```
/// assert_eq!(latchbeacon::fields::set_nibble(0x5203_0741, 1, 9), Ok(0x5903_0741));
/// ```
pub fn set_nibble(word: u32, index: usize, value: u8) -> Result<u32, Error> {
    ffi::set_nibble(word, index, value)
}

/// The septet at `index`: the low seven bits of an octet.
///
/// # Errors
///
/// [`Field`](crate::Refusal::Field) for an `index` over 3.
///
/// ```
/// assert_eq!(latchbeacon::fields::septet(0x3002_C142, 2), Ok(0x41));
/// ```
pub fn septet(word: u32, index: usize) -> Result<u8, Error> {
    ffi::septet(word, index)
}

/// The word with the septet at `index` set to `value`. Its octet keeps its top bit.
///
/// # Errors
///
/// [`Field`](crate::Refusal::Field) for an `index` over 3, or a `value` over 127.
///
/// ```
/// assert_eq!(latchbeacon::fields::set_septet(0x3002_C142, 2, 0x55), Ok(0x3002_D542));
/// ```
pub fn set_septet(word: u32, index: usize, value: u8) -> Result<u32, Error> {
    ffi::set_septet(word, index, value)
}

/// The octet at `index`: eight bits.
///
/// # Errors
///
/// [`Field`](crate::Refusal::Field) for an `index` over 3.
///
/// ```
/// assert_eq!(latchbeacon::fields::octet(0x5203_0741, 2), Ok(0x07));
/// ```
pub fn octet(word: u32, index: usize) -> Result<u8, Error> {
    ffi::octet(word, index)
}

/// The word with the octet at `index` set to `value`.
///
/// # Errors
///
/// [`Field`](crate::Refusal::Field) for an `index` over 3.
///
/// ```
/// assert_eq!(latchbeacon::fields::set_octet(0x5203_0741, 2, 0x99), Ok(0x5203_9941));
/// ```
pub fn set_octet(word: u32, index: usize, value: u8) -> Result<u32, Error> {
    ffi::set_octet(word, index, value)
}

/// The word at `index`: 16 bits.
///
/// # Errors
///
/// [`Field`](crate::Refusal::Field) for an `index` over 1.
///
/// ```
/// assert_eq!(latchbeacon::fields::word(0x5203_0741, 1), Ok(0x0741));
/// ```
pub fn word(word: u32, index: usize) -> Result<u16, Error> {
    ffi::word(word, index)
}

/// The word with the word at `index` set to `value`.
///
/// # Errors
///
/// [`Field`](crate::Refusal::Field) for an `index` over 1.
///
/// ```
/// assert_eq!(latchbeacon::fields::set_word(0x5203_0741, 1, 0xABCD), Ok(0x5203_ABCD));
/// ```
pub fn set_word(word: u32, index: usize, value: u16) -> Result<u32, Error> {
    ffi::set_word(word, index, value)
}
