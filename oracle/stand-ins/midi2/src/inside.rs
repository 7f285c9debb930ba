//! Ours: what the comparison needs of the crate's inside. It adds nothing to what the original does.
use crate::buffer::{Buffer, Ump};
use crate::sysex7::Sysex7;
use crate::sysex8::Sysex8;
use crate::traits::{Size, SysexInternal};

pub use crate::detail::BitOps;

/// A SysEx8 message over any buffer, made without a check.
pub fn sysex8<B: Ump>(buffer: B) -> Sysex8<B> {
    Sysex8(buffer)
}

/// A SysEx7 message over any buffer of words, made without a check.
pub fn sysex7<B: Ump>(buffer: B) -> Sysex7<B> {
    Sysex7(buffer)
}

/// All words of a SysEx8 message's buffer.
pub fn words_of<B: Ump>(message: &Sysex8<B>) -> &[u32] {
    message.0.buffer()
}

/// All words of a SysEx7 message's buffer.
pub fn words_of7<B: Ump>(message: &Sysex7<B>) -> &[u32] {
    message.0.buffer()
}

/// The original's own length in words, which does not go through `data()`.
pub fn size_of<B: Ump>(message: &Sysex8<B>) -> usize {
    message.size()
}

/// The same for SysEx7.
pub fn size_of7<B: Ump>(message: &Sysex7<B>) -> usize {
    message.size()
}

/// The original's packing.
pub fn compact(message: &mut Sysex8<&mut [u32]>) {
    message.compact()
}
