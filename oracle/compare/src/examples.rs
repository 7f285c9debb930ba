//! The examples for SysEx8 in the original's own documentation (traits.rs). They support the stand-ins.
use midi2::inside;
use midi2::sysex8::Sysex8;
use midi2::{Data, Sysex};

/// The words that the examples print for the payload 0 to 19.
const WORDS: [u32; 8] = [
    0x501E_0000,
    0x0102_0304,
    0x0506_0708,
    0x090A_0B0C,
    0x5038_000D,
    0x0E0F_1011,
    0x1213_0000,
    0x0000_0000,
];

/// Reading the payload.
fn read() -> bool {
    let message = Sysex8::try_from(&WORDS[..]);
    message.is_ok_and(|message| message.payload().eq(0..20))
}

/// `new()`, `set_payload` and `data()` on a growing buffer.
fn set() -> bool {
    let mut message = Sysex8::<Vec<u32>>::new();
    message.set_payload(0..20);
    message.data() == WORDS
}

/// `try_set_payload` on eight words, and again with too many bytes. The example's own message is made by `new()` over
/// an array, which the stand-in does not have.
fn try_set() -> bool {
    let mut words = [0x5001_0000, 0, 0, 0, 0, 0, 0, 0];
    let mut message = inside::sysex8(&mut words[..]);
    let set = message.try_set_payload(0..20).is_ok() && message.data() == WORDS;
    set && message.try_set_payload(0..30).is_err()
}

/// Runs the examples.
pub fn check() -> Result<(), String> {
    match [read(), set(), try_set()] {
        [true, true, true] => Ok(()),
        outcome => Err(format!(
            "examples of the original's documentation: {outcome:?}"
        )),
    }
}
