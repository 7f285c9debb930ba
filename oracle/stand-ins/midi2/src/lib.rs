//! Stand-in for src/lib.rs: the modules that the comparison needs. The original also declares the other
//! messages, message.rs, packet.rs and packets.rs, which need a crate that is not at hand.
#![allow(dead_code, unused_imports)]

pub mod buffer;
pub mod error;
pub mod sysex7;
pub mod sysex8;

mod detail;
mod traits;

pub use traits::*;
pub use ux;

pub mod inside;
