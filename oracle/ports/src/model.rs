//! The rules of 02's T-07, stated once more: open streams in an ordered map, each with the words since its last start. It has no slots.
use crate::layout::{count, group, kind, status, stream_id, MOST_WORDS, SYSEX8};
use std::collections::BTreeMap;

/// What tells streams apart: port, group, stream id.
pub type Key = (u8, u32, u32);

/// What a packet is. An unexpected end with valid earlier data is an end.
#[derive(Clone, Copy, PartialEq, Eq, Debug)]
pub enum Kind {
    Complete,
    Start,
    Continue,
    End,
    InvalidEnd,
}

/// What a packet did.
#[derive(Clone, PartialEq, Debug)]
pub enum Done {
    Kept,
    Dropped,
    HandedOut(Vec<u32>),
}

/// The open streams, over a buffer of so many words.
#[derive(Clone)]
pub struct Streams {
    pub lent: usize,
    pub open: BTreeMap<Key, Vec<u32>>,
}

/// The packet reader: what the packet is, or its refusal.
pub fn read(packet: &[u32]) -> Result<Kind, usize> {
    let [first, rest @ ..] = packet.get(..4).ok_or(3usize)? else {
        return Err(3);
    };
    let bare = first & 0xFF == 0 && rest == [0; 3];
    match (kind(*first), status(*first)) {
        (5, 3) if count(*first) == 15 && bare => Ok(Kind::InvalidEnd),
        (5, 0..=3) if !SYSEX8.fits(*first) => Err(10),
        (5, 0) => Ok(Kind::Complete),
        (5, 1) => Ok(Kind::Start),
        (5, 2) => Ok(Kind::Continue),
        (5, 3) => Ok(Kind::End),
        (5, _) => Err(15),
        _ => Err(5),
    }
}

/// The key of a packet that is read.
pub fn key(port: u8, packet: &[u32]) -> Key {
    (port, group(packet[0]), stream_id(packet[0]))
}

impl Streams {
    /// No open streams.
    pub fn new(lent: usize) -> Streams {
        let open = BTreeMap::new();
        Streams { lent, open }
    }

    /// The words that each stream may have.
    pub fn part(&self) -> usize {
        self.lent / 16
    }

    /// How many streams of a port are open.
    pub fn held(&self, port: u8) -> usize {
        self.open.keys().filter(|key| key.0 == port).count()
    }

    /// A packet and an output of so many words: what it does, or the refusal.
    pub fn receive(&mut self, port: u8, packet: &[u32], output: usize) -> Result<Done, usize> {
        if self.lent > MOST_WORDS || output > MOST_WORDS {
            return Err(1);
        }
        let kind = read(packet)?;
        if port > 1 {
            return Err(29);
        }
        let (key, packet) = (key(port, packet), &packet[..4]);
        match kind {
            Kind::Complete if output < 4 => Err(14),
            Kind::Complete => {
                self.open.remove(&key);
                Ok(Done::HandedOut(packet.to_vec()))
            }
            Kind::Start => self.start(key, packet),
            _ => self.go_on(kind, key, packet, output),
        }
    }

    /// A start: a new stream, or an open one afresh.
    fn start(&mut self, key: Key, packet: &[u32]) -> Result<Done, usize> {
        let new = !self.open.contains_key(&key);
        if new && self.held(key.0) == 12 {
            return Err(31);
        }
        if new && self.open.len() == 16 {
            return Err(23);
        }
        if self.part() < 4 {
            return Err(14);
        }
        self.open.insert(key, packet.to_vec());
        Ok(Done::Kept)
    }

    /// A continue or an end.
    fn go_on(
        &mut self,
        kind: Kind,
        key: Key,
        packet: &[u32],
        output: usize,
    ) -> Result<Done, usize> {
        let part = self.part();
        let words = self.open.get_mut(&key).ok_or(30usize)?;
        let whole = [words, packet].concat();
        match kind {
            Kind::Continue if whole.len() > part => Err(14),
            Kind::Continue => {
                *words = whole;
                Ok(Done::Kept)
            }
            Kind::End if whole.len() > output => Err(14),
            _ => {
                self.open.remove(&key);
                Ok(match kind {
                    Kind::End => Done::HandedOut(whole),
                    _ => Done::Dropped,
                })
            }
        }
    }
}
