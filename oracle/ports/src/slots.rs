//! What a call does with a table of any words: the table's own rules, word by word. The first 16 words are the keys of the slots, the
//! others how many words each slot holds.
use crate::layout::{group, stream_id, MOST_WORDS};
use crate::model::{read, Kind};
use crate::port::TABLE;

/// All that is lent to a call but the packet.
#[derive(Clone, PartialEq)]
pub struct Lent {
    pub table: [u32; TABLE],
    pub words: Vec<u32>,
    pub output: Vec<u32>,
}

/// The key of a packet of a port.
pub fn key(port: u8, packet: &[u32]) -> u32 {
    (u32::from(port) + 1) * 65_536 + group(packet[0]) * 256 + stream_id(packet[0])
}

impl Lent {
    /// The words of a part.
    fn part(&self) -> usize {
        self.words.len() / 16
    }

    /// The first slot with a key; 0 is that of a free one.
    fn find(&self, key: u32) -> Option<usize> {
        self.table[..16].iter().position(|&word| word == key)
    }

    /// The words that a slot holds, never more than its part.
    fn held(&self, slot: usize) -> Vec<u32> {
        let part = self.part();
        let used = (self.table[16 + slot] as usize).min(part);
        self.words[slot * part..][..used].to_vec()
    }

    /// Writes a packet to a slot, behind so many of its words, if its part has room.
    fn keep(&mut self, slot: usize, used: usize, packet: &[u32]) -> Result<[usize; 2], usize> {
        let part = self.part();
        if used + 4 > part {
            return Err(14);
        }
        self.words[slot * part + used..][..4].copy_from_slice(packet);
        self.table[16 + slot] = used as u32 + 4;
        Ok([0, 0])
    }

    /// Hands out words, if the output has room, and frees the slot.
    fn hand_out(&mut self, slot: Option<usize>, words: &[u32]) -> Result<[usize; 2], usize> {
        let room = self.output.get_mut(..words.len()).ok_or(14usize)?;
        room.copy_from_slice(words);
        if let Some(slot) = slot {
            self.table[slot] = 0;
        }
        Ok([2, words.len()])
    }

    /// A start: into the slot of its key, or the first free one.
    fn start(&mut self, port: u8, key: u32, packet: &[u32]) -> Result<[usize; 2], usize> {
        let of_port = |word: &&u32| **word / 65_536 == u32::from(port) + 1;
        let share = self.table[..16].iter().filter(of_port).count();
        let slot = match self.find(key) {
            Some(slot) => slot,
            None if share >= 12 => return Err(31),
            None => self.find(0).ok_or(23usize)?,
        };
        let kept = self.keep(slot, 0, packet)?;
        self.table[slot] = key;
        Ok(kept)
    }

    /// Kind and words, or the refusal.
    fn done(&mut self, port: u8, packet: &[u32]) -> Result<[usize; 2], usize> {
        if self.words.len().max(self.output.len()) > MOST_WORDS {
            return Err(1);
        }
        let kind = read(packet)?;
        if port > 1 {
            return Err(29);
        }
        let (key, packet) = (key(port, packet), &packet[..4]);
        let slot = self.find(key);
        if kind == Kind::Start {
            return self.start(port, key, packet);
        }
        if kind == Kind::Complete {
            return self.hand_out(slot, packet);
        }
        let slot = slot.ok_or(30usize)?;
        let held = self.held(slot);
        match kind {
            Kind::Continue => self.keep(slot, held.len(), packet),
            Kind::End => self.hand_out(Some(slot), &[&held, packet].concat()),
            _ => {
                self.table[slot] = 0;
                Ok([1, 0])
            }
        }
    }

    /// Receives a packet: refusal, place, kind, words.
    pub fn receive(&mut self, port: u8, packet: &[u32]) -> [usize; 4] {
        match self.done(port, packet) {
            Ok([kind, words]) => [0, 0, kind, words],
            Err(refusal) => [refusal, 0, 0, 0],
        }
    }
}
