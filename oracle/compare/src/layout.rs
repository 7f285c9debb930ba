//! The layout of packets, from 01. The model, the tests of the differences and the makers of inputs use it;
//! neither side that is compared does.

/// What tells SysEx8 and SysEx7 packets apart.
#[derive(PartialEq, Eq, Debug)]
pub struct Shape {
    pub kind: u32,
    pub words: usize,
    pub head: usize,
    pub room: usize,
    pub bias: u32,
    pub least: u32,
    pub most: u32,
    pub mask: u32,
    pub has_id: bool,
}

/// SysEx8: four words, 13 bytes behind three octets, count is size plus one.
pub const SYSEX8: Shape = Shape {
    kind: 5,
    words: 4,
    head: 3,
    room: 13,
    bias: 1,
    least: 1,
    most: 14,
    mask: 0xFF,
    has_id: true,
};

/// SysEx7: two words, 6 bytes behind two octets, count is size.
pub const SYSEX7: Shape = Shape {
    kind: 3,
    words: 2,
    head: 2,
    room: 6,
    bias: 0,
    least: 0,
    most: 6,
    mask: 0x7F,
    has_id: false,
};

/// The most words that may be lent.
pub const MOST_WORDS: usize = 16384;

/// The most payload bytes that they hold, and the largest number within an edit.
pub const MOST_BYTES: u64 = 53_248;

/// Nibble `index` of a word, 0 is the most significant.
pub fn nibble(word: u32, index: u32) -> u32 {
    word >> (28 - 4 * index) & 15
}

/// The stream id in a packet's first word.
pub fn stream_id(word: u32) -> u32 {
    word >> 8 & 0xFF
}

/// The message type in a packet's first word.
pub fn kind(word: u32) -> u32 {
    nibble(word, 0)
}

/// The group in a packet's first word.
pub fn group(word: u32) -> u32 {
    nibble(word, 1)
}

/// The status in a packet's first word.
pub fn status(word: u32) -> u32 {
    nibble(word, 2)
}

/// The count in a packet's first word.
pub fn count(word: u32) -> u32 {
    nibble(word, 3)
}

impl Shape {
    /// Whether a count is fit for a message.
    pub fn fits(&self, word: u32) -> bool {
        (self.least..=self.most).contains(&count(word))
    }

    /// The payload size of a packet of fit count.
    pub fn size(&self, word: u32) -> usize {
        (count(word) - self.bias) as usize
    }

    /// Payload byte `index` of a packet.
    pub fn byte(&self, packet: &[u32], index: usize) -> u8 {
        let octet = index + self.head;
        (packet[octet / 4] >> (24 - 8 * (octet % 4)) & self.mask) as u8
    }

    /// The first word of each packet, the last cut-off one too.
    pub fn firsts<'a>(&self, words: &'a [u32]) -> impl Iterator<Item = u32> + 'a {
        words.iter().step_by(self.words).copied()
    }

    /// The payload of whole packets of fit counts.
    pub fn payload(&self, words: &[u32]) -> Vec<u8> {
        let mut bytes = Vec::new();
        for packet in words.chunks_exact(self.words) {
            bytes.extend((0..self.size(packet[0])).map(|index| self.byte(packet, index)));
        }
        bytes
    }

    /// Writes payload byte `index` of the packet that begins at word `at`.
    pub fn put(&self, words: &mut [u32], at: usize, index: usize, byte: u8) {
        let octet = index + self.head;
        let shift = 24 - 8 * (octet % 4);
        let word = &mut words[at + octet / 4];
        *word = *word & !(0xFF << shift) | u32::from(byte) << shift;
    }

    /// The status of packet `index` of `packets`.
    pub fn status_at(index: usize, packets: usize) -> u32 {
        match (index, packets) {
            (_, 1) => 0,
            (0, _) => 1,
            (index, packets) if index == packets - 1 => 3,
            _ => 2,
        }
    }

    /// A message with packets of the sizes given, unused octets zero.
    pub fn message(&self, group: u32, id: u32, sizes: &[usize], payload: &[u8]) -> Vec<u32> {
        let mut words = vec![0; self.words * sizes.len()];
        let mut bytes = payload.iter();
        for (packet, &size) in sizes.iter().enumerate() {
            let at = packet * self.words;
            let status = Shape::status_at(packet, sizes.len());
            words[at] =
                self.kind << 28 | group << 24 | status << 20 | (size as u32 + self.bias) << 16;
            words[at] |= if self.has_id { id << 8 } else { 0 };
            for index in 0..size {
                self.put(
                    &mut words,
                    at,
                    index,
                    *bytes.next().expect("as many bytes as sizes say"),
                );
            }
        }
        words
    }

    /// The packets of the fewest-packet form of a size: the size over the room, rounded up, and one if there are no bytes.
    pub fn packets_for(&self, size: usize) -> usize {
        size.div_ceil(self.room).max(1)
    }

    /// And their words.
    pub fn words_for(&self, size: usize) -> usize {
        self.words * self.packets_for(size)
    }

    /// The sizes of the packets of the fewest-packet form.
    pub fn fewest(&self, size: usize) -> Vec<usize> {
        let packets = 0..self.packets_for(size);
        packets
            .map(|packet| self.room.min(size - self.room * packet))
            .collect()
    }

    /// The fewest-packet form of a payload.
    pub fn fewest_form(&self, group: u32, id: u32, payload: &[u8]) -> Vec<u32> {
        self.message(group, id, &self.fewest(payload.len()), payload)
    }
}

/// What 01 compares of a rewritten SysEx8 message: length, headers, payload.
pub fn compared(message: &[u32]) -> Vec<u64> {
    let mut values = vec![message.len() as u64];
    values.extend(SYSEX8.firsts(message).map(|word| u64::from(word >> 8)));
    values.extend(SYSEX8.payload(message).into_iter().map(u64::from));
    values
}

/// Words as values.
pub fn as_values(words: &[u32]) -> Vec<u64> {
    words.iter().map(|&word| u64::from(word)).collect()
}
