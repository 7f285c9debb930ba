//! Numbers, messages and lists of edits for the tests that run many of them. The same seed gives the same ones.

use latchbeacon::Edit;

/// Numbers that look random.
pub struct Numbers(u64);

impl Numbers {
    /// The numbers of a seed.
    pub fn of_seed(seed: u64) -> Numbers {
        Numbers(seed)
    }

    /// The next number, below `bound`, which is not 0.
    pub fn below(&mut self, bound: usize) -> usize {
        self.0 = self.0.wrapping_add(0x9E37_79B9_7F4A_7C15);
        let mut mixed = self.0;
        mixed = (mixed ^ (mixed >> 30)).wrapping_mul(0xBF58_476D_1CE4_E5B9);
        mixed = (mixed ^ (mixed >> 27)).wrapping_mul(0x94D0_49BB_1331_11EB);
        ((mixed ^ (mixed >> 31)) % bound as u64) as usize
    }

    /// So many bytes.
    pub fn bytes(&mut self, count: usize) -> Vec<u8> {
        (0..count).map(|_| self.below(256) as u8).collect()
    }

    /// A message of 1 to `most` packets, full, short and empty ones, in any group and stream; and its payload.
    pub fn message(&mut self, most: usize) -> (Vec<u32>, Vec<u8>) {
        let (packets, group, id) = (1 + self.below(most), self.below(16) as u32, self.below(256) as u32);
        let (mut sizes, mut payload) = (Vec::new(), Vec::new());
        for _ in 0..packets {
            let size = [0, 13, self.below(14)][self.below(3)];
            sizes.push(size);
            payload.extend(self.bytes(size));
        }
        (message(group, id, &payload, &sizes), payload)
    }

    /// A list of 1 to `most` edits of a payload of `size` bytes, in ascending order, each ending no later than the next begins; and
    /// the bytes of each.
    pub fn edits(&mut self, most: usize, size: usize) -> Vec<(Edit, Vec<u8>)> {
        let count = 1 + self.below(most);
        let mut ends: Vec<usize> = (0..2 * count).map(|_| self.below(size + 1)).collect();
        ends.sort_unstable();
        let mut edits = Vec::new();
        for pair in ends.chunks(2) {
            let length = [0, self.below(4), self.below(30)][self.below(3)];
            let to = [pair[0], pair[1]][self.below(2)];
            edits.push((Edit::new(pair[0]..to, length), self.bytes(length)));
        }
        edits
    }
}

/// The message of a payload in packets of these sizes.
pub fn message(group: u32, id: u32, payload: &[u8], sizes: &[usize]) -> Vec<u32> {
    let (mut words, mut rest) = (Vec::new(), payload);
    for (packet, &size) in sizes.iter().enumerate() {
        let (bytes, behind) = rest.split_at(size);
        let status = match packet {
            _ if sizes.len() == 1 => 0,
            0 => 1,
            _ if packet + 1 == sizes.len() => 3,
            _ => 2,
        };
        let mut octets = [0; 16];
        octets[3..3 + size].copy_from_slice(bytes);
        let first = 0x5000_0000 | group << 24 | status << 20 | (size as u32 + 1) << 16 | id << 8;
        words.extend(octets.chunks(4).map(|four| u32::from_be_bytes([four[0], four[1], four[2], four[3]])));
        words[4 * packet] |= first;
        rest = behind;
    }
    words
}
