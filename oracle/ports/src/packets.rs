//! Random packets and calls.
use crate::compare::Call;
use crate::layout::MOST_WORDS;
use crate::model::{self, Kind, Streams};
use crate::random::Random;

/// What the packets of a run are like: the groups and stream ids, how often each kind comes, and which port they mostly come from.
pub struct Manner {
    pub keys: Vec<(u32, u32)>,
    kinds: [usize; 6],
    ports: &'static [u8],
}

/// Complete, start, continue, end, unexpected end with valid and with invalid earlier data: how often.
const KINDS: [[usize; 6]; 6] = [
    [2, 4, 8, 3, 1, 1],
    [1, 20, 4, 1, 1, 1],
    [1, 200, 10, 1, 1, 1],
    [1, 4, 60, 4, 1, 1],
    LONG,
    [6, 4, 2, 6, 4, 4],
];

/// The same of long streams.
const LONG: [usize; 6] = [0, 1, 600, 2, 0, 0];

impl Manner {
    /// A random one. Some keys differ from the first in one bit.
    pub fn random(random: &mut Random) -> Manner {
        let first = (random.below(16) as u32, u32::from(random.byte()));
        let mut keys = vec![first];
        for _ in 1..random.pick(&[1, 2, 4, 8, 13, 14, 20, 40]) {
            keys.push(match random.below(4) {
                0 => (first.0 ^ (1 << random.below(4)), first.1),
                1 => (first.0, first.1 ^ (1 << random.below(8))),
                _ => (random.below(16) as u32, u32::from(random.byte())),
            });
        }
        Manner {
            keys,
            kinds: random.pick(&KINDS),
            ports: random.pick(&[&[0, 1], &[0, 0, 0, 0, 1], &[0, 1, 1, 1, 1]]),
        }
    }

    /// Goes on with the same keys, else like another one.
    pub fn change(&mut self, random: &mut Random) {
        let other = Manner::random(random);
        (self.kinds, self.ports) = (other.kinds, other.ports);
    }

    /// Goes on with one or two of the keys and long streams.
    pub fn lengthen(&mut self) {
        self.keys.truncate(2);
        self.kinds = LONG;
    }

    /// One of the six kinds.
    fn kind(&self, random: &mut Random) -> usize {
        let mut left = random.below(self.kinds.iter().sum());
        let passed = self.kinds.iter().take_while(|&&often| {
            let past = left >= often;
            left = left.wrapping_sub(often);
            past
        });
        passed.count()
    }

    /// A packet of one of the keys, mostly good.
    pub fn packet(&self, random: &mut Random) -> Vec<u32> {
        let (group, id) = random.pick(&self.keys);
        let kind = self.kind(random);
        let (status, count) = match kind {
            4 => (3, 1),
            5 => (3, 15),
            kind => (kind as u32, random.pick(&[1, 2, 14, 14, 14, 7])),
        };
        let first = 0x5000_0000 | group << 24 | status << 20 | count << 16 | id << 8;
        let mut packet = vec![first, 0, 0, 0];
        if kind < 4 && !random.once_in(10) {
            packet[0] |= u32::from(random.byte());
            (1..4).for_each(|word| packet[word] = random.word());
        }
        if random.once_in(10) {
            packet.extend((0..random.between(1, 5)).map(|_| random.word()));
        }
        if random.once_in(5_000) {
            packet.resize(MOST_WORDS + random.below(8), 0x5031_0000);
        }
        if random.once_in(25) {
            spoil(random, &mut packet);
        }
        packet
    }

    /// The port of a call, seldom one that is none.
    pub fn port(&self, random: &mut Random) -> u8 {
        match random.below(50) {
            0 => random.pick(&[2, 3, 128, 254, 255]),
            _ => random.pick(self.ports),
        }
    }

    /// A call on these streams. The output is mostly about what the packet needs.
    pub fn call(&self, random: &mut Random, streams: &Streams) -> Call {
        let (port, mut packet) = (self.port(random), self.packet(random));
        if !random.once_in(4) {
            steer(random, streams, port, &mut packet);
        }
        let stream = match model::read(&packet) {
            Ok(Kind::Complete) | Err(_) => None,
            Ok(_) => streams.open.get(&model::key(port, &packet)),
        };
        let needed = stream.map_or(4, |words| words.len() + 4);
        let output = lent(random, needed);
        Call {
            port,
            packet,
            output,
        }
    }
}

/// A packet without a stream gets the key of an open one of its port, or becomes a start if it is a continue.
fn steer(random: &mut Random, streams: &Streams, port: u8, packet: &mut [u32]) {
    let kind = match model::read(packet) {
        Ok(kind @ (Kind::Continue | Kind::End | Kind::InvalidEnd)) => kind,
        _ => return,
    };
    if streams.open.contains_key(&model::key(port, packet)) {
        return;
    }
    let open: Vec<_> = streams.open.keys().filter(|key| key.0 == port).collect();
    if kind == Kind::Continue && (open.is_empty() || random.once_in(8)) {
        packet[0] ^= 0x0030_0000;
    } else if !open.is_empty() {
        let (_, group, id) = *random.pick(&open);
        packet[0] = packet[0] & !0x0F00_FF00 | group << 24 | id << 8;
    }
}

/// How many words of output are lent, where so many are needed.
pub fn lent(random: &mut Random, needed: usize) -> usize {
    match random.below(400) {
        0 => MOST_WORDS + random.between(1, 3),
        1 => MOST_WORDS,
        2..=120 => needed,
        121..=160 => needed - 1,
        161..=200 => random.below(needed),
        201..=240 => 0,
        _ => needed + random.below(9),
    }
}

/// Cuts a packet, or gives it another type, a status over 3, a count of 0 or 15.
fn spoil(random: &mut Random, packet: &mut Vec<u32>) {
    match random.below(5) {
        0 => packet.truncate(random.below(4)),
        1 => packet[0] ^= (random.between(1, 15) as u32) << 28,
        2 => packet[0] = packet[0] & !0x00F0_0000 | (random.between(4, 15) as u32) << 20,
        3 => packet[0] &= !0x000F_0000,
        _ => packet[0] |= 0x000F_0000,
    }
    // What comes first shows where more is wrong.
    if random.once_in(4) && !packet.is_empty() {
        packet[0] ^= random.word() & 0xF0FF_0000;
    }
}

/// How many words of buffer are lent: few, around a multiple of 16, some, as many as may be, or too many.
pub fn buffer(random: &mut Random) -> usize {
    let packets = random.between(1, 12);
    match random.below(40) {
        0..=5 => random.below(65),
        6..=11 => 16 * random.between(1, 60) - 1 + random.below(3),
        12..=25 => 64 * packets - 1 + random.below(3),
        26..=34 => random.between(65, 3_000),
        35 | 36 => MOST_WORDS - random.below(34),
        37 | 38 => MOST_WORDS,
        _ => MOST_WORDS + random.between(1, 33),
    }
}
