//! Interleaved streams on two ports, which the original does not have; beside a memcpy of each packet, and of each message at its end.
use crate::port;
use crate::time::best;
use std::hint::black_box;

/// The words of the buffer, and of the part of a stream.
const LENT: usize = 16_384;
const PART: usize = LENT / 16;

/// A packet of a stream, by its number: 0 is a start. The last is an end, and one alone is complete.
fn packet(stream: usize, number: usize, packets: usize) -> [u32; 4] {
    let status = match number {
        0 if packets == 1 => 0,
        0 => 1,
        last if last + 1 == packets => 3,
        _ => 2,
    };
    let word = (number * 16 + stream) as u32;
    [0x500E_0000 | status << 20 | (stream as u32) << 8 | word & 0xFF, word, !word, word ^ 0x5A5A_5A5A]
}

/// So many streams, of both ports in turn, each of so many packets that come in turn; and what receives them.
pub struct Streams {
    streams: usize,
    packets: Vec<[u32; 4]>,
    table: [u32; 32],
    words: Vec<u32>,
    output: Vec<u32>,
}

impl Streams {
    /// All packets in the order in which they come.
    pub fn new(streams: usize, packets: usize) -> Streams {
        assert!(streams <= 16 && 4 * (packets - 1) <= PART);
        let round = |number| (0..streams).map(move |stream| packet(stream, number, packets));
        let packets = (0..packets).flat_map(round).collect();
        Streams { streams, packets, table: [0; 32], words: vec![0; LENT], output: vec![0; PART + 4] }
    }

    /// How many packets come in all.
    pub fn count(&self) -> usize {
        self.packets.len()
    }

    /// Receives all of them.
    pub fn receive(&mut self) {
        for (index, packet) in self.packets.iter().enumerate() {
            let port = (index % self.streams % 2) as u8;
            black_box(port::receive(&mut self.table, &mut self.words, port, black_box(packet), &mut self.output));
        }
    }

    /// Copies each packet to the part of its stream, and each message out at its end.
    fn copy(&mut self) {
        let ends = self.count() - self.streams;
        for (index, packet) in self.packets.iter().enumerate() {
            let (stream, at) = (index % self.streams, index / self.streams * 4);
            let start = stream * PART;
            if index < ends {
                self.words[start + at..start + at + 4].copy_from_slice(black_box(packet));
            } else {
                self.output[..at].copy_from_slice(&self.words[start..start + at]);
                self.output[at..at + 4].copy_from_slice(black_box(packet));
                black_box(&mut self.output);
            }
        }
    }

    /// Each message is handed out at its end, and is what came.
    fn test(&mut self) {
        let ends = self.count() - self.streams;
        for (index, packet) in self.packets.iter().enumerate() {
            let port = (index % self.streams % 2) as u8;
            let words = port::receive(&mut self.table, &mut self.words, port, packet, &mut self.output);
            let message = self.packets.iter().skip(index % self.streams).step_by(self.streams).flatten();
            match index < ends {
                true => assert_eq!(words, 0),
                false => assert!(self.output[..words].iter().eq(message)),
            }
        }
    }
}

/// Prints a row: the streams, the packets of each, ns for a packet and packets in a second, and ns of the copies for a packet.
fn row(title: &str, streams: usize, packets: usize) {
    let mut all = Streams::new(streams, packets);
    all.test();
    let count = all.count() as f64;
    let ours = best(|| all.receive()) / count;
    let copy = best(|| all.copy()) / count;
    println!("| {title} | {packets} | {ours:.1} | {:.1} | {copy:.1} | {:.1} |", 1_000.0 / ours, ours / copy);
}

/// The table.
pub fn run() {
    println!("| receive | packets of a message | ours, ns a packet | million packets a second | memcpy, ns a packet | ratio |");
    println!("|---|---|---|---|---|---|");
    row("complete packets", 1, 1);
    for packets in [2, 10, 100, 257] {
        row("one stream", 1, packets);
    }
    for packets in [2, 10, 100, 257] {
        row("16 streams interleaved, 8 of each port", 16, packets);
    }
}
