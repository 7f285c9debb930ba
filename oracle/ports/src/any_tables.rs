//! Tables of any words: what each call answers, and every word of the table, the buffer and the output after it.
use crate::compare::rest;
use crate::packets::{buffer, lent, Manner};
use crate::port::{self, Room, TABLE};
use crate::random::Random;
use crate::slots::{key, Lent};

/// What can come out: refusal and kind, each with a name.
const OUTCOMES: [(usize, usize, &str); 13] = [
    (0, 0, "kept"),
    (0, 1, "dropped"),
    (0, 2, "handed out"),
    (1, 0, "1 Long"),
    (3, 0, "3 Short"),
    (5, 0, "5 Type"),
    (10, 0, "10 Count"),
    (14, 0, "14 Room"),
    (15, 0, "15 Status"),
    (23, 0, "23 Full"),
    (29, 0, "29 Port"),
    (30, 0, "30 Closed"),
    (31, 0, "31 Share"),
];

/// How often each came.
#[derive(Default)]
pub struct Counts([u64; 13]);

impl Counts {
    /// Counts an answer.
    fn add(&mut self, answer: &[usize; 4]) {
        let place = OUTCOMES
            .iter()
            .position(|&(refusal, kind, _)| [refusal, kind] == [answer[0], answer[2]]);
        self.0[place.expect("an outcome that is listed")] += 1;
    }

    /// All comparisons.
    pub fn total(&self) -> u64 {
        self.0.iter().sum()
    }

    /// The first that never came.
    pub fn never(&self) -> Option<String> {
        let place = self.0.iter().position(|&count| count == 0);
        place.map(|place| format!("never came, with any table: {}", OUTCOMES[place].2))
    }

    /// Prints the table.
    pub fn print(&self) {
        println!("How often each came, with tables of any words");
        for ((_, _, name), count) in OUTCOMES.iter().zip(self.0) {
            println!("{name:50}{count:>10}");
        }
    }
}

/// A word of the table's keys: free, a key of the run, one that is like it, any other of a port, any word.
fn key_word(random: &mut Random, manner: &Manner, port: u8) -> u32 {
    let (group, id) = random.pick(&manner.keys);
    let own = key(random.below(2) as u8, &[group << 24 | id << 8]);
    match random.below(20) {
        0 => 0,
        1..=4 => own,
        5 => own ^ (1 << random.below(32)),
        6 => random.between(1, 2) as u32 * 65_536 + (random.word() & 0xFFFF),
        7 => random.below(4) as u32 * 65_536 + random.pick(&[0, 1, 0x0FFF, 0x1000, 0xFFFF]),
        8 => random.word(),
        _ => (u32::from(port) + 1) * 65_536 + (random.word() & 0xFFFF),
    }
}

/// A word that says how many words a slot holds: around nothing and the part, or any.
fn length_word(random: &mut Random, part: u32) -> u32 {
    match random.below(8) {
        0 => random.below(9) as u32,
        1 => part,
        2 => part.wrapping_sub(random.below(9) as u32),
        3 => part + random.below(9) as u32,
        4 => part * random.below(18) as u32,
        5 => random.pick(&[u32::MAX, u32::MAX - 3, 1 << 31, 1 << 16]),
        6 => random.word(),
        _ => 4 * random.below(part as usize / 4 + 1) as u32,
    }
}

/// A table, with few, many or only slots that are not free, many of them of one port.
fn table(random: &mut Random, manner: &Manner, part: u32) -> [u32; TABLE] {
    let (free, port) = (random.pick(&[0, 0, 1, 3, 8]), random.below(2) as u8);
    let mut table = [0; TABLE];
    for slot in 0..16 {
        if random.below(10) >= free {
            table[slot] = key_word(random, manner, port);
        }
        table[16 + slot] = length_word(random, part);
    }
    table
}

/// What differs, with all that was lent.
fn fault(before: &Lent, port: u8, packet: &[u32], model: &Told, ours: &Told) -> String {
    let show = |(answer, lent): &Told| {
        let words: Vec<_> = lent
            .words
            .iter()
            .zip(&before.words)
            .enumerate()
            .filter(|(_, (new, old))| new != old)
            .collect();
        format!(
            "{answer:?}\n    table {:X?}\n    words changed {words:X?}\n    output {:X?}",
            lent.table, lent.output
        )
    };
    let lent = [before.words.len(), packet.len(), before.output.len()];
    let shown = &packet[..packet.len().min(5)];
    format!(
        "ours is not as the rules of the table say: port {port}, lent words, packet and output {lent:?}\n  \
         packet {shown:08X?}\n  table  {:X?}\n  rules  {}\n  ours   {}",
        before.table,
        show(model),
        show(ours)
    )
}

/// An answer, and all that was lent.
type Told = ([usize; 4], Lent);

/// Compares a call; answers what is lent after it.
fn receive(before: Lent, port: u8, packet: &[u32], counts: &mut Counts) -> Result<Lent, String> {
    let mut after = before.clone();
    let answer = after.receive(port, packet);
    let model = (answer, after);
    let [mut table, mut words, mut output] =
        [&before.table[..], &before.words, &before.output].map(Room::new);
    let answer = port::receive(&mut table, &mut words, port, packet, &mut output);
    let table = table.words().try_into().expect("the words of a table");
    let [words, output] = [words, output].map(|room| room.words().to_vec());
    let ours = (
        answer,
        Lent {
            table,
            words,
            output,
        },
    );
    if model != ours {
        return Err(fault(&before, port, packet, &model, &ours));
    }
    counts.add(&answer);
    Ok(ours.1)
}

/// A table of any words, and up to eight calls on it; seldom the buffer is another one from then on.
fn one(random: &mut Random, counts: &mut Counts) -> Result<(), String> {
    let mut manner = Manner::random(random);
    manner.keys.truncate(random.pick(&[1, 2, 3, 40]));
    let mut words: Vec<u32> = (0..buffer(random)).map(|_| random.word()).collect();
    let part = words.len() / 16;
    let mut table = table(random, &manner, part as u32);
    for _ in 0..random.between(1, 8) {
        if random.once_in(12) {
            words.resize(buffer(random), 0x1234_5678);
        }
        let (port, packet) = (manner.port(random), manner.packet(random));
        let needed = random.pick(&[4, 8, part + 4]);
        let output = rest(lent(random, needed));
        let after = receive(
            Lent {
                table,
                words,
                output,
            },
            port,
            &packet,
            counts,
        )?;
        (table, words) = (after.table, after.words);
    }
    Ok(())
}

/// So many tables.
pub fn run(seed: u64, tables: u64, counts: &mut Counts) -> Result<(), String> {
    let mut random = Random::new(seed ^ 1 << 60);
    for index in 0..tables {
        one(&mut random, counts).map_err(|fault| format!("table {index}: {fault}"))?;
    }
    Ok(())
}
