//! Random runs of packets, each on a table that begins empty.
use crate::compare::{Counts, Pair};
use crate::packets::{buffer, Manner};
use crate::random::Random;

/// The packets of the first run, and the words of its buffer: ten packets of each stream.
pub const FIRST: u64 = 100_000;
const FIRST_WORDS: usize = 640;

/// The packets of the other runs, and of one in which all are refused, as too many words are lent.
const PACKETS: u64 = 2_000;
const FEW: u64 = 20;

/// One run, on a buffer of so many words.
fn one(random: &mut Random, lent: usize, packets: u64, counts: &mut Counts) -> Result<(), String> {
    let mut manner = Manner::random(random);
    let long = lent > 6_400 && random.once_in(2);
    if long {
        manner.lengthen();
    }
    let mut pair = Pair::new(lent);
    for _ in 0..packets {
        if !long && random.once_in(2_000) {
            manner = Manner::random(random);
        } else if !long && random.once_in(300) {
            manner.change(random);
        }
        let call = manner.call(random, &pair.streams);
        pair.receive(call, counts)?;
    }
    Ok(())
}

/// Runs of so many packets together; answers how many runs. A run is the same for the same seed and place.
pub fn run(seed: u64, packets: u64, counts: &mut Counts) -> Result<u64, String> {
    let (mut done, mut runs) = (0, 0);
    while done < packets {
        let mut random = Random::new(seed.wrapping_mul(0x1_0000_0000).wrapping_add(runs));
        let (lent, most) = match runs {
            0 => (FIRST_WORDS, FIRST),
            _ => match buffer(&mut random) {
                lent @ 16_385.. => (lent, FEW),
                lent => (lent, PACKETS),
            },
        };
        let most = most.min(packets - done);
        one(&mut random, lent, most, counts)
            .map_err(|fault| format!("random run {runs}: {fault}"))?;
        done += most;
        runs += 1;
    }
    Ok(runs)
}
