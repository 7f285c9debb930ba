//! The same calls of one port in two runs, with other calls of the other port between them: what the port is told is the same, as long
//! as the same calls of it are Full.
use crate::compare::{Call, Counts, Pair, Told};
use crate::packets::{buffer, Manner};
use crate::random::Random;

/// The calls of the port in a run.
const CALLS: usize = 400;

/// How many answers were the same in two runs, how many of these were Full, and how many runs parted.
#[derive(Default)]
pub struct Same {
    pub answers: u64,
    pub full: u64,
    pub parted: u64,
}

/// Other keys and bytes, in packets that do the same.
fn disguised(call: &Call) -> Call {
    let mut call = call.clone();
    if let [first, rest @ ..] = &mut call.packet[..] {
        *first ^= 0x0300_5500;
        if rest != [0; 3] {
            rest.iter_mut().for_each(|word| *word = !*word | 1);
        }
    }
    call
}

/// Calls of the other port, before each of the port's: none, or some.
fn others(random: &mut Random, manner: &Manner, port: u8, lent: usize) -> Vec<Vec<Call>> {
    let (mut pair, most) = (Pair::new(lent), random.pick(&[1, 2, 4]));
    let mut some = || {
        let count = random.below(most);
        let one = |_| {
            let mut call = manner.call(random, &pair.streams);
            call.port = 1 - port;
            // The streams of the model alone, so that the outputs are about what is needed.
            _ = pair.streams.receive(call.port, &call.packet, call.output);
            call
        };
        (0..count).map(one).collect()
    };
    (0..CALLS).map(|_| some()).collect()
}

/// What the port is told in a run.
fn told(calls: &[Call], others: &[Vec<Call>], lent: usize) -> Result<Vec<Told>, String> {
    let (mut pair, mut told, mut counts) = (Pair::new(lent), Vec::new(), Counts::default());
    for (call, others) in calls.iter().zip(others) {
        for other in others {
            pair.receive(other.clone(), &mut counts)?;
        }
        told.push(pair.receive(call.clone(), &mut counts)?);
    }
    Ok(told)
}

/// Compares what the port is told in two runs.
fn compare(one: &[Told], other: &[Told], same: &mut Same) -> Result<(), String> {
    for (place, (one, other)) in one.iter().zip(other).enumerate() {
        let full = [one, other].map(|told| told.0[0] == 23);
        if full[0] != full[1] {
            same.parted += 1;
            return Ok(());
        }
        if one != other {
            return Err(format!("a port sees the other one, at its call {place}\n  one    {one:X?}\n  other  {other:X?}"));
        }
        same.answers += 1;
        same.full += u64::from(full[0]);
    }
    Ok(())
}

/// The calls of a port, as they may be made alone.
fn calls(random: &mut Random, manner: &Manner, port: u8, lent: usize) -> Vec<Call> {
    let mut pair = Pair::new(lent);
    let one = |_| {
        let mut call = manner.call(random, &pair.streams);
        if call.port < 2 {
            call.port = port;
        }
        _ = pair.streams.receive(call.port, &call.packet, call.output);
        call
    };
    (0..CALLS).map(one).collect()
}

/// One port's calls in four runs: alone, beside random calls of the other port, beside these in disguise, beside other ones.
fn one(random: &mut Random, same: &mut Same) -> Result<(), String> {
    let (port, lent) = (random.below(2) as u8, buffer(random).min(4_000));
    let manners = [(); 3].map(|()| Manner::random(random));
    let calls = calls(random, &manners[0], port, lent);
    let alone = vec![Vec::new(); CALLS];
    let [beside, second] = [1, 2].map(|manner| others(random, &manners[manner], port, lent));
    let disguise = beside
        .iter()
        .map(|calls| calls.iter().map(disguised).collect())
        .collect();
    let runs = [alone, beside, disguise, second].map(|others| told(&calls, &others, lent));
    let [alone, beside, disguise, second] = runs;
    let (alone, beside, disguise, second) = (alone?, beside?, disguise?, second?);
    compare(&alone, &beside, same)?;
    compare(&beside, &disguise, same)?;
    compare(&disguise, &second, same)
}

/// So many of them.
pub fn run(seed: u64, times: u64) -> Result<Same, String> {
    let (mut random, mut same) = (Random::new(seed ^ 1 << 59), Same::default());
    for index in 0..times {
        one(&mut random, &mut same).map_err(|fault| format!("runs apart {index}: {fault}"))?;
    }
    Ok(same)
}
