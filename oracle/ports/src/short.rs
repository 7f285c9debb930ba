//! Every short row of packets, and every number of open streams.
use crate::compare::{Call, Counts, Pair};

/// A packet of each kind: complete, start, continue, end, unexpected end with valid and with invalid earlier data.
fn packets(id: u32) -> [[u32; 4]; 6] {
    [0x000E, 0x001E, 0x002E, 0x003E, 0x0031, 0x003F].map(|kind| {
        let first = 0x5700_0000 | kind << 16 | id << 8;
        match kind & 15 {
            14 => [first | kind, kind * 0x0101, id, 0x7777_7777],
            _ => [first, 0, 0, 0],
        }
    })
}

/// The calls of a port on a stream, with so many words of output.
fn calls(port: u8, id: u32, output: usize) -> impl Iterator<Item = Call> {
    let call = move |packet: [u32; 4]| {
        let packet = packet.to_vec();
        Call {
            port,
            packet,
            output,
        }
    };
    packets(id).into_iter().map(call)
}

/// Every row of up to so many of the calls.
fn rows(pair: &Pair, calls: &[Call], most: usize, counts: &mut Counts) -> Result<u64, String> {
    if most == 0 {
        return Ok(0);
    }
    let mut total = 0;
    for call in calls {
        let mut next = pair.clone();
        next.receive(call.clone(), counts)?;
        total += 1 + rows(&next, calls, most - 1, counts)?;
    }
    Ok(total)
}

/// So many open streams of each port, and then each call on one of them and on a new one; answers the calls.
fn held(held: [u32; 2], lent: usize, counts: &mut Counts) -> Result<u64, String> {
    let mut pair = Pair::new(lent);
    let mut total = 0;
    for (port, count) in [0, 1].into_iter().zip(held) {
        for start in (0..count).filter_map(|id| calls(port, id, 0).nth(1)) {
            pair.receive(start, counts)?;
            total += 1;
        }
    }
    for (port, id) in [(0, 0), (0, 100), (1, 0), (1, 100)] {
        for call in calls(port, id, 8).chain(calls(port, id, 3)) {
            let mut next = pair.clone();
            next.receive(call, counts)?;
            let after = calls(port, 101, 8).chain(calls(port, id, 12));
            for call in after {
                next.receive(call, counts)?;
                total += 1;
            }
            total += 1;
        }
    }
    Ok(total)
}

/// Rows of up to four packets of two streams and of up to six of one, and all numbers of open streams; answers the calls.
pub fn run(counts: &mut Counts) -> Result<u64, String> {
    let mut total = 0;
    for lent in [0, 63, 64, 79, 127, 128, 192] {
        for output in [0, 3, 4, 7, 8, 11, 12, 16] {
            let one: Vec<Call> = calls(0, 5, output).collect();
            let same_id: Vec<Call> = one.iter().cloned().chain(calls(1, 5, output)).collect();
            let same_port: Vec<Call> = one.iter().cloned().chain(calls(0, 6, output)).collect();
            total += rows(&Pair::new(lent), &one, 5, counts)?;
            total += rows(&Pair::new(lent), &same_id, 3, counts)?;
            total += rows(&Pair::new(lent), &same_port, 3, counts)?;
        }
    }
    for first in 0..=13 {
        for second in 0..=13 {
            for lent in [63, 64, 128] {
                total += held([first, second], lent, counts)?;
            }
        }
    }
    Ok(total)
}
