//! Random inputs in rounds, each round the same mix.
use crate::answers::{Input, Kind};
use crate::chains;
use crate::compare::compare;
use crate::counts::Counts;
use crate::differences::size;
use crate::inputs;
use crate::layout::*;
use crate::random::Random;

/// How many inputs of each kind a round has, and once in how many a message is damaged.
const MIX: [(Kind, usize, usize); 13] = [
    (Kind::Packet8, 300, 0),
    (Kind::Packet7, 200, 0),
    (Kind::Steps8, 200, 0),
    (Kind::Steps7, 100, 0),
    (Kind::PacketGroup8, 100, 0),
    (Kind::PacketGroup7, 50, 0),
    (Kind::Check8, 700, 2),
    (Kind::Reader, 400, 60),
    (Kind::SetGroup, 150, 30),
    (Kind::SetStreamId, 150, 30),
    (Kind::SetByte, 200, 30),
    (Kind::Pack, 300, 30),
    (Kind::PayloadGrowing, 150, 30),
];

/// One round of random inputs.
pub fn round(random: &mut Random, counts: &mut Counts) -> Result<(), String> {
    for _ in 0..300 {
        compare(&inputs::field(random, false), counts)?;
        compare(&inputs::field(random, true), counts)?;
    }
    for (kind, times, damage) in MIX {
        for _ in 0..times {
            let input = match damage {
                0 => inputs::single(random, kind),
                damage => inputs::on_message(random, kind, damage),
            };
            compare(&input, counts)?;
        }
    }
    for _ in 0..400 {
        compare(&inputs::on_message(random, Kind::SpliceGrowing, 30), counts)?;
        compare(&inputs::on_message(random, Kind::SpliceLent, 30), counts)?;
    }
    for _ in 0..150 {
        compare(&inputs::on_message(random, Kind::PayloadLent, 30), counts)?;
        compare(&inputs::own_id(random), counts)?;
        compare(&inputs::check7(random), counts)?;
        compare(&inputs::stream(random), counts)?;
    }
    for _ in 0..60 {
        chains::chain(random, counts)?;
    }
    Ok(())
}

/// One round of random inputs for the call that the original does not have.
pub fn origins(random: &mut Random, counts: &mut Counts) -> Result<(), String> {
    for _ in 0..600 {
        compare(&inputs::origin(random), counts)?;
    }
    Ok(())
}

/// One round of random byte streams with real-time bytes.
pub fn clocked_streams(random: &mut Random, counts: &mut Counts) -> Result<(), String> {
    for _ in 0..300 {
        compare(&inputs::clocked_stream(random), counts)?;
    }
    Ok(())
}

/// The longest byte streams: data bytes that just fill 16,384 words, one less and one more; without real-time bytes, with one
/// behind each data byte, and with a thousand before them; also in one word more.
pub fn longest_streams(random: &mut Random, counts: &mut Counts) -> Result<(), String> {
    let most = MOST_WORDS / 2 * SYSEX7.room;
    for size in [most - 1, most, most + 1] {
        let data: Vec<u8> = (0..size).map(|_| random.byte() & 0x7F).collect();
        let clocked: Vec<u8> = data.iter().flat_map(|&byte| [byte, 0xF8]).collect();
        let late = [&[0xFE; 1000], &data[..]].concat();
        for inner in [data, clocked, late] {
            let bytes = [&[0xF0], &inner[..], &[0xF7]].concat();
            for lent in [MOST_WORDS, MOST_WORDS + 1] {
                let words = vec![0x0909_0909; lent];
                compare(
                    &Input::with_bytes(Kind::Stream, &words, &bytes, &[0]),
                    counts,
                )?;
            }
        }
    }
    Ok(())
}

/// A valid message of a number of packets, all but the last full or, if uneven, of 1 to 13 bytes.
pub fn of_packets(random: &mut Random, packets: usize, last: usize, uneven: bool) -> Vec<u32> {
    let mut sizes = vec![13; packets];
    if uneven {
        sizes
            .iter_mut()
            .for_each(|size| *size = random.between(1, 13));
    }
    sizes[packets - 1] = last;
    let payload = random.bytes(sizes.iter().sum());
    SYSEX8.message(
        random.word() & 15,
        random.pick(&[0, 0x7E]),
        &sizes,
        &payload,
    )
}

/// The largest messages: 4,095 and 4,096 packets, the last full, nearly full or empty, and uneven ones.
pub fn largest(random: &mut Random, counts: &mut Counts) -> Result<(), String> {
    for (packets, last, uneven) in [
        (4096, 13, false),
        (4096, 12, false),
        (4095, 13, false),
        (4096, 0, false),
        (4096, 5, true),
    ] {
        let message = of_packets(random, packets, last, uneven);
        read_largest(&message, counts)?;
        edit_largest(random, &message, counts)?;
    }
    Ok(())
}

/// Reads and sets in one of the largest messages, and packs it.
fn read_largest(message: &[u32], counts: &mut Counts) -> Result<(), String> {
    let length = message.len() as u64;
    let size = size(message) as u64;
    compare(&Input::new(Kind::Check8, message, &[length]), counts)?;
    compare(&Input::new(Kind::Pack, message, &[length]), counts)?;
    compare(
        &Input::new(Kind::SetByte, message, &[length, size - 1, 0x99]),
        counts,
    )?;
    compare(&Input::new(Kind::SetGroup, message, &[length, 9]), counts)?;
    compare(
        &Input::new(Kind::SetStreamId, message, &[length, 9]),
        counts,
    )?;
    let steps = [length, 13, 0, 26_000, 0, size - 26_016, 0];
    compare(
        &Input::with_bytes(Kind::Reader, message, b"tntntn", &steps),
        counts,
    )
}

/// Edits one of the largest messages in 16,384 words: results that are shorter, as long, exactly full and one byte
/// too long.
fn edit_largest(random: &mut Random, message: &[u32], counts: &mut Counts) -> Result<(), String> {
    let (length, size) = (message.len() as u64, size(message));
    let mut words = message.to_vec();
    words.resize(MOST_WORDS, 0);
    let at = random.below(size) as u64;
    for inserted in [0, 1, 13, 53_248 - size, 53_249 - size] {
        let bytes = random.bytes(inserted);
        for kind in [Kind::SpliceLent, Kind::SpliceGrowing] {
            compare(
                &Input::with_bytes(kind, &words, &bytes, &[length, at, at]),
                counts,
            )?;
        }
    }
    let numbers = [length, 1, size as u64 - 1];
    compare(
        &Input::with_bytes(Kind::SpliceLent, &words, &[1, 2, 3], &numbers),
        counts,
    )?;
    for inserted in [53_247, 53_248, 53_249] {
        let bytes = random.bytes(inserted);
        for kind in [Kind::PayloadLent, Kind::PayloadGrowing] {
            compare(&Input::with_bytes(kind, &words, &bytes, &[length]), counts)?;
        }
    }
    Ok(())
}

/// Origins in the largest messages.
pub fn largest_origins(random: &mut Random, counts: &mut Counts) -> Result<(), String> {
    for (packets, last, uneven) in [(4096, 13, false), (4095, 13, false), (4096, 5, true)] {
        let message = of_packets(random, packets, last, uneven);
        ask_largest(random, &message, counts)?;
    }
    Ok(())
}

/// Asks for origins in one of the largest messages, in 16,384 words: of octets anywhere, of the last, and of one past it.
fn ask_largest(random: &mut Random, message: &[u32], counts: &mut Counts) -> Result<(), String> {
    let mut words = message.to_vec();
    words.resize(MOST_WORDS, 0);
    for _ in 0..8 {
        let list = inputs::edits(random, size(message), 12);
        let inserted: u64 = list.chunks_exact(3).map(|edit| edit[2]).sum();
        let bytes = random.bytes(inserted as usize);
        for octet in [
            random.below(4 * MOST_WORDS),
            4 * MOST_WORDS - 1,
            4 * MOST_WORDS,
        ] {
            let numbers = [&[message.len() as u64, octet as u64], &list[..]].concat();
            compare(
                &Input::with_bytes(Kind::Origin, &words, &bytes, &numbers),
                counts,
            )?;
        }
    }
    Ok(())
}
