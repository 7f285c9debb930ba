//! Short inputs, all of them.
use crate::answers::{Input, Kind, FIELDS};
use crate::compare::compare;
use crate::counts::Counts;
use crate::layout::*;

/// Compares all short inputs.
pub fn run(counts: &mut Counts) -> Result<(), String> {
    fields(counts)?;
    packets(counts)?;
    packet_steps(counts)?;
    one_packet_messages(counts)?;
    two_packet_messages(counts)?;
    three_statuses(counts)?;
    lengths(counts)?;
    readers(counts)?;
    bytes_set(counts)?;
    packings(counts)?;
    splices(counts)?;
    payloads(counts)?;
    streams(counts)?;
    stream_bytes(counts)?;
    clocked_streams(counts)?;
    sizes(counts)?;
    pairs_of_edits(counts)?;
    edits_at_boundaries(counts)?;
    faulty_edits(counts)
}

/// Payload bytes that tell their places apart.
fn numbered(size: usize) -> Vec<u8> {
    (0..size).map(|index| index as u8 ^ 0xA5).collect()
}

/// Every field and every value of it, in words with one bit set or one bit clear.
fn fields(counts: &mut Counts) -> Result<(), String> {
    for bit in 0..32 {
        for word in [1 << bit, !(1 << bit)] {
            for field in FIELDS {
                for index in 0..=field.indexes() {
                    compare(&Input::new(Kind::Read(field), &[word], &[index]), counts)?;
                }
                let step = if field.most() > 255 { 257 } else { 1 };
                for index in 0..field.indexes() {
                    for value in (0..=field.most()).step_by(step) {
                        compare(
                            &Input::new(Kind::Set(field), &[word], &[index, value]),
                            counts,
                        )?;
                    }
                }
            }
        }
    }
    Ok(())
}

/// Every type, group, status and count of a single packet, over words that are zero or differ from it in one octet.
fn packets(counts: &mut Counts) -> Result<(), String> {
    for high in 0..=0xFFFF_u32 {
        let first = high << 16;
        for words in [
            [first, 0, 0, 0],
            [first | 0x0901, 0, 0, 0],
            [first | 0x0900, 0, 0, 0xFF],
        ] {
            compare(&Input::new(Kind::Packet8, &words, &[]), counts)?;
        }
        let words = [first | 0xC142, 0x8384_8586];
        compare(&Input::new(Kind::Packet7, &words, &[]), counts)?;
    }
    for lent in 0..4 {
        compare(
            &Input::new(Kind::Packet8, &[0x5001_0000, 0, 0][..lent.min(3)], &[]),
            counts,
        )?;
        compare(
            &Input::new(Kind::Packet7, &[0x3000_0000][..lent.min(1)], &[]),
            counts,
        )?;
    }
    packet_groups(counts)
}

/// Every group set in packets of every status and count, and every number in one.
fn packet_groups(counts: &mut Counts) -> Result<(), String> {
    for low in 0..=0xFF_u32 {
        for group in 0..16 {
            let first = low << 16 | 0x0A00_0741;
            let eight = [first | 5 << 28, 1, 2, 3];
            compare(&Input::new(Kind::PacketGroup8, &eight, &[group]), counts)?;
            let seven = [first | 3 << 28, 1, 2];
            compare(&Input::new(Kind::PacketGroup7, &seven, &[group]), counts)?;
        }
        let group = [u64::from(low)];
        compare(
            &Input::new(Kind::PacketGroup8, &[0x5A02_0741, 0, 0, 0], &group),
            counts,
        )?;
        compare(
            &Input::new(Kind::PacketGroup7, &[0x3A01_4100, 0], &group),
            counts,
        )?;
    }
    Ok(())
}

/// Every row of steps of a length, each one of next and nth of some numbers.
fn step_rows(length: usize, skips: &[u64]) -> Vec<(Vec<u8>, Vec<u64>)> {
    let choices = skips.len() + 1;
    (0..choices.pow(length as u32))
        .map(|row| {
            let step = |place: usize| row / choices.pow(place as u32) % choices;
            let letters = (0..length)
                .map(|place| if step(place) == 0 { b'n' } else { b't' })
                .collect();
            let number = |place: usize| step(place).checked_sub(1).map_or(0, |skip| skips[skip]);
            (letters, (0..length).map(number).collect())
        })
        .collect()
}

/// Packets of every size, with every row of up to three steps.
fn packet_steps(counts: &mut Counts) -> Result<(), String> {
    for length in 1..=3 {
        for (letters, numbers) in step_rows(length, &[0, 1, 2, 6, 12, 13, 14, u64::MAX]) {
            for size in [0, 1, 2, 6, 12, 13] {
                let packet = SYSEX8.message(1, 9, &[size], &numbered(size));
                compare(
                    &Input::with_bytes(Kind::Steps8, &packet, &letters, &numbers),
                    counts,
                )?;
            }
            for size in [0, 1, 5, 6] {
                let packet = SYSEX7.message(1, 0, &[size], &numbered(size));
                compare(
                    &Input::with_bytes(Kind::Steps7, &packet, &letters, &numbers),
                    counts,
                )?;
            }
        }
    }
    Ok(())
}

/// Every first half word of a message of one packet.
fn one_packet_messages(counts: &mut Counts) -> Result<(), String> {
    for high in 0..=0xFFFF_u32 {
        let words = [high << 16 | 0x0901, 2, 3, 4];
        compare(&Input::new(Kind::Check8, &words, &[4]), counts)?;
    }
    Ok(())
}

/// Messages of two packets: every status and count of the second, some types, groups and ids, whole and cut off.
fn two_packet_messages(counts: &mut Counts) -> Result<(), String> {
    for first in [
        0x5101_0900_u32,
        0x5111_0900,
        0x511E_0900,
        0x5110_0900,
        0x5131_0900,
    ] {
        for half in 0..=0xFF_u32 {
            for rest in [
                0x5100_0900_u32,
                0x4100_0900,
                0x5200_0900,
                0x5100_0800,
                0x5200_0800,
                0x0000_0000,
            ] {
                let words = [first, 1, 2, 3, rest | half << 16, 4, 5, 6];
                for length in [8, 5] {
                    compare(
                        &Input::new(Kind::Check8, &words[..length], &[length as u64]),
                        counts,
                    )?;
                }
            }
        }
    }
    Ok(())
}

/// Messages of three and four packets: every row of statuses 0 to 4.
fn three_statuses(counts: &mut Counts) -> Result<(), String> {
    for packets in 3..=4_u32 {
        for row in 0..5_u32.pow(packets) {
            let mut words = SYSEX8.message(
                2,
                7,
                &vec![5; packets as usize],
                &numbered(5 * packets as usize),
            );
            for packet in 0..packets {
                let status = row / 5_u32.pow(packet) % 5;
                let first = &mut words[4 * packet as usize];
                *first = *first & 0xFF0F_FFFF | status << 20;
            }
            compare(
                &Input::new(Kind::Check8, &words, &[words.len() as u64]),
                counts,
            )?;
        }
    }
    Ok(())
}

/// Every length of 0 to 14 words lent, and lengths above them; more than 16,384 words.
fn lengths(counts: &mut Counts) -> Result<(), String> {
    let words = SYSEX8.fewest_form(3, 1, &numbered(40));
    for lent in 0..=words.len() {
        for length in 0..=lent as u64 + 2 {
            for kind in [Kind::Check8, Kind::Pack] {
                compare(&Input::new(kind, &words[..lent], &[length]), counts)?;
            }
        }
    }
    for lent in [MOST_WORDS, MOST_WORDS + 1, MOST_WORDS + 4] {
        let mut words = SYSEX8.fewest_form(3, 1, &numbered(20));
        words.resize(lent, 0);
        for length in [0, 4, 8, 9, lent as u64, u64::MAX] {
            compare(&Input::new(Kind::Check8, &words, &[length]), counts)?;
        }
    }
    Ok(())
}

/// Messages of one to three packets with sizes 0, 1 and 13, with every row of up to three steps.
fn readers(counts: &mut Counts) -> Result<(), String> {
    let sizes = [0, 1, 13];
    for length in 1..=3 {
        for (letters, numbers) in step_rows(length, &[0, 1, 12, 13, 14]) {
            for row in 0..27 {
                let packets = [sizes[row % 3], sizes[row / 3 % 3], sizes[row / 9]];
                let used = 1 + (row + length) % 3;
                let payload = numbered(packets[..used].iter().sum());
                let words = SYSEX8.message(0, 3, &packets[..used], &payload);
                let numbers = [&[words.len() as u64], &numbers[..]].concat();
                compare(
                    &Input::with_bytes(Kind::Reader, &words, &letters, &numbers),
                    counts,
                )?;
            }
        }
    }
    Ok(())
}

/// Every byte of payloads of 0 to 28 bytes set, and the two past it; every group; every stream id.
fn bytes_set(counts: &mut Counts) -> Result<(), String> {
    for size in 0..=28 {
        let words = SYSEX8.fewest_form(4, 0x55, &numbered(size));
        let length = words.len() as u64;
        for index in 0..size as u64 + 2 {
            compare(
                &Input::new(Kind::SetByte, &words, &[length, index, 0x3C]),
                counts,
            )?;
        }
        for group in 0..=16 {
            compare(
                &Input::new(Kind::SetGroup, &words, &[length, group]),
                counts,
            )?;
        }
        for id in 0..=255 {
            compare(
                &Input::new(Kind::SetStreamId, &words, &[length, id]),
                counts,
            )?;
        }
    }
    Ok(())
}

/// Every packing of one, two and three packets, alone and with an uneven packet behind.
fn packings(counts: &mut Counts) -> Result<(), String> {
    for row in 0..14 * 14 * 14 {
        let sizes = [row % 14, row / 14 % 14, row / 196];
        let used = if row < 14 {
            1..=3
        } else if row < 196 {
            2..=3
        } else {
            3..=3
        };
        for packets in used {
            let payload = numbered(sizes[..packets].iter().sum());
            let mut words = SYSEX8.message(4, 0x55, &sizes[..packets], &payload);
            let length = words.len() as u64;
            compare(&Input::new(Kind::Pack, &words, &[length]), counts)?;
            words.extend([0x5022_0000, 0, 0, 0]);
            compare(&Input::new(Kind::Pack, &words, &[length]), counts)?;
        }
    }
    Ok(())
}

/// Every range of every payload of 0 to 28 bytes, replaced by 0, 1, 12, 13, 14, 26 and 27 bytes; the words lent
/// are exactly full. Replacements without room have one word less.
fn splices(counts: &mut Counts) -> Result<(), String> {
    for size in 0..=28_usize {
        let id = if size % 2 == 0 { 0 } else { 0x42 };
        let message = SYSEX8.fewest_form(6, id, &numbered(size));
        let length = message.len() as u64;
        for (from, to) in (0..=size).flat_map(|from| (from..=size).map(move |to| (from, to))) {
            for inserted in [0, 1, 12, 13, 14, 26, 27] {
                let bytes = vec![0xEE; inserted];
                let needed = 4 * SYSEX8.fewest(size - (to - from) + inserted).len();
                let numbers = [length, from as u64, to as u64];
                let mut words = message.clone();
                words.resize(needed.max(message.len()), 0);
                compare(
                    &Input::with_bytes(Kind::SpliceGrowing, &words, &bytes, &numbers),
                    counts,
                )?;
                compare(
                    &Input::with_bytes(Kind::SpliceLent, &words, &bytes, &numbers),
                    counts,
                )?;
                if from == to && needed > message.len() {
                    words.truncate(needed - 1);
                    compare(
                        &Input::with_bytes(Kind::SpliceLent, &words, &bytes, &numbers),
                        counts,
                    )?;
                }
            }
        }
    }
    Ok(())
}

/// Every payload of 0 to 40 bytes set over every one of 0 to 40.
fn payloads(counts: &mut Counts) -> Result<(), String> {
    for old in 0..=40 {
        for new in 0..=40 {
            let mut words = SYSEX8.fewest_form(7, old as u32 % 3, &numbered(old));
            let length = words.len() as u64;
            words.resize(words.len().max(4 * SYSEX8.fewest(new).len()), 0);
            let bytes = numbered(new);
            for kind in [Kind::PayloadGrowing, Kind::PayloadLent] {
                compare(&Input::with_bytes(kind, &words, &bytes, &[length]), counts)?;
            }
        }
    }
    Ok(())
}

/// Every stream of up to five bytes out of F0, F7, 00, 7F, 80, F8 and FF.
fn streams(counts: &mut Counts) -> Result<(), String> {
    let letters = [0xF0, 0xF7, 0x00, 0x7F, 0x80, 0xF8, 0xFF];
    for length in 0..=5_u32 {
        for row in 0..7_usize.pow(length) {
            let bytes: Vec<u8> = (0..length)
                .map(|place| letters[row / 7_usize.pow(place) % 7])
                .collect();
            compare(
                &Input::with_bytes(Kind::Stream, &[0; 4], &bytes, &[0]),
                counts,
            )?;
        }
    }
    Ok(())
}

/// Every byte between F0 and F7, alone, among data bytes and among real-time bytes.
fn stream_bytes(counts: &mut Counts) -> Result<(), String> {
    for byte in 0..=0xFF {
        for bytes in [
            &[0xF0, byte, 0xF7][..],
            &[0xF0, 1, byte, 2, 0xF7],
            &[0xF0, 0xF8, byte, 0xFE, 0xF7],
        ] {
            compare(
                &Input::with_bytes(Kind::Stream, &[0; 4], bytes, &[0]),
                counts,
            )?;
        }
    }
    Ok(())
}

/// A stream of so many data bytes. A bit of `places` is a place before, between and behind them; a real-time byte stands at
/// each one that is set.
fn clocked(size: usize, places: usize) -> Vec<u8> {
    let mut bytes = vec![0xF0];
    for place in 0..=size {
        if places >> place & 1 == 1 {
            bytes.push(0xF8 + place as u8 % 8);
        }
        if place < size {
            bytes.push(place as u8 + 1);
        }
    }
    bytes.push(0xF7);
    bytes
}

/// Streams of 0 to 13 data bytes with real-time bytes at every set of places, in words that the packets just fill, and in one
/// word less.
fn clocked_streams(counts: &mut Counts) -> Result<(), String> {
    for size in 0..=13 {
        let needed = 2 * SYSEX7.fewest(size).len();
        for places in 0..2 << size {
            let bytes = clocked(size, places);
            for lent in [needed, needed - 1] {
                compare(
                    &Input::with_bytes(Kind::Stream, &vec![0x0909_0909; lent], &bytes, &[0]),
                    counts,
                )?;
            }
        }
    }
    Ok(())
}

/// Words needed for 0 to 500 bytes, around the largest message, and around the largest numbers.
fn sizes(counts: &mut Counts) -> Result<(), String> {
    let top = [
        u64::MAX,
        1 << 62,
        4_611_686_018_427_387_913,
        u64::MAX / 4,
        u64::MAX / 13,
    ];
    let near_top = top
        .iter()
        .flat_map(|&most| (0..30).map(move |less| most - less));
    for size in (0..=500).chain(53_235..=53_262).chain(near_top) {
        compare(&Input::new(Kind::Needed, &[], &[size]), counts)?;
    }
    Ok(())
}

/// The origin of every octet lent, and of the two past them, for a list of edits.
fn origins(words: &[u32], length: usize, edits: &[u64], counts: &mut Counts) -> Result<(), String> {
    let size = edits.chunks_exact(3).map(|edit| edit[2] as usize).sum();
    for octet in 0..4 * words.len() as u64 + 2 {
        let numbers = [&[length as u64, octet], edits].concat();
        compare(
            &Input::with_bytes(Kind::Origin, words, &vec![0xEE; size], &numbers),
            counts,
        )?;
    }
    Ok(())
}

/// All edits of a payload of a size by replacements of these lengths.
fn all_edits(size: u64, lengths: &[u64]) -> Vec<[u64; 3]> {
    (0..=size)
        .flat_map(|from| (from..=size).map(move |to| (from, to)))
        .flat_map(|(from, to)| lengths.iter().map(move |&length| [from, to, length]))
        .collect()
}

/// Every list of none, one and two edits, also out of order, of payloads of 0 to 4 bytes by 0, 1 and 2 bytes. The message
/// has three packets, and a word that is not zero stands behind it.
fn pairs_of_edits(counts: &mut Counts) -> Result<(), String> {
    for size in 0..=4_usize {
        let sizes = [size.min(1), 0, size - size.min(1)];
        let mut words = SYSEX8.message(5, 0x66, &sizes, &numbered(size));
        words.push(0x1234_5678);
        let edits = all_edits(size as u64, &[0, 1, 2]);
        origins(&words, 12, &[], counts)?;
        for first in &edits {
            origins(&words, 12, first, counts)?;
            for second in &edits {
                origins(&words, 12, &[&first[..], second].concat(), counts)?;
            }
        }
    }
    Ok(())
}

/// Every edit of payloads around a boundary by 0, 1, 2, 13 and 14 bytes, in words that are exactly full, and in one more.
fn edits_at_boundaries(counts: &mut Counts) -> Result<(), String> {
    for size in [0, 11, 12, 13, 14, 15, 25, 26, 27] {
        let message = SYSEX8.fewest_form(6, 0x42, &numbered(size));
        for edit in all_edits(size as u64, &[0, 1, 2, 13, 14]) {
            let new = size + (edit[0] + edit[2]) as usize - edit[1] as usize;
            let mut words = message.clone();
            words.resize(message.len().max(4 * SYSEX8.fewest(new).len()), 0x0102_0304);
            if edit[2] % 2 == 1 {
                words.push(0x0506_0708);
            }
            origins(&words, message.len(), &edit, counts)?;
        }
    }
    Ok(())
}

/// Lists that are refused: numbers that are not whole edits, ranges reversed and past the payload, numbers too big, out of
/// order, no room. Each with fitting and other bytes, with lengths that are no message's, and with octets lent and not.
fn faulty_edits(counts: &mut Counts) -> Result<(), String> {
    let most = u64::MAX;
    let lists: [&[u64]; 12] = [
        &[0],
        &[0, 1],
        &[0, 1, 1, 1],
        &[0, 1, 1, 2, 2],
        &[1, 0, 1],
        &[0, 3, 1],
        &[3, 3, 1],
        &[0, most, 1],
        &[0, 0, 53_249],
        &[0, 0, most, 0, 0, 2],
        &[1, 2, 0, 0, 1, 14],
        &[0, 2, 14],
    ];
    let mut words = SYSEX8.fewest_form(6, 0x42, &numbered(2));
    words.push(0x1234_5678);
    for list in lists {
        for size in [0, 1, 13, 14, 15, 53_249] {
            for length in [0, 3, 4, 5, 6, most] {
                for octet in [0, 15, 16, 19, 20, 1 << 32, 1 << 62, most] {
                    let numbers = [&[length, octet], list].concat();
                    let bytes = vec![0xEE; size];
                    compare(
                        &Input::with_bytes(Kind::Origin, &words, &bytes, &numbers),
                        counts,
                    )?;
                }
            }
        }
    }
    long_buffers(counts)
}

/// Origins in as many words as may be lent, and in one more.
fn long_buffers(counts: &mut Counts) -> Result<(), String> {
    for lent in [MOST_WORDS, MOST_WORDS + 1] {
        let mut words = SYSEX8.fewest_form(3, 1, &numbered(20));
        words.resize(lent, 0x0909_0909);
        for octet in [0, 31, 32, 4 * lent as u64 - 1, 4 * lent as u64] {
            let numbers = [8, octet, 0, 8, 1];
            compare(
                &Input::with_bytes(Kind::Origin, &words, &[0xEE], &numbers),
                counts,
            )?;
        }
    }
    Ok(())
}
