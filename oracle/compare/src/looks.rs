//! Looks at edited payloads (02's T-08): runs, and bytes of a payload and of a message. The original has no such calls: ours is
//! compared with the rules, and with what a splice leaves.
use crate::answers::{Input, Kind, Ours};
use crate::compare::{compare, report};
use crate::counts::Counts;
use crate::differences::size;
use crate::inputs;
use crate::layout::*;
use crate::port;
use crate::random::Random;
use crate::sampled::of_packets;

/// Numbers around each limit, and the largest.
const LIMITS: [u64; 13] = [
    0,
    1,
    2,
    5,
    MOST_BYTES - 1,
    MOST_BYTES,
    MOST_BYTES + 1,
    MOST_BYTES + 2,
    2 * MOST_BYTES,
    1 << 32,
    u64::MAX - MOST_BYTES,
    u64::MAX - 1,
    u64::MAX,
];

/// The bytes of a payload of a size, none like another.
fn payload(size: usize) -> Vec<u8> {
    (1..=size).map(|byte| byte as u8).collect()
}

/// The bytes of a replacement of a size, none like another or like one of the payload.
fn replacement(size: usize) -> Vec<u8> {
    (1..=size).map(|byte| 0x80 | byte as u8).collect()
}

/// What is wrong with an answer beside the rules.
fn wrong(text: &str, input: &Input, parts: &[(&str, String)]) -> Result<(), String> {
    Err(report(text, input, parts))
}

// ---- runs

/// A question about a run.
fn run(size: u64, edit: [u64; 3], position: u64) -> Input {
    let [from, to, length] = edit;
    Input::new(Kind::LookRun, &[], &[size, from, to, length, position])
}

/// The runs of a good edit of a small payload, held to a splice: each is what stands there, is not empty, and goes on to the end of
/// its part, which is the edit's start, the replacement's end or the payload's.
fn runs_of_a_splice(size: usize, edit: [u64; 3]) -> Result<(), String> {
    let [from, to, length] = edit.map(|number| number as usize);
    let (payload, replacement) = (payload(size), replacement(length));
    let mut spliced = payload.clone();
    spliced.splice(from..to, replacement.iter().copied());
    for position in 0..spliced.len() {
        let input = run(size as u64, edit, position as u64);
        let ours = port::answer(&input);
        let [source, start, end] = [0, 1, 2].map(|index| ours.values[index] as usize);
        let (part, last) = match source {
            0 => (&payload, from),
            1 => (&replacement, length),
            _ => (&payload, size),
        };
        let there = part.get(start..end).unwrap_or_default();
        let behind = source < 2 || start >= to;
        if there.is_empty() || !spliced[position..].starts_with(there) || end != last || !behind {
            let parts = [("ours", format!("{ours:X?}"))];
            wrong("a run is not what a splice leaves", &input, &parts)?;
        }
    }
    Ok(())
}

/// Every edit of payloads of 0 to 5 bytes by 0 to 3 bytes, at every position and past the end; ranges reversed and past the payload
/// too.
fn all_runs(counts: &mut Counts) -> Result<(), String> {
    for size in 0..=5 {
        for edit in all_edits(size + 1, &[0, 1, 2, 3], true) {
            for position in (0..=size + edit[2] + 1).chain([u64::MAX]) {
                compare(&run(size, edit, position), counts)?;
            }
            if edit[0] <= edit[1] && edit[1] <= size {
                runs_of_a_splice(size as usize, edit)?;
            }
        }
    }
    Ok(())
}

/// Every payload size, from, to, replacement size and position out of the numbers around the limits.
fn runs_at_limits(counts: &mut Counts) -> Result<(), String> {
    for code in 0..LIMITS.len().pow(5) {
        let limit = |place: u32| LIMITS[code / LIMITS.len().pow(place) % LIMITS.len()];
        let [size, from, to, length, position] = [0, 1, 2, 3, 4].map(limit);
        compare(&run(size, [from, to, length], position), counts)?;
    }
    Ok(())
}

// ---- bytes

/// All edits with ends of 0 to `most` by replacements of these lengths; reversed ones too, if wanted.
fn all_edits(most: u64, lengths: &[u64], reversed: bool) -> Vec<[u64; 3]> {
    (0..=most)
        .flat_map(|from| (if reversed { 0 } else { from }..=most).map(move |to| (from, to)))
        .flat_map(|(from, to)| lengths.iter().map(move |&length| [from, to, length]))
        .collect()
}

/// A question about a byte of an edited payload.
fn byte(payload: &[u8], edits: &[u64], bytes: &[u8], position: u64) -> Input {
    let numbers = [&[payload.len() as u64, position], edits].concat();
    Input::with_bytes(Kind::LookByte, &[], &[payload, bytes].concat(), &numbers)
}

/// A question about a byte of an edited message.
fn message_byte(words: &[u32], length: u64, edits: &[u64], bytes: &[u8], position: u64) -> Input {
    let numbers = [&[length, position], edits].concat();
    Input::with_bytes(Kind::LookMessage, words, bytes, &numbers)
}

/// Holds a look at a message to ours: the edits done at once in a copy, with as many words as may be lent if they need room, and then
/// the byte read. Where they are refused the look is refused alike; where they do not fit in any words there is nothing to hold it to.
fn against_splice(input: &Input) -> Result<(), String> {
    let looked = port::answer(input);
    let ((refusal, place), words) = match port::look_spliced(input, 0) {
        ((14, _), _) => port::look_spliced(input, MOST_WORDS - input.words.len()),
        spliced => spliced,
    };
    let wanted = match refusal {
        14 => return Ok(()),
        0 => port::byte(&words, input.numbers[1] as usize),
        _ => Ours {
            values: vec![0],
            ..Ours::refused(refusal, place, &[])
        },
    };
    if looked != wanted {
        let parts = [
            ("look", format!("{looked:X?}")),
            ("splice", format!("{wanted:X?}")),
        ];
        wrong("a look is not what a splice leaves", input, &parts)?;
    }
    Ok(())
}

/// Compares a byte of an edited message, with the rules and with a splice.
fn compare_message(input: &Input, counts: &mut Counts) -> Result<(), String> {
    compare(input, counts)?;
    against_splice(input)
}

/// Every byte of a small payload with a list of edits, also past its end: of its bytes, and of a message of three packets that has a
/// word behind it.
fn all_bytes(size: usize, edits: &[u64], counts: &mut Counts) -> Result<(), String> {
    let lengths = edits.chunks_exact(3).map(|edit| edit[2]);
    let (payload, bytes) = (payload(size), replacement(lengths.sum::<u64>() as usize));
    let sizes = [size.min(1), 0, size - size.min(1)];
    let mut words = SYSEX8.message(5, 0x66, &sizes, &payload);
    words.push(0x1234_5678);
    let last = (size + bytes.len()) as u64 + 1;
    for position in (0..=last).chain([u64::MAX]) {
        compare(&byte(&payload, edits, &bytes, position), counts)?;
        let input = message_byte(&words, 12, edits, &bytes, position);
        compare_message(&input, counts)?;
    }
    Ok(())
}

/// Every row of up to `most` of these edits.
fn rows(
    size: usize,
    edits: &[[u64; 3]],
    most: usize,
    row: &mut Vec<u64>,
    counts: &mut Counts,
) -> Result<(), String> {
    all_bytes(size, row, counts)?;
    if most > 0 {
        for edit in edits {
            row.extend(edit);
            rows(size, edits, most - 1, row, counts)?;
            row.truncate(row.len() - 3);
        }
    }
    Ok(())
}

/// Every list of up to two edits, also out of order, of payloads of 0 to 5 bytes by 0, 1 and 2 bytes, up to 4 bytes with ranges
/// reversed and past the payload; and every list of three of payloads of 0 to 3 bytes by 0 and 1 bytes.
fn all_lists(counts: &mut Counts) -> Result<(), String> {
    for size in 0..=5 {
        let faulty = size <= 4;
        let most = size as u64 + u64::from(faulty);
        let edits = all_edits(most, &[0, 1, 2], faulty);
        rows(size, &edits, 2, &mut Vec::new(), counts)?;
    }
    for size in 0..=3 {
        let edits = all_edits(size as u64, &[0, 1], false);
        rows(size, &edits, 3, &mut Vec::new(), counts)?;
    }
    Ok(())
}

/// Lists that are refused: numbers that are not whole edits, ranges reversed and past the payload, numbers too big, out of order.
/// Each with fitting and other bytes, with lengths that are no message's, and at positions in the result and past it.
fn faulty_lists(counts: &mut Counts) -> Result<(), String> {
    let most = u64::MAX;
    let lists: [&[u64]; 14] = [
        &[],
        &[0],
        &[0, 1],
        &[0, 1, 1, 1],
        &[0, 1, 1, 2, 2],
        &[1, 0, 1],
        &[0, 3, 1],
        &[3, 3, 1],
        &[0, most, 1],
        &[most, most, 1],
        &[0, 0, 53_249],
        &[0, 0, most, 0, 0, 2],
        &[1, 2, 0, 0, 1, 14],
        &[1, 2, 14, 3, 2, 0],
    ];
    let mut words = SYSEX8.fewest_form(6, 0x42, &payload(2));
    words.push(0x1234_5678);
    for list in lists {
        for bytes in [0, 1, 13, 14, 15, 53_249].map(|size| vec![0xEE; size]) {
            for position in [0, 1, 2, 3, 15, 16, 53_250, 53_251, 1 << 32, most] {
                compare(&byte(&payload(2), list, &bytes, position), counts)?;
                for length in [0, 3, 4, 5, 6, most] {
                    let input = message_byte(&words, length, list, &bytes, position);
                    compare_message(&input, counts)?;
                }
            }
        }
    }
    Ok(())
}

/// A payload longer than a message's, with edits around the largest number, at positions around each end.
fn long_payloads(counts: &mut Counts) -> Result<(), String> {
    let size = 2 * MOST_BYTES as usize;
    let bytes: Vec<u8> = (0..size).map(|index| (index % 251) as u8).collect();
    let near = [MOST_BYTES - 1, MOST_BYTES, MOST_BYTES + 1];
    for from in near {
        for to in near {
            for length in [0, 1, MOST_BYTES - 1, MOST_BYTES, MOST_BYTES + 1] {
                let list = [0, 1, 0, from, to, length];
                let new = vec![0xEE; length as usize];
                let ends = [from - 1, from - 1 + length, size as u64 + length - 1];
                for position in ends.iter().flat_map(|end| end.saturating_sub(2)..=end + 1) {
                    compare(&byte(&bytes, &list, &new, position), counts)?;
                }
            }
        }
    }
    Ok(())
}

/// Messages in as many words as may be lent, and in one more; and with each of the check's refusals, before a list that is refused.
fn faulty_messages(counts: &mut Counts) -> Result<(), String> {
    let lists: [&[u64]; 3] = [&[0, 8, 1], &[8, 0, 1], &[1, 2, 1, 0, 1, 0]];
    let good = SYSEX8.fewest_form(3, 1, &payload(20));
    let lent = [MOST_WORDS, MOST_WORDS + 1].map(|lent| {
        let mut words = good.clone();
        words.resize(lent, 0x0909_0909);
        words
    });
    let changed = (0..32).flat_map(|bit| [0, 4].map(|word| (word, 1 << bit)));
    let damaged = changed.map(|(word, bit)| {
        let mut words = good.clone();
        words[word] ^= bit;
        words
    });
    for words in lent.into_iter().chain(damaged) {
        for list in lists {
            for length in [4, 8, 9] {
                for position in [0, 12, 13, 19] {
                    let input = message_byte(&words, length, list, &[0xEE], position);
                    compare_message(&input, counts)?;
                }
            }
        }
    }
    Ok(())
}

/// All short ones.
pub fn exhaustive(counts: &mut Counts) -> Result<(), String> {
    all_runs(counts)?;
    runs_at_limits(counts)?;
    all_lists(counts)?;
    faulty_lists(counts)?;
    long_payloads(counts)?;
    faulty_messages(counts)
}

// ---- at random

/// A list of edits of a payload of a size, and its bytes. Once in ten the list is spoiled, once in thirty the bytes are one too many.
fn list(random: &mut Random, size: usize, most: usize) -> (Vec<u64>, Vec<u8>) {
    let mut list = inputs::edits(random, size, most);
    let inserted: u64 = list.chunks_exact(3).map(|edit| edit[2]).sum();
    let more = usize::from(random.once_in(30));
    let bytes = random.bytes(inserted as usize + more);
    if random.once_in(10) {
        inputs::spoil(random, &mut list);
    }
    (list, bytes)
}

/// A position in the result, or around its end, or far past it. The bytes that a spoiled list removes may be more than a number holds.
fn position(random: &mut Random, size: usize, list: &[u64], bytes: usize) -> u64 {
    let edits = list.chunks_exact(3);
    let removed = edits
        .map(|edit| edit[1].saturating_sub(edit[0]))
        .fold(0, u64::wrapping_add);
    let new = ((size + bytes) as u64).saturating_sub(removed);
    match random.below(8) {
        0 => (new + random.below(3) as u64).saturating_sub(1),
        1 => random.pick(&LIMITS),
        _ => random.below(new as usize + 1) as u64,
    }
}

/// One round of random looks: runs of any sizes, and bytes of payloads and of messages, of which once in thirty one is damaged.
pub fn round(random: &mut Random, counts: &mut Counts) -> Result<(), String> {
    for _ in 0..400 {
        let (mut words, length) = inputs::lent(random);
        let old = size(&words[..length as usize]);
        let (edits, bytes) = list(random, old, 6);
        let position = position(random, old, &edits, bytes.len());
        if random.once_in(30) {
            words = inputs::damaged(random, &words);
        }
        let input = message_byte(&words, length, &edits, &bytes, position);
        compare_message(&input, counts)?;
        let payload = random.bytes(old);
        compare(&byte(&payload, &edits, &bytes, position), counts)?;
        compare(&random_run(random), counts)?;
    }
    Ok(())
}

/// A question about a run: mostly of an edit that is good, at a position in the result or near its end.
fn random_run(random: &mut Random) -> Input {
    let any = |random: &mut Random| match random.below(4) {
        0 => random.pick(&LIMITS),
        _ => random.below(60_000) as u64,
    };
    if random.once_in(4) {
        let [size, from, to, length, position] = [(); 5].map(|()| any(random));
        return run(size, [from, to, length], position);
    }
    let size = random.pick(&[5, 100, 53_248, 60_000, usize::MAX]);
    let mut ends = [(); 2].map(|()| random.between(0, size.min(MOST_BYTES as usize)) as u64);
    ends.sort_unstable();
    let length = random.pick(&[0, 0, 1, 7, MOST_BYTES]);
    let place = random.pick(&[0, ends[0], ends[0] + length, size as u64]);
    let position = place.saturating_add(random.below(5) as u64);
    let back = random.below(5) as u64;
    run(
        size as u64,
        [ends[0], ends[1], length],
        position.saturating_sub(back),
    )
}

/// Looks in the largest messages.
pub fn largest(random: &mut Random, counts: &mut Counts) -> Result<(), String> {
    for (packets, last, uneven) in [(4096, 13, false), (4095, 13, false), (4096, 5, true)] {
        let words = of_packets(random, packets, last, uneven);
        let (length, old) = (words.len() as u64, size(&words));
        for _ in 0..20 {
            let (edits, bytes) = list(random, old, 12);
            let position = position(random, old, &edits, bytes.len());
            let input = message_byte(&words, length, &edits, &bytes, position);
            compare_message(&input, counts)?;
        }
    }
    Ok(())
}
