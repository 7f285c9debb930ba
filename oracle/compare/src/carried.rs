//! Payloads that a message may carry (02's T-04): packings of a payload, and payloads that differ from it. Ours is compared with the
//! rules; with the original, where the message is valid: it takes the message, and what it reads of it is compared; and with ours,
//! once the message is packed.
use crate::answers::{Input, Kind};
use crate::compare::{compare, report};
use crate::counts::Counts;
use crate::inputs;
use crate::layout::*;
use crate::port;
use crate::random::Random;
use crate::sampled::of_packets;

/// Group and stream id of the short messages, and the payload sizes of those in every packing.
const GROUP: u32 = 5;
const ID: u32 = 0x66;
const SIZES: [usize; 6] = [0, 1, 13, 14, 26, 27];

/// A byte that no short payload has. It stands in a packet behind a message, where it is not carried.
const BEHIND: u8 = 0x77;

/// The bytes of a payload of a size, none like another.
fn payload(size: usize) -> Vec<u8> {
    (1..=size).map(|byte| byte as u8).collect()
}

/// A question: do so many of the words carry the bytes, with a group and a stream id?
fn question(words: &[u32], length: u64, bytes: &[u8], group: u32, id: u32) -> Input {
    let numbers = [length, group.into(), id.into()];
    Input::with_bytes(Kind::Carries, words, bytes, &numbers)
}

/// Compares a question; and ours with ours: a message that is packed before carries the same payloads, and is refused alike.
fn ask(input: &Input, counts: &mut Counts) -> Result<(), String> {
    compare(input, counts)?;
    let ours = port::answer(input);
    let (refusal, place) = port::carries_packed(input);
    if ours.refusal != refusal || refusal <= 12 && ours.place != place {
        let parts = [
            ("ours", format!("{ours:X?}")),
            ("packed", format!("refusal {refusal} at {place}")),
        ];
        let fault = "a message does not carry the same once it is packed";
        return Err(report(fault, input, &parts));
    }
    Ok(())
}

// ---- every packing

/// What stands in an unused octet, by the place that it would have in the payload.
type Filler = fn(&[u8], usize) -> u8;

/// Zeros; ones; the payload going on, and behind it the byte that stands behind the message.
const FILLERS: [Filler; 3] = [
    |_, _| 0,
    |_, _| 0xFF,
    |bytes, place| bytes.get(place).copied().unwrap_or(BEHIND),
];

/// The bytes in packets of these sizes.
fn filled(bytes: &[u8], sizes: &[usize], filler: Filler) -> Vec<u32> {
    let mut words = SYSEX8.message(GROUP, ID, sizes, bytes);
    let mut before = 0;
    for (packet, &size) in sizes.iter().enumerate() {
        for index in size..13 {
            let byte = filler(bytes, before + index);
            SYSEX8.put(&mut words, 4 * packet, index, byte);
        }
        before += size;
    }
    words
}

/// Every row of so many sizes of 0 to 13 that has this sum.
fn packings(sum: usize, packets: u32) -> Vec<Vec<usize>> {
    let row = |code: usize| (0..packets).map(move |packet| code / 14_usize.pow(packet) % 14);
    (0..14_usize.pow(packets))
        .filter(|&code| row(code).sum::<usize>() == sum)
        .map(|code| row(code).collect())
        .collect()
}

/// The bytes with some bits of one changed.
fn changed(bytes: &[u8], place: usize, bits: u8) -> Vec<u8> {
    let mut bytes = bytes.to_vec();
    bytes[place] ^= bits;
    bytes
}

/// Payloads to ask for: the bytes; cut at each place; and longer by one byte, by 13 and by 14.
fn other_sizes(bytes: &[u8]) -> Vec<Vec<u8>> {
    let cut = (0..=bytes.len()).map(|size| bytes[..size].to_vec());
    let more = [vec![0], vec![0xFF], vec![BEHIND], vec![0; 13], vec![0; 14]];
    cut.chain(more.map(|more| [bytes, &more].concat()))
        .collect()
}

/// Payloads to ask for: a byte changed at each place, by one bit or, if wanted, by each.
fn other_bytes(bytes: &[u8], each_bit: bool) -> Vec<Vec<u8>> {
    (0..8 * bytes.len())
        .map(|bit| (bit / 8, bit % 8))
        .filter(|(place, bit)| each_bit || place % 8 == *bit)
        .map(|(place, bit)| changed(bytes, place, 1 << bit))
        .collect()
}

/// Payloads to ask for: a byte changed at each place and one behind it too, and the last one cut off, or one more.
fn other_both(bytes: &[u8]) -> Vec<Vec<u8>> {
    let twice = |place: usize| {
        let last = bytes.len() - 1;
        let both = changed(&changed(bytes, place, 0x80), last, 1);
        let cut = both[..last.max(place + 1)].to_vec();
        [[&both[..], &[0]].concat(), both, cut]
    };
    (0..bytes.len()).flat_map(twice).collect()
}

/// A message asked for payloads, and for its own with another group, another stream id, both, and what is no group.
fn ask_all(
    words: &[u32],
    length: u64,
    payloads: &[Vec<u8>],
    counts: &mut Counts,
) -> Result<(), String> {
    for bytes in payloads {
        ask(&question(words, length, bytes, GROUP, ID), counts)?;
    }
    let own = SYSEX8.payload(&words[..length as usize]);
    for (group, id) in [
        (GROUP ^ 1, ID),
        (GROUP, ID ^ 1),
        (GROUP ^ 8, ID ^ 0x80),
        (ID & 15, GROUP),
        (GROUP | 16, ID),
        (GROUP | 16, ID ^ 1),
    ] {
        ask(&question(words, length, &own, group, id), counts)?;
    }
    Ok(())
}

/// Payloads of 0, 1, 13, 14, 26 and 27 bytes in every packing into one to four packets: with unused octets of zero, asked for each bit
/// changed; and with others, and a packet behind that goes on with the payload.
fn all_packings(counts: &mut Counts) -> Result<(), String> {
    for size in SIZES {
        let bytes = payload(size);
        let [bits, places] = [true, false].map(|each| other_bytes(&bytes, each));
        let (sizes, both) = (other_sizes(&bytes), other_both(&bytes));
        let all = [&sizes[..], &bits, &both].concat();
        let some = [&sizes[..], &places].concat();
        for row in (1..=4).flat_map(|packets| packings(size, packets)) {
            let length = 4 * row.len() as u64;
            ask_all(&filled(&bytes, &row, FILLERS[0]), length, &all, counts)?;
            for filler in &FILLERS[1..] {
                let mut words = filled(&bytes, &row, *filler);
                words.extend(SYSEX8.message(GROUP, ID, &[1], &[BEHIND]));
                ask_all(&words, length, &some, counts)?;
            }
        }
    }
    Ok(())
}

// ---- groups, stream ids and messages that are refused

/// Every group and every stream id of a message, and every number that is named for them, with its payload and with another.
fn groups_and_ids(counts: &mut Counts) -> Result<(), String> {
    let bytes = payload(3);
    for payload in [&bytes[..], &[1, 2, 4], &[1, 2]] {
        for number in 0..=255 {
            for own in 0..=15 {
                let words = SYSEX8.message(own, ID, &[1, 0, 2], &bytes);
                ask(&question(&words, 12, payload, number, ID), counts)?;
            }
            for own in 0..=255 {
                let words = SYSEX8.message(GROUP, own, &[1, 0, 2], &bytes);
                ask(&question(&words, 12, payload, GROUP, number), counts)?;
            }
        }
    }
    Ok(())
}

/// Payloads that begin with the message's own and are longer: by 1 to 300 bytes, around 65,536, and by 1,048,576.
fn longer_payloads(counts: &mut Counts) -> Result<(), String> {
    for size in [0, 3, 27] {
        let bytes = payload(size);
        let words = SYSEX8.message(
            GROUP,
            ID,
            &[0, size / 3, size / 3, size - size / 3 * 2, 0],
            &bytes,
        );
        for more in (1..=300).chain(65_500..=65_540).chain([1 << 20]) {
            let longer = [&bytes[..], &vec![0; more]].concat();
            ask(&question(&words, 20, &longer, GROUP, ID), counts)?;
        }
    }
    Ok(())
}

/// Messages in as many words as may be lent, and in one more; with each bit of their first words changed; and with every length of the
/// words lent and above. Each is asked for its payload and others, with its group and stream id, others, and what is no group.
fn faulty_messages(counts: &mut Counts) -> Result<(), String> {
    let bytes = payload(20);
    let good = SYSEX8.message(GROUP, ID, &[13, 0, 7], &bytes);
    let lent = [12, 13, MOST_WORDS, MOST_WORDS + 1].map(|lent| {
        let mut words = good.clone();
        words.resize(lent, 0x0909_0909);
        words
    });
    let bits = (0..32).flat_map(|bit| [0, 4, 8].map(|word| (word, 1 << bit)));
    let damaged = bits.map(|(word, bit)| {
        let mut words = good.clone();
        words[word] ^= bit;
        words
    });
    for words in lent.into_iter().chain(damaged) {
        for length in (0..=14).chain([u64::MAX - 3, u64::MAX]) {
            for payload in [&bytes[..], &bytes[..19], &changed(&bytes, 15, 4), &[]] {
                for (group, id) in [(GROUP, ID), (GROUP ^ 2, ID), (GROUP, ID ^ 2), (16, ID)] {
                    ask(&question(&words, length, payload, group, id), counts)?;
                }
            }
        }
    }
    Ok(())
}

/// All short ones.
pub fn exhaustive(counts: &mut Counts) -> Result<(), String> {
    all_packings(counts)?;
    groups_and_ids(counts)?;
    longer_payloads(counts)?;
    faulty_messages(counts)
}

// ---- at random

/// Spoils a payload in one place: a byte changed, put in or taken out, bytes cut off or put behind.
fn spoil(random: &mut Random, bytes: &mut Vec<u8>) {
    let place = random.below(bytes.len() + 1);
    match random.below(6) {
        0 => bytes.truncate(place),
        1 => bytes.insert(place, random.byte()),
        2 if place < bytes.len() => drop(bytes.remove(place)),
        3 => {
            let more = random.pick(&[1, 2, 12, 13, 14, 60_000]);
            bytes.extend(random.bytes(more));
        }
        _ if place < bytes.len() => bytes[place] ^= 1 << random.below(8),
        _ => bytes.push(0),
    }
}

/// A question about a message and what stands behind it: mostly for its own payload, or one that is spoiled once or twice; once in
/// eight with another group or stream id, or what is no group; once in ten the message is damaged.
fn random_question(random: &mut Random) -> Input {
    let (words, length) = inputs::lent(random);
    let message = &words[..length as usize];
    let (mut group, mut id) = (group(message[0]), stream_id(message[0]));
    let mut bytes = SYSEX8.payload(message);
    for _ in 0..random.pick(&[0, 0, 1, 1, 2]) {
        spoil(random, &mut bytes);
    }
    match random.below(32) {
        0 => group ^= 1 << random.below(4),
        1 => id ^= 1 << random.below(8),
        2 => (group, id) = (random.word() & 15, random.word() & 0xFF),
        3 => group = random.between(16, 255) as u32,
        _ => {}
    }
    let mut input = question(&words, length, &bytes, group, id);
    if random.once_in(10) {
        inputs::spoil_message(random, &mut input);
    }
    input
}

/// One round of random questions.
pub fn round(random: &mut Random, counts: &mut Counts) -> Result<(), String> {
    for _ in 0..600 {
        ask(&random_question(random), counts)?;
    }
    Ok(())
}

/// The largest messages: each asked for its payload, for one that is spoiled, and for bytes changed at both ends and around packets.
pub fn largest(random: &mut Random, counts: &mut Counts) -> Result<(), String> {
    for (packets, last, uneven) in [(4096, 13, false), (4095, 13, false), (4096, 5, true)] {
        let words = of_packets(random, packets, last, uneven);
        let bytes = SYSEX8.payload(&words);
        let mut payloads = vec![bytes.clone()];
        for place in [
            0,
            12,
            13,
            bytes.len() - 14,
            bytes.len() - 13,
            bytes.len() - 1,
        ] {
            payloads.push(changed(&bytes, place, 1 << random.below(8)));
        }
        for _ in 0..12 {
            let mut spoiled = bytes.clone();
            spoil(random, &mut spoiled);
            payloads.push(spoiled);
        }
        let (group, id) = (group(words[0]), stream_id(words[0]));
        for payload in payloads {
            let length = words.len() as u64;
            ask(&question(&words, length, &payload, group, id), counts)?;
        }
    }
    Ok(())
}
