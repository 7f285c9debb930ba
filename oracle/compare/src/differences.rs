//! The differences of docs/DIFFERENCES.md, each with its test on the input ("Shows when").
use crate::answers::{Input, Kind, ENDED};
use crate::layout::*;
use crate::model;
use std::ops::RangeInclusive;

/// Where a difference stands.
#[derive(Clone, Copy, PartialEq, Eq)]
pub enum Place {
    /// Inside 01's domain of equality.
    Inside,
    /// Outside it: ours refuses, or the call is outside the port.
    Outside,
    /// Only in what 01 does not compare: unused octets, words past the message.
    NotCompared,
}

/// The builds of the original in which a difference shows.
#[derive(Clone, Copy, PartialEq, Eq)]
pub enum Builds {
    /// Both answer alike.
    Both,
    /// The debug build panics, now or later in the same call.
    Unlike,
    /// Only the debug build differs: it panics.
    DebugOnly,
}

/// One difference.
pub struct Difference {
    pub name: &'static str,
    pub title: &'static str,
    pub place: Place,
    pub builds: Builds,
    pub shows: fn(&Input) -> bool,
}

/// Shorthand for a row of the table.
const fn row(
    name: &'static str,
    title: &'static str,
    place: Place,
    builds: Builds,
    shows: fn(&Input) -> bool,
) -> Difference {
    Difference {
        name,
        title,
        place,
        builds,
        shows,
    }
}

use Builds::{Both, DebugOnly, Unlike};
use Place::{Inside, NotCompared, Outside};

/// The differences that only a query asks for: a payload that no memory holds, and an iterator without a size.
pub const ONLY_QUERIES: [&str; 2] = ["D23", "D24"];

/// Every other difference.
#[rustfmt::skip]
pub const ALL: [Difference; 38] = [
    row("D1", "stream id goes to octet 3", Inside, Both, d1),
    row("D2a", "packets gained have no id (growing buffer)", Inside, Both, d2a),
    row("D2b", "packets gained keep the id that stood there", Inside, Both, d2b),
    row("D3", "unused octets of a complete packet stay", NotCompared, Both, d3),
    row("D4", "packing leaves an empty end packet", Inside, Both, d4),
    row("D5", "a splice without room empties the message", Outside, Both, d5),
    row("D6a", "a cut-off last packet is taken", Outside, Both, d6a),
    row("D6b", "cut-off words of another type are passed over", Outside, Both, d6b),
    row("D6c", "a packet of another type ends the message", Outside, Both, d6c),
    row("D6d", "a packet of another type gives another refusal", Outside, Both, d6d),
    row("D6e", "counts of packets of another type are checked", Outside, Both, d6e),
    row("D6f", "ragged words give another refusal", Outside, Both, d6f),
    row("D7a", "nth of a packet does not pass its byte", Inside, Both, d7a),
    row("D7b", "nth of a message panics after the end", Inside, Both, d7b),
    row("D8a", "count 0 in a single packet", Outside, Unlike, d8a),
    row("D8b", "count 15 in a single packet", Outside, Unlike, d8b),
    row("D8c", "byte index out of range", Outside, Both, d8c),
    row("D8d", "reversed range", Outside, Unlike, d8d),
    row("D9a", "splice panics after an uneven packing (growing)", Inside, DebugOnly, d9a),
    row("D9b", "the same on lent words", Inside, DebugOnly, d9b),
    row("D10", "setting the payload loses the id", Inside, Both, d10),
    row("D11", "payload of an unexpected end", Inside, Unlike, d11),
    row("D12", "bytes remaining after nth past the end", Inside, Unlike, d12),
    row("D13", "nth with a number that overflows", Inside, Unlike, d13),
    row("D14", "packing of a full form leaves unused octets", NotCompared, Both, d14),
    row("D15", "range past the payload", Outside, Unlike, d15),
    row("D16", "nth reads on past the message", Inside, Unlike, d16),
    row("D17", "group and id setters go on past the message", NotCompared, Both, d17),
    row("D18", "a byte is set past the message", Outside, Unlike, d18),
    row("D19", "words of the old message stay", NotCompared, Both, d19),
    row("D20", "no limit of 16,384 words", Outside, Both, d20),
    row("D21", "field index too big", Outside, Both, d21),
    row("D22", "field value or group too big", Outside, Both, d22),
    row("S1", "SysEx7 message: D6 again", Outside, Both, s1),
    row("S3", "byte stream: a byte of 80 to F6 panics", Outside, Both, s3),
    row("S4", "byte stream: what follows the first F7 is passed over", Outside, Both, s4),
    row("S5", "byte stream: a frame that is none, other words", Outside, Both, s5),
    row("S6", "byte stream: a real-time byte panics", Outside, Both, s6),
];

/// The payload size of a valid message.
pub fn size(message: &[u32]) -> usize {
    SYSEX8.firsts(message).map(|first| SYSEX8.size(first)).sum()
}

/// Whether the message of a call on one is valid.
fn valid(input: &Input) -> bool {
    input.kind.on_message() && model::check(&SYSEX8, &input.words, input.numbers[0]).is_ok()
}

/// Packets of the message before and after a call that rewrites it, for the size that the original goes by.
pub fn packets(input: &Input) -> (usize, usize) {
    let (before, old) = (input.length() / 4, size(input.message()) as u64);
    let new = match input.kind {
        kind if kind.is_splice() => old
            .wrapping_add(input.bytes.len() as u64)
            .wrapping_add(input.numbers[1])
            .wrapping_sub(input.numbers[2]),
        kind if kind.is_payload() => input.bytes.len() as u64,
        _ => old,
    };
    (before, SYSEX8.packets_for(new as usize))
}

/// Whether a splice's range lies in the payload; true for other calls.
fn in_range(input: &Input) -> bool {
    let numbers = &input.numbers;
    !input.kind.is_splice()
        || numbers[1] <= numbers[2] && numbers[2] <= size(input.message()) as u64
}

/// A stream id other than the message's own, or than octet 3 of a packet, be it payload or unused.
fn d1(input: &Input) -> bool {
    let other = |first: u32| {
        [stream_id(first), first & 0xFF]
            .iter()
            .any(|&octet| u64::from(octet) != input.numbers[1])
    };
    input.kind == Kind::SetStreamId && valid(input) && SYSEX8.firsts(input.message()).any(other)
}

/// A splice of a growing buffer that gains packets, and an id that is not 0.
fn d2a(input: &Input) -> bool {
    if input.kind != Kind::SpliceGrowing || !valid(input) || !in_range(input) {
        return false;
    }
    let (before, after) = packets(input);
    after > before && stream_id(input.words[0]) != 0
}

/// Lent words, packets gained, and another id where one of them will stand.
fn d2b(input: &Input) -> bool {
    let lent = matches!(input.kind, Kind::SpliceLent | Kind::PayloadLent);
    if !lent || !valid(input) || !in_range(input) {
        return false;
    }
    let (before, after) = packets(input);
    let firsts = SYSEX8.firsts(&input.words).take(after).skip(before);
    firsts
        .into_iter()
        .any(|first| stream_id(first) != stream_id(input.words[0]))
}

/// Whether all packets but the last are full.
fn others_full(message: &[u32]) -> bool {
    let packets = message.len() / 4;
    SYSEX8
        .firsts(message)
        .take(packets - 1)
        .all(|first| count(first) == 14)
}

/// A rewrite that ends in one packet of less than 13 bytes; packing counts if the message is uneven.
fn d3(input: &Input) -> bool {
    if !input.kind.rewrites() || !valid(input) || !in_range(input) {
        return false;
    }
    let new = match input.kind {
        Kind::Pack if packed(&input.words) => return false,
        Kind::Pack => size(input.message()),
        kind if kind.is_payload() => input.bytes.len(),
        _ => {
            size(input.message()) + input.bytes.len()
                - (input.numbers[2] - input.numbers[1]) as usize
        }
    };
    new < 13
}

/// Whether no start or continue packet with another count than 14 stands among the leading packets of type 5.
pub fn packed(words: &[u32]) -> bool {
    let leading = words
        .chunks_exact(4)
        .map(|packet| packet[0])
        .take_while(|&first| kind(first) == 5);
    leading
        .into_iter()
        .all(|first| !matches!(status(first), 1 | 2) || count(first) == 14)
}

/// Packing of full packets and an empty end, unless an uneven packet behind makes the original pack.
fn d4(input: &Input) -> bool {
    if input.kind != Kind::Pack || !valid(input) {
        return false;
    }
    let (message, last) = (input.message(), input.length() - 4);
    message.len() >= 8 && others_full(message) && count(message[last]) == 1 && packed(&input.words)
}

/// Lent words too few for the result.
fn d5(input: &Input) -> bool {
    let lent = matches!(input.kind, Kind::SpliceLent | Kind::PayloadLent);
    lent && valid(input) && in_range(input) && 4 * packets(input).1 > input.words.len()
}

/// The number of leading packets of the shape's type, the cut-off one counted, and of all packets.
pub fn leading(shape: &Shape, message: &[u32]) -> (usize, usize) {
    let all = message.len().div_ceil(shape.words);
    let other = shape
        .firsts(message)
        .position(|first| kind(first) != shape.kind);
    (other.unwrap_or(all), all)
}

/// Whether the packets before the first of another type are whole and a valid message.
fn prefix_valid(shape: &Shape, message: &[u32]) -> bool {
    let prefix = leading(shape, message).0 * shape.words;
    prefix <= message.len() && model::check(shape, &message[..prefix], prefix as u64).is_ok()
}

/// Whether every whole packet has a fit count.
fn counts_fit(shape: &Shape, message: &[u32]) -> bool {
    message
        .chunks_exact(shape.words)
        .all(|packet| shape.fits(packet[0]))
}

/// The message of a check that has a packet or more, and whether its packets are whole.
fn checked(input: &Input) -> Option<(&'static Shape, &[u32], bool)> {
    let shape = model::shape_of(input.kind);
    let message = input.message();
    let is_check = matches!(input.kind, Kind::Check8 | Kind::Check7);
    let whole = message.len() % shape.words == 0;
    (is_check && message.len() >= shape.words).then_some((shape, message, whole))
}

/// Ragged, all of the type, the statuses in order, and the whole packets in order otherwise.
fn taken_ragged(shape: &Shape, message: &[u32]) -> bool {
    let (leading, all) = leading(shape, message);
    let whole = message.len() / shape.words * shape.words;
    let statuses = shape
        .firsts(message)
        .enumerate()
        .all(|(packet, first)| status(first) == Shape::status_at(packet, all));
    let one = |part: fn(u32) -> u32| {
        shape
            .firsts(&message[..whole])
            .all(|first| part(first) == part(message[0]))
    };
    leading == all
        && statuses
        && counts_fit(shape, message)
        && one(group)
        && (!shape.has_id || one(stream_id))
}

/// The kinds of D6, by letter, for a check of either shape.
fn d6(input: &Input) -> Option<char> {
    let (shape, message, whole) = checked(input)?;
    let (leading, all) = leading(shape, message);
    let prefix = prefix_valid(shape, message);
    match whole {
        false if taken_ragged(shape, message) => Some('a'),
        false if leading < all && leading > 0 && prefix && counts_fit(shape, message) => Some('b'),
        false => Some('f'),
        true if leading == 0 || leading == all => None,
        true if !prefix => Some('d'),
        true if counts_fit(shape, message) => Some('c'),
        true => Some('e'),
    }
}

/// Whether D6 shows in a SysEx8 check, by letter.
fn d6_is(input: &Input, letter: char) -> bool {
    input.kind == Kind::Check8 && d6(input) == Some(letter)
}

/// Ragged and taken.
fn d6a(input: &Input) -> bool {
    d6_is(input, 'a')
}

/// Ragged, the rest passed over.
fn d6b(input: &Input) -> bool {
    d6_is(input, 'b')
}

/// Whole, ended by another type.
fn d6c(input: &Input) -> bool {
    d6_is(input, 'c')
}

/// Whole, another type behind what is no message.
fn d6d(input: &Input) -> bool {
    d6_is(input, 'd')
}

/// Whole, another type with an unfit count behind a message.
fn d6e(input: &Input) -> bool {
    d6_is(input, 'e')
}

/// Ragged otherwise.
fn d6f(input: &Input) -> bool {
    d6_is(input, 'f')
}

/// The steps of a SysEx8 or SysEx7 packet, if it is one of fit count: letter, number, bytes remaining before it and
/// whether it answered a byte.
fn walk(input: &Input, kind: Kind) -> Vec<(u8, u64, u64, bool)> {
    if input.kind != kind {
        return Vec::new();
    }
    let answer = model::answer(input);
    let numbers = if kind == Kind::Reader {
        &input.numbers[1..]
    } else {
        &input.numbers[..]
    };
    let mut remaining = match (kind, answer.refusal) {
        (_, 1..) => return Vec::new(),
        (Kind::Reader, _) => size(input.message()) as u64,
        _ => model::single(model::shape_of(kind), &input.words).map_or(0, |(_, size)| size as u64),
    };
    let mut steps = Vec::new();
    for ((&letter, &number), value) in input.bytes.iter().zip(numbers).zip(answer.values.chunks(2))
    {
        steps.push((letter, number, remaining, value[0] != ENDED));
        remaining = value[1];
    }
    steps
}

/// A step after an nth that answered a byte: the bytes remaining are asked after every nth.
fn d7a(input: &Input) -> bool {
    walk(input, Kind::Steps8)
        .iter()
        .any(|step| step.0 == b't' && step.3)
}

/// An nth after an nth that answered "ended".
fn d7b(input: &Input) -> bool {
    let steps = walk(input, Kind::Reader);
    let ended = steps.iter().position(|step| step.0 == b't' && !step.3);
    ended.is_some_and(|first| steps[first + 1..].iter().any(|step| step.0 == b't'))
}

/// A single SysEx8 packet of status 0 to 3 with a count.
fn single_of_count(input: &Input, wanted: u32) -> bool {
    let single = matches!(
        input.kind,
        Kind::Packet8 | Kind::Steps8 | Kind::PacketGroup8
    );
    let words = &input.words;
    single
        && words.len() >= 4
        && kind(words[0]) == 5
        && status(words[0]) <= 3
        && count(words[0]) == wanted
}

/// Count 0.
fn d8a(input: &Input) -> bool {
    single_of_count(input, 0)
}

/// Whether a packet is an end of zeros.
fn blank_end(words: &[u32]) -> bool {
    status(words[0]) == 3 && model::is_blank(words)
}

/// Count 15, but for the unexpected end.
fn d8b(input: &Input) -> bool {
    single_of_count(input, 15) && !blank_end(&input.words)
}

/// A byte index out of range.
fn byte_out(input: &Input) -> bool {
    input.kind == Kind::SetByte && valid(input) && input.numbers[1] >= size(input.message()) as u64
}

/// A byte index out of range, nothing behind the message.
fn d8c(input: &Input) -> bool {
    byte_out(input) && input.behind().is_empty()
}

/// From above to.
fn d8d(input: &Input) -> bool {
    input.kind.is_splice() && valid(input) && input.numbers[1] > input.numbers[2]
}

/// A start or continue packet with another count than 14 from packet `from` on, with none but type 5 up to it.
fn uneven_from(words: &[u32], from: usize) -> bool {
    !packed(words.get(4 * from..).unwrap_or(&[]))
}

/// A growing buffer spliced by no more bytes than the range has, and an uneven continue packet past the packets that
/// the old payload needs.
fn d9a(input: &Input) -> bool {
    if input.kind != Kind::SpliceGrowing || !valid(input) || !in_range(input) {
        return false;
    }
    let range = input.numbers[2] - input.numbers[1];
    input.bytes.len() as u64 <= range && uneven_from(input.message(), old_packets(input))
}

/// The packets that the old payload needs.
fn old_packets(input: &Input) -> usize {
    SYSEX8.packets_for(size(input.message()))
}

/// Lent words, and an uneven packet past the packets that the old payload needs; past those of the result, if the
/// payload grows or is set.
fn d9b(input: &Input) -> bool {
    let lent = matches!(input.kind, Kind::SpliceLent | Kind::PayloadLent);
    if !lent || !valid(input) || !in_range(input) {
        return false;
    }
    let grows =
        input.kind.is_payload() || input.bytes.len() as u64 > input.numbers[2] - input.numbers[1];
    let first = if grows {
        packets(input).1
    } else {
        old_packets(input)
    };
    uneven_from(&input.words, first)
}

/// A payload of 14 bytes or more set on a growing buffer, and an id that is not 0.
fn d10(input: &Input) -> bool {
    input.kind == Kind::PayloadGrowing
        && valid(input)
        && input.bytes.len() >= 14
        && stream_id(input.words[0]) != 0
}

/// The unexpected end of count 15.
fn d11(input: &Input) -> bool {
    input.kind != Kind::PacketGroup8 && single_of_count(input, 15) && blank_end(&input.words)
}

/// Bytes remaining after an nth above them; for SysEx7 a packet of less than 6 bytes.
fn d12(input: &Input) -> bool {
    let past = |kind| {
        walk(input, kind)
            .iter()
            .any(|step| step.0 == b't' && step.1 > step.2)
    };
    past(Kind::Steps8) || past(Kind::Steps7) && count(input.words[0]) < 6
}

/// Bytes passed plus the number reach 2^64.
fn d13(input: &Input) -> bool {
    let shape = model::shape_of(input.kind);
    let over = |kind| {
        walk(input, kind).iter().any(|step| {
            let passed = shape.size(input.words[0]) as u64 - step.2;
            step.0 == b't' && passed.checked_add(step.1).is_none()
        })
    };
    over(Kind::Steps8) || over(Kind::Steps7)
}

/// Packing of full packets whose last has an unused octet that is not zero.
fn d14(input: &Input) -> bool {
    if input.kind != Kind::Pack || !valid(input) || !others_full(input.message()) {
        return false;
    }
    let packet = &input.message()[input.length() - 4..];
    (SYSEX8.size(packet[0])..13).any(|index| SYSEX8.byte(packet, index) != 0)
}

/// To above the payload size, from not above to.
fn d15(input: &Input) -> bool {
    input.kind.is_splice()
        && valid(input)
        && input.numbers[1] <= input.numbers[2]
        && !in_range(input)
}

/// An nth at or past the bytes remaining, and a packet's words behind the message.
fn d16(input: &Input) -> bool {
    input.kind == Kind::Reader
        && input.behind().len() >= 4
        && walk(input, Kind::Reader)
            .iter()
            .any(|step| step.0 == b't' && step.1 >= step.2)
}

/// A whole packet of type 5 directly behind the message.
fn d17(input: &Input) -> bool {
    let setter = matches!(input.kind, Kind::SetGroup | Kind::SetStreamId);
    setter && valid(input) && input.behind().len() >= 4 && kind(input.behind()[0]) == 5
}

/// A byte index out of range, words behind the message.
fn d18(input: &Input) -> bool {
    byte_out(input) && !input.behind().is_empty()
}

/// A rewrite in place that ends with fewer packets.
fn d19(input: &Input) -> bool {
    if !input.kind.rewrites() || input.kind.is_growing() || !valid(input) || !in_range(input) {
        return false;
    }
    let (before, after) = packets(input);
    after < before
}

/// More than 16,384 words lent.
fn d20(input: &Input) -> bool {
    input.words.len() > MOST_WORDS && (input.kind.on_message() || input.kind == Kind::Check7)
}

/// A field index too big.
fn d21(input: &Input) -> bool {
    match input.kind {
        Kind::Read(field) | Kind::Set(field) => input.numbers[0] >= field.indexes(),
        _ => false,
    }
}

/// A field value or group too big.
fn d22(input: &Input) -> bool {
    match input.kind {
        Kind::Set(field) => input.numbers[1] > field.most(),
        Kind::PacketGroup8 | Kind::PacketGroup7 => input.numbers[0] > 15,
        Kind::SetGroup => input.numbers[1] > 15,
        _ => false,
    }
}

/// D6 for SysEx7.
fn s1(input: &Input) -> bool {
    input.kind == Kind::Check7 && d6(input).is_some()
}

/// The bytes of a stream before its first F7, if it begins with F0.
pub fn framed(bytes: &[u8]) -> Option<&[u8]> {
    match (bytes.first(), bytes.iter().position(|&byte| byte == 0xF7)) {
        (Some(0xF0), Some(end)) => Some(&bytes[1..end]),
        _ => None,
    }
}

/// A byte out of a range before the first F7.
fn has_framed(input: &Input, range: RangeInclusive<u8>) -> bool {
    input.kind == Kind::Stream
        && framed(&input.bytes).is_some_and(|data| data.iter().any(|byte| range.contains(byte)))
}

/// A byte above 7F before the first F7 that is no real-time byte.
fn s3(input: &Input) -> bool {
    has_framed(input, 0x80..=0xF6)
}

/// Bytes behind the first F7.
fn s4(input: &Input) -> bool {
    input.kind == Kind::Stream
        && framed(&input.bytes).is_some_and(|data| data.len() + 2 < input.bytes.len())
}

/// No F0 at the front or no F7 at all.
fn s5(input: &Input) -> bool {
    input.kind == Kind::Stream && (input.bytes.len() < 2 || framed(&input.bytes).is_none())
}

/// A real-time byte before the first F7.
fn s6(input: &Input) -> bool {
    has_framed(input, 0xF8..=0xFF)
}
