//! What the original must answer for an input: ours where nothing differs, else what the entries of
//! docs/DIFFERENCES.md say.
use crate::answers::{End, Input, Kind, Ours, Theirs, ENDED, OTHER};
use crate::differences::{framed, leading, packed, packets, size};
use crate::layout::*;
use crate::model;

/// What is known of the original's answer.
pub enum Expected {
    /// All of it.
    Exactly(Theirs),
    /// The values that it begins with; the entry leaves the rest open.
    Beginning(Vec<u64>),
}

use Expected::{Beginning, Exactly};

impl Expected {
    /// Whether an answer is as expected.
    pub fn holds(&self, theirs: &Theirs) -> bool {
        match self {
            Exactly(expected) => expected.values == theirs.values && expected.end == theirs.end,
            Beginning(values) => theirs.values.starts_with(values),
        }
    }
}

/// An answer of values alone.
fn done(values: Vec<u64>) -> Expected {
    Exactly(Theirs::new(values, End::Done))
}

/// A panic after some values.
fn panicked(values: Vec<u64>) -> Expected {
    Exactly(Theirs::new(values, End::Panicked))
}

/// What the original must answer where ours answers so.
pub fn expected(input: &Input, ours: &Ours) -> Expected {
    match input.kind {
        Kind::Read(_) | Kind::Set(_) if ours.refusal == 16 => panicked(vec![]),
        Kind::Packet8 => packet8(input, ours),
        Kind::PacketGroup8 | Kind::PacketGroup7 => packet_group(input, ours),
        Kind::Steps8 if ours.refusal == 10 => packet_steps(input),
        Kind::Steps8 | Kind::Steps7 if ours.refusal == 0 => packet_steps(input),
        Kind::Packet7 | Kind::Steps8 | Kind::Steps7 if ours.refusal != 0 => {
            refused(input, ours.refusal)
        }
        Kind::Check8 | Kind::Check7 => check(input),
        Kind::Reader => reader(input),
        Kind::SetGroup | Kind::SetStreamId => set_all(input, ours),
        Kind::SetByte => set_byte(input),
        Kind::Pack if packed(&input.words) => done(compared(input.message())),
        kind if kind.is_splice() || kind.is_payload() => splice(input, ours),
        Kind::Stream => stream(input),
        Kind::Carries if ours.refusal != 0 => refused(input, ours.refusal),
        _ => done(ours.values.clone()),
    }
}

/// The original's text for a refusal number.
pub fn text(shape: &Shape, number: u8) -> &'static str {
    match (number, shape.has_id) {
        (3, _) => "Slice too short",
        (5, _) => "Incorrect ump message type",
        (6, _) => "Expected Complete packet",
        (7, _) => "Expected Begin packet",
        (8, _) => "Expected Continue packet",
        (9, _) => "Expected End packet",
        (10, true) => "Invalid number of payload bytes in packet",
        (10, false) => "Size field can not exceed 6",
        (11, _) => "Inconsistent groups across packets",
        (12, _) => "Inconsistent stream id fields across packets",
        (15, true) => "Invalid SysEx8 status byte",
        (15, false) => "Invalid SysEx7 status byte",
        (26, _) => OTHER,
        _ => "no text",
    }
}

/// A refusal by the text for a number.
fn refused(input: &Input, number: u8) -> Expected {
    Exactly(Theirs::refused(text(model::shape_of(input.kind), number)))
}

/// A single SysEx8 packet: counts 0 and 15 (D8a, D8b, D11) give a size of count minus one, and no payload.
fn packet8(input: &Input, ours: &Ours) -> Expected {
    let unfit = ours.refusal == 10 || ours.values.first() == Some(&5);
    match ours.refusal {
        _ if unfit => {
            let first = input.words[0];
            let kind = ours.values.first().copied().unwrap_or(status(first).into());
            let size = u64::from(count(first)).wrapping_sub(1);
            panicked(vec![
                kind,
                group(first).into(),
                stream_id(first).into(),
                size,
            ])
        }
        0 => done(ours.values.clone()),
        number => refused(input, number),
    }
}

/// The group of a single packet: counts are not looked at (D8a, D8b), a group too big panics (D22).
fn packet_group(input: &Input, ours: &Ours) -> Expected {
    let number = if input.kind == Kind::PacketGroup8 && ours.refusal == 10 {
        0
    } else {
        ours.refusal
    };
    match number {
        0 | 16 if input.numbers[0] > 15 => panicked(vec![]),
        0 => {
            let mut words = input.words.clone();
            words[0] = words[0] & 0xF0FF_FFFF | (input.numbers[0] as u32) << 24;
            done(as_values(&words))
        }
        number => refused(input, number),
    }
}

/// The octet that a packet's reader takes for payload byte `at`; none past the packet's words. The sum wraps.
fn taken(shape: &Shape, words: &[u32], at: u64) -> Option<u64> {
    let octet = at.wrapping_add(shape.head as u64);
    let word = words[..shape.words].get((octet / 4) as usize)?;
    Some(u64::from(word >> (24 - 8 * (octet % 4)) & shape.mask))
}

/// Steps over a packet: a place that nth of SysEx8 leaves on its byte (D7a), that goes past the end (D12; SysEx7 at
/// most to 6) and wraps (D13). The size is the count less one, also for counts 0 and 15 (D8a, D8b, D11), and a byte past
/// the packet's words panics.
fn packet_steps(input: &Input) -> Expected {
    let shape = model::shape_of(input.kind);
    let size = u64::from(count(input.words[0])).wrapping_sub(shape.bias.into());
    let (mut place, mut values) = (0_u64, Vec::new());
    for (letter, &number) in input.bytes.iter().zip(&input.numbers) {
        let skip = if *letter == b'n' { 0 } else { number };
        let at = place.wrapping_add(skip);
        let here = at < size;
        match taken(shape, &input.words, at) {
            _ if !here => values.push(ENDED),
            Some(byte) => values.push(byte),
            None => return panicked(values),
        }
        place = match (*letter, here) {
            (b'n', true) => at + 1,
            (b'n', false) => place,
            (_, true) if shape.has_id => at.min(13),
            (_, true) => at + 1,
            (_, false) if shape.has_id => at,
            (_, false) => at.min(6),
        };
        values.push(size.wrapping_sub(place));
    }
    done(values)
}

/// The original's check: too short, type of the first packet, statuses of the leading packets of the type with
/// the cut-off one, counts of all whole packets, groups and ids of the leading whole ones (D6).
fn check(input: &Input) -> Expected {
    let shape = model::shape_of(input.kind);
    let message = input.message();
    if message.len() < shape.words {
        return refused(input, 3);
    }
    let (leading, _) = leading(shape, message);
    if leading == 0 {
        return refused(input, 5);
    }
    for (packet, first) in shape.firsts(message).take(leading).enumerate() {
        let wanted = Shape::status_at(packet, leading);
        if status(first) != wanted {
            return refused(input, [6, 7, 8, 9][wanted as usize]);
        }
    }
    let whole = message.chunks_exact(shape.words).map(|packet| packet[0]);
    if whole.clone().any(|first| !shape.fits(first)) {
        return refused(input, 10);
    }
    if whole
        .clone()
        .take(leading)
        .any(|first| group(first) != group(message[0]))
    {
        return refused(input, 11);
    }
    if shape.has_id
        && whole
            .clone()
            .take(leading)
            .any(|first| stream_id(first) != stream_id(message[0]))
    {
        return refused(input, 12);
    }
    accepted(shape, message, leading * shape.words)
}

/// What the original reads of a message that it took: the leading packets, or a panic if the last is cut off.
fn accepted(shape: &Shape, message: &[u32], leading: usize) -> Expected {
    if leading > message.len() {
        let id = if shape.has_id {
            stream_id(message[0])
        } else {
            0
        };
        return panicked(vec![group(message[0]).into(), id.into()]);
    }
    done(model::summary(shape, &message[..leading]))
}

/// Steps over a message: nth after an nth that ended panics (D7b); nth past the end reads on in the packets behind,
/// and so do the steps after it, while the bytes remaining wrap (D16). That is left open where a count behind is unfit.
fn reader(input: &Input) -> Expected {
    let packets_behind = input.behind().len() >= 4;
    let fit = input
        .behind()
        .chunks_exact(4)
        .all(|packet| SYSEX8.fits(packet[0]));
    let all = SYSEX8.payload(if fit { &input.words } else { input.message() });
    let size = size(input.message()) as u64;
    let (mut place, mut ended, mut beyond) = (0_u64, false, false);
    let mut values = Vec::new();
    for (letter, &number) in input.bytes.iter().zip(&input.numbers[1..]) {
        let nth = *letter == b't';
        let skip = if nth { number } else { 0 };
        let inside = !beyond && skip < size - place;
        let past = beyond || nth && skip > size - place;
        let at = place.saturating_add(skip);
        match all.get(at as usize) {
            _ if nth && ended => return panicked(values),
            _ if nth && !inside && packets_behind && !fit => return Beginning(values),
            Some(&byte) if inside || past => {
                values.push(byte.into());
                (place, beyond) = (at + 1, past);
            }
            None if beyond && !nth => return panicked(values),
            _ => {
                values.push(ENDED);
                (place, beyond, ended) = (size, false, ended || nth);
            }
        }
        values.push(size.wrapping_sub(place));
    }
    done(values)
}

/// Group and id are set in all leading packets of type 5 (D17), the id in octet 3 (D1).
fn set_all(input: &Input, ours: &Ours) -> Expected {
    if ours.refusal == 16 {
        return panicked(vec![]);
    }
    let mut words = input.words.clone();
    let (mask, shift) = if input.kind == Kind::SetGroup {
        (15, 24)
    } else {
        (255, 0)
    };
    for packet in words
        .chunks_exact_mut(4)
        .take_while(|packet| kind(packet[0]) == 5)
    {
        packet[0] = packet[0] & !(mask << shift) | (input.numbers[1] as u32) << shift;
    }
    done(as_values(&words))
}

/// A byte is looked for in all packets lent, past the message too (D18); a count of 0 is taken for 255 bytes. Where
/// there is none it panics (D8c).
fn set_byte(input: &Input) -> Expected {
    let (mut at, mut index) = (0, input.numbers[1]);
    while let Some(&first) = input.words.get(at) {
        let size = if count(first) == 0 {
            255
        } else {
            u64::from(count(first)) - 1
        };
        if index < size {
            let mut words = input.words.clone();
            if at + (index as usize + 3) / 4 >= words.len() {
                break;
            }
            SYSEX8.put(&mut words, at, index as usize, input.numbers[2] as u8);
            return done(as_values(&words));
        }
        index -= size;
        at += 4;
    }
    panicked(vec![])
}

/// A rewritten message, but the packets gained have the ids that stood there, or none (D2a, D2b, D10).
fn with_old_ids(input: &Input, values: &[u64]) -> Expected {
    let (before, after) = packets(input);
    let kept = if input.kind == Kind::PayloadGrowing {
        1
    } else {
        before
    };
    let mut values = values.to_vec();
    for packet in kept.min(after)..after {
        let there = if input.kind.is_growing() {
            0
        } else {
            stream_id(input.words[4 * packet])
        };
        values[1 + packet] = values[1 + packet] & !0xFF | u64::from(there);
    }
    done(values)
}

/// Splice and setting the payload.
fn splice(input: &Input, ours: &Ours) -> Expected {
    let message = input.message();
    let (group, id) = (group(message[0]), stream_id(message[0]));
    match ours.refusal {
        0 => with_old_ids(input, &ours.values),
        14 => {
            let emptied = compared(&SYSEX8.fewest_form(group, id, &[]));
            Exactly(Theirs::new(emptied, End::Overflow))
        }
        _ => {
            let (from, to) = (input.numbers[1] as usize, input.numbers[2] as usize);
            let old = SYSEX8.payload(message);
            let no_room = !input.kind.is_growing() && 4 * packets(input).1 > input.words.len();
            if from <= to || from > old.len() || no_room {
                return Beginning(vec![]);
            }
            let payload = [&old[..from], &input.bytes, &old[to..]].concat();
            with_old_ids(input, &compared(&SYSEX8.fewest_form(group, id, &payload)))
        }
    }
}

/// Byte stream: the bytes up to the first F7 (S4), a panic at one above 7F (S3, S6), texts of its own (S5).
fn stream(input: &Input) -> Expected {
    let bytes = &input.bytes;
    match framed(bytes) {
        _ if bytes.len() < 2 => refused(input, 3),
        Some(data) if data.iter().any(|&byte| byte > 0x7F) => panicked(vec![]),
        Some(data) => done(as_values(&SYSEX7.fewest_form(0, 0, data))),
        None if bytes[0] != 0xF0 => Exactly(Theirs::refused("Sysex messages should begin 0xF0")),
        None => Exactly(Theirs::refused("Sysex messages should end 0xF7")),
    }
}
