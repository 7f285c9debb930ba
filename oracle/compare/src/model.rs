//! The rules of 01, with what 02 changed of them, stated once more and plainly: what ours must answer for every input. It is a
//! third opinion; it shares no text with either side.
use crate::answers::{Field, Input, Kind, Ours, ENDED};
use crate::layout::*;

/// A refusal: number and place.
pub type Refusal = (u8, u64);

/// What 01 demands for an input.
pub fn answer(input: &Input) -> Ours {
    match input.kind {
        Kind::Read(field) => read_field(field, input),
        Kind::Set(field) => set_field(field, input),
        Kind::Packet8 | Kind::Packet7 => packet(input),
        Kind::Steps8 | Kind::Steps7 => packet_steps(input),
        Kind::PacketGroup8 | Kind::PacketGroup7 => packet_group(input),
        Kind::Check8 | Kind::Check7 => check_message(input),
        Kind::Reader => reader(input),
        Kind::SetGroup | Kind::SetStreamId | Kind::SetByte => set_on_message(input),
        Kind::Stream => stream(input),
        Kind::Needed => Ours::values(vec![SYSEX8.words_for(input.numbers[0] as usize) as u64]),
        Kind::Origin => origin(input),
        Kind::LookRun => look_run(input),
        Kind::LookByte => look_byte(input),
        Kind::LookMessage => look_message(input),
        Kind::Carries => carries(input),
        _ => rewrite(input),
    }
}

/// The shape that a kind is about.
pub fn shape_of(kind: Kind) -> &'static Shape {
    match kind {
        Kind::Packet7 | Kind::Steps7 | Kind::PacketGroup7 | Kind::Check7 => &SYSEX7,
        _ => &SYSEX8,
    }
}

/// Reading a field.
fn read_field(field: Field, input: &Input) -> Ours {
    let index = input.numbers[0];
    if index >= field.indexes() {
        return Ours::refused(16, 0, &[]);
    }
    Ours::values(vec![
        u64::from(input.words[0]) >> field.shift(index) & field.most(),
    ])
}

/// Setting a field.
fn set_field(field: Field, input: &Input) -> Ours {
    let (index, value) = (input.numbers[0], input.numbers[1]);
    if index >= field.indexes() || value > field.most() {
        return Ours::refused(16, 0, &[]);
    }
    let shift = field.shift(index);
    let kept = u64::from(input.words[0]) & !(field.most() << shift);
    Ours::values(vec![kept | value << shift])
}

/// Whether a SysEx8 packet has zeros from octet 3 on.
pub fn is_blank(packet: &[u32]) -> bool {
    packet[0] & 0xFF == 0 && packet[1..4] == [0, 0, 0]
}

/// The kind and size of a single packet, or why it is refused.
pub fn single(shape: &Shape, words: &[u32]) -> Result<(u64, usize), u8> {
    if words.len() < shape.words {
        return Err(3);
    }
    let first = words[0];
    if kind(first) != shape.kind {
        return Err(5);
    }
    let bad_status = status(first) > 3;
    if !shape.has_id {
        return match (shape.fits(first), bad_status) {
            (false, _) => Err(10),
            (_, true) => Err(15),
            _ => Ok((status(first).into(), shape.size(first))),
        };
    }
    let blank_end = status(first) == 3 && is_blank(words);
    match (bad_status, blank_end, count(first)) {
        (true, ..) => Err(15),
        (_, true, 1) => Ok((4, 0)),
        (_, true, 15) => Ok((5, 0)),
        (_, _, 0 | 15) => Err(10),
        _ => Ok((status(first).into(), shape.size(first))),
    }
}

/// The payload of a single packet of a size.
fn single_payload(shape: &Shape, words: &[u32], size: usize) -> Vec<u8> {
    (0..size).map(|index| shape.byte(words, index)).collect()
}

/// Reading a single packet.
fn packet(input: &Input) -> Ours {
    let shape = shape_of(input.kind);
    match single(shape, &input.words) {
        Err(number) => Ours::refused(number, 0, &[]),
        Ok((kind, size)) => {
            let first = input.words[0];
            let id = if shape.has_id { stream_id(first) } else { 0 };
            let mut values = vec![kind, group(first).into(), id.into(), size as u64];
            values.extend(
                single_payload(shape, &input.words, size)
                    .into_iter()
                    .map(u64::from),
            );
            Ours::values(values)
        }
    }
}

/// Setting the group of a single packet.
fn packet_group(input: &Input) -> Ours {
    let number = match single(shape_of(input.kind), &input.words) {
        Err(number) => number,
        Ok(_) if input.numbers[0] > 15 => 16,
        Ok(_) => 0,
    };
    if number != 0 {
        return Ours::refused(number, 0, &input.words);
    }
    let mut words = input.words.clone();
    words[0] = words[0] & 0xF0FF_FFFF | (input.numbers[0] as u32) << 24;
    written(as_values(&words), 0, words)
}

/// An accepted answer of a call that writes.
fn written(values: Vec<u64>, growth: i64, words: Vec<u32>) -> Ours {
    Ours {
        values,
        growth,
        words,
        ..Ours::default()
    }
}

/// The bytes and bytes remaining that steps over a payload answer, by Rust's documentation of Iterator.
pub fn steps(payload: &[u8], letters: &[u8], numbers: &[u64]) -> Vec<u64> {
    let mut rest = payload.iter();
    let mut values = Vec::new();
    for (letter, &number) in letters.iter().zip(numbers) {
        let skip = if *letter == b'n' { 0 } else { number as usize };
        values.push(rest.nth(skip).map_or(ENDED, |&byte| byte.into()));
        values.push(rest.len() as u64);
    }
    values
}

/// Steps over a single packet.
fn packet_steps(input: &Input) -> Ours {
    let shape = shape_of(input.kind);
    match single(shape, &input.words) {
        Err(number) => Ours::refused(number, 0, &[]),
        Ok((_, size)) => {
            let payload = single_payload(shape, &input.words, size);
            Ours::values(steps(&payload, &input.bytes, &input.numbers))
        }
    }
}

/// The number of the first packet whose first word is at fault, as a refusal.
fn first_fault(
    shape: &Shape,
    message: &[u32],
    number: u8,
    fault: impl Fn(u32) -> bool,
) -> Result<(), Refusal> {
    match shape.firsts(message).position(fault) {
        Some(packet) => Err((number, (packet * shape.words) as u64)),
        None => Ok(()),
    }
}

/// The walk over the statuses, numbers 6 to 9.
fn check_statuses(shape: &Shape, message: &[u32]) -> Result<(), Refusal> {
    let packets = message.len() / shape.words;
    for (packet, first) in shape.firsts(message).enumerate() {
        let wanted = Shape::status_at(packet, packets);
        if status(first) != wanted {
            return Err(([6, 7, 8, 9][wanted as usize], (packet * shape.words) as u64));
        }
    }
    Ok(())
}

/// The message check, numbers 1 to 12.
pub fn check(shape: &Shape, words: &[u32], length: u64) -> Result<(), Refusal> {
    if words.len() > MOST_WORDS {
        return Err((1, 0));
    }
    if length > words.len() as u64 {
        return Err((2, 0));
    }
    let message = &words[..length as usize];
    if message.len() < shape.words {
        return Err((3, 0));
    }
    if message.len() % shape.words != 0 {
        return Err((4, 0));
    }
    let head = message[0];
    first_fault(shape, message, 5, |first| kind(first) != shape.kind)?;
    check_statuses(shape, message)?;
    first_fault(shape, message, 10, |first| !shape.fits(first))?;
    first_fault(shape, message, 11, |first| group(first) != group(head))?;
    if shape.has_id {
        first_fault(shape, message, 12, |first| {
            stream_id(first) != stream_id(head)
        })?;
    }
    Ok(())
}

/// Checking a message and reading it out.
fn check_message(input: &Input) -> Ours {
    let shape = shape_of(input.kind);
    if let Err((number, place)) = check(shape, &input.words, input.numbers[0]) {
        return Ours::refused(number, place, &[]);
    }
    Ours::values(summary(shape, input.message()))
}

/// Group, id, payload size, words and payload of a valid message.
pub fn summary(shape: &Shape, message: &[u32]) -> Vec<u64> {
    let payload = shape.payload(message);
    let id = if shape.has_id {
        stream_id(message[0])
    } else {
        0
    };
    let mut values = vec![
        group(message[0]).into(),
        id.into(),
        payload.len() as u64,
        message.len() as u64,
    ];
    values.extend(payload.into_iter().map(u64::from));
    values
}

/// Opening a reader and making steps.
fn reader(input: &Input) -> Ours {
    if let Err((number, place)) = check(&SYSEX8, &input.words, input.numbers[0]) {
        return Ours::refused(number, place, &[]);
    }
    let payload = SYSEX8.payload(input.message());
    Ours::values(steps(&payload, &input.bytes, &input.numbers[1..]))
}

/// Where payload byte `index` of a valid message stands: first word of its packet, and index in the packet.
pub fn find_byte(message: &[u32], index: u64) -> Option<(usize, usize)> {
    let mut left = index;
    for (packet, first) in SYSEX8.firsts(message).enumerate() {
        let size = SYSEX8.size(first) as u64;
        if left < size {
            return Some((4 * packet, left as usize));
        }
        left -= size;
    }
    None
}

/// Setting group, stream id or one byte of a message.
fn set_on_message(input: &Input) -> Ours {
    if let Err((number, place)) = check(&SYSEX8, &input.words, input.numbers[0]) {
        return Ours::refused(number, place, &input.words);
    }
    let mut words = input.words.clone();
    let value = input.numbers[1];
    match input.kind {
        Kind::SetGroup if value > 15 => return Ours::refused(16, 0, &words),
        Kind::SetByte => match find_byte(input.message(), value) {
            None => return Ours::refused(13, 0, &words),
            Some((at, index)) => SYSEX8.put(&mut words, at, index, input.numbers[2] as u8),
        },
        kind => {
            let (mask, shift) = if kind == Kind::SetGroup {
                (15, 24)
            } else {
                (255, 8)
            };
            for first in words[..input.length()].iter_mut().step_by(4) {
                *first = *first & !(mask << shift) | (value as u32) << shift;
            }
        }
    }
    written(as_values(&words), 0, words)
}

/// Packing, splice and setting the payload.
fn rewrite(input: &Input) -> Ours {
    if let Err((number, place)) = check(&SYSEX8, &input.words, input.numbers[0]) {
        return Ours::refused(number, place, &input.words);
    }
    let message = input.message();
    let mut payload = SYSEX8.payload(message);
    let size = payload.len() as u64;
    let (from, to) = match input.kind {
        kind if kind.is_splice() => (input.numbers[1], input.numbers[2]),
        kind if kind.is_payload() => (0, size),
        _ => (0, 0),
    };
    if from > to || to > size {
        return Ours::refused(13, 0, &input.words);
    }
    let growth = input.bytes.len() as i64 - (to - from) as i64;
    // Packing has no room to ask for (T-12): the slice below would fail if it needed more words than the message has.
    let packs = input.kind == Kind::Pack;
    if !packs && SYSEX8.words_for((size as i64 + growth) as usize) > input.words.len() {
        return Ours::refused(14, 0, &input.words);
    }
    payload.splice(from as usize..to as usize, input.bytes.iter().copied());
    let mut words = SYSEX8.fewest_form(group(message[0]), stream_id(message[0]), &payload);
    let values = compared(&words);
    words.resize(words.len().max(message.len()), 0);
    words.extend_from_slice(&input.words[words.len()..]);
    written(values, growth, words)
}

/// An edit: from, to and replacement length.
type Edit = [u64; 3];

/// Where an octet comes from: kind, number and index.
type Origin = [u64; 3];

/// The edits of a list for a payload of a size, with so many bytes; or the number of the refusal.
fn edits_of(numbers: &[u64], size: u64, bytes: usize) -> Result<Vec<Edit>, u8> {
    let edits: Vec<Edit> = numbers
        .chunks_exact(3)
        .map(|edit| [edit[0], edit[1], edit[2]])
        .collect();
    let bad = |&[from, to, length]: &Edit| from > to || to > size || to.max(length) > MOST_BYTES;
    let lengths = edits.iter().map(|edit| u128::from(edit[2])).sum::<u128>();
    if numbers.len() % 3 != 0 || edits.iter().any(bad) || lengths != bytes as u128 {
        return Err(13);
    }
    match edits.windows(2).any(|pair| pair[0][1] > pair[1][0]) {
        true => Err(20),
        false => Ok(edits),
    }
}

/// The origins of all octets lent: the bytes of the old payload and of the edits as tags, spliced and then framed.
fn origins(size: u64, edits: &[Edit], old_words: usize, words_lent: usize) -> Vec<Origin> {
    let mut tags: Vec<Origin> = (0..size).map(|byte| [1, 0, byte]).collect();
    for (number, &[from, to, length]) in edits.iter().enumerate().rev() {
        let replacement = (0..length).map(|byte| [2, number as u64, byte]);
        tags.splice(from as usize..to as usize, replacement);
    }
    let packets = SYSEX8.packets_for(tags.len());
    let mut octets = Vec::new();
    let mut tags = tags.into_iter();
    for packet in 0..packets {
        octets.extend((0..3).map(|octet| [0, packet as u64, octet]));
        octets.extend(tags.by_ref().take(13));
        octets.resize(16 * (packet + 1), [3, 0, 0]);
    }
    octets.resize(octets.len().max(4 * old_words), [4, 0, 0]);
    octets.resize(4 * words_lent, [5, 0, 0]);
    octets
}

/// An octet of words.
fn octet(words: &[u32], place: usize) -> u8 {
    words[place / 4].to_be_bytes()[place % 4]
}

/// The words after all edits, each octet by its origin alone. Group and id are the old message's.
fn by_origin(input: &Input, payload: &[u8], edits: &[Edit], origins: &[Origin]) -> Vec<u32> {
    let head = input.words[0];
    let carried = origins.iter().filter(|origin| matches!(origin[0], 1 | 2));
    let blank = SYSEX8.fewest_form(group(head), stream_id(head), &vec![0; carried.count()]);
    let start = |edit: u64| {
        edits[..edit as usize]
            .iter()
            .map(|edit| edit[2])
            .sum::<u64>()
    };
    let octets: Vec<u8> = origins
        .iter()
        .enumerate()
        .map(|(place, &[kind, number, index])| match kind {
            0 => octet(&blank, (16 * number + index) as usize),
            1 => payload[index as usize],
            2 => input.bytes[(start(number) + index) as usize],
            3 | 4 => 0,
            _ => octet(&input.words, place),
        })
        .collect();
    let four = |four: &[u8]| u32::from_be_bytes([four[0], four[1], four[2], four[3]]);
    octets.chunks_exact(4).map(four).collect()
}

/// The origin of an octet; with it the refusal, place, length and growth of all edits at once, and the words after them.
fn origin(input: &Input) -> Ours {
    let refused = |(number, place): Refusal| Ours {
        values: vec![0, 0, 0, number.into(), place, 0],
        ..Ours::refused(number, place, &input.words)
    };
    if let Err(refusal) = check(&SYSEX8, &input.words, input.numbers[0]) {
        return refused(refusal);
    }
    let payload = SYSEX8.payload(input.message());
    let (old, lent) = (payload.len() as u64, input.words.len());
    let edits = match edits_of(&input.numbers[2..], old, input.bytes.len()) {
        Err(number) => return refused((number, 0)),
        Ok(edits) => edits,
    };
    let new =
        old + input.bytes.len() as u64 - edits.iter().map(|edit| edit[1] - edit[0]).sum::<u64>();
    let needed = SYSEX8.words_for(new as usize);
    if needed > lent {
        return refused((14, 0));
    }
    let origins = origins(old, &edits, input.length(), lent);
    let place = usize::try_from(input.numbers[1]).unwrap_or(usize::MAX);
    let (number, [kind, part, index]) = match origins.get(place) {
        Some(&origin) => (0, origin),
        None => (13, [0, 0, 0]),
    };
    let values = vec![kind, part, index, 0, 0, needed as u64];
    let words = by_origin(input, &payload, &edits, &origins);
    Ours {
        refusal: number,
        ..written(values, new as i64 - old as i64, words)
    }
}

/// A run of a payload with one edit, by sizes alone: source, start and end. The result is three parts end to end: the payload up
/// to the edit, the replacement, and the payload behind the edit. The run is what is left of the part that the position is in.
fn look_run(input: &Input) -> Ours {
    let number = |index: usize| input.numbers[index];
    let [size, from, to, length] = [0, 1, 2, 3].map(number);
    let refused = Ours {
        values: vec![0, 0, 0],
        ..Ours::refused(13, 0, &[])
    };
    if from > to || to > size || to.max(length) > MOST_BYTES {
        return refused;
    }
    let mut before = 0_u128;
    for (source, (start, end)) in [(0, from), (0, length), (to, size)].into_iter().enumerate() {
        let into = u128::from(number(4)) - before;
        if into < u128::from(end - start) {
            return Ours::values(vec![source as u64, start + into as u64, end]);
        }
        before += u128::from(end - start);
    }
    refused
}

/// The byte at a position of a payload with all edits of a list, which are spliced from the last to the first.
fn edited_byte(payload: &[u8], numbers: &[u64], bytes: &[u8], position: u64) -> Ours {
    let refused = |number: u8| Ours {
        values: vec![0],
        ..Ours::refused(number, 0, &[])
    };
    let edits = match edits_of(numbers, payload.len() as u64, bytes.len()) {
        Err(number) => return refused(number),
        Ok(edits) => edits,
    };
    let (mut payload, mut rest) = (payload.to_vec(), bytes);
    for &[from, to, length] in edits.iter().rev() {
        let (others, own) = rest.split_at(rest.len() - length as usize);
        payload.splice(from as usize..to as usize, own.iter().copied());
        rest = others;
    }
    let place = usize::try_from(position).unwrap_or(usize::MAX);
    match payload.get(place) {
        Some(&byte) => Ours::values(vec![byte.into()]),
        None => refused(13),
    }
}

/// A byte of an edited payload, whose bytes stand before those of the edits.
fn look_byte(input: &Input) -> Ours {
    let (payload, bytes) = input.bytes.split_at(input.numbers[0] as usize);
    edited_byte(payload, &input.numbers[2..], bytes, input.numbers[1])
}

/// A byte of an edited message.
fn look_message(input: &Input) -> Ours {
    if let Err((number, place)) = check(&SYSEX8, &input.words, input.numbers[0]) {
        return Ours {
            values: vec![0],
            ..Ours::refused(number, place, &[])
        };
    }
    let payload = SYSEX8.payload(input.message());
    edited_byte(
        &payload,
        &input.numbers[2..],
        &input.bytes,
        input.numbers[1],
    )
}

/// Whether a message carries a payload, with a group and a stream id: the bytes of its packets, one after the other, are compared. The
/// place of one that differs is that of its packet. Nothing is written.
fn carries(input: &Input) -> Ours {
    let refused = |(number, place): Refusal| Ours {
        values: vec![0],
        ..Ours::refused(number, place, &input.words)
    };
    if let Err(refusal) = check(&SYSEX8, &input.words, input.numbers[0]) {
        return refused(refusal);
    }
    if input.numbers[1] > 15 {
        return refused((16, 0));
    }
    let message = input.message();
    let named = [group(message[0]), stream_id(message[0])].map(u64::from);
    if input.numbers[1..] != named {
        return refused((26, 0));
    }
    let carried = SYSEX8.payload(message);
    if carried == input.bytes {
        return written(vec![0], 0, input.words.clone());
    }
    let differs = |&index: &usize| carried[index] != input.bytes[index];
    let place = match (0..carried.len().min(input.bytes.len())).find(differs) {
        Some(index) => find_byte(message, index as u64).map_or(0, |(at, _)| at),
        None => 0,
    };
    refused((26, place as u64))
}

/// Byte stream to SysEx7. Between F0 and F7 a real-time byte, F8 to FF, is passed over, and one of 80 to F7 is refused;
/// places count all bytes. The number is the group.
fn stream(input: &Input) -> Ours {
    let (bytes, lent) = (&input.bytes, &input.words);
    let number = match bytes.as_slice() {
        _ if lent.len() > MOST_WORDS => 1,
        _ if input.numbers[0] > 15 => 16,
        [0xF0, .., 0xF7] => 0,
        _ => 17,
    };
    if number != 0 {
        return Ours::refused(number, 0, lent);
    }
    let inner = &bytes[1..bytes.len() - 1];
    let bad = |byte: &u8| (0x80..=0xF7).contains(byte);
    if let Some(index) = inner.iter().position(bad) {
        return Ours::refused(18, index as u64 + 1, lent);
    }
    let data: Vec<u8> = inner.iter().copied().filter(|&byte| byte < 0x80).collect();
    let packets = SYSEX7.fewest_form(input.numbers[0] as u32, 0, &data);
    if packets.len() > lent.len() {
        return Ours::refused(14, 0, lent);
    }
    let mut words = packets.clone();
    words.extend_from_slice(&lent[packets.len()..]);
    written(as_values(&packets), 0, words)
}
