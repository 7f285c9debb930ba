//! The original, called on the same inputs.
use crate::answers::{End, Field, Input, Kind, Theirs, ENDED, OTHER};
use crate::layout::as_values;
use midi2::inside::{self, BitOps};
use midi2::sysex7::{self, Sysex7};
use midi2::sysex8::{self, Sysex8};
use midi2::ux::{u2, u4, u7};
use midi2::{FromBytes, Grouped, Sysex};
use std::panic::{catch_unwind, set_hook, take_hook, AssertUnwindSafe};
use std::sync::atomic::{AtomicBool, Ordering::Relaxed};

/// Whether a call of the original is running, whose panic is an answer and is not printed.
static ASKING: AtomicBool = AtomicBool::new(false);

/// Keeps the original's panics from being printed. Ours are.
pub fn silence() {
    let print = take_hook();
    set_hook(Box::new(move |panic| {
        if !ASKING.load(Relaxed) {
            print(panic);
        }
    }));
}

/// Runs a call of the original; none if it panics.
pub fn caught<T>(run: impl FnOnce() -> T) -> Option<T> {
    let before = ASKING.swap(true, Relaxed);
    let outcome = catch_unwind(AssertUnwindSafe(run));
    ASKING.store(before, Relaxed);
    outcome.ok()
}

/// Runs a call of the original and keeps the values that it gave before it ended or panicked.
fn collect(run: impl FnOnce(&mut Vec<u64>) -> End) -> Theirs {
    let mut values = Vec::new();
    let end = caught(|| run(&mut values)).unwrap_or(End::Panicked);
    Theirs::new(values, end)
}

/// The same for a call that also leaves words.
fn collect_words(words: Vec<u32>, run: impl FnOnce(&mut Vec<u32>, &mut Vec<u64>) -> End) -> Theirs {
    let mut words = words;
    let theirs = collect(|values| run(&mut words, values));
    Theirs { words, ..theirs }
}

/// What the original answers for an input.
pub fn answer(input: &Input) -> Theirs {
    match input.kind {
        Kind::Read(field) => read_field(field, input),
        Kind::Set(field) => set_field(field, input),
        Kind::Packet8 => packet8(input),
        Kind::Packet7 => packet7(input),
        Kind::Steps8 => steps8(input),
        Kind::Steps7 => steps7(input),
        Kind::PacketGroup8 | Kind::PacketGroup7 => packet_group(input),
        Kind::Check8 => check8(input),
        Kind::Check7 => check7(input),
        Kind::Reader => reader(input),
        Kind::SetGroup | Kind::SetStreamId | Kind::SetByte => set_on_message(input),
        Kind::Pack => pack(input),
        Kind::SpliceGrowing | Kind::PayloadGrowing => splice_growing(input),
        Kind::SpliceLent | Kind::PayloadLent => splice_lent(input),
        Kind::Stream => stream(input),
        Kind::Needed => needed(input),
        Kind::Carries => carries(input),
        Kind::Origin | Kind::LookRun | Kind::LookByte | Kind::LookMessage => {
            unreachable!("the original has no such call")
        }
    }
}

/// A field of a word.
pub fn field_of(field: Field, word: u32, index: usize) -> u64 {
    match field {
        Field::Bit => u64::from(word.bit(index)),
        Field::Crumb => u8::from(word.crumb(index)).into(),
        Field::Nibble => u8::from(word.nibble(index)).into(),
        Field::Septet => u8::from(word.septet(index)).into(),
        Field::Octet => word.octet(index).into(),
        Field::Word => word.word(index).into(),
    }
}

/// A word with a field set.
pub fn with_field(field: Field, mut word: u32, index: usize, value: u64) -> u32 {
    match field {
        Field::Bit => word.set_bit(index, value != 0),
        Field::Crumb => word.set_crumb(index, u2::new(value as u8)),
        Field::Nibble => word.set_nibble(index, u4::new(value as u8)),
        Field::Septet => word.set_septet(index, u7::new(value as u8)),
        Field::Octet => word.set_octet(index, value as u8),
        Field::Word => word.set_word(index, value as u16),
    };
    word
}

/// Reading a field.
fn read_field(field: Field, input: &Input) -> Theirs {
    collect(|values| {
        values.push(field_of(field, input.words[0], input.numbers[0] as usize));
        End::Done
    })
}

/// Setting a field.
fn set_field(field: Field, input: &Input) -> Theirs {
    let (word, index, value) = (input.words[0], input.numbers[0] as usize, input.numbers[1]);
    collect(|values| {
        values.push(with_field(field, word, index, value).into());
        End::Done
    })
}

/// The number of a packet's kind. The original's enum can only be printed from outside.
fn kind_number(status: impl std::fmt::Debug) -> u64 {
    match format!("{status:?}").as_str() {
        "Complete" => 0,
        "Start" => 1,
        "Continue" => 2,
        "End" => 3,
        "UnexpectedEnd(Valid)" => 4,
        "UnexpectedEnd(Invalid)" => 5,
        other => unreachable!("status {other}"),
    }
}

/// Reading a single SysEx8 packet.
fn packet8(input: &Input) -> Theirs {
    collect(|values| match sysex8::Packet::try_from(&input.words[..]) {
        Err(error) => End::Refused(error.0),
        Ok(packet) => {
            values.push(kind_number(packet.status()));
            values.push(u8::from(packet.group()).into());
            values.push(packet.stream_id().into());
            values.push(packet.payload().len() as u64);
            let payload: Vec<u8> = packet.payload().collect();
            values.extend(payload.into_iter().map(u64::from));
            End::Done
        }
    })
}

/// Reading a single SysEx7 packet.
fn packet7(input: &Input) -> Theirs {
    collect(|values| match sysex7::Packet::try_from(&input.words[..]) {
        Err(error) => End::Refused(error.0),
        Ok(packet) => {
            values.push(kind_number(packet.status()));
            values.push(u8::from(packet.group()).into());
            values.push(0);
            values.push(packet.payload().len() as u64);
            let payload: Vec<u7> = packet.payload().collect();
            values.extend(payload.into_iter().map(|byte| u64::from(u8::from(byte))));
            End::Done
        }
    })
}

/// The bytes and bytes remaining that steps of an iterator answer.
fn steps<I: ExactSizeIterator>(
    mut bytes: I,
    letters: &[u8],
    numbers: &[u64],
    values: &mut Vec<u64>,
) -> End
where
    u8: From<I::Item>,
{
    for (letter, &number) in letters.iter().zip(numbers) {
        let byte = match letter {
            b'n' => bytes.next(),
            _ => bytes.nth(number as usize),
        };
        values.push(byte.map_or(ENDED, |byte| u8::from(byte).into()));
        values.push(bytes.len() as u64);
    }
    End::Done
}

/// Steps over a single SysEx8 packet.
fn steps8(input: &Input) -> Theirs {
    collect(|values| match sysex8::Packet::try_from(&input.words[..]) {
        Err(error) => End::Refused(error.0),
        Ok(packet) => steps(packet.payload(), &input.bytes, &input.numbers, values),
    })
}

/// Steps over a single SysEx7 packet.
fn steps7(input: &Input) -> Theirs {
    collect(|values| match sysex7::Packet::try_from(&input.words[..]) {
        Err(error) => End::Refused(error.0),
        Ok(packet) => steps(packet.payload(), &input.bytes, &input.numbers, values),
    })
}

/// Sets the group of a packet and copies its words to the front of the words lent.
fn store_group<const N: usize, P>(mut packet: P, group: u64, words: &mut [u32])
where
    P: Grouped<[u32; N]> + std::ops::Deref<Target = [u32]>,
{
    packet.set_group(u4::new(group as u8));
    words[..N].copy_from_slice(&packet);
}

/// Setting the group of a single packet. The original has a copy of the packet's words.
fn packet_group(input: &Input) -> Theirs {
    collect(|values| {
        let (mut words, group) = (input.words.clone(), input.numbers[0]);
        let stored = match input.kind {
            Kind::PacketGroup8 => sysex8::Packet::try_from(&words[..])
                .map(|packet| store_group::<4, _>(packet, group, &mut words)),
            _ => sysex7::Packet::try_from(&words[..])
                .map(|packet| store_group::<2, _>(packet, group, &mut words)),
        };
        match stored {
            Err(error) => End::Refused(error.0),
            Ok(()) => {
                values.extend(as_values(&words));
                End::Done
            }
        }
    })
}

/// All words lent, but only the message's if its packets are not whole: there the end would be looked for behind.
fn read_from(input: &Input, words_per_packet: usize) -> &[u32] {
    match input.length() % words_per_packet {
        0 => &input.words,
        _ => input.message(),
    }
}

/// Checking a message, then reading it with all that stands behind it.
fn check8(input: &Input) -> Theirs {
    collect(|values| {
        if let Err(error) = Sysex8::try_from(input.message()) {
            return End::Refused(error.0);
        }
        let message = inside::sysex8(read_from(input, 4));
        values.push(u8::from(message.group()).into());
        values.push(message.stream_id().into());
        values.push(message.payload_size() as u64);
        values.push(inside::size_of(&message) as u64);
        values.extend(message.payload().map(u64::from));
        End::Done
    })
}

/// The same for SysEx7.
fn check7(input: &Input) -> Theirs {
    collect(|values| {
        if let Err(error) = Sysex7::try_from(input.message()) {
            return End::Refused(error.0);
        }
        let message = inside::sysex7(read_from(input, 2));
        values.push(u8::from(message.group()).into());
        values.push(0);
        values.push(message.payload_size() as u64);
        values.push(inside::size_of7(&message) as u64);
        values.extend(message.payload().map(|byte| u64::from(u8::from(byte))));
        End::Done
    })
}

/// Steps over a message.
fn reader(input: &Input) -> Theirs {
    collect(|values| {
        let message = inside::sysex8(&input.words[..]);
        steps(message.payload(), &input.bytes, &input.numbers[1..], values)
    })
}

/// Setting group, stream id or one byte of a message.
fn set_on_message(input: &Input) -> Theirs {
    let value = input.numbers[1];
    collect(|values| {
        let mut words = input.words.clone();
        let mut message = inside::sysex8(&mut words[..]);
        match input.kind {
            Kind::SetGroup => message.set_group(u4::new(value as u8)),
            Kind::SetStreamId => message.set_stream_id(value as u8),
            _ => message.set_byte(input.numbers[2] as u8, value as usize),
        }
        values.extend(as_values(&words));
        End::Done
    })
}

/// Length, headers and payload of what stands in a buffer. The payload is read from the message's words alone.
fn result(words: &[u32], values: &mut Vec<u64>) {
    let length = inside::size_of(&inside::sysex8(words));
    values.push(length as u64);
    values.extend(
        words[..length]
            .iter()
            .step_by(4)
            .map(|first| u64::from(first >> 8)),
    );
    let payload: Vec<u8> = inside::sysex8(&words[..length]).payload().collect();
    values.extend(payload.into_iter().map(u64::from));
}

/// Packing.
fn pack(input: &Input) -> Theirs {
    collect_words(input.words.clone(), |words, values| {
        inside::compact(&mut inside::sysex8(&mut words[..]));
        result(words, values);
        End::Done
    })
}

/// Splice and setting the payload, on a growing buffer that has the message's words alone.
fn splice_growing(input: &Input) -> Theirs {
    collect_words(Vec::new(), |words, values| {
        let mut message = inside::sysex8(input.message().to_vec());
        let bytes = input.bytes.iter().copied();
        match input.kind.is_payload() {
            true => message.set_payload(bytes),
            false => {
                message.splice_payload(bytes, input.numbers[1] as usize..input.numbers[2] as usize)
            }
        }
        *words = inside::words_of(&message).to_vec();
        result(words, values);
        End::Done
    })
}

/// Splice and setting the payload, on lent words.
fn splice_lent(input: &Input) -> Theirs {
    collect_words(input.words.clone(), |words, values| {
        let mut message = inside::sysex8(&mut words[..]);
        let bytes = input.bytes.iter().copied();
        let done = match input.kind.is_payload() {
            true => message.try_set_payload(bytes),
            false => message
                .try_splice_payload(bytes, input.numbers[1] as usize..input.numbers[2] as usize),
        };
        result(words, values);
        match done {
            Ok(()) => End::Done,
            Err(_) => End::Overflow,
        }
    })
}

/// Whether a message carries a payload. The original has no such call: the message alone is taken, and what it reads of it is compared.
fn carries(input: &Input) -> Theirs {
    collect(|values| match Sysex8::try_from(input.message()) {
        Err(error) => End::Refused(error.0),
        Ok(message) => {
            let named = [u8::from(message.group()), message.stream_id()].map(u64::from);
            if !message.payload().eq(input.bytes.iter().copied()) || input.numbers[1..] != named {
                return End::Refused(OTHER);
            }
            values.push(0);
            End::Done
        }
    })
}

/// Byte stream to SysEx7.
fn stream(input: &Input) -> Theirs {
    collect(|values| match Sysex7::try_from(&input.bytes[..]) {
        Err(error) => End::Refused(error.0),
        Ok(bytes) => {
            let message = Sysex7::<Vec<u32>>::from_bytes(bytes);
            values.extend(as_values(inside::words_of7(&message)));
            End::Done
        }
    })
}

/// The words that a new message takes for a payload of a size.
fn needed(input: &Input) -> Theirs {
    collect(|values| {
        let mut message = Sysex8::<Vec<u32>>::new();
        message.set_payload(std::iter::repeat_n(0, input.numbers[0] as usize));
        values.push(inside::size_of(&message) as u64);
        End::Done
    })
}
