//! Our library, through the calls of include/latchbeacon.h.
use crate::answers::{Field, Input, Kind, Ours, ENDED};
use crate::layout::{as_values, compared};

/// The declarations of include/latchbeacon.h.
mod calls {
    #[repr(C)]
    pub struct Number {
        pub refusal: u8,
        pub place: usize,
        pub value: usize,
    }

    #[repr(C)]
    pub struct Packet {
        pub refusal: u8,
        pub place: usize,
        pub kind: u8,
        pub group: u8,
        pub id: u8,
        pub size: usize,
    }

    #[repr(C)]
    pub struct Message {
        pub refusal: u8,
        pub place: usize,
        pub group: u8,
        pub id: u8,
        pub size: usize,
        pub words: usize,
    }

    #[repr(C)]
    pub struct Change {
        pub refusal: u8,
        pub place: usize,
        pub length: usize,
        pub growth: i64,
    }

    #[repr(C)]
    pub struct Origin {
        pub refusal: u8,
        pub place: usize,
        pub kind: u8,
        pub number: usize,
        pub index: usize,
    }

    #[repr(C)]
    pub struct Run {
        pub refusal: u8,
        pub place: usize,
        pub source: u8,
        pub start: usize,
        pub end: usize,
    }

    #[repr(C)]
    pub struct Cursor {
        pub refusal: u8,
        pub place: usize,
        pub packet: usize,
        pub byte: usize,
        pub remaining: usize,
    }

    #[repr(C)]
    pub struct Read {
        pub ended: bool,
        pub value: u8,
        pub packet: usize,
        pub byte: usize,
        pub remaining: usize,
    }

    type Words = *const u32;
    type WordsOut = *mut u32;
    type Bytes = *const u8;
    type Numbers = *const usize;

    #[rustfmt::skip]
    extern "C" {
        pub fn latchbeacon_bit(word: u32, index: usize) -> Number;
        pub fn latchbeacon_crumb(word: u32, index: usize) -> Number;
        pub fn latchbeacon_nibble(word: u32, index: usize) -> Number;
        pub fn latchbeacon_septet(word: u32, index: usize) -> Number;
        pub fn latchbeacon_octet(word: u32, index: usize) -> Number;
        pub fn latchbeacon_word(word: u32, index: usize) -> Number;
        pub fn latchbeacon_set_bit(word: u32, index: usize, value: bool) -> Number;
        pub fn latchbeacon_set_crumb(word: u32, index: usize, value: u8) -> Number;
        pub fn latchbeacon_set_nibble(word: u32, index: usize, value: u8) -> Number;
        pub fn latchbeacon_set_septet(word: u32, index: usize, value: u8) -> Number;
        pub fn latchbeacon_set_octet(word: u32, index: usize, value: u8) -> Number;
        pub fn latchbeacon_set_word(word: u32, index: usize, value: u16) -> Number;
        pub fn latchbeacon_sysex8_packet(words: Words, lent: usize) -> Packet;
        pub fn latchbeacon_sysex8_packet_byte(words: Words, lent: usize, index: usize) -> Number;
        pub fn latchbeacon_sysex8_packet_set_group(words: WordsOut, lent: usize, group: u8) -> Number;
        pub fn latchbeacon_sysex7_packet(words: Words, lent: usize) -> Packet;
        pub fn latchbeacon_sysex7_packet_byte(words: Words, lent: usize, index: usize) -> Number;
        pub fn latchbeacon_sysex7_packet_set_group(words: WordsOut, lent: usize, group: u8) -> Number;
        pub fn latchbeacon_sysex8_check(words: Words, lent: usize, length: usize) -> Message;
        pub fn latchbeacon_sysex7_check(words: Words, lent: usize, length: usize) -> Message;
        pub fn latchbeacon_sysex8_byte(words: Words, lent: usize, length: usize, index: usize) -> Number;
        pub fn latchbeacon_sysex8_payload(words: Words, lent: usize, length: usize, bytes: *mut u8, room: usize) -> Number;
        pub fn latchbeacon_sysex8_carries(words: Words, lent: usize, length: usize, payload: Bytes, size: usize, group: u8, id: u8) -> Number;
        pub fn latchbeacon_sysex8_set_group(words: WordsOut, lent: usize, length: usize, group: u8) -> Number;
        pub fn latchbeacon_sysex8_set_stream_id(words: WordsOut, lent: usize, length: usize, id: u8) -> Number;
        pub fn latchbeacon_sysex8_set_byte(words: WordsOut, lent: usize, length: usize, index: usize, value: u8) -> Number;
        pub fn latchbeacon_sysex8_words_needed(size: usize) -> usize;
        pub fn latchbeacon_sysex8_repack(words: WordsOut, lent: usize, length: usize) -> Number;
        pub fn latchbeacon_sysex8_splice(words: WordsOut, lent: usize, length: usize, from: usize, to: usize, bytes: Bytes, size: usize) -> Change;
        pub fn latchbeacon_sysex8_set_payload(words: WordsOut, lent: usize, length: usize, bytes: Bytes, size: usize) -> Change;
        pub fn latchbeacon_sysex8_splice_all(words: WordsOut, lent: usize, length: usize, numbers: Numbers, count: usize, bytes: Bytes, size: usize) -> Change;
        pub fn latchbeacon_sysex8_origin(words: Words, lent: usize, length: usize, numbers: Numbers, count: usize, bytes: Bytes, size: usize, octet: usize) -> Origin;
        pub fn latchbeacon_look_run(payload: usize, from: usize, to: usize, replacement: usize, position: usize) -> Run;
        pub fn latchbeacon_look_byte(payload: Bytes, lent: usize, numbers: Numbers, count: usize, bytes: Bytes, size: usize, position: usize) -> Number;
        pub fn latchbeacon_sysex8_look_byte(words: Words, lent: usize, length: usize, numbers: Numbers, count: usize, bytes: Bytes, size: usize, position: usize) -> Number;
        pub fn latchbeacon_sysex8_open(words: Words, lent: usize, length: usize) -> Cursor;
        pub fn latchbeacon_sysex8_next(words: Words, lent: usize, packet: usize, byte: usize, remaining: usize) -> Read;
        pub fn latchbeacon_sysex8_nth(words: Words, lent: usize, packet: usize, byte: usize, remaining: usize, skip: usize) -> Read;
        pub fn latchbeacon_sysex8_remaining(words: Words, lent: usize, packet: usize, byte: usize, remaining: usize) -> usize;
        pub fn latchbeacon_bytes_to_sysex7(bytes: Bytes, size: usize, group: u8, words: WordsOut, lent: usize) -> Number;
    }
}

use calls::*;

/// What the library answers for an input.
pub fn answer(input: &Input) -> Ours {
    match input.kind {
        Kind::Read(field) => read_field(field, input),
        Kind::Set(field) => set_field(field, input),
        Kind::Packet8 | Kind::Packet7 => packet(input),
        Kind::Steps8 => packet_steps(input),
        Kind::Steps7 => packet_steps7(input),
        Kind::PacketGroup8 | Kind::PacketGroup7 => packet_group(input),
        Kind::Check8 => check(input),
        Kind::Check7 => check7(input),
        Kind::Reader => reader(input),
        Kind::SetGroup | Kind::SetStreamId | Kind::SetByte => set_on_message(input),
        Kind::Stream => stream(input),
        Kind::Needed => {
            Ours::values(vec![
                unsafe { latchbeacon_sysex8_words_needed(number(input, 0)) } as u64,
            ])
        }
        Kind::Pack => pack(input),
        Kind::Origin => origin(input),
        Kind::LookRun => look_run(input),
        Kind::LookByte => look_byte(input),
        Kind::LookMessage => look_message(input),
        Kind::Carries => carries(input),
        _ => splice(input),
    }
}

/// A number of the input.
fn number(input: &Input, index: usize) -> usize {
    input.numbers[index] as usize
}

/// The answer of a call that gives one number and writes nothing.
fn one(answer: Number) -> Ours {
    Ours {
        refusal: answer.refusal,
        place: answer.place as u64,
        values: if answer.refusal == 0 {
            vec![answer.value as u64]
        } else {
            vec![]
        },
        ..Ours::default()
    }
}

/// Reading a field.
fn read_field(field: Field, input: &Input) -> Ours {
    let call = match field {
        Field::Bit => latchbeacon_bit,
        Field::Crumb => latchbeacon_crumb,
        Field::Nibble => latchbeacon_nibble,
        Field::Septet => latchbeacon_septet,
        Field::Octet => latchbeacon_octet,
        Field::Word => latchbeacon_word,
    };
    one(unsafe { call(input.words[0], number(input, 0)) })
}

/// Setting a field.
fn set_field(field: Field, input: &Input) -> Ours {
    let (word, index, value) = (input.words[0], number(input, 0), input.numbers[1]);
    let byte = value as u8;
    one(unsafe {
        match field {
            Field::Bit => latchbeacon_set_bit(word, index, value != 0),
            Field::Crumb => latchbeacon_set_crumb(word, index, byte),
            Field::Nibble => latchbeacon_set_nibble(word, index, byte),
            Field::Septet => latchbeacon_set_septet(word, index, byte),
            Field::Octet => latchbeacon_set_octet(word, index, byte),
            Field::Word => latchbeacon_set_word(word, index, value as u16),
        }
    })
}

/// The packet and its payload bytes, or its refusal.
fn read_packet(input: &Input) -> Result<(Packet, Vec<u8>), Ours> {
    let (words, lent) = (input.words.as_ptr(), input.words.len());
    let eight = matches!(input.kind, Kind::Packet8 | Kind::Steps8);
    let packet = unsafe {
        match eight {
            true => latchbeacon_sysex8_packet(words, lent),
            false => latchbeacon_sysex7_packet(words, lent),
        }
    };
    if packet.refusal != 0 {
        return Err(Ours::refused(packet.refusal, packet.place as u64, &[]));
    }
    let byte = |index| unsafe {
        match eight {
            true => latchbeacon_sysex8_packet_byte(words, lent, index),
            false => latchbeacon_sysex7_packet_byte(words, lent, index),
        }
    };
    assert_eq!(byte(packet.size).refusal, 13, "a byte past the packet");
    let payload = (0..packet.size)
        .map(|index| byte(index).value as u8)
        .collect();
    Ok((packet, payload))
}

/// Reading a single packet.
fn packet(input: &Input) -> Ours {
    match read_packet(input) {
        Err(refused) => refused,
        Ok((packet, payload)) => {
            let mut values = vec![
                packet.kind.into(),
                packet.group.into(),
                packet.id.into(),
                packet.size as u64,
            ];
            values.extend(payload.into_iter().map(u64::from));
            Ours::values(values)
        }
    }
}

/// Steps over a single SysEx8 packet: a cursor over its words.
fn packet_steps(input: &Input) -> Ours {
    match read_packet(input) {
        Err(refused) => refused,
        Ok((packet, _)) => {
            let words = &input.words[..4];
            Ours::values(steps(
                words,
                (0, 0, packet.size),
                &input.bytes,
                &input.numbers,
            ))
        }
    }
}

/// Steps over a single SysEx7 packet. The library has no cursor for it, so its bytes are stepped through here.
fn packet_steps7(input: &Input) -> Ours {
    match read_packet(input) {
        Err(refused) => refused,
        Ok((_, payload)) => {
            Ours::values(crate::model::steps(&payload, &input.bytes, &input.numbers))
        }
    }
}

/// Setting the group of a single packet.
fn packet_group(input: &Input) -> Ours {
    let mut words = input.words.clone();
    let (lent, group) = (words.len(), input.numbers[0] as u8);
    let answer = unsafe {
        match input.kind {
            Kind::PacketGroup8 => {
                latchbeacon_sysex8_packet_set_group(words.as_mut_ptr(), lent, group)
            }
            _ => latchbeacon_sysex7_packet_set_group(words.as_mut_ptr(), lent, group),
        }
    };
    stored(answer, words)
}

/// The answer of a call that stores and gives nothing.
fn stored(answer: Number, words: Vec<u32>) -> Ours {
    Ours {
        refusal: answer.refusal,
        place: answer.place as u64,
        values: if answer.refusal == 0 {
            as_values(&words)
        } else {
            vec![]
        },
        growth: 0,
        words,
    }
}

/// Checking a message, and its payload copied out.
fn check(input: &Input) -> Ours {
    let (words, lent, length) = (input.words.as_ptr(), input.words.len(), number(input, 0));
    let message = unsafe { latchbeacon_sysex8_check(words, lent, length) };
    if message.refusal != 0 {
        return Ours::refused(message.refusal, message.place as u64, &[]);
    }
    let mut payload = vec![0; message.size];
    let copied = unsafe {
        latchbeacon_sysex8_payload(words, lent, length, payload.as_mut_ptr(), message.size)
    };
    assert_eq!(
        (copied.refusal, copied.value),
        (0, message.size),
        "the payload copied out"
    );
    if let Some(&last) = payload.last() {
        let byte = unsafe { latchbeacon_sysex8_byte(words, lent, length, message.size - 1) };
        assert_eq!(
            (byte.refusal, byte.value),
            (0, last.into()),
            "the last byte alone"
        );
    }
    let mut values = vec![
        message.group.into(),
        message.id.into(),
        message.size as u64,
        message.words as u64,
    ];
    values.extend(payload.into_iter().map(u64::from));
    Ours::values(values)
}

/// Checking a SysEx7 message. Its bytes are read packet by packet.
fn check7(input: &Input) -> Ours {
    let (words, lent) = (input.words.as_ptr(), input.words.len());
    let message = unsafe { latchbeacon_sysex7_check(words, lent, number(input, 0)) };
    if message.refusal != 0 {
        return Ours::refused(message.refusal, message.place as u64, &[]);
    }
    let mut values = vec![
        message.group.into(),
        message.id.into(),
        message.size as u64,
        message.words as u64,
    ];
    for packet in input.words[..message.words].chunks_exact(2) {
        let size = unsafe { latchbeacon_sysex7_packet(packet.as_ptr(), 2) }.size;
        values.extend((0..size).map(|index| {
            unsafe { latchbeacon_sysex7_packet_byte(packet.as_ptr(), 2, index) }.value as u64
        }));
    }
    Ours::values(values)
}

/// Opening a reader and making steps.
fn reader(input: &Input) -> Ours {
    let cursor = unsafe {
        latchbeacon_sysex8_open(input.words.as_ptr(), input.words.len(), number(input, 0))
    };
    if cursor.refusal != 0 {
        return Ours::refused(cursor.refusal, cursor.place as u64, &[]);
    }
    let start = (cursor.packet, cursor.byte, cursor.remaining);
    Ours::values(steps(
        input.message(),
        start,
        &input.bytes,
        &input.numbers[1..],
    ))
}

/// The bytes and bytes remaining that steps of a cursor answer.
fn steps(words: &[u32], start: (usize, usize, usize), letters: &[u8], numbers: &[u64]) -> Vec<u64> {
    let (pointer, lent) = (words.as_ptr(), words.len());
    let (mut packet, mut byte, mut remaining) = start;
    let mut values = Vec::new();
    for (letter, &number) in letters.iter().zip(numbers) {
        let read = unsafe {
            match letter {
                b'n' => latchbeacon_sysex8_next(pointer, lent, packet, byte, remaining),
                _ => {
                    latchbeacon_sysex8_nth(pointer, lent, packet, byte, remaining, number as usize)
                }
            }
        };
        (packet, byte, remaining) = (read.packet, read.byte, read.remaining);
        values.push(if read.ended { ENDED } else { read.value.into() });
        let left = unsafe { latchbeacon_sysex8_remaining(pointer, lent, packet, byte, remaining) };
        values.push(left as u64);
    }
    values
}

/// Setting group, stream id or one byte of a message.
fn set_on_message(input: &Input) -> Ours {
    let mut words = input.words.clone();
    let (pointer, lent, length) = (words.as_mut_ptr(), words.len(), number(input, 0));
    let value = input.numbers[1];
    let answer = unsafe {
        match input.kind {
            Kind::SetGroup => latchbeacon_sysex8_set_group(pointer, lent, length, value as u8),
            Kind::SetStreamId => {
                latchbeacon_sysex8_set_stream_id(pointer, lent, length, value as u8)
            }
            _ => latchbeacon_sysex8_set_byte(
                pointer,
                lent,
                length,
                value as usize,
                input.numbers[2] as u8,
            ),
        }
    };
    stored(answer, words)
}

/// The answer of a call that rewrites a message.
fn rewritten(change: Change, words: Vec<u32>) -> Ours {
    Ours {
        refusal: change.refusal,
        place: change.place as u64,
        values: if change.refusal == 0 {
            compared(&words[..change.length])
        } else {
            vec![]
        },
        growth: change.growth,
        words,
    }
}

/// Packing.
fn pack(input: &Input) -> Ours {
    let mut words = input.words.clone();
    let answer =
        unsafe { latchbeacon_sysex8_repack(words.as_mut_ptr(), words.len(), number(input, 0)) };
    let change = Change {
        refusal: answer.refusal,
        place: answer.place,
        length: answer.value,
        growth: 0,
    };
    rewritten(change, words)
}

/// Splice and setting the payload.
fn splice(input: &Input) -> Ours {
    let mut words = input.words.clone();
    let (pointer, lent, length) = (words.as_mut_ptr(), words.len(), number(input, 0));
    let (bytes, size) = (input.bytes.as_ptr(), input.bytes.len());
    let change = unsafe {
        match input.kind.is_payload() {
            true => latchbeacon_sysex8_set_payload(pointer, lent, length, bytes, size),
            false => {
                let (from, to) = (number(input, 1), number(input, 2));
                latchbeacon_sysex8_splice(pointer, lent, length, from, to, bytes, size)
            }
        }
    };
    rewritten(change, words)
}

/// The origin of an octet; then all edits at once: the whole answer of that call, and the words that it leaves.
fn origin(input: &Input) -> Ours {
    let mut words = input.words.clone();
    let edits: Vec<usize> = input.numbers[2..]
        .iter()
        .map(|&number| number as usize)
        .collect();
    let (lent, length, octet) = (words.len(), number(input, 0), number(input, 1));
    let (numbers, count) = (edits.as_ptr(), edits.len());
    let (bytes, size) = (input.bytes.as_ptr(), input.bytes.len());
    let (read, room) = (input.words.as_ptr(), words.as_mut_ptr());
    let (origin, change) = unsafe {
        (
            latchbeacon_sysex8_origin(read, lent, length, numbers, count, bytes, size, octet),
            latchbeacon_sysex8_splice_all(room, lent, length, numbers, count, bytes, size),
        )
    };
    Ours {
        refusal: origin.refusal,
        place: origin.place as u64,
        values: vec![
            origin.kind.into(),
            origin.number as u64,
            origin.index as u64,
            change.refusal.into(),
            change.place as u64,
            change.length as u64,
        ],
        growth: change.growth,
        words,
    }
}

/// An answer of one number with the value that it has, also where it refuses.
fn whole(answer: Number) -> Ours {
    Ours {
        values: vec![answer.value as u64],
        ..one(answer)
    }
}

/// A run of an edited payload, with the values that it has, also where it refuses.
fn look_run(input: &Input) -> Ours {
    let [payload, from, to, size, position] = [0, 1, 2, 3, 4].map(|index| number(input, index));
    let run = unsafe { latchbeacon_look_run(payload, from, to, size, position) };
    Ours {
        refusal: run.refusal,
        place: run.place as u64,
        values: vec![run.source.into(), run.start as u64, run.end as u64],
        ..Ours::default()
    }
}

/// The numbers of the edits of a look.
fn look_edits(input: &Input) -> Vec<usize> {
    let numbers = input.numbers[2..].iter();
    numbers.map(|&number| number as usize).collect()
}

/// A byte of an edited payload.
fn look_byte(input: &Input) -> Ours {
    let (payload, bytes) = input.bytes.split_at(number(input, 0));
    let (edits, position) = (look_edits(input), number(input, 1));
    whole(unsafe {
        latchbeacon_look_byte(
            payload.as_ptr(),
            payload.len(),
            edits.as_ptr(),
            edits.len(),
            bytes.as_ptr(),
            bytes.len(),
            position,
        )
    })
}

/// A byte of an edited message.
fn look_message(input: &Input) -> Ours {
    let (length, position, edits) = (number(input, 0), number(input, 1), look_edits(input));
    whole(unsafe {
        latchbeacon_sysex8_look_byte(
            input.words.as_ptr(),
            input.words.len(),
            length,
            edits.as_ptr(),
            edits.len(),
            input.bytes.as_ptr(),
            input.bytes.len(),
            position,
        )
    })
}

/// The edits of a look at a message, done at once in a copy of its words and of so many more: the refusal and its place, and the
/// message that is left.
pub fn look_spliced(input: &Input, more: usize) -> ((u8, u64), Vec<u32>) {
    let (mut words, length, edits) = (input.words.clone(), number(input, 0), look_edits(input));
    words.resize(words.len() + more, 0);
    let change = unsafe {
        latchbeacon_sysex8_splice_all(
            words.as_mut_ptr(),
            words.len(),
            length,
            edits.as_ptr(),
            edits.len(),
            input.bytes.as_ptr(),
            input.bytes.len(),
        )
    };
    words.truncate(change.length);
    ((change.refusal, change.place as u64), words)
}

/// A payload byte of a message that is all of the words.
pub fn byte(words: &[u32], index: usize) -> Ours {
    let (lent, length) = (words.len(), words.len());
    whole(unsafe { latchbeacon_sysex8_byte(words.as_ptr(), lent, length, index) })
}

/// Whether the message in the first words carries the payload of an input, with its group and stream id.
fn carries_in(words: &mut [u32], length: usize, input: &Input) -> Number {
    let mut payload = input.bytes.clone();
    let answer = unsafe {
        latchbeacon_sysex8_carries(
            words.as_mut_ptr(),
            words.len(),
            length,
            payload.as_mut_ptr(),
            payload.len(),
            input.numbers[1] as u8,
            input.numbers[2] as u8,
        )
    };
    assert_eq!(payload, input.bytes, "the payload lent");
    answer
}

/// Whether a message carries a payload, with the value of the answer, also where it refuses, and the words lent after it.
fn carries(input: &Input) -> Ours {
    let mut words = input.words.clone();
    let answer = carries_in(&mut words, number(input, 0), input);
    Ours {
        words,
        ..whole(answer)
    }
}

/// The same of a copy that is packed before: the refusal and its place.
pub fn carries_packed(input: &Input) -> (u8, u64) {
    let (mut words, length) = (input.words.clone(), number(input, 0));
    let packed = unsafe { latchbeacon_sysex8_repack(words.as_mut_ptr(), words.len(), length) };
    let answer = match packed.refusal {
        0 => carries_in(&mut words, packed.value, input),
        _ => packed,
    };
    (answer.refusal, answer.place as u64)
}

/// Byte stream to SysEx7.
fn stream(input: &Input) -> Ours {
    let mut words = input.words.clone();
    let (bytes, size, group) = (
        input.bytes.as_ptr(),
        input.bytes.len(),
        input.numbers[0] as u8,
    );
    let answer =
        unsafe { latchbeacon_bytes_to_sysex7(bytes, size, group, words.as_mut_ptr(), words.len()) };
    Ours {
        refusal: answer.refusal,
        place: answer.place as u64,
        values: if answer.refusal == 0 {
            as_values(&words[..answer.value])
        } else {
            vec![]
        },
        growth: 0,
        words,
    }
}
