//! What the original answers to a query, as docs/differences/answers-release.txt and answers-debug.txt write it.
//! A panic is caught where it happens and written in place of the answer or of the one field.
use crate::original;
use crate::queries::{bytes, field, number, words, Query};
use midi2::buffer::Ump;
use midi2::inside;
use midi2::sysex7::{self, Sysex7};
use midi2::sysex8::{self, Sysex8};
use midi2::ux::{u4, u7};
use midi2::{Data, FromBytes, Grouped, Sysex};

/// The text that a call makes, or `panic`.
fn caught(run: impl FnOnce() -> String) -> String {
    original::caught(run).unwrap_or_else(|| "panic".to_string())
}

/// Words, eight digits each.
fn show_words(words: &[u32]) -> String {
    words
        .iter()
        .map(|word| format!("{word:08X}"))
        .collect::<Vec<_>>()
        .join(",")
}

/// Bytes, two digits each; `-` is none.
fn show_bytes(bytes: &[u8]) -> String {
    match bytes {
        [] => "-".to_string(),
        bytes => bytes.iter().map(|byte| format!("{byte:02X}")).collect(),
    }
}

/// The original's answer to a query.
pub fn answer(query: &Query) -> String {
    let parts = &query.parts;
    match query.call() {
        "get" | "set" => caught(|| word_field(parts)),
        "p8" | "p8it" | "p8group" => packet8(query),
        "p7it" | "p7group" => packet7(query),
        "need8" => caught(|| {
            let mut message = Sysex8::<Vec<u32>>::new();
            message.set_payload(std::iter::repeat_n(0, number(parts[1]) as usize));
            format!("ok {}", message.data().len())
        }),
        "frombytes7" => caught(|| match Sysex7::try_from(&bytes(parts[1])[..]) {
            Err(error) => format!("err {}", error.0),
            Ok(message) => format!(
                "ok {}",
                show_words(inside::words_of7(&Sysex7::<Vec<u32>>::from_bytes(message)))
            ),
        }),
        "m7" | "splice7" => message7(query),
        _ => message8(query),
    }
}

/// Reading or setting a field.
fn word_field(parts: &[&str]) -> String {
    let index = number(parts[2]) as usize;
    let field = field(parts[1]);
    if parts[0] == "get" {
        let value = original::field_of(field, words(parts[3])[0], index);
        return format!("ok {value:X}");
    }
    let (value, word) = (words(parts[3])[0], words(parts[4])[0]);
    let word = original::with_field(field, word, index, value.into());
    format!("ok {word:08X}")
}

/// The answers of steps over an iterator, up to a panic.
fn steps<I: ExactSizeIterator>(mut payload: I, text: &str) -> String
where
    u8: From<I::Item>,
{
    let mut answers = Vec::new();
    for step in text.split(',') {
        let show = |byte: Option<I::Item>| {
            byte.map_or(".".to_string(), |byte| format!("{:02X}", u8::from(byte)))
        };
        answers.push(match step.strip_prefix('t') {
            Some(skip) => caught(|| show(payload.nth(number(skip) as usize))),
            None if step == "n" => caught(|| show(payload.next())),
            None => caught(|| payload.len().to_string()),
        });
        if answers.last().is_some_and(|answer| answer == "panic") {
            break;
        }
    }
    answers.join(",")
}

/// A single SysEx8 packet.
fn packet8(query: &Query) -> String {
    let packet = match sysex8::Packet::try_from(&words(query.parts[1])[..]) {
        Err(error) => return format!("err {}", error.0),
        Ok(packet) => packet,
    };
    match query.call() {
        "p8it" => steps(packet.payload(), query.parts[2]),
        "p8group" => caught(|| {
            let mut packet = packet;
            packet.set_group(u4::new(number(query.parts[2]) as u8));
            format!("ok {}", show_words(&packet))
        }),
        _ => format!(
            "ok status={:?} group={} id={:02X} size={} payload={}",
            packet.status(),
            u8::from(packet.group()),
            packet.stream_id(),
            caught(|| packet.payload().len().to_string()),
            caught(|| show_bytes(&packet.payload().collect::<Vec<u8>>())),
        ),
    }
}

/// A single SysEx7 packet.
fn packet7(query: &Query) -> String {
    let packet = match sysex7::Packet::try_from(&words(query.parts[1])[..]) {
        Err(error) => return format!("err {}", error.0),
        Ok(packet) => packet,
    };
    match query.call() {
        "p7it" => steps(packet.payload(), query.parts[2]),
        _ => caught(|| {
            let mut packet = packet;
            packet.set_group(u4::new(number(query.parts[2]) as u8));
            format!("ok {}", show_words(&packet))
        }),
    }
}

/// Payload size, length and all words of a SysEx8 message.
fn state<B: Ump>(message: &Sysex8<B>) -> String {
    format!(
        "size={} words={} all={}",
        caught(|| message.payload_size().to_string()),
        caught(|| message.data().len().to_string()),
        show_words(inside::words_of(message))
    )
}

/// A call on a SysEx8 message, after a check of its words.
fn message8(query: &Query) -> String {
    let (mut all, length) = query.lent();
    if let Err(error) = Sysex8::try_from(&all[..length]) {
        return format!("err {}", error.0);
    }
    match query.call() {
        "m8" => read8(&all),
        "it8" => steps(inside::sysex8(&all[..]).payload(), query.parts[2]),
        "splice8" | "blindsplice8" | "payload8" => caught(|| growing8(query, all)),
        _ => caught(|| lent8(query, &mut all)),
    }
}

/// Reading a SysEx8 message.
fn read8(all: &[u32]) -> String {
    let message = inside::sysex8(all);
    format!(
        "ok group={} id={:02X} size={} words={} payload={}",
        u8::from(message.group()),
        message.stream_id(),
        caught(|| message.payload_size().to_string()),
        caught(|| message.data().len().to_string()),
        caught(|| show_bytes(&message.payload().collect::<Vec<u8>>())),
    )
}

/// A splice, or setting the payload, on a growing buffer.
fn growing8(query: &Query, all: Vec<u32>) -> String {
    let parts = &query.parts;
    let mut message = inside::sysex8(all);
    if query.call() == "payload8" {
        message.set_payload(bytes(parts[2]).into_iter());
        return format!("ok {}", state(&message));
    }
    let (from, to) = (number(parts[2]) as usize, number(parts[3]) as usize);
    let mut data = bytes(parts[4]).into_iter();
    match query.call() {
        "splice8" => message.splice_payload(data, from..to),
        _ => message.splice_payload(std::iter::from_fn(move || data.next()), from..to),
    }
    format!("ok {}", state(&message))
}

/// A call on lent words.
fn lent8(query: &Query, all: &mut [u32]) -> String {
    let parts = &query.parts;
    let mut message = inside::sysex8(all);
    let mut done = Ok(());
    match query.call() {
        "group8" => message.set_group(u4::new(number(parts[2]) as u8)),
        "id8" => message.set_stream_id(bytes(parts[2])[0]),
        "byte8" => message.set_byte(bytes(parts[3])[0], number(parts[2]) as usize),
        "compact8" => inside::compact(&mut message),
        "trypayload8" => done = message.try_set_payload(bytes(parts[2]).into_iter()),
        "trysplice8" => {
            let range = number(parts[2]) as usize..number(parts[3]) as usize;
            done = message.try_splice_payload(bytes(parts[4]).into_iter(), range);
        }
        other => return format!("? {other}"),
    }
    let id = if query.call() == "id8" {
        format!("id={:02X} ", message.stream_id())
    } else {
        String::new()
    };
    format!(
        "{} {id}{}",
        if done.is_ok() { "ok" } else { "overflow" },
        state(&message)
    )
}

/// A call on a SysEx7 message.
fn message7(query: &Query) -> String {
    let (all, length) = query.lent();
    if let Err(error) = Sysex7::try_from(&all[..length]) {
        return format!("err {}", error.0);
    }
    if query.call() == "m7" {
        let message = inside::sysex7(&all[..]);
        let payload = || message.payload().map(u8::from).collect::<Vec<u8>>();
        return format!(
            "ok group={} size={} words={} payload={}",
            u8::from(message.group()),
            caught(|| message.payload_size().to_string()),
            caught(|| message.data().len().to_string()),
            caught(|| show_bytes(&payload())),
        );
    }
    let range = number(query.parts[2]) as usize..number(query.parts[3]) as usize;
    caught(|| {
        let mut message = inside::sysex7(all);
        message.splice_payload(bytes(query.parts[4]).into_iter().map(u7::new), range);
        let (size, words) = (message.payload_size(), message.data().len());
        format!(
            "ok size={size} words={words} all={}",
            show_words(inside::words_of7(&message))
        )
    })
}
