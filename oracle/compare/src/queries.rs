//! The queries of docs/differences: their text, and the input that each one is. docs/DIFFERENCES.md says how they
//! are written.
use crate::answers::{Field, Input, Kind};
use crate::differences::size;
use crate::layout::SYSEX8;
use crate::model;

/// A query: its words.
pub struct Query<'a> {
    pub parts: Vec<&'a str>,
}

/// Words in hex, separated by commas; `W*N` repeats, `-` is none.
pub fn words(text: &str) -> Vec<u32> {
    let mut words = Vec::new();
    for part in text.split(',').filter(|part| !matches!(*part, "" | "-")) {
        let (word, times) = part.split_once('*').unwrap_or((part, "1"));
        let word = u32::from_str_radix(word, 16).expect("a word in hex");
        words.extend(std::iter::repeat_n(word, number(times) as usize));
    }
    words
}

/// Bytes as pairs of hex digits; `-` is none.
pub fn bytes(text: &str) -> Vec<u8> {
    let digits = if text == "-" { "" } else { text };
    (0..digits.len() / 2)
        .map(|pair| u8::from_str_radix(&digits[2 * pair..2 * pair + 2], 16).expect("a byte in hex"))
        .collect()
}

/// A decimal number.
pub fn number(text: &str) -> u64 {
    text.parse().expect("a number")
}

/// A number in hex.
fn hex(text: &str) -> u64 {
    u64::from_str_radix(text, 16).expect("a number in hex")
}

/// The queries of a file: its lines without comments and empty ones.
pub fn lines(text: &str) -> impl Iterator<Item = &str> {
    text.lines()
        .filter(|line| !line.trim().is_empty() && !line.starts_with('#'))
}

/// The field of a name.
pub fn field(name: &str) -> Field {
    match name {
        "bit" => Field::Bit,
        "crumb" => Field::Crumb,
        "nibble" => Field::Nibble,
        "septet" => Field::Septet,
        "octet" => Field::Octet,
        "word" => Field::Word,
        other => panic!("field {other}"),
    }
}

/// The letters and numbers of the steps of a query; `l` is no step, as the bytes remaining are always asked.
pub fn steps(text: &str) -> (Vec<u8>, Vec<u64>) {
    let made = text.split(',').filter(|step| *step != "l");
    made.map(|step| match step.strip_prefix('t') {
        Some(skip) => (b't', number(skip)),
        None => (b'n', 0),
    })
    .unzip()
}

impl<'a> Query<'a> {
    /// A query from its line.
    pub fn new(line: &'a str) -> Query<'a> {
        Query {
            parts: line.split_whitespace().collect(),
        }
    }

    /// The call's name.
    pub fn call(&self) -> &'a str {
        self.parts[0]
    }

    /// All words lent, and the length of the message in front.
    pub fn lent(&self) -> (Vec<u32>, usize) {
        let (message, behind) = self.parts[1]
            .split_once('+')
            .unwrap_or((self.parts[1], "-"));
        let mut all = words(message);
        let length = all.len();
        all.extend(words(behind));
        (all, length)
    }

    /// The input that the query is, if ours has such a call.
    pub fn input(&self) -> Option<Input> {
        let parts = &self.parts;
        match self.call() {
            "get" => Some(Input::new(
                Kind::Read(field(parts[1])),
                &words(parts[3]),
                &[number(parts[2])],
            )),
            "set" => Some(Input::new(
                Kind::Set(field(parts[1])),
                &words(parts[4]),
                &[number(parts[2]), hex(parts[3])],
            )),
            "p8" => Some(Input::new(Kind::Packet8, &words(parts[1]), &[])),
            "p8group" => Some(Input::new(
                Kind::PacketGroup8,
                &words(parts[1]),
                &[number(parts[2])],
            )),
            "p7group" => Some(Input::new(
                Kind::PacketGroup7,
                &words(parts[1]),
                &[number(parts[2])],
            )),
            "p8it" => Some(self.packet_steps(Kind::Steps8)),
            "p7it" => Some(self.packet_steps(Kind::Steps7)),
            "need8" => Some(Input::new(Kind::Needed, &[], &[number(parts[1])])),
            "frombytes7" => Some(Input::with_bytes(
                Kind::Stream,
                &[0; 8],
                &bytes(parts[1]),
                &[0],
            )),
            "splice7" => None,
            _ => Some(self.on_message()),
        }
    }

    /// Steps over a packet.
    fn packet_steps(&self, kind: Kind) -> Input {
        let (letters, numbers) = steps(self.parts[2]);
        Input::with_bytes(kind, &words(self.parts[1]), &letters, &numbers)
    }

    /// A call on a message. For a growing buffer ours is lent the words of the result, if it needs more.
    fn on_message(&self) -> Input {
        let (all, length) = self.lent();
        let rest = &self.parts[2..];
        let (kind, bytes, numbers) = match self.call() {
            "m8" => (Kind::Check8, vec![], vec![]),
            "m7" => (Kind::Check7, vec![], vec![]),
            "it8" => {
                let (letters, numbers) = steps(rest[0]);
                (Kind::Reader, letters, numbers)
            }
            "group8" => (Kind::SetGroup, vec![], vec![number(rest[0])]),
            "id8" => (Kind::SetStreamId, vec![], vec![hex(rest[0])]),
            "byte8" => (Kind::SetByte, vec![], vec![number(rest[0]), hex(rest[1])]),
            "compact8" => (Kind::Pack, vec![], vec![]),
            "payload8" => (Kind::PayloadGrowing, bytes(rest[0]), vec![]),
            "trypayload8" => (Kind::PayloadLent, bytes(rest[0]), vec![]),
            "trysplice8" => (Kind::SpliceLent, bytes(rest[2]), range(rest)),
            _ => (Kind::SpliceGrowing, bytes(rest[2]), range(rest)),
        };
        let numbers = [&[length as u64], &numbers[..]].concat();
        let mut input = Input::with_bytes(kind, &all, &bytes, &numbers);
        give_room(&mut input);
        input
    }
}

/// From and to of a splice.
fn range(parts: &[&str]) -> Vec<u64> {
    vec![number(parts[0]), number(parts[1])]
}

/// Lends ours the words of the result of a call on a growing buffer.
fn give_room(input: &mut Input) {
    if !input.kind.is_growing() || model::check(&SYSEX8, &input.words, input.numbers[0]).is_err() {
        return;
    }
    let old = if input.kind.is_payload() {
        0
    } else {
        size(input.message())
    };
    let room = SYSEX8.words_for(old + input.bytes.len());
    let needed = match input.numbers[1..] {
        [from, to] if from <= to && to <= old as u64 => {
            SYSEX8.words_for(old + input.bytes.len() - (to - from) as usize)
        }
        _ => room,
    };
    input.words.resize(input.words.len().max(needed), 0);
}
