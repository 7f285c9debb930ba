//! Writes the sample of the original's answers that the program `replay` runs ours on.
//!
//! A line is KIND;WORDS;BYTES;NUMBERS;ANSWER in hex, and on lines of a listed difference ;NAME and the original's
//! answer. Lines without a name have the original's answer; lines with one have what 01 demands.
use crate::answers::{End, Input, Kind, Ours, Theirs, FIELDS};
use crate::asking;
use crate::compare::{asked, held};
use crate::differences::{Place, ALL};
use crate::layout::*;
use crate::ours_text::demanded;
use crate::queries::Query;
use crate::random::Random;
use crate::{inputs, model, original, original_text};

/// The most words, bytes, numbers and answers of a line.
const MOST: [usize; 4] = [512, 1024, 64, 2048];

/// How many lines a listed difference has beside those of its queries.
const MORE_OF_EACH: usize = 10;

/// The number of a kind in the file, if the program can run it.
fn kind_number(kind: Kind) -> Option<u64> {
    let place = |field| FIELDS.iter().position(|&other| other == field).unwrap_or(0) as u64;
    Some(match kind {
        Kind::Read(field) => 1 + place(field),
        Kind::Set(field) => 9 + place(field),
        Kind::Packet8 => 0x10,
        Kind::Packet7 => 0x11,
        Kind::PacketGroup8 => 0x12,
        Kind::PacketGroup7 => 0x13,
        Kind::Check8 => 0x20,
        Kind::Reader => 0x21,
        Kind::SetGroup => 0x22,
        Kind::SetStreamId => 0x23,
        Kind::SetByte => 0x24,
        Kind::Pack => 0x25,
        Kind::SpliceGrowing | Kind::SpliceLent => 0x26,
        Kind::PayloadGrowing | Kind::PayloadLent => 0x27,
        Kind::Stream => 0x28,
        Kind::Needed => 0x29,
        Kind::Steps8 | Kind::Steps7 | Kind::Check7 | Kind::Origin => return None,
        Kind::LookRun | Kind::LookByte | Kind::LookMessage | Kind::Carries => return None,
    })
}

/// Numbers in hex with a space between.
fn list(values: &[u64]) -> String {
    values
        .iter()
        .map(|value| format!("{value:X}"))
        .collect::<Vec<_>>()
        .join(" ")
}

/// The answer of ours as a row of numbers.
fn row(input: &Input, ours: &Ours) -> Vec<u64> {
    let writes = matches!(input.kind.row(), 6 | 7 | 11..=18);
    match (input.kind, ours.refusal) {
        (Kind::Needed, _) => ours.values.clone(),
        (_, 0) => [&[0], &ours.values[..]].concat(),
        (_, number) => {
            let words = if writes {
                as_values(&ours.words)
            } else {
                vec![]
            };
            [&[number.into(), ours.place], &words[..]].concat()
        }
    }
}

/// The line of a check where only zeros stand behind the message: the message, and how many words are lent.
fn lent_line(input: &Input, answer: &[u64]) -> Option<String> {
    let message = input.words.get(..*input.numbers.first()? as usize)?;
    let zeros = input.words[message.len()..].iter().all(|&word| word == 0);
    let few = message.len() <= MOST[0] && input.kind == Kind::Check8;
    (few && zeros).then(|| {
        format!(
            "2A;{};;{};{}",
            list(&as_values(message)),
            list(&[message.len() as u64, input.words.len() as u64]),
            list(&answer[..answer.len().min(5)])
        )
    })
}

/// The line of a rewrite that shows all words lent.
fn whole_line(input: &Input, ours: &Ours) -> Option<String> {
    let number = kind_number(input.kind)? + 0x10;
    let answer = [&[0, *ours.values.first()?], &as_values(&ours.words)[..]].concat();
    let text = line(input, &answer)?;
    let rest = text.split_once(';')?.1;
    (input.kind.rewrites() && ours.refusal == 0).then(|| format!("{number:X};{rest}"))
}

/// The line of an input and an answer. None if it does not fit.
fn line(input: &Input, answer: &[u64]) -> Option<String> {
    let kind = kind_number(input.kind)?;
    let mut words = as_values(&input.words);
    let mut bytes: Vec<u64> = input.bytes.iter().map(|&byte| byte.into()).collect();
    let mut numbers = input.numbers.clone();
    match input.kind {
        Kind::Reader => bytes.clear(),
        Kind::Stream => {
            numbers.push(words.len() as u64);
            words.clear();
        }
        _ => {}
    }
    let sizes = [words.len(), bytes.len(), numbers.len(), answer.len()];
    let fits = sizes.iter().zip(MOST).all(|(&size, most)| size <= most);
    fits.then(|| {
        format!(
            "{kind:X};{};{};{};{}",
            list(&words),
            list(&bytes),
            list(&numbers),
            list(answer)
        )
    })
}

/// The original's answer as text behind the name of a difference.
fn show(theirs: &Theirs) -> String {
    let values = list(&theirs.values);
    match theirs.end {
        End::Done => values,
        End::Refused(text) => format!("err {text}"),
        End::Overflow => format!("overflow {values}"),
        End::Panicked => format!("{values} panic").trim_start().to_string(),
    }
}

/// Steps of next are nth(0) for the file, and steps over a packet are steps over the message that it is.
fn as_file_input(input: &Input) -> Input {
    let mut input = input.clone();
    if input.kind == Kind::Steps8 {
        input.kind = Kind::Reader;
        input.numbers.insert(0, input.words.len() as u64);
    }
    input
}

/// The line of a query: what ours must answer is the hand-made answer.
fn query_line(line_of_query: &str, ours: &str, names: &str) -> Option<String> {
    let query = Query::new(line_of_query);
    let input = query.input()?;
    let steps = query.parts.get(2).copied().unwrap_or("");
    let demanded = demanded(ours, steps, &input)?;
    let answer = original_text::answer(&query);
    let (file_input, numbers) = (as_file_input(&input), row(&input, &demanded));
    let text = whole_line(&file_input, &demanded)
        .or_else(|| line(&file_input, &numbers))
        .or_else(|| lent_line(&file_input, &numbers))?;
    Some(format!("{text};{names} {answer}"))
}

/// The lines of all queries, each with the number of its entry.
fn query_lines(folder: &str) -> Result<Vec<String>, String> {
    let text = std::fs::read_to_string(format!("{folder}/queries.txt"))
        .map_err(|error| error.to_string())?;
    let mut name = "";
    let mut written = asking::written(folder, "release")?.into_iter();
    let mut lines = Vec::new();
    for line in text.lines() {
        match line.strip_prefix("# ") {
            Some(entry) if entry.starts_with(['D', 'S']) && entry.len() < 5 => name = entry,
            Some(_) => {}
            None if line.trim().is_empty() || line.starts_with('#') => {}
            None => {
                let [query, _, ours] = written.next().ok_or("too few answers")?;
                lines.extend(query_line(&query, &ours, name));
            }
        }
    }
    Ok(lines)
}

/// Lines so far, and how many each difference has.
struct Sample {
    lines: Vec<String>,
    of_difference: [usize; ALL.len()],
}

impl Sample {
    /// Adds the original's answer to an input, or what 01 demands where a listed difference shows.
    fn add(&mut self, input: &Input) {
        let demanded = model::answer(input);
        if !asked(input, &demanded) {
            return;
        }
        let theirs = original::answer(input);
        let listed = held(input)
            .into_iter()
            .find(|&index| ALL[index].place != Place::NotCompared || ALL[index].name == "D17");
        match listed {
            None if theirs.end == End::Done && input.kind == Kind::Needed => {
                self.lines.extend(line(input, &theirs.values))
            }
            None if theirs.end == End::Done => self
                .lines
                .extend(line(input, &[&[0], &theirs.values[..]].concat())),
            None => {}
            Some(index) if self.of_difference[index] < MORE_OF_EACH => {
                let text = line(input, &row(input, &demanded));
                self.of_difference[index] += usize::from(text.is_some());
                self.lines.extend(
                    text.map(|text| format!("{text};{} {}", ALL[index].name, show(&theirs))),
                );
            }
            Some(_) => {}
        }
    }

    /// Adds inputs until so many lines more are there.
    fn fill(&mut self, lines: usize, mut make: impl FnMut() -> Input) {
        let wanted = self.lines.len() + lines;
        let mut tries = 0;
        while self.lines.len() < wanted && tries < 50 * lines {
            self.add(&make());
            tries += 1;
        }
    }
}

/// Every field at every index, about seventy of each kind.
fn add_fields(sample: &mut Sample, random: &mut Random) {
    for field in FIELDS {
        for index in 0..field.indexes() {
            for _ in 0..(72 / field.indexes()).max(3) {
                let word = random.word();
                sample.add(&Input::new(Kind::Read(field), &[word], &[index]));
                let value = random.between(0, field.most() as usize) as u64;
                sample.add(&Input::new(Kind::Set(field), &[word], &[index, value]));
            }
        }
    }
    sample.fill(20, || inputs::field(random, true));
}

/// Single packets of every status and count, and random ones.
fn add_packets(sample: &mut Sample, random: &mut Random) {
    for low in 0..=0x3F_u32 {
        let group = random.word() & 0x0F00_0000;
        for words in [
            [0, 0, 0, 0],
            [
                random.word() & 0xFFFF,
                random.word(),
                random.word(),
                random.word(),
            ],
        ] {
            let first = group | low << 16 | words[0];
            sample.add(&Input::new(
                Kind::Packet8,
                &[0x5000_0000 | first, words[1], words[2], words[3]],
                &[],
            ));
            sample.add(&Input::new(
                Kind::Packet7,
                &[0x3000_0000 | first, words[1]],
                &[],
            ));
        }
    }
    for (kind, lines) in [
        (Kind::Packet8, 150),
        (Kind::Packet7, 100),
        (Kind::PacketGroup8, 90),
        (Kind::PacketGroup7, 60),
    ] {
        sample.fill(lines, || inputs::single(random, kind));
    }
}

/// Messages: checks, readers, setters and packings at every boundary.
fn add_messages(sample: &mut Sample, random: &mut Random) {
    for size in inputs::BOUNDARIES.into_iter().chain([200, 507]) {
        let words = inputs::message_of(random, size);
        let length = words.len() as u64;
        sample.add(&Input::new(Kind::Check8, &words, &[length]));
        sample.add(&Input::new(Kind::Pack, &words, &[length]));
        let first = words[0] & 0xFF;
        sample.add(&Input::new(
            Kind::SetStreamId,
            &words,
            &[length, first.into()],
        ));
        for index in [0, size / 2, size.saturating_sub(1)] {
            sample.add(&Input::new(
                Kind::SetByte,
                &words,
                &[length, index as u64, random.byte().into()],
            ));
        }
    }
    for (kind, lines) in [
        (Kind::Check8, 350),
        (Kind::SetGroup, 120),
        (Kind::SetByte, 150),
        (Kind::Pack, 300),
    ] {
        sample.fill(lines, || inputs::on_message(random, kind, 8));
    }
    sample.fill(MORE_OF_EACH, || {
        inputs::on_message(random, Kind::SetStreamId, 8)
    });
    sample.fill(60, || inputs::own_id(random));
    sample.fill(350, || reader(random));
}

/// A reader that is asked for nth alone.
fn reader(random: &mut Random) -> Input {
    let mut input = inputs::on_message(random, Kind::Reader, 30);
    input.bytes.fill(b't');
    input
}

/// Splices and payloads at every boundary, exactly full and with room.
fn add_rewrites(sample: &mut Sample, random: &mut Random) {
    for old in [0, 12, 13, 14, 26, 27] {
        for new in [0, 12, 13, 14, 26, 27] {
            add_exactly_full(sample, random, old, new);
        }
    }
    for (kind, lines) in [
        (Kind::SpliceGrowing, 280),
        (Kind::SpliceLent, 280),
        (Kind::PayloadGrowing, 110),
        (Kind::PayloadLent, 110),
    ] {
        sample.fill(lines, || inputs::on_message(random, kind, 30));
    }
    sample.fill(4, || long_splice(random));
}

/// A payload set, replaced as a whole and put in at three places, in words that the result just fills.
fn add_exactly_full(sample: &mut Sample, random: &mut Random, old: usize, new: usize) {
    let message = SYSEX8.fewest_form(random.word() & 15, 0, &random.bytes(old));
    let length = message.len() as u64;
    let bytes = random.bytes(new);
    let mut words = message.clone();
    words.resize(message.len().max(SYSEX8.words_for(new)), 0);
    let whole = [length, 0, old as u64];
    sample.add(&Input::with_bytes(
        Kind::PayloadLent,
        &words,
        &bytes,
        &[length],
    ));
    sample.add(&Input::with_bytes(Kind::SpliceLent, &words, &bytes, &whole));
    words.resize(message.len().max(SYSEX8.words_for(old + new)), 0);
    for at in [0, old as u64 / 2, old as u64] {
        sample.add(&Input::with_bytes(
            Kind::SpliceLent,
            &words,
            &bytes,
            &[length, at, at],
        ));
    }
}

/// A splice of a message of about 500 words.
fn long_splice(random: &mut Random) -> Input {
    let size = random.between(1500, 1560);
    let mut words = SYSEX8.fewest_form(1, 0, &random.bytes(size));
    let length = words.len() as u64;
    words.resize(512, 0);
    let from = random.below(size - 100);
    let bytes = random.pick(&[0, 13, 50]);
    let bytes = random.bytes(bytes);
    Input::with_bytes(
        Kind::SpliceLent,
        &words,
        &bytes,
        &[length, from as u64, from as u64 + 60],
    )
}

/// A message of so many packets of 13 bytes, the last of one: the first packet, one of the inner ones and the last are written.
fn many_line(packets: usize) -> Option<String> {
    let firsts = [0x541E_0901, 0x542E_0902, 0x5432_0903];
    let packet = |first: u32| [first, 0, 0, 0];
    let inner = packet(firsts[1]).repeat(packets - 2);
    let words = [&packet(firsts[0])[..], &inner, &packet(firsts[2])].concat();
    let input = Input::new(Kind::Check8, &words, &[words.len() as u64]);
    let (theirs, demanded) = (original::answer(&input), model::answer(&input));
    let their_answer = [&[0], theirs.values.get(..4)?].concat();
    let (answer, behind) = match demanded.refusal {
        0 => (their_answer, String::new()),
        _ => (
            row(&input, &demanded),
            format!(";D20 {}", list(&their_answer)),
        ),
    };
    let written: Vec<u32> = firsts.into_iter().flat_map(packet).collect();
    Some(format!(
        "2B;{};;{packets:X};{}{behind}",
        list(&as_values(&written)),
        list(&answer)
    ))
}

/// The whole sample.
pub fn write(folder: &str, command: &str, seed: u64) -> Result<String, String> {
    let mut random = Random::new(seed);
    let mut sample = Sample {
        lines: query_lines(folder)?,
        of_difference: [0; ALL.len()],
    };
    add_fields(&mut sample, &mut random);
    add_packets(&mut sample, &mut random);
    add_messages(&mut sample, &mut random);
    add_rewrites(&mut sample, &mut random);
    sample.fill(150, || inputs::stream(&mut random));
    let mut clocked = Random::clocked(seed);
    sample.fill(2 * MORE_OF_EACH, || inputs::clocked_stream(&mut clocked));
    for bytes in (0..=66).chain([506, 507, 508, 53_247, 53_248, 53_249]) {
        sample.add(&Input::new(Kind::Needed, &[], &[bytes]));
    }
    sample.lines.extend(
        [2, 3, 4_095, 4_096, 4_097]
            .into_iter()
            .filter_map(many_line),
    );
    let head = format!(
        "# Answers of the original, midi2 0.11.1, release build, made by: {command}\n\
         # KIND;WORDS;BYTES;NUMBERS;ANSWER in hex; on lines that end in the name of an entry of docs/DIFFERENCES.md and \
         the original's answer, ANSWER is what document 01 demands. The kinds are in crates/replay/src/reply.rt.\n"
    );
    Ok(head + &sample.lines.join("\n") + "\n")
}
