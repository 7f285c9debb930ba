//! The extern declarations of the bindings, held to include/latchbeacon.h: functions, structs and the numbers of enums, each with
//! its name, order and types. A declaration that differs, is missing or is extra fails.

use latchbeacon::{Refusal, MOST_BYTES, MOST_WORDS};
use std::iter::Peekable;
use std::slice::Iter;

const HEADER: &str = include_str!("../../../include/latchbeacon.h");
const BINDINGS: &str = include_str!("../src/ffi.rs");
const KINDS: &str = include_str!("../src/packet.rs");
const ORIGINS: &str = include_str!("../src/origin.rs");
const SOURCES: &str = include_str!("../src/look.rs");
const PORTS: &str = include_str!("../src/ports.rs");

// A function or a struct: `fn name(a: u32) -> Answer` or `struct Name { a: u32 }`, in Rust's words.
type Declarations = Vec<String>;
type Tokens<'a> = Peekable<Iter<'a, String>>;

// ---- tokens

// A text without what stands between `open` and `close`.
fn without(text: &str, open: &str, close: &str) -> String {
    let mut rest = text;
    let mut kept = String::new();
    while let Some(start) = rest.find(open) {
        kept.push_str(&rest[..start]);
        kept.push(' ');
        let inside = &rest[start + open.len()..];
        rest = &inside[inside.find(close).expect("what opens is closed") + close.len()..];
    }
    kept + rest
}

// The names, numbers and single signs of a text.
fn tokens(text: &str) -> Vec<String> {
    let mut tokens: Vec<String> = Vec::new();
    let mut in_word = false;
    for letter in text.chars() {
        let of_word = letter.is_ascii_alphanumeric() || letter == '_';
        match tokens.last_mut() {
            Some(last) if of_word && in_word => last.push(letter),
            _ if letter.is_whitespace() => {}
            _ => tokens.push(letter.to_string()),
        }
        in_word = of_word;
    }
    tokens
}

// The tokens of a C header: no comments, nothing for C++ alone, no lines of the preprocessor.
fn header_tokens(text: &str) -> Vec<String> {
    let text = without(&without(text, "/*", "*/"), "#ifdef __cplusplus", "#endif");
    let lines: Vec<&str> = text.lines().filter(|line| !line.trim_start().starts_with('#')).collect();
    tokens(&lines.join("\n"))
}

// The tokens of Rust source: no comments.
fn rust_tokens(text: &str) -> Vec<String> {
    tokens(&without(&format!("{text}\n"), "//", "\n"))
}

// Takes the next token, which must be there.
fn take<'a>(tokens: &mut Tokens<'a>) -> &'a str {
    tokens.next().expect("a declaration is whole")
}

// Takes the next token, which must be this one.
fn expect(tokens: &mut Tokens, wanted: &str) {
    assert_eq!(take(tokens), wanted);
}

// Takes the next token if it is this one.
fn accept(tokens: &mut Tokens, wanted: &str) -> bool {
    tokens.next_if(|token| *token == wanted).is_some()
}

// ---- names

// `edit_growth` as `EditGrowth`.
fn camel(name: &str) -> String {
    let part = |part: &str| part[..1].to_uppercase() + &part[1..];
    name.split('_').map(part).collect()
}

// `UnexpectedEnd` as `UNEXPECTED_END`.
fn upper(name: &str) -> String {
    let mut upper = String::new();
    for letter in name.chars() {
        if letter.is_uppercase() && !upper.is_empty() {
            upper.push('_');
        }
        upper.extend(letter.to_uppercase());
    }
    upper
}

// A C type in Rust's words.
fn rust_type(name: &str) -> String {
    match name {
        "uint8_t" => "u8".into(),
        "uint16_t" => "u16".into(),
        "uint32_t" => "u32".into(),
        "int64_t" => "i64".into(),
        "size_t" => "usize".into(),
        "bool" => "bool".into(),
        "void" => "()".into(),
        other => camel(other.strip_prefix("latchbeacon_").expect("a type that the test knows")),
    }
}

// ---- declarations of the header

// Takes `TYPE NAME`; answers the name and the type.
fn header_field(tokens: &mut Tokens) -> (String, String) {
    let constant = accept(tokens, "const");
    let base = rust_type(take(tokens));
    let pointer = accept(tokens, "*");
    let kind = match (pointer, constant) {
        (true, true) => format!("*const {base}"),
        (true, false) => format!("*mut {base}"),
        (false, false) => base,
        (false, true) => panic!("a constant that is no pointer"),
    };
    (take(tokens).to_string(), kind)
}

// Takes `{ fields } NAME ;`.
fn header_struct(tokens: &mut Tokens) -> String {
    let mut fields = Vec::new();
    expect(tokens, "{");
    while !accept(tokens, "}") {
        let (name, kind) = header_field(tokens);
        expect(tokens, ";");
        fields.push(format!("{name}: {kind}"));
    }
    let name = rust_type(take(tokens));
    expect(tokens, ";");
    format!("struct {name} {{ {} }}", fields.join(", "))
}

// Takes `TYPE NAME ( parameters ) ;`.
fn header_function(tokens: &mut Tokens) -> String {
    let (name, answer) = header_field(tokens);
    let mut parameters = Vec::new();
    expect(tokens, "(");
    while !accept(tokens, ")") {
        let (name, kind) = header_field(tokens);
        parameters.push(format!("{name}: {kind}"));
        accept(tokens, ",");
    }
    expect(tokens, ";");
    format!("fn {name}({}) -> {answer}", parameters.join(", "))
}

// Takes `{ NAME = NUMBER, ... } ;`.
fn numbers(tokens: &mut Tokens) -> Vec<(String, u8)> {
    let mut numbers = Vec::new();
    expect(tokens, "{");
    while !accept(tokens, "}") {
        let name = take(tokens).to_string();
        expect(tokens, "=");
        numbers.push((name, take(tokens).parse().expect("a number")));
        accept(tokens, ",");
    }
    numbers
}

// All structs and functions of a header, and the numbers of its enum of a name.
fn read_header(text: &str, name_of_enum: &str) -> (Declarations, Vec<(String, u8)>) {
    let all = header_tokens(text);
    let mut tokens = all.iter().peekable();
    let (mut declarations, mut found) = (Vec::new(), Vec::new());
    while tokens.peek().is_some() {
        if accept(&mut tokens, "enum") {
            let wanted = take(&mut tokens) == name_of_enum;
            let numbers = numbers(&mut tokens);
            expect(&mut tokens, ";");
            found.extend(numbers.into_iter().filter(|_| wanted));
        } else if accept(&mut tokens, "typedef") {
            expect(&mut tokens, "struct");
            declarations.push(header_struct(&mut tokens));
        } else {
            declarations.push(header_function(&mut tokens));
        }
    }
    (declarations, found)
}

// ---- declarations of the bindings

// Takes `NAME : TYPE`, with or without who may see it; answers it as `NAME: TYPE`.
fn rust_field(tokens: &mut Tokens) -> String {
    if accept(tokens, "pub") {
        expect(tokens, "(");
        expect(tokens, "crate");
        expect(tokens, ")");
    }
    let name = take(tokens);
    expect(tokens, ":");
    format!("{name}: {}", rust_kind(tokens))
}

// Takes a type.
fn rust_kind(tokens: &mut Tokens) -> String {
    if accept(tokens, "*") {
        return format!("*{} {}", take(tokens), take(tokens));
    }
    take(tokens).to_string()
}

// Takes `NAME ( parameters ) -> TYPE ;`, or without a type if there is no answer.
fn rust_function(tokens: &mut Tokens) -> String {
    let name = take(tokens);
    let mut parameters = Vec::new();
    expect(tokens, "(");
    while !accept(tokens, ")") {
        parameters.push(rust_field(tokens));
        accept(tokens, ",");
    }
    let answer = match accept(tokens, "-") {
        true => {
            expect(tokens, ">");
            rust_kind(tokens)
        }
        false => "()".into(),
    };
    expect(tokens, ";");
    format!("fn {name}({}) -> {answer}", parameters.join(", "))
}

// Takes `NAME { fields }`.
fn rust_struct(tokens: &mut Tokens) -> String {
    let name = take(tokens);
    let mut fields = Vec::new();
    expect(tokens, "{");
    while !accept(tokens, "}") {
        fields.push(rust_field(tokens));
        accept(tokens, ",");
    }
    format!("struct {name} {{ {} }}", fields.join(", "))
}

// Takes the attribute `[repr(NAME)]` that follows a `#`, and says whether it is this one.
fn accept_layout(tokens: &mut Tokens) -> bool {
    ["[", "repr", "(", "C", ")", "]"].iter().all(|wanted| accept(tokens, wanted))
}

// All structs of C's layout and all functions between `extern "C" {` and its end, in source of the bindings.
fn read_bindings(text: &str) -> Declarations {
    let all = rust_tokens(text);
    let mut tokens = all.iter().peekable();
    let mut declarations = Vec::new();
    while let Some(token) = tokens.next() {
        if token == "#" && accept_layout(&mut tokens) {
            if accept(&mut tokens, "pub") {
                ["(", "crate", ")"].iter().for_each(|wanted| expect(&mut tokens, wanted));
            }
            expect(&mut tokens, "struct");
            declarations.push(rust_struct(&mut tokens));
        } else if token == "extern" {
            ["\"", "C", "\"", "{"].iter().for_each(|wanted| expect(&mut tokens, wanted));
            while !accept(&mut tokens, "}") {
                expect(&mut tokens, "fn");
                declarations.push(rust_function(&mut tokens));
            }
        }
    }
    declarations
}

// ---- the comparison

// Where the declarations of a header and of bindings differ, one line each.
fn differences(header: &str, bindings: &str) -> Vec<String> {
    let header = read_header(header, "").0;
    let bindings = read_bindings(bindings);
    let entry = |list: &Declarations, index: usize| list.get(index).cloned().unwrap_or("nothing".into());
    (0..header.len().max(bindings.len()))
        .map(|index| (entry(&header, index), entry(&bindings, index)))
        .filter(|(header, bindings)| header != bindings)
        .map(|(header, bindings)| format!("header:   {header}\nbindings: {bindings}"))
        .collect()
}

// The declarations are the header's.
#[test]
fn declarations_are_those_of_the_header() {
    assert_eq!(read_bindings(BINDINGS).len(), 62, "50 functions and 12 structs");
    let differences = differences(HEADER, BINDINGS);
    assert!(differences.is_empty(), "the bindings differ from include/latchbeacon.h:\n{}", differences.join("\n"));
}

// The refusals have the header's names and numbers, and there are no others; the header has a name for 0 too.
#[test]
fn refusals_are_those_of_the_header() {
    let header = read_header(HEADER, "latchbeacon_refusal").1;
    let accepted = [("LATCHBEACON_ACCEPTED".to_string(), 0)];
    let refusals = Refusal::all().map(|refusal| (format!("LATCHBEACON_{}", upper(refusal.name())), refusal.number()));
    let bindings: Vec<(String, u8)> = accepted.into_iter().chain(refusals).collect();
    assert_eq!(header, bindings);
    for refusal in Refusal::all() {
        assert_eq!(Refusal::from_number(refusal.number()), refusal);
        assert_eq!(format!("{refusal:?}"), refusal.name());
    }
}

// No refusal has a number that was taken out, in the header or in the bindings: 19 is not used again.
#[test]
fn numbers_taken_out_are_not_used_again() {
    let header = read_header(HEADER, "latchbeacon_refusal").1;
    let bindings = Refusal::all().map(|refusal| refusal.number());
    let numbers: Vec<u8> = header.into_iter().map(|(_, number)| number).chain(bindings).collect();
    assert!(numbers.contains(&18) && numbers.contains(&20));
    assert!(!numbers.contains(&19));
    assert_eq!(Refusal::from_number(19), Refusal::Unknown(19));
}

// What a macro of a header stands for.
fn macro_of<'a>(header: &'a str, name: &str) -> &'a str {
    let define = format!("#define {name} ");
    let mut found = header.lines().filter_map(|line| line.strip_prefix(define.as_str()));
    let text = found.next().expect("a macro that the header has");
    assert_eq!(found.next(), None, "{name} is defined twice");
    text
}

// A number as texts have it: 16384 as 16,384.
fn with_comma(number: usize) -> String {
    format!("{},{:03}", number / 1000, number % 1000)
}

// The limits are the header's, in the texts of the refusals too, and stand in the header once.
#[test]
fn limits_are_those_of_the_header() {
    for (name, limit) in [("LATCHBEACON_MOST_WORDS", MOST_WORDS), ("LATCHBEACON_MOST_BYTES", MOST_BYTES)] {
        assert_eq!(macro_of(HEADER, name), limit.to_string());
        assert_eq!(HEADER.matches(&limit.to_string()).count(), 1);
        assert_eq!(HEADER.matches(&with_comma(limit)).count(), 0);
    }
    assert!(Refusal::Long.meaning().contains(&with_comma(MOST_WORDS)));
    assert!(Refusal::Range.meaning().contains(&with_comma(MOST_BYTES)));
}

// The words of a table are as many as the header says.
#[test]
fn table_is_that_of_the_header() {
    let define = "const PORTS_TABLE: usize = ";
    let number = BINDINGS.lines().find_map(|line| line.split_once(define)).map(|(_, number)| number.trim_end_matches(';'));
    assert_eq!(number, Some(macro_of(HEADER, "LATCHBEACON_PORTS_TABLE")));
}

// The version is that of this crate.
#[test]
fn version_is_that_of_the_header() {
    let parts = ["MAJOR", "MINOR", "PATCH"].map(|part| macro_of(HEADER, &format!("LATCHBEACON_VERSION_{part}")));
    assert_eq!(parts.join("."), env!("CARGO_PKG_VERSION"));
    assert_eq!(macro_of(HEADER, "LATCHBEACON_VERSION"), format!("\"{}\"", env!("CARGO_PKG_VERSION")));
}

// The names and numbers of the first enum of source of the bindings, which has this name, as the header would have them.
fn enum_of(source: &str, name: &str, prefix: &str) -> Vec<(String, u8)> {
    let all = rust_tokens(source);
    let mut tokens = all.iter().peekable();
    while tokens.next().expect("an enum") != "enum" {}
    expect(&mut tokens, name);
    numbers(&mut tokens).into_iter().map(|(name, number)| (format!("{prefix}{}", upper(&name)), number)).collect()
}

// The kinds of packets have the header's names and numbers, and there are no others.
#[test]
fn kinds_are_those_of_the_header() {
    assert_eq!(read_header(HEADER, "latchbeacon_kind").1, enum_of(KINDS, "Kind", "LATCHBEACON_KIND_"));
}

// The sources of runs have the header's names and numbers, there are no others, and they are taken by these; the last is taken without
// its number.
#[test]
fn sources_are_those_of_the_header() {
    let header = read_header(HEADER, "latchbeacon_run_source").1;
    assert_eq!(header.len(), 3);
    assert_eq!(header, enum_of(SOURCES, "Source", "LATCHBEACON_RUN_"));
    assert_eq!(header_arms(header), arms_of(SOURCES, "Source", "LATCHBEACON_RUN_"));
}

// The arms `NUMBER => ENUM::NAME` of source of the bindings, each as the header's name and the number.
fn arms_of(source: &str, name: &str, prefix: &str) -> Vec<(String, String)> {
    let tokens = rust_tokens(source);
    let arms = tokens.windows(7).filter(|arm| arm[1..6] == ["=", ">", name, ":", ":"]);
    arms.map(|arm| (format!("{prefix}{}", upper(&arm[6])), arm[0].clone())).collect()
}

// The arms that an enum of the header asks for, the last without its number.
fn header_arms(header: Vec<(String, u8)>) -> Vec<(String, String)> {
    let mut wanted: Vec<(String, String)> = header.into_iter().map(|(name, number)| (name, number.to_string())).collect();
    wanted.last_mut().expect("an enum that is not empty").1 = "_".into();
    wanted
}

// The kinds of origins are taken by the header's numbers and names, and there are no others; the last is taken without its number.
#[test]
fn origins_are_those_of_the_header() {
    let header = read_header(HEADER, "latchbeacon_origin_kind").1;
    assert_eq!(header_arms(header), arms_of(ORIGINS, "Origin", "LATCHBEACON_ORIGIN_"));
}

// What a received packet did is taken by the header's numbers and names, and there is no more; the last is taken without its number.
#[test]
fn received_kinds_are_those_of_the_header() {
    let header = read_header(HEADER, "latchbeacon_received_kind").1;
    assert_eq!(header.len(), 3);
    assert_eq!(header_arms(header), arms_of(PORTS, "Received", "LATCHBEACON_RECEIVED_"));
}

// Changes of the declarations: a type, a name, an order, a missing and an extra declaration, a missing layout.
const CHANGES: [(&str, &str); 36] = [
    ("fn latchbeacon_bit(word: u32,", "fn latchbeacon_bit(word: u64,"),
    ("fn latchbeacon_bit(word", "fn latchbeacon_bits(word"),
    ("index: usize, value: bool)", "value: bool, index: usize)"),
    ("fn latchbeacon_sysex8_words_needed(size: usize) -> usize;", ""),
    ("fn latchbeacon_growth", "fn latchbeacon_more(word: u32) -> usize;\n    fn latchbeacon_growth"),
    ("fn latchbeacon_sysex8_payload(words: *const u32", "fn latchbeacon_sysex8_payload(words: *mut u32"),
    ("payload: *const u8,\n", "payload: *mut u8,\n"),
    ("payload_size: usize, group: u8, id: u8) -> Number;", "payload_size: usize, id: u8, group: u8) -> Number;"),
    ("numbers: *const usize", "numbers: *const u32"),
    ("bytes_lent: usize, octet: usize) -> Origin;", "octet: usize, bytes_lent: usize) -> Origin;"),
    ("    pub(crate) number: usize,", "    pub(crate) number: u8,"),
    ("    pub(crate) source: u8,", "    pub(crate) source: usize,"),
    ("    pub(crate) start: usize,\n    pub(crate) end: usize,", "    pub(crate) end: usize,\n    pub(crate) start: usize,"),
    ("replacement_size: usize, position: usize) -> Run;", "position: usize, replacement_size: usize) -> Run;"),
    ("fn latchbeacon_look_byte(payload: *const u8", "fn latchbeacon_look_byte(payload: *mut u8"),
    ("bytes_lent: usize, position: usize) -> Number;", "position: usize, bytes_lent: usize) -> Number;"),
    ("number: usize, position: usize) -> Number;", "position: usize, number: usize) -> Number;"),
    ("pending_length: usize, done_first: bool) -> Range;", "pending_length: usize, done_first: bool) -> EditGrowth;"),
    ("bytes: *mut u8, bytes_lent: usize) -> Number", "bytes: *mut u8) -> Number"),
    ("    pub(crate) from: usize,\n    pub(crate) to: usize,", "    pub(crate) to: usize,\n    pub(crate) from: usize,"),
    ("    ended: bool,", "    ended: u8,"),
    ("    pub(crate) delta: bool,", "    pub(crate) delta: u8,"),
    ("    pub(crate) words: usize,\n    pub(crate) steps: usize,", "    pub(crate) steps: usize,\n    pub(crate) words: usize,"),
    ("store_size: usize, number: usize) -> Dump;", "number: usize, store_size: usize) -> Dump;"),
    ("number: usize, words: *mut u32", "number: usize, words: *const u32"),
    ("latchbeacon_store_mark(store: *mut u8", "latchbeacon_store_mark(store: *const u8"),
    ("    fn latchbeacon_store_collect(store: *mut u8, store_size: usize) -> Number;\n", ""),
    ("fn latchbeacon_ports_clear(table: *mut u32);", "fn latchbeacon_ports_clear(table: *mut u32) -> usize;"),
    ("fn latchbeacon_ports_clear(table: *mut u32);", "fn latchbeacon_ports_clear(table: *mut u32, words: usize);"),
    ("words_lent: usize, port: u8, packet: *const u32", "port: u8, words_lent: usize, packet: *const u32"),
    ("port: u8, packet: *const u32", "port: usize, packet: *const u32"),
    ("packet: *const u32", "packet: *mut u32"),
    ("output: *mut u32, output_lent: usize) -> Received;", "output: *const u32, output_lent: usize) -> Received;"),
    ("    pub(crate) kind: u8,\n    pub(crate) words: usize,", "    pub(crate) words: usize,\n    pub(crate) kind: u8,"),
    ("    pub(crate) id: u8,\n", ""),
    ("#[repr(C)]\npub(crate) struct Change", "pub(crate) struct Change"),
];

// Each of these changes fails the comparison.
#[test]
fn a_change_of_a_declaration_is_seen() {
    for (declared, changed) in CHANGES {
        assert!(BINDINGS.contains(declared), "no such declaration: {declared}");
        assert!(!differences(HEADER, &BINDINGS.replacen(declared, changed, 1)).is_empty(), "not seen: {changed}");
    }
}

// A change of the header is seen too.
#[test]
fn a_change_of_the_header_is_seen() {
    let changes = [
        ("uint32_t word, size_t index);", "uint32_t word, uint32_t index);"),
        ("const uint8_t *replacement", "uint8_t *replacement"),
        ("size_t latchbeacon_sysex8_remaining", "uint32_t latchbeacon_sysex8_remaining"),
        ("    int64_t growth;\n} latchbeacon_change;", "    size_t growth;\n} latchbeacon_change;"),
        ("void latchbeacon_ports_clear", "size_t latchbeacon_ports_clear"),
        ("    size_t words;\n} latchbeacon_received;", "    uint8_t words;\n} latchbeacon_received;"),
    ];
    for (declared, changed) in changes {
        assert!(HEADER.contains(declared), "no such declaration: {declared}");
        assert!(!differences(&HEADER.replacen(declared, changed, 1), BINDINGS).is_empty(), "not seen: {changed}");
    }
}
