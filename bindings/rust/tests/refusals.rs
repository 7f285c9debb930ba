//! Every refusal that a call can give, with its number, name and place; and that nothing is changed by it.

use latchbeacon::{
    bytes_to_sysex7, fields, look, move_edit, sysex7, sysex8, Edit, Error, Message, Origin, Ports, Refusal, View, MOST_BYTES,
};

const START: u32 = 0x5011_0900;
const CONTINUE: u32 = 0x5021_0900;
const END: u32 = 0x5031_0900;

// A message of packets with these first words.
fn packets(firsts: &[u32]) -> Vec<u32> {
    firsts.iter().flat_map(|first| [*first, 0, 0, 0]).collect()
}

// Number and place of the refusal of a check.
fn check(words: &[u32], length: usize) -> (u8, usize) {
    let error = View::check(words, length).unwrap_err();
    let mut copy = words.to_vec();
    assert_eq!(Message::check(&mut copy, length).unwrap_err(), error);
    assert_eq!(latchbeacon::Payload::open(words, length).unwrap_err(), error);
    assert_eq!(copy, words);
    (error.number(), error.place)
}

// The check's refusals, 1 to 12.
#[test]
fn refusals_of_the_check() {
    assert_eq!(check(&[0; 16_385], 4), (1, 0));
    assert_eq!(check(&sysex8::EMPTY, 5), (2, 0));
    assert_eq!(check(&sysex8::EMPTY, usize::MAX), (2, 0));
    assert_eq!(check(&[], 0), (3, 0));
    assert_eq!(check(&sysex8::EMPTY, 3), (3, 0));
    assert_eq!(check(&packets(&[START, END]), 6), (4, 0));
    assert_eq!(check(&packets(&[START, 0x4031_0900]), 8), (5, 4));
    assert_eq!(check(&packets(&[START]), 4), (6, 0));
    assert_eq!(check(&packets(&[CONTINUE, END]), 8), (7, 0));
    assert_eq!(check(&packets(&[START, END, END]), 12), (8, 4));
    assert_eq!(check(&packets(&[START, CONTINUE]), 8), (9, 4));
    assert_eq!(check(&packets(&[START, CONTINUE, 0x503F_0900]), 12), (10, 8));
    assert_eq!(check(&packets(&[START, 0x5121_0900, END]), 12), (11, 4));
    assert_eq!(check(&packets(&[START, CONTINUE, 0x5031_0800]), 12), (12, 8));
}

// The check's refusals of SysEx7.
#[test]
fn refusals_of_the_check_of_sysex7() {
    let check = |words: &[u32]| sysex7::check(words, words.len()).map_err(|error| (error.number(), error.place)).unwrap_err();
    assert_eq!(check(&[0x3000_0000]), (3, 0));
    assert_eq!(check(&[0x3010_0000, 0, 0x3030_0000]), (4, 0));
    assert_eq!(check(&[0x3010_0000, 0, 0x5030_0000, 0]), (5, 2));
    assert_eq!(check(&[0x3010_0000, 0, 0x3037_0000, 0]), (10, 2));
    assert_eq!(check(&[0x3010_0000, 0, 0x3130_0000, 0]), (11, 2));
}

// A call on a message.
type Call = fn(&mut Message) -> Result<(), Error>;

// A refused call on a message changes neither it nor the words past it.
#[test]
fn a_refused_call_changes_nothing() {
    let refusals: [Call; 12] = [
        |message| message.set_group(16),
        |message| message.set_byte(2, 0),
        |message| message.splice(Edit { from: 2, to: 1, length: 0 }.range(), &[]).map(drop),
        |message| message.splice(0..3, &[]).map(drop),
        |message| message.splice(..=usize::MAX, &[]).map(drop),
        |message| message.insert(3, &[1]).map(drop),
        |message| message.append(&[0; 64]).map(drop),
        |message| message.splice_all(&[(1..2, &[1]), (0..1, &[])]).map(drop),
        |message| message.splice_edits(&[Edit::new(0..1, 2)], &[1]).map(drop),
        |message| message.splice_edits(&[Edit::new(0..0, usize::MAX); 3], &[1]).map(drop),
        |message| message.carries(&[0x41, 0x42], 16, 7),
        |message| message.carries(&[0x41, 0x43], 2, 7),
    ];
    let wanted = [16, 13, 13, 13, 13, 13, 14, 20, 13, 13, 16, 26];
    for (refusal, number) in refusals.into_iter().zip(wanted) {
        let mut words = [0x5203_0741, 0x4200_0000, 0, 0, 1, 2, 3, 4];
        let before = words;
        let mut message = Message::check(&mut words, 4).unwrap();
        let summary = message.summary();
        let error = refusal(&mut message).unwrap_err();
        assert_eq!((error.number(), error.place), (number, 0));
        assert_eq!(message.summary(), summary);
        assert_eq!(words, before);
    }
}

// Bytes and room for a payload out.
#[test]
fn reads_are_refused() {
    let words = [0x5203_0741, 0x4200_0000, 0, 0];
    let view = View::check(&words, 4).unwrap();
    assert_eq!(view.byte(2).unwrap_err().refusal, Refusal::Range);
    let mut bytes = [0xFF; 1];
    assert_eq!(view.copy_payload(&mut bytes).unwrap_err().refusal, Refusal::Room);
    assert_eq!(bytes, [0xFF]);
    assert_eq!(View::check(&sysex8::EMPTY, 4).unwrap().copy_payload(&mut []), Ok(0));
}

// Edits: numbers too big, reversed, out of order.
#[test]
fn edits_are_refused() {
    let edit = Edit::new(3..5, 1);
    assert_eq!(Edit::new(0..0, 53_248).growth(), Ok(53_248));
    assert_eq!(Edit { from: 5, to: 3, length: 0 }.growth().unwrap_err().refusal, Refusal::Range);
    assert_eq!(Edit::new(0..0, 53_249).growth().unwrap_err().refusal, Refusal::Range);
    assert_eq!(move_edit(edit, Edit::new(0..usize::MAX, 0), true).unwrap_err().refusal, Refusal::Range);
    assert_eq!(move_edit(edit, Edit::new(4..6, 0), true).unwrap_err().refusal, Refusal::Overlap);
    assert_eq!(move_edit(edit, Edit::new(0..3, 9), false), Ok(Edit::new(0..3, 9)));
}

// Origins: the list, its order, the room, the octet; each is asked with the next at fault too, so that the order shows.
#[test]
fn origins_are_refused() {
    let words = [0x5203_0741, 0x4200_0000, 0, 0, 1];
    let mut copy = words;
    let message = Message::check(&mut copy, 4).unwrap();
    let refused = |edits: &[Edit], count: usize, octet| {
        let error = message.origin(edits, &vec![0; count], octet).unwrap_err();
        assert_eq!(error.place, 0);
        error.number()
    };
    let (first, second, long) = (Edit::new(0..1, 0), Edit::new(1..2, 0), Edit::new(0..0, 12));
    assert_eq!(refused(&[second, Edit { from: 1, to: 0, length: 14 }], 14, 20), 13);
    assert_eq!(refused(&[second, Edit::new(0..3, 14)], 14, 20), 13);
    assert_eq!(refused(&[second, Edit::new(0..0, 53_249)], 53_249, 20), 13);
    assert_eq!(refused(&[second, Edit::new(0..0, 14)], 13, 20), 13);
    assert_eq!(refused(&[second, first, long], 12, 20), 20);
    assert_eq!(refused(&[second, long], 12, 20), 20);
    assert_eq!(refused(&[long], 12, 20), 14);
    assert_eq!(refused(&[long], 12, 0), 14);
    assert_eq!(refused(&[first, second], 0, 20), 13);
    assert_eq!(refused(&[], 0, usize::MAX), 13);
    assert_eq!(message.origin(&[first, second], &[], 19), Ok(Origin::Untouched));
    assert_eq!(View::check(&words, 4).unwrap().origin(&[], &[], 16).unwrap_err().number(), 13);
    assert_eq!(copy, words);
}

// A byte after a list of edits: the list, its order, the position; each is asked with the next at fault too, so that the order shows.
// It is asked of the payload and of a message, which has no room for more.
#[test]
fn looks_are_refused() {
    let words = [0x5203_0741, 0x4200_0000, 0, 0];
    let view = View::check(&words, 4).unwrap();
    let asked = |edits: &[Edit], count: usize, position| {
        let bytes = vec![0; count];
        let answer = look::byte(&[0x41, 0x42], edits, &bytes, position);
        assert_eq!(view.byte_after(edits, &bytes, position), answer);
        answer.map_err(|error| (error.number(), error.place))
    };
    let (first, second, long) = (Edit::new(0..1, 0), Edit::new(1..2, 0), Edit::new(0..0, 12));
    let (past, above) = (usize::MAX, MOST_BYTES + 1);
    assert_eq!(asked(&[second, Edit { from: 1, to: 0, length: 0 }], 0, past), Err((13, 0)));
    assert_eq!(asked(&[second, Edit::new(0..3, 0)], 0, past), Err((13, 0)));
    assert_eq!(asked(&[second, Edit::new(0..past, 0)], 0, past), Err((13, 0)));
    assert_eq!(asked(&[second, Edit::new(0..0, above)], above, past), Err((13, 0)));
    assert_eq!(asked(&[second, Edit::new(0..0, past), Edit::new(0..0, past)], 0, past), Err((13, 0)));
    assert_eq!(asked(&[second, long], 11, past), Err((13, 0)));
    assert_eq!(asked(&[second, long], 13, past), Err((13, 0)));
    assert_eq!(asked(&[], 1, 0), Err((13, 0)));
    assert_eq!(asked(&[second, first], 0, past), Err((20, 0)));
    assert_eq!(asked(&[second, long], 12, 0), Err((20, 0)));
    assert_eq!(asked(&[long], 12, past), Err((13, 0)));
    assert_eq!(asked(&[long], 12, 14), Err((13, 0)));
    assert_eq!(asked(&[first, second], 0, 0), Err((13, 0)));
    assert_eq!(asked(&[], 0, 2), Err((13, 0)));
    assert_eq!(asked(&[long], 12, 13), Ok(0x42));
    assert_eq!(asked(&[Edit::new(2..2, MOST_BYTES)], MOST_BYTES, MOST_BYTES + 1), Ok(0));
}

// What other senders write: the check, the group named, then what differs; each is asked with the next at fault too, so that the order
// shows.
#[test]
fn other_senders_are_refused() {
    let refused = |words: &[u32], length, payload: &[u8], group, id| {
        let answer = View::check(words, length).and_then(|view| view.carries(payload, group, id));
        answer.map_err(|error| (error.number(), error.place)).unwrap_err()
    };
    let good = packets(&[START, CONTINUE + 0x1_0001, CONTINUE, END + 0x1_0002]);
    assert_eq!(View::check(&good, 16).unwrap().carries(&[1, 2], 0, 9), Ok(()));
    let long = [&good[..], &[0; 16_384]].concat();
    assert_eq!(refused(&long, 17, &[9], 16, 8), (1, 0));
    assert_eq!(refused(&good, 17, &[9], 16, 8), (2, 0));
    assert_eq!(refused(&good, 0, &[9], 16, 8), (3, 0));
    assert_eq!(refused(&good, 15, &[9], 16, 8), (4, 0));
    assert_eq!(refused(&packets(&[START, 0x4031_0900]), 8, &[9], 16, 8), (5, 4));
    assert_eq!(refused(&good, 4, &[9], 16, 8), (6, 0));
    assert_eq!(refused(&good[4..], 12, &[9], 16, 8), (7, 0));
    assert_eq!(refused(&packets(&[START, CONTINUE, END, END]), 16, &[9], 16, 8), (8, 8));
    assert_eq!(refused(&good, 12, &[9], 16, 8), (9, 8));
    assert_eq!(refused(&packets(&[START, 0x502F_0900, END]), 12, &[9], 16, 8), (10, 4));
    assert_eq!(refused(&packets(&[START, CONTINUE, 0x5131_0900]), 12, &[9], 16, 8), (11, 8));
    assert_eq!(refused(&packets(&[START, CONTINUE, 0x5031_0800]), 12, &[9], 16, 8), (12, 8));
    assert_eq!([16, 255].map(|group| refused(&good, 16, &[9], group, 8)), [(16, 0); 2]);
    assert_eq!([(1, 9), (0, 8), (1, 8)].map(|(group, id)| refused(&good, 16, &[1, 9], group, id)), [(26, 0); 3]);
    assert_eq!([&[9, 9][..], &[9], &[9, 2, 3]].map(|payload| refused(&good, 16, payload, 0, 9)), [(26, 4); 3]);
    assert_eq!([&[1, 9][..], &[1, 9, 3]].map(|payload| refused(&good, 16, payload, 0, 9)), [(26, 12); 2]);
    assert_eq!([&[][..], &[1], &[1, 2, 3]].map(|payload| refused(&good, 16, payload, 0, 9)), [(26, 0); 3]);
}

// Packets of interleaved streams: each refusal that only they get, and the two that a store and a message have too. tests/ports.rs has
// their order, and that nothing is changed.
#[test]
fn received_packets_are_refused() {
    let mut ports = Ports::new(64).unwrap();
    let mut refused = |port, first: u32, lent: usize| match ports.receive(port, &[first, 0, 0, 0], &mut vec![0; lent]) {
        Ok(_) => (0, 0),
        Err(error) => (error.number(), error.place),
    };
    assert_eq!(refused(2, START, 0), (29, 0));
    assert_eq!([CONTINUE, END, 0x503F_0900].map(|first| refused(1, first, 8)), [(30, 0); 3]);
    for id in 0..12 {
        assert_eq!(refused(0, 0x5011_0000 | id << 8, 0), (0, 0));
    }
    assert_eq!(refused(0, 0x5011_0C00, 0), (31, 0));
    for id in 0..4 {
        assert_eq!(refused(1, 0x5011_0000 | id << 8, 0), (0, 0));
    }
    assert_eq!(refused(1, 0x5011_0C00, 0), (23, 0));
    assert_eq!([refused(1, 0x5021_0100, 8), refused(1, 0x5031_0100, 7), refused(1, 0x5001_0100, 3)], [(14, 0); 3]);
    assert_eq!(refused(1, 0x5031_0100, 8), (0, 0));
}

// Single packets and streams.
#[test]
fn packets_and_streams_are_refused() {
    let sysex8 = |words: &[u32]| sysex8::Packet::read(words).map_err(|error| error.number()).unwrap_err();
    assert_eq!(sysex8(&[0x5001_0000, 0, 0]), 3);
    assert_eq!(sysex8(&[0x3001_0000, 0, 0, 0]), 5);
    assert_eq!(sysex8(&[0x5040_0000, 0, 0, 0]), 15);
    assert_eq!(sysex8(&[0x5000_0000, 0, 0, 0]), 10);
    let mut packet = sysex8::Packet::read(&[0x5203_0741, 0x4200_0000, 0, 0]).unwrap();
    assert_eq!(packet.byte(2).unwrap_err().number(), 13);
    assert_eq!(packet.set_group(16).unwrap_err().number(), 16);
    assert_eq!((packet.group(), packet.words()), (2, &[0x5203_0741, 0x4200_0000, 0, 0]));
    let stream = |bytes: &[u8], group, words: &mut [u32]| bytes_to_sysex7(bytes, group, words).unwrap_err().number();
    assert_eq!(stream(&[0xF0, 0xF7], 0, &mut [0; 16_385]), 1);
    assert_eq!(stream(&[], 16, &mut []), 16);
    assert_eq!(stream(&[], 0, &mut []), 17);
    assert_eq!(stream(&[0xF0, 0xF7], 0, &mut [0]), 14);
}

// Streams: each is asked with the next at fault too, so that the order shows; no word changes.
#[test]
fn streams_are_refused_in_order() {
    let refused = |bytes: &[u8], group, lent| {
        let mut words = vec![0x0102_0304; lent];
        let error = bytes_to_sysex7(bytes, group, &mut words).unwrap_err();
        assert!(words.iter().all(|word| *word == 0x0102_0304));
        (error.number(), error.place)
    };
    assert_eq!(refused(&[0xF0, 0x80], 16, 16_385), (1, 0));
    assert_eq!(refused(&[0xF0, 0x80], 16, 0), (16, 0));
    assert_eq!(refused(&[0xF0, 0x80, 0xF8], 0, 0), (17, 0));
    assert_eq!(refused(&[0xF8, 0xF0, 0x80, 0xF7], 0, 0), (17, 0));
    assert_eq!(refused(&[0xF0, 0xF7, 0xF8], 0, 0), (17, 0));
    assert_eq!(refused(&[0xF8], 0, 0), (17, 0));
    assert_eq!(refused(&[0xF0, 0xF8, 0x80, 0xF7], 0, 0), (18, 2));
    assert_eq!(refused(&[0xF0, 0xF8, 1, 0xFF, 0xF7, 0x80, 0xF7], 0, 1), (18, 4));
    assert_eq!(refused(&[0xF0, 0xF0, 0xF7], 0, 2), (18, 1));
    assert_eq!(refused(&[0xF0, 0xF8, 0xF7], 0, 1), (14, 0));
    assert_eq!(refused(&[0xF0, 1, 2, 3, 0xF8, 4, 5, 6, 7, 0xF7], 0, 3), (14, 0));
}

// Every byte between F0 and F7: below 80 hex it is data, from F8 on it is passed over, else it is refused.
#[test]
fn every_byte_of_a_stream() {
    for byte in 0..=255 {
        let mut words = [0x0102_0304; 2];
        let answer = bytes_to_sysex7(&[0xF0, 0xFE, byte, 0xF7], 0, &mut words);
        match byte {
            0..=0x7F => assert_eq!((answer, words), (Ok(2), [0x3001_0000 | u32::from(byte) << 8, 0])),
            0x80..=0xF7 => {
                assert_eq!((answer, words), (Err(Error { refusal: Refusal::Byte, place: 2 }), [0x0102_0304; 2]))
            }
            0xF8..=0xFF => assert_eq!((answer, words), (Ok(2), [0x3000_0000, 0])),
        }
    }
}

// Fields: the first index past the last of each, and values that do not fit.
#[test]
fn fields_are_refused() {
    let word = 0x1234_5678;
    assert_eq!(fields::bit(word, 32).unwrap_err().number(), 16);
    assert_eq!(fields::crumb(word, 16).unwrap_err().number(), 16);
    assert_eq!(fields::nibble(word, 8).unwrap_err().number(), 16);
    assert_eq!(fields::septet(word, 4).unwrap_err().number(), 16);
    assert_eq!(fields::octet(word, 4).unwrap_err().number(), 16);
    assert_eq!(fields::word(word, 2).unwrap_err().number(), 16);
    assert_eq!(fields::set_bit(word, 32, true).unwrap_err().number(), 16);
    assert_eq!(fields::set_crumb(word, 0, 4).unwrap_err().number(), 16);
    assert_eq!(fields::set_nibble(word, 0, 16).unwrap_err().number(), 16);
    assert_eq!(fields::set_septet(word, 0, 128).unwrap_err().number(), 16);
    assert_eq!(fields::set_octet(word, 4, 0).unwrap_err().number(), 16);
    assert_eq!(fields::set_word(word, usize::MAX, 0).unwrap_err().number(), 16);
}

// An error says its number, name, place and meaning; an unknown number keeps its number.
#[test]
fn errors_are_clear() {
    for refusal in Refusal::all() {
        let text = Error { refusal, place: 8 }.to_string();
        assert!(text.starts_with(&format!("refusal {} ({}) at ", refusal.number(), refusal.name())), "{text}");
        assert!(text.ends_with(&format!("8: {}", refusal.meaning())), "{text}");
    }
    let text = "refusal 26 (Other) at word 8: the message has another group, stream id or payload than the one named";
    assert_eq!(Error { refusal: Refusal::Other, place: 8 }.to_string(), text);
    for (number, text) in [
        (29, "refusal 29 (Port) at 0: a port other than 0 and 1"),
        (30, "refusal 30 (Closed) at 0: continue or end, and no start before it"),
        (31, "refusal 31 (Share) at 0: a new stream, 12 of its port open"),
        (27, "refusal 27 (Unknown) at 0: a refusal that these bindings do not know"),
    ] {
        assert_eq!(Error { refusal: Refusal::from_number(number), place: 0 }.to_string(), text);
    }
    let later = Error { refusal: Refusal::from_number(200), place: 0 };
    assert_eq!(later.to_string(), "refusal 200 (Unknown) at 0: a refusal that these bindings do not know");
    let boxed: Box<dyn std::error::Error + Send + Sync> = Box::new(later);
    assert_eq!(boxed.to_string(), later.to_string());
}
