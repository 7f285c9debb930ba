//! The samples of docs/01-scope.md, P1 to P12 and those after them, through the bindings.

use latchbeacon::{bytes_to_sysex7, move_edit, sysex7, sysex8, Edit, Error, Kind, Message, Origin, Refusal, Summary, View};

const P2: [u32; 4] = [0x5203_0741, 0x4200_0000, 0, 0];
const P4: [u32; 8] = [0x501E_0001, 0x0203_0405, 0x0607_0809, 0x0A0B_0C0D, 0x5031_0000, 0, 0, 0];
const P5: [u32; 12] = [0x5113_05A0, 0xA100_0000, 0, 0, 0x5121_0500, 0, 0, 0, 0x5132_05A2, 0, 0, 0];
const BYTES: [u8; 13] = [0x10, 0x11, 0x12, 0x13, 0x14, 0x15, 0x16, 0x17, 0x18, 0x19, 0x1A, 0x1B, 0x1C];

// What a refused call answers.
fn refused<T>(refusal: Refusal, place: usize) -> Result<T, Error> {
    Err(Error { refusal, place })
}

// Holds a message to what it packs to, in a buffer of its own words alone.
fn assert_packs<const N: usize>(mut words: [u32; N], packed: [u32; 4]) {
    let mut message = Message::check(&mut words, N).unwrap();
    let payload: Vec<u8> = message.payload().collect();
    assert_eq!(message.repack(), Ok(4));
    assert_eq!(message.words(), packed);
    assert!(message.payload().eq(payload));
    assert_eq!(words[..4], packed);
    assert!(words[4..].iter().all(|word| *word == 0));
}

// P1: the empty message.
#[test]
fn p1() {
    let view = View::check(&[0x5001_0000, 0, 0, 0], 4).unwrap();
    assert_eq!(view.summary(), Summary { group: 0, stream_id: 0, size: 0, words: 4 });
    assert_eq!(view.payload().next(), None);
}

// P2: one packet of two bytes.
#[test]
fn p2() {
    let view = View::try_from(&P2[..]).unwrap();
    assert_eq!(view.summary(), Summary { group: 2, stream_id: 7, size: 2, words: 4 });
    assert!(view.payload().eq([0x41, 0x42]));
}

// P3 to P5: what packs to one packet.
#[test]
fn p3_p4_p5() {
    assert_packs([0x5011_0900, 0, 0, 0, 0x5031_0900, 0, 0, 0], [0x5001_0900, 0, 0, 0]);
    assert_packs(P4, [0x500E_0001, 0x0203_0405, 0x0607_0809, 0x0A0B_0C0D]);
    assert_packs(P5, [0x5104_05A0, 0xA1A2_0000, 0, 0]);
}

// P1 to P5 carry their payloads, before and after they are packed. P5's second packet is empty: its third byte stands at word 8.
#[test]
fn p1_to_p5_carry_their_payloads() {
    let empty = [0x5011_0900, 0, 0, 0, 0x5031_0900, 0, 0, 0];
    let payload: Vec<u8> = (1..=13).collect();
    let samples: [(&[u32], &[u8], u8, u8); 5] = [
        (&sysex8::EMPTY, &[], 0, 0),
        (&P2, &[0x41, 0x42], 2, 7),
        (&empty, &[], 0, 9),
        (&P4, &payload, 0, 0),
        (&P5, &[0xA0, 0xA1, 0xA2], 1, 5),
    ];
    for (words, payload, group, id) in samples {
        let mut words = words.to_vec();
        let mut message = Message::try_from(&mut words[..]).unwrap();
        for _ in 0..2 {
            assert_eq!(message.carries(payload, group, id), Ok(()));
            assert_eq!(message.carries(&[payload, &[0]].concat(), group, id), refused(Refusal::Other, 0));
            assert_eq!(message.carries(payload, group, id + 1), refused(Refusal::Other, 0));
            message.repack().unwrap();
        }
    }
    let view = View::try_from(&P5[..]).unwrap();
    assert_eq!(view.carries(&[0xA0, 0xA1, 0xA3], 1, 5), refused(Refusal::Other, 8));
    assert_eq!(view.carries(&[0xA0, 0xA1, 0xA2], 16, 5), refused(Refusal::Field, 0));
}

// P6: thirteen bytes put in at 1.
#[test]
fn p6() {
    let mut words = [0; 8];
    words[..4].copy_from_slice(&P2);
    let mut message = Message::check(&mut words, 4).unwrap();
    assert_eq!(message.splice(1..1, &BYTES), Ok(13));
    let wanted = [0x521E_0741, 0x1011_1213, 0x1415_1617, 0x1819_1A1B, 0x5233_071C, 0x4200_0000, 0, 0];
    assert_eq!(message.words(), wanted);
    assert_eq!(message.summary(), View::check(&wanted, 8).unwrap().summary());
}

// The origins of all octets of a buffer, for the edits of a list.
fn origins(words: &mut [u32], length: usize, edits: &[Edit], bytes: &[u8]) -> Vec<Origin> {
    let octets = 4 * words.len();
    let message = Message::check(words, length).unwrap();
    assert_eq!(message.origin(edits, bytes, octets), refused(Refusal::Range, 0));
    (0..octets).map(|octet| message.origin(edits, bytes, octet).unwrap()).collect()
}

// The origins of the header of a packet.
fn header(packet: usize) -> [Origin; 3] {
    [0, 1, 2].map(|octet| Origin::Header { packet, octet })
}

// P6, octet by octet: 41 and 12 of the bytes put in, the last of them and 42; then nine words lent.
#[test]
fn p6_by_origin() {
    let mut words = [0; 9];
    words[..4].copy_from_slice(&P2);
    let found = origins(&mut words, 4, &[Edit::new(1..1, 13)], &BYTES);
    let edit = |byte| Origin::Edit { edit: 0, byte };
    assert_eq!(found[..3], header(0));
    assert_eq!(found[3], Origin::Dump { byte: 0 });
    assert_eq!(found[4..16], [0, 1, 2, 3, 4, 5, 6, 7, 8, 9, 10, 11].map(edit));
    assert_eq!(found[16..19], header(1));
    assert_eq!(found[19..21], [edit(12), Origin::Dump { byte: 1 }]);
    assert_eq!(found[21..32], [Origin::Filler; 11]);
    assert_eq!(found[32..], [Origin::Untouched; 4]);
}

// P7: the same with 7 words lent.
#[test]
fn p7() {
    let mut words = [0xFFFF_FFFF; 7];
    words[..4].copy_from_slice(&P2);
    let before = words;
    let mut message = Message::check(&mut words, 4).unwrap();
    assert_eq!(message.splice(1..1, &BYTES), refused(Refusal::Room, 0));
    assert_eq!((message.length(), message.size()), (4, 2));
    assert_eq!(words, before);
}

// Two edits of P5's message in both orders and at once.
fn both_orders(edits: [(Edit, &[u8]); 2]) -> [Vec<u32>; 3] {
    let [(first, first_bytes), (second, second_bytes)] = edits;
    let mut results = [(); 3].map(|()| P5.to_vec());
    let [one, other, at_once] = &mut results;
    let mut one = Message::try_from(&mut one[..]).unwrap();
    one.splice(first.range(), first_bytes).unwrap();
    one.splice(move_edit(first, second, true).unwrap().range(), second_bytes).unwrap();
    let mut other = Message::try_from(&mut other[..]).unwrap();
    other.splice(second.range(), second_bytes).unwrap();
    other.splice(move_edit(second, first, false).unwrap().range(), first_bytes).unwrap();
    let mut at_once = Message::try_from(&mut at_once[..]).unwrap();
    at_once.splice_all(&[(first.range(), first_bytes), (second.range(), second_bytes)]).unwrap();
    [one, other, at_once].map(|message| message.words().to_vec())
}

// P8 and P9: the same words either way round.
#[test]
fn p8_p9() {
    for words in both_orders([(Edit::new(0..1, 2), &[0xB0, 0xB1]), (Edit::new(2..3, 0), &[])]) {
        assert_eq!(words, [0x5104_05B0, 0xB1A1_0000, 0, 0]);
    }
    for words in both_orders([(Edit::new(1..1, 1), &[0xC0]), (Edit::new(1..1, 1), &[0xC1])]) {
        assert_eq!(words, [0x5106_05A0, 0xC0C1_A1A2, 0, 0]);
    }
}

// P8 and P9, octet by octet: one packet is left of three, and one word stands behind them.
#[test]
fn p8_p9_by_origin() {
    let mut words = [0xFFFF_FFFF; 13];
    words[..12].copy_from_slice(&P5);
    let (dump, edit) = (|byte| Origin::Dump { byte }, |edit, byte| Origin::Edit { edit, byte });
    let p8 = origins(&mut words, 12, &[Edit::new(0..1, 2), Edit::new(2..3, 0)], &[0xB0, 0xB1]);
    assert_eq!(p8[..3], header(0));
    assert_eq!(p8[3..6], [edit(0, 0), edit(0, 1), dump(1)]);
    assert_eq!(p8[6..16], [Origin::Filler; 10]);
    let p9 = origins(&mut words, 12, &[Edit::new(1..1, 1), Edit::new(1..1, 1)], &[0xC0, 0xC1]);
    assert_eq!(p9[..3], header(0));
    assert_eq!(p9[3..8], [dump(0), edit(0, 0), edit(1, 0), dump(1), dump(2)]);
    assert_eq!(p9[8..16], [Origin::Filler; 8]);
    for behind in [&p8[16..], &p9[16..]] {
        assert_eq!(behind[..32], [Origin::Zeroed; 32]);
        assert_eq!(behind[32..], [Origin::Untouched; 4]);
    }
}

// P10: the kinds of end packets.
#[test]
fn p10() {
    let kind = |word| sysex8::Packet::read(&[word, 0, 0, 0]).map(|packet| (packet.kind(), packet.size()));
    assert_eq!(kind(0x503F_0900), Ok((Kind::UnexpectedEndInvalid, 0)));
    assert_eq!(kind(0x503F_0901), refused(Refusal::Count, 0));
    assert_eq!(kind(0x5032_0900), Ok((Kind::End, 1)));
    assert_eq!(kind(0x5031_0900), Ok((Kind::UnexpectedEndValid, 0)));
    assert_eq!(kind(0x5001_0900), Ok((Kind::Complete, 0)));
    assert_eq!(kind(0x5012_0900), Ok((Kind::Start, 1)));
    assert_eq!(kind(0x502E_0900), Ok((Kind::Continue, 13)));
    assert_eq!(sysex8::Packet::read(&[0x5032_0900, 0, 0, 0]).unwrap().byte(0), Ok(0));
}

// P11: SysEx7 packets.
#[test]
fn p11() {
    let read = |word| sysex7::Packet::read(&[word, 0]).map(|packet| packet.payload().collect::<Vec<u8>>());
    assert_eq!(read(0x30F9_0000), refused(Refusal::Count, 0));
    assert_eq!(read(0x30F6_0000), refused(Refusal::Status, 0));
    assert_eq!(read(0x3002_C142), Ok(vec![0x41, 0x42]));
}

// P12 and the streams after it.
#[test]
fn p12() {
    let stream = |bytes: &[u8]| {
        let mut words = [0xFFFF_FFFF; 6];
        bytes_to_sysex7(bytes, 0, &mut words).map(|length| (length, words))
    };
    let rest = 0xFFFF_FFFF;
    let p12 = [0xF0, 1, 2, 3, 4, 5, 6, 7, 0xF7];
    assert_eq!(stream(&p12), Ok((4, [0x3016_0102, 0x0304_0506, 0x3031_0700, 0, rest, rest])));
    assert_eq!(stream(&[0xF0, 0xF7]), Ok((2, [0x3000_0000, 0, rest, rest, rest, rest])));
    assert_eq!(stream(&[0xF0]), refused(Refusal::Frame, 0));
    assert_eq!(stream(&[0xF0, 0x90, 0xF7]), refused(Refusal::Byte, 1));
    assert_eq!(sysex7::check(&[0x3016_0102, 0x0304_0506, 0x3031_0700, 0], 4).unwrap().size, 7);
}

// Real-time bytes between F0 and F7 are passed over; the place of a byte that is refused counts them.
#[test]
fn streams_with_real_time_bytes() {
    let rest = 0xFFFF_FFFF;
    let stream = |bytes: &[u8]| {
        let mut words = [rest; 4];
        bytes_to_sysex7(bytes, 0, &mut words).map(|length| (length, words))
    };
    assert_eq!(stream(&[0xF0, 0xF8, 1, 0xFE, 2, 0xF7]), Ok((2, [0x3002_0102, 0, rest, rest])));
    assert_eq!(stream(&[0xF0, 0xF8, 0xF7]), Ok((2, [0x3000_0000, 0, rest, rest])));
    let p12 = [0xF0, 0xFF, 1, 2, 3, 4, 5, 0xFA, 6, 0xFB, 0xFC, 7, 0xF9, 0xF7];
    assert_eq!(stream(&p12), Ok((4, [0x3016_0102, 0x0304_0506, 0x3031_0700, 0])));
    assert_eq!(stream(&[0xF0, 1, 0xF7, 2, 0xF7]), refused(Refusal::Byte, 2));
    assert_eq!(stream(&[0xF0, 0xF8, 0xF8, 0x90, 0xF7]), refused(Refusal::Byte, 3));
    assert_eq!(stream(&[0xF8, 0xF0, 0xF7]), refused(Refusal::Frame, 0));
    assert_eq!(stream(&[0xF0, 0xF7, 0xF8]), refused(Refusal::Frame, 0));
}

// A stream of these bytes with a clock byte before, between and behind them.
fn clocked(data: &[u8]) -> Vec<u8> {
    let inner = data.iter().flat_map(|byte| [*byte, 0xF8]);
    [0xF0, 0xF8].into_iter().chain(inner).chain([0xF7]).collect()
}

// The most data bytes that words hold, 6 to each 2 of 16,384, and one more; clock bytes take no room.
#[test]
fn the_longest_stream() {
    let data: Vec<u8> = (0..49_153u32).map(|index| (index % 127) as u8).collect();
    let mut words = vec![0xFFFF_FFFF; 16_384];
    assert_eq!(bytes_to_sysex7(&clocked(&data), 5, &mut words), refused(Refusal::Room, 0));
    assert!(words.iter().all(|word| *word == 0xFFFF_FFFF));
    assert_eq!(bytes_to_sysex7(&clocked(&data[..49_152]), 5, &mut words), Ok(16_384));
    assert_eq!(sysex7::check(&words, 16_384).map(|summary| (summary.group, summary.size)), Ok((5, 49_152)));
    let packets = words.chunks(2).map(|packet| sysex7::Packet::read(packet).unwrap());
    assert!(packets.flat_map(|packet| packet.payload().collect::<Vec<u8>>()).eq(data[..49_152].iter().copied()));
}

// A million clock bytes around three data bytes.
#[test]
fn a_million_clock_bytes() {
    let clock = [0xF8; 250_000];
    let bytes = [&[0xF0], &clock[..], &[1], &clock, &[2], &clock, &[3], &clock, &[0xF7]].concat();
    let mut words = [0xFFFF_FFFF; 3];
    assert_eq!(bytes_to_sysex7(&bytes, 0, &mut words), Ok(2));
    assert_eq!(words, [0x3003_0102, 0x0300_0000, 0xFFFF_FFFF]);
}

// The words that payloads take, and what fits the largest buffer.
#[test]
fn words_for_payloads() {
    assert_eq!([0, 13, 14, 26, 27].map(sysex8::words_needed), [4, 4, 8, 8, 12]);
    assert_eq!([53_248, 53_249].map(sysex8::words_needed), [16_384, 16_388]);
    for size in (0..2_000).chain(usize::MAX - 2_000..=usize::MAX) {
        assert_eq!(sysex8::words_needed(size), 4 * size.div_ceil(13).max(1), "{size}");
    }
    let mut words = vec![0; 16_384];
    words[..4].copy_from_slice(&sysex8::EMPTY);
    let mut message = Message::check(&mut words, 4).unwrap();
    let bytes: Vec<u8> = (0..53_249u32).map(|index| (index % 251) as u8).collect();
    assert_eq!(message.set_payload(&bytes), refused(Refusal::Room, 0));
    assert_eq!(message.set_payload(&bytes[..53_248]), Ok(53_248));
    assert_eq!(message.length(), 16_384);
    assert!(message.payload().eq(bytes[..53_248].iter().copied()));
}

// P4's first five words are not whole packets.
#[test]
fn five_words() {
    assert_eq!(View::check(&P4, 5), refused(Refusal::Ragged, 0));
}
