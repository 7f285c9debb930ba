//! Interleaved streams on two ports: what is kept, dropped and handed out, what is refused, and that no port sees the other.

#[allow(dead_code)]
mod common;

use common::Numbers;
use latchbeacon::{Ports, Received, View, MOST_WORDS};

const REST: u32 = 0xEEEE_EEEE;
const MOST_LENT: usize = MOST_WORDS / 16 + 4;

// ---- packets and answers

// The statuses of a packet.
const COMPLETE: u32 = 0;
const START: u32 = 1;
const CONTINUE: u32 = 2;
const END: u32 = 3;

// A packet of 13 bytes, all the same, of group 3.
fn packet(status: u32, id: u32, byte: u32) -> [u32; 4] {
    let four = byte * 0x0101_0101;
    [0x530E_0000 | status << 20 | id << 8 | byte, four, four, four]
}

// An unexpected end with valid earlier data, and one with invalid earlier data.
fn unexpected(id: u32, valid: bool) -> [u32; 4] {
    [0x5330_0000 | if valid { 1 } else { 15 } << 16 | id << 8, 0, 0, 0]
}

// What a packet did, or the number of the refusal.
#[derive(Clone, Debug, PartialEq, Eq)]
enum Seen {
    Kept,
    Dropped,
    Message(Vec<u32>),
    Refused(u8),
}

use Seen::{Dropped, Kept, Refused};

// The message of these packets.
fn message(packets: &[[u32; 4]]) -> Seen {
    Seen::Message(packets.concat())
}

// Receives a packet with an output of so many words. What is handed out is as the check sees it, and words past it stay.
fn receive(ports: &mut Ports, port: u8, packet: &[u32], lent: usize) -> Seen {
    let mut output = vec![REST; lent];
    let seen = match ports.receive(port, packet, &mut output) {
        Ok(Received::Kept) => Kept,
        Ok(Received::Dropped) => Dropped,
        Ok(Received::Message(message)) => {
            let view = View::check(message.buffer(), message.length()).unwrap();
            assert_eq!((view.summary(), view.words()), (message.summary(), message.words()));
            Seen::Message(message.words().to_vec())
        }
        Err(error) => {
            assert_eq!(error.place, 0);
            Refused(error.number())
        }
    };
    let written = if let Seen::Message(words) = &seen { words.len() } else { 0 };
    assert!(output[written..].iter().all(|word| *word == REST), "words past what is handed out stay");
    seen
}

// Receives packets of a port with enough output; each of them is kept.
fn keep(ports: &mut Ports, port: u8, packets: &[[u32; 4]]) {
    packets.iter().for_each(|packet| assert_eq!(receive(ports, port, packet, MOST_LENT), Kept));
}

// All that can be seen of the streams of these ids: what an end of each hands out, and how many more each port may open.
fn contents(ports: &Ports, ids: u32) -> (Vec<Seen>, [Vec<Seen>; 2]) {
    let end = |port, id| receive(&mut ports.clone(), port, &packet(END, id, 0xFF), MOST_LENT);
    let messages = (0..2).flat_map(|port| (0..ids).map(move |id| end(port, id))).collect();
    let more = [0, 1].map(|port| {
        let mut copy = ports.clone();
        (200..217).map(|id| receive(&mut copy, port, &packet(START, id, 0), 0)).collect()
    });
    (messages, more)
}

// Opens streams of ids from 0 on, so many of each port.
fn open(words: usize, counts: [u32; 2]) -> Ports {
    let mut ports = Ports::new(words).unwrap();
    for (port, count) in counts.into_iter().enumerate() {
        (0..count).for_each(|id| keep(&mut ports, port as u8, &[packet(START, id, 16 * port as u32 + id)]));
    }
    ports
}

// ---- streams

// Two messages interleaved packet by packet, on one port, on two ports with one stream id, and in two groups.
#[test]
fn two_messages_interleaved() {
    for (other_port, other_id, other_group) in [(0, 8, 0), (1, 7, 0), (0, 7, 1), (1, 9, 4)] {
        let mut ports = Ports::new(16 * 12).unwrap();
        let one = [(START, 1), (CONTINUE, 2), (CONTINUE, 3), (END, 4)].map(|(status, byte)| packet(status, 7, byte));
        let two = [(START, 5), (CONTINUE, 6), (CONTINUE, 7), (END, 8)].map(|(status, byte)| {
            let mut two = packet(status, other_id, byte);
            two[0] ^= other_group << 24;
            two
        });
        for index in 0..3 {
            keep(&mut ports, 0, &[one[index]]);
            keep(&mut ports, other_port, &[two[index]]);
        }
        assert_eq!(receive(&mut ports, other_port, &two[3], 16), message(&two));
        assert_eq!(receive(&mut ports, 0, &one[3], 16), message(&one));
        assert_eq!(receive(&mut ports, 0, &one[3], 16), Refused(30));
    }
}

// Sixteen streams of two ports, a packet of each in turn; then their ends, and the same again in the room that is free.
#[test]
fn sixteen_streams() {
    for first in 4..=12 {
        let mut ports = Ports::new(MOST_WORDS).unwrap();
        let streams: Vec<(u8, u32)> = (0..first).map(|id| (0, id)).chain((first..16).map(|id| (1, id - first))).collect();
        for round in 0..3 {
            let bytes: Vec<u32> = (0..16).map(|stream| 16 * round + stream).collect();
            let packets = |status| streams.iter().zip(&bytes).map(move |((_, id), byte)| packet(status, *id, *byte));
            let statuses = [START, CONTINUE, CONTINUE, CONTINUE];
            for status in statuses {
                packets(status).zip(&streams).for_each(|(packet, (port, _))| keep(&mut ports, *port, &[packet]));
            }
            let ends: Vec<_> = packets(END).enumerate().collect();
            for (stream, end) in ends.into_iter().rev() {
                let (port, id) = streams[stream];
                let whole = [START, CONTINUE, CONTINUE, CONTINUE, END].map(|status| packet(status, id, bytes[stream]));
                assert_eq!(receive(&mut ports, port, &end, 20), message(&whole));
            }
        }
    }
}

// The 13th stream of a port is Share, also where 16 are open; the 17th is Full; and neither changes anything.
#[test]
fn thirteenth_and_seventeenth() {
    let new = |counts, port| {
        let mut ports = open(64, counts);
        let before = contents(&ports, 17);
        let answer = receive(&mut ports, port, &packet(START, 100, 1), 0);
        assert_eq!(contents(&ports, 17) == before, answer != Kept);
        answer
    };
    assert_eq!([new([12, 0], 0), new([0, 12], 1)], [Refused(31), Refused(31)]);
    for first in 4..=12 {
        let counts = [first, 16 - first];
        let wanted = |held| Refused(if held == 12 { 31 } else { 23 });
        assert_eq!([new(counts, 0), new(counts, 1)], counts.map(wanted));
    }
    assert_eq!([new([12, 3], 1), new([11, 4], 0), new([8, 7], 0)], [Kept, Kept, Kept]);
}

// A port with fewer than four open streams is never refused one more, whatever the other port does.
#[test]
fn four_are_always_free() {
    for held in 0..4 {
        let mut ports = open(64, [0, held]);
        for id in 0..20 {
            let wanted = if id < 12 { Kept } else { Refused(31) };
            assert_eq!(receive(&mut ports, 0, &packet(START, id, 1), 0), wanted);
        }
        for id in held..5 {
            let wanted = if id < 4 { Kept } else { Refused(23) };
            assert_eq!(receive(&mut ports, 1, &packet(START, id, 1), 0), wanted);
        }
    }
}

// A start of an open stream begins it afresh, also where its port holds 12 and where 16 are open; its old words are free.
#[test]
fn restart() {
    for counts in [[1, 0], [12, 0], [12, 4], [8, 8]] {
        let mut ports = open(16 * 8, counts);
        let (start, more, end) = (packet(START, 0, 50), packet(CONTINUE, 0, 51), packet(END, 0, 52));
        keep(&mut ports, 0, &[packet(CONTINUE, 0, 40)]);
        assert_eq!(receive(&mut ports, 0, &more, 0), Refused(14));
        keep(&mut ports, 0, &[start, more]);
        assert_eq!(receive(&mut ports, 0, &end, 12), message(&[start, more, end]));
        assert_eq!(receive(&mut ports, 0, &end, 12), Refused(30));
    }
}

// A complete packet is handed out alone and closes the open stream of its key, and no other. It takes no slot and no room.
#[test]
fn complete_in_the_middle() {
    let complete = packet(COMPLETE, 2, 9);
    for counts in [[3, 3], [12, 4], [0, 0]] {
        let mut ports = open(64, counts);
        let before = contents(&ports, 12);
        // Without room for it the stream stays open.
        for lent in 0..4 {
            assert_eq!(receive(&mut ports, 0, &complete, lent), Refused(14));
        }
        assert_eq!(contents(&ports, 12), before);
        let mut other = complete;
        other[0] ^= 0x0100_0000;
        assert_eq!(receive(&mut ports, 0, &other, 4), message(&[other]));
        assert_eq!(contents(&ports, 12), before);
        assert_eq!(receive(&mut ports, 0, &complete, 4), message(&[complete]));
        let mut after = before.0;
        after[2] = Refused(30);
        assert_eq!(contents(&ports, 12).0, after);
    }
    let mut none = Ports::new(0).unwrap();
    assert_eq!(receive(&mut none, 1, &complete, 5), message(&[complete]));
    assert_eq!(receive(&mut none, 1, &packet(START, 2, 9), 4), Refused(14));
}

// An unexpected end with valid earlier data is an end like others; one with invalid earlier data drops the stream and needs no output.
#[test]
fn unexpected_ends() {
    let (start, valid, invalid) = (packet(START, 1, 9), unexpected(1, true), unexpected(1, false));
    let mut ports = Ports::new(64).unwrap();
    assert_eq!([&valid, &invalid].map(|end| receive(&mut ports, 0, end, 8)), [Refused(30), Refused(30)]);
    for port in [0, 1] {
        keep(&mut ports, port, &[start]);
        assert_eq!(receive(&mut ports, port, &valid, 7), Refused(14));
        assert_eq!(receive(&mut ports, port, &valid, 8), message(&[start, valid]));
        for lent in [0, 3, 8] {
            keep(&mut ports, port, &[start]);
            assert_eq!(receive(&mut ports, 1 - port, &invalid, lent), Refused(30));
            assert_eq!(receive(&mut ports, port, &invalid, lent), Dropped);
            assert_eq!(receive(&mut ports, port, &invalid, lent), Refused(30));
        }
    }
    // What is dropped makes room.
    let mut ports = open(64, [12, 4]);
    assert_eq!(receive(&mut ports, 1, &packet(START, 9, 1), 0), Refused(23));
    assert_eq!(receive(&mut ports, 0, &invalid, 0), Dropped);
    assert_eq!(receive(&mut ports, 1, &packet(START, 9, 1), 0), Kept);
}

// Each part is a 16th of the words, rounded down. A part is filled exactly, one packet more is Room, and the end needs no room in it.
#[test]
fn parts() {
    for words in (0..=340).chain([MOST_WORDS - 1, MOST_WORDS]) {
        let fit = words / 16 / 4;
        let mut ports = Ports::new(words).unwrap();
        let mut kept = vec![];
        for index in 0..fit {
            let next = packet(if index == 0 { START } else { CONTINUE }, 1, index as u32 & 0x7F);
            keep(&mut ports, 0, &[next]);
            kept.push(next);
        }
        let (more, end) = (packet(if fit == 0 { START } else { CONTINUE }, 1, 0x80), packet(END, 1, 0x81));
        assert_eq!(receive(&mut ports, 0, &more, MOST_LENT), Refused(14));
        if fit > 0 {
            let before = contents(&ports, 2);
            assert_eq!(receive(&mut ports, 0, &end, 4 * fit + 3), Refused(14));
            assert_eq!(receive(&mut ports, 0, &end, 4), Refused(14));
            assert_eq!(contents(&ports, 2), before);
            kept.push(end);
            assert_eq!(receive(&mut ports, 0, &end, 4 * fit + 4), message(&kept));
        }
    }
}

// All 16 parts are filled to their end, and none of them touches another.
#[test]
fn parts_do_not_touch() {
    for words in [64, 79, 16 * 11, 16 * 12, 16 * 30 + 15] {
        let mut ports = open(words, [12, 4]);
        let fit = words as u32 / 16 / 4;
        for index in 1..fit {
            (0..12).for_each(|id| keep(&mut ports, 0, &[packet(CONTINUE, id, 16 * index + id)]));
            (0..4).for_each(|id| keep(&mut ports, 1, &[packet(CONTINUE, id, 100 + 16 * index + id)]));
        }
        for (port, id) in (0..12).map(|id| (0u8, id)).chain((0..4).map(|id| (1, id))) {
            let base = 100 * u32::from(port);
            let mut whole = vec![packet(START, id, 16 * u32::from(port) + id)];
            whole.extend((1..fit).map(|index| packet(CONTINUE, id, base + 16 * index + id)));
            whole.push(packet(END, id, 0xFE));
            assert_eq!(receive(&mut ports, port, &packet(END, id, 0xFE), MOST_LENT), message(&whole));
        }
    }
}

// No stream is open after `clear`, and all of the room is free.
#[test]
fn clear() {
    let mut ports = open(64, [12, 4]);
    ports.clear();
    assert_eq!(contents(&ports, 17), contents(&Ports::new(64).unwrap(), 17));
    (0..12).for_each(|id| keep(&mut ports, 1, &[packet(START, id, id)]));
    assert_eq!(format!("{ports:?}"), "Ports(64 words)");
}

// ---- refusals

// A packet of another type, one of a status over 3, one of count 0, one of count 15 that is not all zero; the next is at fault too.
fn spoiled() -> [[u32; 4]; 4] {
    [0x4349_5A01, 0x534F_5A01, 0x5310_5A01, 0x533F_5A01].map(|first| [first, 0, 0, 0])
}

// Every refusal, each with the next at fault too, so that the order shows; none changes the streams or the output. 12 and 4 streams are
// open on 64 words, so that the parts are full.
#[test]
fn refusals_in_order() {
    let new = packet(START, 90, 1);
    let spoiled = spoiled();
    let calls: [(u8, &[u32], usize, u8); 20] = [
        (9, &[], MOST_WORDS + 1, 1),
        (9, &spoiled[0][..3], 0, 3),
        (9, &[], 0, 3),
        (9, &spoiled[0], 0, 5),
        (9, &spoiled[1], 0, 15),
        (9, &spoiled[2], 0, 10),
        (9, &spoiled[3], 0, 10),
        (2, &packet(CONTINUE, 90, 1), 0, 29),
        (255, &packet(END, 90, 1), 0, 29),
        (0, &packet(CONTINUE, 90, 1), 0, 30),
        (0, &packet(END, 90, 1), 0, 30),
        (0, &unexpected(90, true), 0, 30),
        (0, &unexpected(90, false), 0, 30),
        (1, &packet(END, 5, 1), 0, 30),
        (0, &new, 0, 31),
        (1, &new, 0, 23),
        (0, &packet(CONTINUE, 1, 1), MOST_WORDS, 14),
        (0, &packet(END, 1, 1), 7, 14),
        (0, &unexpected(1, true), 7, 14),
        (0, &packet(COMPLETE, 1, 1), 3, 14),
    ];
    let mut ports = open(64, [12, 4]);
    let before = contents(&ports, 100);
    for (port, packet, lent, number) in calls {
        assert_eq!(receive(&mut ports, port, packet, lent), Refused(number), "{packet:08X?}");
        assert_eq!(contents(&ports, 100), before, "{packet:08X?}");
    }
}

// Parts of three words have no room for a start, and a continue is Closed before that; too many words are refused at once.
#[test]
fn refusals_of_few_and_many_words() {
    let mut small = Ports::new(63).unwrap();
    assert_eq!(receive(&mut small, 0, &packet(START, 90, 1), 0), Refused(14));
    assert_eq!(receive(&mut small, 0, &packet(CONTINUE, 90, 1), 0), Refused(30));
    assert_eq!([MOST_WORDS + 1, usize::MAX].map(|words| Ports::new(words).unwrap_err().number()), [1, 1]);
}

// More words than a packet has are not looked at, however many; and the longest output is taken.
#[test]
fn words_behind_a_packet() {
    let mut ports = Ports::new(64).unwrap();
    let (start, end) = (packet(START, 1, 1), packet(END, 1, 2));
    let long = |packet: [u32; 4]| [&packet[..], &vec![REST; MOST_WORDS]].concat();
    assert_eq!(receive(&mut ports, 0, &long(start), 0), Kept);
    assert_eq!(receive(&mut ports, 0, &long(end), MOST_WORDS), message(&[start, end]));
}

// ---- the other port

// A call of a port: the packet and the words of the output.
type Call = ([u32; 4], usize);

// A random call on one of the streams of so many ids.
fn random_call(numbers: &mut Numbers, ids: usize) -> Call {
    let (id, byte) = (numbers.below(ids) as u32, numbers.below(256) as u32);
    let packet = match numbers.below(12) {
        0 => packet(COMPLETE, id, byte),
        1..=5 => packet(START, id, byte),
        6..=8 => packet(CONTINUE, id, byte),
        9 => packet(END, id, byte),
        10 => unexpected(id, true),
        _ => unexpected(id, false),
    };
    (packet, [0, 4, 8, 12, 40][numbers.below(5)])
}

// What port 0 is answered in a run; before each of its calls come some of the other port's.
fn answers(words: usize, calls: &[Call], others: &[Vec<Call>]) -> Vec<Seen> {
    let mut ports = Ports::new(words).unwrap();
    let mut seen = Vec::new();
    for ((packet, lent), others) in calls.iter().zip(others) {
        others.iter().for_each(|(packet, lent)| _ = receive(&mut ports, 1, packet, *lent));
        seen.push(receive(&mut ports, 0, packet, *lent));
    }
    seen
}

// The same calls with other stream ids and other bytes.
fn disguised(calls: &[Vec<Call>]) -> Vec<Vec<Call>> {
    let disguise = |(packet, lent): &Call| match packet[1] {
        0 => ([packet[0] ^ 0x0000_8000, 0, 0, 0], *lent),
        bytes => ([packet[0] ^ 0x0000_8055, !bytes, bytes, 0], *lent),
    };
    calls.iter().map(|calls| calls.iter().map(disguise).collect()).collect()
}

// The same calls of a port: alone, beside random ones of the other port, and beside those in disguise. Up to the first that is Full in
// one of two runs alone, all answers are the same.
#[test]
fn no_port_sees_the_other() {
    let mut numbers = Numbers::of_seed(70);
    let (mut same, mut full) = (0, 0);
    for _ in 0..300 {
        let (words, ids) = (numbers.below(400), 1 + numbers.below(20));
        let calls: Vec<Call> = (0..200).map(|_| random_call(&mut numbers, ids)).collect();
        let mut some = || (0..numbers.below(3)).map(|_| random_call(&mut numbers, 20)).collect();
        let others: Vec<Vec<Call>> = calls.iter().map(|_| some()).collect();
        let runs = [vec![vec![]; 200], disguised(&others), others].map(|others| answers(words, &calls, &others));
        for [one, other] in [[0, 1], [0, 2], [1, 2]].map(|pair| pair.map(|run| &runs[run])) {
            let alike = one.iter().zip(other).take_while(|(one, other)| (**one == Refused(23)) == (**other == Refused(23)));
            for (one, other) in alike {
                assert_eq!(one, other);
                same += 1;
                full += usize::from(*one == Refused(23));
            }
        }
    }
    assert!(same > 50_000 && full > 500, "{same} answers are the same, {full} of them Full");
}

// Ports can be sent to another thread.
#[test]
fn ports_can_be_sent() {
    let mut ports = open(64, [1, 1]);
    let work = move || receive(&mut ports, 1, &packet(END, 0, 3), 8);
    let handed_out = std::thread::spawn(work).join().unwrap();
    assert_eq!(handed_out, message(&[packet(START, 0, 16), packet(END, 0, 3)]));
}
