//! Two threads, each patching its own copy of a message in its own order, end with the same words.

mod common;

use common::Numbers;
use latchbeacon::{move_edit, Edit, Message};
use std::thread;

// A message in a buffer with room, a list of edits, and two orders in which they are done.
struct Case {
    buffer: Vec<u32>,
    length: usize,
    payload: Vec<u8>,
    edits: Vec<(Edit, Vec<u8>)>,
    orders: [Vec<usize>; 2],
}

// The numbers below `count`, shuffled.
fn order(numbers: &mut Numbers, count: usize) -> Vec<usize> {
    let mut order: Vec<usize> = (0..count).collect();
    (1..count).for_each(|index| order.swap(index, numbers.below(index + 1)));
    order
}

// The next case.
fn case(numbers: &mut Numbers) -> Case {
    let (mut buffer, payload) = numbers.message(12);
    let length = buffer.len();
    let edits = numbers.edits(8, payload.len());
    let orders = [order(numbers, edits.len()), order(numbers, edits.len())];
    buffer.resize(length + 200, 0);
    Case { buffer, length, payload, edits, orders }
}

// One worker: does the edits in its order, and after each moves those that are left. Answers the words of the message.
fn patch(mut buffer: Vec<u32>, length: usize, edits: &[(Edit, Vec<u8>)], order: &[usize]) -> Vec<u32> {
    let mut message = Message::check(&mut buffer, length).unwrap();
    let mut ranges: Vec<Edit> = edits.iter().map(|(edit, _)| *edit).collect();
    for (step, &done) in order.iter().enumerate() {
        let growth = message.splice(ranges[done].range(), &edits[done].1).unwrap();
        assert_eq!(growth, ranges[done].growth().unwrap());
        for &pending in &order[step + 1..] {
            ranges[pending] = move_edit(ranges[done], ranges[pending], done < pending).unwrap();
        }
    }
    message.words().to_vec()
}

// All edits at once, by the library.
fn patch_at_once(case: &Case) -> Vec<u32> {
    let mut buffer = case.buffer.clone();
    let mut message = Message::check(&mut buffer, case.length).unwrap();
    let edits: Vec<_> = case.edits.iter().map(|(edit, bytes)| (edit.range(), &bytes[..])).collect();
    message.splice_all(&edits).unwrap();
    message.words().to_vec()
}

// The payload with all ranges replaced, without the library.
fn payload_at_once(case: &Case) -> Vec<u8> {
    let mut payload = case.payload.clone();
    for (edit, bytes) in case.edits.iter().rev() {
        payload.splice(edit.range(), bytes.iter().copied());
    }
    payload
}

// Many lists, two orders each: the words of both threads are the same, and those of all edits at once.
#[test]
fn two_threads_end_with_the_same_words() {
    let mut numbers = Numbers::of_seed(20);
    let cases: Vec<Case> = (0..2_000).map(|_| case(&mut numbers)).collect();
    let worker = |which: usize| {
        let patched = |case: &Case| patch(case.buffer.clone(), case.length, &case.edits, &case.orders[which]);
        cases.iter().map(patched).collect::<Vec<Vec<u32>>>()
    };
    let (one, other) = thread::scope(|scope| {
        let (one, other) = (scope.spawn(|| worker(0)), scope.spawn(|| worker(1)));
        (one.join().unwrap(), other.join().unwrap())
    });
    let different_orders = cases.iter().filter(|case| case.orders[0] != case.orders[1]).count();
    assert!(different_orders > 1_000, "{different_orders} lists are done in different orders");
    for ((case, one), other) in cases.iter().zip(one).zip(other) {
        assert_eq!(one, other);
        assert_eq!(one, patch_at_once(case));
        let mut copy = one.clone();
        assert!(Message::try_from(&mut copy[..]).unwrap().payload().eq(payload_at_once(case)));
    }
}

// A message can be sent to another thread and back.
#[test]
fn a_message_can_be_sent() {
    let mut words = [0x5203_0741, 0x4200_0000, 0, 0];
    let mut message = Message::check(&mut words, 4).unwrap();
    let message = thread::scope(|scope| {
        let change = move || {
            message.append(&[0x43]).unwrap();
            message
        };
        scope.spawn(change).join().unwrap()
    });
    assert!(message.payload().eq([0x41, 0x42, 0x43]));
}
