//! One call so many times, so that the instructions that it takes can be counted from outside.
use crate::{chains, inputs, iterating, looks, original, port, ports};
use std::hint::black_box;

/// Who is called: ours, the original's bare call, or the original with its check before it.
#[derive(Clone, Copy, PartialEq)]
enum Side {
    Port,
    Bare,
    Checked,
}

/// A splice of 8 bytes from a byte on by 16, and back; or of 8 by 8.
fn splices(side: Side, words: &[u32], from: usize, there_and_back: bool) -> Box<dyn FnMut()> {
    let mut ours = port::Bank::new(words);
    let mut theirs = original::Bank::new(words);
    let mut splice = move |to: usize, bytes: &[u8]| match side {
        Side::Port => ours.splice(from, to, bytes),
        Side::Bare => theirs.splice(from, to, bytes),
        Side::Checked => theirs.checked_splice(from, to, bytes),
    };
    Box::new(move || {
        if there_and_back {
            splice(from + 8, black_box(&[9; 16]));
            splice(from + 16, black_box(&[7; 8]));
        } else {
            splice(from + 8, black_box(&[7; 8]));
        }
    })
}

/// Copying an uneven message in, and packing it unless it is only to be copied.
fn packing(side: Side, bytes: &[u8], copy_only: bool) -> Box<dyn FnMut()> {
    let uneven = inputs::uneven(bytes);
    let mut room = uneven.clone();
    Box::new(move || {
        room.copy_from_slice(black_box(&uneven));
        if copy_only {
            return;
        }
        if side == Side::Checked {
            original::check(black_box(&room));
        }
        match side {
            Side::Port => port::pack(black_box(&mut room)),
            _ => original::pack(black_box(&mut room)),
        }
    })
}

/// Copying a message in, and then so many edits at once, or one after the other; none of them if it is only to be copied.
fn list(side: Side, words: &[u32], size: usize, count: usize) -> Box<dyn FnMut()> {
    let (words, list) = (words.to_vec(), inputs::list(size, count, false));
    let mut ours = port::Bank::new(&words);
    Box::new(move || {
        if side == Side::Port {
            ours.copy_in(black_box(&words));
            if count > 0 {
                ours.splice_all(black_box(&list.numbers), black_box(&list.bytes));
            }
            return;
        }
        let mut theirs = original::Bank::new(black_box(&words));
        for (from, to, bytes) in list.edits().rev() {
            match side {
                Side::Checked => theirs.checked_splice(from, to, bytes),
                _ => theirs.splice(from, to, bytes),
            }
        }
        black_box(&theirs);
    })
}

/// Whether a message carries a payload: packed, or uneven.
fn carries(side: Side, bytes: Vec<u8>, words: Vec<u32>) -> Box<dyn FnMut()> {
    Box::new(move || {
        if side == Side::Checked {
            original::check(black_box(&words));
        }
        _ = black_box(match side {
            Side::Port => port::carries(black_box(&words), black_box(&bytes)),
            _ => original::carries(black_box(&words), black_box(&bytes)),
        })
    })
}

/// The origin of a payload octet in the middle, which only ours answers.
fn origin(side: Side, words: &[u32], size: usize) -> Option<Box<dyn FnMut()>> {
    let (words, (edits, bytes)) = (words.to_vec(), inputs::edits(size));
    let middle = inputs::middle_octet(&words);
    let call = move || _ = black_box(port::origin(black_box(&words), &edits, &bytes, black_box(middle)));
    (side == Side::Port).then(|| Box::new(call) as Box<dyn FnMut()>)
}

/// A look at the byte in the middle of a payload, or of its message, with so many edits. Ours alone.
fn look(side: Side, size: usize, count: usize, of_message: bool) -> Option<Box<dyn FnMut()>> {
    let (bytes, list, position) = (inputs::bytes(size), inputs::list(size, count, false), looks::middle(size));
    let words = inputs::packed(&bytes);
    let call = move || {
        _ = black_box(match of_message {
            true => port::look_message(black_box(&words), &list.numbers, &list.bytes, black_box(position)),
            false => port::look_byte(black_box(&bytes), &list.numbers, &list.bytes, black_box(position)),
        })
    };
    (side == Side::Port).then(|| Box::new(call) as Box<dyn FnMut()>)
}

/// A byte stream to SysEx7 packets. With a clock byte behind each data byte only ours takes it.
fn stream(side: Side, size: usize, clock: bool) -> Option<Box<dyn FnMut()>> {
    let mut room = original::Stream::new(&inputs::stream(size, false)).words();
    let bytes = inputs::stream(size, clock);
    let call: Box<dyn FnMut()> = match side {
        Side::Port => Box::new(move || port::stream(black_box(&bytes), black_box(&mut room))),
        _ if clock => return None,
        Side::Bare => {
            let theirs = original::Stream::new(bytes.leak());
            Box::new(move || _ = black_box(black_box(&theirs).packets()))
        }
        Side::Checked => Box::new(move || _ = black_box(original::Stream::new(black_box(&bytes)).packets())),
    };
    Some(call)
}

/// A call of a store of dumps: restore, check, describe or look, of the long chain, of a whole dump, of three small dumps. Ours alone.
fn store(name: &str, side: Side, size: usize) -> Option<Box<dyn FnMut()>> {
    let (call, kind) = name.split_once('_')?;
    let store = match kind {
        _ if side != Side::Port => return None,
        "chain" => chains::long(size),
        "whole" => chains::whole(size),
        "small" => chains::small(size),
        _ => return None,
    };
    let (bytes, last) = (store.bytes, store.dumps - 1);
    let mut words = vec![0; port::describe(&bytes, last).words];
    Some(match call {
        "restore" => Box::new(move || _ = black_box(port::restore(black_box(&bytes), last, black_box(&mut words)))),
        "check" => Box::new(move || _ = black_box(port::check_store(black_box(&bytes)))),
        "describe" => Box::new(move || _ = black_box(port::describe(black_box(&bytes), last))),
        "look" => Box::new(move || _ = black_box(port::look_store(black_box(&bytes), last, looks::kept(size)))),
        _ => return None,
    })
}

/// All packets of 16 streams, or of one, with so many packets each. Ours alone.
fn receive(side: Side, streams: usize, packets: usize) -> Option<Box<dyn FnMut()>> {
    let mut all = ports::Streams::new(streams, packets);
    (side == Side::Port).then(|| Box::new(move || all.receive()) as Box<dyn FnMut()>)
}

/// A call that reads, or sets one thing. The check has no bare form.
fn small(name: &str, side: Side, words: &[u32], size: usize) -> Option<Box<dyn FnMut()>> {
    type Call = fn(&mut [u32], &mut [u8], usize);
    let (ours, theirs): (Call, Call) = match name {
        "check" => (|words, _, _| port::check(words), |words, _, _| original::check(words)),
        "payload" => (|words, room, _| port::payload(words, room), |words, room, _| original::payload(words, room)),
        "byte" => (
            |words, _, middle| _ = black_box(port::byte(words, middle)),
            |words, _, middle| _ = black_box(original::byte(words, middle)),
        ),
        "set_byte" => {
            (|words, _, middle| port::set_byte(words, middle, 5), |words, _, middle| original::set_byte(words, middle, 5))
        }
        "set_group" => (|words, _, _| port::set_group(words, 0, 5), |words, _, _| original::set_group(words, 0, 5)),
        "set_stream_id" => (|words, _, _| port::set_stream_id(words, 0, 5), |words, _, _| original::set_stream_id(words, 0, 5)),
        "next" => (|words, room, _| iterating::our_next(words, room), |words, room, _| iterating::their_next(words, room)),
        "fold" => (|words, room, _| iterating::our_fold(words, room), |words, room, _| iterating::their_fold(words, room)),
        "vector" => (|words, room, _| iterating::our_vector(words, room), |words, room, _| iterating::their_vector(words, room)),
        _ => return None,
    };
    let check_first = side == Side::Checked && name != "check";
    let call = if side == Side::Port { ours } else { theirs };
    let (mut words, mut room) = (words.to_vec(), vec![0; size]);
    Some(Box::new(move || {
        if check_first {
            original::check(black_box(&words));
        }
        call(black_box(&mut words), black_box(&mut room), black_box(size / 2));
    }))
}

/// Does a call so many times: its name, the side, the payload size and the number are the words. False if they name no call.
pub fn run(arguments: &[String]) -> bool {
    let [name, side, size, times] = arguments else { return false };
    let (Ok(size), Ok(times)) = (size.parse::<usize>(), times.parse::<usize>()) else { return false };
    let side = match side.as_str() {
        "port" => Side::Port,
        "bare" => Side::Bare,
        "checked" => Side::Checked,
        _ => return false,
    };
    let bytes = inputs::bytes(size);
    let (words, middle) = (inputs::packed(&bytes), (size / 2).saturating_sub(4));
    let call = match name.as_str() {
        "there_and_back" => Some(splices(side, &words, middle, true)),
        "same_size" => Some(splices(side, &words, middle, false)),
        "there_and_back_at_0" => Some(splices(side, &words, 0, true)),
        "same_size_at_0" => Some(splices(side, &words, 0, false)),
        "carries" => Some(carries(side, bytes, words)),
        "carries_uneven" => Some(carries(side, bytes.clone(), inputs::uneven(&bytes))),
        "packing" => Some(packing(side, &bytes, false)),
        "packing_copy" => Some(packing(side, &bytes, true)),
        "list_copy" => Some(list(side, &words, size, 0)),
        "list_2" => Some(list(side, &words, size, 2)),
        "list_16" => Some(list(side, &words, size, 16)),
        "list_200" => Some(list(side, &words, size, 200)),
        "origin" => origin(side, &words, size),
        "look_2" => look(side, size, 2, false),
        "look_200" => look(side, size, 200, false),
        "look_message_2" => look(side, size, 2, true),
        "look_message_200" => look(side, size, 200, true),
        "stream" => stream(side, size, false),
        "clocked_stream" => stream(side, size, true),
        "receive_1" => receive(side, 1, size.div_ceil(13)),
        "receive_16" => receive(side, 16, size.div_ceil(13)),
        name => small(name, side, &words, size).or_else(|| store(name, side, size)),
    };
    let Some(mut call) = call else { return false };
    (0..times).for_each(|_| call());
    true
}
