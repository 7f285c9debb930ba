//! Our library, through the calls of include/latchbeacon.h.

#[repr(C)]
struct Number {
    refusal: u8,
    place: usize,
    value: usize,
}

#[repr(C)]
struct Dump {
    refusal: u8,
    place: usize,
    delta: bool,
    group: u8,
    id: u8,
    base: usize,
    size: usize,
    words: usize,
    steps: usize,
}

#[rustfmt::skip]
extern "C" {
    fn latchbeacon_store_check(store: *const u8, store_size: usize) -> Number;
    fn latchbeacon_store_describe(store: *const u8, store_size: usize, number: usize) -> Dump;
    fn latchbeacon_store_restore(store: *const u8, store_size: usize, number: usize, words: *mut u32, words_lent: usize) -> Number;
    fn latchbeacon_store_look_byte(store: *const u8, store_size: usize, number: usize, position: usize) -> Number;
    fn latchbeacon_store_mark(store: *mut u8, store_size: usize, number: usize) -> Number;
    fn latchbeacon_store_collect(store: *mut u8, store_size: usize) -> Number;
}

/// What stands in front of the words lent and behind them.
const FENCE: u32 = 0xFE4C_EFE4;

/// The fields of an answer of one number.
fn fields(answer: Number) -> [usize; 3] {
    [answer.refusal.into(), answer.place, answer.value]
}

/// The check: refusal, place, dumps.
pub fn check(store: &[u8]) -> [usize; 3] {
    fields(unsafe { latchbeacon_store_check(store.as_ptr(), store.len()) })
}

/// The description: refusal, place, delta, group, id, base, size, words, steps.
pub fn describe(store: &[u8], number: usize) -> [usize; 9] {
    let dump = unsafe { latchbeacon_store_describe(store.as_ptr(), store.len(), number) };
    [
        dump.refusal.into(),
        dump.place,
        dump.delta.into(),
        dump.group.into(),
        dump.id.into(),
        dump.base,
        dump.size,
        dump.words,
        dump.steps,
    ]
}

/// Restoring: refusal, place, length; and all words lent after it. The words beside them must stay.
pub fn restore(store: &[u8], number: usize, words: &[u32]) -> ([usize; 3], Vec<u32>) {
    let lent = words.len();
    let mut room = [&[FENCE], words, &[FENCE]].concat();
    let address = room[1..].as_mut_ptr();
    let answer =
        unsafe { latchbeacon_store_restore(store.as_ptr(), store.len(), number, address, lent) };
    assert_eq!(
        [room[0], room[lent + 1]],
        [FENCE; 2],
        "words that are not lent"
    );
    (fields(answer), room[1..=lent].to_vec())
}

/// A byte of a dump's payload: refusal, place, byte.
pub fn look(store: &[u8], number: usize, position: usize) -> [usize; 3] {
    let (address, size) = (store.as_ptr(), store.len());
    fields(unsafe { latchbeacon_store_look_byte(address, size, number, position) })
}

/// A call that may change the bytes of a store: its answer, and all bytes lent after it. The bytes beside them must stay.
fn changed(store: &[u8], call: impl Fn(*mut u8, usize) -> Number) -> ([usize; 3], Vec<u8>) {
    let lent = store.len();
    let fence = FENCE.to_be_bytes();
    let mut room = [&fence[..], store, &fence].concat();
    let answer = fields(call(room[4..].as_mut_ptr(), lent));
    let beside = [&room[..4], &room[4 + lent..]];
    assert_eq!(beside, [fence; 2], "bytes that are not lent");
    (answer, room[4..4 + lent].to_vec())
}

/// Marking: refusal, place, 0; and all bytes lent after it.
pub fn mark(store: &[u8], number: usize) -> ([usize; 3], Vec<u8>) {
    changed(store, |address, lent| unsafe {
        latchbeacon_store_mark(address, lent, number)
    })
}

/// Collecting: refusal, place, new length; and all bytes lent after it.
pub fn collect(store: &[u8]) -> ([usize; 3], Vec<u8>) {
    changed(store, |address, lent| unsafe {
        latchbeacon_store_collect(address, lent)
    })
}
