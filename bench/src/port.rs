//! The port: the exported calls, which check the message each time.

#[repr(C)]
struct Number {
    refusal: u8,
    place: usize,
    value: usize,
}

#[repr(C)]
struct Message {
    refusal: u8,
    place: usize,
    group: u8,
    id: u8,
    size: usize,
    words: usize,
}

#[repr(C)]
struct Change {
    refusal: u8,
    place: usize,
    length: usize,
    growth: i64,
}

#[repr(C)]
struct Origin {
    refusal: u8,
    place: usize,
    kind: u8,
    number: usize,
    index: usize,
}

/// A dump of a store.
#[repr(C)]
pub struct Dump {
    refusal: u8,
    place: usize,
    delta: bool,
    group: u8,
    id: u8,
    base: usize,
    size: usize,
    /// The words to lend for restoring it.
    pub words: usize,
    steps: usize,
}

#[repr(C)]
struct Received {
    refusal: u8,
    place: usize,
    kind: u8,
    words: usize,
}

type Words = *const u32;
type Room = *mut u32;

extern "C" {
    fn latchbeacon_sysex8_check(words: Words, lent: usize, length: usize) -> Message;
    fn latchbeacon_sysex8_byte(words: Words, lent: usize, length: usize, index: usize) -> Number;
    fn latchbeacon_sysex8_payload(words: Words, lent: usize, length: usize, bytes: *mut u8, bytes_lent: usize) -> Number;
    fn latchbeacon_sysex8_carries(
        words: Words,
        lent: usize,
        length: usize,
        payload: *const u8,
        payload_size: usize,
        group: u8,
        id: u8,
    ) -> Number;
    fn latchbeacon_sysex8_set_group(words: Room, lent: usize, length: usize, group: u8) -> Number;
    fn latchbeacon_sysex8_set_stream_id(words: Room, lent: usize, length: usize, id: u8) -> Number;
    fn latchbeacon_sysex8_set_byte(words: Room, lent: usize, length: usize, index: usize, value: u8) -> Number;
    fn latchbeacon_sysex8_repack(words: Room, lent: usize, length: usize) -> Number;
    fn latchbeacon_sysex8_splice(
        words: Room,
        lent: usize,
        length: usize,
        from: usize,
        to: usize,
        replacement: *const u8,
        replacement_lent: usize,
    ) -> Change;
    fn latchbeacon_sysex8_splice_all(
        words: Room,
        lent: usize,
        length: usize,
        numbers: *const usize,
        numbers_lent: usize,
        bytes: *const u8,
        bytes_lent: usize,
    ) -> Change;
    fn latchbeacon_sysex8_origin(
        words: Words,
        lent: usize,
        length: usize,
        numbers: *const usize,
        numbers_lent: usize,
        bytes: *const u8,
        bytes_lent: usize,
        octet: usize,
    ) -> Origin;
    fn latchbeacon_look_byte(
        payload: *const u8,
        payload_size: usize,
        numbers: *const usize,
        numbers_lent: usize,
        bytes: *const u8,
        bytes_lent: usize,
        position: usize,
    ) -> Number;
    fn latchbeacon_sysex8_look_byte(
        words: Words,
        lent: usize,
        length: usize,
        numbers: *const usize,
        numbers_lent: usize,
        bytes: *const u8,
        bytes_lent: usize,
        position: usize,
    ) -> Number;
    fn latchbeacon_bytes_to_sysex7(bytes: *const u8, bytes_lent: usize, group: u8, words: Room, lent: usize) -> Number;
    fn latchbeacon_store_check(store: *const u8, store_size: usize) -> Number;
    fn latchbeacon_store_describe(store: *const u8, store_size: usize, number: usize) -> Dump;
    fn latchbeacon_store_restore(store: *const u8, store_size: usize, number: usize, words: Room, lent: usize) -> Number;
    fn latchbeacon_store_look_byte(store: *const u8, store_size: usize, number: usize, position: usize) -> Number;
    fn latchbeacon_store_mark(store: *mut u8, store_size: usize, number: usize) -> Number;
    fn latchbeacon_store_collect(store: *mut u8, store_size: usize) -> Number;
    fn latchbeacon_ports_receive(
        table: Room,
        words: Room,
        lent: usize,
        port: u8,
        packet: Words,
        packet_lent: usize,
        output: Room,
        output_lent: usize,
    ) -> Received;
}

/// The check.
pub fn check(words: &[u32]) {
    let answer = unsafe { latchbeacon_sysex8_check(words.as_ptr(), words.len(), words.len()) };
    assert!(answer.refusal == 0);
}

/// The payload into the bytes.
pub fn payload(words: &[u32], bytes: &mut [u8]) {
    let (to, room) = (bytes.as_mut_ptr(), bytes.len());
    let answer = unsafe { latchbeacon_sysex8_payload(words.as_ptr(), words.len(), words.len(), to, room) };
    assert!(answer.refusal == 0);
}

/// A byte.
pub fn byte(words: &[u32], index: usize) -> u8 {
    let answer = unsafe { latchbeacon_sysex8_byte(words.as_ptr(), words.len(), words.len(), index) };
    assert!(answer.refusal == 0);
    answer.value as u8
}

/// Whether the message carries the bytes, with group 0 and stream id 0.
pub fn carries(words: &[u32], bytes: &[u8]) -> bool {
    let (address, lent) = (words.as_ptr(), words.len());
    let answer = unsafe { latchbeacon_sysex8_carries(address, lent, lent, bytes.as_ptr(), bytes.len(), 0, 0) };
    answer.refusal == 0
}

/// Sets a byte.
pub fn set_byte(words: &mut [u32], index: usize, value: u8) {
    let answer = unsafe { latchbeacon_sysex8_set_byte(words.as_mut_ptr(), words.len(), words.len(), index, value) };
    assert!(answer.refusal == 0);
}

/// Sets the group of every packet.
pub fn set_group(words: &mut [u32], _: usize, group: u8) {
    let answer = unsafe { latchbeacon_sysex8_set_group(words.as_mut_ptr(), words.len(), words.len(), group) };
    assert!(answer.refusal == 0);
}

/// Sets the stream id of every packet.
pub fn set_stream_id(words: &mut [u32], _: usize, id: u8) {
    let answer = unsafe { latchbeacon_sysex8_set_stream_id(words.as_mut_ptr(), words.len(), words.len(), id) };
    assert!(answer.refusal == 0);
}

/// The fewest-packet form.
pub fn pack(words: &mut [u32]) {
    let answer = unsafe { latchbeacon_sysex8_repack(words.as_mut_ptr(), words.len(), words.len()) };
    assert!(answer.refusal == 0);
}

/// The origin of an octet once all edits are done: kind, number and index.
pub fn origin(words: &[u32], edits: &[usize], bytes: &[u8], octet: usize) -> (u8, usize, usize) {
    let (address, lent) = (words.as_ptr(), words.len());
    let (numbers, count) = (edits.as_ptr(), edits.len());
    let answer = unsafe { latchbeacon_sysex8_origin(address, lent, lent, numbers, count, bytes.as_ptr(), bytes.len(), octet) };
    assert!(answer.refusal == 0);
    (answer.kind, answer.number, answer.index)
}

/// The byte at a position of a payload once all edits are done.
pub fn look_byte(payload: &[u8], edits: &[usize], bytes: &[u8], position: usize) -> u8 {
    let (address, size) = (payload.as_ptr(), payload.len());
    let (numbers, count) = (edits.as_ptr(), edits.len());
    let answer = unsafe { latchbeacon_look_byte(address, size, numbers, count, bytes.as_ptr(), bytes.len(), position) };
    assert!(answer.refusal == 0);
    answer.value as u8
}

/// The same of a message.
pub fn look_message(words: &[u32], edits: &[usize], bytes: &[u8], position: usize) -> u8 {
    let (address, lent) = (words.as_ptr(), words.len());
    let (numbers, count) = (edits.as_ptr(), edits.len());
    let answer =
        unsafe { latchbeacon_sysex8_look_byte(address, lent, lent, numbers, count, bytes.as_ptr(), bytes.len(), position) };
    assert!(answer.refusal == 0);
    answer.value as u8
}

/// A byte stream to SysEx7 packets of group 0, which fill the words.
pub fn stream(bytes: &[u8], words: &mut [u32]) {
    let (to, lent) = (words.as_mut_ptr(), words.len());
    let answer = unsafe { latchbeacon_bytes_to_sysex7(bytes.as_ptr(), bytes.len(), 0, to, lent) };
    assert!(answer.refusal == 0 && answer.value == lent);
}

/// How many dumps a store has.
pub fn check_store(store: &[u8]) -> usize {
    let answer = unsafe { latchbeacon_store_check(store.as_ptr(), store.len()) };
    assert!(answer.refusal == 0);
    answer.value
}

/// The description of a dump.
pub fn describe(store: &[u8], number: usize) -> Dump {
    let answer = unsafe { latchbeacon_store_describe(store.as_ptr(), store.len(), number) };
    assert!(answer.refusal == 0);
    answer
}

/// Restores a dump; answers its length.
pub fn restore(store: &[u8], number: usize, words: &mut [u32]) -> usize {
    let (to, lent) = (words.as_mut_ptr(), words.len());
    let answer = unsafe { latchbeacon_store_restore(store.as_ptr(), store.len(), number, to, lent) };
    assert!(answer.refusal == 0);
    answer.value
}

/// The byte at a position of a dump.
pub fn look_store(store: &[u8], number: usize, position: usize) -> u8 {
    let answer = unsafe { latchbeacon_store_look_byte(store.as_ptr(), store.len(), number, position) };
    assert!(answer.refusal == 0);
    answer.value as u8
}

/// Marks a dump unwanted.
pub fn mark(store: &mut [u8], number: usize) {
    let answer = unsafe { latchbeacon_store_mark(store.as_mut_ptr(), store.len(), number) };
    assert!(answer.refusal == 0);
}

/// Collects a store; answers its new length.
pub fn collect(store: &mut [u8]) -> usize {
    let answer = unsafe { latchbeacon_store_collect(store.as_mut_ptr(), store.len()) };
    assert!(answer.refusal == 0);
    answer.value
}

/// Receives a packet; answers the words that are handed out.
pub fn receive(table: &mut [u32; 32], words: &mut [u32], port: u8, packet: &[u32], output: &mut [u32]) -> usize {
    let (room, lent) = (words.as_mut_ptr(), words.len());
    let (from, from_lent) = (packet.as_ptr(), packet.len());
    let (to, to_lent) = (output.as_mut_ptr(), output.len());
    let answer = unsafe { latchbeacon_ports_receive(table.as_mut_ptr(), room, lent, port, from, from_lent, to, to_lent) };
    assert!(answer.refusal == 0);
    answer.words
}

/// A message in a buffer with room for more.
pub struct Bank {
    words: Vec<u32>,
    length: usize,
}

impl Bank {
    /// A copy of the words.
    pub fn new(words: &[u32]) -> Bank {
        let mut room = words.to_vec();
        room.resize((words.len() + 8).min(16_384), 0);
        Bank { words: room, length: words.len() }
    }

    /// The words in place of the message.
    pub fn copy_in(&mut self, words: &[u32]) {
        self.words[..words.len()].copy_from_slice(words);
        self.length = words.len();
    }

    /// All edits of a list at once.
    pub fn splice_all(&mut self, numbers: &[usize], bytes: &[u8]) {
        let (words, lent) = (self.words.as_mut_ptr(), self.words.len());
        let (edits, count) = (numbers.as_ptr(), numbers.len());
        let answer =
            unsafe { latchbeacon_sysex8_splice_all(words, lent, self.length, edits, count, bytes.as_ptr(), bytes.len()) };
        assert!(answer.refusal == 0);
        self.length = answer.length;
    }

    /// A byte.
    pub fn byte(&self, index: usize) -> u8 {
        byte(&self.words[..self.length], index)
    }

    /// A splice.
    pub fn splice(&mut self, from: usize, to: usize, replacement: &[u8]) {
        let (words, lent) = (self.words.as_mut_ptr(), self.words.len());
        let (bytes, count) = (replacement.as_ptr(), replacement.len());
        let answer = unsafe { latchbeacon_sysex8_splice(words, lent, self.length, from, to, bytes, count) };
        assert!(answer.refusal == 0);
        self.length = answer.length;
    }

    /// The payload.
    pub fn payload(&self) -> Vec<u8> {
        let message = unsafe { latchbeacon_sysex8_check(self.words.as_ptr(), self.words.len(), self.length) };
        let mut bytes = vec![0; message.size];
        payload(&self.words[..self.length], &mut bytes);
        bytes
    }
}
