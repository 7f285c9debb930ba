//! Our library, through the calls of include/latchbeacon.h.

#[repr(C)]
struct Received {
    refusal: u8,
    place: usize,
    kind: u8,
    words: usize,
}

#[repr(C)]
struct Message {
    refusal: u8,
    place: usize,
    group: u8,
    id: u8,
    size: usize,
    words: usize,
}

#[rustfmt::skip]
extern "C" {
    fn latchbeacon_ports_clear(table: *mut u32);
    fn latchbeacon_ports_receive(table: *mut u32, words: *mut u32, words_lent: usize, port: u8, packet: *const u32,
                                 packet_lent: usize, output: *mut u32, output_lent: usize) -> Received;
    fn latchbeacon_sysex8_check(words: *const u32, words_lent: usize, length: usize) -> Message;
}

/// What stands in front of the words lent and behind them.
const FENCE: u32 = 0xFE4C_EFE4;

/// The words of a table.
pub const TABLE: usize = 32;

/// Words that are lent, between two that are not.
#[derive(Clone, PartialEq)]
pub struct Room(Vec<u32>);

impl Room {
    /// A copy of these words.
    pub fn new(words: &[u32]) -> Room {
        Room([&[FENCE], words, &[FENCE]].concat())
    }

    /// The words that are lent.
    pub fn words(&self) -> &[u32] {
        &self.0[1..self.0.len() - 1]
    }

    /// The words that are lent, to be written.
    pub fn words_mut(&mut self) -> &mut [u32] {
        let behind = self.0.len() - 1;
        &mut self.0[1..behind]
    }

    /// Stops if a word beside those lent has changed.
    fn stay(&self) {
        let beside = [self.0[0], self.0[self.0.len() - 1]];
        assert_eq!(beside, [FENCE; 2], "words that are not lent");
    }
}

/// Empties a table.
pub fn clear(table: &mut Room) {
    assert_eq!(table.words().len(), TABLE);
    unsafe { latchbeacon_ports_clear(table.words_mut().as_mut_ptr()) };
    table.stay();
}

/// Receives a packet: refusal, place, kind, words. The words beside those lent must stay, and the packet.
pub fn receive(
    table: &mut Room,
    words: &mut Room,
    port: u8,
    packet: &[u32],
    output: &mut Room,
) -> [usize; 4] {
    assert_eq!(table.words().len(), TABLE);
    let copy = Room::new(packet);
    let (from, from_lent) = (copy.words().as_ptr(), packet.len());
    let [to, room] = [&mut *output, &mut *words].map(|room| room.words_mut());
    let (to, to_lent) = (to.as_mut_ptr(), to.len());
    let (room, lent) = (room.as_mut_ptr(), room.len());
    let table_words = table.words_mut().as_mut_ptr();
    let answer = unsafe {
        latchbeacon_ports_receive(table_words, room, lent, port, from, from_lent, to, to_lent)
    };
    for room in [&*table, words, output, &copy] {
        room.stay();
    }
    assert_eq!(copy.words(), packet, "the packet is only read");
    [
        answer.refusal.into(),
        answer.place,
        answer.kind.into(),
        answer.words,
    ]
}

/// The check of a message: refusal, place, group, id, words.
pub fn check(words: &[u32]) -> [usize; 5] {
    let (address, lent) = (words.as_ptr(), words.len());
    let answer = unsafe { latchbeacon_sysex8_check(address, lent, lent) };
    assert!(answer.size <= 13 * lent);
    [
        answer.refusal.into(),
        answer.place,
        answer.group.into(),
        answer.id.into(),
        answer.words,
    ]
}
