//! One comparison of ours with the model, and what came out, how often.
use crate::model::{self, Done, Kind, Streams};
use crate::port::{self, Room, TABLE};
use std::collections::BTreeMap;

/// A call: the port, the words lent for the packet, and how many words of output are lent.
#[derive(Clone)]
pub struct Call {
    pub port: u8,
    pub packet: Vec<u32>,
    pub output: usize,
}

/// All that can come out. Each must have come in the random runs.
const OUTCOMES: [&str; 31] = [
    "start: a new stream",
    "start: afresh",
    "start: afresh, its port has 12 streams",
    "start: afresh, 16 streams are open",
    "continue: kept",
    "continue: kept, its part is full then",
    "end: 2 packets handed out",
    "end: 3 to 9 packets",
    "end: 10 to 99 packets",
    "end: 100 packets and more",
    "end: its part was full",
    "end: unexpected, earlier data valid",
    "end: earlier data invalid, dropped",
    "end: the same without output",
    "complete: no stream of its key is open",
    "complete: closes a stream",
    "1 Long: words",
    "1 Long: output",
    "3 Short",
    "5 Type",
    "10 Count",
    "15 Status",
    "29 Port",
    "30 Closed: continue",
    "30 Closed: end",
    "30 Closed: end, earlier data invalid",
    "31 Share",
    "23 Full",
    "14 Room: start or continue",
    "14 Room: end",
    "14 Room: complete, a stream of its key is open",
];

/// How often each came out.
#[derive(Default)]
pub struct Counts(BTreeMap<&'static str, u64>);

impl Counts {
    /// Counts one of them. The same call may be several.
    fn add(&mut self, outcome: &'static str) {
        *self.0.entry(outcome).or_default() += 1;
    }

    /// How often one came out.
    fn of(&self, outcome: &str) -> u64 {
        self.0.get(outcome).copied().unwrap_or(0)
    }

    /// The first that never came.
    pub fn never(&self) -> Option<String> {
        let never = OUTCOMES.iter().find(|outcome| self.of(outcome) == 0);
        never.map(|outcome| format!("never came: {outcome}"))
    }

    /// Prints the table.
    pub fn print(&self) {
        let rest = self.0.keys().find(|outcome| !OUTCOMES.contains(outcome));
        assert_eq!(rest, None, "an outcome that is not listed");
        println!("How often each came");
        for outcome in OUTCOMES {
            println!("{outcome:50}{:>10}", self.of(outcome));
        }
    }

    /// Counts what a call did to these streams, which are as before it.
    fn count(&mut self, streams: &Streams, call: &Call, done: &Result<Done, usize>) {
        let kind = model::read(&call.packet);
        let open = match kind {
            Ok(_) => streams.open.get(&model::key(call.port, &call.packet)),
            Err(_) => None,
        };
        match done {
            Err(refusal) => self.count_refusal(*refusal, streams, kind.ok(), open.is_some()),
            Ok(Done::Kept) => self.count_kept(streams, call, open.map(Vec::len)),
            Ok(Done::Dropped) => {
                self.add("end: earlier data invalid, dropped");
                if call.output == 0 {
                    self.add("end: the same without output");
                }
            }
            Ok(Done::HandedOut(words)) => match open {
                None => self.add("complete: no stream of its key is open"),
                Some(_) if kind == Ok(Kind::Complete) => self.add("complete: closes a stream"),
                Some(_) => self.count_end(streams, call, words.len() / 4),
            },
        }
    }

    /// Counts a packet that is kept; its stream had so many words.
    fn count_kept(&mut self, streams: &Streams, call: &Call, open: Option<usize>) {
        let start = model::read(&call.packet) == Ok(Kind::Start);
        match open {
            None => self.add("start: a new stream"),
            Some(_) if start => {
                self.add("start: afresh");
                if streams.held(call.port) == 12 {
                    self.add("start: afresh, its port has 12 streams");
                }
                if streams.open.len() == 16 {
                    self.add("start: afresh, 16 streams are open");
                }
            }
            Some(words) => {
                self.add("continue: kept");
                if words + 8 > streams.part() {
                    self.add("continue: kept, its part is full then");
                }
            }
        }
    }

    /// Counts an end that hands out so many packets.
    fn count_end(&mut self, streams: &Streams, call: &Call, packets: usize) {
        self.add(match packets {
            2 => "end: 2 packets handed out",
            3..=9 => "end: 3 to 9 packets",
            10..=99 => "end: 10 to 99 packets",
            _ => "end: 100 packets and more",
        });
        if 4 * packets > streams.part() {
            self.add("end: its part was full");
        }
        if call.packet[0] & 0x000F_00FF == 0x0001_0000 && call.packet[1..4] == [0; 3] {
            self.add("end: unexpected, earlier data valid");
        }
    }

    /// Counts a refusal.
    fn count_refusal(&mut self, number: usize, streams: &Streams, kind: Option<Kind>, open: bool) {
        self.add(match (number, kind) {
            (1, _) if streams.lent > crate::layout::MOST_WORDS => "1 Long: words",
            (1, _) => "1 Long: output",
            (3, _) => "3 Short",
            (5, _) => "5 Type",
            (10, _) => "10 Count",
            (15, _) => "15 Status",
            (29, _) => "29 Port",
            (30, Some(Kind::Continue)) => "30 Closed: continue",
            (30, Some(Kind::End)) => "30 Closed: end",
            (30, _) => "30 Closed: end, earlier data invalid",
            (31, _) => "31 Share",
            (23, _) => "23 Full",
            (_, Some(Kind::Start | Kind::Continue)) => "14 Room: start or continue",
            (_, Some(Kind::End)) => "14 Room: end",
            _ if open => "14 Room: complete, a stream of its key is open",
            _ => return,
        });
    }
}

/// What is lent as output.
pub fn rest(lent: usize) -> Vec<u32> {
    (0..lent as u32).map(|index| 0xA5A5_0000 + index).collect()
}

/// What a call answered, refusal, place, kind and words; and the output then.
pub type Told = ([usize; 4], Vec<u32>);

/// Ours and the model after the same calls.
#[derive(Clone)]
pub struct Pair {
    pub streams: Streams,
    table: Room,
    words: Room,
    calls: Vec<Call>,
}

impl Pair {
    /// No calls yet, on a buffer of so many words. Ours empties a table of other words.
    pub fn new(lent: usize) -> Pair {
        let mut table = Room::new(&[0xDEAD_BEEF; TABLE]);
        port::clear(&mut table);
        let words: Vec<u32> = (0..lent as u32).map(|index| index ^ 0x5A5A_5A5A).collect();
        Pair {
            streams: Streams::new(lent),
            table,
            words: Room::new(&words),
            calls: Vec::new(),
        }
    }

    /// Compares a call: the answer, every word of the output, that a refusal changes nothing, that a message passes our own check.
    pub fn receive(&mut self, call: Call, counts: &mut Counts) -> Result<Told, String> {
        let before = self.clone_of_lent();
        let streams = self.streams.clone();
        let done = self.streams.receive(call.port, &call.packet, call.output);
        counts.count(&streams, &call, &done);
        let model = told(&done, call.output);
        let mut output = Room::new(&rest(call.output));
        let (table, words) = (&mut self.table, &mut self.words);
        let answer = port::receive(table, words, call.port, &call.packet, &mut output);
        let ours = (answer, output.words().to_vec());
        let changed = done.is_err() && before != self.clone_of_lent();
        let (port, packet) = (call.port, call.packet.clone());
        self.calls.push(call);
        if model != ours {
            return Err(self.fault(&format!("{model:X?}"), &format!("{ours:X?}")));
        }
        if changed {
            return Err(self.fault("the table and the words stay", "they are changed"));
        }
        if let Ok(Done::HandedOut(message)) = &done {
            let (_, group, id) = model::key(port, &packet);
            let wanted = [0, 0, group as usize, id as usize, message.len()];
            let check = port::check(message);
            if check != wanted {
                return Err(self.fault("a message", &format!("the check answers {check:?}")));
            }
        }
        Ok(ours)
    }

    /// The table and the words, as they are.
    fn clone_of_lent(&self) -> [Room; 2] {
        [self.table.clone(), self.words.clone()]
    }

    /// What is wrong with the last call, with the calls before it.
    fn fault(&self, model: &str, ours: &str) -> String {
        let first = self.calls.len().saturating_sub(40);
        let mut text = format!(
            "ours is not as 02 says: {} words lent, call {} of a run; its last calls are\n",
            self.streams.lent,
            self.calls.len()
        );
        for call in &self.calls[first..] {
            let shown = &call.packet[..call.packet.len().min(5)];
            text += &format!("  port {}, packet {shown:08X?}", call.port);
            text += &format!(" in {} words, output {}\n", call.packet.len(), call.output);
        }
        text + &format!("  02     {model}\n  ours   {ours}")
    }
}

/// What the model says of the answer and the output.
fn told(done: &Result<Done, usize>, lent: usize) -> Told {
    let mut output = rest(lent);
    let answer = match done {
        Err(refusal) => [*refusal, 0, 0, 0],
        Ok(Done::Kept) => [0; 4],
        Ok(Done::Dropped) => [0, 0, 1, 0],
        Ok(Done::HandedOut(words)) => {
            output[..words.len()].copy_from_slice(words);
            [0, 0, 2, words.len()]
        }
    };
    (answer, output)
}
