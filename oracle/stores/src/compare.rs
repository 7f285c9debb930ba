//! One comparison of ours with the model, and what came out, how often.
use crate::layout::{MOST_WORDS, SYSEX8};
use crate::{model, port};

/// The calls, and the refusals that each can give, 0 for none.
const CALLS: [(&str, &[usize]); 6] = [
    ("check", &[0, 21, 22, 23]),
    ("describe", &[0, 13, 21, 22, 23, 24, 25]),
    ("restore", &[0, 1, 13, 14, 21, 22, 23, 24, 25]),
    ("mark", &[0, 21, 22, 23, 24]),
    ("collect", &[0, 21, 22, 23]),
    ("look", &[0, 13, 21, 22, 23, 24, 25]),
];

/// How often each call gave each refusal, 0 for none; what was described and restored; of collections, how many dumps they freed, and
/// how many unwanted ones they kept; and of looks, how many came to bytes of deltas, and to a position past the payload.
pub struct Counts {
    outcomes: [[u64; 26]; 6],
    stores: u64,
    deltas: u64,
    longest: usize,
    largest: usize,
    freed: u64,
    kept: u64,
    looked: u64,
    past: u64,
}

/// What restoring answered, and the words lent.
pub type Restored = ([usize; 3], Vec<u32>);

/// The bytes of a store that is changed, or the refusal.
pub type Changed = Result<Vec<u8>, usize>;

/// A store in hex, cut short if it is long.
fn hex(store: &[u8]) -> String {
    let shown: String = store
        .iter()
        .take(4000)
        .map(|byte| format!("{byte:02X}"))
        .collect();
    match store.len() > 4000 {
        true => format!("{shown}... ({} bytes)", store.len()),
        false => shown,
    }
}

/// What is wrong, with the store and both answers.
fn fault(call: &str, store: &[u8], model: String, ours: String) -> String {
    let store = hex(store);
    format!("ours is not as 02 says: {call}\n  store  {store}\n  02     {model}\n  ours   {ours}")
}

impl Counts {
    /// No counts yet.
    pub fn new() -> Counts {
        Counts {
            outcomes: [[0; 26]; 6],
            stores: 0,
            deltas: 0,
            longest: 0,
            largest: 0,
            freed: 0,
            kept: 0,
            looked: 0,
            past: 0,
        }
    }

    /// Compares the check of a store; answers it.
    pub fn check(&mut self, store: &[u8]) -> Result<[usize; 3], String> {
        let (model, ours) = (model::check_answer(store), port::check(store));
        if model != ours {
            let [model, ours] = [model, ours].map(|answer| format!("{answer:?}"));
            return Err(fault("check", store, model, ours));
        }
        self.outcomes[0][model[0]] += 1;
        self.stores += 1;
        Ok(model)
    }

    /// Compares the description of a dump; answers it.
    pub fn describe(&mut self, store: &[u8], number: usize) -> Result<[usize; 9], String> {
        let model = model::describe_answer(store, number);
        let ours = port::describe(store, number);
        if model != ours {
            let [model, ours] = [model, ours].map(|answer| format!("{answer:?}"));
            return Err(fault(&format!("describe {number}"), store, model, ours));
        }
        self.outcomes[1][model[0]] += 1;
        self.longest = self.longest.max(model[8]);
        self.deltas += model[2] as u64;
        Ok(model)
    }

    /// Compares restoring a dump in these words: the answer and every word lent. Answers what was answered, and the words.
    pub fn restore(
        &mut self,
        store: &[u8],
        number: usize,
        words: &[u32],
    ) -> Result<Restored, String> {
        let model = model::restore_answer(store, number, words);
        let ours = port::restore(store, number, words);
        if model != ours {
            let call = format!("restore {number} in {} words", words.len());
            let [model, ours] = [&model, &ours].map(|answer| format!("{answer:X?}"));
            return Err(fault(&call, store, model, ours));
        }
        self.outcomes[2][model.0[0]] += 1;
        self.largest = self.largest.max(model.0[2]);
        Ok(model)
    }

    /// Compares description and restoring of a dump, in these words and in just as many as the description says.
    pub fn both(&mut self, store: &[u8], number: usize, words: &[u32]) -> Result<(), String> {
        let dump = self.describe(store, number)?;
        self.restore(store, number, words)?;
        if dump[0] == 0 && dump[7] <= MOST_WORDS {
            let enough = vec![0xA5A5_A5A5; dump[7]];
            let accepted = self.restore(store, number, &enough)?.0[0] == 0;
            let refused = self.restore(store, number, &enough[1..])?.0[0] == 14;
            if !accepted || !refused {
                let text = "the words of the description are not just those that restoring needs";
                return self.wrong(text, store, number);
            }
        }
        Ok(())
    }

    /// Compares the bytes of a dump at these positions.
    pub fn look(
        &mut self,
        store: &[u8],
        number: usize,
        positions: impl IntoIterator<Item = usize>,
    ) -> Result<(), String> {
        let payload = model::payload(store, number);
        for position in positions {
            let model = model::look_answer(&payload, position);
            let ours = port::look(store, number, position);
            if model != ours {
                let call = format!("look at {position} of {number}");
                let [model, ours] = [model, ours].map(|answer| format!("{answer:?}"));
                return Err(fault(&call, store, model, ours));
            }
            self.outcomes[5][model[0]] += 1;
        }
        Ok(())
    }

    /// Compares all bytes of a dump, and positions past them; and ours with ours, what is described and restored.
    pub fn look_at_all(&mut self, store: &[u8], number: usize) -> Result<(), String> {
        let dump = port::describe(store, number);
        self.look(store, number, (0..dump[6] + 2).chain([usize::MAX]))?;
        let words = vec![0; dump[7].min(MOST_WORDS)];
        let ([refusal, _, length], words) = port::restore(store, number, &words);
        let payload = match [dump[0], refusal] {
            [0, 0] => SYSEX8.payload(&words[..length]),
            _ => return Ok(()),
        };
        for position in 0..=payload.len() {
            let wanted = match payload.get(position) {
                Some(&byte) => [0, 0, byte.into()],
                None => [13, 0, 0],
            };
            if port::look(store, number, position) != wanted {
                return self.wrong("a look is not what is restored", store, number);
            }
        }
        self.looked += (dump[2] * payload.len()) as u64;
        self.past += 1;
        Ok(())
    }

    /// Compares a call that may change the bytes of a store, the `which`-th: the answer and every byte lent.
    fn changed(
        &mut self,
        which: usize,
        call: &str,
        store: &[u8],
        model: ([usize; 3], Vec<u8>),
        ours: ([usize; 3], Vec<u8>),
    ) -> Result<([usize; 3], Vec<u8>), String> {
        if model != ours {
            let [model, ours] =
                [&model, &ours].map(|(answer, bytes)| format!("{answer:?} {}", hex(bytes)));
            return Err(fault(call, store, model, ours));
        }
        self.outcomes[which][model.0[0]] += 1;
        Ok(model)
    }

    /// Compares marking a dump. Answers the bytes after it.
    pub fn mark(&mut self, store: &[u8], number: usize) -> Result<Changed, String> {
        let model = model::mark_answer(store, number);
        let ours = port::mark(store, number);
        let (answer, bytes) = self.changed(3, &format!("mark {number}"), store, model, ours)?;
        Ok(match answer[0] {
            0 => Ok(bytes),
            refusal => Err(refusal),
        })
    }

    /// Compares collecting a store. Answers the bytes in use after it.
    pub fn collect(&mut self, store: &[u8]) -> Result<Changed, String> {
        let (model, ours) = (model::collect_answer(store), port::collect(store));
        let (answer, mut bytes) = self.changed(4, "collect", store, model, ours)?;
        bytes.truncate(answer[2]);
        Ok(match answer[0] {
            0 => Ok(bytes),
            refusal => Err(refusal),
        })
    }

    /// What is wrong with marking or collecting a store, beside the answers.
    pub fn wrong(&self, text: &str, store: &[u8], number: usize) -> Result<(), String> {
        Err(format!("{text}: {number}\n  store  {}", hex(store)))
    }

    /// Counts a dump that a collection freed, or an unwanted one that it kept.
    pub fn count_fate(&mut self, fate: model::Fate) {
        match fate {
            model::Fate::RestedOn => self.kept += 1,
            model::Fate::Freed => self.freed += 1,
            _ => {}
        }
    }

    /// All comparisons.
    pub fn total(&self) -> u64 {
        self.outcomes.iter().flatten().sum()
    }

    /// The first call and refusal that never came, or that no dump was freed, no unwanted one kept, no byte of a delta looked at.
    pub fn never(&self) -> Option<String> {
        if self.looked == 0 || self.past == 0 {
            return Some("no byte of a delta was looked at, or no position past a payload".into());
        }
        if self.freed == 0 || self.kept == 0 {
            return Some("no dump was freed, or no unwanted one kept".into());
        }
        for ((call, refusals), counts) in CALLS.iter().zip(&self.outcomes) {
            if let Some(refusal) = refusals.iter().find(|&&refusal| counts[refusal] == 0) {
                return Some(format!("{call} never answered {refusal}"));
            }
        }
        None
    }

    /// Prints the table.
    pub fn print(&self) {
        let numbers = [0, 1, 13, 14, 21, 22, 23, 24, 25];
        let head: String = numbers
            .iter()
            .map(|number| format!("{number:>10}"))
            .collect();
        println!(
            "How often each call gave each refusal (0: accepted)\n{:10}{head}",
            ""
        );
        for ((call, refusals), counts) in CALLS.iter().zip(&self.outcomes) {
            let cell = |&number: &usize| match refusals.contains(&number) {
                true => format!("{:>10}", counts[number]),
                false => format!("{:>10}", "-"),
            };
            println!("{call:10}{}", numbers.iter().map(cell).collect::<String>());
        }
        println!(
            "{} stores, {} deltas described; the longest walk has {} steps, the longest message {} words",
            self.stores, self.deltas, self.longest, self.largest
        );
        println!(
            "collections freed {} dumps and kept {} unwanted ones",
            self.freed, self.kept
        );
        println!(
            "{} bytes of deltas, and the end of {} dumps, looked at as they are restored",
            self.looked, self.past
        );
    }
}
