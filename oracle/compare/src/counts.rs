//! What was compared, how often.
use crate::answers::KIND_NAMES;
use crate::differences::{Builds, Place, ALL};

/// The stand-ins that a comparison can rest on.
#[derive(Clone, Copy, PartialEq, Eq)]
pub enum StandIn {
    Order,
    TooShort,
    Data,
    New,
    Ux,
}

/// The stand-ins as rows of their table.
pub const STAND_IN_NAMES: [&str; 5] = [
    "macro: order of the message checks",
    "macro: a message too short",
    "macro: data(), words behind the message",
    "macro: new()",
    "crate ux: a value too big panics",
];

/// How a comparison came out.
#[derive(Clone, Copy, PartialEq, Eq)]
pub enum Outcome {
    /// Inside the domain, the same answer.
    Equal,
    /// Inside the domain, a listed difference.
    Listed,
    /// Ours refuses, and so does the original, for the same reason.
    RefusedAlike,
    /// Ours refuses, and the original does what is listed.
    RefusedListed,
    /// The original was not asked: ours against 01 alone.
    Alone,
}

/// All counts of a run.
pub struct Counts {
    pub kinds: [[u64; 5]; KIND_NAMES.len()],
    pub stand_ins: [[[u64; 5]; KIND_NAMES.len()]; STAND_IN_NAMES.len()],
    pub held: [u64; ALL.len()],
    pub differed: [u64; ALL.len()],
    pub open: [u64; ALL.len()],
}

impl Counts {
    /// No counts yet.
    pub fn new() -> Counts {
        Counts {
            kinds: [[0; 5]; KIND_NAMES.len()],
            stand_ins: [[[0; 5]; KIND_NAMES.len()]; STAND_IN_NAMES.len()],
            held: [0; ALL.len()],
            differed: [0; ALL.len()],
            open: [0; ALL.len()],
        }
    }

    /// Notes one comparison.
    pub fn note(&mut self, row: usize, rests_on: Option<StandIn>, outcome: Outcome) {
        match rests_on {
            Some(stand_in) => self.stand_ins[stand_in as usize][row][outcome as usize] += 1,
            None => self.kinds[row][outcome as usize] += 1,
        }
    }

    /// The sum of a table without its last column.
    fn compared(table: &[[u64; 5]]) -> u64 {
        let row = |row: &[u64; 5]| row[..4].iter().sum::<u64>();
        table.iter().map(row).sum()
    }

    /// Comparisons that rest on the original's own text.
    fn on_text(&self) -> u64 {
        Counts::compared(&self.kinds)
    }

    /// Comparisons that rest on a stand-in.
    fn on_stand_ins(&self) -> u64 {
        self.stand_ins
            .iter()
            .map(|table| Counts::compared(table))
            .sum()
    }

    /// All comparisons with the original.
    pub fn total(&self) -> u64 {
        self.on_text() + self.on_stand_ins()
    }

    /// Prints the head of a table of outcomes.
    fn print_head(title: &str) {
        println!("{title}");
        for cells in [
            ["equal", "listed", "refused", "refused", "ours"],
            ["", "", "alike", "listed", "alone"],
        ] {
            let cells: String = cells.iter().map(|cell| format!("{cell:>10}")).collect();
            println!("{:42}{cells}", "");
        }
    }

    /// Prints a row of a table of outcomes.
    fn print_row(name: &str, row: &[u64; 5]) {
        let cells: String = row.iter().map(|count| format!("{count:>10}")).collect();
        println!("{name:42}{cells}");
    }

    /// Prints the comparisons with the original's own text.
    fn print_kinds(&self) {
        Counts::print_head("Compared with the original's own text (inside the domain: equal, listed; outside: refused)");
        for (name, row) in KIND_NAMES.iter().zip(&self.kinds) {
            Counts::print_row(name, row);
        }
        println!();
    }

    /// Prints the comparisons that rest on stand-ins, by kind where there are several.
    fn print_stand_ins(&self) {
        Counts::print_head(
            "Apart: comparisons that rest on a stand-in, not called equality with the Rust",
        );
        for (stand_in, table) in STAND_IN_NAMES.iter().zip(&self.stand_ins) {
            println!("{stand_in}");
            for (name, row) in KIND_NAMES
                .iter()
                .zip(table)
                .filter(|(_, row)| **row != [0; 5])
            {
                Counts::print_row(&format!("  {name}"), row);
            }
        }
        println!();
    }

    /// Prints how often each difference showed.
    fn print_differences(&self) {
        println!(
            "Differences of docs/DIFFERENCES.md: inputs for which the test held, those that differed, and those for which \
             the entry leaves the original's answer open"
        );
        println!(
            "{:60}{:>14}{:>10}{:>10}{:>10}",
            "", "", "held", "differed", "open"
        );
        for (index, difference) in ALL.iter().enumerate() {
            if difference.builds == Builds::DebugOnly && !cfg!(debug_assertions) {
                continue;
            }
            let place = match difference.place {
                Place::Inside => "inside",
                Place::Outside => "outside",
                Place::NotCompared => "not compared",
            };
            let name = format!("{:4} {}", difference.name, difference.title);
            let counts = [self.held[index], self.differed[index], self.open[index]];
            let cells: String = counts.iter().map(|count| format!("{count:>10}")).collect();
            println!("{name:60}{place:>14}{cells}");
        }
        println!();
    }

    /// Prints all tables.
    pub fn print(&self) {
        self.print_kinds();
        self.print_stand_ins();
        self.print_differences();
        println!(
            "{} comparisons: {} with the original's own text, {} on stand-ins; all as docs/DIFFERENCES.md says",
            self.total(),
            self.on_text(),
            self.on_stand_ins()
        );
    }
}
