//! What the inputs have reached, what is printed of two calls that should correspond and do not, and the calls with their rooms.
use crate::product::{self, Given};
use crate::random::Random;
use std::collections::BTreeMap;

/// What must be reached in pairs of picks (A).
const OF_PAIRS: [&str; 14] = [
    "in a PARALLEL in a PARALLEL",
    "in a PARALLEL in a WHILE",
    "in a PARALLEL in an IF",
    "in a WHILE below their PARALLEL",
    "in an IF below their PARALLEL",
    "a STOP acts beside",
    "a REINITIAL",
    "201 at the second pick",
    "a fault at the first pick",
    "a fault at the second pick",
    "a tick taken after both",
    "202 after both",
    "a pair that meets taken in one order alone",
    "a pair that meets taken in both",
];

/// What must be reached in schedules with another order (B); then their refusals and answers.
const OF_ORDERS: [&str; 8] = [
    "acts in a changed PARALLEL in a PARALLEL",
    "acts in a changed PARALLEL in a WHILE",
    "acts in a changed PARALLEL in an IF",
    "a STOP in a changed PARALLEL",
    "a tick that several stop alike",
    "a tick taken where several act",
    "a CASE",
    "two changed PARALLELs",
];

const REFUSALS: [u8; 5] = [11, 12, 13, 14, 34];

#[derive(Default)]
pub struct Tally {
    pub both_taken: u64,
    pub not_both_taken: u64,
    pub pairs_by_table: u64,
    pub meeting: u64,
    pub meeting_differed: u64,
    pub schedules: u64,
    pub schedules_by_table: u64,
    pub events: u64,
    pub exempt: u64,
    pub exempt_differed: u64,
    pub refused: u64,
    pub answers: BTreeMap<u8, u64>,
    pub refusals: BTreeMap<u8, u64>,
    seen: BTreeMap<&'static str, u64>,
}

fn list(counts: impl Iterator<Item = (String, u64)>) -> String {
    counts.map(|(name, n)| format!("{n} {name}")).collect::<Vec<_>>().join(", ")
}

impl Tally {
    pub fn saw(&mut self, what: &'static str, seen: bool) {
        *self.seen.entry(what).or_default() += seen as u64;
    }

    /// Every situation, refusal and answer that is to be reached, and how often it was.
    fn reached(&self) -> Vec<(String, u64)> {
        let situations = OF_PAIRS.iter().chain(&OF_ORDERS).map(|s| (s.to_string(), self.seen.get(s).copied().unwrap_or(0)));
        let refusals = REFUSALS.iter().map(|n| (format!("refused with {n}"), self.refusals.get(n).copied().unwrap_or(0)));
        let answers = (23..=31).chain(200..=204).map(|n| (format!("answered {n}"), self.answers.get(&n).copied().unwrap_or(0)));
        let differed = [("pairs that meet and differ", self.meeting_differed), ("exempt ticks that differ", self.exempt_differed)];
        let taken = [("both picks taken", self.both_taken), ("not both picks taken", self.not_both_taken)];
        let counts = differed.into_iter().chain(taken).map(|(name, n)| (name.to_string(), n));
        situations.chain(refusals).chain(answers).chain(counts).collect()
    }

    pub fn unreached(&self) -> Vec<String> {
        self.reached().into_iter().filter(|x| x.1 == 0).map(|x| x.0).collect()
    }

    pub fn print(&self) {
        println!(
            "A: {} pairs ({} by the table too), {} both taken, {} not both taken; {} pairs that meet, {} of them differed",
            self.both_taken + self.not_both_taken,
            self.pairs_by_table,
            self.both_taken,
            self.not_both_taken,
            self.meeting,
            self.meeting_differed
        );
        println!(
            "B: {} schedules ({} by the table too), {} events, {} exempt ticks, {} of them answered differently, {} refused schedules",
            self.schedules, self.schedules_by_table, self.events, self.exempt, self.exempt_differed, self.refused
        );
        let reached = self.reached();
        let (pairs, others) = reached.split_at(OF_PAIRS.len());
        println!("  A reached: {}", list(pairs.iter().cloned()));
        println!("  B reached: {}", list(others[..others.len() - 4].iter().cloned()));
        let unreached = self.unreached();
        println!("  not reached: {}", if unreached.is_empty() { "nothing".to_string() } else { unreached.join(", ") });
    }
}

/// What two calls were lent and what they gave.
pub struct Difference {
    pub what: &'static str,
    pub lent: Vec<(&'static str, Vec<u8>)>,
    pub given: [Given; 2],
}

fn hex(bytes: &[u8]) -> String {
    bytes.iter().map(|b| format!("{b:02x}")).collect()
}

impl Difference {
    pub fn print(&self) {
        println!("a difference {}", self.what);
        for (name, bytes) in &self.lent {
            println!("  {name} ({} bytes): {}", bytes.len(), hex(bytes));
        }
        for (which, g) in ["one", "other"].iter().zip(&self.given) {
            println!("  {which}: returned {}, numbers {:?}, bytes {}", g.refusal, g.numbers, hex(&g.buffer));
        }
    }
}

/// A run of the product, with just the room that it needs.
pub fn ran(r: &mut Random, by_table: bool, program: &[u8], start: &[u8], events: &[u8]) -> Given {
    let room = events.len() / 3 * (9 + start.len());
    product::run(r, by_table, program, start, events, &vec![0; room])
}

/// Enough for any table, as the header says.
const TABLE_ROOM: usize = 400_000;

/// Little room, so that 14 is met and most calls copy little, then enough for any table.
pub fn rooms(r: &mut Random) -> [usize; 3] {
    [r.below(600), 6_000, TABLE_ROOM]
}
