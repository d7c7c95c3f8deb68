//! A test: a schedule or a table, what its calls are lent, and what the paper gives for it. Its cases are all calls on it.
use crate::calls::{EVENTS, FILE, Lent, RECORDS, START, TABLE};
use crate::case::Case;
use crate::tables;

pub struct Test {
    pub name: String,
    pub of_table: bool,
    pub lent: Lent,
    /// parts as cases.py describes them; none for a random test
    pub says: String,
}

fn unhex(word: &str) -> Vec<u8> {
    let digits: Vec<u8> = word.chars().filter_map(|c| c.to_digit(16)).map(|d| d as u8).collect();
    digits.chunks(2).map(|d| d[0] * 16 + d[1]).collect()
}

/// Whether the comparisons that compiling gives, where it accepts, are those that the table's bytes tell.
fn compared_as_told(c: &Case) -> bool {
    let Ok(given) = &c.outcome else { return true };
    c.call().name != "compile" || given.numbers[1] == tables::comparisons(&given.left[0].1)
}

impl Test {
    pub fn new(name: String, of_table: bool, [program, start, events]: [Vec<u8>; 3], rooms: [usize; 3], says: String) -> Test {
        let mut lent = Lent { strings: Default::default(), rooms };
        lent.strings[if of_table { TABLE } else { FILE }] = program;
        lent.strings[START] = start;
        lent.strings[EVENTS] = events;
        Test { name, of_table, lent, says }
    }

    /// Of a line that cases.py prints.
    pub fn by_hand(line: &str) -> Test {
        let words: Vec<&str> = line.split('\t').collect();
        let [kind, name, program, start, events, table_room, record_room, other_room, says] = words[..] else { panic!("no test: {line}") };
        let rooms = [table_room, record_room, other_room].map(|w| w.parse().unwrap());
        Test::new(name.to_string(), kind == "table", [program, start, events].map(unhex), rooms, says.to_string())
    }

    /// The calls on a schedule, then those on its table where it compiles; or the calls on a table.
    pub fn cases(&self) -> Vec<Case> {
        if self.of_table {
            return Case::all(&self.name, TABLE, &self.lent);
        }
        let mut l = Case::all(&self.name, FILE, &self.lent);
        if let Some(table) = l.iter().find_map(|c| c.strings()[TABLE]).cloned() {
            let mut lent = self.lent.clone();
            lent.strings[TABLE] = table;
            l.extend(Case::all(&self.name, TABLE, &lent));
        }
        l
    }

    /// Parts of what the paper gives that none of the cases has.
    fn misses(&self, cases: &[Case]) -> Vec<&str> {
        let has = |c: &Case, part: &str| match part.split_once(" = ") {
            Some(("table", bytes)) => c.strings()[TABLE] == Some(&unhex(bytes)),
            Some(("records", bytes)) => c.strings()[RECORDS] == Some(&unhex(bytes)),
            _ => part == c.told() || part == c.told_whole(),
        };
        let parts = self.says.split(';').map(str::trim).filter(|p| !p.is_empty());
        parts.filter(|p| !cases.iter().any(|c| has(c, p))).collect()
    }

    /// What is wrong with it: plain.rs must give what the paper gives, its two runs the same records, and as many comparisons as its
    /// table tells.
    pub fn complaints(&self, cases: &[Case]) -> Vec<String> {
        let mut l: Vec<String> = self.misses(cases).iter().map(|p| format!("the paper gives '{p}', plain.rs does not")).collect();
        let records: Vec<&Vec<u8>> = cases.iter().filter_map(|c| c.strings()[RECORDS]).collect();
        if records.iter().any(|r| *r != records[0]) {
            l.push("plain.rs gives its runs different records".to_string());
        }
        if !cases.iter().all(compared_as_told) {
            l.push("plain.rs gives other comparisons than the bytes of its table".to_string());
        }
        if !l.is_empty() {
            l.extend(cases.iter().map(|c| format!("  plain.rs gives '{}'", c.told_whole())));
        }
        if !cases.iter().all(Case::fits) {
            l.push("its name, a string or a room is none that cases_test takes".to_string());
        }
        l.iter().map(|s| format!("{}: {s}", self.name)).collect()
    }
}
