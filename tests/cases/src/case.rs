//! A stored case: one call, what it is lent and what it gives; its bytes, its line, and itself in readable form.
use crate::calls::{CALLS, Call, EVENTS, Given, Lent, RECORDS, ROOMS, STRINGS};
use crate::plain::Refusal;

pub struct Case {
    pub name: String,
    /// its place in CALLS
    pub which: usize,
    pub lent: Lent,
    pub outcome: Result<Given, Refusal>,
}

/// The length that stands for the string of the case before.
const SAME: u32 = 0xFFFF_FFFF;

fn hex(bytes: &[u8]) -> String {
    bytes.iter().map(|b| format!("{b:02X}")).collect()
}

impl Case {
    /// Every call that reads this string, made.
    pub fn all(name: &str, string: usize, lent: &Lent) -> Vec<Case> {
        let calls = (0..CALLS.len()).filter(|k| CALLS[*k].reads.contains(&string));
        calls.map(|which| Case { name: name.to_string(), which, lent: lent.clone(), outcome: (CALLS[which].gives)(lent) }).collect()
    }

    pub fn call(&self) -> &'static Call {
        &CALLS[self.which]
    }

    pub fn refusal(&self) -> Refusal {
        self.outcome.as_ref().err().copied().unwrap_or(0)
    }

    pub fn numbers(&self) -> Vec<u64> {
        let l = self.outcome.as_ref().map_or(vec![0; self.call().numbers], |g| g.numbers.clone());
        assert_eq!(l.len(), self.call().numbers);
        l
    }

    /// What the call reads, and where it accepts what it leaves.
    pub fn strings(&self) -> [Option<&Vec<u8>>; 5] {
        let mut l = [None; 5];
        for s in self.call().reads {
            l[*s] = Some(&self.lent.strings[*s]);
        }
        for (s, bytes) in self.outcome.iter().flat_map(|g| &g.left) {
            l[*s] = Some(bytes);
        }
        l
    }

    fn room(&self, k: usize) -> usize {
        if self.call().rooms.contains(&k) { self.lent.rooms[k] } else { 0 }
    }

    /// Whether cases_test takes it.
    pub fn fits(&self) -> bool {
        let strings = self.strings().into_iter().zip(STRINGS).all(|(l, (_, longest))| l.is_none_or(|l| l.len() <= longest));
        let rooms = (0..3).all(|k| self.room(k) <= STRINGS[ROOMS[k].1].1);
        strings && rooms && self.name.is_ascii() && self.name.len() < 256
    }

    /// As README.md says. `before` are the strings of the case before; a case keeps those that it has not.
    pub fn bytes(&self, before: &mut [Option<Vec<u8>>; 5]) -> Vec<u8> {
        let mut l = vec![self.which as u8 + 1, self.name.len() as u8];
        l.extend(self.name.bytes());
        for (old, new) in before.iter_mut().zip(self.strings()) {
            let new = new.or(old.as_ref()).cloned().unwrap_or_default();
            if old.as_ref() == Some(&new) {
                l.extend(SAME.to_be_bytes());
            } else {
                l.extend((new.len() as u32).to_be_bytes());
                l.extend(&new);
                *old = Some(new);
            }
        }
        let rooms = (0..3).map(|k| self.room(k) as u32);
        let numbers = self.numbers();
        let numbers = (0..8).map(|k| numbers.get(k).map_or(0, |n| *n as u32));
        l.extend(rooms.flat_map(u32::to_be_bytes));
        l.push(self.refusal());
        l.extend(numbers.flat_map(u32::to_be_bytes));
        l
    }

    /// The call, its refusal and its numbers.
    pub fn told(&self) -> String {
        let numbers: Vec<String> = self.numbers().iter().map(u64::to_string).collect();
        format!("{} {}, {}", self.call().name, self.refusal(), numbers.join(" "))
    }

    /// The same, of an accepted run with its answers.
    pub fn told_whole(&self) -> String {
        let answers = self.answers();
        if answers.is_empty() { self.told() } else { format!("{}: {answers}", self.told()) }
    }

    /// The line of the output.
    pub fn line(&self) -> String {
        format!("{}: {}; as stored\n", self.name, self.told())
    }

    /// The records of an accepted run, one by one.
    pub fn records(&self) -> Vec<&[u8]> {
        let count = self.lent.strings[EVENTS].len() / 3;
        self.strings()[RECORDS].map_or(Vec::new(), |l| if count == 0 { Vec::new() } else { l.chunks(l.len() / count).collect() })
    }

    /// The answers of an accepted run, `200 x3` being three of them in a row.
    fn answers(&self) -> String {
        let records = self.records();
        let rows: Vec<String> = records
            .chunk_by(|a, b| a[0] == b[0])
            .map(|l| if l.len() == 1 { l[0][0].to_string() } else { format!("{} x{}", l[0][0], l.len()) })
            .collect();
        rows.join(" ")
    }

    pub fn show(&self) {
        println!("{}: {}", self.name, self.told());
        let strings = self.strings();
        for s in self.call().reads {
            let bytes = strings[*s].unwrap();
            let row = if *s == EVENTS { bytes.chunks(3).map(hex).collect::<Vec<_>>().join(" ") } else { hex(bytes) };
            println!("  {} of {} bytes: {row}", STRINGS[*s].0, bytes.len());
        }
        for k in self.call().rooms {
            let (name, s) = ROOMS[*k];
            let left = if self.outcome.is_ok() { strings[s].unwrap().as_slice() } else { &[] };
            println!("  lent for {name}: {} bytes; afterwards {} written, {} of AA", self.room(*k), left.len(), self.room(*k) - left.len());
            let records = self.records();
            if s == RECORDS {
                records.iter().for_each(|r| println!("    {}: {}", r[0], hex(r)));
            } else if !left.is_empty() {
                println!("    {}", hex(left));
            }
        }
    }
}
