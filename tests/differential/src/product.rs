//! The calls of libcapi.a, each lent its bytes and numbers between others that are watched.
use crate::random::Random;

extern "C" {
    fn zimtleiter_read_schedule(file: *const u8, file_len: usize) -> u8;
    fn zimtleiter_read_table(table: *const u8, table_len: usize) -> u8;
    fn zimtleiter_size(file: *const u8, file_len: usize, locations: *mut u64, entries: *mut u64) -> u8;
    fn zimtleiter_compile(file: *const u8, file_len: usize, table: *mut u8, room: usize, length: *mut u64, comparisons: *mut u64) -> u8;
    fn zimtleiter_rule_run(
        file: *const u8,
        file_len: usize,
        start: *const u8,
        start_len: usize,
        events: *const u8,
        events_len: usize,
        records: *mut u8,
        room: usize,
        taken: *mut u64,
        turned_away: *mut u64,
        faulted: *mut u64,
    ) -> u8;
    fn zimtleiter_table_run(
        table: *const u8,
        table_len: usize,
        start: *const u8,
        start_len: usize,
        events: *const u8,
        events_len: usize,
        records: *mut u8,
        room: usize,
        taken: *mut u64,
        turned_away: *mut u64,
        faulted: *mut u64,
    ) -> u8;
    fn zimtleiter_practice(seed: u32, count: u64, events: *mut u8, room: usize, length: *mut u64) -> u8;
}

/// What a call gave: its number, the numbers behind its pointers, the lent buffer afterwards, and what it touched that is not its own.
#[derive(PartialEq, Eq, Debug, Default)]
pub struct Given {
    pub refusal: u8,
    pub numbers: Vec<u64>,
    pub buffer: Vec<u8>,
    pub touched: Vec<&'static str>,
}

/// Bytes to lend, at any alignment, with others before and behind.
struct Lent {
    all: Vec<u8>,
    kept: Vec<u8>,
    from: usize,
    to: usize,
}

impl Lent {
    fn new(r: &mut Random, bytes: &[u8]) -> Self {
        let from = 16 + r.below(32);
        let mut all = r.bytes(from);
        all.extend(bytes);
        all.extend(r.bytes(48));
        Lent { kept: all.clone(), from, to: from + bytes.len(), all }
    }

    fn place(&mut self) -> *mut u8 {
        self.all[self.from..].as_mut_ptr()
    }

    fn length(&self) -> usize {
        self.to - self.from
    }

    fn bytes(&self) -> &[u8] {
        &self.all[self.from..self.to]
    }

    fn unaltered(&self) -> bool {
        self.all == self.kept
    }

    fn unaltered_around(&self) -> bool {
        self.all[..self.from] == self.kept[..self.from] && self.all[self.to..] == self.kept[self.to..]
    }
}

/// A number that a call sets, between two others.
struct Set {
    all: [u64; 3],
    kept: [u64; 3],
}

impl Set {
    fn new(r: &mut Random) -> Self {
        let all = [r.word(), r.word(), r.word()];
        Set { all, kept: all }
    }

    fn place(&mut self) -> *mut u64 {
        &mut self.all[1]
    }

    fn unaltered_around(&self) -> bool {
        self.all[0] == self.kept[0] && self.all[2] == self.kept[2]
    }
}

fn touched(inputs: &[&Lent], output: Option<&Lent>, sets: &[Set]) -> Vec<&'static str> {
    let mut l = Vec::new();
    if !inputs.iter().all(|x| x.unaltered()) {
        l.push("an input or the bytes around it");
    }
    if !output.iter().all(|x| x.unaltered_around()) {
        l.push("the bytes around the buffer");
    }
    if !sets.iter().all(|x| x.unaltered_around()) {
        l.push("the words around a number");
    }
    l
}

pub fn read_schedule(r: &mut Random, file: &[u8]) -> Given {
    let mut file = Lent::new(r, file);
    let refusal = unsafe { zimtleiter_read_schedule(file.place(), file.length()) };
    Given { refusal, touched: touched(&[&file], None, &[]), ..Given::default() }
}

pub fn read_table(r: &mut Random, table: &[u8]) -> Given {
    let mut table = Lent::new(r, table);
    let refusal = unsafe { zimtleiter_read_table(table.place(), table.length()) };
    Given { refusal, touched: touched(&[&table], None, &[]), ..Given::default() }
}

pub fn size(r: &mut Random, file: &[u8]) -> Given {
    let mut file = Lent::new(r, file);
    let mut set = [Set::new(r), Set::new(r)];
    let [locations, entries] = &mut set;
    let refusal = unsafe { zimtleiter_size(file.place(), file.length(), locations.place(), entries.place()) };
    Given { refusal, numbers: set.iter().map(|x| x.all[1]).collect(), touched: touched(&[&file], None, &set), ..Given::default() }
}

pub fn compile(r: &mut Random, file: &[u8], buffer: &[u8]) -> Given {
    let (mut file, mut table) = (Lent::new(r, file), Lent::new(r, buffer));
    let mut set = [Set::new(r), Set::new(r)];
    let [length, comparisons] = &mut set;
    let refusal =
        unsafe { zimtleiter_compile(file.place(), file.length(), table.place(), table.length(), length.place(), comparisons.place()) };
    Given {
        refusal,
        numbers: set.iter().map(|x| x.all[1]).collect(),
        buffer: table.bytes().to_vec(),
        touched: touched(&[&file], Some(&table), &set),
    }
}

/// By the rules, or a table.
pub fn run(r: &mut Random, by_table: bool, program: &[u8], start: &[u8], events: &[u8], buffer: &[u8]) -> Given {
    let call = if by_table { zimtleiter_table_run } else { zimtleiter_rule_run };
    let (mut program, mut start, mut events) = (Lent::new(r, program), Lent::new(r, start), Lent::new(r, events));
    let mut records = Lent::new(r, buffer);
    let mut set = [Set::new(r), Set::new(r), Set::new(r)];
    let [taken, turned_away, faulted] = &mut set;
    let refusal = unsafe {
        call(
            program.place(),
            program.length(),
            start.place(),
            start.length(),
            events.place(),
            events.length(),
            records.place(),
            records.length(),
            taken.place(),
            turned_away.place(),
            faulted.place(),
        )
    };
    Given {
        refusal,
        numbers: set.iter().map(|x| x.all[1]).collect(),
        buffer: records.bytes().to_vec(),
        touched: touched(&[&program, &start, &events], Some(&records), &set),
    }
}

pub fn practice(r: &mut Random, seed: u32, count: u64, buffer: &[u8]) -> Given {
    let mut events = Lent::new(r, buffer);
    let mut set = [Set::new(r)];
    let refusal = unsafe { zimtleiter_practice(seed, count, events.place(), events.length(), set[0].place()) };
    Given { refusal, numbers: vec![set[0].all[1]], buffer: events.bytes().to_vec(), touched: touched(&[], Some(&events), &set) }
}
