//! The calls of the product against the plain implementation, on inputs from a seed.
//! differential [SEED [SECONDS]]
//! Status 1 at a difference, and where the inputs of the whole run do not reach every refusal, answer and situation.
mod drafts;
mod forms;
mod inputs;
mod plain;
mod product;
mod random;
mod tables;

use plain::{Compiled, SITUATIONS, Situation};
use product::Given;
use random::Random;
use std::collections::BTreeMap;
use std::ops::RangeInclusive;
use std::time::{Duration, Instant};

const CALLS: [&str; 7] = ["read_schedule", "read_table", "compile", "rule_run", "table_run", "size", "practice"];

/// The most bytes of practice events that are run, so that the other inputs have the most of the time.
const LONGEST_DRILL: usize = 900;

/// The numbers that each call is refused with, in the order of CALLS.
const REFUSALS: [&[RangeInclusive<u8>]; 7] =
    [&[1..=12, 34..=34], &[15..=19], &[1..=14, 34..=34], &[1..=12, 20..=22, 34..=34], &[15..=22], &[1..=12, 34..=34], &[32..=33]];

fn refusals(call: usize) -> impl Iterator<Item = u8> {
    REFUSALS[call].iter().cloned().flatten()
}

/// The answers in records.
fn answers() -> impl Iterator<Item = u8> {
    (23..=31).chain(200..=204)
}

/// What was seen so far.
#[derive(Default)]
struct Tally {
    inputs: u64,
    calls: [u64; 7],
    accepted: [u64; 7],
    refusals: [BTreeMap<u8, u64>; 7],
    situations: BTreeMap<Situation, u64>,
    answers: BTreeMap<u8, u64>,
    longest: [usize; 4],
    edges: [u64; 4],
    over: u64,
    most_comparisons: u64,
}

const EDGES: [&str; 4] = ["of 65,535 bytes", "of 64 nodes", "with 1,024 locations", "with a table of 65,530 to 65,542 bytes"];

/// The call, what it was lent, what it gave and what it should have given.
struct Difference {
    call: usize,
    lent: Vec<(&'static str, Vec<u8>)>,
    given: Given,
    wanted: Given,
}

fn hex(bytes: &[u8]) -> String {
    bytes.iter().map(|b| format!("{b:02x}")).collect()
}

impl Tally {
    fn saw(&mut self, call: usize, refusal: u8) {
        self.calls[call] += 1;
        if refusal == 0 {
            self.accepted[call] += 1;
        } else {
            *self.refusals[call].entry(refusal).or_default() += 1;
        }
    }

    fn saw_length(&mut self, what: usize, n: usize) {
        self.longest[what] = self.longest[what].max(n);
    }

    fn print(&self, since: Instant) {
        println!("{} s, {} inputs, 0 differences", since.elapsed().as_secs(), self.inputs);
        let calls: Vec<String> = (0..CALLS.len()).map(|k| format!("{} {} of {}", CALLS[k], self.accepted[k], self.calls[k])).collect();
        println!("  accepted: {}", calls.join(", "));
        for (k, call) in CALLS.iter().enumerate() {
            let refused: Vec<String> = refusals(k).map(|n| format!("{n}:{}", self.refusals[k].get(&n).unwrap_or(&0))).collect();
            println!("  refused {call}: {}", refused.join(" "));
        }
        for row in SITUATIONS.chunk_by(|a, b| a.0 == b.0) {
            let counts: Vec<String> = row.iter().map(|s| format!("{} {}", self.situations.get(s).unwrap_or(&0), s.1)).collect();
            println!("  {}: {}", row[0].0, counts.join(", "));
        }
        let answers: Vec<String> = answers().map(|n| format!("{n}:{}", self.answers.get(&n).unwrap_or(&0))).collect();
        println!("  answered: {}", answers.join(" "));
        let [file, table, events, records] = self.longest;
        println!("  longest: file {file}, table {table}, events {events}, records {records} bytes");
        let edges: Vec<String> = (0..4).map(|k| format!("{} {}", self.edges[k], EDGES[k])).collect();
        println!("  compiled: {}", edges.join(", "));
        println!("  sizes over the limit: {}", self.over);
        println!("  most comparisons of one compiling: {}", self.most_comparisons);
    }

    /// A schedule that compiles, and its table.
    fn saw_compiled(&mut self, file: &[u8], table: &[u8]) {
        self.saw_length(0, file.len());
        let d = tables::split(table);
        let nodes = drafts::node_count(file);
        let edges = [file.len() == 65_535, nodes == 64, d.locations.len() == 1024, (65_530..=65_542).contains(&table.len())];
        for (n, seen) in self.edges.iter_mut().zip(edges) {
            *n += seen as u64;
        }
    }

    /// Both ways to count the comparisons give the same: going up the residuals, and from the table's bytes alone.
    fn saw_comparisons(&mut self, c: &Compiled) {
        assert_eq!(c.comparisons, tables::comparisons(&c.table), "comparisons by plain.rs and by the bytes of {}", hex(&c.table));
        self.most_comparisons = self.most_comparisons.max(c.comparisons);
    }

    /// A schedule file, and what reading it is refused with.
    fn saw_situations(&mut self, file: &[u8], refused: Option<u8>) {
        for s in plain::situations(file, refused) {
            *self.situations.entry(s).or_default() += 1;
        }
    }

    /// Refusals, answers and situations that no input has reached.
    fn unseen(&self) -> Vec<String> {
        let mut l = Vec::new();
        for (k, call) in CALLS.iter().enumerate() {
            l.extend(refusals(k).filter(|n| !self.refusals[k].contains_key(n)).map(|n| format!("{call} {n}")));
        }
        l.extend(answers().filter(|n| !self.answers.contains_key(n)).map(|n| n.to_string()));
        l.extend(SITUATIONS.iter().filter(|s| !self.situations.contains_key(s)).map(|s| format!("{} {}", s.0, s.1)));
        l
    }
}

fn compare(call: usize, lent: &[(&'static str, &[u8])], given: Given, wanted: Given) -> Result<(), Box<Difference>> {
    if given == wanted {
        return Ok(());
    }
    let lent = lent.iter().map(|(name, b)| (*name, b.to_vec())).collect();
    Err(Box::new(Difference { call, lent, given, wanted }))
}

/// The written bytes at the front of the old ones.
fn over(written: &[u8], old: &[u8]) -> Vec<u8> {
    let mut l = written.to_vec();
    l.extend(old.get(written.len()..).unwrap_or(&[]));
    l
}

/// What a call gives that writes one list and tells its length.
fn written(list: Result<&[u8], u8>, old: &[u8]) -> Given {
    match list {
        Ok(l) => Given { numbers: vec![l.len() as u64], buffer: over(l, old), ..Given::default() },
        Err(n) => Given { refusal: n, numbers: vec![0], buffer: old.to_vec(), ..Given::default() },
    }
}

/// What compiling gives: the same of the table, and the comparisons behind the length.
fn written_table(compiled: Result<&Compiled, u8>, old: &[u8]) -> Given {
    let mut given = written(compiled.map(|c| &c.table[..]), old);
    given.numbers.push(compiled.map_or(0, |c| c.comparisons));
    given
}

fn read(r: &mut Random, t: &mut Tally, call: usize, bytes: &[u8]) -> Result<(), Box<Difference>> {
    let (refused, given) = if call == 0 {
        (plain::read_schedule(bytes).err(), product::read_schedule(r, bytes))
    } else {
        (plain::read_table(bytes).err(), product::read_table(r, bytes))
    };
    if call == 0 {
        t.saw_situations(bytes, refused);
    }
    let wanted = Given { refusal: refused.unwrap_or(0), ..Given::default() };
    t.saw(call, wanted.refusal);
    compare(call, &[("bytes", bytes)], given, wanted)
}

fn size(r: &mut Random, t: &mut Tally, file: &[u8]) -> Result<(), Box<Difference>> {
    let told = plain::size(file);
    let wanted = Given { refusal: told.err().unwrap_or(0), numbers: told.unwrap_or([0; 2]).to_vec(), ..Given::default() };
    t.saw(5, wanted.refusal);
    t.over += (wanted.numbers == [1025, 0]) as u64;
    compare(5, &[("file", file)], product::size(r, file), wanted)
}

/// The table, where there is one.
fn compile(r: &mut Random, t: &mut Tally, file: &[u8]) -> Result<Option<Vec<u8>>, Box<Difference>> {
    let whole = plain::compiled(file);
    let room = inputs::room(r, whole.as_ref().map_or(100, |c| c.table.len()));
    let old = inputs::old(r, room);
    let given = product::compile(r, file, &old);
    let wanted = written_table(plain::compile(&whole, room), &old);
    t.saw(2, wanted.refusal);
    compare(2, &[("file", file), ("old", &old)], given, wanted)?;
    Ok(whole.ok().map(|c| {
        t.saw_comparisons(&c);
        c.table
    }))
}

/// Practice events, where the call is accepted.
fn practice(r: &mut Random, t: &mut Tally) -> Result<Option<Vec<u8>>, Box<Difference>> {
    let (seed, count) = (inputs::seed(r), inputs::practice_count(r));
    let room = inputs::room(r, inputs::practice_room(count));
    let old = inputs::old(r, room);
    let given = product::practice(r, seed, count, &old);
    let events = plain::practice(seed, count, room);
    let wanted = written(events.as_deref().map_err(|n| *n), &old);
    t.saw(6, wanted.refusal);
    compare(6, &[("seed", &seed.to_be_bytes()), ("count", &count.to_be_bytes()), ("old", &old)], given, wanted)?;
    Ok(events.ok())
}

/// By the rules, or a table.
fn run(r: &mut Random, t: &mut Tally, by_table: bool, program: &[u8], start: &[u8], events: &[u8]) -> Result<(), Box<Difference>> {
    let size = 9 + plain::initial_start(program).map_or(20, |s| s.len());
    let room = inputs::room(r, events.len() / 3 * size);
    let old = inputs::old(r, room);
    let given = product::run(r, by_table, program, start, events, &old);
    let call = if by_table { plain::table_run } else { plain::rule_run };
    let wanted = match call(program, start, events, room) {
        Ok(ran) => {
            for record in ran.records.chunks(size) {
                *t.answers.entry(record[0]).or_default() += 1;
            }
            t.saw_length(2, events.len());
            t.saw_length(3, ran.records.len());
            let numbers = vec![ran.taken, ran.turned_away, ran.faulted];
            Given { numbers, buffer: over(&ran.records, &old), ..Given::default() }
        }
        Err(n) => Given { refusal: n, numbers: vec![0; 3], buffer: old.clone(), ..Given::default() },
    };
    let call = if by_table { 4 } else { 3 };
    t.saw(call, wanted.refusal);
    compare(call, &[("program", program), ("start", start), ("events", events), ("old", &old)], given, wanted)
}

/// All calls on one schedule, one table, starts, events and a seed. Some short lists of practice events are run by the rules.
fn input(r: &mut Random, t: &mut Tally) -> Result<(), Box<Difference>> {
    t.inputs += 1;
    let file = inputs::file(r);
    read(r, t, 0, &file)?;
    size(r, t, &file)?;
    let compiled = compile(r, t, &file)?;
    if let Some(table) = &compiled {
        t.saw_compiled(&file, table);
    }
    let initial = plain::initial_start(&file).unwrap_or_else(|| vec![0; 5]);
    let start = inputs::start(r, &initial);
    let events = inputs::events(r, false, &file, &start);
    run(r, t, false, &file, &start, &events)?;
    let table = inputs::table(r, compiled.as_ref());
    read(r, t, 1, &table)?;
    if compiled.as_ref() == Some(&table) {
        run(r, t, true, &table, &start, &events)?;
    } else {
        let initial = plain::initial_start(&table).unwrap_or_else(|| vec![0; 5]);
        let start = inputs::start(r, &initial);
        let events = inputs::events(r, true, &table, &start);
        run(r, t, true, &table, &start, &events)?;
    }
    if plain::read_table(&table).is_ok() {
        t.saw_length(1, table.len());
    }
    match practice(r, t)? {
        Some(list) if list.len() <= LONGEST_DRILL && r.one_in(4) => run(r, t, false, &file, &start, &list),
        _ => Ok(()),
    }
}

fn tell(seed: u64, t: &Tally, d: &Difference) {
    println!("seed {seed}, input {}: a difference in {}", t.inputs, CALLS[d.call]);
    for (name, bytes) in &d.lent {
        println!("  {name} ({} bytes): {}", bytes.len(), hex(bytes));
    }
    for (whose, g) in [("product", &d.given), ("plain", &d.wanted)] {
        println!("  {whose}: returned {}, numbers {:?}, touched {:?}", g.refusal, g.numbers, g.touched);
        println!("    buffer: {}", hex(&g.buffer));
    }
}

fn main() {
    let mut words = std::env::args().skip(1);
    let seed = words.next().map_or(1, |w| w.parse().expect("a seed"));
    let seconds = words.next().map_or(60, |w| w.parse().expect("a number of seconds"));
    let since = Instant::now();
    let mut r = Random::new(seed);
    let mut t = Tally::default();
    let mut next = Duration::from_secs(10);
    while since.elapsed() < Duration::from_secs(seconds) {
        if let Err(d) = input(&mut r, &mut t) {
            tell(seed, &t, &d);
            std::process::exit(1);
        }
        if since.elapsed() >= next {
            t.print(since);
            next += Duration::from_secs(if since.elapsed().as_secs() < 60 { 10 } else { 60 });
        }
    }
    println!("seed {seed}, the end");
    t.print(since);
    let unseen = t.unseen();
    println!("  not reached: {}", if unseen.is_empty() { "nothing".to_string() } else { unseen.join(", ") });
    std::process::exit(!unseen.is_empty() as i32);
}
