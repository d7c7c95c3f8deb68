//! The product against a plain and a fast implementation.
//! bench [--rounds N] [--case NAME --who product|plain|fast] | --stack
//! With --case only the calls of one are made, for a count of instructions; without, all are held to each other and timed.
mod cases;
#[allow(dead_code)]
#[path = "../../differential/src/drafts.rs"]
mod drafts;
mod fast;
#[path = "../../differential/src/forms.rs"]
mod forms;
#[allow(dead_code)]
#[path = "../../differential/src/inputs.rs"]
mod inputs;
#[allow(dead_code)]
#[path = "../../differential/src/plain.rs"]
mod plain;
mod product;
#[path = "../../differential/src/random.rs"]
mod random;
mod stack;
#[path = "../../differential/src/tables.rs"]
mod tables;

use cases::Runs;
use fast::{Compiled, Ran};
use random::Random;
use std::hint::black_box;

#[derive(Clone, Copy, PartialEq)]
enum Who {
    Product,
    Plain,
    Fast,
}

const ALL: [Who; 3] = [Who::Product, Who::Plain, Who::Fast];

enum Work {
    Compile(Vec<u8>),
    Size(Vec<u8>),
    Rules(Runs),
    Table(Vec<u8>, Runs),
    Practice { seed: u32, count: u64 },
}

const ROOM: usize = 400_000;

fn by_table(r: Runs) -> Work {
    let table = plain::whole_table(&r.file).expect("a schedule that compiles");
    Work::Table(table, r)
}

const NAMES: [&str; 16] = [
    "compile-k8",
    "compile-mixed",
    "compile-widest",
    "refuse-64",
    "size-k8",
    "rules-filling",
    "rules-vessels",
    "rules-batch",
    "rules-wide",
    "rules-flat",
    "rules-nested",
    "table-filling",
    "table-vessels",
    "table-batch",
    "table-wide",
    "practice",
];

fn work(name: &str) -> Work {
    match name {
        "compile-k8" => Work::Compile(cases::ten_resets()),
        "compile-mixed" => Work::Compile(cases::mixed()),
        "compile-widest" => Work::Compile(cases::widest()),
        "refuse-64" => Work::Compile(cases::too_many()),
        "size-k8" => Work::Size(cases::ten_resets()),
        "rules-filling" => Work::Rules(cases::filling()),
        "rules-vessels" => Work::Rules(cases::vessels()),
        "rules-batch" => Work::Rules(cases::batch()),
        "rules-wide" => Work::Rules(cases::broad()),
        "rules-flat" => Work::Rules(cases::picked(0)),
        "rules-nested" => Work::Rules(cases::picked(62)),
        "table-filling" => by_table(cases::filling()),
        "table-vessels" => by_table(cases::vessels()),
        "table-batch" => by_table(cases::batch()),
        "table-wide" => by_table(cases::broad()),
        "practice" => Work::Practice { seed: 1, count: cases::EVENTS as u64 },
        _ => panic!("no case {name}; there are {NAMES:?}"),
    }
}

/// A call's number, or what it gave: the length of what it wrote, of compiling with the comparisons, a table's size or the counts.
fn compiled(who: Who, file: &[u8], out: &mut [u8]) -> Result<Compiled, u8> {
    match who {
        Who::Product => product::compile(file, out),
        Who::Fast => fast::compile(file, out),
        Who::Plain => plain::compile(&plain::compiled(file), out.len()).map(|c| {
            out[..c.table.len()].copy_from_slice(&c.table);
            Compiled { length: c.table.len(), comparisons: c.comparisons }
        }),
    }
}

fn drawn(who: Who, seed: u32, count: u64, out: &mut [u8]) -> Result<usize, u8> {
    match who {
        Who::Product => product::practice(seed, count, out),
        Who::Fast => fast::practice(seed, count, out),
        Who::Plain => plain::practice(seed, count, out.len()).map(|l| {
            out[..l.len()].copy_from_slice(&l);
            l.len()
        }),
    }
}

fn sized(who: Who, file: &[u8]) -> Result<[u64; 2], u8> {
    match who {
        Who::Product => product::size(file),
        Who::Fast => fast::size(file),
        Who::Plain => plain::size(file),
    }
}

fn ran(who: Who, table: bool, program: &[u8], r: &Runs, out: &mut [u8]) -> Result<Ran, u8> {
    match (who, table) {
        (Who::Product, false) => product::rule_run(program, &r.start, &r.events, out),
        (Who::Product, true) => product::table_run(program, &r.start, &r.events, out),
        (Who::Fast, false) => fast::rule_run(program, &r.start, &r.events, out),
        (Who::Fast, true) => fast::table_run(program, &r.start, &r.events, out),
        (Who::Plain, _) => {
            let call = if table { plain::table_run } else { plain::rule_run };
            call(program, &r.start, &r.events, out.len()).map(|x| {
                out[..x.records.len()].copy_from_slice(&x.records);
                Ran { taken: x.taken, turned_away: x.turned_away, faulted: x.faulted }
            })
        }
    }
}

/// One call; what it gave, as numbers. Instructions are counted inside this function.
#[inline(never)]
fn perform(who: Who, w: &Work, out: &mut [u8]) -> [u64; 4] {
    let told = |r: Result<Ran, u8>| match r {
        Ok(x) => [0, x.taken, x.turned_away, x.faulted],
        Err(n) => [n as u64, 0, 0, 0],
    };
    let wrote = |r: Result<usize, u8>| match r {
        Ok(n) => [0, n as u64, 0, 0],
        Err(n) => [n as u64, 0, 0, 0],
    };
    match w {
        Work::Compile(f) => match compiled(who, f, out) {
            Ok(c) => [0, c.length as u64, c.comparisons, 0],
            Err(n) => [n as u64, 0, 0, 0],
        },
        Work::Size(f) => match sized(who, f) {
            Ok([locations, entries]) => [0, locations, entries, 0],
            Err(n) => [n as u64, 0, 0, 0],
        },
        Work::Rules(r) => told(ran(who, false, &r.file, r, out)),
        Work::Table(t, r) => told(ran(who, true, t, r, out)),
        Work::Practice { seed, count } => wrote(drawn(who, *seed, *count, out)),
    }
}

fn room(w: &Work) -> usize {
    match w {
        Work::Compile(_) => ROOM,
        Work::Size(_) => 0,
        Work::Rules(r) | Work::Table(_, r) => r.events.len() / 3 * (9 + r.start.len()),
        Work::Practice { count, .. } => 3 * *count as usize,
    }
}

/// The same from all three, buffers included.
fn agree(name: &str, w: &Work, room: usize) -> [u64; 4] {
    let gave: Vec<_> = ALL
        .iter()
        .map(|who| {
            let mut out = vec![0xA5; room];
            (perform(*who, w, &mut out), out)
        })
        .collect();
    for (i, g) in gave.iter().enumerate() {
        assert!(g.0 == gave[1].0, "{name}: {:?} by the plain one, {:?} by number {i}", gave[1].0, g.0);
        assert!(g.1 == gave[1].1, "{name}: the bytes of number {i} differ from the plain one's");
    }
    if let (Work::Compile(_), [0, length, comparisons, _]) = (w, gave[1].0) {
        assert_eq!(comparisons, tables::comparisons(&gave[1].1[..length as usize]), "{name}: the table's bytes tell other comparisons");
    }
    gave[1].0
}

/// The examples with any events, and damaged files and tables.
fn agree_beside() {
    for (i, f) in cases::EXAMPLES.iter().enumerate() {
        for seed in 0..50 {
            let runs = cases::example(f, 100 * i as u64 + seed, 300);
            let name = format!("example {i} seed {seed}");
            let room = 300 * (9 + runs.start.len());
            let table = plain::whole_table(f).unwrap();
            agree(&name, &Work::Compile(f.to_vec()), ROOM);
            agree(&name, &Work::Size(f.to_vec()), 0);
            agree(&name, &Work::Rules(cases::example(f, 100 * i as u64 + seed, 300)), room);
            agree(&name, &Work::Table(table.clone(), runs), room);
            damaged(f, &table, &name, seed);
        }
    }
}

/// A byte changed here and there: the same refusals.
fn damaged(file: &[u8], table: &[u8], name: &str, seed: u64) {
    let mut r = Random::new(seed + 7);
    for _ in 0..40 {
        let mut f = file.to_vec();
        let mut t = table.to_vec();
        for _ in 0..1 + r.below(2) {
            let (a, b) = (r.below(f.len()), r.below(t.len()));
            f[a] = f[a].wrapping_add([1, 255, 2, r.below(256) as u8][r.below(4)]);
            t[b] = t[b].wrapping_add([1, 255, 2, r.below(256) as u8][r.below(4)]);
        }
        let runs = || cases::example(file, seed, 20);
        let room = 20 * (9 + runs().start.len());
        agree(name, &Work::Compile(f.clone()), 2_000);
        agree(name, &Work::Size(f.clone()), 0);
        agree(name, &Work::Rules(Runs { file: f, ..runs() }), room);
        agree(name, &Work::Table(t, runs()), room);
    }
}

/// A start and events for a schedule or a table.
fn drawn_runs(r: &mut Random, by_table: bool, program: &[u8]) -> Runs {
    let initial = plain::initial_start(program).unwrap_or_else(|| vec![0; 5]);
    let start = inputs::start(r, &initial);
    let events = inputs::events(r, by_table, program, &start);
    Runs { file: program.to_vec(), start, events }
}

/// Schedules and tables by the makers of tests/differential, which reach faults on either side in every place, and 34 beside 11 and 12.
fn agree_drawn() {
    let mut r = Random::new(5);
    for i in 0..5_000 {
        let file = inputs::file(&mut r);
        let name = format!("drawn schedule {i}");
        agree(&name, &Work::Compile(file.clone()), 70_000);
        agree(&name, &Work::Size(file.clone()), 0);
        let w = Work::Rules(drawn_runs(&mut r, false, &file));
        agree(&name, &w, room(&w));
        let table = inputs::table(&mut r, plain::whole_table(&file).ok().as_ref());
        let runs = drawn_runs(&mut r, true, &table);
        let w = Work::Table(table, runs);
        agree(&format!("drawn table {i}"), &w, room(&w));
    }
}

/// Practice events: random seeds, and counts and rooms about their limits.
fn agree_practice() {
    let mut r = Random::new(3);
    for count in [0, 1, 2, 300, 9_999, 10_000, 10_001, 1 << 32, (1 << 32) + 1, u64::MAX / 3 + 1, u64::MAX] {
        for more in [0, 1, 2, 3, 4, 40] {
            let room = (3 * count.min(10_002) as usize + more).saturating_sub(3);
            let seed = r.word() as u32;
            agree(&format!("practice {seed} {count} {room}"), &Work::Practice { seed, count }, room);
        }
    }
}

#[repr(C)]
struct Timespec {
    seconds: i64,
    nanoseconds: i64,
}

extern "C" {
    fn clock_gettime(clock: i32, t: *mut Timespec) -> i32;
}

/// Nanoseconds of processor time that this thread has had: other work on the machine does not count.
fn now() -> u64 {
    const THREAD_CPUTIME: i32 = 3;
    let mut t = Timespec { seconds: 0, nanoseconds: 0 };
    // SAFETY: t has the layout of C's struct timespec on x86-64 Linux.
    assert_eq!(unsafe { clock_gettime(THREAD_CPUTIME, &mut t) }, 0);
    t.seconds as u64 * 1_000_000_000 + t.nanoseconds as u64
}

/// Nanoseconds of one call.
fn clock(who: Who, w: &Work, out: &mut [u8]) -> u64 {
    let from = now();
    black_box(perform(who, black_box(w), black_box(out)));
    now() - from
}

/// Least and middle time of each, the three taking turns.
fn timed(w: &Work, rounds: usize) -> [(u64, u64); 3] {
    let mut out = vec![0u8; room(w)];
    let mut times = [const { Vec::new() }; 3];
    for _ in 0..rounds {
        for (who, t) in ALL.iter().zip(&mut times) {
            t.push(clock(*who, w, &mut out));
        }
    }
    times.map(|mut t| {
        t.sort();
        (t[0], t[t.len() / 2])
    })
}

fn all(rounds: usize, only: Option<&str>) {
    agree_beside();
    agree_drawn();
    agree_practice();
    println!("Least times of {rounds} rounds in microseconds and their ratios, then the ratios of the middle times, then what the call gave.");
    println!("{:16} {:>10} {:>10} {:>10} {:>8} {:>8}", "case", "product", "plain", "fast", "/ plain", "/ fast");
    for name in NAMES.iter().filter(|n| only.is_none_or(|o| o == **n)) {
        let w = work(name);
        let gave = agree(name, &w, room(&w));
        let [p, a, b] = timed(&w, rounds);
        let us = |n: u64| n as f64 / 1000.0;
        let ratio = |x: u64, y: u64| x as f64 / y as f64;
        println!(
            "{name:16} {:10.1} {:10.1} {:10.1} {:8.3} {:8.2}   {:.3} {:.2}   {gave:?}",
            us(p.0),
            us(a.0),
            us(b.0),
            ratio(p.0, a.0),
            ratio(p.0, b.0),
            ratio(p.1, a.1),
            ratio(p.1, b.1)
        );
    }
}

fn main() {
    let words: Vec<String> = std::env::args().collect();
    let after = |name: &str| words.iter().position(|w| w == name).map(|i| words[i + 1].as_str());
    if words.iter().any(|w| w == "--stack") {
        return stack::measure();
    }
    let rounds = after("--rounds").map_or(50, |n| n.parse().expect("a number of rounds"));
    let who = match after("--who") {
        Some("product") => Who::Product,
        Some("plain") => Who::Plain,
        Some("fast") => Who::Fast,
        Some(w) => panic!("--who {w}"),
        None => return all(rounds, after("--case")),
    };
    let w = work(after("--case").expect("--case"));
    let mut out = vec![0u8; room(&w)];
    for _ in 0..rounds {
        black_box(perform(who, black_box(&w), black_box(&mut out)));
    }
}
