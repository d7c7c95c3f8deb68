//! The calls: what each is lent and what it gives, told by the plain implementation of documents 01 and 02.
use crate::plain::{self, Ran, Refusal};

/// The strings of a case, in their order, and the longest that cases_test takes.
pub const STRINGS: [(&str, usize); 5] = [("file", 65_600), ("table", 420_000), ("start", 200), ("events", 30_100), ("records", 420_000)];
pub const FILE: usize = 0;
pub const TABLE: usize = 1;
pub const START: usize = 2;
pub const EVENTS: usize = 3;
pub const RECORDS: usize = 4;

/// The lent buffers, and the string that a call leaves at the front of each.
pub const ROOMS: [(&str, usize); 3] = [("table", TABLE), ("records", RECORDS), ("other records", RECORDS)];

/// What calls are lent: the strings, of which records are none, and how many bytes for each buffer.
#[derive(Clone, Default)]
pub struct Lent {
    pub strings: [Vec<u8>; 5],
    pub rooms: [usize; 3],
}

/// What an accepted call gives: its numbers, and the strings that it leaves.
pub struct Given {
    pub numbers: Vec<u64>,
    pub left: Vec<(usize, Vec<u8>)>,
}

pub struct Call {
    pub name: &'static str,
    /// the strings that it reads
    pub reads: &'static [usize],
    /// the buffers that it is lent
    pub rooms: &'static [usize],
    /// how many numbers it returns
    pub numbers: usize,
    /// the refusals that it has, first and last of each range
    pub refusals: &'static [(Refusal, Refusal)],
    pub gives: fn(&Lent) -> Result<Given, Refusal>,
}

/// In the order of their numbers, from 1.
pub const CALLS: [Call; 7] = [
    Call { name: "read", reads: &[FILE], rooms: &[], numbers: 3, refusals: &[(1, 12), (34, 34)], gives: read },
    Call { name: "read table", reads: &[TABLE], rooms: &[], numbers: 4, refusals: &[(15, 19)], gives: read_table },
    Call { name: "size", reads: &[FILE], rooms: &[], numbers: 2, refusals: &[(1, 12), (34, 34)], gives: size },
    Call { name: "compile", reads: &[FILE], rooms: &[0], numbers: 2, refusals: &[(1, 14), (34, 34)], gives: compile },
    Call { name: "rules", reads: &[FILE, START, EVENTS], rooms: &[1], numbers: 3, refusals: &[(1, 12), (20, 22), (34, 34)], gives: rules },
    Call { name: "by table", reads: &[TABLE, START, EVENTS], rooms: &[1], numbers: 3, refusals: &[(15, 22)], gives: by_table },
    Call {
        name: "examine",
        reads: &[FILE, START, EVENTS],
        rooms: &[0, 1, 2],
        numbers: 8,
        refusals: &[(1, 14), (20, 22), (34, 34)],
        gives: examine,
    },
];

fn numbers(l: &[u64]) -> Given {
    Given { numbers: l.to_vec(), left: Vec::new() }
}

fn counts(r: &Ran) -> [u64; 3] {
    [r.taken, r.turned_away, r.faulted]
}

fn ran(r: Ran) -> Given {
    Given { numbers: counts(&r).to_vec(), left: vec![(RECORDS, r.records)] }
}

fn read(l: &Lent) -> Result<Given, Refusal> {
    plain::read_schedule(&l.strings[FILE]).map(|n| numbers(&n))
}

fn read_table(l: &Lent) -> Result<Given, Refusal> {
    plain::read_table(&l.strings[TABLE]).map(|n| numbers(&n))
}

fn size(l: &Lent) -> Result<Given, Refusal> {
    plain::size(&l.strings[FILE]).map(|n| numbers(&n))
}

fn compile(l: &Lent) -> Result<Given, Refusal> {
    let whole = plain::compiled(&l.strings[FILE]);
    let c = plain::compile(&whole, l.rooms[0])?;
    Ok(Given { numbers: vec![c.table.len() as u64, c.comparisons], left: vec![(TABLE, c.table.clone())] })
}

fn rules(l: &Lent) -> Result<Given, Refusal> {
    plain::rule_run(&l.strings[FILE], &l.strings[START], &l.strings[EVENTS], l.rooms[1]).map(ran)
}

fn by_table(l: &Lent) -> Result<Given, Refusal> {
    plain::table_run(&l.strings[TABLE], &l.strings[START], &l.strings[EVENTS], l.rooms[1]).map(ran)
}

/// Compiling, the run by the rules, and the run of the table into a third buffer, of which 22 alone can be left to apply.
fn examine(l: &Lent) -> Result<Given, Refusal> {
    let [file, _, start, events, _] = &l.strings;
    let whole = plain::compiled(file);
    let table = &plain::compile(&whole, l.rooms[0])?.table;
    let by_rules = plain::rule_run(file, start, events, l.rooms[1])?;
    let by_table = plain::table_run(table, start, events, l.rooms[2]);
    assert!(matches!(by_table, Ok(_) | Err(22)));
    let by_table = by_table?;
    let length = table.len() as u64;
    let numbers = [&[length][..], &counts(&by_rules), &counts(&by_table), &[(by_rules == by_table) as u64]].concat();
    Ok(Given { numbers, left: vec![(TABLE, table.to_vec()), (RECORDS, by_rules.records)] })
}
