//! Tests from a seed, by the makers of tests/differential. What the paper gives for them is not told.
use crate::random::Random;
use crate::test::Test;
use crate::{drafts, inputs, plain, tables};

/// The most bytes that a test's program, its table, its events and its records have each.
const SMALL: usize = 1200;

/// A schedule or a table: most are sound, and in a share of them one byte is another.
fn program(r: &mut Random, of_table: bool) -> Vec<u8> {
    let mut l = match (of_table, r.one_in(3)) {
        (false, false) => drafts::sound(r).file(),
        (false, true) => inputs::file(r),
        (true, false) => tables::table_of(&tables::made_up(r).sections()),
        (true, true) => inputs::table(r, None),
    };
    if !l.is_empty() && r.one_in(5) {
        let at = r.below(l.len());
        l[at] = r.byte();
    }
    l
}

fn room(r: &mut Random, needed: usize) -> usize {
    if r.one_in(5) { inputs::room(r, needed) } else { needed + r.below(100) }
}

/// None where it is too long.
fn drawn(r: &mut Random, name: &str, of_table: bool) -> Option<Test> {
    let program = program(r, of_table);
    let initial = plain::initial_start(&program).unwrap_or_else(|| vec![0; 5]);
    let start = inputs::start(r, &initial);
    let events = inputs::events(r, of_table, &program, &start);
    let records = events.len() / 3 * (9 + initial.len());
    let table = plain::whole_table(&program).map_or(0, |t| t.len());
    if [program.len(), events.len(), records, table].iter().any(|n| *n > SMALL) {
        return None;
    }
    let rooms = [table, records, records].map(|n| room(r, n));
    Some(Test::new(name.to_string(), of_table, [program, start, events], rooms, String::new()))
}

pub fn test(seed: u64) -> Test {
    let mut r = Random::new(seed);
    let name = format!("random {seed}");
    let of_table = r.one_in(4);
    std::iter::repeat_with(|| drawn(&mut r, &name, of_table)).flatten().next().unwrap()
}
