//! The calls written for speed, in Rust with unchecked reads: what the product is measured against.
mod code;
mod compile;
mod file;
mod moves;
mod plant;
mod practice;
mod run;
mod size;
mod table;

pub use compile::{compile, Compiled};
pub use practice::practice;
pub use run::Ran;

use code::Program;
use file::{action_kind, Schedule};
use moves::Moves;
use run::{action, Action, Machine, Runner};
use table::{ByTable, Table};

/// The machine of a schedule file: 1 to 11, 34, 12.
fn machine(file: &[u8]) -> Result<(Machine<'_>, Vec<i32>, Moves), u8> {
    let s = Schedule::read(file)?;
    let mut program = Program::new(s.sections[1].len() + s.sections[2].len());
    let mut actions = [Action::default(); 64];
    for n in 0..s.count {
        let k = action_kind(s.kinds[n]);
        if k != 0 {
            actions[n] = action(k, s.payload(n), &s.plant, &mut program).ok_or(12)?;
        }
    }
    let switches = s.plant.switches(s.sections[1], &mut program).ok_or(12)?;
    let moves = Moves::new(&s);
    let Program { instructions, slots } = program;
    Ok((Machine { plant: s.plant, equations: s.sections[1], switches, actions, instructions }, slots, moves))
}

/// Locations and entries: 1 to 11, 34, 12; 1,025 and 0 where there are over 1,024 locations.
pub fn size(file: &[u8]) -> Result<[u64; 2], u8> {
    let s = Schedule::checked(file)?;
    Ok(size::of(&s).map_or([1025, 0], |(l, e)| [l as u64, e as u64]))
}

pub fn rule_run(file: &[u8], start: &[u8], events: &[u8], records: &mut [u8]) -> Result<Ran, u8> {
    let (machine, slots, moves) = machine(file)?;
    let mut r = Runner::new(&machine, slots, &moves, moves.fresh, start, events.len(), records.len())?;
    Ok(r.run(events, records))
}

pub fn table_run(table: &[u8], start: &[u8], events: &[u8], records: &mut [u8]) -> Result<Ran, u8> {
    let t = Table::read(table)?;
    let control = ByTable::new(t.rows, &t.locations);
    let mut r = Runner::new(&t.machine, t.slots, control, t.locations[0].acting, start, events.len(), records.len())?;
    Ok(r.run(events, records))
}

/// A list of events in which each is one of `propose`d ones that `keep` takes, given its answer.
pub fn events(
    file: &[u8],
    start: &[u8],
    count: usize,
    mut propose: impl FnMut() -> [u8; 3],
    mut keep: impl FnMut(u8) -> bool,
) -> Vec<u8> {
    let (machine, slots, moves) = machine(file).expect("a sound schedule");
    let mut r = Runner::new(&machine, slots, &moves, moves.fresh, start, 0, 0).expect("a sound start");
    let mut list = Vec::with_capacity(3 * count);
    while list.len() < 3 * count {
        let e = propose();
        let mut next = r.clone();
        if keep(next.event(e[0], e[1], e[2])) {
            list.extend(e);
            r = next;
        }
    }
    list
}
