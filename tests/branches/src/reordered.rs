//! B. A schedule and the same with children of PARALLELs in another order: their tables and their runs correspond.
use crate::drafts::{Draft, Equation};
use crate::drawn;
use crate::plain;
use crate::product::{self, Given};
use crate::random::Random;
use crate::tally::{Difference, Tally, ran, rooms};
use crate::trees::{self, CONTINUE, IF, PARALLEL, Reordered, STOP, WHILE, above};

/// A tick whose answer depends on the order in which the CONTINUEs are asked, and what it is in either order.
struct Exempt {
    at: usize,
    answers: [u8; 2],
}

/// A schedule and events, and what corresponds to them.
struct Compared {
    drafts: [Draft; 2],
    order: Reordered,
    numbers: Vec<usize>,
    start: Vec<u8>,
    events: [Vec<u8>; 2],
    /// ticks that several CONTINUEs stop in one way
    alike: u64,
    exempt: Option<Exempt>,
}

/// A pick of a node that is there becomes one of its new number; any other event stays.
fn renumbered(e: &[u8], numbers: &[usize]) -> [u8; 3] {
    match e {
        [1, n, 0] if (*n as usize) < numbers.len() => [1, numbers[*n as usize] as u8, 0],
        _ => [e[0], e[1], e[2]],
    }
}

fn acting(record: &[u8]) -> Vec<usize> {
    let set = u64::from_be_bytes(record[1..9].try_into().unwrap());
    (0..64).filter(|n| set >> n & 1 == 1).collect()
}

/// The record with each acting node by its new number.
fn renumbered_record(record: &[u8], numbers: &[usize]) -> Vec<u8> {
    let set = acting(record).into_iter().fold(0u64, |w, n| w | 1 << numbers.get(n).unwrap_or(&n));
    [&record[..1], &set.to_be_bytes(), &record[9..]].concat()
}

/// How the plain implementation answers the pick of a CONTINUE that is the whole schedule.
fn asked(d: &Draft, equations: &[Equation], node: &[u8], state: &[u8]) -> u8 {
    let alone = Draft { variables: d.variables.clone(), equations: equations.to_vec(), nodes: vec![node.to_vec()], miscounted: [0; 3] };
    plain::rule_run(&alone.file(), state, &[1, 0, 0], usize::MAX).expect("a sound CONTINUE").records[0]
}

/// The switch check of this state stops nowhere: a CONTINUE that is never true is asked (29).
fn check_passes(d: &Draft, state: &[u8]) -> bool {
    asked(d, &d.equations, &[CONTINUE, 0x2A, 0x2F], state) == 29
}

/// The CONTINUEs that a tick asks and that stop it, in the old order: the new number of each, and what the tick would answer to it alone.
fn stops(d: &Draft, state: &[u8], acting: &[usize], numbers: &[usize]) -> Vec<(usize, u8)> {
    if acting.len() < 2 || acting.iter().any(|n| d.nodes[*n][0] != CONTINUE) || !check_passes(d, state) {
        return Vec::new();
    }
    let values = &state[..4 * d.variables.len()];
    let answers = acting.iter().map(|n| (numbers[*n], asked(d, &[], &d.nodes[*n], values)));
    answers.filter(|x| x.1 != 29).map(|(n, a)| (n, if a == 201 { 31 } else { a })).collect()
}

/// The ticks of a run at which several CONTINUEs stop it, by the plain implementation: how many before the first at which they do so in
/// different ways, and that one.
fn stopped_ticks(d: &Draft, start: &[u8], events: &[u8], numbers: &[usize]) -> Option<(u64, Option<Exempt>)> {
    let records = plain::rule_run(&d.file(), start, events, usize::MAX).ok()?.records;
    let mut nodes = drawn::first_acting(d, start)?;
    let (mut state, mut alike) = (start, 0);
    for (at, (e, record)) in events.chunks(3).zip(records.chunks(9 + start.len())).enumerate() {
        let stops = if e == [0, 0, 0] { stops(d, state, &nodes, numbers) } else { Vec::new() };
        if stops.iter().any(|x| x.1 != stops[0].1) {
            let first = stops.iter().min().unwrap();
            return Some((alike, Some(Exempt { at, answers: [stops[0].1, first.1] })));
        }
        alike += (stops.len() > 1) as u64;
        nodes = acting(record);
        state = &record[9..];
    }
    Some((alike, None))
}

/// None where chance changes no order.
fn compared(r: &mut Random) -> Option<Compared> {
    let d = drawn::any(r);
    let order = trees::reordered(r, &d.nodes)?;
    let numbers = order.numbers();
    let nodes = order.order.iter().map(|n| d.nodes[*n].clone()).collect();
    let other = Draft { nodes, ..d.clone() };
    let start = drawn::start(r, &d);
    let count = 3 + r.below(28);
    let events = drawn::extended(r, &d, &start, &[], count);
    let others = events.chunks(3).flat_map(|e| renumbered(e, &numbers)).collect();
    let (alike, exempt) = stopped_ticks(&d, &start, &events, &numbers).unwrap_or_default();
    Some(Compared { drafts: [d, other], order, numbers, start, events: [events, others], alike, exempt })
}

impl Compared {
    fn size(&self) -> usize {
        9 + self.start.len()
    }

    /// The records up to an exempt tick; without one also the counts. At the tick each is the first's in its own order.
    fn corresponds(&self, [x, y]: &[Given; 2]) -> bool {
        if x.refusal != 0 || y.refusal != 0 {
            return x == y;
        }
        let until = self.exempt.as_ref().map_or(x.buffer.len(), |e| e.at * self.size());
        let wanted: Vec<u8> = x.buffer[..until].chunks(self.size()).flat_map(|c| renumbered_record(c, &self.numbers)).collect();
        wanted == y.buffer[..until]
            && match &self.exempt {
                Some(e) => [x.buffer[until], y.buffer[until]] == e.answers,
                None => x.numbers == y.numbers,
            }
    }

    fn difference(&self, what: &'static str, given: [Given; 2]) -> Box<Difference> {
        let [file, other] = self.drafts.each_ref().map(Draft::file);
        let [events, others] = self.events.clone();
        let numbers = self.numbers.iter().map(|n| *n as u8).collect();
        let lent = vec![
            ("file", file),
            ("other file", other),
            ("other numbers of its nodes", numbers),
            ("start", self.start.clone()),
            ("events", events),
            ("other events", others),
        ];
        Box::new(Difference { what, lent, given })
    }

    /// Both tables, where there are some: the same refusal and the same length in each room.
    fn tables(&self, r: &mut Random, t: &mut Tally) -> Result<Option<[Vec<u8>; 2]>, Box<Difference>> {
        for room in rooms(r) {
            let given = self.drafts.each_ref().map(|d| product::compile(r, &d.file(), &vec![0; room]));
            let [x, y] = &given;
            if x.refusal != y.refusal || x.numbers[0] != y.numbers[0] {
                return Err(self.difference("between the tables of two orders", given));
            }
            if x.refusal == 0 {
                let length = x.numbers[0] as usize;
                return Ok(Some(given.map(|g| g.buffer[..length].to_vec())));
            }
            *t.refusals.entry(x.refusal).or_default() += 1;
            if x.refusal != 14 {
                t.refused += 1;
                return Ok(None);
            }
        }
        Ok(None)
    }

    fn saw(&self, t: &mut Tally, given: &[Given; 2]) {
        t.schedules += 1;
        t.events += (self.events[0].len() / 3) as u64;
        let [x, y] = given.each_ref().map(|g| &g.buffer[..]);
        if let Some(e) = &self.exempt {
            t.exempt += 1;
            t.exempt_differed += (x[e.at * self.size()] != y[e.at * self.size()]) as u64;
        }
        let nodes = &self.drafts[0].nodes;
        let acted: Vec<usize> = x.chunks(self.size()).flat_map(acting).collect();
        for p in &self.order.changed {
            let inside = p + 1..trees::end(nodes, *p);
            let (over, acts) = (above(nodes, *p), acted.iter().any(|n| inside.contains(n)));
            t.saw("acts in a changed PARALLEL in a PARALLEL", acts && over.contains(&PARALLEL));
            t.saw("acts in a changed PARALLEL in a WHILE", acts && over.contains(&WHILE));
            t.saw("acts in a changed PARALLEL in an IF", acts && over.contains(&IF));
            t.saw("a STOP in a changed PARALLEL", acted.iter().any(|n| inside.contains(n) && nodes[*n][0] == STOP));
        }
        t.saw("a tick that several stop alike", self.alike > 0);
        t.saw("a CASE", !self.drafts[0].selectors().is_empty());
        t.saw("two changed PARALLELs", self.order.changed.len() > 1);
        for (e, record) in self.events[0].chunks(3).zip(x.chunks(self.size())) {
            t.saw("a tick taken where several act", e == [0, 0, 0] && record[0] == 200 && acting(record).len() > 1);
            *t.answers.entry(record[0]).or_default() += 1;
        }
    }
}

pub fn input(r: &mut Random, t: &mut Tally) -> Result<(), Box<Difference>> {
    let Some(c) = compared(r) else { return Ok(()) };
    let tables = c.tables(r, t)?;
    let given = [0, 1].map(|o: usize| ran(r, false, &c.drafts[o].file(), &c.start, &c.events[o]));
    if !c.corresponds(&given) {
        return Err(c.difference("between the runs of two orders by the rules", given));
    }
    if given[0].refusal == 0 {
        c.saw(t, &given);
    }
    if let Some(tables) = tables {
        let given = [0, 1].map(|o: usize| ran(r, true, &tables[o], &c.start, &c.events[o]));
        if !c.corresponds(&given) || given[0].refusal != 0 {
            return Err(c.difference("between the runs of two orders by their tables", given));
        }
        t.schedules_by_table += 1;
    }
    Ok(())
}
