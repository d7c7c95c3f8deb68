//! Tables in parts: compiled or made up, and the same with a flaw that leaves every length right.
use crate::drafts::{self, Draft};
use crate::forms;
use crate::random::Random;

const FINISHED: u16 = 0xFFFE;
const HALTED: u16 = 0xFFFD;
const NONE: u16 = 0xFFFF;

#[derive(Clone)]
pub struct TableDraft {
    /// variables and equations
    pub first: [Vec<u8>; 2],
    /// node, kind, operand
    pub actions: Vec<Vec<u8>>,
    /// node, target, target on false
    pub locations: Vec<Vec<(u8, u16, u16)>>,
    /// added to the two counts as they are written
    pub miscounted: (u8, u16),
}

impl TableDraft {
    pub fn sections(&self) -> [Vec<u8>; 4] {
        let mut actions = vec![(self.actions.len() as u8).wrapping_add(self.miscounted.0)];
        for a in &self.actions {
            actions.push(a.len() as u8);
            actions.extend(a);
        }
        let mut locations = (self.locations.len() as u16).wrapping_add(self.miscounted.1).to_be_bytes().to_vec();
        for l in &self.locations {
            locations.push(l.len() as u8);
            for (node, target, other) in l {
                locations.push(*node);
                locations.extend(target.to_be_bytes());
                locations.extend(other.to_be_bytes());
            }
        }
        [self.first[0].clone(), self.first[1].clone(), actions, locations]
    }
}

/// How many comparisons numbering the locations of a compiled table took, from its codes alone: they stand in the order in which their
/// targets were looked up. Location 0 has its number before all of them.
pub fn comparisons(table: &[u8]) -> u64 {
    let (mut numbered, mut total) = (1, 0);
    for code in split(table).locations.iter().flatten().flat_map(|(_, target, other)| [*target, *other]) {
        if [FINISHED, HALTED, NONE].contains(&code) {
            continue;
        }
        let number = code as u64;
        assert!(number <= numbered, "location {number} before location {numbered}");
        total += if number < numbered { number + 1 } else { numbered };
        numbered = numbered.max(number + 1);
    }
    total
}

/// A whole table of four sections.
pub fn table_of(sections: &[Vec<u8>; 4]) -> Vec<u8> {
    let mut t = vec![1, 0, 0, 0, 0];
    for s in &sections[..3] {
        t.extend((s.len() as u16).to_be_bytes());
        t.extend(s);
    }
    t.extend((sections[3].len() as u32).to_be_bytes());
    t.extend(&sections[3]);
    with_length(t)
}

/// The length field made right where it can be.
pub fn with_length(mut t: Vec<u8>) -> Vec<u8> {
    if t.len() >= 5 {
        let n = t.len() as u32;
        t[1..5].copy_from_slice(&n.to_be_bytes());
    }
    t
}

/// The parts of a table that was compiled.
pub fn split(t: &[u8]) -> TableDraft {
    let mut at = 5;
    let mut take = |width: usize| {
        let n = t[at..at + width].iter().fold(0, |n, b| n * 256 + *b as usize);
        let s = t[at + width..at + width + n].to_vec();
        at += width + n;
        s
    };
    let first = [take(2), take(2)];
    let (acts, locs) = (take(2), take(4));
    let mut actions = Vec::new();
    let mut k = 1;
    while k < acts.len() {
        let n = acts[k] as usize;
        actions.push(acts[k + 1..k + 1 + n].to_vec());
        k += 1 + n;
    }
    let mut locations = Vec::new();
    let mut k = 2;
    while k < locs.len() {
        let n = locs[k] as usize;
        let row = locs[k + 1..k + 1 + 5 * n].chunks(5);
        locations.push(row.map(|e| (e[0], e[1] as u16 * 256 + e[2] as u16, e[3] as u16 * 256 + e[4] as u16)).collect());
        k += 1 + 5 * n;
    }
    TableDraft { first, actions, locations, miscounted: (0, 0) }
}

fn action(r: &mut Random, node: u8, variables: usize, selectors: &[usize]) -> Vec<u8> {
    let mut a = vec![node];
    match r.below(if selectors.is_empty() { 7 } else { 8 }) {
        0 | 1 => {
            a.push(1);
            a.extend(forms::truth(r, variables, 199));
        }
        2..=4 => {
            a.push(2);
            a.extend(forms::waited(r, variables));
        }
        5 => {
            a.extend([3, r.below(variables) as u8]);
            a.extend(forms::number(r, variables, 198));
        }
        6 => a.push(5),
        _ => {
            let s = r.below(selectors.len());
            a.extend([4, s as u8, r.below(selectors[s]) as u8]);
        }
    }
    a
}

fn target(r: &mut Random, locations: usize) -> u16 {
    if r.one_in(8) { FINISHED } else { r.below(locations) as u16 }
}

fn entry(r: &mut Random, action: &[u8], locations: usize) -> (u8, u16, u16) {
    match action[1] {
        1 => (action[0], target(r, locations), target(r, locations)),
        5 => (action[0], HALTED, NONE),
        _ => (action[0], target(r, locations), NONE),
    }
}

/// Locations and targets as they come: unreachable and equal ones among them.
pub fn made_up(r: &mut Random) -> TableDraft {
    let n = if r.one_in(10) { 32 } else { 1 + r.below(4) };
    let variables = drafts::variables(r, n);
    let steep = r.one_in(6);
    let equations = drafts::equations(r, n, steep);
    let plant = Draft { variables, equations, nodes: Vec::new(), miscounted: [0; 3] };
    let selectors = plant.selectors();
    let thin = if r.one_in(10) { r.of(&[1, 2]) } else { r.of(&[8, 16]) };
    let mut actions: Vec<Vec<u8>> = Vec::new();
    for node in 0..64 {
        if r.one_in(thin) {
            actions.push(action(r, node, n, &selectors));
        }
    }
    if actions.is_empty() {
        actions.push(action(r, 63, n, &selectors));
    }
    let count = match r.below(200) {
        0 => r.of(&[1023, 1024]),
        1..=4 => 1 + r.below(200),
        _ => 1 + r.below(8),
    };
    let mut locations = Vec::new();
    for _ in 0..count {
        let few = 1 + r.below(3);
        let mut row: Vec<_> = actions.iter().filter(|_| r.one_in(few)).map(|a| a.as_slice()).collect();
        if row.is_empty() {
            row.push(&actions[r.below(actions.len())]);
        }
        locations.push(row.into_iter().map(|a| entry(r, a, count)).collect());
    }
    let [vs, es, _] = plant.sections();
    TableDraft { first: [vs, es], actions, locations, miscounted: (0, 0) }
}

fn flaw_action(r: &mut Random, d: &mut TableDraft) {
    let n = d.first[0][0] as usize;
    let k = r.below(d.actions.len());
    if d.actions[k].len() < 2 {
        return;
    }
    match r.below(8) {
        0 => d.actions[k][0] = r.of(&[64, 65, 255]),
        1 => {
            let a = d.actions[k].clone();
            d.actions.insert(k, a);
        }
        2 => d.actions[k][1] = r.of(&[0, 6, 255]),
        3 => d.actions[k][1] = 1 + r.below(5) as u8,
        4 => d.actions[k].truncate(r.of(&[0, 1, 2])),
        // kind and operand of 200 and 201 bytes
        5 => {
            let most = r.of(&[199, 200]);
            d.actions[k].truncate(1);
            d.actions[k].push(r.of(&[1, 2]));
            let t = forms::truth_of_length(r, most, n.max(1));
            d.actions[k].extend(t);
        }
        6 => {
            let kind = d.actions[k][1];
            let front = if kind == 3 { 3.min(d.actions[k].len()) } else { 2 };
            let mut l = d.actions[k].split_off(front);
            if kind >= 4 {
                l.push(0);
            } else {
                forms::broken(r, &mut l, kind != 3, n.max(1));
            }
            d.actions[k].extend(l);
        }
        // a missing variable, selector or mode
        _ => {
            if d.actions[k].len() > 2 {
                let at = 2 + r.below((d.actions[k].len() - 2).min(2));
                d.actions[k][at] = r.of(&[n as u8, 8, 16, 32]);
            }
        }
    }
}

fn flaw_location(r: &mut Random, d: &mut TableDraft) {
    let count = d.locations.len();
    let k = r.below(count);
    if d.locations[k].is_empty() {
        return;
    }
    let e = r.below(d.locations[k].len());
    match r.below(8) {
        0 => d.locations[k].clear(),
        1 => {
            let twin = d.locations[k][e];
            d.locations[k].insert(e, twin);
        }
        2 => d.locations[k][e].0 = r.of(&[63, 64, 255, 1]),
        3 => d.locations[k][e].1 = r.of(&[count as u16, HALTED, NONE, FINISHED, 0]),
        4 => d.locations[k][e].2 = r.of(&[count as u16, HALTED, NONE, FINISHED, 0]),
        5 if r.one_in(4) => {
            let row = d.locations[k].clone();
            let most = r.of(&[1024, 1025]);
            d.locations.resize(most, row);
        }
        6 => {
            d.locations.truncate(k);
        }
        _ => d.miscounted.1 = r.of(&[1, 65535, 1024]),
    }
}

/// One flaw, after which the lengths are still right.
pub fn flaw(r: &mut Random, d: &mut TableDraft) {
    match r.below(10) {
        0..=3 if !d.actions.is_empty() => flaw_action(r, d),
        4..=7 if !d.locations.is_empty() => flaw_location(r, d),
        8 => d.miscounted.0 = r.of(&[1, 255, 64]),
        _ => {
            let s = r.below(2);
            if !d.first[s].is_empty() {
                let at = r.below(d.first[s].len());
                d.first[s][at] = d.first[s][at].wrapping_add(r.of(&[1, 255, 128]));
            }
        }
    }
}
