//! A table: 15 to 19, its actions decoded, its locations by number.
use super::code::Program;
use super::file::section;
use super::moves::Next;
use super::plant::{nat2, Plant};
use super::run::{action, Action, Control, Machine, TEST};

/// A location: its acting nodes, and where its row stands.
#[derive(Clone, Copy)]
pub struct Location {
    pub acting: u64,
    place: u32,
}

pub struct Table<'a> {
    pub machine: Machine<'a>,
    pub slots: Vec<i32>,
    pub rows: &'a [u8],
    pub locations: Vec<Location>,
}

fn sections(t: &[u8]) -> Option<[&[u8]; 4]> {
    let (vs, p) = section(t, 5, 2)?;
    let (es, p) = section(t, p, 2)?;
    let (acts, p) = section(t, p, 2)?;
    let (locs, p) = section(t, p, 4)?;
    (p == t.len()).then_some([vs, es, acts, locs])
}

fn actions(s: &[u8], plant: &Plant, program: &mut Program) -> Option<[Action; 64]> {
    let mut actions = [Action::default(); 64];
    let n = *s.first()?;
    if !(1..=64).contains(&n) {
        return None;
    }
    let (mut p, mut low) = (1, 0);
    for _ in 0..n {
        let l = *s.get(p)? as usize;
        if !(2..=201).contains(&l) || s.len() - p - 1 < l {
            return None;
        }
        let node = s[p + 1] as usize;
        if node < low || node > 63 {
            return None;
        }
        let e = p + 1 + l;
        actions[node] = action(s[p + 2], &s[p + 3..e], plant, program)?;
        low = node + 1;
        p = e;
    }
    (p == s.len()).then_some(actions)
}

fn locations(s: &[u8], actions: &[Action; 64]) -> Option<Vec<Location>> {
    if s.len() < 2 {
        return None;
    }
    let n = nat2(s, 0);
    if !(1..=1024).contains(&n) {
        return None;
    }
    let mut all = Vec::with_capacity(n);
    let mut p = 2;
    for _ in 0..n {
        let place = p as u32;
        let count = *s.get(p)? as usize;
        p += 1;
        if count == 0 || s.len() - p < 5 * count {
            return None;
        }
        let (mut acting, mut low) = (0, 0);
        for e in s[p..p + 5 * count].chunks_exact(5) {
            let (node, t, u) = (e[0], nat2(e, 1), nat2(e, 3));
            if node < low || node > 63 {
                return None;
            }
            low = node + 1;
            let on = |t: usize| t < n || t == 0xFFFE;
            let fits = match actions[node as usize].kind {
                TEST => on(t) && on(u),
                2..=4 => on(t) && u == 0xFFFF,
                5 => t == 0xFFFD && u == 0xFFFF,
                _ => false,
            };
            if !fits {
                return None;
            }
            acting |= 1 << node;
        }
        p += 5 * count;
        all.push(Location { acting, place });
    }
    (p == s.len()).then_some(all)
}

impl<'a> Table<'a> {
    pub fn read(t: &'a [u8]) -> Result<Self, u8> {
        if t.len() < 5 || t[0] != 1 || nat2(t, 1) * 65536 + nat2(t, 3) != t.len() {
            return Err(15);
        }
        let [vs, es, acts, rows] = sections(t).ok_or(16)?;
        let plant = Plant::read(vs, es).map_err(|_| 17)?;
        let mut program = Program::new(es.len() + acts.len());
        let switches = plant.switches(es, &mut program).ok_or(17)?;
        let actions = actions(acts, &plant, &mut program).ok_or(18)?;
        let locations = locations(rows, &actions).ok_or(19)?;
        let Program { instructions, slots } = program;
        Ok(Table { machine: Machine { plant, equations: es, switches, actions, instructions }, slots, rows, locations })
    }
}

#[derive(Clone)]
pub struct ByTable<'a> {
    rows: &'a [u8],
    locations: &'a [Location],
    place: usize,
}

impl<'a> ByTable<'a> {
    pub fn new(rows: &'a [u8], locations: &'a [Location]) -> Self {
        ByTable { rows, locations, place: locations[0].place as usize }
    }
}

impl Control for ByTable<'_> {
    /// Entries rise by node, so the entry's number is the count of acting nodes below it.
    #[inline(always)]
    fn go(&mut self, acting: u64, n: usize, truth: bool) -> Next {
        let k = (acting & !(u64::MAX << n)).count_ones() as usize;
        let p = self.place + 1 + 5 * k + if truth { 1 } else { 3 };
        // SAFETY: node n acts, so its entry is there; targets were judged.
        unsafe {
            let t = u16::from_be(self.rows.as_ptr().add(p).cast::<u16>().read_unaligned());
            match t {
                0xFFFE => Next::Finished,
                0xFFFD => Next::Halted,
                _ => {
                    let l = *self.locations.get_unchecked(t as usize);
                    self.place = l.place as usize;
                    Next::To(l.acting)
                }
            }
        }
    }
}
