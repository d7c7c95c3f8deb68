//! Events judged over decoded actions and switches. A truth is kept until a variable that it reads changes, and the
//! record is kept as bytes of which an event writes only what it changed.
use super::code::{falls_below, number_of, truth_of, Code, Instruction, Program};
use super::moves::{Moves, Next};
use super::plant::{int4, Plant, Switches};

pub const TEST: u8 = 1;
pub const WAIT: u8 = 2;
pub const ASSIGN: u8 = 3;
pub const SWITCH: u8 = 4;

#[derive(Clone, Copy, Default)]
pub struct Action {
    pub kind: u8,
    /// the variable of an assignment, the selector of a switch
    pub what: u8,
    pub mode: u8,
    pub code: Code,
}

/// The action of a kind and an operand; none where 11 or 12 refuses it, or its form is wrong.
pub fn action(kind: u8, operand: &[u8], plant: &Plant, program: &mut Program) -> Option<Action> {
    let mut a = Action { kind, ..Action::default() };
    match kind {
        TEST | WAIT => a.code = program.whole_truth(operand, plant.variables)?,
        ASSIGN => {
            a.what = *operand.first()?;
            if a.what as usize >= plant.variables {
                return None;
            }
            a.code = program.whole_number(&operand[1..], plant.variables)?;
        }
        SWITCH => {
            if operand.len() != 2 || !plant.mode_exists(operand[0], operand[1]) {
                return None;
            }
            (a.what, a.mode) = (operand[0], operand[1]);
        }
        5 if operand.is_empty() => {}
        _ => return None,
    }
    Some(a)
}

/// What moves lead to: residuals or locations.
pub trait Control {
    fn go(&mut self, acting: u64, n: usize, truth: bool) -> Next;
}

impl Control for &Moves {
    #[inline(always)]
    fn go(&mut self, acting: u64, n: usize, truth: bool) -> Next {
        self.advance(acting, n, truth)
    }
}

#[derive(Default, Clone, Copy, PartialEq, Eq, Debug)]
pub struct Ran {
    pub taken: u64,
    pub turned_away: u64,
    pub faulted: u64,
}

/// A plant with its decoded parts.
pub struct Machine<'a> {
    pub plant: Plant,
    pub equations: &'a [u8],
    pub switches: Switches,
    pub actions: [Action; 64],
    pub instructions: Vec<Instruction>,
}

#[derive(Clone)]
pub struct Runner<'a, C> {
    machine: &'a Machine<'a>,
    control: C,
    slots: Vec<i32>,
    acting: u64,
    waits: u64,
    /// nodes whose truth is known, and which of these are true
    known: u64,
    truths: u64,
    /// by variable, the nodes whose truths read it
    readers: [u64; 32],
    /// selectors whose current switches are all known to be false
    quiet: u16,
    all: u16,
    /// a switch is known to be true
    blocked: bool,
    /// by variable, the selectors whose current switches read it
    switch_readers: [u16; 32],
    modes: [u8; 16],
    /// the variables that a tick changes, their rates, and what these variables' readers are
    driven: u32,
    rates: [i32; 32],
    tick_readers: u64,
    tick_switches: u16,
    record: [u8; 160],
    size: usize,
}

/// The answer to a fault that is above, and to any fault until `falls_below` has told its side.
const FAULT: u8 = 203;
const BELOW: u8 = 204;

/// Copies a record of 13 to 153 bytes in blocks, the last of which may lie over the one before.
///
/// # Safety
/// Both places have `size` bytes.
#[inline(always)]
unsafe fn put(from: &[u8; 160], to: *mut u8, size: usize) {
    let p = from.as_ptr();
    if size < 16 {
        to.cast::<[u8; 8]>().write(p.cast::<[u8; 8]>().read());
        to.add(size - 8).cast::<[u8; 8]>().write(p.add(size - 8).cast::<[u8; 8]>().read());
        return;
    }
    let mut i = 0;
    while i + 16 < size {
        to.add(i).cast::<[u8; 16]>().write(p.add(i).cast::<[u8; 16]>().read());
        i += 16;
    }
    to.add(size - 16).cast::<[u8; 16]>().write(p.add(size - 16).cast::<[u8; 16]>().read());
}

impl<'a, C: Control> Runner<'a, C> {
    /// 20 to 22, then a run that stands at its start.
    pub fn new(
        machine: &'a Machine<'a>,
        slots: Vec<i32>,
        control: C,
        acting: u64,
        start: &[u8],
        events: usize,
        room: usize,
    ) -> Result<Self, u8> {
        let p = &machine.plant;
        let (variables, selectors) = (p.variables, p.selectors);
        if start.len() != 4 * variables + selectors {
            return Err(20);
        }
        let mut x = Runner {
            machine,
            control,
            slots,
            acting,
            waits: 0,
            known: 0,
            truths: 0,
            readers: [0; 32],
            quiet: 0,
            all: ((1u32 << selectors) - 1) as u16,
            blocked: false,
            switch_readers: [0; 32],
            modes: [0; 16],
            driven: 0,
            rates: p.steady,
            tick_readers: 0,
            tick_switches: 0,
            record: [0; 160],
            size: 9 + 4 * variables + selectors,
        };
        x.begin(start)?;
        if events % 3 != 0 {
            return Err(21);
        }
        if room / x.size < events / 3 {
            return Err(22);
        }
        x.record[9..9 + start.len()].copy_from_slice(start);
        x.note();
        Ok(x)
    }

    /// The starting values and modes, or 20.
    fn begin(&mut self, start: &[u8]) -> Result<(), u8> {
        let p = &self.machine.plant;
        for v in 0..p.variables {
            let z = int4(start, 4 * v);
            if z < p.lows[v] || p.highs[v] < z {
                return Err(20);
            }
            self.slots[v] = z;
        }
        for j in 0..p.selectors {
            let m = start[4 * p.variables + j];
            if m >= p.modes[j] {
                return Err(20);
            }
            self.modes[j] = m;
        }
        Ok(())
    }

    /// What is worked out once.
    fn note(&mut self) {
        for (n, a) in self.machine.actions.iter().enumerate() {
            if a.kind == WAIT {
                self.waits |= 1 << n;
            }
            if a.kind == TEST || a.kind == WAIT {
                let mut r = a.code.reads;
                while r != 0 {
                    self.readers[r.trailing_zeros() as usize] |= 1 << n;
                    r &= r - 1;
                }
            }
        }
        for v in 0..32 {
            self.driven |= ((self.rates[v] != 0) as u32) << v;
        }
        for s in 0..self.machine.plant.selectors {
            self.enter(s, self.modes[s]);
        }
        self.note_tick();
    }

    fn note_tick(&mut self) {
        (self.tick_readers, self.tick_switches) = (0, 0);
        let mut d = self.driven;
        while d != 0 {
            let v = d.trailing_zeros() as usize;
            d &= d - 1;
            self.tick_readers |= self.readers[v];
            self.tick_switches |= self.switch_readers[v];
        }
    }

    /// Rates of a mode, put in or taken out.
    fn drive(&mut self, row: usize, on: bool) {
        let es = self.machine.equations;
        let at = self.machine.plant.places[row] as usize;
        for i in 0..es[at] as usize {
            let p = at + 1 + 5 * i;
            let v = es[p] as usize & 31;
            let z = if on { int4(es, p + 1) } else { 0 };
            self.rates[v] = z;
            self.driven = self.driven & !(1 << v) | ((z != 0) as u32) << v;
        }
    }

    fn enter(&mut self, s: usize, m: u8) {
        let row = 8 * s + m as usize;
        self.drive(row, true);
        let mut r = self.machine.switches.reads[row];
        while r != 0 {
            self.switch_readers[r.trailing_zeros() as usize] |= 1 << s;
            r &= r - 1;
        }
    }

    fn set_mode(&mut self, s: usize, m: u8) {
        let s = s & 15;
        let old = self.modes[s];
        if old == m {
            return;
        }
        let row = 8 * s + old as usize;
        self.drive(row, false);
        let mut r = self.machine.switches.reads[row];
        while r != 0 {
            self.switch_readers[r.trailing_zeros() as usize] &= !(1 << s);
            r &= r - 1;
        }
        self.modes[s] = m;
        self.enter(s, m);
        self.note_tick();
        self.quiet &= !(1 << s);
        self.blocked = false;
        self.record[9 + 4 * self.machine.plant.variables + s] = m;
    }

    #[inline(always)]
    fn store(&mut self, v: usize, z: i32) {
        // SAFETY: v is a declared variable.
        unsafe {
            *self.slots.get_unchecked_mut(v) = z;
            self.record.as_mut_ptr().add(9 + 4 * v).cast::<u32>().write_unaligned((z as u32).to_be());
        }
    }

    /// 0 where all current switches are false, else 28 or a fault.
    #[inline(always)]
    fn switch_check(&mut self) -> u8 {
        if self.blocked {
            return 28;
        }
        let mut left = self.all & !self.quiet;
        while left != 0 {
            let j = left.trailing_zeros() as usize & 15;
            let row = 8 * j + self.modes[j] as usize & 127;
            let first = self.machine.switches.first[row] as usize;
            for k in 0..self.machine.switches.count[row] as usize {
                // SAFETY: first + k is a switch of the row.
                let code = unsafe { self.machine.switches.all.get_unchecked(first + k).code };
                match truth_of(&self.machine.instructions, &mut self.slots, code) {
                    None => return FAULT,
                    Some(true) => {
                        self.blocked = true;
                        return 28;
                    }
                    Some(false) => {}
                }
            }
            self.quiet |= 1 << j;
            left &= left - 1;
        }
        0
    }

    /// The truth of node n.
    #[inline(always)]
    fn truth(&mut self, n: usize) -> Option<bool> {
        if self.known >> n & 1 == 1 {
            return Some(self.truths >> n & 1 == 1);
        }
        let t = truth_of(&self.machine.instructions, &mut self.slots, self.machine.actions[n & 63].code)?;
        self.known |= 1 << n;
        self.truths = self.truths & !(1 << n) | (t as u64) << n;
        Some(t)
    }

    #[inline(always)]
    fn tick(&mut self) -> u8 {
        if self.acting & !self.waits != 0 {
            return 27;
        }
        let c = self.switch_check();
        if c != 0 {
            return c;
        }
        let mut left = self.acting & (!self.known | self.truths);
        while left != 0 {
            let n = left.trailing_zeros() as usize;
            left &= left - 1;
            match self.truth(n) {
                None => return FAULT,
                Some(true) => return 31,
                Some(false) => {}
            }
        }
        self.add_rates()
    }

    #[inline(always)]
    fn add_rates(&mut self) -> u8 {
        let mut sums = [0i32; 32];
        let p = &self.machine.plant;
        let mut d = self.driven;
        while d != 0 {
            let v = d.trailing_zeros() as usize & 31;
            d &= d - 1;
            let z = self.slots[v] as i64 + self.rates[v] as i64;
            if z < p.lows[v] as i64 || (p.highs[v] as i64) < z {
                return FAULT;
            }
            sums[v] = z as i32;
        }
        let mut d = self.driven;
        while d != 0 {
            let v = d.trailing_zeros() as usize & 31;
            d &= d - 1;
            self.store(v, sums[v]);
        }
        self.known &= !self.tick_readers;
        self.quiet &= !self.tick_switches;
        200
    }

    #[inline(always)]
    fn assign(&mut self, a: Action) -> u8 {
        let v = a.what as usize & 31;
        let p = &self.machine.plant;
        match number_of(&self.machine.instructions, &mut self.slots, a.code) {
            Some(z) if p.lows[v] <= z && z <= p.highs[v] => {
                self.store(v, z);
                self.known &= !self.readers[v];
                self.quiet &= !self.switch_readers[v];
                0
            }
            _ => FAULT,
        }
    }

    #[inline(always)]
    fn pick(&mut self, n: usize) -> u8 {
        if n >= 64 || self.acting >> n & 1 == 0 {
            return 25;
        }
        let c = self.switch_check();
        if c != 0 {
            return c;
        }
        let a = self.machine.actions[n];
        let mut truth = true;
        match a.kind {
            TEST => match self.truth(n) {
                None => return FAULT,
                Some(t) => truth = t,
            },
            WAIT => match self.truth(n) {
                None => return FAULT,
                Some(false) => return 29,
                Some(true) => {}
            },
            ASSIGN => {
                if self.assign(a) != 0 {
                    return FAULT;
                }
            }
            SWITCH => self.set_mode(a.what as usize, a.mode),
            _ => {}
        }
        match self.control.go(self.acting, n, truth) {
            Next::To(w) => {
                self.acting = w;
                200
            }
            Next::Finished => 201,
            Next::Halted => 202,
        }
    }

    #[inline(always)]
    fn take_switch(&mut self, s: usize, k: usize) -> u8 {
        if s >= self.machine.plant.selectors {
            return 26;
        }
        let row = 8 * s + self.modes[s & 15] as usize & 127;
        if k >= self.machine.switches.count[row] as usize {
            return 26;
        }
        let w = self.machine.switches.all[self.machine.switches.first[row] as usize + k];
        match truth_of(&self.machine.instructions, &mut self.slots, w.code) {
            None => FAULT,
            Some(false) => 30,
            Some(true) => {
                self.set_mode(s, w.target);
                200
            }
        }
    }

    #[inline(always)]
    pub fn event(&mut self, a: u8, b: u8, c: u8) -> u8 {
        match a {
            0 if b | c == 0 => self.tick(),
            1 if c == 0 => self.pick(b as usize),
            2 => self.take_switch(b as usize, c as usize),
            _ => 24,
        }
    }

    /// What a pick or a tick of these nodes evaluates, in its order: the switch check, then the nodes.
    fn walked(&self, nodes: u64) -> Vec<Code> {
        let m = self.machine;
        let rows = (0..m.plant.selectors).map(|s| 8 * s + self.modes[s] as usize);
        let switches = rows.flat_map(|row| &m.switches.all[m.switches.first[row] as usize..][..m.switches.count[row] as usize]);
        let actions = m.actions.iter().enumerate().filter(|(n, _)| nodes >> n & 1 == 1);
        switches.map(|w| w.code).chain(actions.map(|(_, a)| a.code)).collect()
    }

    /// Whether the fault of this event is below. The event left values and modes as they were and is judged again, once at the end of
    /// a run, so that no other event pays for the side.
    #[cold]
    #[inline(never)]
    fn falls_below(&mut self, e: [u8; 3]) -> bool {
        let m = self.machine;
        let codes = match e {
            [0, ..] => self.walked(self.acting),
            [1, n, _] => self.walked(1 << n),
            [_, s, k] => {
                let row = 8 * s as usize + self.modes[s as usize] as usize;
                vec![m.switches.all[m.switches.first[row] as usize + k as usize].code]
            }
        };
        if let Some(below) = codes.into_iter().find_map(|c| falls_below(&m.instructions, &mut self.slots, c)) {
            return below;
        }
        // no expression faults: a value is outside its declared range
        let p = &m.plant;
        if e[0] == 1 {
            let a = m.actions[e[1] as usize];
            let z = number_of(&m.instructions, &mut self.slots, a.code);
            return z.is_some_and(|z| z < p.lows[a.what as usize]);
        }
        let mut sums = (0..p.variables).map(|v| (v, self.slots[v] as i64 + self.rates[v] as i64));
        let first = sums.find(|(v, z)| *z < p.lows[*v] as i64 || (p.highs[*v] as i64) < *z);
        first.is_some_and(|(v, z)| z < p.lows[v] as i64)
    }

    /// All events; their records go to the front of the buffer.
    pub fn run(&mut self, events: &[u8], records: &mut [u8]) -> Ran {
        let n = events.len() / 3;
        let size = self.size;
        let mut out = records.as_mut_ptr();
        let mut taken = 0;
        let mut faulted = 0;
        let mut i = 0;
        while i < n {
            // SAFETY: there are n events, and 22 has seen to the room for n records.
            unsafe {
                let e = events.as_ptr().add(3 * i);
                let answer = self.event(*e, *e.add(1), *e.add(2));
                let over = answer > 200;
                let set = if over { 0 } else { self.acting };
                taken += (answer.wrapping_sub(200) < 3) as u64;
                faulted += (answer == FAULT) as u64;
                self.record[0] = answer;
                self.record.as_mut_ptr().add(1).cast::<u64>().write_unaligned(set.to_be());
                put(&self.record, out, size);
                out = out.add(size);
                i += 1;
                if over {
                    break;
                }
            }
        }
        if faulted != 0 && self.falls_below([events[3 * i - 3], events[3 * i - 2], events[3 * i - 1]]) {
            // SAFETY: the last record written is that of event i - 1.
            unsafe { *out.sub(size) = BELOW };
        }
        self.record[0] = 23;
        while i < n {
            // SAFETY: as above
            unsafe {
                put(&self.record, out, size);
                out = out.add(size);
            }
            i += 1;
        }
        Ran { taken, turned_away: n as u64 - taken - faulted, faulted }
    }
}
