//! The variable and equation sections: 4 to 8, and 12 of the switches.
use super::code::{self, Code, Program};

pub struct Plant {
    pub variables: usize,
    pub lows: [i32; 32],
    pub highs: [i32; 32],
    pub selectors: usize,
    pub modes: [u8; 16],
    /// by 8 * selector + mode, where the mode stands in the equation section
    pub places: [u32; 128],
    /// the rates of kind 1
    pub steady: [i32; 32],
    /// the set of the driven variables
    pub driven: u32,
}

#[derive(Clone, Copy, Default)]
pub struct Switch {
    pub code: Code,
    pub target: u8,
}

/// The switches of each mode, decoded.
pub struct Switches {
    pub all: Vec<Switch>,
    pub first: [u32; 128],
    pub count: [u8; 128],
    pub reads: [u32; 128],
}

#[inline]
pub fn nat2(s: &[u8], at: usize) -> usize {
    u16::from_be_bytes([s[at], s[at + 1]]) as usize
}

#[inline]
pub fn int4(s: &[u8], at: usize) -> i32 {
    i32::from_be_bytes([s[at], s[at + 1], s[at + 2], s[at + 3]])
}

/// What is noted while the equation section is read: 7 and 8, which come after 6, and the set of the driven variables, for 34.
struct Noted {
    named: bool,
    once: bool,
    owner: [u8; 32],
    driven: u32,
}

impl Noted {
    /// A rate of v in this equation; `mine` are the variables of its mode up to here.
    fn saw_rate(&mut self, v: u8, variables: usize, equation: u8, mine: &mut u32) {
        if v as usize >= variables {
            self.named = false;
            return;
        }
        let o = &mut self.owner[v as usize];
        if *mine >> v & 1 == 1 || (*o != 255 && *o != equation) {
            self.once = false;
        }
        *mine |= 1 << v;
        self.driven |= 1 << v;
        *o = equation;
    }
}

/// The place after a mode.
fn mode(s: &[u8], at: usize, variables: usize, modes: u8, equation: u8, noted: &mut Noted) -> Option<usize> {
    let n = *s.get(at)? as usize;
    let mut p = at + 1;
    if s.len() - p < 5 * n {
        return None;
    }
    let mut mine = 0;
    for _ in 0..n {
        noted.saw_rate(s[p], variables, equation, &mut mine);
        p += 5;
    }
    let k = *s.get(p)?;
    p += 1;
    for _ in 0..k {
        let l = *s.get(p)? as usize;
        if l < 1 || s.len() - p - 1 < l {
            return None;
        }
        noted.named &= s[p + 1] < modes;
        p += 1 + l;
    }
    Some(p)
}

impl Plant {
    fn variables(s: &[u8]) -> Result<Plant, u8> {
        let n = *s.first().ok_or(4)? as usize;
        if !(1..=32).contains(&n) || s.len() != 1 + 12 * n {
            return Err(4);
        }
        let mut x = Plant {
            variables: n,
            lows: [0; 32],
            highs: [0; 32],
            selectors: 0,
            modes: [0; 16],
            places: [0; 128],
            steady: [0; 32],
            driven: 0,
        };
        for i in 0..n {
            let p = 1 + 12 * i;
            let (low, high, first) = (int4(s, p), int4(s, p + 4), int4(s, p + 8));
            if first < low || high < first {
                return Err(5);
            }
            x.lows[i] = low;
            x.highs[i] = high;
        }
        Ok(x)
    }

    /// The equation that stands at b..e.
    fn equation(&mut self, s: &[u8], b: usize, e: usize, i: u8, noted: &mut Noted) -> Option<()> {
        let t = &s[..e];
        match *t.get(b)? {
            1 => {
                if e - b != 6 {
                    return None;
                }
                let v = t[b + 1];
                noted.saw_rate(v, self.variables, i, &mut 0);
                if (v as usize) < self.variables {
                    self.steady[v as usize] = int4(t, b + 2);
                }
            }
            2 => {
                let (first, n) = (*t.get(b + 1)?, *t.get(b + 2)?);
                if !(1..=8).contains(&n) {
                    return None;
                }
                noted.named &= first < n;
                let mut p = b + 3;
                for m in 0..n {
                    self.places[8 * self.selectors + m as usize] = p as u32;
                    p = mode(t, p, self.variables, n, i, noted)?;
                }
                if p != e {
                    return None;
                }
                self.modes[self.selectors] = n;
                self.selectors += 1;
            }
            _ => return None,
        }
        Some(())
    }

    fn equations(&mut self, s: &[u8], noted: &mut Noted) -> Option<()> {
        let n = *s.first()?;
        if n > 16 {
            return None;
        }
        let mut p = 1;
        for i in 0..n {
            if s.len() - p < 2 {
                return None;
            }
            let b = p + 2;
            let e = b + nat2(s, p);
            if e > s.len() {
                return None;
            }
            self.equation(s, b, e, i, noted)?;
            p = e;
        }
        (p == s.len()).then_some(())
    }

    pub fn read(vs: &[u8], es: &[u8]) -> Result<Plant, u8> {
        let mut x = Plant::variables(vs)?;
        let mut noted = Noted { named: true, once: true, owner: [255; 32], driven: 0 };
        x.equations(es, &mut noted).ok_or(6)?;
        if !noted.named {
            return Err(7);
        }
        if !noted.once {
            return Err(8);
        }
        x.driven = noted.driven;
        Ok(x)
    }

    /// Each switch: its mode's row, its target and where its truth stands, until one is not taken.
    fn each_switch(&self, es: &[u8], mut f: impl FnMut(usize, u8, &[u8]) -> bool) -> bool {
        for j in 0..self.selectors {
            for m in 0..self.modes[j] as usize {
                let row = 8 * j + m;
                let at = self.places[row] as usize;
                let mut p = at + 1 + 5 * es[at] as usize;
                let k = es[p];
                p += 1;
                for _ in 0..k {
                    let e = p + 1 + es[p] as usize;
                    if !f(row, es[p + 1], &es[p + 2..e]) {
                        return false;
                    }
                    p = e;
                }
            }
        }
        true
    }

    pub fn switches_read(&self, es: &[u8]) -> bool {
        self.each_switch(es, |_, _, t| code::reads(t, self.variables, false))
    }

    pub fn switches(&self, es: &[u8], program: &mut Program) -> Option<Switches> {
        let mut x = Switches { all: Vec::with_capacity(64), first: [0; 128], count: [0; 128], reads: [0; 128] };
        let all = self.each_switch(es, |row, target, t| match program.whole_truth(t, self.variables) {
            Some(code) => {
                if x.count[row] == 0 {
                    x.first[row] = x.all.len() as u32;
                }
                x.count[row] += 1;
                x.reads[row] |= code.reads;
                x.all.push(Switch { code, target });
                true
            }
            None => false,
        });
        all.then_some(x)
    }

    pub fn mode_exists(&self, s: u8, m: u8) -> bool {
        (s as usize) < self.selectors && m < self.modes[s as usize]
    }
}
