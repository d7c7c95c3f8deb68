//! A schedule file: 1 to 11 and 34, its nodes and its tree. Sets of nodes are words.
use super::code;
use super::plant::{nat2, Plant};

pub struct Schedule<'a> {
    pub sections: [&'a [u8]; 3],
    pub plant: Plant,
    pub count: usize,
    pub kinds: [u8; 64],
    /// the payload of each node in the schedule section
    pub from: [u16; 64],
    pub to: [u16; 64],
    pub parent: [u8; 64],
    /// the number after the last node of each subtree
    pub ends: [u8; 64],
    /// no node names a missing variable, selector or mode
    named: bool,
    /// the variables of the RESETs, and those of the REINITIALs
    assigned: [u32; 2],
}

/// Sections with lengths of 2 bytes, or of 4.
pub fn section(f: &[u8], at: usize, width: usize) -> Option<(&[u8], usize)> {
    if f.len() - at < width {
        return None;
    }
    let n = if width == 2 { nat2(f, at) } else { nat2(f, at) * 65536 + nat2(f, at + 2) };
    let b = at + width;
    (n <= f.len() - b).then(|| (&f[b..b + n], b + n))
}

fn sections(f: &[u8]) -> Option<[&[u8]; 3]> {
    let (vs, p) = section(f, 3, 2)?;
    let (es, p) = section(f, p, 2)?;
    let (ns, p) = section(f, p, 2)?;
    (p == f.len()).then_some([vs, es, ns])
}

impl<'a> Schedule<'a> {
    /// Whether the node whose l bytes stand behind p has the layout of its kind. What 11 and 34 are judged by is noted.
    #[inline(always)]
    fn fits(&mut self, s: &[u8], p: usize, l: usize) -> bool {
        match s[p + 1] {
            1 | 2 => l == 2 && s[p + 2] >= 1,
            3..=5 => true,
            k @ (6 | 7) if l >= 2 => {
                let v = s[p + 2];
                self.named &= (v as usize) < self.plant.variables;
                self.assigned[k as usize - 6] |= 1u32.wrapping_shl(v as u32);
                true
            }
            8 if l == 3 => {
                self.named &= self.plant.mode_exists(s[p + 2], s[p + 3]);
                true
            }
            9 => l == 1,
            _ => false,
        }
    }

    fn nodes(&mut self) -> Option<()> {
        let s = self.sections[2];
        let n = *s.first()? as usize;
        if !(1..=64).contains(&n) {
            return None;
        }
        let mut p = 1;
        for i in 0..n {
            let l = *s.get(p)? as usize;
            if !(1..=200).contains(&l) || s.len() - p - 1 < l {
                return None;
            }
            if !self.fits(s, p, l) {
                return None;
            }
            self.kinds[i] = s[p + 1];
            self.from[i] = p as u16 + 2;
            self.to[i] = (p + 1 + l) as u16;
            p += 1 + l;
        }
        self.count = n;
        (p == s.len()).then_some(())
    }

    /// 10: parents and ends, by one walk up the numbers.
    fn tree(&mut self) -> Option<()> {
        let mut open = [0u8; 64];
        let mut left = [0u8; 64];
        let mut depth = 0;
        for i in 0..self.count {
            if i > 0 {
                if depth == 0 {
                    return None;
                }
                let top = open[depth - 1] as usize;
                self.parent[i] = top as u8;
                left[top] -= 1;
            }
            left[i] = match self.kinds[i] {
                1 | 2 => self.sections[2][self.from[i] as usize],
                3 => 1,
                4 => 2,
                _ => 0,
            };
            open[depth] = i as u8;
            depth += 1;
            while depth > 0 && left[open[depth - 1] as usize] == 0 {
                depth -= 1;
                self.ends[open[depth] as usize] = i as u8 + 1;
            }
        }
        (depth == 0).then_some(())
    }

    pub fn payload(&self, n: usize) -> &'a [u8] {
        &self.sections[2][self.from[n] as usize..self.to[n] as usize]
    }

    /// 34: every RESET is of a variable that is not driven, every REINITIAL of a driven one.
    fn parted(&self) -> bool {
        let [resets, reinitials] = self.assigned;
        resets & self.plant.driven == 0 && reinitials & !self.plant.driven == 0
    }

    /// 12 of the nodes
    pub fn operands_read(&self) -> bool {
        (0..self.count).all(|n| match self.kinds[n] {
            3..=5 => code::reads(self.payload(n), self.plant.variables, false),
            6 | 7 => code::reads(&self.payload(n)[1..], self.plant.variables, true),
            _ => true,
        })
    }

    /// 1 to 11, 34
    pub fn read(f: &'a [u8]) -> Result<Self, u8> {
        if f.len() < 3 || f[0] != 1 {
            return Err(1);
        }
        if nat2(f, 1) != f.len() {
            return Err(2);
        }
        let sections = sections(f).ok_or(3)?;
        let plant = Plant::read(sections[0], sections[1])?;
        let mut x = Schedule {
            sections,
            plant,
            count: 0,
            kinds: [0; 64],
            from: [0; 64],
            to: [0; 64],
            parent: [255; 64],
            ends: [0; 64],
            named: true,
            assigned: [0; 2],
        };
        x.nodes().ok_or(9)?;
        x.tree().ok_or(10)?;
        if !x.named {
            return Err(11);
        }
        if x.parted() { Ok(x) } else { Err(34) }
    }

    /// 1 to 11, 34, 12
    pub fn checked(f: &'a [u8]) -> Result<Self, u8> {
        let s = Schedule::read(f)?;
        if s.operands_read() && s.plant.switches_read(s.sections[1]) { Ok(s) } else { Err(12) }
    }
}

/// The kind of a node's action, as a table has it.
pub fn action_kind(k: u8) -> u8 {
    match k {
        3 | 4 => 1,
        5 => 2,
        6 | 7 => 3,
        8 => 4,
        9 => 5,
        _ => 0,
    }
}
