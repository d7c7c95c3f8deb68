//! Expressions decoded once into register code. Variables, temporaries and constants stand in one array of numbers,
//! so that a comparison of a variable with a constant is one instruction.

/// Slots 0..32 are the variables, 32..64 the temporaries, the rest the constants.
pub const TEMPORARIES: u16 = 32;
pub const CONSTANTS: usize = 64;

const DEPTH: u32 = 16;

#[derive(Clone, Copy)]
pub struct Instruction {
    op: u8,
    to: u16,
    a: u16,
    b: u16,
}

/// A truth's or a number's code: instructions from..to; without any, a number is the slot and a truth is true.
#[derive(Clone, Copy, Default)]
pub struct Code {
    from: u32,
    to: u32,
    slot: u16,
    /// the variables that it reads
    pub reads: u32,
}

/// What decoding gives: the instructions, and the numbers with the constants in.
pub struct Program {
    pub instructions: Vec<Instruction>,
    pub slots: Vec<i32>,
}

struct Decoder<'a> {
    bytes: &'a [u8],
    at: usize,
    variables: usize,
    reads: u32,
}

impl Decoder<'_> {
    #[inline]
    fn byte(&mut self) -> Option<u8> {
        let b = *self.bytes.get(self.at)?;
        self.at += 1;
        Some(b)
    }
}

impl Program {
    pub fn new(capacity: usize) -> Self {
        let mut slots = Vec::with_capacity(CONSTANTS + capacity / 5);
        slots.resize(CONSTANTS, 0);
        Program { instructions: Vec::with_capacity(capacity), slots }
    }

    fn emit(&mut self, op: u8, to: u16, a: u16, b: u16) -> u16 {
        self.instructions.push(Instruction { op, to, a, b });
        to
    }

    /// A number of at most this depth; its slot. `to` is the temporary that it may use, with those above.
    fn number(&mut self, d: &mut Decoder, depth: u32, to: u16) -> Option<u16> {
        if depth == 0 {
            return None;
        }
        let code = d.byte()?;
        match code {
            0x01 => {
                let s = d.bytes.get(d.at..d.at + 4)?;
                d.at += 4;
                self.slots.push(i32::from_be_bytes([s[0], s[1], s[2], s[3]]));
                Some((self.slots.len() - 1) as u16)
            }
            0x02 => {
                let v = d.byte()?;
                if v as usize >= d.variables {
                    return None;
                }
                d.reads |= 1 << v;
                Some(v as u16)
            }
            0x10..=0x12 => {
                let a = self.number(d, depth - 1, to)?;
                let b = self.number(d, depth - 1, to + 1)?;
                Some(self.emit(code, to, a, b))
            }
            0x14 => {
                let a = self.number(d, depth - 1, to)?;
                Some(self.emit(code, to, a, a))
            }
            _ => None,
        }
    }

    fn truth(&mut self, d: &mut Decoder, depth: u32, to: u16) -> Option<u16> {
        if depth == 0 {
            return None;
        }
        let code = d.byte()?;
        match code {
            0x20..=0x23 => {
                let a = self.number(d, depth - 1, to)?;
                let b = self.number(d, depth - 1, to + 1)?;
                Some(self.emit(code, to, a, b))
            }
            0x28 | 0x29 => {
                let a = self.truth(d, depth - 1, to)?;
                let b = self.truth(d, depth - 1, to + 1)?;
                Some(self.emit(code, to, a, b))
            }
            0x2A => {
                let a = self.truth(d, depth - 1, to)?;
                Some(self.emit(code, to, a, a))
            }
            0x2F => Some(self.emit(code, to, 0, 0)),
            _ => None,
        }
    }

    /// The bytes as one whole truth, where 12 lets them pass.
    pub fn whole_truth(&mut self, bytes: &[u8], variables: usize) -> Option<Code> {
        let from = self.instructions.len() as u32;
        let mut d = Decoder { bytes, at: 0, variables, reads: 0 };
        let slot = self.truth(&mut d, DEPTH, TEMPORARIES)?;
        (d.at == bytes.len()).then_some(Code { from, to: self.instructions.len() as u32, slot, reads: d.reads })
    }

    pub fn whole_number(&mut self, bytes: &[u8], variables: usize) -> Option<Code> {
        let from = self.instructions.len() as u32;
        let mut d = Decoder { bytes, at: 0, variables, reads: 0 };
        let slot = self.number(&mut d, DEPTH, TEMPORARIES)?;
        (d.at == bytes.len()).then_some(Code { from, to: self.instructions.len() as u32, slot, reads: d.reads })
    }
}

/// One instruction's result; none where it leaves 32 bits.
#[inline(always)]
fn apply(slots: &[i32], i: Instruction) -> Option<i32> {
    // SAFETY: `emit` is given slots that exist.
    let (a, b) = unsafe { (*slots.get_unchecked(i.a as usize), *slots.get_unchecked(i.b as usize)) };
    match i.op {
        0x20 => Some((a <= b) as i32),
        0x21 => Some((a < b) as i32),
        0x22 => Some((a == b) as i32),
        0x23 => Some((a != b) as i32),
        0x10 => a.checked_add(b),
        0x11 => a.checked_sub(b),
        0x12 => a.checked_mul(b),
        0x14 => a.checked_neg(),
        0x28 => Some(a & b),
        0x29 => Some(a | b),
        0x2A => Some(a ^ 1),
        _ => Some(1),
    }
}

/// Every operand is evaluated, and a fault in any is a fault of the whole.
#[inline(always)]
fn value(all: &[Instruction], slots: &mut [i32], c: Code) -> Option<i32> {
    let mut i = c.from as usize;
    let last = c.to as usize - 1;
    // SAFETY: from..to are instructions, and `to` of each is a slot.
    unsafe {
        while i < last {
            let x = *all.get_unchecked(i);
            *slots.get_unchecked_mut(x.to as usize) = apply(slots, x)?;
            i += 1;
        }
        apply(slots, *all.get_unchecked(last))
    }
}

#[inline(always)]
pub fn truth_of(all: &[Instruction], slots: &mut [i32], c: Code) -> Option<bool> {
    Some(value(all, slots, c)? != 0)
}

#[inline(always)]
pub fn number_of(all: &[Instruction], slots: &mut [i32], c: Code) -> Option<i32> {
    if c.from == c.to {
        return Some(slots[c.slot as usize]);
    }
    value(all, slots, c)
}

/// None where the code does not fault, else whether its first result to leave 32 bits is below them. A left operand's
/// instructions stand before the right one's, and both before the form's own.
pub fn falls_below(all: &[Instruction], slots: &mut [i32], c: Code) -> Option<bool> {
    for x in &all[c.from as usize..c.to as usize] {
        let Some(z) = apply(slots, *x) else {
            let (a, b) = (slots[x.a as usize] as i64, slots[x.b as usize] as i64);
            return Some(match x.op {
                0x10 => a + b < 0,
                0x11 => a - b < 0,
                0x12 => a * b < 0,
                _ => -a < 0,
            });
        };
        slots[x.to as usize] = z;
    }
    None
}

/// Condition 12 alone, for the compiler: where a number or truth that starts at a place ends; 0 where there is none.
fn end(s: &[u8], at: usize, depth: u32, variables: usize, number: bool) -> usize {
    if depth == 0 || at >= s.len() {
        return 0;
    }
    let n = at + 1;
    match (s[at], number) {
        (0x01, true) => if s.len() - n >= 4 { n + 4 } else { 0 },
        (0x02, true) => if n < s.len() && (s[n] as usize) < variables { n + 1 } else { 0 },
        (0x10..=0x12, true) | (0x20..=0x23, false) => two(s, n, depth - 1, variables, true),
        (0x28 | 0x29, false) => two(s, n, depth - 1, variables, false),
        (0x14, true) | (0x2A, false) => end(s, n, depth - 1, variables, number),
        (0x2F, false) => n,
        _ => 0,
    }
}

fn two(s: &[u8], at: usize, depth: u32, variables: usize, number: bool) -> usize {
    let m = end(s, at, depth, variables, number);
    if m == 0 { 0 } else { end(s, m, depth, variables, number) }
}

pub fn reads(s: &[u8], variables: usize, number: bool) -> bool {
    !s.is_empty() && end(s, 0, DEPTH, variables, number) == s.len()
}
