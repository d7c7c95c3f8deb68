//! Numbers and truths: of many shapes, of an exact length or depth, and broken ones.
use crate::random::Random;

fn constant(z: i32) -> Vec<u8> {
    let mut l = vec![0x01];
    l.extend(z.to_be_bytes());
    l
}

fn number_into(r: &mut Random, depth: usize, variables: usize, out: &mut Vec<u8>) {
    if depth <= 1 || r.one_in(3) {
        if r.one_in(2) {
            out.extend(constant(r.whole()));
        } else {
            out.extend([0x02, r.below(variables) as u8]);
        }
        return;
    }
    let code = r.of(&[0x10, 0x11, 0x12, 0x14]);
    out.push(code);
    number_into(r, depth - 1, variables, out);
    if code != 0x14 {
        number_into(r, depth - 1, variables, out);
    }
}

fn truth_into(r: &mut Random, depth: usize, variables: usize, out: &mut Vec<u8>) {
    if depth <= 1 || r.one_in(12) {
        out.push(0x2F);
        return;
    }
    match r.below(8) {
        0 => {
            out.push(r.of(&[0x28, 0x29]));
            truth_into(r, depth - 1, variables, out);
            truth_into(r, depth - 1, variables, out);
        }
        1 => {
            out.push(0x2A);
            truth_into(r, depth - 1, variables, out);
        }
        _ => {
            out.push(0x20 + r.below(4) as u8);
            number_into(r, depth - 1, variables, out);
            number_into(r, depth - 1, variables, out);
        }
    }
}

/// Of exactly this length, at least 2, and of little depth.
pub fn number_of_length(r: &mut Random, n: usize, variables: usize) -> Vec<u8> {
    if n == 5 && r.one_in(2) {
        return constant(r.whole());
    }
    match n {
        2 => vec![0x02, r.below(variables) as u8],
        3 | 4 => {
            let mut l = vec![0x14];
            l.extend(number_of_length(r, n - 1, variables));
            l
        }
        _ => {
            let left = (n - 1) / 2;
            let mut l = vec![r.of(&[0x10, 0x11, 0x12])];
            l.extend(number_of_length(r, left, variables));
            l.extend(number_of_length(r, n - 1 - left, variables));
            l
        }
    }
}

/// Of exactly this length, at least 1, and of little depth.
pub fn truth_of_length(r: &mut Random, n: usize, variables: usize) -> Vec<u8> {
    if n == 1 {
        return vec![0x2F];
    }
    if n == 2 {
        return vec![0x2A, 0x2F];
    }
    let left = (n - 1) / 2;
    if left >= 2 && (n < 12 || r.one_in(3)) {
        let mut l = vec![0x20 + r.below(4) as u8];
        l.extend(number_of_length(r, left, variables));
        l.extend(number_of_length(r, n - 1 - left, variables));
        return l;
    }
    let mut l = vec![r.of(&[0x28, 0x29])];
    l.extend(truth_of_length(r, left, variables));
    l.extend(truth_of_length(r, n - 1 - left, variables));
    l
}

/// Of exactly this depth.
pub fn deep_number(r: &mut Random, depth: usize, variables: usize) -> Vec<u8> {
    let mut l = Vec::new();
    let mut behind = Vec::new();
    for _ in 1..depth {
        match r.below(4) {
            0 => {
                l.push(r.of(&[0x10, 0x11]));
                l.extend([0x02, r.below(variables) as u8]);
            }
            1 => {
                l.push(r.of(&[0x10, 0x11, 0x12]));
                behind.extend(constant(r.below(3) as i32));
            }
            _ => l.push(0x14),
        }
    }
    l.extend([0x02, r.below(variables) as u8]);
    l.extend(behind);
    l
}

/// Of exactly this depth, at least 3.
pub fn deep_truth(r: &mut Random, depth: usize, variables: usize) -> Vec<u8> {
    let outer = r.below(depth - 1);
    let mut l = Vec::new();
    let mut behind = Vec::new();
    for _ in 0..outer {
        match r.below(4) {
            0 => l.extend([r.of(&[0x28, 0x29]), 0x2F]),
            1 => {
                l.push(r.of(&[0x28, 0x29]));
                behind.push(0x2F);
            }
            _ => l.push(0x2A),
        }
    }
    let left = depth - outer;
    if left == 1 {
        l.push(0x2F);
    } else {
        l.push(0x20 + r.below(4) as u8);
        if r.one_in(2) {
            l.extend([0x02, r.below(variables) as u8]);
            l.extend(deep_number(r, left - 1, variables));
        } else {
            l.extend(deep_number(r, left - 1, variables));
            l.extend([0x02, r.below(variables) as u8]);
        }
    }
    l.extend(behind);
    l
}

/// A sound number of at most so many bytes.
pub fn number(r: &mut Random, variables: usize, most: usize) -> Vec<u8> {
    match r.below(30) {
        0 => {
            let l = deep_number(r, 16, variables);
            if l.len() <= most {
                return l;
            }
        }
        1 => return number_of_length(r, most, variables),
        2 => {
            let n = 2 + r.below(most - 1);
            return number_of_length(r, n, variables);
        }
        _ => {}
    }
    loop {
        let mut out = Vec::new();
        let depth = 1 + r.below(4);
        number_into(r, depth, variables, &mut out);
        if out.len() <= most {
            return out;
        }
    }
}

/// A sound truth of at most so many bytes.
pub fn truth(r: &mut Random, variables: usize, most: usize) -> Vec<u8> {
    match r.below(30) {
        0 => {
            let l = deep_truth(r, 16, variables);
            if l.len() <= most {
                return l;
            }
        }
        1 => return truth_of_length(r, most, variables),
        2 => {
            let n = 1 + r.below(most);
            return truth_of_length(r, n, variables);
        }
        _ => {}
    }
    loop {
        let mut out = Vec::new();
        let depth = 1 + r.below(4);
        truth_into(r, depth, variables, &mut out);
        if out.len() <= most {
            return out;
        }
    }
}

/// A truth that holds at few values: a variable equals a small number, or never.
pub fn rare_truth(r: &mut Random, variables: usize) -> Vec<u8> {
    if r.one_in(4) {
        return vec![0x2A, 0x2F];
    }
    let mut l = vec![0x22, 0x02, r.below(variables) as u8];
    l.extend(constant(r.below(41) as i32 - 20));
    l
}

/// A number that leaves 32 bits always, or where a variable is far enough from 0, on a side that its sign decides.
fn beyond(r: &mut Random, variables: usize) -> Vec<u8> {
    let (mut l, last) = match r.below(12) {
        0 => (vec![0x14], i32::MIN),
        1 => ([vec![0x10], constant(i32::MAX)].concat(), 1),
        2 => ([vec![0x10], constant(i32::MIN)].concat(), -1),
        3 => ([vec![0x11], constant(i32::MIN)].concat(), 1),
        _ => (vec![0x12, 0x02, r.below(variables) as u8], r.of(&[1, -1]) << (26 + r.below(5))),
    };
    l.extend(constant(last));
    l
}

/// A comparison of one such number or of two, which are often on different sides.
fn faulting_comparison(r: &mut Random, variables: usize) -> Vec<u8> {
    let mut operands = [beyond(r, variables), if r.one_in(3) { constant(1) } else { beyond(r, variables) }];
    if r.one_in(2) {
        operands.swap(0, 1);
    }
    [vec![r.of(&[0x20, 0x21, 0x22, 0x22, 0x23])], operands.concat()].concat()
}

/// A truth of at most 47 bytes that faults at many values.
pub fn faulting_truth(r: &mut Random, variables: usize) -> Vec<u8> {
    if r.one_in(4) {
        return [vec![r.of(&[0x28, 0x29])], faulting_comparison(r, variables), faulting_comparison(r, variables)].concat();
    }
    faulting_comparison(r, variables)
}

/// The truth of a CONTINUE.
pub fn waited(r: &mut Random, variables: usize) -> Vec<u8> {
    match r.below(8) {
        0..=3 => truth(r, variables, 199),
        4 => faulting_truth(r, variables),
        _ => rare_truth(r, variables),
    }
}

/// Cut, overlong, too deep, of the wrong sort, with an unknown code, or with a missing variable (12).
pub fn broken(r: &mut Random, l: &mut Vec<u8>, is_truth: bool, variables: usize) {
    match r.below(7) {
        0 => {
            let n = r.below(l.len() + 1);
            l.truncate(n);
        }
        1 => l.push(r.of(&[0x2F, 0x01, 0x00])),
        2 if is_truth => *l = deep_truth(r, 17, variables),
        2 => *l = deep_number(r, 17, variables),
        3 if is_truth => *l = number(r, variables, 20),
        3 => *l = truth(r, variables, 20),
        4 if !l.is_empty() => {
            let at = r.below(l.len());
            l[at] = r.of(&[0x00, 0x03, 0x0F, 0x13, 0x15, 0x1F, 0x24, 0x27, 0x2B, 0x2E, 0x30, 0xFF]);
        }
        5 if is_truth => *l = vec![0x20, 0x02, variables as u8, 0x02, 0],
        5 => *l = vec![0x02, variables as u8],
        _ => l.clear(),
    }
}
