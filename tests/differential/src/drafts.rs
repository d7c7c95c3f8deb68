//! Schedule files in parts: sound ones, and the same with a flaw that leaves every length right.
use crate::forms;
use crate::random::Random;

#[derive(Clone)]
pub struct Mode {
    pub rates: Vec<(u8, i32)>,
    pub switches: Vec<(u8, Vec<u8>)>,
}

#[derive(Clone)]
pub enum Equation {
    Steady(u8, i32),
    Case(u8, Vec<Mode>),
    /// a record that is none
    Bytes(Vec<u8>),
}

#[derive(Clone)]
pub struct Draft {
    /// minimum, maximum, initial
    pub variables: Vec<[i32; 3]>,
    pub equations: Vec<Equation>,
    /// kind and payload
    pub nodes: Vec<Vec<u8>>,
    /// added to the three counts as they are written
    pub miscounted: [u8; 3],
}

impl Equation {
    fn bytes(&self) -> Vec<u8> {
        let mut l = Vec::new();
        match self {
            Equation::Steady(v, z) => {
                l.extend([1, *v]);
                l.extend(z.to_be_bytes());
            }
            Equation::Case(initial, modes) => {
                l.extend([2, *initial, modes.len() as u8]);
                for m in modes {
                    l.push(m.rates.len() as u8);
                    for (v, z) in &m.rates {
                        l.push(*v);
                        l.extend(z.to_be_bytes());
                    }
                    l.push(m.switches.len() as u8);
                    for (target, truth) in &m.switches {
                        l.extend([1 + truth.len() as u8, *target]);
                        l.extend(truth);
                    }
                }
            }
            Equation::Bytes(b) => l.extend(b),
        }
        l
    }
}

fn in_section(s: &[u8], out: &mut Vec<u8>) {
    out.extend((s.len() as u16).to_be_bytes());
    out.extend(s);
}

/// A whole file of three sections.
pub fn file_of(sections: &[Vec<u8>; 3]) -> Vec<u8> {
    let mut f = vec![1, 0, 0];
    for s in sections {
        in_section(s, &mut f);
    }
    with_length(f)
}

/// The length field made right where it can be.
pub fn with_length(mut f: Vec<u8>) -> Vec<u8> {
    if f.len() >= 3 {
        let n = f.len() as u16;
        f[1..3].copy_from_slice(&n.to_be_bytes());
    }
    f
}

/// Of a sound file.
pub fn node_count(f: &[u8]) -> u8 {
    let length = |at: usize| f[at] as usize * 256 + f[at + 1] as usize;
    let equations = 5 + length(3);
    f[equations + 2 + length(equations) + 2]
}

impl Draft {
    pub fn sections(&self) -> [Vec<u8>; 3] {
        let mut vs = vec![(self.variables.len() as u8).wrapping_add(self.miscounted[0])];
        for v in &self.variables {
            for z in v {
                vs.extend(z.to_be_bytes());
            }
        }
        let mut es = vec![(self.equations.len() as u8).wrapping_add(self.miscounted[1])];
        for e in &self.equations {
            in_section(&e.bytes(), &mut es);
        }
        let mut ns = vec![(self.nodes.len() as u8).wrapping_add(self.miscounted[2])];
        for n in &self.nodes {
            ns.push(n.len() as u8);
            ns.extend(n);
        }
        [vs, es, ns]
    }

    pub fn file(&self) -> Vec<u8> {
        file_of(&self.sections())
    }

    /// Named by an equation of kind 1, or by a rate in any mode of a CASE.
    fn drives(&self, v: u8) -> bool {
        self.equations.iter().any(|e| match e {
            Equation::Steady(x, _) => *x == v,
            Equation::Case(_, modes) => modes.iter().any(|m| m.rates.iter().any(|(x, _)| *x == v)),
            Equation::Bytes(_) => false,
        })
    }

    /// The kind that the rule of 34 gives an assignment to this variable.
    fn kind_for(&self, v: u8) -> u8 {
        if self.drives(v) { 7 } else { 6 }
    }

    /// Every assignment gets the kind that its variable takes with these equations.
    pub fn part_assignments(&mut self) {
        for k in 0..self.nodes.len() {
            if let [6 | 7, v, ..] = self.nodes[k][..] {
                self.nodes[k][0] = self.kind_for(v);
            }
        }
    }

    /// The mode count of each selector.
    pub fn selectors(&self) -> Vec<usize> {
        self.equations.iter().filter_map(|e| if let Equation::Case(_, ms) = e { Some(ms.len()) } else { None }).collect()
    }
}

pub fn variables(r: &mut Random, n: usize) -> Vec<[i32; 3]> {
    (0..n)
        .map(|_| {
            let mut l = [r.whole(), r.whole(), r.whole()];
            l.sort();
            if r.one_in(3) {
                return [-1000, 1000, l[1].clamp(-30, 30)];
            }
            [l[0], l[2], l[1]]
        })
        .collect()
}

fn switch(r: &mut Random, variables: usize, modes: usize) -> (u8, Vec<u8>) {
    let truth = match r.below(16) {
        0 | 1 => forms::truth(r, variables, 254),
        2 => forms::faulting_truth(r, variables),
        _ => forms::rare_truth(r, variables),
    };
    (r.below(modes) as u8, truth)
}

fn case(r: &mut Random, variables: usize, own: &[u8], steep: bool) -> Equation {
    let n = if r.one_in(8) { 8 } else { 1 + r.below(3) };
    let busy = r.one_in(3);
    let modes = (0..n)
        .map(|_| {
            let driven: Vec<u8> = own.iter().copied().filter(|_| !r.one_in(3)).collect();
            let switches = if busy { r.below(4) } else { r.below(2) };
            Mode {
                rates: driven.into_iter().map(|v| (v, rate(r, steep))).collect(),
                switches: (0..switches).map(|_| switch(r, variables, n)).collect(),
            }
        })
        .collect();
    Equation::Case(r.below(n) as u8, modes)
}

/// A steep one leaves most ranges in one tick.
fn rate(r: &mut Random, steep: bool) -> i32 {
    match (steep, r.one_in(4)) {
        (true, _) => r.of(&[i32::MIN, -2100, 2100, i32::MAX]),
        (false, true) => r.whole(),
        (false, false) => r.below(7) as i32 - 3,
    }
}

/// Each variable stands in at most one equation. Where all rates are steep, several variables leave their ranges at once.
pub fn equations(r: &mut Random, variables: usize, steep: bool) -> Vec<Equation> {
    let count = match r.below(8) {
        0 => 16,
        1 => 0,
        _ if steep => variables.min(16),
        _ => r.below(5),
    };
    let mut free: Vec<u8> = (0..variables as u8).collect();
    (0..count)
        .map(|_| {
            if !free.is_empty() && r.one_in(2) {
                let v = free.remove(r.below(free.len()));
                return Equation::Steady(v, rate(r, steep));
            }
            let mut own = Vec::new();
            for _ in 0..r.below(3) {
                if !free.is_empty() {
                    own.push(free.remove(r.below(free.len())));
                }
            }
            case(r, variables, &own, steep)
        })
        .collect()
}

fn assignment(r: &mut Random, kind: u8, v: u8, variables: usize) -> Vec<u8> {
    [vec![kind, v], forms::number(r, variables, 198)].concat()
}

/// Assignments are RESETs; `part_assignments` makes REINITIALs of those to driven variables.
fn leaf(r: &mut Random, variables: usize, selectors: &[usize], waits: bool) -> Vec<u8> {
    let kind = if waits && !r.one_in(4) { 0 } else { r.below(if selectors.is_empty() { 8 } else { 10 }) };
    match kind {
        0..=2 => {
            let mut p = vec![5];
            p.extend(forms::waited(r, variables));
            p
        }
        3 => vec![9],
        4..=7 => {
            let v = r.below(variables) as u8;
            assignment(r, 6, v, variables)
        }
        _ => {
            let s = r.below(selectors.len());
            vec![8, s as u8, r.below(selectors[s]) as u8]
        }
    }
}

/// A tree of exactly so many nodes, in preorder.
pub fn tree(r: &mut Random, n: usize, variables: usize, selectors: &[usize], waits: bool, out: &mut Vec<Vec<u8>>) {
    if n == 1 {
        out.push(leaf(r, variables, selectors, waits));
        return;
    }
    let kind = match r.below(8) {
        0..=2 => 1,
        3..=5 => 2,
        6 if n > 2 => 4,
        _ => 3,
    };
    let mut parts = match kind {
        3 => vec![n - 1],
        4 => {
            let k = 1 + r.below(n - 2);
            vec![k, n - 1 - k]
        }
        _ => parts_of(r, n - 1),
    };
    let mut p = vec![kind];
    if kind <= 2 {
        p.push(parts.len() as u8);
    } else {
        p.extend(forms::truth(r, variables, 199));
    }
    out.push(p);
    for k in parts.drain(..) {
        tree(r, k, variables, selectors, waits, out);
    }
}

/// n as a sum of few numbers, each at least 1; now and then all ones.
fn parts_of(r: &mut Random, n: usize) -> Vec<usize> {
    if r.one_in(6) {
        return vec![1; n];
    }
    let mut left = n;
    let mut l = Vec::new();
    for _ in 0..r.below(4) {
        if left > 1 {
            let k = 1 + r.below(left - 1);
            l.push(k);
            left -= k;
        }
    }
    l.push(left);
    l
}

/// A PARALLEL of CONTINUEs over a plant that is often driven steeply: ticks come at once, and their faults are on both sides.
fn waiting(r: &mut Random) -> Draft {
    let n = 2 + r.below(4);
    let variables = variables(r, n);
    let steep = r.one_in(2);
    let equations = equations(r, n, steep);
    let faulting = r.one_in(3);
    let count = 1 + r.below(5);
    let mut nodes = vec![vec![2, count as u8]];
    for _ in 0..count {
        let truth = if faulting { forms::faulting_truth(r, n) } else { forms::rare_truth(r, n) };
        nodes.push([vec![5], truth].concat());
    }
    Draft { variables, equations, nodes, miscounted: [0; 3] }
}

pub fn sound(r: &mut Random) -> Draft {
    if r.one_in(8) {
        return waiting(r);
    }
    let n = if r.one_in(10) { 32 } else { 1 + r.below(4) };
    let variables = variables(r, n);
    let equations = equations(r, n, false);
    let mut d = Draft { variables, equations, nodes: Vec::new(), miscounted: [0; 3] };
    let most = match r.below(40) {
        0 => r.of(&[63, 64, 64, 65]),
        1 | 2 => 20 + r.below(44),
        _ => 1 + r.below(12),
    };
    let waits = r.one_in(3);
    let selectors = d.selectors();
    tree(r, most, n, &selectors, waits, &mut d.nodes);
    d.part_assignments();
    d
}

/// A PARALLEL of assignments and STOPs, now and then behind others in a SEQUENCE: the largest tables, and 13.
pub fn wide(r: &mut Random, assignments: usize, stops: usize, before: usize) -> Draft {
    let n = if r.one_in(2) { 1 } else { 1 + r.below(32) };
    let assign_first = |r: &mut Random| {
        let mut p = vec![6, 0];
        p.extend(if r.one_in(3) { forms::number(r, n, 198) } else { vec![0x01, 0, 0, 0, 1] });
        p
    };
    let mut nodes = Vec::new();
    if before > 0 {
        nodes.push(vec![1, 1 + before as u8]);
        for _ in 0..before {
            nodes.push(assign_first(r));
        }
    }
    nodes.push(vec![2, (assignments + stops) as u8]);
    for _ in 0..assignments {
        nodes.push(assign_first(r));
    }
    for _ in 0..stops {
        nodes.push(vec![9]);
    }
    let equations = if r.one_in(2) { Vec::new() } else { equations(r, n, false) };
    let mut d = Draft { variables: vec![[i32::MIN, i32::MAX, 0]; n], equations, nodes, miscounted: [0; 3] };
    d.part_assignments();
    d
}

/// A CASE with switches that never hold, so long that the equation section grows by so many bytes; at least 40.
pub fn padding(bytes: usize) -> Equation {
    // the record's length, kind, initial mode and mode count, and the counts of seven modes without switches
    let mut left = bytes - 2 - 3 - 2 * 8;
    let mut modes = vec![Mode { rates: Vec::new(), switches: Vec::new() }; 8];
    let mut at = 0;
    while left > 0 {
        // a switch of an odd number of bytes is one that compares two constants
        let truth = if left % 2 == 1 {
            vec![0x22, 0x01, 0, 0, 0, 0, 0x01, 0, 0, 0, 1]
        } else {
            let t = left.min(18) - 2;
            let mut l = vec![0x2A; t - 1];
            l.push(0x2F);
            if left > 18 && left - 18 < 4 {
                l.drain(..4);
            }
            l
        };
        left -= 2 + truth.len();
        modes[at % 8].switches.push((0, truth));
        at += 1;
    }
    Equation::Case(0, modes)
}

/// A test, a wait or an assignment with its variable.
fn holds_form(node: &[u8]) -> bool {
    match node.first() {
        Some(3..=5) => true,
        Some(6 | 7) => node.len() >= 2,
        _ => false,
    }
}

/// The truth of a switch; false where there is none.
fn break_switch(r: &mut Random, d: &mut Draft) -> bool {
    let n = d.variables.len();
    let mut switches: Vec<&mut (u8, Vec<u8>)> = d
        .equations
        .iter_mut()
        .filter_map(|e| if let Equation::Case(_, ms) = e { Some(ms) } else { None })
        .flatten()
        .flat_map(|m| &mut m.switches)
        .collect();
    if switches.is_empty() {
        return false;
    }
    let k = r.below(switches.len());
    forms::broken(r, &mut switches[k].1, true, n);
    true
}

/// The form of this node, which holds one.
fn break_node(r: &mut Random, d: &mut Draft, k: usize) {
    let n = d.variables.len();
    let front = if d.nodes[k][0] >= 6 { 2 } else { 1 };
    let mut l = d.nodes[k].split_off(front);
    forms::broken(r, &mut l, front == 1, n);
    d.nodes[k].extend(l);
}

/// The form of a node or of a switch.
fn break_form(r: &mut Random, d: &mut Draft) {
    if r.one_in(3) && break_switch(r, d) {
        return;
    }
    let holders: Vec<usize> = (0..d.nodes.len()).filter(|k| holds_form(&d.nodes[*k])).collect();
    if !holders.is_empty() {
        let k = r.of(&holders);
        break_node(r, d, k);
    }
}

/// An equation that drives v: of kind 1, in the initial mode of a CASE, in its other mode, or in both.
fn driver(r: &mut Random, v: u8) -> Equation {
    let z = rate(r, false);
    let [with, without] = [vec![(v, z)], Vec::new()].map(|rates| Mode { rates, switches: Vec::new() });
    match r.below(4) {
        0 => Equation::Steady(v, z),
        1 => Equation::Case(0, vec![with, without]),
        2 => Equation::Case(0, vec![without, with]),
        _ => Equation::Case(1, vec![with.clone(), with]),
    }
}

/// A RESET of a driven variable, or a REINITIAL of another (34).
fn unfit_assignment(r: &mut Random, d: &mut Draft) -> Vec<u8> {
    let n = d.variables.len();
    let v = r.below(n) as u8;
    if !d.drives(v) && d.equations.len() < 16 && r.one_in(3) {
        let e = driver(r, v);
        d.equations.push(e);
    }
    assignment(r, 13 - d.kind_for(v), v, n)
}

/// A node that names what is missing (11).
fn unnamed(r: &mut Random, d: &Draft) -> Vec<u8> {
    let n = d.variables.len();
    match r.below(3) {
        0 => vec![8, d.selectors().len() as u8, 0],
        k => assignment(r, 5 + k as u8, n as u8, n),
    }
}

/// 34, and often another with it: 12 of the same node or of a switch, or 11, 12 or 34 of a node before or behind it.
fn flaw_assignment(r: &mut Random, d: &mut Draft) {
    let leaves: Vec<usize> = (0..d.nodes.len()).filter(|k| matches!(d.nodes[*k].first(), Some(5..=9))).collect();
    if leaves.is_empty() {
        return;
    }
    let (k, other) = (r.of(&leaves), r.of(&leaves));
    d.nodes[k] = unfit_assignment(r, d);
    match r.below(8) {
        0 | 1 if other != k => d.nodes[other] = unnamed(r, d),
        2 => break_node(r, d, k),
        3 if holds_form(&d.nodes[other]) => break_node(r, d, other),
        4 | 5 => {
            break_switch(r, d);
        }
        6 if other != k => d.nodes[other] = unfit_assignment(r, d),
        _ => {}
    }
}

fn flaw_equation(r: &mut Random, d: &mut Draft) {
    if d.equations.is_empty() {
        let b = r.byte();
        d.equations.push(Equation::Bytes(vec![b % 4, 0, 0, 0, 0, 0]));
        return;
    }
    // 16 is the most
    if r.one_in(12) {
        let more = Equation::Case(0, vec![Mode { rates: Vec::new(), switches: Vec::new() }]);
        d.equations.resize(r.of(&[16, 17, 18]).max(d.equations.len()), more);
        return;
    }
    let n = d.variables.len() as u8;
    let k = r.below(d.equations.len());
    let which = r.below(8);
    let room = d.equations.len() < 16;
    let twin = d.equations[k].clone();
    if twin.bytes().is_empty() || matches!(&twin, Equation::Case(_, modes) if modes.is_empty()) {
        return;
    }
    match (&mut d.equations[k], which) {
        (_, 0) => {
            let mut b = twin.bytes();
            let at = r.below(b.len());
            b[at] = r.byte();
            d.equations[k] = Equation::Bytes(b);
        }
        (_, 1) => {
            let mut b = twin.bytes();
            if r.one_in(2) { b.push(0) } else { b.truncate(b.len() - 1) }
            d.equations[k] = Equation::Bytes(b);
        }
        // 8: an equation twice
        (_, 2 | 3) if room => d.equations.push(twin),
        (Equation::Steady(v, _), _) => *v = r.of(&[n, n, 255]),
        (Equation::Case(initial, modes), 4) => *initial = modes.len() as u8,
        (Equation::Case(_, modes), 5) => {
            let count = modes.len() as u8;
            let m = r.below(modes.len());
            if let Some(w) = modes[m].switches.first_mut() {
                w.0 = count;
            } else {
                modes[m].rates.push((n, 0));
            }
        }
        (Equation::Case(_, modes), 6) => {
            let m = r.below(modes.len());
            if let Some(x) = modes[m].rates.first().copied() {
                modes[m].rates.push(x);
            } else {
                modes[m].rates.extend([(0, 1), (0, 2)]);
            }
        }
        (Equation::Case(_, modes), _) => {
            if r.one_in(2) {
                modes.clear();
            } else {
                modes.resize(9, Mode { rates: Vec::new(), switches: Vec::new() });
            }
        }
        (Equation::Bytes(_), _) => {}
    }
}

fn flaw_node(r: &mut Random, d: &mut Draft) {
    let (n, selectors) = (d.variables.len(), d.selectors());
    let k = r.below(d.nodes.len());
    let node = &mut d.nodes[k];
    if node.len() < 2 {
        node.extend([9, 0]);
    }
    match r.below(10) {
        0 => node[0] = r.of(&[0, 10, 255]),
        1 => node.push(0),
        2 => node.clear(),
        3 => node.truncate(1),
        // lengths 200 and 201
        4 => {
            let most = r.of(&[199, 200]);
            *node = vec![5];
            node.extend(forms::truth_of_length(r, most, n));
        }
        5 if node[0] <= 2 => node[1] = node[1].wrapping_add(r.of(&[1, 255])),
        6 if node[0] <= 2 => node[1] = 0,
        7 | 8 if node[0] == 6 || node[0] == 7 => node[1] = r.of(&[n as u8, n as u8, 255]),
        7..=9 if node[0] == 8 => {
            let s = r.below(selectors.len() + 1);
            *node = vec![8, s as u8, selectors.get(s).copied().unwrap_or(0) as u8];
        }
        _ => node[0] = 1 + r.below(9) as u8,
    }
}

fn flaw_tree(r: &mut Random, d: &mut Draft) {
    let k = r.below(d.nodes.len());
    let inner: Vec<usize> = (0..d.nodes.len()).filter(|k| d.nodes[*k].len() == 2 && d.nodes[*k][0] <= 2).collect();
    match r.below(3) {
        0 if !inner.is_empty() => {
            let k = r.of(&inner);
            d.nodes[k][1] = d.nodes[k][1].wrapping_add(r.of(&[1, 255])).max(1);
        }
        1 if d.nodes.len() > 1 => {
            d.nodes.remove(k);
        }
        _ => {
            let twin = d.nodes[k].clone();
            d.nodes.insert(k, twin);
        }
    }
}

fn flaw_variable(r: &mut Random, d: &mut Draft) {
    let k = r.below(d.variables.len());
    let [low, high, initial] = &mut d.variables[k];
    match r.below(4) {
        0 => *initial = low.wrapping_sub(1),
        1 => *initial = high.wrapping_add(1),
        2 => std::mem::swap(low, high),
        _ => d.variables.resize(r.of(&[33, 33, 34]), [0, 1, 0]),
    }
}

/// One flaw, after which the lengths are still right.
pub fn flaw(r: &mut Random, d: &mut Draft) {
    if d.nodes.is_empty() {
        return;
    }
    match r.below(15) {
        0 | 1 => flaw_variable(r, d),
        2..=4 => flaw_equation(r, d),
        5 | 6 => flaw_node(r, d),
        7 => flaw_tree(r, d),
        8..=10 => break_form(r, d),
        11..=13 => flaw_assignment(r, d),
        _ => {
            let k = r.below(3);
            d.miscounted[k] = r.of(&[1, 255, 2, 254, 64]);
        }
    }
}
