//! What is measured: schedules as bytes, and events that keep a run going.
use crate::fast;
use crate::random::Random;

/// A schedule by its three sections, nodes without their lengths.
struct Draft {
    variables: Vec<[i32; 3]>,
    equations: Vec<Vec<u8>>,
    nodes: Vec<Vec<u8>>,
}

impl Draft {
    fn bytes(&self) -> Vec<u8> {
        let mut vs = vec![self.variables.len() as u8];
        vs.extend(self.variables.iter().flatten().flat_map(|z| z.to_be_bytes()));
        let mut es = vec![self.equations.len() as u8];
        for e in &self.equations {
            es.extend((e.len() as u16).to_be_bytes());
            es.extend(e);
        }
        let mut ns = vec![self.nodes.len() as u8];
        for n in &self.nodes {
            ns.push(n.len() as u8);
            ns.extend(n);
        }
        let mut f = vec![1, 0, 0];
        for s in [vs, es, ns] {
            f.extend((s.len() as u16).to_be_bytes());
            f.extend(s);
        }
        let n = f.len() as u16;
        f[1..3].copy_from_slice(&n.to_be_bytes());
        f
    }

    /// The start that the file itself gives.
    fn start(&self) -> Vec<u8> {
        let mut s: Vec<u8> = self.variables.iter().flat_map(|v| v[2].to_be_bytes()).collect();
        s.extend(self.equations.iter().filter(|e| e[0] == 2).map(|e| e[1]));
        s
    }

    /// The sections of a file that is known to be sound.
    fn of(f: &[u8]) -> Draft {
        let nat2 = |s: &[u8], p: usize| s[p] as usize * 256 + s[p + 1] as usize;
        let mut p = 3;
        let mut section = || {
            let n = nat2(f, p);
            p += 2 + n;
            &f[p - n..p]
        };
        let (vs, es, ns) = (section(), section(), section());
        let int = |s: &[u8], p: usize| i32::from_be_bytes(s[p..p + 4].try_into().unwrap());
        let variables = vs[1..].chunks(12).map(|c| [int(c, 0), int(c, 4), int(c, 8)]).collect();
        let mut equations = Vec::new();
        let mut p = 1;
        while p < es.len() {
            let n = nat2(es, p);
            equations.push(es[p + 2..p + 2 + n].to_vec());
            p += 2 + n;
        }
        let mut nodes = Vec::new();
        let mut p = 1;
        while p < ns.len() {
            let n = ns[p] as usize;
            nodes.push(ns[p + 1..p + 1 + n].to_vec());
            p += 1 + n;
        }
        Draft { variables, equations, nodes }
    }

    /// The schedule over and over: a WHILE true, whose body is the schedule and then the assignments.
    fn over_and_over(mut self, assignments: &[Vec<u8>]) -> Draft {
        let mut nodes = vec![vec![3, 0x2F], vec![1, 1 + assignments.len() as u8]];
        nodes.append(&mut self.nodes);
        nodes.extend_from_slice(assignments);
        Draft { nodes, ..self }
    }
}

fn constant(z: i32) -> Vec<u8> {
    let mut s = vec![0x01];
    s.extend(z.to_be_bytes());
    s
}

/// A form of two operands.
fn form(code: u8, a: &[u8], b: &[u8]) -> Vec<u8> {
    [&[code], a, b].concat()
}

fn variable(v: u8) -> Vec<u8> {
    vec![0x02, v]
}

fn at_least(v: u8, z: i32) -> Vec<u8> {
    form(0x20, &constant(z), &variable(v))
}

fn node(kind: u8, payload: &[u8]) -> Vec<u8> {
    [&[kind], payload].concat()
}

/// Of a variable that no equation drives.
fn reset(v: u8, number: &[u8]) -> Vec<u8> {
    [&[6, v], number].concat()
}

/// Of a driven variable.
fn reinitial(v: u8, number: &[u8]) -> Vec<u8> {
    [&[7, v], number].concat()
}

fn level(high: i32) -> [i32; 3] {
    [0, high, 0]
}

fn plain_plant(nodes: Vec<Vec<u8>>) -> Draft {
    Draft { variables: vec![level(10)], equations: vec![], nodes }
}

/// K8's largest: a RESET before PARALLEL of ten RESETs, 1,024 locations.
pub fn ten_resets() -> Vec<u8> {
    let one = reset(0, &constant(1));
    let mut nodes = vec![vec![1, 2], one.clone(), vec![2, 10]];
    nodes.extend(vec![one; 10]);
    plain_plant(nodes).bytes()
}

/// PARALLEL of ten RESETs and 53 STOPs: 298,265 bytes.
pub fn widest() -> Vec<u8> {
    let mut nodes = vec![vec![2, 63]];
    nodes.extend(vec![reset(0, &constant(1)); 10]);
    nodes.extend(vec![vec![9]; 53]);
    plain_plant(nodes).bytes()
}

/// PARALLEL of 63 RESETs: 64 nodes, 2^63 - 1 locations, refused with 13.
pub fn too_many() -> Vec<u8> {
    let mut nodes = vec![vec![2, 63]];
    nodes.extend(vec![reset(0, &constant(1)); 63]);
    plain_plant(nodes).bytes()
}

/// Nests of all 64 nodes: of SEQUENCEs, PARALLELs, WHILEs and IFs, with truths and a number of depth 16.
pub fn deep() -> Vec<Vec<u8>> {
    let truth = [vec![0x2A; 15], vec![0x2F]].concat();
    let last = reset(0, &[vec![0x14; 15], constant(0)].concat());
    let nest = |kind: u8| {
        let mut nodes = match kind {
            1 | 2 => vec![vec![kind, 1]; 63],
            3 => vec![node(3, &truth); 63],
            _ => [vec![vec![1, 1]], vec![node(4, &truth); 31]].concat(),
        };
        nodes.resize(64, last.clone());
        plain_plant(nodes).bytes()
    };
    (1..5).map(nest).collect()
}

/// Each node picked, over and over.
pub fn picks() -> Vec<u8> {
    (0..640).flat_map(|i| [1, (i % 64) as u8, 0]).collect()
}

/// A branch of eight nodes that moves among five places: WHILE over SEQUENCE of CONTINUE, IF and assignments.
fn branch(v: u8, driven: bool) -> Vec<Vec<u8>> {
    let assign = if driven { reinitial } else { reset };
    vec![
        node(3, &form(0x21, &variable(v), &constant(90))),
        vec![1, 3],
        node(5, &at_least(v, 40)),
        node(4, &form(0x21, &variable(v), &constant(60))),
        assign(v, &form(0x10, &variable(v), &constant(5))),
        assign(v, &constant(0)),
        vec![8, v % 2, 1],
    ]
}

/// 64 nodes of every kind but STOP's first: a SEQUENCE of three PARALLELs of three branches each, and a STOP.
pub fn mixed() -> Vec<u8> {
    let variables = vec![level(100); 4];
    let case = |v: u8| {
        let mut e = vec![2, 0, 2, 0, 0, 1, v];
        e.extend(3i32.to_be_bytes());
        e.push(0);
        e
    };
    let mut nodes = vec![vec![1, 4]];
    for first in 0..3u8 {
        let branches = if first == 2 { 2 } else { 3 };
        nodes.push(vec![2, branches]);
        for b in 0..branches {
            let v = (first + b) % 4;
            nodes.extend(branch(v, v < 2));
        }
    }
    nodes.push(vec![1, 3]);
    nodes.push(reinitial(0, &constant(1)));
    nodes.push(node(5, &at_least(1, 10)));
    nodes.push(vec![9]);
    Draft { variables, equations: vec![case(0), case(1)], nodes }.bytes()
}

/// Eight CONTINUEs that stay false beside a loop of three places. Sixteen CASEs, each with a level of its own: it rises in one mode
/// and falls in the other; each mode has four switches, of which the first leads to the other mode.
fn wide() -> Draft {
    let variables = vec![[-1_000, 1_000, 20]; 16];
    let mut equations = Vec::new();
    for v in 0..16u8 {
        let mut e = vec![2, 0, 2];
        for m in 0..2u8 {
            let rate = 1 + v as i32 % 3;
            e.extend([1, v]);
            e.extend((if m == 0 { rate } else { -rate }).to_be_bytes());
            let turn = if m == 0 { at_least(v, 100 + v as i32) } else { form(0x20, &variable(v), &constant(5)) };
            e.push(4);
            for (k, truth) in [turn, at_least(v, 900), at_least((v + 5) % 16, 900), at_least((v + 9) % 16, 900)].iter().enumerate() {
                e.extend([1 + truth.len() as u8, if k == 0 { 1 - m } else { m }]);
                e.extend(truth);
            }
        }
        equations.push(e);
    }
    let mut nodes = vec![vec![2, 9]];
    for v in 1..9u8 {
        nodes.push(node(5, &form(0x28, &at_least(v, 900), &form(0x21, &variable(v), &variable(v + 1)))));
    }
    nodes.push(node(3, &[0x2F]));
    nodes.push(vec![1, 2]);
    nodes.push(node(5, &at_least(3, 60)));
    nodes.push(reinitial(3, &constant(20)));
    Draft { variables, equations, nodes }
}

pub const EVENTS: usize = 10_000;

/// A schedule, its start and events for it.
pub struct Runs {
    pub file: Vec<u8>,
    pub start: Vec<u8>,
    pub events: Vec<u8>,
}

/// Random events, of which those that end the run are passed over; about one in nine is turned away.
fn lively(d: &Draft, seed: u64) -> Runs {
    let (file, start) = (d.bytes(), d.start());
    let mut r = Random::new(seed);
    let mut s = Random::new(seed + 1);
    let nodes = d.nodes.len();
    let selectors = d.equations.iter().filter(|e| e[0] == 2).count();
    let propose = || match r.below(8) {
        0..=3 => [0, 0, 0],
        4..=6 => [1, r.below(nodes) as u8, 0],
        _ => [2, r.below(selectors + 1) as u8, r.below(4) as u8],
    };
    let (mut taken, mut away) = (0, 0);
    let keep = |answer: u8| match answer {
        200 => {
            taken += 1;
            true
        }
        23..=31 if 8 * away < taken && s.below(4) == 0 => {
            away += 1;
            true
        }
        _ => false,
    };
    let events = fast::events(&file, &start, EVENTS, propose, keep);
    Runs { file, start, events }
}

/// The examples, each over and over, with its variables put back where it would end.
pub fn filling() -> Runs {
    let again = [reset(1, &constant(0))];
    lively(&Draft::of(include_bytes!("../../../examples/filling.schedule")).over_and_over(&again), 11)
}

pub fn vessels() -> Runs {
    let again = [reinitial(0, &constant(0)), reinitial(1, &constant(0))];
    lively(&Draft::of(include_bytes!("../../../examples/vessels.schedule")).over_and_over(&again), 12)
}

pub fn batch() -> Runs {
    let again = [reinitial(0, &constant(20))];
    lively(&Draft::of(include_bytes!("../../../examples/batch.schedule")).over_and_over(&again), 13)
}

pub fn broad() -> Runs {
    lively(&wide(), 14)
}

/// A WHILE true and a RESET in it, picked in turn, with so many SEQUENCEs and PARALLELs of one child between them.
pub fn picked(between: u8) -> Runs {
    let mut nodes = vec![node(3, &[0x2F])];
    nodes.extend((0..between).map(|i| vec![1 + i % 2, 1]));
    nodes.push(reset(0, &constant(1)));
    let d = plain_plant(nodes);
    let events = (0..EVENTS).flat_map(|i| [1, if i % 2 == 0 { 0 } else { between + 1 }, 0]).collect();
    Runs { file: d.bytes(), start: d.start(), events }
}

/// An example as it is, with events of any kind.
pub fn example(file: &[u8], seed: u64, count: usize) -> Runs {
    let d = Draft::of(file);
    let mut r = Random::new(seed);
    let mut events = Vec::new();
    for _ in 0..count {
        match r.below(16) {
            0..=7 => events.extend([0, 0, 0]),
            8..=13 => events.extend([1, r.below(d.nodes.len()) as u8, 0]),
            14 => events.extend([2, r.below(3) as u8, r.below(3) as u8]),
            _ => events.extend([r.below(4) as u8, r.below(3) as u8, r.below(3) as u8]),
        }
    }
    Runs { file: d.bytes(), start: d.start(), events }
}

pub const EXAMPLES: [&[u8]; 4] = [
    include_bytes!("../../../examples/k1.schedule"),
    include_bytes!("../../../examples/filling.schedule"),
    include_bytes!("../../../examples/vessels.schedule"),
    include_bytes!("../../../examples/batch.schedule"),
];
