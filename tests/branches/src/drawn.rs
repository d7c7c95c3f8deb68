//! Schedules with many PARALLELs, starts for them, and events that are chosen with the run in view.
use crate::drafts::{self, Draft, Equation};
use crate::forms;
use crate::plain;
use crate::random::Random;
use crate::trees::{CONTINUE, IF, PARALLEL, STOP, WHILE, is_assignment};

fn constant(z: i32) -> Vec<u8> {
    [vec![0x01], z.to_be_bytes().to_vec()].concat()
}

fn small(r: &mut Random) -> Vec<u8> {
    constant(r.below(21) as i32 - 10)
}

/// A number of one variable at most, so that many pairs are independent; now and then any.
fn number(r: &mut Random, variables: usize) -> Vec<u8> {
    let v = vec![0x02, r.below(variables) as u8];
    match r.below(16) {
        0 => forms::number(r, variables, 40),
        1 => [vec![0x12], v, constant(r.of(&[1, -1]) << (26 + r.below(5)))].concat(),
        2 | 3 => v,
        4..=7 => small(r),
        _ => [vec![r.of(&[0x10, 0x11, 0x12])], v, small(r)].concat(),
    }
}

/// The truth of a WHILE or an IF: seldom a fault, so that runs get far.
fn tested(r: &mut Random, variables: usize) -> Vec<u8> {
    match r.below(10) {
        0 => forms::truth(r, variables, 40),
        1..=3 => vec![0x2F],
        _ => [vec![0x20 + r.below(4) as u8, 0x02, r.below(variables) as u8], small(r)].concat(),
    }
}

/// The truth of a CONTINUE: true, false, one that overflows, or as it comes.
fn waited(r: &mut Random, variables: usize) -> Vec<u8> {
    match r.below(10) {
        0 => vec![0x2F],
        1 => [vec![0x22, 0x14], constant(i32::MIN), constant(0)].concat(),
        2 => [vec![0x22, 0x11], constant(i32::MIN), constant(1), constant(0)].concat(),
        3 | 4 => forms::faulting_truth(r, variables),
        5 => tested(r, variables),
        _ => forms::rare_truth(r, variables),
    }
}

/// What a tree is made of.
struct Kit<'a> {
    variables: usize,
    selectors: &'a [usize],
    /// how many of eight leaves are CONTINUEs
    waits: usize,
}

/// Assignments are RESETs; `part_assignments` makes REINITIALs of those to driven variables.
fn leaf(r: &mut Random, kit: &Kit) -> Vec<u8> {
    if r.below(8) < kit.waits {
        return [vec![CONTINUE], waited(r, kit.variables)].concat();
    }
    match r.below(10) {
        0 => vec![STOP],
        1 | 2 if !kit.selectors.is_empty() => {
            let s = r.below(kit.selectors.len());
            vec![8, s as u8, r.below(kit.selectors[s]) as u8]
        }
        _ => [vec![6, r.below(kit.variables) as u8], number(r, kit.variables)].concat(),
    }
}

/// n as a sum of two to four numbers where it is large enough, each at least 1.
fn parts(r: &mut Random, n: usize) -> Vec<usize> {
    let mut l = vec![1; n.min(2 + r.below(3))];
    for _ in l.len()..n {
        let k = r.below(l.len());
        l[k] += 1;
    }
    l
}

/// A tree of exactly so many nodes, in preorder.
fn tree(r: &mut Random, n: usize, kit: &Kit, out: &mut Vec<Vec<u8>>) {
    if n == 1 {
        out.push(leaf(r, kit));
        return;
    }
    let kind = match r.below(8) {
        0 => WHILE,
        1 if n > 2 => IF,
        2 => 1,
        _ => PARALLEL,
    };
    let parts = match kind {
        WHILE => vec![n - 1],
        IF => {
            let k = 1 + r.below(n - 2);
            vec![k, n - 1 - k]
        }
        _ => parts(r, n - 1),
    };
    let payload = if matches!(kind, WHILE | IF) { tested(r, kit.variables) } else { vec![parts.len() as u8] };
    out.push([vec![kind], payload].concat());
    for k in parts {
        tree(r, k, kit, out);
    }
}

fn node_count(r: &mut Random) -> usize {
    match r.below(40) {
        0 => 64,
        1..=3 => 16 + r.below(30),
        _ => 3 + r.below(12),
    }
}

/// Ranges of which half are wide enough for a longer run.
fn variables(r: &mut Random, n: usize) -> Vec<[i32; 3]> {
    let mut l = drafts::variables(r, n);
    for v in &mut l {
        if r.one_in(2) {
            *v = [-100_000, 100_000, r.below(21) as i32 - 10];
        }
    }
    l
}

fn draft(r: &mut Random, equations: Vec<Equation>, n: usize, waits: usize) -> Draft {
    let mut d = Draft { variables: variables(r, n), equations, nodes: Vec::new(), miscounted: [0; 3] };
    let count = node_count(r);
    tree(r, count, &Kit { variables: n, selectors: &d.selectors(), waits }, &mut d.nodes);
    d.part_assignments();
    d
}

/// A schedule whose equations are all of kind 1, most leaves of which assign.
pub fn without_case(r: &mut Random) -> Draft {
    let n = 2 + r.below(7);
    let driven: Vec<u8> = (0..n as u8).filter(|_| r.one_in(4)).collect();
    let equations = driven.into_iter().map(|v| Equation::Steady(v, r.below(7) as i32 - 3)).collect();
    let waits = r.of(&[0, 1, 2]);
    draft(r, equations, n, waits)
}

/// A flaw in one node that leaves the tree as it is: 11, 34 or 12.
fn flaw(r: &mut Random, d: &mut Draft) {
    let holders: Vec<usize> = (0..d.nodes.len()).filter(|k| is_assignment(&d.nodes[*k]) || d.nodes[*k][0] == CONTINUE).collect();
    if holders.is_empty() {
        return;
    }
    let node = &mut d.nodes[r.of(&holders)];
    match r.below(3) {
        0 if node[0] != CONTINUE => node[1] = d.variables.len() as u8,
        1 if node[0] != CONTINUE => node[0] = 13 - node[0],
        _ => node.push(0x2F),
    }
}

/// About 1,024 locations: 1,023 of ten assignments, and one for each before them.
fn border(r: &mut Random) -> Draft {
    let (stops, before) = (r.below(4), r.below(4));
    drafts::wide(r, 10, stops, before)
}

/// Any schedule: CASEs, many CONTINUEs, no other leaves than CONTINUEs, about 1,024 locations, now and then a flaw.
pub fn any(r: &mut Random) -> Draft {
    let n = 1 + r.below(5);
    let steep = r.one_in(6);
    let equations = drafts::equations(r, n, steep);
    let mut d = match r.below(400) {
        0 => border(r),
        1..=80 => drafts::sound(r),
        81..=160 => draft(r, equations, n, 8),
        161..=280 => draft(r, equations, n, 5),
        _ => draft(r, equations, n, 2),
    };
    if r.one_in(25) {
        flaw(r, &mut d);
    }
    d
}

/// Values in their ranges and modes that are there: often the file's own.
pub fn start(r: &mut Random, d: &Draft) -> Vec<u8> {
    let mut l = Vec::new();
    for [low, high, initial] in &d.variables {
        let near = *initial as i64 + r.below(21) as i64 - 10;
        let z = if r.one_in(3) { near.clamp(*low as i64, *high as i64) as i32 } else { *initial };
        l.extend(z.to_be_bytes());
    }
    for e in &d.equations {
        if let Equation::Case(initial, modes) = e {
            l.push(if r.one_in(3) { r.below(modes.len()) as u8 } else { *initial });
        }
    }
    l
}

/// An event for a run of which these nodes act. A STOP would end it, and is seldom picked.
fn event(r: &mut Random, nodes: &[Vec<u8>], acting: &[usize]) -> [u8; 3] {
    match r.below(24) {
        0..=12 if !acting.is_empty() => {
            let (n, instead) = (r.of(acting), r.of(acting));
            [1, if nodes[n][0] == STOP { instead } else { n } as u8, 0]
        }
        0..=18 => [0, 0, 0],
        19 | 20 => [2, r.below(3) as u8, r.below(3) as u8],
        21 => [1, r.byte() % 70, 0],
        22 => [r.byte() % 4, r.byte() % 2, r.byte() % 2],
        _ => [r.byte(), r.byte(), r.byte()],
    }
}

/// These events and so many more, few of them after the end of the run.
pub fn extended(r: &mut Random, d: &Draft, start: &[u8], list: &[u8], more: usize) -> Vec<u8> {
    let mut given = list.chunks(3);
    let mut choose = |acting: &[usize]| match given.next() {
        Some(e) => Some([e[0], e[1], e[2]]),
        None if acting.is_empty() && r.one_in(3) => None,
        None => Some(event(r, &d.nodes, acting)),
    };
    let rehearsed = plain::rehearse_rules(&d.file(), start, list.len() / 3 + more, &mut choose);
    rehearsed.unwrap_or_else(|| (0..more).flat_map(|_| event(r, &d.nodes, &[])).collect())
}

/// Events up to a place where two assignments act, and the nodes that act behind the last one.
pub fn front(r: &mut Random, d: &Draft, start: &[u8]) -> (Vec<u8>, Vec<usize>) {
    let most = r.below(14);
    let (mut made, mut last) = (0, Vec::new());
    let mut choose = |acting: &[usize]| {
        last = acting.to_vec();
        let enough = acting.iter().filter(|n| is_assignment(&d.nodes[**n])).count() >= 2;
        made += 1;
        if made > most || enough && r.one_in(4) { None } else { Some(event(r, &d.nodes, acting)) }
    };
    let list = plain::rehearse_rules(&d.file(), start, most + 1, &mut choose).expect("a sound schedule");
    (list, last)
}

/// The nodes that act before the first event.
pub fn first_acting(d: &Draft, start: &[u8]) -> Option<Vec<usize>> {
    let mut first = Vec::new();
    let mut choose = |acting: &[usize]| {
        first = acting.to_vec();
        None
    };
    plain::rehearse_rules(&d.file(), start, 1, &mut choose)?;
    Some(first)
}
