//! Trees as nodes in preorder: where subtrees end, what stands above a node, and the children of PARALLELs in another order.
use crate::random::Random;

pub const PARALLEL: u8 = 2;
pub const WHILE: u8 = 3;
pub const IF: u8 = 4;
pub const CONTINUE: u8 = 5;
pub const STOP: u8 = 9;

pub fn is_assignment(node: &[u8]) -> bool {
    matches!(node[0], 6 | 7)
}

/// Of a node that 9 lets pass; all functions here are for nodes that make one tree.
fn child_count(node: &[u8]) -> usize {
    match node[0] {
        1 | PARALLEL => node[1] as usize,
        WHILE => 1,
        IF => 2,
        _ => 0,
    }
}

/// The number behind the last node of the subtree of n.
pub fn end(nodes: &[Vec<u8>], n: usize) -> usize {
    (0..child_count(&nodes[n])).fold(n + 1, |at, _| end(nodes, at))
}

fn children(nodes: &[Vec<u8>], n: usize) -> Vec<usize> {
    let mut l = vec![n + 1; child_count(&nodes[n])];
    for k in 1..l.len() {
        l[k] = end(nodes, l[k - 1]);
    }
    l
}

/// The nodes in whose subtrees n stands, n among them, from the root down.
pub fn path(nodes: &[Vec<u8>], n: usize) -> Vec<usize> {
    (0..=n).filter(|k| end(nodes, *k) > n).collect()
}

/// The kinds of the nodes above n.
pub fn above(nodes: &[Vec<u8>], n: usize) -> Vec<u8> {
    path(nodes, n).into_iter().filter(|k| *k != n).map(|k| nodes[k][0]).collect()
}

/// The lowest node above both.
pub fn meeting(nodes: &[Vec<u8>], a: usize, b: usize) -> usize {
    let (p, q) = (path(nodes, a), path(nodes, b));
    p.into_iter().filter(|k| q.contains(k)).max().unwrap()
}

/// The same nodes with children of PARALLELs in another order.
pub struct Reordered {
    /// The old numbers in the new preorder.
    pub order: Vec<usize>,
    /// The PARALLELs, by their old numbers, whose children stand in another order.
    pub changed: Vec<usize>,
}

impl Reordered {
    /// The new number of each node.
    pub fn numbers(&self) -> Vec<usize> {
        let mut l = vec![0; self.order.len()];
        for (new, old) in self.order.iter().enumerate() {
            l[*old] = new;
        }
        l
    }
}

fn shuffle(r: &mut Random, l: &mut [usize]) {
    for k in (1..l.len()).rev() {
        l.swap(k, r.below(k + 1));
    }
}

fn reorder_into(r: &mut Random, nodes: &[Vec<u8>], n: usize, out: &mut Reordered) {
    out.order.push(n);
    let listed = children(nodes, n);
    let mut l = listed.clone();
    if nodes[n][0] == PARALLEL && !r.one_in(3) {
        shuffle(r, &mut l);
    }
    if l != listed {
        out.changed.push(n);
    }
    for c in l {
        reorder_into(r, nodes, c, out);
    }
}

/// None where chance leaves every order as it was.
pub fn reordered(r: &mut Random, nodes: &[Vec<u8>]) -> Option<Reordered> {
    let mut out = Reordered { order: Vec::new(), changed: Vec::new() };
    reorder_into(r, nodes, 0, &mut out);
    (!out.changed.is_empty()).then_some(out)
}
