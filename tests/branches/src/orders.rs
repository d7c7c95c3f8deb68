//! A. Two acting assignments, neither's variable in the other's statement, picked in one order and in the other.
use crate::drafts::Draft;
use crate::drawn;
use crate::product::{self, Given};
use crate::random::Random;
use crate::tally::{Difference, Tally, ran, rooms};
use crate::trees::{IF, PARALLEL, STOP, WHILE, above, is_assignment, meeting, path};

/// The variable of an assignment and those of its number.
fn statement(node: &[u8]) -> Vec<u8> {
    let mut l = vec![node[1]];
    let mut at = 2;
    while at < node.len() {
        at += match node[at] {
            0x01 => 5,
            0x02 => {
                l.push(node[at + 1]);
                2
            }
            _ => 1,
        };
    }
    l
}

fn independent(a: &[u8], b: &[u8]) -> bool {
    !statement(b).contains(&a[1]) && !statement(a).contains(&b[1])
}

/// Two of these nodes that assign, independently or not.
fn pair(r: &mut Random, nodes: &[Vec<u8>], acting: &[usize], free: bool) -> Option<[usize; 2]> {
    let l: Vec<usize> = acting.iter().copied().filter(|n| is_assignment(&nodes[*n])).collect();
    let mut pairs = Vec::new();
    for a in &l {
        pairs.extend(l.iter().filter(|b| a != *b && independent(&nodes[*a], &nodes[**b]) == free).map(|b| [*a, *b]));
    }
    (!pairs.is_empty()).then(|| r.of(&pairs))
}

/// A schedule, and two lists of events that differ in the order of two picks.
struct Tried {
    draft: Draft,
    start: Vec<u8>,
    acting: Vec<usize>,
    pair: [usize; 2],
    /// how many events stand before the two picks
    at: usize,
    events: [Vec<u8>; 2],
}

/// None where no such pair acts.
fn tried(r: &mut Random, free: bool) -> Option<Tried> {
    let draft = drawn::without_case(r);
    let start = drawn::start(r, &draft);
    let (front, acting) = drawn::front(r, &draft, &start);
    let pair = pair(r, &draft.nodes, &acting, free)?;
    let picks = pair.map(|n| [1, n as u8, 0]);
    let more = r.below(8);
    let one = drawn::extended(r, &draft, &start, &[&front, &picks[0][..], &picks[1]].concat(), more);
    let other = [&front, &picks[1][..], &picks[0], &one[front.len() + 6..]].concat();
    Some(Tried { draft, start, acting, pair, at: front.len() / 3, events: [one, other] })
}

impl Tried {
    fn record<'a>(&self, x: &'a Given, k: usize) -> &'a [u8] {
        let size = 9 + self.start.len();
        &x.buffer[k * size..(k + 1) * size]
    }

    fn answer(&self, x: &Given, k: usize) -> u8 {
        self.record(x, k)[0]
    }

    fn both_taken(&self, x: &Given) -> bool {
        [self.at, self.at + 1].iter().all(|k| (200..=202).contains(&self.answer(x, *k)))
    }

    /// Both taken in one order exactly when in the other, and then the same from the second on; the same before in any case.
    fn corresponds(&self, [x, y]: &[Given; 2]) -> bool {
        let count = self.events[0].len() / 3;
        let same = |k: usize| self.record(x, k) == self.record(y, k);
        let taken = self.both_taken(x);
        taken == self.both_taken(y) && (0..self.at).all(same) && (!taken || x.numbers == y.numbers && (self.at + 1..count).all(same))
    }

    fn difference(&self, what: &'static str, program: &[u8], given: [Given; 2]) -> Box<Difference> {
        let [one, other] = self.events.clone();
        let lent = vec![
            ("file", self.draft.file()),
            ("what is run", program.to_vec()),
            ("start", self.start.clone()),
            ("events", one),
            ("events in the other order", other),
        ];
        Box::new(Difference { what, lent, given })
    }

    fn saw(&self, t: &mut Tally, x: &Given) {
        let nodes = &self.draft.nodes;
        let place = meeting(nodes, self.pair[0], self.pair[1]);
        let over = above(nodes, place);
        let between = self.pair.iter().flat_map(|n| path(nodes, *n)).filter(|k| *k > place);
        let kinds: Vec<u8> = between.map(|k| nodes[k][0]).collect();
        t.saw("in a PARALLEL in a PARALLEL", over.contains(&PARALLEL));
        t.saw("in a PARALLEL in a WHILE", over.contains(&WHILE));
        t.saw("in a PARALLEL in an IF", over.contains(&IF));
        t.saw("in a WHILE below their PARALLEL", kinds.contains(&WHILE));
        t.saw("in an IF below their PARALLEL", kinds.contains(&IF));
        t.saw("a STOP acts beside", self.acting.iter().any(|n| nodes[*n][0] == STOP));
        t.saw("a REINITIAL", self.pair.iter().any(|n| nodes[*n][0] == 7));
        let (first, second) = (self.answer(x, self.at), self.answer(x, self.at + 1));
        t.saw("201 at the second pick", second == 201);
        t.saw("a fault at the first pick", first > 202);
        t.saw("a fault at the second pick", second > 202);
        let events = self.events[0].chunks(3).enumerate().skip(self.at + 2);
        let after: Vec<(&[u8], u8)> = events.map(|(k, e)| (e, self.answer(x, k))).collect();
        t.saw("a tick taken after both", after.contains(&(&[0, 0, 0], 200)));
        t.saw("202 after both", after.iter().any(|(_, answer)| *answer == 202));
    }

    /// The file, and its table where it has one.
    fn programs(&self, r: &mut Random) -> Vec<Vec<u8>> {
        let file = self.draft.file();
        for room in rooms(r) {
            let mut c = product::compile(r, &file, &vec![0; room]);
            if c.refusal == 0 {
                c.buffer.truncate(c.numbers[0] as usize);
                return vec![file, c.buffer];
            }
            if c.refusal != 14 {
                break;
            }
        }
        vec![file]
    }
}

/// A pair that meets: what differs is only counted, and shows that differences are found.
fn control(r: &mut Random, t: &mut Tally) {
    let Some(x) = tried(r, false) else { return };
    t.meeting += 1;
    let mut differed = false;
    for (k, program) in x.programs(r).iter().enumerate() {
        let given = [0, 1].map(|o: usize| ran(r, k == 1, program, &x.start, &x.events[o]));
        let taken = given.each_ref().map(|g| x.both_taken(g));
        t.saw("a pair that meets taken in one order alone", taken[0] != taken[1]);
        t.saw("a pair that meets taken in both", taken[0] && taken[1]);
        differed |= !x.corresponds(&given);
    }
    t.meeting_differed += differed as u64;
}

pub fn input(r: &mut Random, t: &mut Tally) -> Result<(), Box<Difference>> {
    if r.one_in(4) {
        control(r, t);
        return Ok(());
    }
    let Some(x) = tried(r, true) else { return Ok(()) };
    for (k, program) in x.programs(r).iter().enumerate() {
        let given = [0, 1].map(|o: usize| ran(r, k == 1, program, &x.start, &x.events[o]));
        if given.iter().any(|g| g.refusal != 0) {
            return Err(x.difference("between a sound schedule and a run that is refused", program, given));
        }
        if !x.corresponds(&given) {
            return Err(x.difference("between the orders of two independent picks", program, given));
        }
        if k == 1 {
            t.pairs_by_table += 1;
        } else {
            x.saw(t, &given[0]);
            *(if x.both_taken(&given[0]) { &mut t.both_taken } else { &mut t.not_both_taken }) += 1;
        }
    }
    Ok(())
}
