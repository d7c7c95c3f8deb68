//! What the calls are lent: schedule files and tables, starts, events, seeds and counts, rooms, and the old contents of buffers.
use crate::drafts::{self, Draft};
use crate::plain;
use crate::random::Random;
use crate::tables;

/// One to three small changes.
pub fn damaged(r: &mut Random, mut f: Vec<u8>) -> Vec<u8> {
    for _ in 0..1 + r.below(3) {
        let n = f.len();
        match r.below(6) {
            0 if n > 0 => {
                let at = r.below(n);
                f.remove(at);
            }
            1 => {
                let at = r.below(n + 1);
                let b = r.byte();
                f.insert(at, b);
            }
            2 if n > 0 => {
                let k = r.below(n + 1);
                f.truncate(k);
            }
            3 if n > 0 => {
                let at = r.below(n);
                f[at] = f[at].wrapping_add(1);
            }
            4 if n > 0 => {
                let at = r.below(n);
                f[at] = f[at].wrapping_sub(1);
            }
            _ if n > 0 => {
                let at = r.below(n);
                f[at] = r.byte();
            }
            _ => {}
        }
    }
    f
}

fn senseless(r: &mut Random) -> Vec<u8> {
    let n = if r.one_in(40) { r.below(70_000) } else { r.below(80) };
    let mut f: Vec<u8> = (0..n).map(|_| if r.one_in(3) { r.below(4) as u8 } else { r.byte() }).collect();
    if n > 0 && !r.one_in(3) {
        f[0] = 1;
    }
    f
}

/// A schedule whose table has about 65,536 bytes: exactly that many, or up to six more or fewer.
fn near_65536(r: &mut Random) -> Draft {
    let (assignments, stops) = r.of(&[(9, 18), (9, 20), (8, 42), (8, 45), (7, 55)]);
    let mut d = drafts::wide(r, assignments, stops, 0);
    d.equations.truncate(15);
    d.part_assignments();
    let wanted = 65_530 + r.below(13);
    if let Ok(t) = plain::whole_table(&d.file()) {
        if t.len() + 60 <= wanted && wanted - t.len() < 32_000 {
            d.equations.push(drafts::padding(wanted - t.len()));
        }
    }
    d
}

/// Many locations: 1,023, 1,024, and more, with few nodes or with 64.
fn many_locations(r: &mut Random) -> Draft {
    let assignments = r.of(&[6, 9, 10, 10, 10, 11]);
    let before = r.below(3);
    let most = 64 - 2 - before - assignments;
    let stops = match r.below(4) {
        0 => most,
        1 => r.below(most + 1),
        _ => 0,
    };
    drafts::wide(r, assignments, stops, before)
}

/// A file of up to 65,535 bytes, or of a few more.
fn long(r: &mut Random) -> Draft {
    let mut d = drafts::sound(r);
    d.equations.truncate(13);
    d.part_assignments();
    let mut left = r.of(&[20_000usize, 60_000, 65_534, 65_535, 65_535, 65_536, 65_540]).saturating_sub(d.file().len());
    // one padding holds at most 8 times 255 switches
    while left >= 60 {
        let part = if left > 30_000 { 25_000 } else { left };
        d.equations.push(drafts::padding(part));
        left -= part;
    }
    d
}

fn draft(r: &mut Random) -> Draft {
    match r.below(500) {
        0 => near_65536(r),
        1 | 2 => many_locations(r),
        3 | 4 => long(r),
        _ => drafts::sound(r),
    }
}

/// A schedule file: sound; flawed in one part or several; with bytes of a section or of the whole changed; or senseless.
pub fn file(r: &mut Random) -> Vec<u8> {
    if r.one_in(40) {
        let f = senseless(r);
        return if r.one_in(2) { drafts::with_length(f) } else { f };
    }
    let mut d = draft(r);
    if r.one_in(2) {
        return d.file();
    }
    let mut sections = d.sections();
    match r.below(8) {
        0..=3 => {
            for _ in 0..r.of(&[1, 1, 1, 2, 3]) {
                drafts::flaw(r, &mut d);
            }
            sections = d.sections();
        }
        4 | 5 => {
            let k = r.below(3);
            let s = std::mem::take(&mut sections[k]);
            sections[k] = damaged(r, s);
        }
        6 => {
            let f = drafts::file_of(&sections);
            return damaged(r, f);
        }
        _ => {
            let f = drafts::file_of(&sections);
            let f = damaged(r, f);
            return drafts::with_length(f);
        }
    }
    drafts::file_of(&sections)
}

/// A table: the one that was compiled, or one made up; as it is, or damaged as a file is.
pub fn table(r: &mut Random, compiled: Option<&Vec<u8>>) -> Vec<u8> {
    if r.one_in(40) {
        let t = senseless(r);
        return if r.one_in(2) { tables::with_length(t) } else { t };
    }
    let mut d = match compiled {
        Some(t) if r.one_in(2) => {
            if r.one_in(2) {
                return t.clone();
            }
            tables::split(t)
        }
        _ => tables::made_up(r),
    };
    if r.one_in(3) {
        return tables::table_of(&d.sections());
    }
    let mut sections = d.sections();
    match r.below(8) {
        0..=3 => {
            for _ in 0..r.of(&[1, 1, 1, 2]) {
                tables::flaw(r, &mut d);
            }
            sections = d.sections();
        }
        4 | 5 => {
            let k = r.below(4);
            let s = std::mem::take(&mut sections[k]);
            sections[k] = damaged(r, s);
        }
        6 => {
            let t = tables::table_of(&sections);
            return damaged(r, t);
        }
        _ => {
            let t = tables::table_of(&sections);
            let t = damaged(r, t);
            return tables::with_length(t);
        }
    }
    tables::table_of(&sections)
}

/// A start: often the file's own, and often another that 20 lets pass.
pub fn start(r: &mut Random, initial: &[u8]) -> Vec<u8> {
    match r.below(12) {
        0 => damaged(r, initial.to_vec()),
        1..=3 if !initial.is_empty() => {
            let mut s = initial.to_vec();
            let at = r.below(s.len());
            s[at] = s[at].wrapping_add(r.below(3) as u8).wrapping_sub(1);
            s
        }
        _ => initial.to_vec(),
    }
}

/// An event for a run of which these nodes act.
fn event(r: &mut Random, acting: &[usize]) -> [u8; 3] {
    match r.below(40) {
        0..=18 if !acting.is_empty() => [1, r.of(acting) as u8, 0],
        0..=29 => [0, 0, 0],
        30..=34 => [2, r.below(3) as u8, r.below(3) as u8],
        35 => [2, r.below(17) as u8, r.byte() >> r.below(8)],
        36 | 37 => [1, r.byte() % 66, 0],
        38 => [r.byte() % 4, r.byte() % 2, r.byte() % 2],
        _ => [r.byte(), r.byte(), r.byte()],
    }
}

/// How many events a list has.
fn count(r: &mut Random) -> usize {
    match r.below(1000) {
        0 => 5_000 + r.below(10_000),
        1..=9 => 1_000 + r.below(1_000),
        10..=60 => 300,
        61..=120 => r.below(3),
        _ => 10 + r.below(30),
    }
}

/// Events, chosen with the run of this schedule or table in view where there is one; now and then a byte or two too many.
pub fn events(r: &mut Random, by_table: bool, program: &[u8], start: &[u8]) -> Vec<u8> {
    let n = count(r);
    // a switch that faults ends the run at the first check, so that its own event must come before
    let mut before_any_check = r.one_in(6);
    let mut choose = |acting: &[usize]| {
        if std::mem::take(&mut before_any_check) {
            return Some([2, r.below(2) as u8, r.below(2) as u8]);
        }
        // few events after the end of a run
        if acting.is_empty() && r.one_in(3) { None } else { Some(event(r, acting)) }
    };
    let rehearse = if by_table { plain::rehearse_table } else { plain::rehearse_rules };
    let mut l = match rehearse(program, start, n, &mut choose) {
        Some(l) => l,
        None => (0..n).flat_map(|_| event(r, &[])).collect(),
    };
    if r.one_in(25) {
        let more = 1 + r.below(2);
        l.extend(r.bytes(more));
    }
    l
}

/// A room around the one that is needed: just that, one byte less, more, or any.
pub fn room(r: &mut Random, needed: usize) -> usize {
    match r.below(12) {
        0 => needed.saturating_sub(1),
        1 => r.below(needed + 1),
        2 => 0,
        3..=5 => needed,
        6 => needed + 1,
        7 => 65_536.max(needed),
        _ => needed + r.below(100),
    }
}

/// The seed of practice events, often at a border.
pub fn seed(r: &mut Random) -> u32 {
    if r.one_in(3) { r.of(&[0, 1, 1 << 31, u32::MAX]) } else { r.word() as u32 }
}

/// How many practice events: few, about 10,000, or many more, some of which are few, or three times few, in 16, 32 or 64 bits.
pub fn practice_count(r: &mut Random) -> u64 {
    let few = r.below(40) as u64;
    match r.below(20) {
        0 | 1 => 0,
        2 => 9_990 + r.below(21) as u64,
        3 => r.of(&[10_000, 10_001]),
        4 | 5 => few + r.of(&[1 << 16, 1 << 32, 1 << 63]),
        6 | 7 => few + r.of(&[(1 << 32) / 3 + 1, u64::MAX / 3 + 1, u64::MAX / 3 * 2 + 1]),
        8 => u64::MAX - few,
        9 => r.word() >> r.below(64),
        10 => r.below(2_000) as u64,
        _ => few,
    }
}

/// About how many bytes are lent for so many practice events: three times the count, cut to fewer bits where that is too much.
pub fn practice_room(count: u64) -> usize {
    const MUCH: u64 = 40_000;
    let triple = count.wrapping_mul(3);
    let cut = [triple, triple as u32 as u64, triple as u16 as u64];
    cut.into_iter().find(|n| *n <= MUCH).unwrap_or(MUCH) as usize
}

/// What a buffer of this length holds before a call.
pub fn old(r: &mut Random, length: usize) -> Vec<u8> {
    match r.below(4) {
        0 => vec![0; length],
        1 => vec![0xFF; length],
        _ => r.bytes(length),
    }
}
