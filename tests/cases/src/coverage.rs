//! What the cases reach, printed, and what they must reach.
use crate::calls::{CALLS, FILE};
use crate::case::Case;
use crate::plain::{self, SITUATIONS, Situation};
use std::collections::BTreeMap;

/// The bench papers of document 01 that stand in names of cases.
const PAPERS: [&str; 11] = ["K1", "K2", "K3", "K4", "K5", "K6", "K7", "K8", "K9", "K10", "K11"];

fn row(seen: &BTreeMap<u8, usize>) -> String {
    seen.iter().map(|(n, times)| format!(" {n}:{times}")).collect()
}

/// Situations of RESET and REINITIAL that no schedule is in, by the call that reads one.
fn situations_missing(cases: &[Case]) -> Vec<String> {
    let read = cases.iter().filter(|c| c.call().name == "read");
    let seen: Vec<Situation> = read.flat_map(|c| plain::situations(&c.lent.strings[FILE], c.outcome.as_ref().err().copied())).collect();
    SITUATIONS.iter().filter(|s| !seen.contains(s)).map(|s| format!("no schedule with {} {}", s.0, s.1)).collect()
}

/// Prints what is seen of each call. Gives what is missing, and refusals that are not the call's.
pub fn missing(cases: &[Case]) -> Vec<String> {
    let mut wrong = Vec::new();
    for (k, call) in CALLS.iter().enumerate() {
        let (mut refusals, mut answers) = (BTreeMap::new(), BTreeMap::new());
        for c in cases.iter().filter(|c| c.which == k) {
            *refusals.entry(c.refusal()).or_default() += 1;
            c.records().iter().for_each(|r| *answers.entry(r[0]).or_default() += 1);
        }
        let accepted = refusals.remove(&0).unwrap_or(0);
        let refused: usize = refusals.values().sum();
        println!("{}: {accepted} accepted, {refused} refused:{}", call.name, row(&refusals));
        let own: Vec<u8> = call.refusals.iter().flat_map(|(a, b)| *a..=*b).collect();
        wrong.extend(own.iter().filter(|n| !refusals.contains_key(n)).map(|n| format!("{}: no case with {n}", call.name)));
        wrong.extend(refusals.keys().filter(|n| !own.contains(n)).map(|n| format!("{}: {n} is no refusal of this call", call.name)));
        if accepted == 0 {
            wrong.push(format!("{}: no accepted case", call.name));
        }
        if call.rooms.contains(&1) {
            println!("  answers:{}", row(&answers));
            let missing = (23..=31).chain(200..=204).filter(|n| !answers.contains_key(n));
            wrong.extend(missing.map(|n| format!("{}: no event answered {n}", call.name)));
        }
    }
    let named = |k: &&str| cases.iter().any(|c| c.name.split(|x: char| !x.is_alphanumeric()).any(|w| w == *k));
    wrong.extend(situations_missing(cases));
    wrong.extend(PAPERS.iter().filter(|k| !named(k)).map(|k| format!("no case of {k}")));
    wrong
}
