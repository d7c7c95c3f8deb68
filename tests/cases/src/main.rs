//! Writes the stored input and output of crates/cases_test, compares them with the stored ones, or shows cases; README.md says how.
//! cases [--check | --show NAME] < the lines of cases.py
mod calls;
mod case;
mod coverage;
mod random_tests;
mod test;

#[allow(dead_code)]
#[path = "../../differential/src/drafts.rs"]
mod drafts;
#[path = "../../differential/src/forms.rs"]
mod forms;
#[allow(dead_code)]
#[path = "../../differential/src/inputs.rs"]
mod inputs;
#[allow(dead_code)]
#[path = "../../differential/src/plain.rs"]
mod plain;
#[path = "../../differential/src/random.rs"]
mod random;
#[path = "../../differential/src/tables.rs"]
mod tables;

use case::Case;
use std::process::ExitCode;
use test::Test;

const RANDOM_TESTS: u64 = 300;
const INPUT: &str = "crates/cases_test/stdin";
const OUTPUT: &str = "crates/cases_test/stdout";

/// Where stored bytes are not these parts, of which each but the last of the output is a case's.
fn difference(path: &str, cases: &[Case], parts: &[Vec<u8>]) -> Option<String> {
    let stored = std::fs::read(path).unwrap_or_default();
    let mut at = 0;
    for (k, part) in parts.iter().enumerate() {
        if !stored[at..].starts_with(part) {
            let place = cases.get(k).map_or("the last line".to_string(), |c| format!("{}: {}", c.name, c.call().name));
            return Some(format!("{path} differs: {place}"));
        }
        at += part.len();
    }
    (at < stored.len()).then(|| format!("{path} differs: more stands behind the last case"))
}

/// The input and the output, case by case.
fn stored(cases: &[Case]) -> [(&'static str, Vec<Vec<u8>>); 2] {
    let mut before = Default::default();
    let input = cases.iter().map(|c| c.bytes(&mut before)).collect();
    let last = format!("{} cases, 0 different\n", cases.len());
    let output = cases.iter().map(Case::line).chain([last]).map(String::into_bytes).collect();
    [(INPUT, input), (OUTPUT, output)]
}

fn show(cases: &[Case], name: &str) -> ExitCode {
    let named: Vec<&Case> = cases.iter().filter(|c| c.name == name).collect();
    named.iter().for_each(|c| c.show());
    if named.is_empty() {
        println!("no case has this name: {name}");
    }
    ExitCode::from(named.is_empty() as u8)
}

fn main() -> ExitCode {
    let words: Vec<String> = std::env::args().skip(1).collect();
    let lines = std::io::read_to_string(std::io::stdin()).expect("the lines of cases.py");
    let tests: Vec<Test> = lines.lines().map(Test::by_hand).chain((1..=RANDOM_TESTS).map(random_tests::test)).collect();
    let mut cases = Vec::new();
    let mut wrong = Vec::new();
    for (k, t) in tests.iter().enumerate() {
        let l = t.cases();
        wrong.extend(t.complaints(&l));
        wrong.extend(tests[..k].iter().filter(|x| x.name == t.name).map(|x| format!("{}: two tests have this name", x.name)));
        cases.extend(l);
    }
    let check = match &words.iter().map(String::as_str).collect::<Vec<_>>()[..] {
        ["--show", name] => return show(&cases, name),
        ["--check"] => true,
        [] => false,
        _ => {
            println!("tests/cases/run [--check | --show NAME]");
            return ExitCode::from(2);
        }
    };
    wrong.extend(coverage::missing(&cases));
    for (path, parts) in stored(&cases) {
        println!("{path}: {} cases, {} bytes", cases.len(), parts.iter().map(Vec::len).sum::<usize>());
        if check {
            wrong.extend(difference(path, &cases, &parts));
        } else if wrong.is_empty() {
            std::fs::write(path, parts.concat()).expect(path);
        }
    }
    wrong.iter().for_each(|s| println!("{s}"));
    ExitCode::from(!wrong.is_empty() as u8)
}
