//! Holds the product to two statements about branches, on inputs from a seed:
//! A. picks of two independent acting assignments may change places;
//! B. children of a PARALLEL may change places, and the runs correspond.
//! branches [SEED [SECONDS]]
//! Status 1 at a difference, and where the inputs of the whole run do not reach what they are to reach.
mod drawn;
mod orders;
mod reordered;
mod tally;
mod trees;

#[allow(dead_code)]
#[path = "../../differential/src/drafts.rs"]
mod drafts;
#[allow(dead_code)]
#[path = "../../differential/src/forms.rs"]
mod forms;
#[allow(dead_code)]
#[path = "../../differential/src/plain.rs"]
mod plain;
#[allow(dead_code)]
#[path = "../../differential/src/product.rs"]
mod product;
#[path = "../../differential/src/random.rs"]
mod random;

use random::Random;
use std::time::{Duration, Instant};
use tally::Tally;

fn main() {
    let mut words = std::env::args().skip(1);
    let seed = words.next().map_or(1, |w| w.parse().expect("a seed"));
    let seconds = words.next().map_or(60, |w| w.parse().expect("a number of seconds"));
    let since = Instant::now();
    let mut r = Random::new(seed);
    let mut t = Tally::default();
    while since.elapsed() < Duration::from_secs(seconds) {
        let statement = if r.one_in(2) { orders::input } else { reordered::input };
        if let Err(d) = statement(&mut r, &mut t) {
            println!("seed {seed}");
            d.print();
            std::process::exit(1);
        }
    }
    println!("seed {seed}, {seconds} s, 0 differences");
    t.print();
    std::process::exit(!t.unreached().is_empty() as i32);
}
