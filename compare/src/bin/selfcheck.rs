//! selfcheck [COUNT] [SEED]: holds the independent decisions against each other, without the proved
//! judge, on COUNT plain questions (1 million) with eight instants each, a tenth as many flights and a
//! hundredth as many sheets, and on document 01's examples.

use compare::check::{self, Tally, argument};
use compare::generate::{self, Random};
use compare::instant::{self, Known, case_at};
use compare::pilots;
use std::process::ExitCode;

fn main() -> ExitCode {
    let count = argument(1, 1_000_000);
    let seed = argument(2, 1);
    println!("selfcheck: {count} questions, seed {seed}");
    let mut tally = Tally::default();
    let number = check::examples(&mut tally);
    println!("{number} examples: M1 to M15, worked sheets, the codes by Table 1");
    let mut random = Random::new(seed);
    for i in 0..count {
        let q = generate::question(seed, i);
        tally.question(&q, &mut random);
        let known = Known::of(&q);
        tally.shown(&known);
        for at in instant::instants(&known, &mut random) {
            let _ = tally.instant(&known, &case_at(&q, at));
        }
    }
    for i in 0..count.div_ceil(10) {
        let _ = tally.flight(&pilots::flight(seed, i), &mut random);
    }
    for i in 0..count.div_ceil(100) {
        tally.sheet(&generate::sheet(seed, i));
    }
    ExitCode::from(tally.finish())
}
