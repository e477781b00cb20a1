//! Feeds the proved library and the Rust original the same inputs, and stops at the first difference.
mod alike;
mod bills;
mod case;
mod framing;
mod inputs;
mod lent;
mod lines;
mod ranges;
mod readings;
mod sessions;
mod windows;

use case::{Run, Tally};
use common::choice::Choice;
use std::time::Instant;

const SEED: u64 = 2_026;
const CASES: u64 = 10_000_000;

fn main() {
    let words: Vec<String> = std::env::args().skip(1).collect();
    let number = |i: usize, usual: u64| match words.get(i) {
        None => usual,
        Some(word) => word.parse().unwrap_or_else(|_| usage()),
    };
    if words.len() > 2 {
        usage();
    }
    let (seed, cases) = (number(0, SEED), number(1, CASES));
    println!("seed {seed}, {cases} cases");
    let start = Instant::now();
    let mut run = Run { seed, tally: Tally::default() };

    framing::exhaustive(&mut run);
    readings::exhaustive(&mut run);
    ranges::exhaustive(&mut run);
    sessions::exhaustive(&mut run);
    lines::exhaustive(&mut run);
    bills::exhaustive(&mut run);
    windows::exhaustive(&mut run);
    println!("{} of them exhaustive, after {} s", run.tally.total(), start.elapsed().as_secs());

    let mut c = Choice::new(seed);
    while run.tally.total() < cases {
        for _ in 0..24 {
            framing::random(&mut run, &mut c);
        }
        for _ in 0..12 {
            lines::random(&mut run, &mut c);
        }
        for _ in 0..4 {
            bills::random(&mut run, &mut c);
        }
        for _ in 0..12 {
            readings::random(&mut run, &mut c);
        }
        readings::random_text(&mut run, &mut c);
        ranges::random(&mut run, &mut c);
        for _ in 0..2 {
            sessions::random(&mut run, &mut c);
        }
        alike::random(&mut run, &mut c);
        windows::random(&mut run, &mut c);
    }
    run.tally.print();
    println!("no difference, seed {seed}, {} s", start.elapsed().as_secs());
}

fn usage() -> ! {
    eprintln!("usage: compare [SEED] [CASES]");
    std::process::exit(2)
}
