//! What a case is, how cases are counted, and how one that shows a difference is made as small as it goes.
pub use common::log::hex;
use original::mdr::frame::{pack, unpack};
use std::collections::BTreeMap;

/// How many cases each entry point was given, by what was expected of it: 0 where it accepts, the refusal's number, the letter of a line, or N
/// for a plain no.
#[derive(Default)]
pub struct Tally {
    counts: BTreeMap<(&'static str, u8), u64>,
    total: u64,
}

impl Tally {
    pub fn add(&mut self, entry: &'static str, outcome: u8) {
        *self.counts.entry((entry, outcome)).or_default() += 1;
        self.total += 1;
    }

    pub fn total(&self) -> u64 {
        self.total
    }

    pub fn print(&self) {
        let mut entries: Vec<&str> = self.counts.keys().map(|key| key.0).collect();
        entries.dedup();
        for entry in entries {
            let of_it: Vec<(u8, u64)> =
                self.counts.iter().filter(|(key, _)| key.0 == entry).map(|(key, &n)| (key.1, n)).collect();
            let count: u64 = of_it.iter().map(|(_, n)| n).sum();
            let outcomes: Vec<String> = of_it.iter().map(|&(outcome, n)| format!("{}: {n}", name(outcome))).collect();
            println!("{entry:<22}{count:>10}   {}", if of_it.len() > 1 { outcomes.join(", ") } else { String::new() });
        }
        println!("{:<22}{:>10}", "in all", self.total);
    }
}

fn name(outcome: u8) -> String {
    match outcome {
        0 => "accepted".into(),
        b'N' => "no".into(),
        b'A'..=b'Z' => char::from(outcome).into(),
        _ => outcome.to_string(),
    }
}

/// A call, or a session of calls, on certain inputs.
pub trait Case: Clone {
    /// Runs both sides and counts the calls. Where they differ, what the Rust and document 01 say, and what ours did.
    fn difference(&self, tally: &mut Tally) -> Option<String>;

    /// Cases that are a little smaller.
    fn smaller(&self) -> Vec<Self>;

    fn shown(&self) -> String;
}

/// The comparison: its seed and its counts.
pub struct Run {
    pub seed: u64,
    pub tally: Tally,
}

impl Run {
    /// Runs a case; a difference ends the program.
    pub fn case(&mut self, case: &impl Case) {
        if case.difference(&mut self.tally).is_none() {
            return;
        }
        let least = least(case);
        println!("DIFFERENCE, seed {}, at case {}", self.seed, self.tally.total());
        println!("as found:\n{}", case.shown());
        println!("smallest:\n{}", least.shown());
        println!("{}", least.difference(&mut Tally::default()).expect("the difference has stayed"));
        std::process::exit(1);
    }
}

/// The case made smaller step by step while it shows a difference.
fn least<C: Case>(case: &C) -> C {
    let mut least = case.clone();
    while let Some(next) = least.smaller().into_iter().find(|c| c.difference(&mut Tally::default()).is_some()) {
        least = next;
    }
    least
}

/// The bytes with some left out, half of them first; then with one made zero.
pub fn fewer(bytes: &[u8]) -> Vec<Vec<u8>> {
    let mut all = Vec::new();
    let mut n = bytes.len();
    while n > 0 {
        for at in (0..bytes.len()).step_by(n) {
            all.push([&bytes[..at], &bytes[bytes.len().min(at + n)..]].concat());
        }
        n /= 2;
    }
    for at in 0..bytes.len() {
        if bytes[at] != 0 {
            let mut plainer = bytes.to_vec();
            plainer[at] = 0;
            all.push(plainer);
        }
    }
    all
}

/// The same of a frame's payload, packed anew, where the bytes are a frame; else of the bytes.
pub fn fewer_in_frame(bytes: &[u8]) -> Vec<Vec<u8>> {
    let mut all = Vec::new();
    if let Ok(f) = unpack(bytes) {
        all = fewer(&f.payload).into_iter().map(|payload| pack(f.data_type, f.seq, &payload)).collect();
        all.retain(|frame| frame.len() <= bytes.len() && frame != bytes);
    }
    all.extend(fewer(bytes));
    all
}
