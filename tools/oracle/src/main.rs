//! Prints the case lists of the replay programs, of `inlog`, of `tally`, of `bill`, of `modes` and of `station`, and the answers that the Rust
//! original gives.
mod acks;
mod again;
mod bill_program;
mod bills;
mod causes;
mod frames;
mod inlog;
mod levels;
mod lines;
mod logs;
mod modes;
mod payloads;
mod ranges;
mod scanners;
mod station;
mod tally;
mod text;
mod windows;

use std::io::Write;

fn main() {
    let words: Vec<String> = std::env::args().skip(1).collect();
    let (cases, answers) = match words.first().map(String::as_str) {
        Some("frame") => bytes(frames::list()),
        Some("scanner") => bytes(scanners::list()),
        Some("payload") => bytes(payloads::list()),
        Some("log") => logs::list(),
        Some("lines") => bytes(lines::list()),
        Some("again") => again::list(),
        Some("inlog") => inlog::list(),
        Some("tally") => tally::list(),
        Some("bill") => bytes(bills::list()),
        Some("bill_program") => bill_program::list(),
        Some("window") => bytes(windows::list()),
        Some("range") => bytes(ranges::list()),
        Some("modes") => modes::list(),
        Some("station") => station::list(),
        _ => usage(),
    };
    let printed = match words.get(1).map(String::as_str) {
        Some("cases") => cases,
        Some("answers") => answers,
        _ => usage(),
    };
    std::io::stdout().write_all(&printed).expect("standard output");
}

fn bytes(list: text::List) -> (Vec<u8>, Vec<u8>) {
    (list.cases.into_bytes(), list.answers.into_bytes())
}

fn usage() -> ! {
    eprintln!(
        "usage: oracle frame|scanner|payload|log|lines|again|inlog|tally|bill|bill_program|window|range|modes|station cases|answers"
    );
    std::process::exit(2)
}
