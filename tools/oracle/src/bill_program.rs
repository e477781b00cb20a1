//! A log for `bill`, and its six lines: the counts of its lines, and what they cost.
use crate::lines::longest_lines;
use common::bill::{Bill, bill, count_text};
use common::choice::Choice;
use common::frames::{framed, name, paired};
use common::log::hex;
use common::streams::{Kind, stream};

/// The argument, in crates/bill/args.
const TAX: u64 = 190;

/// The log, and the six lines.
pub fn list() -> (Vec<u8>, Vec<u8>) {
    let log = log();
    let counts @ [full, masked, header, unread] = count_text(&log).expect("a log");
    let Bill { net, total } = bill(counts, TAX).expect("a bill");
    // There is some of everything, and the total is rounded upwards.
    assert!(counts.iter().all(|&n| n > 50) && net * TAX % 1_000 >= 500);
    let lines = format!("F {full}\nS {masked}\nH {header}\nR {unread}\nnet {net}\ntotal {total}\n");
    (log, lines.into_bytes())
}

/// Sessions, between them the longest lines that there are, and lists of devices as they were written before.
fn log() -> Vec<u8> {
    let mut c = Choice::new(91);
    let [longest, longest_before] = longest_lines();
    let mut out = crate::again::log(&stream(Kind::Mixed, 92, 24_000));
    out.extend(longest_before.into_bytes());
    out.extend(crate::again::log(&stream(Kind::Damaged, 93, 8_000)));
    out.extend(longest.into_bytes());
    for devices in 0..60 {
        out.extend(before(&mut c, devices % 12));
        out.extend(crate::again::log(&stream(Kind::Small, 100 + devices as u64, 60)));
    }
    out.extend(crate::again::log(&stream(Kind::Mixed, 94, 6_000)));
    out
}

/// An `S` line with stars for each name, and its length.
fn before(c: &mut Choice, devices: usize) -> Vec<u8> {
    let names: Vec<Vec<u8>> = (0..devices).map(|_| name(c)).collect();
    let mut p = paired(c, 0x37, &names);
    let mut at = 3;
    for name in names {
        p[at..at + 17].fill(0x2A);
        p[at + 22..at + 22 + name.len()].fill(0x2A);
        at += 22 + name.len();
    }
    format!("S {}\n", hex(&framed(0x0E, 1, &p))).into_bytes()
}
