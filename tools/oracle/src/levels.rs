//! Cases for `payload` about battery levels, by 02's C-20. OURS: the Rust reads any level; above 100 the refusal is 29, behind 25 and 26.
use crate::payloads::{Session, reading};
use common::causes::{BATTERY, level_places};
use original::mdr::payload::Table;

pub fn cases(s: &mut Session) {
    told(s);
    every_level(s);
    beside(s);
    before(s);
}

/// Answers by hand.
const TOLD: [(&[u8], &str); 51] = [
    // 100 and 101 in each cell.
    (&[0x23, 0x00, 100, 1], "100 yes - - - -"),
    (&[0x23, 0x00, 101, 1], "refused 29"),
    (&[0x23, 0x01, 100, 0, 100, 2], "- 100 no - 100 unknown - -"),
    (&[0x23, 0x01, 101, 0, 100, 2], "refused 29"),
    (&[0x23, 0x01, 100, 0, 101, 2], "refused 29"),
    (&[0x23, 0x01, 101, 0, 101, 2], "refused 29"),
    (&[0x25, 0x02, 100, 3], "- - - 100 charged -"),
    (&[0x25, 0x02, 101, 3], "refused 29"),
    (&[0x25, 0x08, 100, 1, 20], "100 yes 20 - - -"),
    (&[0x25, 0x08, 101, 1, 20], "refused 29"),
    (&[0x23, 0x09, 100, 0, 100, 1, 20, 30], "- 100 no 20 100 yes 30 -"),
    (&[0x23, 0x09, 101, 0, 100, 1, 20, 30], "refused 29"),
    (&[0x23, 0x09, 100, 0, 101, 1, 20, 30], "refused 29"),
    (&[0x23, 0x09, 101, 0, 101, 1, 20, 30], "refused 29"),
    (&[0x23, 0x0A, 100, 0, 20], "- - - 100 no 20"),
    (&[0x23, 0x0A, 101, 0, 20], "refused 29"),
    // What the headsets sent.
    (&[0x23, 0x00, 255, 0], "refused 29"),
    (&[0x23, 0x01, 255, 0, 0, 0], "refused 29"),
    (&[0x23, 0x01, 0, 0, 255, 0], "refused 29"),
    (&[0x23, 0x02, 255, 0], "refused 29"),
    (&[0x23, 0x08, 255, 0, 0], "refused 29"),
    (&[0x23, 0x09, 255, 0, 0, 0, 0, 0], "refused 29"),
    (&[0x23, 0x09, 0, 0, 255, 0, 0, 0], "refused 29"),
    (&[0x23, 0x0A, 255, 0, 0], "refused 29"),
    // A threshold is no level, nor is a charging byte.
    (&[0x23, 0x08, 100, 1, 101], "100 yes 101 - - -"),
    (&[0x23, 0x08, 100, 1, 255], "100 yes 255 - - -"),
    (&[0x23, 0x09, 100, 0, 100, 1, 101, 255], "- 100 no 101 100 yes 255 -"),
    (&[0x23, 0x09, 100, 0, 100, 1, 255, 101], "- 100 no 255 100 yes 101 -"),
    (&[0x23, 0x0A, 100, 0, 101], "- - - 100 no 101"),
    (&[0x23, 0x0A, 100, 0, 255], "- - - 100 no 255"),
    (&[0x23, 0x00, 100, 101], "100 101 - - - -"),
    (&[0x23, 0x01, 100, 255, 100, 101], "- 100 255 - 100 101 - -"),
    (&[0x23, 0x02, 100, 255], "- - - 100 255 -"),
    // The length is tried first.
    (&[0x23, 0x00, 255], "refused 26"),
    (&[0x23, 0x00, 255, 1, 0], "refused 26"),
    (&[0x23, 0x01, 255, 0, 255], "refused 26"),
    (&[0x23, 0x01, 255, 0, 255, 0, 0], "refused 26"),
    (&[0x23, 0x02, 255], "refused 26"),
    (&[0x23, 0x02, 255, 1, 0], "refused 26"),
    (&[0x23, 0x08, 255, 1], "refused 26"),
    (&[0x23, 0x08, 255, 1, 0, 0], "refused 26"),
    (&[0x23, 0x09, 255, 0, 255, 0, 0], "refused 26"),
    (&[0x23, 0x09, 255, 0, 255, 0, 0, 0, 0], "refused 26"),
    (&[0x23, 0x0A, 255, 1], "refused 26"),
    (&[0x23, 0x0A, 255, 1, 0, 0], "refused 26"),
    // And the kind before it.
    (&[0x23, 0x03, 255, 1], "refused 25"),
    (&[0x23, 0x07, 255, 1, 0], "refused 25"),
    (&[0x23, 0x0B, 255, 1, 0], "refused 25"),
    (&[0x23, 0xFF, 255, 0, 255, 0], "refused 25"),
    (&[0xFF], "refused 25"),
    (&[0xFF, 0xFF], "refused 25"),
];

fn told(s: &mut Session) {
    for (p, answer) in TOLD {
        assert_eq!(reading('b', Table::Two, p, 0).trim_end(), answer, "{p:02X?}");
        s.keep(p);
        s.read('b', p.len());
    }
}

/// A battery with these levels, as many as its kind has; every other byte is the same.
fn battery(kind: u8, len: usize, levels: [u8; 2], other: u8) -> Vec<u8> {
    let mut p = vec![other; len];
    (p[0], p[1]) = (0x25, kind);
    for (&at, level) in level_places(kind).iter().zip(levels) {
        p[at] = level;
    }
    p
}

/// Every level in every cell of every layout, each answer in full; and of two cells those round the bound, in both.
fn every_level(s: &mut Session) {
    const EDGES: [u8; 7] = [0, 1, 99, 100, 101, 254, 255];
    for (kind, len) in BATTERY {
        for &cell in level_places(kind) {
            s.keep(&battery(kind, len, [100, 100], 1));
            for level in 0..=255 {
                s.change(cell, level);
                s.read('b', len);
            }
        }
        if level_places(kind).len() == 2 {
            for first in EDGES {
                for second in EDGES {
                    s.keep(&battery(kind, len, [first, second], 3));
                    s.read('b', len);
                }
            }
        }
    }
}

/// Every charging byte and every threshold, beside levels of 100 and of 101.
fn beside(s: &mut Session) {
    for (kind, len) in BATTERY {
        for levels in [[100, 100], [101, 100], [100, 101], [101, 101]] {
            for at in (2..len).filter(|at| !level_places(kind).contains(at)) {
                s.keep(&battery(kind, len, levels, 2));
                s.values('b', len, at);
            }
        }
    }
}

/// Levels of 255 in payloads of every length up to 12, of every kind: 25 and 26 come first.
fn before(s: &mut Session) {
    s.keep(&[0xFF; 12]);
    for kind in 0..=255 {
        s.change(1, kind);
        s.outcomes('b', 13);
    }
}
