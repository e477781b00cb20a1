//! Cases for `payload` that tell the causes of a refusal apart: 25 for another kind, 26 for another length, 19, and 20, 21 and 23 after them.
use crate::payloads::{Session, info, outcome, paired_payload};
use crate::text::{Choice, rule};
use original::mdr::payload::Table;

pub fn cases(s: &mut Session) {
    told(s);
    kinds_and_lengths(s);
    counts(s);
    faults(s);
}

/// Refusals that 02's C-16 gives by itself, by hand.
const TOLD: [(char, &[u8], u8); 69] = [
    ('b', &[], 25),
    ('b', &[0x23], 25),
    ('b', &[0x23, 0x03], 25),
    ('b', &[0x23, 0x03, 0x50, 0x01], 25),
    ('b', &[0x23, 0x00], 26),
    ('b', &[0x23, 0x00, 0x50], 26),
    ('b', &[0x23, 0x00, 0x50, 0x01, 0x1E], 26),
    ('b', &[0x23, 0x08, 0x50, 0x01], 26),
    ('n', &[], 25),
    ('n', &[0x67], 25),
    ('n', &[0x67, 0x14, 0x01, 0x00, 0x00, 0x01, 0x05], 25),
    ('n', &[0x67, 0x17], 26),
    ('n', &[0x67, 0x17, 0x01, 0x00, 0x00, 0x01], 26),
    ('n', &[0x67, 0x17, 0x01, 0x00, 0x00, 0x01, 0x05, 0x00], 26),
    ('n', &[0x67, 0x22, 0x01, 0x00, 0x00, 0x01, 0x05], 26),
    ('c', &[], 25),
    ('c', &[0x61], 25),
    ('c', &[0x61, 0x12], 25),
    ('c', &[0x61, 0x1A, 0x01, 0x00, 0x00, 0x14, 0x05], 25),
    ('c', &[0x61, 0x21, 0x00], 25),
    ('c', &[0x61, 0x17], 26),
    ('c', &[0x61, 0x17, 0x01], 26),
    ('c', &[0x61, 0x17, 0x00, 0x00], 26),
    ('c', &[0x61, 0x17, 0x01, 0x02, 0x09, 0x08], 26),
    ('c', &[0x61, 0x17, 0x02, 0x00, 0x00, 0x14, 0x05], 26),
    ('c', &[0x61, 0x17, 0x00], 19),
    ('c', &[0x61, 0x17, 0x01, 0x02, 0x00, 0x14, 0x05], 19),
    ('c', &[0x61, 0x17, 0x01, 0x00, 0x15, 0x14, 0x05], 19),
    ('c', &[0x61, 0x17, 0x01, 0x00, 0x00, 0x14, 0x00], 19),
    ('c', &[0x61, 0x17, 0x02, 0x00, 0x00, 0x14, 0x05, 0x00, 0x00, 0x14, 0x05], 19),
    ('e', &[], 25),
    ('e', &[0x57], 25),
    ('e', &[0x57, 0x01], 25),
    ('e', &[0x57, 0x01, 0xA0, 0x00], 25),
    ('e', &[0x57, 0x00], 26),
    ('e', &[0x57, 0x00, 0xA0], 26),
    ('e', &[0x57, 0x00, 0xA0, 0x00, 0x0A], 26),
    ('e', &[0x57, 0x00, 0xA0, 0x02, 0x0A], 26),
    ('p', &[], 25),
    ('p', &[0x37], 25),
    ('p', &[0x37, 0x01], 25),
    ('p', &[0x37, 0x00, 0x00, 0x00], 25),
    ('p', &[0x37, 0x02], 26),
    ('p', &[0x37, 0x02, 0x00], 26),
    ('p', &[0x37, 0x02, 0x00, 0x00, 0x00], 26),
    ('p', &[0x37, 0x02, 0x01, 0x00], 26),
    ('f', &[], 25),
    ('f', &[0x07], 25),
    ('f', &[0x07, 0x02, 0x00], 25),
    ('f', &[0x07, 0x00], 26),
    ('f', &[0x07, 0x00, 0x00, 0x00], 26),
    ('f', &[0x07, 0x00, 0x01, 0x22], 26),
    ('g', &[], 25),
    ('g', &[0xD7], 25),
    ('g', &[0xD7, 0xD1], 26),
    ('g', &[0xD7, 0xD1, 0x01], 26),
    ('g', &[0xD7, 0xD1, 0x01, 0x02, 0x00], 26),
    ('g', &[0xD7, 0xD1, 0x01, 0x00], 19),
    ('g', &[0xD7, 0xD1, 0x00, 0x02], 19),
    ('i', &[], 25),
    ('i', &[0xD1], 25),
    ('i', &[0xD1, 0xD1], 26),
    ('i', &[0xD1, 0xD1, 0x01, 0x02, 0x00], 26),
    ('i', &[0xD1, 0xD1, 0x00, 0x00, 0x00, 0x01, 0xFF, 0x00, 0x00], 26),
    ('i', &[0xD1, 0xD1, 0x01, 0x00, 0x01, 0xFF, 0x00, 0x00], 26),
    ('i', &[0xD1, 0xD1, 0x01, 0x00, 0x00, 0x00], 19),
    ('i', &[0xD1, 0xD1, 0x01, 0x00, 0x01, 0xFF, 0x00], 19),
    ('i', &[0xD1, 0xD1, 0x00, 0x02, 0x00, 0x01, 0xFF], 19),
    ('i', &[0xD1, 0xD1, 0x00, 0x00, 0x01, 0xFF, 0x00], 23),
];

fn told(s: &mut Session) {
    for (letter, p, number) in TOLD {
        assert_eq!(outcome(letter, p), number, "{letter} of {p:02X?}");
        s.keep(p);
        s.read(letter, p.len());
    }
}

/// Every kind with every length up to 40, for every decoder.
fn kinds_and_lengths(s: &mut Session) {
    let mut c = Choice::new(26);
    // Counts and lengths that fit some of the payloads.
    for front in [
        vec![0; 40],
        vec![1; 40],
        vec![9; 40],
        (0..40).collect(),
        vec![0x61, 0, 2, 0, 4, 9, 2, 1, 0, 20, 5],
        paired_payload(&mut c, &[b"Zoe's"]),
        info(0, 1, b"abc", b"de"),
        info(0, 0, &[0xC3, 0x28], b"A"),
    ] {
        let mut p = front;
        p.resize(40, 0);
        s.keep(&p);
        for kind in 0..=255 {
            s.change(1, kind);
            for letter in "bncepfgi".chars() {
                s.outcomes(letter, 41);
            }
        }
    }
}

/// A payload with its count, or the length of a text, at a place: one less, one more and as it is, each with its own length, one byte less and
/// one more.
fn one_off(s: &mut Session, letter: char, p: &[u8], at: usize) {
    s.keep(p);
    for count in [p[at].wrapping_sub(1), p[at].wrapping_add(1), p[at]] {
        s.change(at, count);
        for n in p.len() - 1..=p.len() + 1 {
            s.read(letter, n);
            if letter == 'f' {
                s.support(n, 512, Table::One);
            }
        }
    }
}

fn counts(s: &mut Session) {
    let mut c = Choice::new(27);
    for n in [0, 1, 2, 3, 9, 255] {
        let count = n as u8;
        let ranges: Vec<u8> = (0..count).flat_map(|i| [i % 2, 4, 9, 2]).collect();
        one_off(s, 'c', &[&[0x61, 0x17, count], &ranges[..]].concat(), 2);
        one_off(s, 'e', &[&[0x57, 0x00, 0xA0, count], &rule(16, n)[..]].concat(), 3);
        one_off(s, 'f', &[&[0x07, 0x00, count], &rule(18, 2 * n)[..]].concat(), 2);
        let names: Vec<&[u8]> = (0..n).map(|i| if n < 255 { &b"Al's phone"[..i] } else { &[] }).collect();
        let p = paired_payload(&mut c, &names);
        one_off(s, 'p', &p, 2);
        lookups(s, &p);
    }
    let long = ([b'n'; 255], [b's'; 255]);
    for (name, summary) in
        [(&b""[..], &b""[..]), (b"A", b""), (b"", b"A"), (b"Al", b"phone"), (&long.0, &long.1), (&[0xFF], &[0xFF])]
    {
        let p = info(0xD1, 0, name, summary);
        one_off(s, 'i', &p, 4);
        one_off(s, 'i', &p, 5 + name.len());
    }
}

/// Devices of the list that is kept, below its count and beyond it: of the whole list, of some other lengths, and under another kind.
fn lookups(s: &mut Session, p: &[u8]) {
    let (len, count) = (p.len(), usize::from(p[2]));
    let mut indices = vec![0, 1, count.saturating_sub(1), count, count + 1, 255, 256, 4_294_967_296];
    indices.sort();
    indices.dedup();
    for (kind, n) in [(0x02, len), (0x02, len - 1), (0x02, len + 1), (0x02, 2), (0x02, 1), (0x03, len)] {
        s.change(1, kind);
        for &index in &indices {
            s.lookup(n, index);
        }
    }
}

/// What is 19 or 23 with the right length, and that length one off.
fn faults(s: &mut Session) {
    let good = [0, 0, 20, 5];
    // The last is bad beside one of its voice.
    for bad in [[2, 0, 20, 5], [0xFF, 0, 20, 5], [1, 21, 20, 5], [1, 255, 0, 1], [1, 0, 20, 0], [0, 1, 10, 1]] {
        for ranges in [&[bad][..], &[bad, good], &[good, bad], &[good, [1, 1, 10, 1], bad]] {
            s.edges('c', &[&[0x61, 0x22, ranges.len() as u8], ranges.as_flattened()].concat());
        }
    }
    for kind in (0x13..=0x19).chain([0x22]) {
        s.edges('c', &[0x61, kind, 0]);
    }
    for body in [[0, 0], [0, 1], [0, 2], [0, 255], [1, 0], [255, 2]] {
        s.edges('g', &[0xD7, 0xD1, body[0], body[1]]);
        for (name, summary) in [(&b"A"[..], &b"B"[..]), (&[0xFF], b"B"), (b"A", &[0xFF]), (&[0xFF], &[0xC3])] {
            let mut p = info(0xD1, body[1], name, summary);
            p[2] = body[0];
            s.edges('i', &p);
        }
    }
    // A list that is refused is so before its records are counted.
    for p in [&[0x07, 0x00, 2, 1, 2, 3, 4][..], &[0x07, 0x01, 2, 1, 2, 3, 4]] {
        s.keep(p);
        for n in [0, 1, 2, 3, 6, 7, 8] {
            for m in 0..=3 {
                s.support(n, m, Table::Two);
            }
        }
    }
}
