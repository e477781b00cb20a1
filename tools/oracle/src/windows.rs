//! Cases for `window`: lists of the original's noise reports, and after each the counts of the last, by `tools/common/src/window.rs`.
use crate::text::{List, field};
use common::choice::Choice;
use common::frames::{damage, noise};
use common::window::{Counts, counts, ones, report, rows};
use original::mdr::payload::NoiseReport;

/// The payloads that letters name, from `a` on: of every kind each mode that it can give, then other bytes for effect, mode and switch, the
/// ends of a level, and what is refused by 25 and by 26.
const PAYLOADS: [&[u8]; 26] = [
    // Off, Anc and Ambient by a mode byte, with a level.
    &[0x67, 0x15, 0x01, 0x00, 0x00, 0x00, 0x05],
    &[0x67, 0x15, 0x01, 0x01, 0x00, 0x00, 0x06],
    &[0x69, 0x15, 0x01, 0x01, 0x01, 0x00, 0x14],
    &[0x67, 0x17, 0x01, 0x00, 0x01, 0x01, 0x07],
    &[0x69, 0x17, 0x00, 0x01, 0x00, 0x01, 0x08],
    &[0x67, 0x17, 0x01, 0x01, 0x01, 0x00, 0x09],
    &[0x67, 0x19, 0x01, 0x00, 0x00, 0x01, 0x0A, 0x01, 0x02],
    &[0x69, 0x19, 0x01, 0x01, 0x00, 0x00, 0x0B, 0x00, 0x00],
    &[0x67, 0x19, 0x00, 0x01, 0x01, 0x01, 0x0C, 0x01, 0x01],
    // Off and Ambient without a mode byte.
    &[0x67, 0x22, 0x01, 0x00, 0x00, 0x0D],
    &[0x69, 0x22, 0x01, 0x01, 0x01, 0x0E],
    // Off, Anc and Ambient by a switch.
    &[0x67, 0x13, 0x01, 0x00, 0x01, 0x00, 0x0F],
    &[0x67, 0x13, 0x01, 0x01, 0x01, 0x00, 0x10],
    &[0x69, 0x13, 0x01, 0x01, 0x00, 0x01, 0x11],
    // Without a level: Off by the effect, Off by the switch, Anc.
    &[0x67, 0x01, 0x01, 0x00, 0x01],
    &[0x69, 0x01, 0x01, 0x01, 0x00],
    &[0x67, 0x01, 0x01, 0x01, 0x01],
    // An effect, a mode byte and switches of 2, and levels of 0 and 255.
    &[0x67, 0x15, 0x01, 0x02, 0x01, 0x00, 0x00],
    &[0x67, 0x17, 0x01, 0x01, 0x02, 0x00, 0xFF],
    &[0x67, 0x13, 0x02, 0x01, 0x02, 0x02, 0x00],
    &[0x67, 0x01, 0x01, 0x01, 0x02],
    // Refused by 26, a byte too few and one too many, and by 25.
    &[0x67, 0x15, 0x01, 0x01, 0x01, 0x00],
    &[0x67, 0x01, 0x01, 0x01, 0x01, 0x00],
    &[0x67, 0x14, 0x01, 0x01, 0x01, 0x00, 0x05],
    &[0x67],
    &[],
];

/// Those that are accepted: they stand first.
const ACCEPTED: usize = 21;
const LETTERS: &[u8; 26] = b"abcdefghijklmnopqrstuvwxyz";
/// Off with a level and without, Anc, and Ambient.
const MODES: [u8; 4] = *b"aoqc";

const MAX: u64 = u64::MAX;
/// Some are within when cut to fewer bits, or below 0 when read with a sign.
const FAR: [u64; 14] = [71, 127, 128, 129, 255, 256, 257, 65_546, 1 << 32, (1 << 32) + 10, 1 << 63, (1 << 63) + 1, MAX - 63, MAX];

pub fn list() -> List {
    let mut s = Session { list: List::default(), named: [const { vec![] }; 26] };
    for (&letter, payload) in LETTERS.iter().zip(PAYLOADS) {
        s.name(letter, payload);
    }
    s.check();
    few(&mut s);
    every_width(&mut s);
    one_kind(&mut s);
    runs(&mut s);
    written(&mut s);
    other_payloads(&mut s);
    assert!(s.list.cases.len() < 600_000 && s.list.answers.len() < 700_000);
    s.list
}

struct Session {
    list: List,
    /// The payloads, by their letters.
    named: [Vec<u8>; 26],
}

fn joined(counts: Counts) -> String {
    counts.map(|n| n.to_string()).join(",")
}

impl Session {
    fn report(&self, letter: u8) -> Result<NoiseReport, u8> {
        report(&self.named[usize::from(letter - b'a')])
    }

    /// The letters stand for what their comments say.
    fn check(&self) {
        let accepted = |letter: &&u8| self.report(**letter).is_ok();
        assert_eq!(LETTERS.iter().filter(accepted).count(), ACCEPTED);
        assert!(LETTERS[..ACCEPTED].iter().all(|letter| self.report(*letter).is_ok()));
        for refused in [25, 26] {
            assert!(LETTERS.iter().any(|&letter| self.report(letter) == Err(refused)));
        }
        let reports = MODES.map(|letter| self.report(letter).expect("a report"));
        assert_eq!(reports.map(|r| counts(1, &[r])), [[1, 0, 0, 1], [1, 0, 0, 0], [0, 1, 0, 0], [0, 0, 1, 1]]);
    }

    fn name(&mut self, letter: u8, payload: &[u8]) {
        self.named[usize::from(letter - b'a')] = payload.to_vec();
        let answer = match self.report(letter) {
            Err(number) => format!("refused {number}"),
            Ok(r) => match r.ambient_level {
                Some(level) => format!("{} level {level}", r.mode.as_str()),
                None => format!("{} no level", r.mode.as_str()),
            },
        };
        self.list.add(format!("p {} {}", char::from(letter), field(payload)), answer);
    }

    /// What is told at the start and after each letter; a refused one is no report.
    fn told(&self, letters: &[u8], counted: impl Fn(&[NoiseReport]) -> Counts) -> (Vec<String>, Vec<NoiseReport>) {
        let mut told = vec![joined(counted(&[]))];
        let mut reports = vec![];
        for &letter in letters {
            match self.report(letter) {
                Err(number) => told.push(format!("refused {number}")),
                Ok(report) => {
                    reports.push(report);
                    told.push(joined(counted(&reports)));
                }
            }
        }
        (told, reports)
    }

    fn opened(&mut self, width: u64, letters: &[u8]) {
        let (told, _) = self.told(letters, |reports| {
            let afresh = counts(width, reports);
            assert_eq!(ones(width, rows([0; 4], reports)), afresh);
            afresh
        });
        self.list.add(format!("w {width} {}", spelled(letters)), told.join(" "));
    }

    fn written(&mut self, width: u64, before: [u64; 4], letters: &[u8]) {
        let (told, reports) = self.told(letters, |reports| ones(width, rows(before, reports)));
        let numbers = |rows: [u64; 4]| rows.map(|row| row.to_string()).join(" ");
        let case = format!("s {width} {} {}", numbers(before), spelled(letters));
        self.list.add(case, format!("{} {width} {}", told.join(" "), numbers(rows(before, &reports))));
    }
}

fn spelled(letters: &[u8]) -> String {
    if letters.is_empty() { "-".into() } else { String::from_utf8(letters.to_vec()).expect("letters") }
}

/// So many letters, each any of these.
fn any_of(c: &mut Choice, letters: &[u8], n: usize) -> Vec<u8> {
    (0..n).map(|_| c.of(letters)).collect()
}

/// No report, one and two.
fn few(s: &mut Session) {
    for width in (0..=70).chain(FAR) {
        s.opened(width, b"");
    }
    for width in [0, 1, 2, 3, 64, 65, MAX] {
        for first in LETTERS {
            s.opened(width, &[*first]);
        }
    }
    for width in [1, 2, 64] {
        for first in LETTERS {
            for second in LETTERS {
                s.opened(width, &[*first, *second]);
            }
        }
    }
}

/// Every width with a list of 200 reports, each up to there, and with a list in which some are refused; widths that are far outside.
fn every_width(s: &mut Session) {
    let mut c = Choice::new(201);
    for width in (0..=70).chain([65, 128, 1 << 32, MAX]) {
        let letters = any_of(&mut c, &LETTERS[..ACCEPTED], 200);
        s.opened(width, &letters);
    }
    for width in 0..=70 {
        let letters = any_of(&mut c, LETTERS, 100);
        s.opened(width, &letters);
    }
    for width in FAR {
        let letters = any_of(&mut c, LETTERS, 70);
        s.opened(width, &letters);
    }
}

/// The same report over and over.
fn one_kind(s: &mut Session) {
    for &letter in LETTERS {
        s.opened(64, &[letter; 66]);
        s.opened(10, &[letter; 12]);
    }
    for letter in MODES {
        for width in [1, 2, 31, 32, 33, 63, 65] {
            s.opened(width, &[letter; 70]);
        }
    }
}

/// Each mode in a run of exactly the width, and of one more.
fn runs(s: &mut Session) {
    for width in [1, 2, 3, 4, 7, 8, 9, 10, 15, 16, 17, 31, 32, 33, 47, 62, 63, 64] {
        for run in [width, width + 1] {
            let letters: Vec<u8> = b"aqcoa".iter().flat_map(|&letter| vec![letter; run]).collect();
            s.opened(width as u64, &letters);
        }
    }
}

/// Windows that the caller wrote.
fn written(s: &mut Session) {
    let mut c = Choice::new(202);
    let edges = [0, 1, 2, 10, 63, 64, 65, 128, 1 << 32, MAX];
    let patterns = [0, MAX, 1, 1 << 63, 0x5555_5555_5555_5555, 0xFFFF_FFFF_0000_0000];
    for width in edges {
        for row in patterns {
            s.written(width, [row; 4], b"");
            let letters = any_of(&mut c, LETTERS, 6);
            s.written(width, [row; 4], &letters);
        }
        for place in 0..4 {
            for (row, others) in [(MAX, 0), (0, MAX)] {
                let mut before = [others; 4];
                before[place] = row;
                s.written(width, before, b"oqc");
            }
        }
        // Until nothing of the first rows is left.
        for row in [0, MAX] {
            let letters = any_of(&mut c, LETTERS, 90);
            s.written(width, [row; 4], &letters);
        }
    }
    // A digit at each place, just outside of the width and just inside.
    for place in 0..64 {
        for width in [place, place + 1] {
            for row in 0..4 {
                let mut before = [0; 4];
                before[row] = 1 << place;
                s.written(width, before, b"");
                s.written(width, before.map(|row| !row), b"c");
            }
        }
    }
    for _ in 0..250 {
        let before = [(); 4].map(|()| c.number());
        let width = if c.one_in(4) { c.of(&edges) } else { c.between(0, 70) as u64 };
        let n = c.of(&[0, 1, 2, 3, 5, 8]);
        let letters = any_of(&mut c, LETTERS, n);
        s.written(width, before, &letters);
    }
}

/// Letters named anew, with payloads of any bytes, some of them damaged.
fn other_payloads(s: &mut Session) {
    let mut c = Choice::new(203);
    for _ in 0..12 {
        for &letter in LETTERS {
            let command = c.byte();
            let mut payload = noise(&mut c, command);
            if c.one_in(5) {
                damage(&mut c, &mut payload);
            }
            s.name(letter, &payload);
        }
        for _ in 0..5 {
            let width = c.between(0, 70) as u64;
            let letters = any_of(&mut c, LETTERS, 60);
            s.opened(width, &letters);
        }
    }
}
