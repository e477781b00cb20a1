//! Bills of line counts and of texts, and the line counts of texts, beside the bill by 02's C-18.
use crate::case::{Case, Run, Tally, fewer};
use crate::inputs::{shortest, values};
use crate::lent::{MOST_VALUES, Told, Values, told_difference};
use crate::lines::{damage_text, line_like, span_line};
use common::bill::{Bill, Counts, MOST_LINES, MOST_TAX, bill, count_text};
use common::choice::Choice;
use common::frames::house_plan;
use common::log::Log;
use common::streams::{KINDS, stream};
use original::mdr::frame::Scanner;

fn told<const N: usize>(expected: Result<[u64; N], u8>) -> Told {
    expected.map_or_else(Told::refused, |numbers| Told::accepted(&numbers))
}

fn numbers(Bill { net, total }: Bill) -> [u64; 2] {
    [net, total]
}

/// The number halved, and one less.
fn lesser(n: u64) -> impl Iterator<Item = u64> {
    [n / 2, n.saturating_sub(1)].into_iter().filter(move |&less| less < n)
}

#[derive(Clone, Debug)]
struct OfCounts {
    counts: Counts,
    tax: u64,
    values: usize,
}

impl OfCounts {
    fn of(counts: Counts, tax: u64) -> OfCounts {
        OfCounts { counts, tax, values: MOST_VALUES }
    }
}

impl Case for OfCounts {
    fn difference(&self, tally: &mut Tally) -> Option<String> {
        let expected = told(bill(self.counts, self.tax).map(numbers));
        tally.add("bill", expected.status);
        let mut values = Values::new(self.values);
        let status = ours::bill(self.counts, self.tax, values.lend());
        told_difference(&expected, status, &values)
    }

    fn smaller(&self) -> Vec<OfCounts> {
        let mut all = Vec::new();
        for place in 0..4 {
            for n in lesser(self.counts[place]) {
                let mut counts = self.counts;
                counts[place] = n;
                all.push(OfCounts { counts, ..*self });
            }
        }
        all.extend(lesser(self.tax).map(|tax| OfCounts { tax, ..*self }));
        if self.values != MOST_VALUES {
            all.push(OfCounts { values: MOST_VALUES, ..*self });
        }
        all
    }

    fn shown(&self) -> String {
        format!("bill, {self:?}")
    }
}

#[derive(Clone)]
struct OfText {
    text: Vec<u8>,
    tax: u64,
    values: usize,
}

impl OfText {
    fn of(text: impl Into<Vec<u8>>, tax: u64) -> OfText {
        OfText { text: text.into(), tax, values: MOST_VALUES }
    }
}

impl Case for OfText {
    fn difference(&self, tally: &mut Tally) -> Option<String> {
        let counts = count_text(&self.text);
        let expected = told(counts);
        tally.add("count_text", expected.status);
        let mut values = Values::new(self.values);
        let status = ours::count_text(&self.text, values.lend());
        let counted = told_difference(&expected, status, &values).map(|difference| format!("count_text\n{difference}"));

        let expected = told(counts.and_then(|counts| bill(counts, self.tax)).map(numbers));
        tally.add("bill_text", expected.status);
        let mut values = Values::new(self.values);
        let status = ours::bill_text(&self.text, self.tax, values.lend());
        counted.or_else(|| told_difference(&expected, status, &values).map(|difference| format!("bill_text\n{difference}")))
    }

    fn smaller(&self) -> Vec<OfText> {
        let mut texts = fewer_lines(&self.text);
        if self.text.len() < 2_000 {
            texts.extend(fewer(&self.text));
        }
        let mut all: Vec<OfText> = texts.into_iter().map(|text| OfText { text, ..*self }).collect();
        all.extend(lesser(self.tax).map(|tax| OfText { tax, ..self.clone() }));
        if self.values != MOST_VALUES {
            all.push(OfText { values: MOST_VALUES, ..self.clone() });
        }
        all
    }

    fn shown(&self) -> String {
        let text = String::from_utf8_lossy(&self.text);
        format!("a text of {} bytes {text:?}, tax {}, values {}", self.text.len(), self.tax, self.values)
    }
}

/// The text with some of its lines left out, half of them first.
fn fewer_lines(text: &[u8]) -> Vec<Vec<u8>> {
    let lines: Vec<&[u8]> = text.split_inclusive(|&b| b == b'\n').collect();
    let mut all = Vec::new();
    let mut n = lines.len() / 2;
    while n > 0 {
        for at in (0..lines.len()).step_by(n) {
            all.push([&lines[..at], &lines[lines.len().min(at + n)..]].concat().concat());
        }
        n /= 2;
    }
    all
}

/// A line of each letter.
const LOG: &[u8] = b"\
F 3E0C000000000423005001843C
S 3E0E010000001A3702012A2A2A2A2A2A2A2A2A2A2A2A2A2A2A2A2A0100000000002E3C
H 010100000000
R 08
";

const TAXES: [u64; 12] = [
    0,
    1,
    190,
    MOST_TAX - 1,
    MOST_TAX,
    MOST_TAX + 1,
    MOST_TAX + 2,
    1 << 16,
    1 << 32,
    (1 << 32) + 190,
    u64::MAX - MOST_TAX,
    u64::MAX,
];

const COUNTS: [u64; 8] = [0, 1, 2, MOST_LINES - 1, MOST_LINES, MOST_LINES + 1, 1 << 63, u64::MAX];

pub fn exhaustive(run: &mut Run) {
    for tax in TAXES {
        for all in 0..COUNTS.len().pow(4) {
            run.case(&OfCounts::of([0, 3, 6, 9].map(|shift| COUNTS[all >> shift & 7]), tax));
        }
    }
    // Every net up to 1,002 at every tax, so that every part of a cent is met.
    for tax in 0..=MOST_TAX + 1 {
        for net in (0..=1_002).step_by(2) {
            run.case(&OfCounts::of([net / 4, net % 4 / 2, 0, 0], tax));
        }
    }
    for values in 0..=MOST_VALUES {
        for tax in TAXES {
            run.case(&OfCounts { values, ..OfCounts::of([7, 5, 3, 2], tax) });
            run.case(&OfText { values, ..OfText::of(LOG, tax) });
            run.case(&OfText { values, ..OfText::of(&LOG[1..], tax) });
        }
    }
    // Two bytes alone, before a line and behind it.
    for bytes in shortest() {
        run.case(&OfText::of(&bytes[..], 190));
        run.case(&OfText::of([&bytes[..], b"R 08\n"].concat(), 190));
        run.case(&OfText::of([b"R 08\n", &bytes[..]].concat(), 190));
    }
    // Up to four lines, and what is none.
    let lines: Vec<&[u8]> = LOG.split_inclusive(|&b| b == b'\n').chain([&b"R 09\n"[..], b"\n", b"R 08"]).collect();
    let mut texts = vec![vec![]];
    for _ in 0..=4 {
        for text in &texts {
            run.case(&OfText::of(&text[..], 190));
            run.case(&OfText::of(&text[..], MOST_TAX + 1));
        }
        texts = texts.iter().flat_map(|text| lines.iter().map(|line| [text, *line].concat())).collect();
    }
    // A log with each byte changed to each other, left out, and put in twice; and its cuts.
    for at in 0..LOG.len() {
        for b in 0..=255 {
            let mut text = LOG.to_vec();
            text[at] = b;
            run.case(&OfText::of(text, 190));
        }
        let (before, behind) = LOG.split_at(at);
        run.case(&OfText::of(before, 190));
        run.case(&OfText::of(behind, 190));
        run.case(&OfText::of([before, &behind[1..]].concat(), 190));
        run.case(&OfText::of([before, &behind[..1], behind].concat(), 190));
        run.case(&OfText::of([before, b"\n", behind].concat(), 190));
    }
}

fn count(c: &mut Choice) -> u64 {
    match c.below(20) {
        0 => MOST_LINES - 2 + c.below(5) as u64,
        1 => c.number() >> c.below(64),
        2 => c.of(&COUNTS),
        3..9 => c.below(100) as u64,
        _ => c.number() >> c.between(32, 63),
    }
}

fn tax(c: &mut Choice) -> u64 {
    match c.below(20) {
        0 => c.number() >> c.below(64),
        1 => c.of(&TAXES),
        2 => MOST_TAX + 1 + c.below(100) as u64,
        _ => c.between(0, MOST_TAX as usize) as u64,
    }
}

/// The log of a stream, as one of a session's.
fn session_log(c: &mut Choice) -> Vec<u8> {
    let len = c.between(100, 20_000);
    let mut scanner = Scanner::new();
    scanner.push(&stream(c.of(&KINDS), c.number(), len));
    let (plan, mut lines, mut log) = (house_plan(), Log::default(), vec![]);
    while let Some(span) = scanner.next_raw() {
        lines.line(&plan, &span, &mut log);
    }
    log
}

/// A log: whole, with a line among its lines that may be none, damaged, or cut at either end.
fn text(c: &mut Choice) -> Vec<u8> {
    if c.one_in(100) {
        let mut log = session_log(c);
        if c.one_in(2) {
            damage_text(c, &mut log);
        }
        return log;
    }
    let mut lines: Vec<Vec<u8>> = (0..c.of(&[0, 1, 1, 2, 3, 5, 8])).map(|_| span_line(c)).collect();
    let how = c.below(8);
    if how == 0 {
        lines.insert(c.below(lines.len() + 1), line_like(c));
    }
    let mut text = lines.concat();
    match how {
        1 => damage_text(c, &mut text),
        2 => text.truncate(c.below(text.len() + 1)),
        3 => drop(text.drain(..c.below(text.len() + 1))),
        _ => {}
    }
    text
}

pub fn random(run: &mut Run, c: &mut Choice) {
    let counts = [(); 4].map(|()| count(c));
    run.case(&OfCounts { counts, tax: tax(c), values: values(c) });
    run.case(&OfText { text: text(c), tax: tax(c), values: values(c) });
}
