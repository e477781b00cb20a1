//! Cases for `billing` and `decimal`: bills, counts of lines and numbers of decimal digits, by 02's C-18 and `tools/common/src/bill.rs`.
use crate::lines::longest_lines;
use crate::text::{List, field};
use common::bill::{self, Bill, Counts, MOST_LINES};
use common::choice::Choice;
use common::streams::{Kind, stream};

/// Lines of every form, the `S` line also as it was written before, with the length of the name.
pub const GOOD: [&str; 12] = [
    "F 3E0C000000000423005001843C",
    "S 3E0E010000001A3702012A2A2A2A2A2A2A2A2A2A2A2A2A2A2A2A2A0100000000002E3C",
    "H 010100000000",
    "R 08",
    "S 3E0E010000001C3702012A2A2A2A2A2A2A2A2A2A2A2A2A2A2A2A2A01000000022A2A00863C",
    "F 3E003D2E000000003D2E3C",
    "H 0C000000000523",
    "R 12",
    "R 13",
    "R 14",
    "R 15",
    "R 16",
];

/// What is no line, newlines included where there are any.
const BROKEN: [&[u8]; 48] = [
    // Without an end, empty, with a CR before the end, with a blank before it.
    b"F 3E0C000000000423005001843C",
    b"R 08",
    b"\n",
    b"\r\n",
    b"F 3E0C000000000423005001843C\r\n",
    b"R 08\r\n",
    b"F 3E0C000000000423005001843C \n",
    b"H 010100000000 \n",
    b"R 08 \n",
    // Digits in small letters, odd digits, what is no digit.
    b"F 3e0C000000000423005001843C\n",
    b"S 3E0E010000001A3702012a2A2A2A2A2A2A2A2A2A2A2A2A2A2A2A2A0100000000002E3C\n",
    b"H 0c000000000523\n",
    b"F 3E0C000000000423005001843\n",
    b"F 3E0C000000000423005001843C0\n",
    b"H 01010000000\n",
    b"F 3E0C00000000042300500184G3C\n",
    // A false sum, a false length, a raw marker inside, no frame.
    b"F 3E0C000000000423005001853C\n",
    b"S 3E0E010000001A3702012A2A2A2A2A2A2A2A2A2A2A2A2A2A2A2A2A0100000000002F3C\n",
    b"F 3E0C000000000523005001853C\n",
    b"F 3E003E000000003E3C\n",
    b"F 3E3C\n",
    b"S \n",
    // No blank, two of them, another letter, a small one, one too many, none.
    b"F3E0C000000000423005001843C\n",
    b"F  3E0C000000000423005001843C\n",
    b"F\t3E0C000000000423005001843C\n",
    b" F 3E0C000000000423005001843C\n",
    b"G 3E0C000000000423005001843C\n",
    b"f 3E0C000000000423005001843C\n",
    b"h 010100000000\n",
    b"r 08\n",
    b"FF 3E0C000000000423005001843C\n",
    b"3E0C000000000423005001843C\n",
    // Numbers that no line has.
    b"R 09\n",
    b"R 11\n",
    b"R 17\n",
    b"R 28\n",
    b"R 8\n",
    b"R 008\n",
    b"R \n",
    // A command without a length, a length without a command, a command too many.
    b"H 01010000000023\n",
    b"H 0C0000000005\n",
    b"H 0C00000000052300\n",
    // Bytes that are no text of a log.
    b"\0\n",
    b"R 08\0\n",
    b"R \08\n",
    b"\x80R 08\n",
    b"F 3E0C0000000004230050\xC3\xA9843C\n",
    b"\xFF\xFE\n",
];

const MAX: u64 = u64::MAX;

const TAXES: [u64; 7] = [0, 1, 190, 999, 1_000, 1_001, MAX];

pub fn list() -> List {
    let mut l = List::default();
    edges(&mut l);
    halves(&mut l);
    random_counts(&mut l);
    whole_texts(&mut l);
    broken_texts(&mut l);
    random_texts(&mut l);
    added(&mut l);
    numbers(&mut l);
    assert!(l.cases.len() < 900_000);
    l
}

// OURS, by document 02: the original has no bill.

fn billed(bill: Result<Bill, u8>) -> String {
    match bill {
        Ok(Bill { net, total }) => format!("bill {net} {total} "),
        Err(number) => format!("refused {number} "),
    }
}

fn lines(counts: Result<Counts, u8>) -> String {
    match counts {
        Ok([full, masked, header, unread]) => format!("lines {full} {masked} {header} {unread} "),
        Err(number) => format!("refused {number} "),
    }
}

/// Decimal digits and nothing else; a number that is too great is the greatest.
fn number(text: &[u8]) -> String {
    if text.is_empty() || !text.iter().all(u8::is_ascii_digit) {
        return "none ".into();
    }
    let n = text.iter().fold(0u64, |n, b| n.saturating_mul(10).saturating_add((b - b'0').into()));
    format!("number {n} ")
}

// The cases.

fn of_counts(l: &mut List, counts: Counts, tax: u64) {
    let [full, masked, header, unread] = counts;
    l.add(format!("b {full} {masked} {header} {unread} {tax}"), billed(bill::bill(counts, tax)));
}

/// The text's bill and counts, and the counts line by line.
fn of_text(l: &mut List, text: &[u8], tax: u64) {
    let by_line = text.split_inclusive(|&b| b == b'\n').try_fold([0; 4], bill::count_line);
    let answer = billed(bill::bill_text(text, tax)) + &lines(bill::count_text(text)) + &lines(by_line);
    l.add(format!("t {tax} {}", field(text)), answer);
}

fn of_line(l: &mut List, counts: Counts, line: &[u8]) {
    let [full, masked, header, unread] = counts;
    l.add(format!("m {full} {masked} {header} {unread} {}", field(line)), lines(bill::count_line(counts, line)));
}

fn of_digits(l: &mut List, text: &[u8]) {
    l.add(format!("d {}", field(text)), number(text));
}

/// Counts at the bound, each alone, each beside others and all together; taxes at the bound.
fn edges(l: &mut List) {
    let counts =
        [0, 1, 2, 250, 65_536, MOST_LINES - 1, MOST_LINES, MOST_LINES + 1, MOST_LINES + 2, 1 << 33, 1 << 63, MAX - 1, MAX];
    for tax in TAXES {
        for n in counts {
            for place in 0..4 {
                for others in [0, 3] {
                    let mut counts = [others; 4];
                    counts[place] = n;
                    of_counts(l, counts, tax);
                }
            }
            of_counts(l, [n; 4], tax);
        }
    }
    // The great ones are small when cut to fewer bits, or with 1,000 added.
    let great = [65_536, 65_726, 1 << 32, (1 << 32) + 190, 1 << 63, MAX - 1_000, MAX - 999, MAX - 1];
    for tax in [2, 255, 256, 500, 501, 998, 1_002, 1_256].into_iter().chain(great) {
        for counts in [[0; 4], [1, 0, 0, 0], [0, 1, 0, 0], [7, 5, 3, 2], [MOST_LINES; 4], [MOST_LINES + 1; 4]] {
            of_counts(l, counts, tax);
        }
    }
    let few = [0, 1, MOST_LINES, MOST_LINES + 1];
    for all in 0..256 {
        let counts = [0, 2, 4, 6].map(|shift| few[all >> shift & 3]);
        for tax in [0, 190, 1_000, 1_001] {
            of_counts(l, counts, tax);
        }
    }
}

/// Every tax with a net whose total has half a cent too much, and with the nets nearest to that, where there are any; a net is even, and so
/// is the product.
fn halves(l: &mut List) {
    let mut c = Choice::new(81);
    let mut met = [0; 3];
    for tax in 0..=1_000 {
        for (met, over) in met.iter_mut().zip([498, 500, 502]) {
            let Some(least) = (0..1_000).step_by(2).find(|net| net * tax % 1_000 == over) else { continue };
            let net = least + 1_000 * c.between(0, 3) as u64;
            let full = c.between(0, (net / 4) as usize) as u64;
            of_counts(l, [full, (net - 4 * full) / 2, c.below(9) as u64, c.below(9) as u64], tax);
            *met += 1;
        }
    }
    assert!(met.iter().all(|&n| n >= 200));
}

/// Of any size, most of them within the bound.
fn count(c: &mut Choice) -> u64 {
    match c.below(40) {
        0 => c.number(),
        1 => MOST_LINES - 2 + c.below(5) as u64,
        _ => c.number() >> c.between(32, 63),
    }
}

fn tax(c: &mut Choice) -> u64 {
    match c.below(20) {
        0 => c.number(),
        1 => c.between(1_001, 1_100) as u64,
        2..6 => c.of(&TAXES),
        _ => c.between(0, 1_000) as u64,
    }
}

fn random_counts(l: &mut List) {
    let mut c = Choice::new(82);
    for _ in 0..1_500 {
        let counts = [(); 4].map(|()| count(&mut c));
        let tax = tax(&mut c);
        of_counts(l, counts, tax);
    }
}

fn line(text: &str) -> Vec<u8> {
    [text.as_bytes(), b"\n"].concat()
}

/// Nothing, a line of each form, every two forms, all cuts of four lines, the longest line of a session, and logs of sessions, their last
/// lines also without the first byte and without the last.
fn whole_texts(l: &mut List) {
    for tax in TAXES {
        of_text(l, b"", tax);
        for one in GOOD {
            of_text(l, &line(one), tax);
        }
    }
    for first in GOOD {
        for second in GOOD {
            of_text(l, &[line(first), line(second)].concat(), 190);
        }
    }
    for (first, tax) in GOOD.iter().zip([1_001, MAX, 0, 1_000].into_iter().cycle()) {
        for second in &GOOD[..5] {
            of_text(l, &[line(first), line(second)].concat(), tax);
        }
    }
    let four: Vec<u8> = GOOD[..4].iter().flat_map(|one| line(one)).collect();
    for n in 0..four.len() {
        of_text(l, &four[..n], 190);
        of_text(l, &four[n..], 190);
    }
    of_text(l, longest_lines()[0].as_bytes(), 190);
    for (kind, seed, len, tax) in [
        (Kind::Mixed, 83, 15_000, 190),
        (Kind::Mixed, 84, 4_000, 1_000),
        (Kind::Small, 85, 3_000, 1_001),
        (Kind::Damaged, 86, 3_000, 75),
        (Kind::Mixed, 87, 2_000, 333),
    ] {
        let log = crate::again::log(&stream(kind, seed, len));
        assert!(bill::count_text(&log).is_ok());
        of_text(l, &log, tax);
        let last = last_lines(&log, 1_500);
        for part in [last, &last[1..], &last[..last.len() - 1]] {
            of_text(l, part, tax);
        }
    }
}

/// The last lines of a log, so many bytes or more.
fn last_lines(log: &[u8], least: usize) -> &[u8] {
    let at = log[..log.len() - least].iter().rposition(|&b| b == b'\n').map_or(0, |at| at + 1);
    &log[at..]
}

/// What is no line, alone, and as the first, a middle and the last of a text; 24 comes before 28.
fn broken_texts(l: &mut List) {
    let few = [line(GOOD[3]), line(GOOD[0]), line(GOOD[2])].concat();
    for broken in BROKEN {
        assert_eq!(bill::count_text(broken), Err(24));
        for tax in [190, 1_001] {
            of_text(l, broken, tax);
            of_text(l, &[broken, &few].concat(), tax);
            of_text(l, &[&few, broken, &few].concat(), tax);
            of_text(l, &[&few, broken].concat(), tax);
        }
        of_text(l, &[broken, broken].concat(), MAX);
    }
}

/// Up to a dozen lines, some texts with a byte changed, left out or put in.
fn random_texts(l: &mut List) {
    let mut c = Choice::new(88);
    let log = crate::again::log(&stream(Kind::Mixed, 89, 12_000));
    let short: Vec<&[u8]> = log.split_inclusive(|&b| b == b'\n').filter(|line| line.len() <= 60).collect();
    for i in 0..500 {
        let mut text = vec![];
        for _ in 0..c.below(13) {
            text.extend(if c.one_in(3) { line(c.of(&GOOD)) } else { c.of(&short).to_vec() });
        }
        if i % 2 == 1 && !text.is_empty() {
            let at = c.below(text.len());
            let b = c.byte();
            let b = c.of(&[b, b'0', b'A', b'F', b'S', b'f', b' ', b'\n', b'\n', b'\r']);
            match c.below(4) {
                0 => text.insert(at, b),
                1 => drop(text.remove(at)),
                2 => text.truncate(at),
                _ => text[at] = b,
            }
        }
        let tax = tax(&mut c);
        of_text(l, &text, tax);
    }
}

/// A line onto counts: none, some, the bill's bound, which is none of the count's, and the greatest in each place.
fn added(l: &mut List) {
    let mut counts: Vec<Counts> = vec![[0; 4], [1, 20, 300, 4_000], [MOST_LINES; 4], [MAX - 1; 4], [MAX; 4]];
    for n in [MAX - 1, MAX] {
        for place in 0..4 {
            let mut one = [5, 6, 7, 8];
            one[place] = n;
            counts.push(one);
        }
    }
    for counts in counts {
        for good in GOOD {
            of_line(l, counts, &line(good));
        }
        for broken in BROKEN {
            of_line(l, counts, broken);
        }
        // No line, two of them, and a line with an empty one behind it.
        for bytes in [&b""[..], b"R 08\nR 08\n", b"R 08\n\n", b"\nR 08\n", b"R 08\nH 010100000000\n"] {
            of_line(l, counts, bytes);
        }
    }
    of_line(l, [0; 4], longest_lines()[0].as_bytes());
}

fn numbers(l: &mut List) {
    for text in [
        "",
        "0",
        "00",
        "1",
        "190",
        "1000",
        "1001",
        "0000190",
        "4294967295",
        "4294967296",
        "4294967486",
        "9999999999999999999",
        "18446744073709551609",
        "18446744073709551610",
        "18446744073709551614",
        "18446744073709551615",
        "18446744073709551616",
        "18446744073709551617",
        "18446744073709551620",
        "18446744073709551806",
        "20000000000000000000",
        "99999999999999999999",
        "184467440737095516150",
        "184467440737095516160",
        "340282366920938463463374607431768211646",
        "000000000000000000018446744073709551615",
        "000000000000000000018446744073709551616",
        "+1",
        "-1",
        "-0",
        " 1",
        "1 ",
        "1\n",
        "1\0",
        "\t1",
        "1a",
        "a1",
        "0x1F",
        "1F",
        "1.5",
        "1,000",
        "1_000",
        "1 000",
        "1e3",
        "１",
        "１９０",
        "1９0",
        "٣",
        "²",
    ] {
        of_digits(l, text.as_bytes());
    }
    for digit in ["0", "1", "9"] {
        of_digits(l, digit.repeat(99).as_bytes());
        of_digits(l, (digit.repeat(99) + "x").as_bytes());
    }
    of_digits(l, ("0".repeat(96) + "190").as_bytes());
    for b in 0..=255 {
        of_digits(l, &[b]);
        of_digits(l, &[b'1', b]);
        of_digits(l, &[b, b'9']);
        of_digits(l, &[b'1', b, b'0']);
    }
    let mut c = Choice::new(90);
    for n in 1..=24 {
        for _ in 0..10 {
            let mut text: Vec<u8> = (0..n).map(|_| c.of(b"0123456789")).collect();
            of_digits(l, &text);
            text[c.below(n)] = c.of(b"/:;.,+-aAeExX \0\n\xB2");
            of_digits(l, &text);
        }
    }
}
