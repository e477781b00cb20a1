//! Cases for `line_reader`: what a line of a log says, by the reading of `tools/common/src/lines.rs` over the Rust's `unpack` and `pack`.
use crate::text::{Choice, List, field, lent, over, shown};
use common::frames::{END, SENTRY, START, escaped, every_level, framed};
use common::log::hex;
use common::lines::{self, Line};
use original::mdr::frame::{checksum, escape_into};

/// The listing of document 01 as 02's C-15 has it, and its last line as it was written before, with the length of the name.
const LISTING: [&str; 5] = [
    "F 3E0C000000000423005001843C\n",
    "R 08\n",
    "H 010100000000\n",
    "S 3E0E010000001A3702012A2A2A2A2A2A2A2A2A2A2A2A2A2A2A2A2A0100000000002E3C\n",
    "S 3E0E010000001C3702012A2A2A2A2A2A2A2A2A2A2A2A2A2A2A2A2A01000000022A2A00863C\n",
];

pub fn list() -> List {
    let mut l = List::default();
    listing(&mut l);
    session(&mut l);
    numbers(&mut l);
    headers(&mut l);
    packed(&mut l);
    longest(&mut l);
    damaged(&mut l);
    high_levels(&mut l);
    // As many as the program reads.
    assert!(l.cases.len() <= 1 << 20);
    l
}

// OURS, by documents 01 and 02: the reading is not the original's, nor are the lent output and the refusals 18 and 24.

fn payload(read: &Option<Line>) -> &[u8] {
    match read {
        Some(Line::Masked(f) | Line::Full(f)) => &f.payload,
        _ => &[],
    }
}

/// The line read into an output of `m` bytes: what it says, what the output holds, and the line written anew, which is itself.
fn answer(line: &[u8], m: usize) -> String {
    let read = lines::read(line);
    let payload = payload(&read);
    let said = match &read {
        None => return format!("refused 24 {}", shown(&lent(m))),
        Some(_) if payload.len() > m => return format!("refused 18 {}", shown(&lent(m))),
        Some(Line::Unread(n)) => format!("unread {n}"),
        Some(Line::Header { data_type, seq, len, command }) => {
            let command = command.map_or("-".into(), |c| c.to_string());
            format!("header {} {seq} {len} {command}", data_type.to_wire())
        }
        Some(Line::Masked(f)) => format!("masked {} {} {}", f.data_type.to_wire(), f.seq, payload.len()),
        Some(Line::Full(f)) => format!("full {} {} {}", f.data_type.to_wire(), f.seq, payload.len()),
    };
    format!("{said} {}{}", shown(&over(payload, m)), shown(line))
}

/// Of many lines: the answers that are not 24, each after its number, and an output that is lent to all of them.
fn others(lines: impl IntoIterator<Item = (usize, Vec<u8>)>, m: usize) -> String {
    let mut all = String::new();
    for (n, line) in lines {
        if lines::read(&line).is_some() {
            all += &format!("{n} {}", answer(&line, m));
        }
    }
    all + &shown(&lent(m))
}

// The cases.

/// A line as it stands. Its last byte, and no other, ends it.
fn whole(l: &mut List, line: &[u8], m: usize) {
    let text = line.strip_suffix(b"\n").expect("a line's end");
    let text = str::from_utf8(text).expect("text");
    assert!(!text.contains('\n'));
    l.add(format!("l {m} {text}"), answer(line, m));
}

fn any(l: &mut List, line: &[u8], m: usize) {
    l.add(format!("x {m} {}", field(line)), answer(line, m));
}

/// Every other byte at this place.
fn changed(l: &mut List, line: &str, at: usize, m: usize) {
    let changed = |b: u8| {
        let mut line = line.as_bytes().to_vec();
        (line[at] != b).then(|| {
            line[at] = b;
            (usize::from(b), line)
        })
    };
    l.add(format!("c {at} {m} {}", line.trim_end()), others((0..=255).filter_map(changed), m));
}

/// Every byte put in before this place.
fn put_in(l: &mut List, line: &str, at: usize, m: usize) {
    let put_in = |b: u8| {
        let mut line = line.as_bytes().to_vec();
        line.insert(at, b);
        (usize::from(b), line)
    };
    l.add(format!("i {at} {m} {}", line.trim_end()), others((0..=255).map(put_in), m));
}

/// Every cut: the first bytes, and without the first bytes.
fn cuts(l: &mut List, line: &str, m: usize) {
    let bytes = line.as_bytes();
    let first = (0..bytes.len()).map(|n| (n, bytes[..n].to_vec()));
    let rest = (1..=bytes.len()).map(|n| (n, bytes[n..].to_vec()));
    l.add(format!("p {m} {}", line.trim_end()), others(first.chain(rest), m));
}

/// The listing's lines: whole in outputs that are too short, exactly full and longer; and with every change of a byte, a byte more and cut.
fn listing(l: &mut List) {
    for line in LISTING {
        let n = payload(&lines::read(line.as_bytes())).len();
        for m in 0..n + 3 {
            whole(l, line.as_bytes(), m);
        }
        for at in 0..line.len() {
            changed(l, line, at, n);
        }
        for at in 0..=line.len() {
            put_in(l, line, at, n);
        }
        cuts(l, line, n);
        // The form is tried before the output.
        if n > 0 {
            for at in 0..line.len() {
                changed(l, line, at, n - 1);
            }
        }
    }
}

/// Every line of the long session's log.
fn session(l: &mut List) {
    let mut c = Choice::new(31);
    for line in crate::logs::list().1.split_inclusive(|&b| b == b'\n') {
        let read = lines::read(line);
        assert!(read.is_some(), "a line of the log reads");
        whole(l, line, payload(&read).len() + c.below(3));
    }
}

/// `R` lines: every two of the digits and of the characters beside them; and none, one or three digits.
fn numbers(l: &mut List) {
    let mut c = Choice::new(32);
    let set = b"0123456789/:A ";
    for a in set {
        for b in set {
            whole(l, &[b'R', b' ', *a, *b, b'\n'], c.below(3));
        }
    }
    for digits in ["", "8", "008", "012", "120", "0 8", "+8", "-8", "16 ", " 16", "16\r", "0C", "10"] {
        whole(l, format!("R {digits}\n").as_bytes(), 0);
    }
}

/// `H` lines: every type and sequence; lengths with a command and without.
fn headers(l: &mut List) {
    let mut c = Choice::new(33);
    for b in 0..=255 {
        whole(l, format!("H {b:02X}{:02X}00000000\n", c.byte()).as_bytes(), c.below(3));
        whole(l, format!("H {:02X}{b:02X}000000{:02X}{:02X}\n", c.byte(), b | 1, c.byte()).as_bytes(), c.below(3));
    }
    for len in [0, 1, 9, 10, 255, 256, 8_184, 8_185, 65_535, 65_536, 1 << 24, 1 << 31, u32::MAX - 1, u32::MAX] {
        for command in ["", "23", "3C", "00", "2", "2300", "230", "2g", "2a", "  "] {
            whole(l, format!("H 0C01{len:08X}{command}\n").as_bytes(), 0);
        }
    }
    for digits in ["", "0", "0C", "0C01", "0C0100", "0C01000000", "0C010000000"] {
        whole(l, format!("H {digits}\n").as_bytes(), 0);
    }
}

/// A body, some of whose markers stay raw, and now and then a sentry that escapes nothing.
fn raw(c: &mut Choice, body: &[u8], most: usize) -> Vec<u8> {
    let mut out = vec![START];
    for &b in body {
        if b != SENTRY && c.below(8) < most { out.push(b) } else { escape_into(&[b], &mut out) }
        if c.below(60) < most {
            out.extend([SENTRY, c.of(&[0x2B, 0x2C, 0x2D, 0x2E, 0x2F, SENTRY])]);
        }
    }
    out.push(END);
    out
}

/// `F` and `S` lines of frames with markers in every part: true ones, with the length or the sum or both false, with raw markers.
fn packed(l: &mut List) {
    let mut c = Choice::new(34);
    let text = |letter: char, bytes: &[u8]| format!("{letter} {}\n", hex(bytes)).into_bytes();
    for b in 0..=255 {
        whole(l, &text('F', &framed(b, c.byte(), &[])), c.below(3));
        whole(l, &text('S', &framed(c.byte(), b, &[b])), 1 + c.below(3));
    }
    for i in 0..1600 {
        let n = c.below(9);
        let mut body = vec![c.of(&[0, 1, 0x0C, 0x0E, END, START, SENTRY, 0xFF]), c.of(&[0, 1, END, START, SENTRY]), 0, 0, 0, n as u8];
        body.extend((0..n).map(|_| c.of(&[END, START, SENTRY, 0x41, 0x2A, 0x2E])));
        if i % 8 == 1 || i % 8 == 2 {
            body[2 + c.below(4)] = c.of(&[0, 1, 2, END, START, 0xFF]);
        }
        body.push(checksum(&body));
        if i % 8 == 2 || i % 8 == 3 {
            *body.last_mut().unwrap() = c.of(&[0, 1, END, START]);
        }
        let most = [0, 1, 4][c.below(3)];
        let bytes = raw(&mut c, &body, most);
        let letter = ['F', 'S'][c.below(2)];
        whole(l, &text(letter, &bytes), (n + c.below(4)).saturating_sub(1));
    }
    // Bodies that are too short, markers left out or put twice, and odd digits.
    for n in 0..8 {
        whole(l, &text('F', &escaped(&vec![0; n])), 0);
    }
    let frame = framed(0x0C, 0, &[0x23, 0x00, 0x50, 0x01]);
    for bytes in [&frame[1..], &frame[..frame.len() - 1], &[&frame[..1], &frame].concat(), &[&frame, &[END][..]].concat(), &[]] {
        whole(l, &text('F', bytes), 4);
    }
    for digits in ["0", "000", "3E3", "3E0C000000000423005001843C0", "3E0C00000000042300500184 3C", "3e0c000000000423005001843c"] {
        whole(l, format!("F {digits}\n").as_bytes(), 4);
    }
}

/// The longest line that a session can have, and the longest that was written before, when names had lengths: 255 devices, there with names
/// of 255 bytes, and all that is escaped which can be.
pub fn longest_lines() -> [String; 2] {
    [(0, 13_297), (255, 143_347)].map(|(name, longest)| {
        // So many devices have another status, which moves the sum.
        let devices = |others: usize| {
            let mut p = vec![START, 0x02, 255];
            for i in 0..255 {
                p.extend([0x2A; 17]);
                p.extend([if i < others { END } else { START }, END, SENTRY, START, name]);
                p.extend(vec![0x2A; name.into()]);
            }
            p.push(END);
            p
        };
        let line = |others: usize| format!("S {}\n", hex(&framed(0x0E, START, &devices(others))));
        (0..255).map(line).find(|line| line.len() == longest).expect("a sum that is escaped")
    })
}

fn longest(l: &mut List) {
    for line in longest_lines() {
        let n = payload(&lines::read(line.as_bytes())).len();
        whole(l, line.as_bytes(), n);
    }
}

/// Lines of the session with a byte or two changed, put in or left out, or cut, so that what comes out is any bytes.
fn damaged(l: &mut List) {
    let mut c = Choice::new(35);
    let log = crate::logs::list().1;
    let lines: Vec<&[u8]> = log.split_inclusive(|&b| b == b'\n').filter(|l| l.len() <= 60).collect();
    for bytes in [&b""[..], b"\n", b"F", b"R ", b"F \n", b"S \n", b"R \n", b"H \n", b"\n\n", b"R 08\nR 08\n", b"R 08\r\n", b"R 08\n\n"] {
        any(l, bytes, 2);
    }
    for _ in 0..1600 {
        let mut line = lines[c.below(lines.len())].to_vec();
        let n = payload(&lines::read(&line)).len();
        for _ in 0..=c.below(2) {
            let at = c.below(line.len());
            let b = c.byte();
            let b = c.of(&[b, b'0', b'1', b'A', b'F', b'f', b' ', b'\n', b'C', b'3', b'D', b'E']);
            match c.below(5) {
                0 => line.insert(at, b),
                1 if line.len() > 1 => drop(line.remove(at)),
                2 => line.truncate(at + 1),
                _ => line[at] = b,
            }
        }
        any(l, &line, n + c.below(2));
    }
}

/// Lines written before 02's C-20: batteries with every level above 100 in every cell of every layout, in full.
fn high_levels(l: &mut List) {
    for (level, p) in every_level(0x23) {
        if level <= 100 {
            continue;
        }
        let line = format!("F {}\n", hex(&framed(0x0C, level % 2, &p))).into_bytes();
        let Some(Line::Full(frame)) = lines::read(&line) else { panic!("a line that reads") };
        assert_eq!(frame.payload, p);
        whole(l, &line, p.len());
    }
}
