//! Lines of a log read back, beside the reading over the original.
use crate::case::{Case, Run, Tally, fewer, fewer_in_frame, hex};
use crate::framing::frame_like;
use crate::inputs::{any, room, shortest, strings, values};
use crate::lent::{Left, Lent, MOST_VALUES, Told, Values, left_difference, told_difference};
use common::choice::Choice;
use common::frames::{END, HOUSE, SENTRY, START, accepted, body, escaped, every_level, framed, house_plan};
use common::lines::{Line, bytes_of, read};
use common::log::{Log, entry, mask, number, reading};
use original::mdr::frame::{Frame, unescape, unpack};
use original::mdr::payload::Reading;

/// What is told of a line, its letter first.
fn numbers(line: &Line) -> [u64; 5] {
    let frame = |letter: u8, f: &Frame| [letter.into(), f.data_type.to_wire().into(), f.seq.into(), f.payload.len() as u64, 256];
    match line {
        Line::Unread(number) => [b'R'.into(), (*number).into(), 0, 0, 256],
        Line::Header { data_type, seq, len, command } => {
            [b'H'.into(), data_type.to_wire().into(), (*seq).into(), (*len).into(), command.map_or(256, u64::from)]
        }
        Line::Masked(f) => frame(b'S', f),
        Line::Full(f) => frame(b'F', f),
    }
}

/// What comes to stand in the output.
fn payload(line: &Line) -> &[u8] {
    match line {
        Line::Unread(_) | Line::Header { .. } => &[],
        Line::Masked(f) | Line::Full(f) => &f.payload,
    }
}

/// A span's public part, by 01 and by 02's C-15 and C-20.
fn public_part(plan: &[u8], span: &[u8]) -> Line {
    let mut f = match unpack(span) {
        Ok(f) => f,
        Err(e) => return Line::Unread(number(e)),
    };
    match reading(plan, f.data_type.to_wire(), &f.payload) {
        None => {
            let hidden = entry(plan, f.data_type.to_wire(), &f.payload) == 5;
            let len = if hidden { u32::MAX } else { f.payload.len() as u32 };
            Line::Header { data_type: f.data_type, seq: f.seq, len, command: f.payload.first().copied() }
        }
        Some(Reading::PairedDevices(devices)) => {
            mask(&mut f.payload, devices.len());
            Line::Masked(f)
        }
        Some(_) => Line::Full(f),
    }
}

/// A span's line, which must read as its public part.
fn rendered(plan: &[u8], span: &[u8]) -> Vec<u8> {
    let mut line = Vec::new();
    Log::default().line(plan, span, &mut line);
    assert_eq!(read(&line), Some(public_part(plan, span)));
    line
}

#[derive(Clone)]
pub struct ReadLine {
    bytes: Vec<u8>,
    /// The output's length less the payload's.
    room: isize,
    values: usize,
}

impl ReadLine {
    fn of(bytes: impl Into<Vec<u8>>) -> ReadLine {
        ReadLine { bytes: bytes.into(), room: 1, values: MOST_VALUES }
    }
}

impl Case for ReadLine {
    fn difference(&self, tally: &mut Tally) -> Option<String> {
        let expected = read(&self.bytes);
        let need = expected.as_ref().map_or(0, |line| payload(line).len());
        let mut out = Lent::new(need.saturating_add_signed(self.room));
        let mut values = Values::new(self.values);
        let status = ours::read_line(&self.bytes, out.lend(), values.lend());
        let (told, outcome, left) = match expected {
            None => (Told::refused(24), 24, Left::Untouched),
            Some(_) if out.held().len() < need => (Told::refused(18), 18, Left::Untouched),
            Some(line) => (Told::accepted(&numbers(&line)), self.bytes[0], Left::Front(payload(&line).to_vec())),
        };
        tally.add("read_line", outcome);
        told_difference(&told, status, &values).or_else(|| left_difference("output", &left.whole(&out), &out))
    }

    fn smaller(&self) -> Vec<ReadLine> {
        let mut all = Vec::new();
        if let [letter, b' ', digits @ .., b'\n'] = &self.bytes[..]
            && let Some(frame) = bytes_of(digits)
        {
            all.extend(fewer_in_frame(&frame).iter().map(|frame| line_of(*letter, frame)));
        }
        all.extend(fewer(&self.bytes));
        let mut all: Vec<ReadLine> = all.into_iter().map(|bytes| ReadLine { bytes, ..self.clone() }).collect();
        if self.room != 0 {
            all.push(ReadLine { room: 0, ..self.clone() });
            all.push(ReadLine { room: self.room - self.room.signum(), ..self.clone() });
        }
        if self.values != MOST_VALUES {
            all.push(ReadLine { values: MOST_VALUES, ..self.clone() });
        }
        all
    }

    fn shown(&self) -> String {
        format!(
            "read_line of {} bytes {:?}, an output of {:+} bytes over the payload, values {}",
            self.bytes.len(),
            String::from_utf8_lossy(&self.bytes),
            self.room,
            self.values
        )
    }
}

/// A letter and the digits of these bytes.
fn line_of(letter: u8, bytes: &[u8]) -> Vec<u8> {
    [&[letter, b' '], hex(bytes).as_bytes(), b"\n"].concat()
}

/// A line, then it with each byte changed to each other, with each left out, put in twice or followed by the end, and with more before and
/// behind it.
fn changed(run: &mut Run, line: &[u8]) {
    run.case(&ReadLine::of(line));
    for at in 0..line.len() {
        for b in 0..=255 {
            let mut line = line.to_vec();
            line[at] = b;
            run.case(&ReadLine::of(line));
        }
        let (before, behind) = line.split_at(at);
        run.case(&ReadLine::of(before));
        run.case(&ReadLine::of(behind));
        run.case(&ReadLine::of([before, b"\n"].concat()));
        run.case(&ReadLine::of([before, &behind[1..]].concat()));
        run.case(&ReadLine::of([before, &behind[..1], behind].concat()));
        run.case(&ReadLine::of([before, b"\n", behind].concat()));
    }
    for b in 0..=255 {
        run.case(&ReadLine::of([line, &[b]].concat()));
        run.case(&ReadLine::of([&[b], line].concat()));
        run.case(&ReadLine::of([&line[..line.len() - 1], &[b, b'\n']].concat()));
    }
    run.case(&ReadLine::of([line, line].concat()));
    run.case(&ReadLine::of(line.to_ascii_lowercase()));
    let digits = String::from_utf8_lossy(&line[2..]).to_ascii_lowercase();
    run.case(&ReadLine::of([&line[..2], digits.as_bytes()].concat()));
}

/// Every short line, and every change of one byte in lines of every form.
pub fn exhaustive(run: &mut Run) {
    let every: Vec<u8> = (0..=255).collect();
    for bytes in shortest() {
        run.case(&ReadLine::of(&bytes[..]));
        run.case(&ReadLine::of([&bytes[..], b"\n"].concat()));
        run.case(&ReadLine::of([b"R ", &bytes[..], b"\n"].concat()));
    }
    for digits in strings(b"0123456789", 3) {
        run.case(&ReadLine::of([b"R ", &digits[..], b"\n"].concat()));
    }
    // The letter and the space, before what is good behind others.
    for start in strings(&every, 2) {
        for rest in [&b"08\n"[..], b"010100000000\n", b"3E0C000000000423005001843C\n"] {
            run.case(&ReadLine::of([&start[..], rest].concat()));
        }
    }
    // Headers with each number of digits, and with and without a command.
    for len in [0, 1, 0xFF, 0x100, 0x1_0000, 0x100_0000, 0xFFFF_FFFF_u32] {
        let digits = hex(&[&[0x0C, 0x01][..], &len.to_be_bytes(), &[0x23; 4]].concat());
        for n in 0..=digits.len() {
            run.case(&ReadLine::of([b"H ", &digits.as_bytes()[..n], b"\n"].concat()));
        }
    }
    for line in ["R 08\n", "R 16\n", "H 010100000000\n", "H 0C0000000001A5\n", "H 3E3C3D0000003D\n"] {
        changed(run, line.as_bytes());
    }
    // Every type and every sequence.
    for b in 0..=255 {
        for letter in [b'S', b'F', b'H', b'R'] {
            for frame in [framed(b, 0, &[]), framed(0x0C, b, &[b; 2]), framed(b, b, &[0x23])] {
                run.case(&ReadLine::of(line_of(letter, &frame)));
                let f = unpack(&frame).expect("a frame packed");
                let head = [&[f.data_type.to_wire(), f.seq], &(f.payload.len() as u32).to_be_bytes()[..], &f.payload].concat();
                run.case(&ReadLine::of(line_of(letter, &head)));
            }
        }
    }
    // A payload in every spelling, of which one alone is what packing makes.
    let few = [END, SENTRY, START, 0x2C, 0x2D, 0x2E, 0x41];
    for n in 0..=4 {
        for spelled in strings(&few, n) {
            let frame = match unescape(&spelled) {
                Ok(payload) => {
                    let body = body(0x0C, 1, payload.len() as u32, &payload);
                    let (head, sum) = (escaped(&body[..6]), escaped(&body[body.len() - 1..]));
                    [&head[..head.len() - 1], &spelled, &sum[1..]].concat()
                }
                Err(_) => [&[START, 0x0C, 1, 0, 0, 0, 0], &spelled[..], &[0x0D, END]].concat(),
            };
            run.case(&ReadLine::of(line_of(b'F', &frame)));
        }
    }
    // Frames of every kind, what a plan makes of them, and both letters before them; every room of the output.
    for (data_type, command, entry) in HOUSE.into_iter().chain([(0x01, 0, 7), (0x0C, 0xA5, 7), (0x77, 0x3E, 1)]) {
        let frame = framed(data_type, SENTRY, &accepted(&mut Choice::new(4), entry, command));
        for line in [rendered(&house_plan(), &frame), line_of(b'S', &frame), line_of(b'F', &frame)] {
            if line.len() < 200 {
                changed(run, &line);
            }
            for room in -40..=40 {
                run.case(&ReadLine { room, ..ReadLine::of(&line[..]) });
            }
            for values in 0..=MOST_VALUES {
                run.case(&ReadLine { values, ..ReadLine::of(&line[..]) });
            }
        }
    }
    // Batteries of every level in every cell of every layout: what the house plan makes of them, and in full, as stored logs may have them.
    for (level, payload) in every_level(0x23) {
        let frame = framed(0x0C, level % 2, &payload);
        let line = rendered(&house_plan(), &frame);
        assert_eq!(line[0], if level <= 100 { b'F' } else { b'H' });
        run.case(&ReadLine::of(line));
        run.case(&ReadLine::of(line_of(b'F', &frame)));
    }
}

/// The text with a byte changed, put in or left out, cut off, longer, or in small letters.
pub fn damage_text(c: &mut Choice, line: &mut Vec<u8>) {
    let b = match c.below(4) {
        0 => c.byte(),
        1 => c.of(b"abcdef \n\r@G/:`"),
        _ => c.of(b"0123456789ABCDEF"),
    };
    let at = c.below(line.len() + 1);
    match c.below(16) {
        0 => line.truncate(at),
        1 => line.insert(at, b),
        2 => drop(line.drain(at..line.len().min(at + 1))),
        3 => drop(line.drain(at..line.len().min(at + 2))),
        4 => line.push(b),
        5 => line.extend_from_within(..),
        6 => line.make_ascii_lowercase(),
        7 => line.insert(line.len().saturating_sub(1), b'\r'),
        8 => line.extend_from_slice(b"\n"),
        9 if !line.is_empty() => line[0] = c.of(b"RHSFrhsf"),
        _ if at < line.len() => line[at] = b,
        _ => {}
    }
}

/// The first span of the bytes, or the shortest there is.
pub fn span_of(bytes: &[u8]) -> Vec<u8> {
    let behind = |from: usize, mark: u8| bytes[from..].iter().position(|&b| b == mark).map(|n| from + n);
    let span = behind(0, START).and_then(|start| Some(bytes[start..=behind(start, END)?].to_vec()));
    span.unwrap_or(vec![START, END])
}

/// A span's line under the house plan or any other.
pub fn span_line(c: &mut Choice) -> Vec<u8> {
    let plan = if c.one_in(3) { (0..512).map(|_| c.below(9) as u8).collect() } else { house_plan() };
    rendered(&plan, &span_of(&frame_like(c)))
}

/// A span's line, a letter and the digits of a frame or of what may be one, or a header; now and then damaged.
pub fn line_like(c: &mut Choice) -> Vec<u8> {
    let mut bytes = match c.below(8) {
        0..3 => span_line(c),
        3 | 4 => line_of(c.of(b"FS"), &framed(c.byte(), c.byte(), &any(c))),
        5 | 6 => line_of(c.of(b"FSFSFSHR"), &frame_like(c)),
        _ => {
            let len = c.of(&[0, 0, 1, 7, 0x3C, 0x100, 0x3D3E_3F40, u32::MAX]);
            let commands = if c.one_in(4) { c.below(3) } else { usize::from(len != 0) };
            line_of(b'H', &[&c.bytes(2), &len.to_be_bytes()[..], &c.bytes(commands)].concat())
        }
    };
    for _ in 0..c.of(&[0, 0, 0, 1, 1, 2, 5]) {
        damage_text(c, &mut bytes);
    }
    bytes
}

pub fn random(run: &mut Run, c: &mut Choice) {
    run.case(&ReadLine { bytes: line_like(c), room: room(c), values: values(c) });
}
