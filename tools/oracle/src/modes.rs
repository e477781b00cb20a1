//! A capture for `modes`, and a line for each of its noise reports: the Rust's scanner, `unpack` and `decode_noise`, and the counts of the
//! last reports by `tools/common/src/window.rs`.
use crate::text::rule;
use common::choice::Choice;
use common::counts::dropped;
use common::frames::{END, HOUSE, MARKS, SENTRY, START, accepted, body, damage, escaped, framed, noise};
use common::streams::{KINDS, stream};
use common::window::{counts, report};
use original::mdr::frame::unpack;
use original::mdr::frame_8192::{MAX_BUFFER, Scanner};

/// How many bytes a piece has.
const PIECE: usize = 4_096;

/// The argument, in crates/modes/args.
const WIDTH: u64 = 10;

/// The capture, and the lines.
pub fn list() -> (Vec<u8>, Vec<u8>) {
    let capture = capture();
    assert!(capture.len() < 300_000 && capture.len() % PIECE != 0);
    let lines = lines(&capture);
    (capture, lines.into_bytes())
}

/// OURS, by 02's C-19: a report is a frame of type 0C with the command 67 or 69 whose payload the decoder accepts.
fn lines(capture: &[u8]) -> String {
    let mut scanner = Scanner::new();
    let (mut reports, mut lines) = (vec![], String::new());
    // What there is beside reports, and which numbers each count has.
    let (mut damaged, mut other_type, mut other_command, mut refused) = (0, 0, 0, 0);
    let (mut escapes, mut longest, mut cleared) = (0, 0, 0);
    let mut met = [[false; WIDTH as usize + 1]; 4];
    for piece in capture.chunks(PIECE) {
        scanner.push(piece);
        loop {
            let before = scanner.buf.clone();
            let Some(span) = scanner.next_raw() else {
                cleared += usize::from(dropped(&before, None, &scanner.buf) > MAX_BUFFER);
                break;
            };
            assert!(before.len() <= 12_288 && span.len() <= MAX_BUFFER + 1);
            longest += usize::from(span.len() == MAX_BUFFER + 1);
            let Ok(frame) = unpack(&span) else {
                damaged += 1;
                continue;
            };
            let is_noise = matches!(frame.payload.first(), Some(0x67 | 0x69));
            match (frame.data_type.to_wire(), is_noise) {
                (0x0C, true) => match report(&frame.payload) {
                    Ok(report) => {
                        reports.push(report);
                        let counts @ [off, anc, ambient, level] = counts(WIDTH, &reports);
                        lines += &format!("off {off} anc {anc} ambient {ambient} level {level}\n");
                        for (met, n) in met.iter_mut().zip(counts) {
                            met[n as usize] = true;
                        }
                        escapes += usize::from(span.contains(&SENTRY));
                    }
                    Err(_) => refused += 1,
                },
                (0x0C, false) => other_command += 1,
                (_, true) => other_type += 1,
                (_, false) => {}
            }
        }
    }
    // There is some of everything.
    assert!(reports.len() > 2_000 && met.as_flattened().iter().all(|&met| met) && scanner.buffered() > 0);
    assert!([damaged, other_type, other_command, refused, escapes].iter().all(|&n| n > 200) && longest >= 3 && cleared >= 3);
    lines
}

fn capture() -> Vec<u8> {
    let mut c = Choice::new(211);
    let mut out = vec![END; 300];
    for (kind, seed) in KINDS.into_iter().zip(212..) {
        out.extend(stream(kind, seed, 14_000));
        out.push(END);
    }
    for (data_type, command, entry) in HOUSE {
        out.extend(framed(data_type, c.byte(), &accepted(&mut c, entry, command)));
    }
    // Every type, and every command.
    for b in 0..=255 {
        for command in [0x67, 0x69] {
            out.extend(framed(b, c.byte(), &noise(&mut c, command)));
        }
        out.extend(framed(0x0C, c.byte(), &noise(&mut c, b)));
        out.extend(framed(0x0E, c.byte(), &noise(&mut c, b)));
    }
    reports(&mut c, &mut out, 1_000);
    for n in 0..4 {
        long(&mut c, &mut out, 700 * n);
    }
    runs(&mut c, &mut out);
    reports(&mut c, &mut out, 1_500);
    // A report whose END has not come.
    out.extend([END, START, 0x0C, 0, 0, 0, 0, 7, 0x67, 0x17, 0x01, 0x01]);
    out
}

/// Reports of any kind; some are refused, some damaged, some hold a raw START, and some follow bytes that are in no span.
fn reports(c: &mut Choice, out: &mut Vec<u8>, count: usize) {
    for _ in 0..count {
        let command = c.of(&[0x67, 0x69]);
        let mut payload = noise(c, command);
        match c.below(12) {
            0 => damage(c, &mut payload),
            1 => payload.push(c.byte()),
            // The level, and others, of bytes that are escaped.
            2..5 => {
                let at = c.between(2, payload.len() - 1);
                payload[at] = c.of(&MARKS);
            }
            _ => {}
        }
        let seq = if c.one_in(8) { c.of(&MARKS) } else { c.byte() };
        let mut frame = framed(0x0C, seq, &payload);
        match c.below(20) {
            0 => damage(c, &mut frame),
            1 => frame = raw_start(&payload),
            _ => {}
        }
        out.extend(frame);
        if c.one_in(6) {
            let n = c.below(30);
            out.extend(c.bytes(n).into_iter().filter(|&b| b != START));
        }
    }
}

/// A frame whose START bytes are not escaped; its sequence is one.
fn raw_start(payload: &[u8]) -> Vec<u8> {
    let escaped = escaped(&body(0x0C, START, payload.len() as u32, payload));
    let mut out = vec![];
    let mut rest = &escaped[..];
    while let [first, behind @ ..] = rest {
        let raw = rest.starts_with(&[SENTRY, 0x2E]);
        out.push(if raw { START } else { *first });
        rest = if raw { &behind[1..] } else { behind };
    }
    out
}

/// Spans of up to the limit and one byte more, which are kept, and one that is cleared before its END comes; reports between them.
fn long(c: &mut Choice, out: &mut Vec<u8>, before: usize) {
    let one = |c: &mut Choice| framed(0x0C, 0, &noise(c, 0x67));
    out.extend(vec![0x42; before]);
    // A frame that the decoder refuses; a sum that is escaped makes it longer.
    let payload = [&[0x69, 0x17, 0x01, 0x01, 0x01, 0x00, 0x05][..], &plain(MAX_BUFFER + 1 - 9 - 7)].concat();
    let kept = (0..=255).map(|seq| framed(0x0C, seq, &payload)).find(|frame| frame.len() == MAX_BUFFER + 1);
    out.extend(kept.expect("a plain sum"));
    out.extend(one(c));
    // Reports within a span that has begun before them: no frame.
    out.push(START);
    out.extend(plain(MAX_BUFFER / 2));
    out.extend(one(c));
    out.extend(one(c));
    // Cleared, and its END is noise then.
    out.push(START);
    out.extend(plain(MAX_BUFFER + PIECE));
    out.push(END);
    out.extend(one(c));
    out.extend(one(c));
}

/// Each mode, with a level and without, in runs of up to one more than the width.
fn runs(c: &mut Choice, out: &mut Vec<u8>) {
    let off = [0x67, 0x15, 0x01, 0x00, 0x00, 0x00, 0x05];
    let anc = [0x69, 0x17, 0x01, 0x01, 0x00, 0x00, START];
    let ambient = [0x67, 0x22, 0x01, 0x01, 0x00, END];
    let (switch_off, switch_on) = ([0x67, 0x01, 0x01, 0x01, 0x00], [0x67, 0x01, 0x01, 0x01, 0x01]);
    let kinds: [&[u8]; 5] = [&off, &anc, &ambient, &switch_off, &switch_on];
    for run in (1..=WIDTH as usize + 1).rev() {
        for payload in kinds {
            for _ in 0..run {
                out.extend(framed(0x0C, c.byte(), payload));
            }
        }
    }
}

/// So many bytes that are no marker.
fn plain(n: usize) -> Vec<u8> {
    rule(2, n).into_iter().map(|b| b | 0x80).collect()
}
