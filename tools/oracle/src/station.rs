//! A capture for `station`, and its acks: the Rust's scanner, `unpack` and `ack_frame`.
use crate::text::rule;
use common::acks::of_span;
use common::choice::Choice;
use common::counts::dropped;
use common::frames::{END, HOUSE, SENTRY, START, accepted, body, damage, escaped, framed, raw_starts};
use common::streams::{KINDS, stream};
use original::mdr::frame::unpack;
use original::mdr::frame_8192::{MAX_BUFFER, Scanner};

/// How many bytes a piece has.
const PIECE: usize = 4_096;

/// The capture, and its acks.
pub fn list() -> (Vec<u8>, Vec<u8>) {
    let capture = capture();
    assert!(capture.len() < 300_000 && capture.len() % PIECE != 0);
    let acks = acks(&capture);
    (capture, acks)
}

fn acks(capture: &[u8]) -> Vec<u8> {
    let mut scanner = Scanner::new();
    let mut acks = vec![];
    // Which types and sequences are acknowledged, and what there is beside such frames.
    let (mut types, mut sequences) = ([false; 256], [false; 256]);
    let (mut refused, mut own, mut raw) = (0, 0, 0);
    let (mut longest, mut longer, mut cleared) = (0, 0, 0);
    for piece in capture.chunks(PIECE) {
        scanner.push(piece);
        loop {
            let before = scanner.buf.clone();
            let Some(span) = scanner.next_raw() else {
                cleared += usize::from(dropped(&before, None, &scanner.buf) > MAX_BUFFER);
                break;
            };
            assert!(before.len() <= 12_288);
            let ack = of_span(&span);
            match (unpack(&span), &ack) {
                (Ok(frame), Some(_)) => {
                    types[usize::from(frame.data_type.to_wire())] = true;
                    sequences[usize::from(frame.seq)] = true;
                    raw += usize::from(span[1..].contains(&START));
                    longest += usize::from(span.len() == MAX_BUFFER + 1);
                    longer += usize::from(span.len() > MAX_BUFFER + 1);
                }
                (Ok(_), None) => own += 1,
                (Err(_), _) => refused += 1,
            }
            acks.extend(ack.into_iter().flatten());
        }
    }
    // There is some of everything.
    assert!((0..=255).all(|b: u8| types[usize::from(b)] == (b != 0x01) && sequences[usize::from(b)]));
    assert!([refused, own, raw].iter().all(|&n| n > 100) && longest >= 3 && longer >= 1 && cleared >= 4);
    assert!(scanner.buffered() > 0);
    acks
}

fn capture() -> Vec<u8> {
    let mut c = Choice::new(321);
    // Nothing but noise, longer than a piece.
    let mut out = vec![END; 5_000];
    for (kind, seed) in KINDS.into_iter().zip(322..) {
        out.extend(stream(kind, seed, 12_000));
        out.push(END);
    }
    for (data_type, command, entry) in HOUSE {
        out.extend(framed(data_type, c.byte(), &accepted(&mut c, entry, command)));
        out.extend(vec![0x41; c.below(5)]);
    }
    // Every type and every sequence, with an ack of it behind, as a headset would send it.
    for b in 0..=255 {
        out.extend(framed(b, c.byte(), &[]));
        out.extend(framed(c.of(&[0x0C, 0x0E]), b, &[0x22]));
        out.extend(framed(0x01, 1u8.wrapping_sub(b), &[]));
    }
    faults(&mut c, &mut out, 1_000);
    out.push(END);
    for n in 0..4 {
        // Up to the longest span that is sure to be kept, then one that is kept or not by where its pieces begin, and what is cleared before
        // its END comes, which is noise then.
        for len in [MAX_BUFFER, MAX_BUFFER + 1, MAX_BUFFER + 1_500, MAX_BUFFER + 2 + PIECE] {
            out.extend(vec![0x42; 700 * n]);
            out.extend(long(len, n as u8));
        }
        out.extend(framed(0x0C, 1, &[]));
    }
    // The shortest frames with the longest acks, so that those of a piece have more bytes than it.
    out.extend(framed(0x0C, 0xC4, &[]).repeat(1_000));
    // A START that nothing ends, and a frame whose END has not come.
    out.push(START);
    out.extend(plain(3 * PIECE));
    out.extend([END, 0, START, 0x0C, 0, 0, 0, 0, 4, 0x23, 0]);
    out
}

/// Frames of which some are damaged, some declare a false length, some hold a raw START, and some follow bytes that are in no span.
fn faults(c: &mut Choice, out: &mut Vec<u8>, count: usize) {
    for _ in 0..count {
        let n = c.below(12);
        let payload: Vec<u8> = (0..n).map(|_| c.of(&[0, 1, 0x23, START, END, SENTRY])).collect();
        let data_type = c.of(&[0x00, 0x01, 0x0C, 0x0E, START]);
        let mut frame = framed(data_type, c.byte(), &payload);
        match c.below(8) {
            0 | 1 => damage(c, &mut frame),
            2 => frame = escaped(&body(data_type, c.byte(), c.below(12) as u32, &payload)),
            3 | 4 => frame = raw_starts(frame),
            5 => out.extend(vec![c.of(&[END, 0x41]); c.below(8)]),
            _ => {}
        }
        out.extend(frame);
    }
}

/// A frame of so many bytes; some in its header and its sum may be escaped.
fn long(len: usize, seq: u8) -> Vec<u8> {
    (len - 15..len - 8).map(|n| framed(0x0C, seq, &plain(n))).find(|frame| frame.len() == len).expect("a payload of some length")
}

/// So many bytes that are no marker.
fn plain(n: usize) -> Vec<u8> {
    rule(2, n).into_iter().map(|b| b | 0x80).collect()
}
