//! A capture for `tally`, and where its bytes went: the Rust's scanner, and counts of what it did.
use crate::text::rule;
use common::choice::Choice;
use common::counts;
use common::frames::{END, HOUSE, START, accepted, framed};
use common::streams::{KINDS, stream};
use original::mdr::frame_8192::{MAX_BUFFER, Scanner};

/// How many bytes a piece has.
const PIECE: usize = 4_096;

/// The capture, and the four lines.
pub fn list() -> (Vec<u8>, Vec<u8>) {
    let capture = capture();
    assert!(capture.len() < 900_000 && capture.len() % PIECE != 0);
    let [pushed, spans, dropped, held] = counted(&capture);
    (capture, format!("pushed {pushed}\nspans {spans}\ndropped {dropped}\nheld {held}\n").into_bytes())
}

/// OURS, by 02's C-17: bytes pushed, in spans handed over, dropped, and held at the end.
fn counted(capture: &[u8]) -> [usize; 4] {
    let mut scanner = Scanner::new();
    let (mut pushed, mut spans, mut dropped) = (0, 0, 0);
    let (mut longest_kept, mut cleared, mut most_held) = (0, 0, 0);
    for piece in capture.chunks(PIECE) {
        scanner.push(piece);
        pushed += piece.len();
        loop {
            let before = scanner.buf.clone();
            let span = scanner.next_raw();
            let len = span.as_ref().map_or(0, Vec::len);
            let went = counts::dropped(&before, span.as_deref(), &scanner.buf);
            spans += len;
            dropped += went;
            most_held = most_held.max(before.len());
            longest_kept += usize::from(len == MAX_BUFFER + 1);
            if span.is_none() {
                cleared += usize::from(went > MAX_BUFFER);
                break;
            }
        }
    }
    let held = scanner.buffered();
    assert_eq!(pushed, spans + dropped + held);
    // No push of the program's is refused, and there is some of everything.
    assert!(most_held <= 12_288 && longest_kept >= 3 && cleared >= 3 && held > 0);
    [pushed, spans, dropped, held]
}

fn capture() -> Vec<u8> {
    let mut c = Choice::new(71);
    // Nothing but noise, longer than a piece.
    let mut out = vec![END; 5_000];
    for (kind, seed) in KINDS.into_iter().zip(72..) {
        out.extend(stream(kind, seed, 12_000));
        out.push(END);
    }
    for (data_type, command, entry) in HOUSE {
        out.extend(framed(data_type, c.byte(), &accepted(&mut c, entry, command)));
        out.extend(vec![0x41; c.below(5)]);
    }
    for n in 0..4 {
        // Up to the longest span that is sure to be kept, then what is cleared before its END comes, which is noise then.
        for len in [MAX_BUFFER, MAX_BUFFER + 1, MAX_BUFFER + 2 + PIECE] {
            out.extend(vec![0x42; 700 * n]);
            out.push(START);
            out.extend(plain(len - 2));
            out.push(END);
        }
        out.extend(framed(0x01, 1, &[]));
    }
    // A START that nothing ends, and one whose END has not come.
    out.push(START);
    out.extend(plain(3 * PIECE));
    out.extend([END, 0, START, 0x0C, 0, 0, 0, 0, 4, 0x23, 0]);
    out
}

/// So many bytes that are no marker.
fn plain(n: usize) -> Vec<u8> {
    rule(2, n).into_iter().map(|b| b | 0x80).collect()
}
