//! A capture for `replay_again`, its log, and the log of the frames that the log holds, which must be its `F` and `S` lines.
use common::choice::Choice;
use common::frames::{END, START, escaped, framed, house_plan, paired};
use common::log::Log;
use common::lines::frames;
use common::streams::{Kind, stream};
use original::mdr::frame_8192::{MAX_BUFFER, Scanner};

/// The capture, and both logs, an empty line between them.
pub fn list() -> (Vec<u8>, Vec<u8>) {
    let capture = capture();
    let first = log(&capture);
    let frames = frames(&first);
    let second = log(&frames);
    let whole: Vec<u8> = first.split_inclusive(|&b| b == b'\n').filter(|l| b"FS".contains(&l[0])).flatten().copied().collect();
    assert!(second == whole, "the frames' log is the F and S lines");
    for letter in *b"FSHR" {
        assert!(first.split(|&b| b == b'\n').any(|l| l.first() == Some(&letter)));
    }
    (capture, [&first[..], b"\n", &second].concat())
}

/// The log of a stream that comes in pieces of 4,096 bytes. No span of it, and no frame that its log holds, is longer than a limit of
/// 8,192 is sure to keep.
pub fn log(stream: &[u8]) -> Vec<u8> {
    let (plan, mut lines, mut log) = (house_plan(), Log::default(), vec![]);
    let mut scanner = Scanner::new();
    for piece in stream.chunks(4_096) {
        scanner.push(piece);
        while let Some(span) = scanner.next_raw() {
            assert!(span.len() <= MAX_BUFFER + 1);
            let at = log.len();
            lines.line(&plan, &span, &mut log);
            assert!(log.len() - at <= 2 * (MAX_BUFFER + 1) + 3);
        }
    }
    log
}

/// Sessions with noise and damage, raw markers, frames of up to the limit and one byte more, and a frame whose end never comes.
fn capture() -> Vec<u8> {
    let mut c = Choice::new(41);
    let mut out = [stream(Kind::Mixed, 42, 24_000), stream(Kind::Damaged, 43, 12_000), stream(Kind::Noise, 44, 2_000)].concat();
    out.push(END);
    // A raw START in a battery's level, in a sequence, and in the sum.
    out.extend([START, 0x0C, 0, 0, 0, 0, 4, 0x23, 0, START, 0, 0x71, END]);
    out.extend([START, 0x0C, START, 0, 0, 0, 4, 0x23, 0, 0x50, 0, 0xC1, END]);
    out.extend([START, 0x0C, 0, 0, 0, 0, 4, 0x23, 0, 0x0B, 0, START, END]);
    out.extend(stream(Kind::Small, 45, 2_000));
    out.push(END);
    for n in [MAX_BUFFER - 1, MAX_BUFFER, MAX_BUFFER + 1] {
        // 29 devices with long names, and one with what is left.
        let mut names = vec![vec![b'n'; 255]; 29];
        names.push(vec![]);
        let mut p = paired(&mut c, 0x37, &names);
        for at in (0..30).map(|i| 3 + i * 277) {
            p[at..at + 21].fill(b'a');
        }
        p.truncate(p.len() - 2);
        let name = n - 9 - p.len() - 2;
        p.push(name as u8);
        p.extend(vec![b'n'; name]);
        p.push(7);
        let frame = framed(0x0E, 0, &p);
        assert_eq!(frame.len(), n);
        out.extend(frame);
    }
    out.extend(escaped(&[0x0C; 9]));
    out.extend(stream(Kind::Large, 46, 16_000));
    out.extend([END, START, 0x0C, 0, 0, 0, 0, 4, 0x23, 0]);
    out
}
