//! Long streams, as a headset's link might carry them.
use crate::choice::Choice;
use crate::frames::{
    END, START, accepted, capability, damage, equalizer, framed, name, noise, paired, sent_battery, setting, setting_info, support,
};

#[derive(Clone, Copy, Debug, PartialEq)]
pub enum Kind {
    /// A session: acknowledgements, every reading, withheld and unknown frames, a little damage and noise.
    Mixed,
    /// Acknowledgements, settings and batteries: 9 to 17 bytes each.
    Small,
    /// Long lists of paired devices, long withheld payloads, full support lists: 500 to 8,000 bytes each.
    Large,
    /// Any bytes.
    Noise,
    /// A session with a fault every 40 bytes or so.
    Damaged,
}

pub const KINDS: [Kind; 5] = [Kind::Mixed, Kind::Small, Kind::Large, Kind::Noise, Kind::Damaged];

/// A stream of this length; its last frame may be cut off.
pub fn stream(kind: Kind, seed: u64, len: usize) -> Vec<u8> {
    let mut c = Choice::new(seed);
    if kind == Kind::Noise {
        return c.bytes(len);
    }
    let mut out = Vec::with_capacity(len + 10_000);
    let mut seq = 0;
    while out.len() < len {
        match kind {
            Kind::Small => small(&mut c, seq, &mut out),
            Kind::Large => large(&mut c, seq, &mut out),
            _ => session(&mut c, seq, &mut out),
        }
        seq = 1 - seq;
    }
    if kind == Kind::Damaged {
        out = faulty(&mut c, &out);
        let more = out.len();
        out.extend_from_within(..len.saturating_sub(more));
    }
    out.truncate(len);
    out
}

/// A frame of a session, with its acknowledgement.
fn session(c: &mut Choice, seq: u8, out: &mut Vec<u8>) {
    let (data_type, payload) = match c.below(100) {
        0..20 => (0x0C, sent_battery(c, either(seq, 0x23, 0x25))),
        20..42 => (0x0C, noise(c, either(seq, 0x67, 0x69))),
        42..46 => (0x0C, capability(c, 0x61)),
        46..56 => (0x0C, equalizer(c, either(seq, 0x57, 0x59))),
        56..63 => (0x0C, setting(c, either(seq, 0xD7, 0xD9))),
        63..66 => (0x0C, setting_info(c, 0xD1)),
        66..70 => {
            let count = c.between(10, 60);
            (c.of(&[0x0C, 0x0E]), support(c, 0x07, count))
        }
        70..74 => {
            let names: Vec<Vec<u8>> = (0..c.between(1, 8)).map(|_| name(c)).collect();
            (0x0E, paired(c, either(seq, 0x37, 0x39), &names))
        }
        // Withheld: commands without an entry, as those that tell of the music, and other types.
        74..92 => {
            let n = c.between(2, 60);
            let mut p = vec![c.of(&[0x05, 0xA3, 0xA5, 0xA9, 0xE7, 0xF5]), c.of(&[0, 1, 0x20])];
            p.extend((0..n).map(|_| c.of(b"abcdefghijklmnopqrstuvwxyz 0123456789")));
            (c.of(&[0x0C, 0x0C, 0x0E]), p)
        }
        92..96 => {
            let n = c.below(40);
            (c.byte(), c.bytes(n))
        }
        // A reading that its decoder refuses.
        _ => {
            let (data_type, command, entry) = c.of(&crate::frames::HOUSE);
            let mut p = accepted(c, entry, command);
            p.push(0);
            (data_type, p)
        }
    };
    let mut frame = framed(data_type, seq, &payload);
    if c.one_in(50) {
        damage(c, &mut frame);
    }
    out.extend(frame);
    out.extend(framed(0x01, 1 - seq, &[]));
    if c.one_in(60) {
        let n = c.below(40);
        out.extend(c.bytes(n));
    }
}

fn either(seq: u8, answer: u8, notice: u8) -> u8 {
    if seq == 0 { answer } else { notice }
}

fn small(c: &mut Choice, seq: u8, out: &mut Vec<u8>) {
    match c.below(3) {
        0 => out.extend(framed(0x01, seq, &[])),
        1 => out.extend(framed(0x0C, seq, &setting(c, 0xD7))),
        _ => out.extend(framed(0x0C, seq, &sent_battery(c, 0x23))),
    }
}

fn large(c: &mut Choice, seq: u8, out: &mut Vec<u8>) {
    let frame = match c.below(4) {
        0 => {
            let n = c.between(500, 7_000);
            let mut p = c.bytes(n);
            p[0] = 0xA5;
            framed(0x0C, seq, &p)
        }
        1 => {
            let count = c.between(250, 255);
            framed(0x0E, seq, &support(c, 0x07, count))
        }
        _ => {
            let count = c.between(10, 50);
            let names: Vec<Vec<u8>> = (0..count).map(|_| name(c)).collect();
            framed(0x0E, seq, &paired(c, 0x37, &names))
        }
    };
    if frame.len() <= 8_000 {
        out.extend(frame);
    }
}

/// A copy with a byte changed, left out or put in every 40 bytes or so.
fn faulty(c: &mut Choice, from: &[u8]) -> Vec<u8> {
    let mut out = Vec::with_capacity(from.len() + from.len() / 64);
    let mut at = 0;
    while at < from.len() {
        let n = c.between(1, 80).min(from.len() - at);
        out.extend_from_slice(&from[at..at + n]);
        at += n;
        let b = if c.one_in(3) { c.of(&[START, END]) } else { c.byte() };
        match c.below(4) {
            0 => out.push(b),
            1 => at += 1,
            _ => *out.last_mut().expect("a byte was just copied") = b,
        }
    }
    out
}
