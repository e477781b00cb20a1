//! Cases for `frame`: the Rust's `checksum`, a sum over `iter().rev()`, `escape_into`, `unescape`, `pack`, `ack_frame`, `unpack` and `DataType`.
use crate::text::{Choice, List, field, lent, over, rule, shown, sum};
use common::log::number;
use original::mdr::DataType;
use original::mdr::frame::{self, FrameError};

/// The three special bytes, the three that stand for them, and a plain one.
const MIX: [u8; 7] = [0x3C, 0x3D, 0x3E, 0x2C, 0x2D, 0x2E, 0x41];

pub fn list() -> List {
    let mut l = List::default();
    checksums(&mut l);
    checksums_from_end(&mut l);
    types(&mut l);
    escapes(&mut l);
    unescapes(&mut l);
    acks(&mut l);
    packs(&mut l);
    damaged(&mut l);
    unpacks(&mut l);
    l
}

// What the Rust answers, as text.

fn refused(e: FrameError) -> String {
    let values = match e {
        FrameError::BadEscapee(b) => format!("{b} "),
        FrameError::BadChecksum { declared, computed } => format!("{declared} {computed} "),
        FrameError::LengthMismatch { declared, actual } => format!("{declared} {actual} "),
        _ => String::new(),
    };
    format!("refused {} {values}", number(e))
}

/// The place in the list of names.
fn place(t: DataType) -> u8 {
    match t {
        DataType::Data => 0,
        DataType::Ack => 1,
        DataType::DataMcNo1 => 2,
        DataType::DataIcd => 3,
        DataType::DataEv => 4,
        DataType::DataMdr => 5,
        DataType::DataCommon => 6,
        DataType::DataMdrNo2 => 7,
        DataType::Shot => 8,
        DataType::ShotMcNo1 => 9,
        DataType::ShotIcd => 10,
        DataType::ShotEv => 11,
        DataType::ShotMdr => 12,
        DataType::ShotCommon => 13,
        DataType::ShotMdrNo2 => 14,
        DataType::Unknown(_) => 15,
    }
}

fn escaped(src: &[u8]) -> Vec<u8> {
    let mut out = Vec::new();
    frame::escape_into(src, &mut out);
    out
}

// OURS, by document 01: the Rust has no lent buffers, so the refusals 11 and 18, and what a buffer holds after a call, are computed here.

/// Escape, pack and ack into a buffer of `m` bytes: 18 where it is too short, and nothing changes.
fn written(bytes: &[u8], m: usize) -> String {
    if bytes.len() > m {
        return format!("refused 18 {}", shown(&lent(m)));
    }
    format!("{} {}", bytes.len(), shown(&over(bytes, m)))
}

/// Unescape into a buffer of `m` bytes: 11 where it is shorter than the input, and nothing changes; 12 and 13 leave zeros.
fn unescape(src: &[u8], m: usize) -> String {
    if m < src.len() {
        return format!("refused 11 {}", shown(&lent(m)));
    }
    match frame::unescape(src) {
        Ok(bytes) => format!("{} {}", bytes.len(), shown(&over(&bytes, m))),
        Err(e) => refused(e) + &shown(&vec![0; m]),
    }
}

/// Unpack in a work area of `m` bytes: 8, 9, 10, then 11, and nothing changes; 12 to 16 leave zeros; accepted, the body stands at the
/// front and the rest is zero.
fn unpack(bytes: &[u8], m: usize) -> String {
    let answer = frame::unpack(bytes);
    match answer {
        Err(e @ (FrameError::TooShort | FrameError::NoStart | FrameError::NoEnd)) => return refused(e) + &shown(&lent(m)),
        _ if m < bytes.len() - 2 => return format!("refused 11 {}", shown(&lent(m))),
        _ => {}
    }
    let mut work = vec![0; m];
    match answer {
        Err(e) => refused(e) + &shown(&work),
        Ok(f) => {
            let body = frame::unescape(&bytes[1..bytes.len() - 1]).unwrap();
            work[..body.len()].copy_from_slice(&body);
            assert_eq!(&work[6..6 + f.payload.len()], &f.payload[..]);
            format!("{} {} {} {} {}", place(f.data_type), f.data_type.to_wire(), f.seq, f.payload.len(), shown(&work))
        }
    }
}

// The cases.

/// Every string over `set` of `n` bytes.
fn strings(set: &[u8], n: usize) -> Vec<Vec<u8>> {
    let mut all = vec![vec![]];
    for _ in 0..n {
        all = all.iter().flat_map(|s: &Vec<u8>| set.iter().map(move |&b| [&s[..], &[b]].concat())).collect();
    }
    all
}

/// A string of `n` bytes, about half of them of the mix.
fn mixed(c: &mut Choice, n: usize) -> Vec<u8> {
    (0..n).map(|_| if c.below(2) == 0 { c.of(&MIX) } else { c.byte() }).collect()
}

fn checksums(l: &mut List) {
    let mut c = Choice::new(1);
    let mut case = |s: &[u8]| l.add(format!("s {}", field(s)), frame::checksum(s).to_string());
    case(&[]);
    case(&[0xFF, 0x02]);
    for b in 0..=255 {
        case(&[b]);
        case(&[b, 0xFF]);
    }
    for n in 2..200 {
        case(&mixed(&mut c, n));
    }
}

/// OURS, by document 02, C-14: the original adds from the first byte only.
fn from_end(sum: u8, bytes: &[u8]) -> u8 {
    bytes.iter().rev().fold(sum, |sum, &b| sum.wrapping_add(b))
}

/// For each cut the sum of the end, and that of the front added onto it, which is the checksum of the whole.
fn cuts(s: &[u8]) -> String {
    let each = (0..=s.len()).map(|k| format!("{} {}", from_end(0, &s[k..]), frame::checksum(s)));
    each.collect::<Vec<_>>().join(" ")
}

/// Every sum with some strings; lists that are cut everywhere.
fn checksums_from_end(l: &mut List) {
    let mut c = Choice::new(14);
    for sum in 0..=255 {
        for s in [&[][..], &[0], &[1], &[0xFF], &[0x80, 0x80], &mixed(&mut c, 5)] {
            l.add(format!("o {sum} {}", field(s)), from_end(sum, s).to_string());
        }
    }
    let mut case = |s: &[u8]| l.add(format!("c {}", field(s)), cuts(s));
    case(&[]);
    case(&[0xFF, 0x02]);
    for b in 0..=255 {
        case(&[b]);
        case(&[b, 0xFF]);
        case(&[0xFF, b]);
    }
    for n in (3..=260).chain([511, 512, 513, 1_000, 2_000]) {
        let seed = 2 * n as u64;
        l.add(format!("k {n} {seed}"), cuts(&rule(seed, n)));
    }
}

fn types(l: &mut List) {
    for b in 0..=255 {
        let t = DataType::from_wire(b);
        l.add(format!("t {b}"), format!("{} {}", place(t), t.to_wire()));
    }
}

fn escapes(l: &mut List) {
    let mut c = Choice::new(2);
    let mut case = |s: &[u8], m: usize| l.add(format!("e {m} {}", field(s)), written(&escaped(s), m));
    let mut all: Vec<Vec<u8>> = (0..=255).map(|b| vec![b]).collect();
    for n in 0..=3 {
        all.extend(strings(&MIX, n));
    }
    for n in 4..120 {
        all.push(mixed(&mut c, n));
    }
    for s in &all {
        let full = escaped(s).len();
        case(s, full);
        case(s, full + 3);
        if full > 0 {
            case(s, full - 1);
        }
    }
}

fn unescapes(l: &mut List) {
    let mut c = Choice::new(3);
    let mut case = |s: &[u8], m: usize| l.add(format!("u {m} {}", field(s)), unescape(s, m));
    let mut all: Vec<Vec<u8>> = (0..=255).map(|b| vec![b]).collect();
    for n in 0..=4 {
        all.extend(strings(&MIX, n));
    }
    for n in 5..120 {
        all.push(mixed(&mut c, n));
        all.push(escaped(&mixed(&mut c, n)));
    }
    for s in &all {
        case(s, s.len());
        if s.len() != 4 {
            case(s, s.len() + 3);
            if !s.is_empty() {
                case(s, s.len() - 1);
            }
        }
    }
    // One byte more than the prefix, in a buffer exactly full, by the sum of the answers.
    let mut next = |letter: char, s: &[u8], set: &[u8]| {
        let mut total = 0;
        for &b in set {
            let s = [s, &[b]].concat();
            total = sum(total, unescape(&s, s.len()).as_bytes());
        }
        l.add(format!("{letter} {}", field(s)), total.to_string());
    };
    let every: Vec<u8> = (0..=255).collect();
    for b in 0..=255 {
        next('v', &[b], &every);
    }
    for n in 4..=5 {
        for s in strings(&MIX, n) {
            next('w', &s, &MIX);
        }
    }
}

fn acks(l: &mut List) {
    for seq in 0..=255 {
        let bytes = frame::ack_frame(seq);
        for m in [bytes.len(), bytes.len() + 4, bytes.len() - 1, 0] {
            l.add(format!("a {m} {seq}"), written(&bytes, m));
        }
    }
}

/// A frame packed by the rule of a seed, and unpacked.
struct Packed {
    kind: usize,
    seq: u8,
    n: usize,
    seed: u64,
}

impl Packed {
    fn data_type(&self) -> DataType {
        if self.kind < 256 { DataType::from_wire(self.kind as u8) } else { DataType::Unknown(self.kind as u8) }
    }

    fn bytes(&self) -> Vec<u8> {
        frame::pack(self.data_type(), self.seq, &rule(self.seed, self.n))
    }

    fn case(&self, l: &mut List, m: usize, w: usize) {
        let bytes = self.bytes();
        let mut answer = written(&bytes, m);
        if bytes.len() <= m {
            answer += &unpack(&bytes, w);
        }
        l.add(format!("p {m} {w} {} {} {} {}", self.kind, self.seq, self.n, self.seed), answer);
    }

    /// One byte of the frame changed; the answer is unpack's alone.
    fn damaged(&self, l: &mut List, w: usize, at: usize, byte: u8) {
        let mut bytes = self.bytes();
        bytes[at] = byte;
        let m = bytes.len();
        l.add(format!("d {m} {w} {} {} {} {} {at} {byte}", self.kind, self.seq, self.n, self.seed), unpack(&bytes, w));
    }

    /// Buffers exactly full and with room; each one short.
    fn edges(&self, l: &mut List) {
        let full = self.bytes().len();
        self.case(l, full, full - 2);
        self.case(l, full + 7, full + 5);
        self.case(l, full - 1, full);
        self.case(l, full, full - 3);
    }
}

fn packs(l: &mut List) {
    let mut c = Choice::new(4);
    for n in 0..=300 {
        for odd in 0..2 {
            let seed = c.below(1000) as u64 * 2 + odd;
            Packed { kind: c.below(256), seq: c.byte(), n, seed }.edges(l);
        }
    }
    // Lengths whose bytes are special, and those around 65,536.
    for n in [0x3C3C, 0x3C3D, 0x3D3D, 0x3E3C, 0x3E3E].into_iter().chain(65_528..=65_544) {
        for odd in 0..2 {
            let seed = c.below(1000) as u64 * 2 + odd;
            Packed { kind: 12, seq: 1, n, seed }.edges(l);
        }
    }
    // Every type, by its byte and as unknown; every sequence.
    for kind in 0..512 {
        Packed { kind, seq: c.byte(), n: c.below(5), seed: c.below(1000) as u64 }.edges(l);
    }
    for seq in 0..=255 {
        Packed { kind: c.below(256), seq, n: c.below(5), seed: c.below(1000) as u64 }.edges(l);
    }
}

fn damaged(l: &mut List) {
    // Every byte at every place of two short frames.
    for p in [Packed { kind: 1, seq: 0, n: 0, seed: 0 }, Packed { kind: 12, seq: 60, n: 3, seed: 7 }] {
        let full = p.bytes().len();
        for at in 0..full {
            for byte in 0..=255 {
                p.damaged(l, full - 2, at, byte);
            }
        }
    }
    // Some bytes at every place of longer ones.
    let mut c = Choice::new(5);
    for n in [1, 2, 5, 8, 13, 21, 34, 60, 61, 62, 130] {
        for odd in 0..2 {
            let p = Packed { kind: c.below(256), seq: c.byte(), n, seed: c.below(1000) as u64 * 2 + odd };
            let bytes = p.bytes();
            for at in 0..bytes.len() {
                for byte in [0x3C, 0x3D, 0x3E, bytes[at] ^ 1] {
                    p.damaged(l, bytes.len() - 2 + c.below(3), at, byte);
                }
            }
        }
    }
}

/// A frame around a body, whose `3E` and `3C` stay raw where the choice falls so.
fn raw(c: &mut Choice, body: &[u8]) -> Vec<u8> {
    let mut out = vec![0x3E];
    for &b in body {
        if b != 0x3D && c.below(2) == 0 { out.push(b) } else { frame::escape_into(&[b], &mut out) }
    }
    out.push(0x3C);
    out
}

fn unpacks(l: &mut List) {
    let mut c = Choice::new(6);
    let mut case = |s: &[u8], m: usize| l.add(format!("f {m} {}", field(s)), unpack(s, m));
    // The marked cases.
    for s in [
        "3E3D2C00000000003C",
        "3E010100000001023C",
        "3E010100000001033C",
        "3E003E000000003E3C",
        "3E0C000000000423005001843C",
        "3E3C",
        "3E010100000000023C",
        "3E0E010000001C37020141413A42423A43433A44443A45453A46460100000002416C00613C",
    ] {
        let s: Vec<u8> = (0..s.len() / 2).map(|i| u8::from_str_radix(&s[2 * i..2 * i + 2], 16).unwrap()).collect();
        for m in [s.len() - 2, s.len() + 2, s.len().saturating_sub(3), 0] {
            case(&s, m);
        }
        // Cut at every byte.
        for n in 0..s.len() {
            case(&s[..n], n);
            case(&s[n..], s.len() - n);
        }
    }
    // Raw markers inside; the length or the sum, or both, false in some.
    for i in 0..1400 {
        let n = c.below(9);
        let mut body = vec![c.of(&[0, 0x0C, 0x3C, 0x3E, 0x3D]), c.of(&[0, 1, 0x3C, 0x3E]), 0, 0, 0, n as u8];
        body.extend((0..n).map(|_| c.of(&[0x3C, 0x3E, 0x3D, 0x41, 0x2E])));
        if i % 4 == 1 || i % 4 == 3 {
            body[2 + c.below(4)] = c.of(&[0, 1, 2, 0x3C, 0x3E, 0xFF]);
        }
        body.push(frame::checksum(&body));
        if i % 4 >= 2 {
            *body.last_mut().unwrap() = c.of(&[0, 1, 0x3C, 0x3E]);
        }
        let s = raw(&mut c, &body);
        case(&s, s.len() - 2 + c.below(4));
    }
    // Any bytes, with and without the markers.
    for i in 0..1400 {
        let n = c.below(16);
        let mut s = mixed(&mut c, n);
        if i % 4 != 0 {
            s.insert(0, 0x3E);
        }
        if i % 4 != 1 {
            s.push(0x3C);
        }
        case(&s, (s.len() + c.below(4)).saturating_sub(2));
    }
}
