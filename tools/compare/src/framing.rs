//! Data types, checksum, checksum_from_end, escape, unescape, pack, ack, unpack and read_header beside the Rust's.
use crate::case::{Case, Run, Tally, fewer, fewer_in_frame, hex};
use crate::inputs::{any, content, length, room, shortest, strings, values};
use crate::lent::{Left, Lent, MOST_VALUES, Told, Values, left_difference, told_difference};
use common::choice::Choice;
use common::frames::{END, HOUSE, MARKS, SENTRY, START, accepted, body, damage, escaped, framed};
use original::mdr::DataType;
use original::mdr::frame::{self, FrameError};

#[derive(Clone, Copy, Debug, PartialEq)]
pub enum Call {
    DataType,
    Checksum,
    /// Onto the sum that `seq` has.
    ChecksumFromEnd,
    Escape,
    Unescape,
    Pack,
    Ack,
    Unpack,
    ReadHeader,
}

#[derive(Clone, Debug)]
pub struct Framing {
    call: Call,
    data_type: u8,
    seq: u8,
    bytes: Vec<u8>,
    /// The lent buffer's length less the least that is not refused for its length.
    room: isize,
    values: usize,
}

impl Framing {
    fn of(call: Call, bytes: Vec<u8>, room: isize) -> Framing {
        Framing { call, data_type: 0, seq: 0, bytes, room, values: MOST_VALUES }
    }

    /// Calls ours with a buffer of `need` bytes and the room; compares with what the call is expected to tell and to leave there.
    fn compare(
        &self,
        tally: &mut Tally,
        entry: &'static str,
        need: usize,
        expected: impl FnOnce(usize) -> (Told, Left),
        ours: impl FnOnce(&mut [u8], &mut [u64]) -> u8,
    ) -> Option<String> {
        let mut out = Lent::new(need.saturating_add_signed(self.room));
        let mut values = Values::new(self.values);
        let (told, left) = expected(out.held().len());
        tally.add(entry, told.status);
        let status = ours(out.lend(), values.lend());
        told_difference(&told, status, &values).or_else(|| left_difference("buffer", &left.whole(&out), &out))
    }

    /// Escape, pack and ack: 18 where these bytes do not fit, and nothing changes.
    fn writes(
        &self,
        tally: &mut Tally,
        entry: &'static str,
        bytes: Vec<u8>,
        ours: impl FnOnce(&mut [u8], &mut [u64]) -> u8,
    ) -> Option<String> {
        let expected = |m: usize| {
            if m < bytes.len() {
                return (Told::refused(18), Left::Untouched);
            }
            (Told::accepted(&[bytes.len() as u64]), Left::Front(bytes.clone()))
        };
        self.compare(tally, entry, bytes.len(), expected, ours)
    }
}

/// The sum over the bytes from the last to the first; the original adds from the first byte only.
fn from_end(sum: u8, bytes: &[u8]) -> u8 {
    bytes.iter().rev().fold(sum, |sum, &b| sum.wrapping_add(b))
}

/// The places at which the bytes are cut: all of them, or seventeen of a long string.
fn cuts(bytes: &[u8]) -> Vec<usize> {
    let n = bytes.len();
    if n <= 64 { (0..=n).collect() } else { (0..=16).map(|k| n * k / 16).collect() }
}

/// The place in the list of names.
fn place(t: DataType) -> u8 {
    const NAMED: [DataType; 15] = [
        DataType::Data,
        DataType::Ack,
        DataType::DataMcNo1,
        DataType::DataIcd,
        DataType::DataEv,
        DataType::DataMdr,
        DataType::DataCommon,
        DataType::DataMdrNo2,
        DataType::Shot,
        DataType::ShotMcNo1,
        DataType::ShotIcd,
        DataType::ShotEv,
        DataType::ShotMdr,
        DataType::ShotCommon,
        DataType::ShotMdrNo2,
    ];
    NAMED.iter().position(|&n| n == t).unwrap_or(15) as u8
}

fn refused(e: FrameError) -> Told {
    let numbers = match e {
        FrameError::BadEscapee(b) => vec![b.into()],
        FrameError::BadChecksum { declared, computed } => vec![declared.into(), computed.into()],
        FrameError::LengthMismatch { declared, actual } => vec![declared as u64, actual as u64],
        _ => vec![],
    };
    Told { status: common::log::number(e), numbers }
}

/// Unescape into `m` bytes: 11 where they are fewer than the input, and nothing changes; 12 and 13 leave zeros.
fn unescape(src: &[u8], m: usize) -> (Told, Left) {
    if m < src.len() {
        return (Told::refused(11), Left::Untouched);
    }
    match frame::unescape(src) {
        Ok(bytes) => (Told::accepted(&[bytes.len() as u64]), Left::Front(bytes)),
        Err(e) => (refused(e), Left::Zero),
    }
}

/// What unpack and read_header tell of a frame.
fn header(answer: &Result<frame::Frame, FrameError>) -> Told {
    match answer {
        Ok(f) => Told::accepted(&[f.data_type.to_wire().into(), f.seq.into(), f.payload.len() as u64]),
        Err(e) => refused(*e),
    }
}

/// Unpack in a work area of `m` bytes: 8, 9, 10, then 11, and nothing changes; 12 to 16 leave zeros; accepted, the body stands at the front
/// and the rest is zero.
fn unpack(bytes: &[u8], m: usize) -> (Told, Left) {
    let answer = frame::unpack(bytes);
    if let Err(e @ (FrameError::TooShort | FrameError::NoStart | FrameError::NoEnd)) = answer {
        return (refused(e), Left::Untouched);
    }
    if m < bytes.len() - 2 {
        return (Told::refused(11), Left::Untouched);
    }
    let told = header(&answer);
    match answer {
        Err(_) => (told, Left::Zero),
        Ok(f) => {
            let body = frame::unescape(&bytes[1..bytes.len() - 1]).expect("the body of an accepted frame");
            assert_eq!(body[6..body.len() - 1], f.payload);
            (told, Left::FrontThenZero(body))
        }
    }
}

impl Case for Framing {
    fn difference(&self, tally: &mut Tally) -> Option<String> {
        let bytes = &self.bytes[..];
        match self.call {
            Call::DataType => {
                tally.add("data_type", 0);
                let (expected, got) = (place(DataType::from_wire(self.data_type)), ours::data_type(self.data_type));
                (expected != got).then(|| format!("expected: {expected}\nours:     {got}"))
            }
            Call::Checksum => {
                tally.add("checksum", 0);
                let (expected, got) = (frame::checksum(bytes), ours::checksum(bytes));
                (expected != got).then(|| format!("expected: {expected}\nours:     {got}"))
            }
            Call::ChecksumFromEnd => {
                tally.add("checksum_from_end", 0);
                let (expected, got) = (from_end(self.seq, bytes), ours::checksum_from_end(self.seq, bytes));
                if expected != got {
                    return Some(format!("expected: {expected}\nours:     {got}"));
                }
                let whole = frame::checksum(bytes);
                for k in cuts(bytes) {
                    let end = ours::checksum_from_end(0, &bytes[k..]);
                    let expected = (from_end(0, &bytes[k..]), whole);
                    let got = (end, ours::checksum_from_end(end, &bytes[..k]));
                    if expected != got {
                        return Some(format!("cut at {k}, the end and the whole\nexpected: {expected:?}\nours:     {got:?}"));
                    }
                }
                None
            }
            Call::Escape => {
                let mut expected = Vec::new();
                frame::escape_into(bytes, &mut expected);
                self.writes(tally, "escape", expected, |out, values| ours::escape(bytes, out, values))
            }
            Call::Pack => {
                let expected = frame::pack(DataType::from_wire(self.data_type), self.seq, bytes);
                self.writes(tally, "pack", expected, |out, values| ours::pack(self.data_type, self.seq, bytes, out, values))
            }
            Call::Ack => {
                let expected = frame::ack_frame(self.seq);
                self.writes(tally, "ack", expected, |out, values| ours::ack(self.seq, out, values))
            }
            Call::Unescape => {
                let need = bytes.len();
                self.compare(tally, "unescape", need, |m| unescape(bytes, m), |out, values| ours::unescape(bytes, out, values))
            }
            Call::Unpack => {
                let need = bytes.len().saturating_sub(2);
                self.compare(tally, "unpack", need, |m| unpack(bytes, m), |out, values| ours::unpack(bytes, out, values))
            }
            Call::ReadHeader => {
                let expected = |_| (header(&frame::unpack(bytes)), Left::Untouched);
                self.compare(tally, "read_header", 0, expected, |_, values| ours::read_header(bytes, values))
            }
        }
    }

    fn smaller(&self) -> Vec<Framing> {
        let framed = matches!(self.call, Call::Unpack | Call::ReadHeader);
        let fewer = if framed { fewer_in_frame(&self.bytes) } else { fewer(&self.bytes) };
        let mut all: Vec<Framing> = fewer.into_iter().map(|bytes| Framing { bytes, ..self.clone() }).collect();
        if self.room != 0 {
            all.push(Framing { room: 0, ..self.clone() });
            all.push(Framing { room: self.room - self.room.signum(), ..self.clone() });
        }
        if (self.data_type, self.seq) != (0, 0) {
            all.push(Framing { data_type: 0, seq: 0, ..self.clone() });
        }
        if self.values != MOST_VALUES {
            all.push(Framing { values: MOST_VALUES, ..self.clone() });
        }
        all
    }

    fn shown(&self) -> String {
        format!(
            "{:?} of {} bytes [{}], type {:02X}, sequence {:02X}, a buffer of {:+} bytes over the least, values {}",
            self.call,
            self.bytes.len(),
            hex(&self.bytes),
            self.data_type,
            self.seq,
            self.room,
            self.values
        )
    }
}

/// Everything that is short.
pub fn exhaustive(run: &mut Run) {
    for b in 0..=255 {
        run.case(&Framing { data_type: b, ..Framing::of(Call::DataType, vec![], 0) });
        for room in -12..=3 {
            run.case(&Framing { seq: b, ..Framing::of(Call::Ack, vec![], room) });
        }
        for length in 0..=3 {
            for other in [0, 1, SENTRY, 0xFF] {
                run.case(&Framing { data_type: b, seq: other, ..Framing::of(Call::Pack, vec![other; length], 0) });
                run.case(&Framing { data_type: other, seq: b, ..Framing::of(Call::Pack, vec![b; length], 1) });
            }
        }
    }
    for sum in 0..=255 {
        run.case(&Framing { seq: sum, ..Framing::of(Call::ChecksumFromEnd, vec![], 0) });
        for b in 0..=255 {
            run.case(&Framing { seq: sum, ..Framing::of(Call::ChecksumFromEnd, vec![b], 0) });
        }
    }
    for bytes in shortest() {
        run.case(&Framing { seq: 0xC5, ..Framing::of(Call::ChecksumFromEnd, bytes.clone(), 0) });
        for call in [Call::Checksum, Call::Escape, Call::Unescape, Call::Pack, Call::Unpack, Call::ReadHeader] {
            run.case(&Framing::of(call, bytes.clone(), 0));
        }
        run.case(&Framing::of(Call::Escape, bytes.clone(), -1));
        run.case(&Framing::of(Call::Unescape, bytes.clone(), -1));
        run.case(&Framing { data_type: 0x0C, seq: 1, ..Framing::of(Call::Pack, bytes.clone(), -1) });
        run.case(&Framing::of(Call::Unpack, framed(0x0C, 1, &bytes), 0));
        run.case(&Framing::of(Call::ReadHeader, framed(0x0C, 1, &bytes), 0));
    }
    // The special bytes and those that stand for them, in every order.
    let few = [END, SENTRY, START, 0x2C, 0x2D, 0x2E, 0x41];
    for n in 3..=5 {
        for bytes in strings(&few, n) {
            run.case(&Framing::of(Call::Escape, bytes.clone(), 0));
            run.case(&Framing::of(Call::Unescape, bytes.clone(), 0));
        }
    }
    // Every byte at every place of some frames.
    let device = common::frames::paired(&mut Choice::new(1), 0x37, &[b"Al<".to_vec()]);
    for frame in [framed(1, 0, &[]), framed(0x0C, 60, &[1, 2, 3]), framed(0x0E, 1, &device), escaped(&[61; 9])] {
        for at in 0..frame.len() {
            for b in 0..=255 {
                let mut frame = frame.clone();
                frame[at] = b;
                run.case(&Framing::of(Call::Unpack, frame.clone(), 0));
                run.case(&Framing::of(Call::ReadHeader, frame, 0));
            }
        }
        // Every buffer up to it.
        for room in -(frame.len() as isize)..=3 {
            run.case(&Framing::of(Call::Unpack, frame.clone(), room));
        }
    }
}

/// A frame around any body, whose markers stay raw where the choice falls so, and whose sum and length may be false.
fn odd_frame(c: &mut Choice) -> Vec<u8> {
    let n = length(c).min(9_000);
    let payload = content(c, n);
    let declared =
        if c.one_in(3) { c.of(&[0, 1, n as u32 + 1, n as u32 + 256, n as u32 + (1 << 24), u32::MAX]) } else { n as u32 };
    let mut body = body(c.byte(), c.of(&[0, 1, START, END]), declared, &payload);
    if c.one_in(3) {
        let at = c.below(body.len());
        body[at] = c.of(&MARKS);
    }
    if c.one_in(4) {
        body.truncate(c.below(8));
    }
    let mut out = vec![START];
    for &b in &body {
        if b != SENTRY && c.one_in(2) { out.push(b) } else { frame::escape_into(&[b], &mut out) }
    }
    out.push(END);
    out
}

/// Something to unpack: a good frame, a damaged one, an odd one, a body that is too short or ends in a sentry, or any bytes between markers.
pub fn frame_like(c: &mut Choice) -> Vec<u8> {
    let mut frame = match c.below(8) {
        0 | 1 => {
            let (data_type, command, entry) = c.of(&HOUSE);
            framed(data_type, c.byte(), &accepted(c, entry, command))
        }
        2 => framed(c.byte(), c.byte(), &any(c)),
        3 => [&[START], &any(c)[..], &[END]].concat(),
        4 => [&[START], &[SENTRY, 0x2C].repeat(c.below(7))[..], &vec![0; c.below(7)], &[END]].concat(),
        5 => {
            let mut frame = framed(c.byte(), c.byte(), &any(c));
            let end = frame.len() - 1;
            frame.insert(end, SENTRY);
            frame
        }
        _ => odd_frame(c),
    };
    for _ in 0..c.of(&[0, 0, 1, 1, 2, 5]) {
        damage(c, &mut frame);
    }
    frame
}

pub fn random(run: &mut Run, c: &mut Choice) {
    let call = c.of(&[
        Call::Checksum,
        Call::ChecksumFromEnd,
        Call::Escape,
        Call::Unescape,
        Call::Unescape,
        Call::Pack,
        Call::Unpack,
        Call::Unpack,
        Call::Unpack,
        Call::ReadHeader,
        Call::ReadHeader,
    ]);
    let bytes = match call {
        Call::Unpack | Call::ReadHeader => frame_like(c),
        // Escaped bytes, now and then damaged, go farther than any bytes.
        Call::Unescape if c.one_in(2) => {
            let mut bytes = Vec::new();
            frame::escape_into(&any(c), &mut bytes);
            if c.one_in(2) {
                damage(c, &mut bytes);
            }
            bytes
        }
        _ => any(c),
    };
    run.case(&Framing { call, data_type: c.byte(), seq: c.byte(), bytes, room: room(c), values: values(c) });
}
