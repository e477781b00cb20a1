//! Lent buffers, filled with a pattern first and looked at whole afterwards, and what a call is expected to tell and to leave.
use crate::case::hex;

/// Bytes before and behind a lent slice that no call may touch.
const GUARD: usize = 32;

/// Neither zero, nor a marker, nor a digit.
fn pattern(n: usize) -> Vec<u8> {
    (0..n).map(|i| 0x80 | (i.wrapping_mul(37) as u8)).collect()
}

/// A buffer lent to our side.
pub struct Lent {
    bytes: Vec<u8>,
    len: usize,
}

impl Lent {
    pub fn new(len: usize) -> Lent {
        Lent { bytes: pattern(len + 2 * GUARD), len }
    }

    /// A buffer that holds these bytes.
    pub fn holding(bytes: &[u8]) -> Lent {
        let mut lent = Lent::new(bytes.len());
        lent.lend().copy_from_slice(bytes);
        lent
    }

    pub fn lend(&mut self) -> &mut [u8] {
        &mut self.bytes[GUARD..GUARD + self.len]
    }

    pub fn held(&self) -> &[u8] {
        &self.bytes[GUARD..GUARD + self.len]
    }

    /// What it was filled with.
    pub fn filled(&self) -> Vec<u8> {
        pattern(self.len + GUARD)[GUARD..].to_vec()
    }

    /// Whether nothing outside was written to.
    pub fn is_guarded(&self) -> bool {
        let all = pattern(self.bytes.len());
        let end = GUARD + self.len;
        self.bytes[..GUARD] == all[..GUARD] && self.bytes[end..] == all[end..]
    }
}

/// What a call is expected to leave in a lent buffer.
pub enum Left {
    Untouched,
    Zero,
    /// These bytes at the front; those behind stay.
    Front(Vec<u8>),
    /// These bytes at the front, zeros behind.
    FrontThenZero(Vec<u8>),
}

impl Left {
    pub fn whole(&self, lent: &Lent) -> Vec<u8> {
        let mut whole = match self {
            Left::Untouched | Left::Front(_) => lent.filled(),
            Left::Zero | Left::FrontThenZero(_) => vec![0; lent.len],
        };
        if let Left::Front(bytes) | Left::FrontThenZero(bytes) = self {
            whole[..bytes.len()].copy_from_slice(bytes);
        }
        whole
    }
}

/// What a call is expected to tell: its status and its numbers.
#[derive(Debug, PartialEq)]
pub struct Told {
    pub status: u8,
    pub numbers: Vec<u64>,
}

impl Told {
    pub fn accepted(numbers: &[u64]) -> Told {
        Told { status: 0, numbers: numbers.to_vec() }
    }

    pub fn refused(status: u8) -> Told {
        Told { status, numbers: vec![] }
    }
}

/// The numbers' slice that is lent with every call, with room for at most 16.
pub struct Values {
    cells: [u64; 24],
    len: usize,
}

pub const MOST_VALUES: usize = 16;

const UNSET: u64 = 0xA5A5_A5A5_A5A5_A5A5;

impl Values {
    pub fn new(len: usize) -> Values {
        Values { cells: [UNSET; 24], len }
    }

    pub fn lend(&mut self) -> &mut [u64] {
        &mut self.cells[4..4 + self.len]
    }

    /// Whether it holds as many of the numbers as fit, and nothing else was written to.
    pub fn holds(&self, numbers: &[u64]) -> bool {
        let n = numbers.len().min(self.len);
        let mut cells = [UNSET; 24];
        cells[4..4 + n].copy_from_slice(&numbers[..n]);
        cells == self.cells
    }

    pub fn shown(&self) -> String {
        let set: Vec<String> = self.cells.iter().map(|&v| if v == UNSET { "-".into() } else { v.to_string() }).collect();
        set[4..].join(" ")
    }
}

/// Compares what a call told.
pub fn told_difference(expected: &Told, status: u8, values: &Values) -> Option<String> {
    if status == expected.status && values.holds(&expected.numbers) {
        return None;
    }
    Some(format!(
        "expected: status {}, numbers {:?}\nours:     status {status}, numbers {}",
        expected.status,
        expected.numbers,
        values.shown()
    ))
}

/// Compares what a call left in a buffer.
pub fn left_difference(name: &str, expected: &[u8], lent: &Lent) -> Option<String> {
    if !lent.is_guarded() {
        return Some(format!("ours wrote outside of the {name}"));
    }
    if lent.held() == expected {
        return None;
    }
    let at = lent.held().iter().zip(expected).position(|(a, b)| a != b).expect("both have the same length");
    let (from, to) = (at.saturating_sub(16), expected.len().min(at + 16));
    Some(format!(
        "the {name}, {} bytes, differs first at {at}; from {from} to {to}\nexpected: {}\nours:     {}",
        expected.len(),
        hex(&expected[from..to]),
        hex(&lent.held()[from..to])
    ))
}
