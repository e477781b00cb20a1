//! The form of the lists, and the rules by which both sides make long strings and sum them.
use common::log::hex;

/// The cases, a line each, and the answer to each.
#[derive(Default)]
pub struct List {
    pub cases: String,
    pub answers: String,
}

impl List {
    pub fn add(&mut self, case: String, answer: String) {
        self.cases += &case;
        self.cases.push('\n');
        self.answers += answer.trim_end();
        self.answers.push('\n');
    }
}

/// A string of bytes in a case; none at all is a hyphen.
pub fn field(bytes: &[u8]) -> String {
    if bytes.is_empty() { "-".into() } else { hex(bytes) }
}

/// A string of bytes in an answer: up to 12 in full, a longer one by its length and its sum.
pub fn shown(bytes: &[u8]) -> String {
    if bytes.len() > 12 {
        format!("#{} {} ", bytes.len(), sum(0, bytes))
    } else {
        format!(".{} ", hex(bytes))
    }
}

pub fn sum(start: u64, bytes: &[u8]) -> u64 {
    bytes.iter().fold(start, |s, &b| (s * 65_599 + u64::from(b) + 1) % 4_294_967_291)
}

fn step(state: u64) -> u64 {
    (state % (1 << 31) * 1_103_515_245 + 12_345) % (1 << 31)
}

/// `n` bytes by the rule of a seed: any bytes for an even one, 3B to 3F for an odd one.
pub fn rule(seed: u64, n: usize) -> Vec<u8> {
    let mut state = step(seed);
    let mut out = Vec::with_capacity(n);
    for _ in 0..n {
        let high = state / 65_536 % 256;
        out.push(if seed % 2 == 1 { 59 + high % 5 } else { high } as u8);
        state = step(state);
    }
    out
}

/// What a lent buffer holds before a call.
pub fn lent(n: usize) -> Vec<u8> {
    rule(84, n)
}

/// What it holds after one that is accepted: the bytes at the front, those behind stay.
pub fn over(bytes: &[u8], n: usize) -> Vec<u8> {
    let mut out = lent(n);
    out[..bytes.len()].copy_from_slice(bytes);
    out
}

/// Chooses the cases: xorshift, always from the same state.
pub struct Choice(u64);

impl Choice {
    pub fn new(seed: u64) -> Choice {
        Choice(seed.wrapping_mul(0x9E37_79B9_7F4A_7C15) | 1)
    }

    pub fn below(&mut self, n: usize) -> usize {
        self.0 ^= self.0 << 13;
        self.0 ^= self.0 >> 7;
        self.0 ^= self.0 << 17;
        (self.0 >> 11) as usize % n
    }

    pub fn byte(&mut self) -> u8 {
        self.below(256) as u8
    }

    pub fn of(&mut self, from: &[u8]) -> u8 {
        from[self.below(from.len())]
    }
}
