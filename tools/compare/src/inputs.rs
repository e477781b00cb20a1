//! Bytes to try: lengths round the boundaries, and contents that are plain, special, or plain but for a few.
use common::causes::level_places;
use common::choice::Choice;
use common::frames::{MARKS, battery};

/// Powers of two, the lengths at which a block of a faster loop ends, and those that 01 and the headset's formats name.
const SHORT_EDGES: [usize; 12] = [8, 16, 32, 48, 64, 96, 128, 192, 256, 300, 320, 512];
const LONG_EDGES: [usize; 5] = [1_000, 1_024, 2_048, 4_000, 4_096];

fn near(c: &mut Choice, edges: &[usize]) -> usize {
    c.of(edges) + c.below(5) - 2
}

pub fn length(c: &mut Choice) -> usize {
    match c.below(2_000) {
        0..800 => c.below(12),
        800..1_200 => c.below(80),
        1_200..1_700 => near(c, &SHORT_EDGES),
        1_700..1_900 => near(c, &[254, 255, 256, 257]),
        1_900..1_980 => near(c, &LONG_EDGES),
        1_980..1_997 => near(c, &[8_192]),
        _ => near(c, &[65_536]),
    }
}

/// Bytes of a length.
pub fn content(c: &mut Choice, n: usize) -> Vec<u8> {
    match c.below(6) {
        0 => c.bytes(n),
        1 => (0..n).map(|_| c.of(&MARKS)).collect(),
        2 => (0..n).map(|_| if c.one_in(2) { c.of(&MARKS) } else { c.byte() }).collect(),
        _ => {
            let plain = c.of(&[0x00, 0x41, 0xFF, 0x3F, 0x3B]);
            let mut bytes = if c.one_in(2) { vec![plain; n] } else { plain_bytes(c, n) };
            for _ in 0..c.below(4) {
                if n > 0 {
                    let at = if c.one_in(2) { c.below(n) } else { block_edge(c, n) };
                    bytes[at] = c.of(&MARKS);
                }
            }
            bytes
        }
    }
}

/// Any bytes but those that are escaped or stand for them.
fn plain_bytes(c: &mut Choice, n: usize) -> Vec<u8> {
    let mut bytes = c.bytes(n);
    for b in &mut bytes {
        if MARKS.contains(b) {
            *b = 0x41;
        }
    }
    bytes
}

/// A place at the end of a block of 16, or next to it.
fn block_edge(c: &mut Choice, n: usize) -> usize {
    let edge = 16 * c.below(n / 16 + 1) + c.below(3);
    edge.saturating_sub(1).min(n - 1)
}

pub fn any(c: &mut Choice) -> Vec<u8> {
    let n = length(c);
    content(c, n)
}

/// A battery, some of its levels any byte.
pub fn any_levels(c: &mut Choice, command: u8) -> Vec<u8> {
    let mut bytes = battery(c, command);
    for &at in level_places(bytes[1]) {
        if c.one_in(2) {
            bytes[at] = c.byte();
        }
    }
    bytes
}

/// What a setting is called, by bytes that may be no text.
pub fn setting_texts(name: &[u8], summary: &[u8]) -> Vec<u8> {
    [&[0xD1, 0xD1, 0x00, 0x01, name.len() as u8], name, &[summary.len() as u8], summary].concat()
}

/// The lent buffer's length less the least that will do: exactly full and one short most often.
pub fn room(c: &mut Choice) -> isize {
    match c.below(10) {
        0..3 => 0,
        3..5 => -1,
        5..7 => 1,
        7 => c.below(20) as isize,
        8 => c.below(200) as isize,
        _ => -(c.below(20) as isize),
    }
}

/// How many numbers there is room for.
pub fn values(c: &mut Choice) -> usize {
    if c.one_in(4) { c.below(crate::lent::MOST_VALUES + 1) } else { crate::lent::MOST_VALUES }
}

/// Every string of this length over these bytes, in order.
pub fn strings(set: &[u8], n: usize) -> Vec<Vec<u8>> {
    let mut all = vec![vec![]];
    for _ in 0..n {
        all = all.iter().flat_map(|s: &Vec<u8>| set.iter().map(move |&b| [&s[..], &[b]].concat())).collect();
    }
    all
}

/// Every string of one and of two bytes, and the empty one.
pub fn shortest() -> Vec<Vec<u8>> {
    let every: Vec<u8> = (0..=255).collect();
    [strings(&every, 0), strings(&every, 1), strings(&every, 2)].concat()
}
