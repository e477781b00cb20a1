//! OURS, by 02's C-17: which bytes a take of the Rust's scanner dropped, which it does not count.
use crate::frames::START;

/// All of them where the take handed over nothing and kept nothing, else what stands before START. The span and what is held then must be the
/// rest, byte for byte.
pub fn dropped(before: &[u8], span: Option<&[u8]>, held: &[u8]) -> usize {
    let n = match before.iter().position(|&b| b == START) {
        Some(at) if span.is_some() || !held.is_empty() => at,
        _ => before.len(),
    };
    assert_eq!(before[n..], [span.unwrap_or(&[]), held].concat());
    n
}
