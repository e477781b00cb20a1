//! OURS, by 02's C-19: the last noise reports, counted afresh, and the rows of digits that a window keeps of them.
use crate::causes::{Decoder, read};
use original::mdr::payload::{NoiseMode, NoiseReport, Reading};

/// Of Off, Anc and Ambient, and of those that hold an ambient level.
pub type Counts = [u64; 4];

const COUNTED: [fn(&NoiseReport) -> bool; 4] = [
    |report| report.mode == NoiseMode::Off,
    |report| report.mode == NoiseMode::Anc,
    |report| report.mode == NoiseMode::Ambient,
    |report| report.ambient_level.is_some(),
];

/// The original's report of a payload; else the number of the refusal.
pub fn report(payload: &[u8]) -> Result<NoiseReport, u8> {
    match read(Decoder::Noise, payload)? {
        Reading::Noise(report) => Ok(report),
        _ => unreachable!("its decoder reads no other"),
    }
}

/// A width outside of 1 to 64 is the nearer end.
pub fn nearest(width: u64) -> u64 {
    width.clamp(1, 64)
}

/// The counts of the last so many reports, or of all where fewer have come.
pub fn counts(width: u64, reports: &[NoiseReport]) -> Counts {
    let last = &reports[reports.len().saturating_sub(nearest(width) as usize)..];
    COUNTED.map(|is_it| last.iter().filter(|report| is_it(report)).count() as u64)
}

/// The binary digits of a row, the lowest first.
fn digits(row: u64) -> impl Iterator<Item = bool> {
    (0..64).map(move |place| row / 2u64.pow(place) % 2 == 1)
}

/// The rows of a window that had these before the reports: a digit for each report, the newest lowest, then those of before, 64 in all.
pub fn rows(before: [u64; 4], reports: &[NoiseReport]) -> [u64; 4] {
    std::array::from_fn(|i| {
        let newest_first = reports.iter().rev().map(COUNTED[i]).chain(digits(before[i]));
        newest_first.zip(0..64).map(|(digit, place)| u64::from(digit) * 2u64.pow(place)).sum()
    })
}

/// How many of the lowest digits of each row are 1, among as many as the width.
pub fn ones(width: u64, rows: [u64; 4]) -> Counts {
    rows.map(|row| digits(row).take(nearest(width) as usize).filter(|&digit| digit).count() as u64)
}
