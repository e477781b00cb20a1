//! A log for `inlog`, and the frames of its `F` and `S` lines.
use common::frames::framed;
use common::log::hex;
use common::lines::{frames, read};
use common::streams::{Kind, stream};

/// The longest line that the program takes.
const MOST: usize = 147_456;

/// Lines of the four kinds, and what is none.
const LINES: [&str; 24] = [
    "F 3E0C000000000423005001843C",
    "R 08",
    "H 010100000000",
    "S 3E0E010000001A3702012A2A2A2A2A2A2A2A2A2A2A2A2A2A2A2A2A0100000000002E3C",
    // As it was written before, with the length of the name.
    "S 3E0E010000001C3702012A2A2A2A2A2A2A2A2A2A2A2A2A2A2A2A2A01000000022A2A00863C",
    // Batteries with a level above 100, written before: main, the right of two, and the case.
    "F 3E0C00000000042300FF01333C",
    "F 3E0C0100000008230950006501141E293C",
    "F 3E0C0000000005250AFF001E5D3C",
    // Lower case, a number that no line has, a command without a length and a length without a command.
    "F 3E0c000000000423005001843C",
    "R 09",
    "H 01010000000023",
    "H 0C0100000004",
    // A raw marker inside, and the frame as it is packed.
    "F 3E003E000000003E3C",
    "F 3E003D2E000000003D2E3C",
    // A false checksum, nothing, something before the line's end, something before the letter, another letter, a digit too few.
    "F 3E0C000000000423005001853C",
    "",
    "R 16",
    "H 0C000000000523",
    "R 08\r",
    "H 010100000000 ",
    " R 08",
    "f 3E010100000000023C",
    "F 3E010100000000023",
    "F 3E0C000000002ED1D100011053494445544F4E455F53455454494E471853494445544F4E455F53455454494E475F53554D4D415259423C",
];

/// The log, and the frames.
pub fn list() -> (Vec<u8>, Vec<u8>) {
    let mut log = vec![];
    for text in LINES {
        log.extend([text.as_bytes(), b"\n"].concat());
    }
    log.extend(crate::again::log(&stream(Kind::Mixed, 51, 30_000)));
    // As long as a line may be that has a frame, and the next that is too long.
    log.extend(packed(MOST - 1));
    log.extend_from_within(..29);
    log.extend(packed(MOST + 1));
    log.extend_from_within(..29);
    // A line without its end.
    log.extend_from_within(..28);
    let taken: Vec<u8> = log.split_inclusive(|&b| b == b'\n').filter(|l| l.len() <= MOST).flatten().copied().collect();
    (log, frames(&taken))
}

/// An `F` line of this length.
fn packed(n: usize) -> Vec<u8> {
    let payload: Vec<u8> = (0..n / 2).map(|i| (i % 251) as u8).collect();
    let line_of = |(len, seq): (usize, u8)| format!("F {}\n", hex(&framed(0x0C, seq, &payload[..len]))).into_bytes();
    let mut sizes = (0..n / 2).rev().flat_map(|len| [(len, 0), (len, 1)]);
    let found = sizes.find_map(|size| Some(line_of(size)).filter(|l| l.len() == n)).expect("a payload that fits");
    assert!(read(&found).is_some());
    found
}
