//! Payloads that the decoders accept, frames around them, and damage.
use crate::causes::{BATTERY, MOST_LEVEL, level_places};
use crate::choice::Choice;
use original::mdr::DataType;
use original::mdr::frame;

pub const START: u8 = 0x3E;
pub const END: u8 = 0x3C;
pub const SENTRY: u8 = 0x3D;

/// The three special bytes, the three that stand for them, and some others.
pub const MARKS: [u8; 9] = [END, SENTRY, START, 0x2C, 0x2D, 0x2E, 0x00, 0x3B, 0x3F];

/// The house plan's entries: type, command, entry.
pub const HOUSE: [(u8, u8, u8); 14] = [
    (0x0C, 0x07, 6),
    (0x0C, 0x23, 1),
    (0x0C, 0x25, 1),
    (0x0C, 0x57, 4),
    (0x0C, 0x59, 4),
    (0x0C, 0x61, 3),
    (0x0C, 0x67, 2),
    (0x0C, 0x69, 2),
    (0x0C, 0xD1, 8),
    (0x0C, 0xD7, 7),
    (0x0C, 0xD9, 7),
    (0x0E, 0x07, 6),
    (0x0E, 0x37, 5),
    (0x0E, 0x39, 5),
];

pub fn house_plan() -> Vec<u8> {
    let mut plan = vec![0; 512];
    for (data_type, command, entry) in HOUSE {
        let table = if data_type == 0x0C { 0 } else { 256 };
        plan[table + usize::from(command)] = entry;
    }
    plan
}

pub fn framed(data_type: u8, seq: u8, payload: &[u8]) -> Vec<u8> {
    frame::pack(DataType::from_wire(data_type), seq, payload)
}

/// A frame around a body of any bytes.
pub fn escaped(body: &[u8]) -> Vec<u8> {
    let mut out = vec![START];
    frame::escape_into(body, &mut out);
    out.push(END);
    out
}

/// A frame in which each START of the body stands as it is.
pub fn raw_starts(mut frame: Vec<u8>) -> Vec<u8> {
    while let Some(at) = frame.windows(2).position(|two| two == [SENTRY, 0x2E]) {
        frame.splice(at..at + 2, [START]);
    }
    frame
}

/// A body with a true checksum, and the length that it declares.
pub fn body(data_type: u8, seq: u8, declared: u32, payload: &[u8]) -> Vec<u8> {
    let mut body = vec![data_type, seq];
    body.extend(declared.to_be_bytes());
    body.extend(payload);
    body.push(frame::checksum(&body));
    body
}

/// Mostly what a headset sends, now and then any byte.
fn value(c: &mut Choice, usual: &[u8]) -> u8 {
    if c.one_in(8) { c.byte() } else { c.of(usual) }
}

/// A battery whose levels are made of the bytes that were chosen for them.
fn battery_by(c: &mut Choice, command: u8, level: fn(u8) -> u8) -> Vec<u8> {
    let (kind, len) = c.of(&BATTERY);
    let mut p = vec![command, kind];
    for i in 2..len {
        let even = i % 2 == 0;
        p.push(if even { value(c, &[0, 30, 60, 61, 62, 80, 100]) } else { value(c, &[0, 1, 2, 3]) });
    }
    for &at in level_places(kind) {
        p[at] = level(p[at]);
    }
    p
}

/// A level of up to 100; of a byte above it one that is not escaped either, so that the payload stays as long on the wire.
fn level(b: u8) -> u8 {
    if b > MOST_LEVEL { b / 5 } else { b }
}

/// What the decoder accepts: levels of up to 100, any threshold.
pub fn battery(c: &mut Choice, command: u8) -> Vec<u8> {
    battery_by(c, command, level)
}

/// What a headset sends: a level in 128 is 255, as while it starts.
pub fn sent_battery(c: &mut Choice, command: u8) -> Vec<u8> {
    battery_by(c, command, |b| if b >= 240 { 255 } else { level(b) })
}

/// A battery for every level in every cell of every layout, and that level. Another cell has one of up to 100; charging bytes and
/// thresholds take every value.
pub fn every_level(command: u8) -> Vec<(u8, Vec<u8>)> {
    let mut all = vec![];
    for (kind, len) in BATTERY {
        for &cell in level_places(kind) {
            for b in 0..=255u8 {
                let mut p = vec![command, kind];
                p.extend((2..len).map(|at| b.wrapping_mul(7).wrapping_add(at as u8)));
                for &at in level_places(kind) {
                    p[at] = if at == cell { b } else { b.min(MOST_LEVEL) };
                }
                all.push((b, p));
            }
        }
    }
    all
}

pub fn noise(c: &mut Choice, command: u8) -> Vec<u8> {
    let (kind, len) = c.of(&[(0x15, 7), (0x17, 7), (0x19, 9), (0x22, 6), (0x13, 7), (0x01, 5)]);
    let mut p = vec![command, kind];
    for _ in 2..len {
        p.push(value(c, &[0, 1, 1, 20]));
    }
    p
}

pub fn capability(c: &mut Choice, command: u8) -> Vec<u8> {
    let kind = c.of(&[0x13, 0x14, 0x15, 0x16, 0x17, 0x18, 0x19, 0x22]);
    let count = c.between(1, 2);
    let first = c.below(2) as u8;
    let mut p = vec![command, kind, count as u8];
    for i in 0..count {
        let min = c.byte();
        let max = min.saturating_add(c.byte());
        p.extend([first ^ i as u8, min, max, c.between(1, 255) as u8]);
    }
    p
}

pub fn equalizer(c: &mut Choice, command: u8) -> Vec<u8> {
    let count = if c.one_in(6) { c.below(256) } else { c.of(&[6, 6, 10]) };
    let mut p = vec![command, 0x00, value(c, &[0x00, 0xA0, 0xA1]), count as u8];
    for _ in 0..count {
        p.push(value(c, &[4, 8, 10, 12, 20]));
    }
    p
}

pub fn support(c: &mut Choice, command: u8, count: usize) -> Vec<u8> {
    let mut p = vec![command, 0x00, count as u8];
    p.extend(c.bytes(2 * count));
    p
}

pub fn setting(c: &mut Choice, command: u8) -> Vec<u8> {
    vec![command, value(c, &[0xD1, 0xD2, 0xD3, 0xD4]), 0x00, c.below(2) as u8]
}

/// Text, at most 255 bytes of it.
pub fn text(c: &mut Choice) -> Vec<u8> {
    match c.below(10) {
        0 => vec![],
        1 => "Téléphone de Zoë".into(),
        2 => "ヘッドホン 🎧".into(),
        3 => vec![b't'; c.below(256)],
        4 => (0..c.below(20)).map(|_| c.of(&[END, SENTRY, START])).collect(),
        5 => {
            let letter = c.of(&[
                '\u{7F}',
                '\u{80}',
                '\u{7FF}',
                '\u{800}',
                '\u{D7FF}',
                '\u{E000}',
                '\u{FFFF}',
                '\u{10000}',
                '\u{40000}',
                '\u{10FFFF}',
            ]);
            let n = c.below(255 / letter.len_utf8() + 1);
            String::from(letter).repeat(n).into()
        }
        _ => c
            .of(&["SIDETONE_SETTING", "MULTIPOINT_SETTING", "MULTIPOINT_SETTING_SUMMARY_LDAC_AVAILABLE", "TOUCH_PANEL_SETTING"])
            .into(),
    }
}

/// What a setting is called: a name and a summary.
pub fn setting_info(c: &mut Choice, command: u8) -> Vec<u8> {
    let mut p = vec![command, value(c, &[0xD1, 0xD2, 0xD3, 0xD4]), 0x00, c.below(2) as u8];
    for text in [text(c), text(c)] {
        p.push(text.len() as u8);
        p.extend(text);
    }
    p
}

/// What other machines call themselves; some are no text.
pub fn name(c: &mut Choice) -> Vec<u8> {
    match c.below(12) {
        0 => vec![],
        1 => "Téléphone de Zoë".into(),
        2 => "ヘッドホン 🎧".into(),
        3 => vec![0xC3],
        4 => vec![b'A', 0xFF, 0xED, 0xA0, 0x80],
        5 => (0..c.below(20)).map(|_| c.of(&[END, SENTRY, START, b'*'])).collect(),
        6 => {
            let n = c.below(256);
            c.bytes(n)
        }
        7 => vec![b'n'; c.below(256)],
        _ => c.of(&["Pixel 8", "KUWABARA", "KOMAHUANG-PC2", "iPad", "thinkpad-x1", "DESKTOP-4C3D2E"]).into(),
    }
}

/// A list of paired devices with these names.
pub fn paired(c: &mut Choice, command: u8, names: &[Vec<u8>]) -> Vec<u8> {
    let mut p = vec![command, 0x02, names.len() as u8];
    for name in names {
        for i in 0..17 {
            p.push(if i % 3 == 2 { b':' } else { value(c, b"0123456789ABCDEF") });
        }
        p.extend([value(c, &[0, 1, 2]), c.byte(), c.byte(), c.byte(), name.len() as u8]);
        p.extend(name);
    }
    p.push(c.byte());
    p
}

/// A payload that the decoder of this entry accepts.
pub fn accepted(c: &mut Choice, entry: u8, command: u8) -> Vec<u8> {
    match entry {
        1 => battery(c, command),
        2 => noise(c, command),
        3 => capability(c, command),
        4 => equalizer(c, command),
        5 => {
            let names: Vec<Vec<u8>> = (0..c.below(9)).map(|_| name(c)).collect();
            paired(c, command, &names)
        }
        6 => {
            let count = if c.one_in(4) { c.below(256) } else { c.below(50) };
            support(c, command, count)
        }
        7 => setting(c, command),
        _ => setting_info(c, command),
    }
}

/// One byte changed, put in or left out, or the end cut off.
pub fn damage(c: &mut Choice, bytes: &mut Vec<u8>) {
    let b = if c.one_in(2) { c.of(&MARKS) } else { c.byte() };
    if bytes.is_empty() {
        bytes.push(b);
        return;
    }
    let at = c.below(bytes.len());
    match c.below(8) {
        0 => bytes.insert(at, b),
        1 => drop(bytes.remove(at)),
        2 => bytes.truncate(at),
        3 => bytes[at] ^= 1 << c.below(8),
        4 => bytes[at] = bytes[at].wrapping_add(1),
        _ => bytes[at] = b,
    }
}
