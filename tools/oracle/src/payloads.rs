//! Cases for `payload`: the Rust's `Message::split`, eight decoders and `EqShape`, and its `from_utf8` and `chars`.
use crate::text::{Choice, List, field, lent, rule, shown, sum};
use common::causes::{BATTERY, Decoder, level_places, read};
use original::mdr::payload::{
    AmbientRange, Cell, Charging, EqShape, GeneralSetting, Message, NoiseMode, Reading, Table, decode_general_setting_info,
};

pub fn list() -> List {
    let mut s = Session { list: List::default(), kept: vec![0; 8_192] };
    layouts(&mut s);
    messages(&mut s);
    batteries(&mut s);
    noises(&mut s);
    capabilities(&mut s);
    equalizers(&mut s);
    paired(&mut s);
    supports(&mut s);
    settings(&mut s);
    setting_texts(&mut s);
    texts(&mut s);
    crate::causes::cases(&mut s);
    crate::levels::cases(&mut s);
    s.list
}

// What the Rust answers, as text. Every word ends with a blank.

fn word(w: impl std::fmt::Display) -> String {
    format!("{w} ")
}

fn flag(b: bool) -> String {
    word(if b { "yes" } else { "no" })
}

fn option(o: Option<impl std::fmt::Display>) -> String {
    o.map_or(word("-"), word)
}

fn option_flag(o: Option<bool>) -> String {
    o.map_or(word("-"), flag)
}

/// How many characters bytes are, where they are text.
fn characters(bytes: &[u8]) -> Option<usize> {
    std::str::from_utf8(bytes).ok().map(|text| text.chars().count())
}

fn cell(c: Option<Cell>) -> String {
    let Some(c) = c else { return word("-") };
    let charging = match c.charging {
        Charging::No => word("no"),
        Charging::Yes => word("yes"),
        Charging::Unknown => word("unknown"),
        Charging::Charged => word("charged"),
        Charging::Other(b) => word(b),
    };
    word(c.level) + &charging + &option(c.threshold)
}

fn range(r: AmbientRange) -> String {
    flag(r.voice) + &word(r.min) + &word(r.max) + &word(r.step)
}

/// OURS, by 02: where a decoder answers `None`, and of an empty payload, the refusal is 25, 26 or 19; where it reads a battery level above
/// 100, 29.
fn refusal(read: Result<Reading, u8>) -> String {
    word("refused") + &word(read.expect_err("what another decoder reads"))
}

pub fn reading(letter: char, table: Table, payload: &[u8], m: usize) -> String {
    match letter {
        'm' => message(payload),
        'b' => match read(Decoder::Battery, payload) {
            Ok(Reading::Battery(r)) => cell(r.main) + &cell(r.left) + &cell(r.right) + &cell(r.case),
            other => refusal(other),
        },
        'n' => noise(payload),
        'c' => capability(payload),
        'e' => equalizer(payload),
        'p' => devices(payload),
        'f' => support(table, payload, m),
        'g' => match read(Decoder::Setting, payload) {
            Ok(Reading::GeneralSettingParam { slot, enabled }) => word(slot) + &flag(enabled),
            other => refusal(other),
        },
        'i' => setting_info(payload),
        'y' => option(characters(payload)),
        _ => unreachable!("no such reading"),
    }
}

/// OURS, by document 01: 19 for an empty payload.
fn message(payload: &[u8]) -> String {
    match Message::split(payload) {
        Some(m) => word(m.command.to_byte()) + &option(m.kind) + &word(m.len) + &shown(m.body),
        None => "refused 19 . ".into(),
    }
}

fn noise(payload: &[u8]) -> String {
    let r = match read(Decoder::Noise, payload) {
        Ok(Reading::Noise(r)) => r,
        other => return refusal(other),
    };
    let mode = match r.mode {
        NoiseMode::Off => "off",
        NoiseMode::Anc => "anc",
        NoiseMode::Ambient => "ambient",
    };
    word(mode)
        + &option(r.mode_byte)
        + &option(r.ambient_level)
        + &option_flag(r.focus_on_voice)
        + &flag(r.settled)
        + &option_flag(r.adaptive)
        + &option(r.adaptive_sensitivity)
}

/// OURS: the record holds two ranges, and those behind the count are zero.
fn capability(payload: &[u8]) -> String {
    let (answer, mut ranges) = match read(Decoder::Capability, payload) {
        Ok(Reading::NoiseCapability { kind, ranges }) => (word(kind), ranges),
        other => (refusal(other), vec![]),
    };
    let count = ranges.len();
    ranges.resize(2, AmbientRange { voice: false, min: 0, max: 0, step: 0 });
    answer + &word(count) + &range(ranges[0]) + &range(ranges[1])
}

/// The place of a number in the replay's list: 0 to 255, then -10 to -1.
fn place(n: i32) -> i32 {
    if n < 0 { 266 + n } else { n }
}

/// OURS: a band's gain is its step less the bias of the shape, which is the Rust's.
fn equalizer(payload: &[u8]) -> String {
    let r = match read(Decoder::Equalizer, payload) {
        Ok(Reading::Equalizer(r)) => r,
        other => return refusal(other) + ". ",
    };
    let shape = EqShape::of(r.steps.len());
    let name = match shape {
        EqShape::ClearBassAndFive => "six",
        EqShape::TenBands => "ten",
        EqShape::Unknown => "unknown",
    };
    let mut gains = 0;
    for &step in &r.steps {
        let place = place(i32::from(step) - shape.bias());
        gains = sum(gains, &[(place / 256) as u8, (place % 256) as u8]);
    }
    word(r.preset) + &word(r.steps.len()) + &shown(&r.steps) + &word(name) + &word(place(shape.bias())) + &word(gains)
}

/// OURS: addresses and names are offsets in the payload, held to the Rust's strings here.
fn looked_up(payload: &[u8]) -> Result<Vec<String>, String> {
    let devices = match read(Decoder::Paired, payload) {
        Ok(Reading::PairedDevices(devices)) => devices,
        other => return Err(refusal(other)),
    };
    let mut all = vec![];
    let mut at = 3;
    for d in &devices {
        let (name, len) = (at + 22, usize::from(payload[at + 21]));
        let bytes = &payload[name..name + len];
        assert_eq!(String::from_utf8_lossy(&payload[at..at + 17]), d.address);
        assert_eq!(String::from_utf8_lossy(bytes), d.name);
        let details = d.detail.map(word).concat();
        all.push(word(at) + &word(d.status) + &details + &word(name) + &word(len) + &option(characters(bytes)));
        at = name + len;
    }
    assert_eq!(at + 1, payload.len());
    Ok(all)
}

/// OURS: an index that is not below the count is refusal 21, after those of the list.
fn lookup(payload: &[u8], index: usize) -> String {
    match looked_up(payload) {
        Ok(devices) => devices.get(index).cloned().unwrap_or("refused 21 ".into()),
        Err(refusal) => refusal,
    }
}

fn devices(payload: &[u8]) -> String {
    match looked_up(payload) {
        Ok(devices) => word(devices.len()) + &devices.concat() + &lookup(payload, devices.len()),
        Err(refusal) => refusal + &lookup(payload, 0),
    }
}

/// OURS: the pairs go to the first of `m` records lent, which are shown as bytes; 20 where they do not fit, and nothing changes.
fn support(table: Table, payload: &[u8], m: usize) -> String {
    let mut records = lent(2 * m);
    let (table, functions) = match read(Decoder::Support(table), payload) {
        Ok(Reading::SupportFunctions { table, functions }) => (table, functions),
        other => {
            let refusal = refusal(other);
            return format!("{refusal}{}{refusal}", shown(&records));
        }
    };
    let count = functions.len();
    if m < count {
        return format!("refused 20 {}{count} ", shown(&records));
    }
    for (i, f) in functions.iter().enumerate() {
        records[2 * i] = f.code;
        records[2 * i + 1] = f.priority;
    }
    let name = match table {
        Table::One => "one",
        Table::Two => "two",
    };
    format!("{name} {count} {}{count} ", shown(&records))
}

/// OURS: both texts are offsets in the payload, and refusal 23 where one is none.
fn setting_info(payload: &[u8]) -> String {
    let text = |at: usize, len: usize| word(at) + &word(len) + &option(characters(&payload[at..at + len]));
    match common::settings::texts(payload) {
        Ok([slot, name, name_len, summary, summary_len]) => word(slot) + &text(name, name_len) + &text(summary, summary_len),
        Err(n) => format!("refused {n} "),
    }
}

/// The number of the refusal, or 0.
pub fn outcome(letter: char, payload: &[u8]) -> u8 {
    let answer = reading(letter, Table::One, payload, 512);
    let number = answer.strip_prefix("refused ").and_then(|rest| rest.split(' ').next());
    number.map_or(0, |n| n.parse().expect("a number"))
}

// The cases.

/// The payload that is kept from line to line.
pub struct Session {
    list: List,
    kept: Vec<u8>,
}

impl Session {
    pub fn keep(&mut self, bytes: &[u8]) {
        self.kept[..bytes.len()].copy_from_slice(bytes);
        self.list.add(format!("k {}", field(bytes)), bytes.len().to_string());
    }

    pub fn change(&mut self, at: usize, byte: u8) {
        self.kept[at] = byte;
        self.list.add(format!("x {at} {byte}"), "set".into());
    }

    pub fn read(&mut self, letter: char, n: usize) {
        self.list.add(format!("{letter} {n}"), reading(letter, Table::Two, &self.kept[..n], 0));
    }

    pub fn support(&mut self, n: usize, m: usize, table: Table) {
        let number = if table == Table::One { 1 } else { 2 };
        self.list.add(format!("f {n} {m} {number}"), reading('f', table, &self.kept[..n], m));
    }

    /// The device at an index.
    pub fn lookup(&mut self, n: usize, index: usize) {
        self.list.add(format!("u {n} {index}"), lookup(&self.kept[..n], index));
    }

    /// Every length below `n`: those at which the outcome becomes another, each with its outcome.
    pub fn outcomes(&mut self, letter: char, n: usize) {
        let mut answer = String::new();
        let mut before = None;
        for len in 0..n {
            let outcome = outcome(letter, &self.kept[..len]);
            if before.replace(outcome) != Some(outcome) {
                answer += &(word(len) + &word(outcome));
            }
        }
        self.list.add(format!("o {n} {letter}"), answer);
    }

    /// Every byte at a place.
    pub fn values(&mut self, letter: char, n: usize, at: usize) {
        let mut total = 0;
        for b in 0..=255 {
            self.kept[at] = b;
            total = sum(total, reading(letter, Table::One, &self.kept[..n], 512).as_bytes());
        }
        self.list.add(format!("v {n} {at} {letter}"), total.to_string());
    }

    /// Bytes round the edges at a place, and every byte at another.
    fn pairs(&mut self, letter: char, n: usize, edges: usize, at: usize) {
        let mut total = 0;
        for edge in EDGES {
            self.kept[edges] = edge;
            for b in 0..=255 {
                self.kept[at] = b;
                total = sum(total, reading(letter, Table::One, &self.kept[..n], 512).as_bytes());
            }
        }
        self.list.add(format!("q {n} {edges} {at} {letter}"), total.to_string());
    }

    /// Every length below `n`.
    fn lengths(&mut self, letter: char, n: usize) {
        let answers = |t, len| sum(t, reading(letter, Table::One, &self.kept[..len], 512).as_bytes());
        let total = (0..n).fold(0, answers);
        self.list.add(format!("l {n} {letter}"), total.to_string());
    }

    /// Every part of a string.
    fn parts(&mut self, letter: char, bytes: &[u8]) {
        self.keep(bytes);
        let answers = |t, part: &[u8]| sum(t, reading(letter, Table::One, part, 512).as_bytes());
        let total = parts(bytes).fold(0, answers);
        self.list.add(format!("s {} {letter}", bytes.len()), total.to_string());
    }

    /// A payload with every part of a text in the text's place.
    fn placed_parts(&mut self, place: &Place, text: &[u8]) {
        let p = place.with(text);
        self.keep(&p);
        let answers = |t, part: &[u8]| sum(t, reading(place.letter, Table::One, &place.with(part), 512).as_bytes());
        let total = parts(text).fold(0, answers);
        self.list.add(format!("d {} {} {}", p.len(), place.head.len(), place.letter), total.to_string());
    }

    /// Every byte at every place of the text in a payload.
    fn damaged(&mut self, place: &Place, text: &[u8]) {
        let p = place.with(text);
        self.keep(&p);
        for at in place.at()..place.at() + text.len() {
            self.values(place.letter, p.len(), at);
            self.change(at, p[at]);
        }
    }

    /// A payload of its own length, one byte less and one more.
    pub fn edges(&mut self, letter: char, bytes: &[u8]) {
        self.keep(bytes);
        for n in bytes.len().saturating_sub(1)..=bytes.len() + 1 {
            self.read(letter, n);
        }
    }

    /// Every byte at every place of a payload.
    fn sweep(&mut self, letter: char, bytes: &[u8]) {
        for at in 0..bytes.len() {
            self.keep(bytes);
            self.values(letter, bytes.len(), at);
        }
    }
}

/// The parts of a string, by where they begin and then by their length, save the empty ones.
fn parts(bytes: &[u8]) -> impl Iterator<Item = &[u8]> {
    (0..bytes.len()).flat_map(move |from| (from + 1..=bytes.len()).map(move |end| &bytes[from..end]))
}

/// A payload with room for a text: what stands before its length byte, what stands behind it, and the letter of its reading.
struct Place {
    letter: char,
    head: Vec<u8>,
    tail: Vec<u8>,
}

impl Place {
    /// In a payload whose text is empty, its length byte at a place.
    fn new(letter: char, p: &[u8], at: usize) -> Place {
        assert_eq!(p[at], 0);
        Place { letter, head: p[..at].into(), tail: p[at + 1..].into() }
    }

    fn with(&self, text: &[u8]) -> Vec<u8> {
        [&self.head, &[text.len() as u8][..], text, &self.tail].concat()
    }

    /// Where the text begins.
    fn at(&self) -> usize {
        self.head.len() + 1
    }
}

/// Every kind with every length up to 20, for every decoder.
fn layouts(s: &mut Session) {
    let mut payloads = vec![vec![0; 21], vec![1; 21]];
    payloads.extend((0..4).map(|i| rule(2 * i, 21)));
    // Counts that fit some of the lengths.
    for count in [0, 1, 2, 3, 4] {
        payloads.push([vec![0x61, 0, count, count, 0, 9, 1, 1, 2, 7, 3], vec![0; 10]].concat());
    }
    for p in payloads {
        s.keep(&p);
        for letter in "mbncepfgi".chars() {
            for n in 0..=20 {
                s.values(letter, n, 1);
            }
        }
    }
}

fn messages(s: &mut Session) {
    s.keep(&rule(6, 300));
    for n in 0..=20 {
        s.read('m', n);
        s.values('m', n, 0);
    }
    for n in [100, 255, 256, 257, 300] {
        s.read('m', n);
    }
}

fn batteries(s: &mut Session) {
    for (kind, len) in BATTERY {
        let mut p = rule(8, len);
        (p[0], p[1]) = (0x23, kind);
        for &at in level_places(kind) {
            p[at] %= 101;
        }
        s.sweep('b', &p);
        for charging in [0, 1, 2, 3, 4, 255] {
            p[3] = charging;
            s.edges('b', &p);
            if len >= 6 {
                p[5] = 3 - charging.min(3);
                s.edges('b', &p);
            }
        }
    }
    s.edges('b', &[0x23, 0x00, 0x50, 0x01]);
}

fn noises(s: &mut Session) {
    for (kind, len) in [(0x15, 7), (0x17, 7), (0x19, 9), (0x22, 6), (0x13, 7), (0x01, 5)] {
        let mut p = rule(10, len);
        (p[0], p[1]) = (0x67, kind);
        s.sweep('n', &p);
        // 00, 01 and 02 for every byte that selects a case.
        let places: Vec<usize> = match kind {
            0x19 => vec![2, 3, 4, 5, 7],
            0x22 => vec![2, 3, 4],
            0x01 => vec![2, 3, 4],
            _ => vec![2, 3, 4, 5],
        };
        for i in 0..3usize.pow(places.len() as u32) {
            for (k, &at) in places.iter().enumerate() {
                p[at] = (i / 3usize.pow(k as u32) % 3) as u8;
            }
            s.keep(&p);
            s.read('n', len);
        }
        s.edges('n', &p);
    }
    s.edges('n', &[0x67, 0x17, 0x01, 0x00, 0x00, 0x01, 0x05]);
}

fn capabilities(s: &mut Session) {
    // Good ones of both modes, and every fault.
    let elements: [[u8; 4]; 8] = [
        [0, 0, 20, 5],
        [1, 1, 10, 1],
        [0, 7, 7, 255],
        [1, 0, 255, 1],
        [2, 0, 20, 5],
        [0, 8, 7, 1],
        [1, 0, 20, 0],
        [0xFF, 0, 0, 0],
    ];
    for n in 0..=3u32 {
        for i in 0..8usize.pow(n) {
            let list: Vec<u8> = (0..n).flat_map(|k| elements[i / 8usize.pow(k) % 8]).collect();
            let p = [&[0x61, 0x17, n as u8][..], &list].concat();
            s.keep(&p);
            s.read('c', p.len());
            if i % 5 == 0 {
                s.edges('c', &p);
                for count in [0, n as u8 + 1, 255] {
                    s.change(2, count);
                    s.read('c', p.len());
                }
            }
        }
    }
    for kind in (0x11..=0x24).chain([0, 0xFF]) {
        s.edges('c', &[0x61, kind, 1, 1, 3, 9, 2]);
    }
    s.sweep('c', &[0x61, 0x17, 1, 0, 4, 9, 2]);
    s.sweep('c', &[0x61, 0x17, 2, 0, 4, 9, 2, 1, 0, 20, 5]);
}

fn equalizers(s: &mut Session) {
    for n in [0, 1, 5, 6, 7, 9, 10, 11, 254, 255] {
        let p = [&[0x57, 0x00, 0xA0, n as u8][..], &rule(12, n)].concat();
        s.edges('e', &p);
        for at in [0, 1, 2, 3] {
            s.keep(&p[..4]);
            s.values('e', p.len(), at);
        }
        for at in 4..p.len().min(15) {
            s.keep(&p[..at + 1]);
            s.values('e', p.len(), at);
        }
    }
    s.edges('e', &[0x57, 0x00, 0xA0, 0x06, 0x14, 0x0B, 0x0A, 0x0D, 0x09, 0x0C]);
}

/// Names: text of every form, and what is not.
pub const NAMES: [&[u8]; 16] = [
    b"",
    b"A",
    b"Al",
    "\u{7F}\u{80}\u{7FF}".as_bytes(),
    "\u{800}\u{D7FF}\u{E000}\u{FFFF}".as_bytes(),
    "\u{10000}\u{10FFFF}".as_bytes(),
    &[0x80],
    &[0xC0, 0x80],
    &[0xC1, 0xBF],
    &[0xE0, 0x9F, 0xBF],
    &[0xED, 0xA0, 0x80],
    &[0xF0, 0x8F, 0xBF, 0xBF],
    &[0xF4, 0x90, 0x80, 0x80],
    &[0xF5, 0x80, 0x80, 0x80],
    &[b'a', 0xE2, 0x82],
    &[0xFF, b'z'],
];

fn device(c: &mut Choice, name: &[u8]) -> Vec<u8> {
    let mut out: Vec<u8> = (0..17).map(|i| if i % 3 == 2 { b':' } else { c.of(b"0123456789ABCDEF\xFF") }).collect();
    out.extend([c.of(&[0, 1, 2]), c.byte(), c.byte(), c.byte(), name.len() as u8]);
    out.extend(name);
    out
}

pub fn paired_payload(c: &mut Choice, names: &[&[u8]]) -> Vec<u8> {
    let mut p = vec![0x37, 0x02, names.len() as u8];
    for name in names {
        p.extend(device(c, name));
    }
    p.push(c.byte());
    p
}

fn paired(s: &mut Session) {
    let mut c = Choice::new(21);
    // Lists of 0 to 20 devices, cut at every byte and with bytes behind.
    for n in 0..=20 {
        let names: Vec<&[u8]> = (0..n).map(|i| NAMES[(i * 7 + n) % 16]).collect();
        let p = paired_payload(&mut c, &names);
        s.keep(&p);
        for len in 0..=p.len() + 2 {
            s.read('p', len);
        }
        for count in [n.wrapping_sub(1) as u8, n as u8 + 1, 255] {
            s.change(2, count);
            s.read('p', p.len());
        }
    }
    // Every name alone; names of every length class.
    let long: Vec<Vec<u8>> = [3, 16, 17, 22, 60, 127, 128, 254, 255].iter().map(|&n| vec![b'n'; n]).collect();
    let broken: Vec<Vec<u8>> = long.iter().map(|n| [&n[1..], &[0xC2]].concat()).collect();
    for name in NAMES.iter().copied().chain(long.iter().map(|n| &n[..])).chain(broken.iter().map(|n| &n[..])) {
        let p = paired_payload(&mut c, &[name]);
        s.edges('p', &p);
    }
    let all: Vec<&[u8]> = long.iter().chain(&broken).map(|n| &n[..]).collect();
    let p = paired_payload(&mut c, &all);
    s.edges('p', &p);
    // Every kind, count and name length.
    for names in [&[][..], &[&b"Al"[..]], &[&b"A"[..], "\u{E9}".as_bytes()]] {
        let p = paired_payload(&mut c, names);
        s.sweep('p', &p);
    }
    // 255 devices with no name.
    let p = paired_payload(&mut c, &[&b""[..]; 255]);
    s.edges('p', &p);
}

fn supports(s: &mut Session) {
    for n in [0, 1, 2, 46, 128, 255] {
        let p = [&[0x07, 0x00, n as u8][..], &rule(14, 2 * n)].concat();
        s.keep(&p);
        for len in p.len() - 1..=p.len() + 1 {
            for m in [0, n.saturating_sub(1), n, n + 1, 512] {
                s.support(len, m, Table::One);
                s.support(len, m, Table::Two);
            }
        }
        for at in 0..p.len().min(6) {
            s.keep(&p[..p.len().min(6)]);
            s.values('f', p.len(), at);
        }
    }
}

fn settings(s: &mut Session) {
    for kind in [0xD1, 0x00] {
        for value in 0..3 {
            for setting in 0..3 {
                s.edges('g', &[0xD7, kind, setting, value]);
            }
        }
        s.sweep('g', &[0xD7, kind, 0, 0]);
        s.sweep('g', &[0xD7, kind, 0, 1]);
    }
}

/// What the setting in a slot is called.
pub fn info(slot: u8, format: u8, name: &[u8], summary: &[u8]) -> Vec<u8> {
    [&[0xD1, slot, 0x00, format, name.len() as u8], name, &[summary.len() as u8], summary].concat()
}

/// What was captured.
pub fn captured() -> [Vec<u8>; 2] {
    [
        info(0xD1, 1, b"SIDETONE_SETTING", b"SIDETONE_SETTING_SUMMARY"),
        info(0xD2, 1, b"MULTIPOINT_SETTING", b"MULTIPOINT_SETTING_SUMMARY_LDAC_AVAILABLE"),
    ]
}

/// Where ours differs: the Rust counts the strings that it has repaired, so it refuses the first and reads the others.
pub const REPAIRED: [&[u8]; 3] = [
    &[0xD1, 0xD1, 0, 0, 1, 0xFF, 0],
    &[0xD1, 0xD1, 0, 0, 0, 3, 0xF0, 0x90, 0x80],
    &[0xD1, 0xD1, 0, 0, 0, 1, 0xFF, 0, 0],
];

/// The first and the last letter of each row of RFC 3629's table.
pub const ROWS: &str = "\0\u{7F}\u{80}\u{7FF}\u{800}\u{FFF}\u{1000}\u{CFFF}\u{D000}\u{D7FF}\u{E000}\u{FFFF}\
                        \u{10000}\u{3FFFF}\u{40000}\u{FFFFF}\u{100000}\u{10FFFF}";

/// A letter of each length.
pub const LETTERS: [&str; 4] = ["t", "\u{E9}", "\u{30D8}", "\u{1F3A7}"];

fn setting_texts(s: &mut Session) {
    let [sidetone, multipoint] = captured();
    for p in [sidetone, multipoint, info(0xD3, 0, ROWS.as_bytes(), ROWS.as_bytes())] {
        s.edges('i', &p);
        s.lengths('i', p.len() + 3);
    }
    let read = Reading::GeneralSettingInfo(GeneralSetting { slot: 0xD1, name: "".into(), summary: "\u{FFFD}".into() });
    for (p, theirs, ours) in [(REPAIRED[0], None, 23), (REPAIRED[1], Some(&read), 23), (REPAIRED[2], Some(&read), 26)] {
        assert_eq!(Message::split(p).and_then(|m| decode_general_setting_info(&m)).as_ref(), theirs);
        assert_eq!(common::settings::texts(p), Err(ours));
        s.edges('i', p);
    }
    for name in NAMES {
        for summary in NAMES {
            s.edges('i', &info(0xD1, 0, name, summary));
        }
    }
    for (name, summary) in [("", ""), ("A", ""), ("", "A"), ("Al", "\u{E9}"), ("\u{20AC}", "\u{1F3A7}!")] {
        s.sweep('i', &info(0xD1, 1, name.as_bytes(), summary.as_bytes()));
    }
    for letter in LETTERS {
        // A text of another length has some letters of one byte at its front.
        for more in 0..letter.len() {
            summaries(s, &b"abc"[..more], letter.as_bytes());
            names(s, &b"abc"[..more], letter.as_bytes());
        }
    }
    damaged_texts(s);
}

/// Summaries of this front and up to as many letters as fit, behind a short and a long name, cut at every byte and with bytes behind.
fn summaries(s: &mut Session, front: &[u8], letter: &[u8]) {
    let summary = filled(front, letter, 255);
    for name in [&b"Al"[..], &[b'n'; 255]] {
        s.keep(&info(0xD1, 0, name, &summary));
        for n in (front.len()..=summary.len()).step_by(letter.len()) {
            s.change(5 + name.len(), n as u8);
            s.lengths('i', 6 + name.len() + n + 3);
        }
    }
}

/// The same for names, before a short and a long summary.
fn names(s: &mut Session, front: &[u8], letter: &[u8]) {
    s.keep(&[&[0xD1, 0xD2, 0x00, 0x01, 0x00], front, &[b's'; 520]].concat());
    for n in (front.len()..=255).step_by(letter.len()) {
        s.change(4, n as u8);
        if n > front.len() {
            for (i, &b) in letter.iter().enumerate() {
                s.change(5 + n - letter.len() + i, b);
            }
        }
        for len in [2, 255] {
            s.change(5 + n, len as u8);
            s.lengths('i', 6 + n + len + 3);
        }
    }
}

/// Bytes round the edges of the ranges: of a first byte, and of a later one.
const FIRSTS: [u8; 20] = [
    0x00, 0x7F, 0x80, 0xBF, 0xC0, 0xC1, 0xC2, 0xDF, 0xE0, 0xE1, 0xEC, 0xED, 0xEE, 0xEF, 0xF0, 0xF1, 0xF3, 0xF4, 0xF5, 0xFF,
];
const EDGES: [u8; 10] = [0x00, 0x7F, 0x80, 0x8F, 0x90, 0x9F, 0xA0, 0xBF, 0xC0, 0xFF];

/// A device's name, the first and the last of two, and a setting's name and summary.
fn places() -> [Place; 4] {
    let mut c = Choice::new(25);
    let other = LETTERS[1].as_bytes();
    [
        Place::new('p', &paired_payload(&mut c, &[b"", b"Al"]), 24),
        Place::new('p', &paired_payload(&mut c, &[b"Al", b""]), 48),
        Place::new('i', &info(0xD1, 0, b"", other), 4),
        Place::new('i', &info(0xD1, 0, other, b""), 7),
    ]
}

/// All of one and two bytes, and of three and four round the edges with every last byte.
fn text_edges(s: &mut Session, place: &Place) {
    let (letter, at) = (place.letter, place.at());
    let keep = |s: &mut Session, n: usize| {
        let p = place.with(&[0; 4][..n]);
        s.keep(&p);
        p.len()
    };
    let len = keep(s, 1);
    s.values(letter, len, at);
    let len = keep(s, 2);
    for first in 0..=255 {
        s.change(at, first);
        s.values(letter, len, at + 1);
    }
    let len = keep(s, 3);
    for first in FIRSTS {
        s.change(at, first);
        s.pairs(letter, len, at + 1, at + 2);
    }
    let len = keep(s, 4);
    for first in FIRSTS {
        s.change(at, first);
        for second in EDGES {
            s.change(at + 1, second);
            s.pairs(letter, len, at + 2, at + 3);
        }
    }
}

fn damaged_texts(s: &mut Session) {
    let mut c = common::choice::Choice::new(24);
    for _ in 0..200 {
        let mut p = common::frames::setting_info(&mut c, 0xD1);
        if p.len() > 120 {
            continue;
        }
        for _ in 0..c.below(3) {
            common::frames::damage(&mut c, &mut p);
        }
        s.keep(&p);
        s.read('i', p.len());
        s.lengths('i', p.len() + 3);
    }
}

/// The first and the last letter of each row, all of these, each two and three letters of all lengths, and what is no text.
fn forms() -> Vec<Vec<u8>> {
    let mut out: Vec<Vec<u8>> = ROWS.chars().map(|c| c.to_string().into()).collect();
    out.push(ROWS.into());
    for a in LETTERS {
        for b in LETTERS {
            out.push([a, b].concat().into());
            out.extend(LETTERS.map(|c| [a, b, c].concat().into()));
        }
    }
    out.extend(NAMES[6..].iter().map(|&name| name.into()));
    out
}

/// Up to `n` bytes: this front and as many letters as fit.
fn filled(front: &[u8], letter: &[u8], n: usize) -> Vec<u8> {
    [front, &letter.repeat((n - front.len()) / letter.len())].concat()
}

/// Texts cut at every byte, behind and before runs of up to 20 letters of one byte: ours goes by blocks of eight.
fn joined_texts(s: &mut Session) {
    let run = [b'a'; 20];
    let places = places();
    for form in forms() {
        let text = [&run[..], &form, &run].concat();
        s.parts('y', &text);
        for place in &places {
            s.placed_parts(place, &text);
        }
    }
    for a in LETTERS {
        for b in LETTERS {
            for n in 1..=run.len() {
                s.parts('y', &[a.as_bytes(), &run[..n], b.as_bytes()].concat());
            }
        }
    }
    let joined = [&run[..9], LETTERS.concat().as_bytes(), &run[..9]].concat();
    s.sweep('y', &joined);
    for place in &places {
        s.damaged(place, &joined);
        text_edges(s, place);
    }
}

/// Names of 255 bytes, which are as long as they get, and longer strings.
fn long_texts(s: &mut Session) {
    let [device, ..] = places();
    for letter in LETTERS.map(str::as_bytes) {
        for more in 0..letter.len() {
            let text = filled(&b"abc"[..more], letter, 255);
            s.parts('y', &text);
            s.edges('p', &device.with(&text));
            if text.len() == 255 {
                s.placed_parts(&device, &text);
            }
        }
        s.keep(&filled(b"", letter, 1_000));
        s.lengths('y', 1_001);
    }
}

fn texts(s: &mut Session) {
    s.read('y', 0);
    joined_texts(s);
    long_texts(s);
    // Strings cut at every byte.
    let mut c = Choice::new(22);
    for _ in 0..40 {
        let n = 1 + c.below(6);
        let p: Vec<u8> = (0..n).flat_map(|_| NAMES[c.below(if n % 2 == 0 { 6 } else { 16 })].to_vec()).collect();
        s.keep(&p);
        for n in 0..=p.len() {
            s.read('y', n);
        }
    }
    // All of one to three bytes, and of four round the edges.
    let every: Vec<u8> = (0..=255).collect();
    for n in 1..=4 {
        for first in 0..=255 {
            let sets: [&[u8]; 3] = match n {
                1 => [&[0], &[0], &[0]],
                2 => [&every, &[0], &[0]],
                3 => [&every, &every, &[0]],
                _ => [&every, &EDGES, &EDGES],
            };
            let mut total = 0;
            for &b in sets[0] {
                for &d in sets[1] {
                    for &e in sets[2] {
                        // 255 is no text.
                        let number = characters(&[first, b, d, e][..n]).map_or(255, |n| n as u8);
                        total = sum(total, &[number]);
                    }
                }
            }
            s.list.add(format!("t {n} {first}"), total.to_string());
        }
    }
    // What the strings leave at the front of what is kept is not read again before another is kept.
}
