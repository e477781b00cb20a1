//! Message split, the eight readings, the lookup of a paired device, masking and the characters of a text beside the Rust's.
use crate::case::{Case, Run, Tally, fewer, hex};
use crate::inputs::{any, any_levels, content, room, setting_texts, shortest, strings, values};
use crate::lent::{Lent, MOST_VALUES, Told, Values, left_difference, told_difference};
use common::causes::{BATTERY, Decoder, level_places, read};
use common::choice::Choice;
use common::frames::{accepted, damage, name, paired, support};
use common::settings::texts;
use original::mdr::payload::{AmbientRange, Cell, Charging, Message, NoiseMode, PairedDevice, Reading, Table};

#[derive(Clone, Copy, Debug, PartialEq)]
pub enum Call {
    Message,
    Battery,
    Noise,
    Capability,
    Equalizer,
    PairedDevices,
    PairedDevice,
    MaskPaired,
    SupportCheck,
    SupportFunctions,
    GeneralSetting,
    GeneralSettingInfo,
    CountCharacters,
}

/// Those that read any payload.
const READINGS: [Call; 12] = [
    Call::Message,
    Call::Battery,
    Call::Noise,
    Call::Capability,
    Call::Equalizer,
    Call::PairedDevices,
    Call::PairedDevice,
    Call::MaskPaired,
    Call::SupportCheck,
    Call::SupportFunctions,
    Call::GeneralSetting,
    Call::GeneralSettingInfo,
];

#[derive(Clone, Debug)]
pub struct Payload {
    call: Call,
    bytes: Vec<u8>,
    index: usize,
    values: usize,
    /// Which table a support list is of, and how many records are lent over the least.
    table: u8,
    room: isize,
}

/// What an absent byte is in the numbers.
const ABSENT: u64 = 256;

fn byte(b: Option<u8>) -> u64 {
    b.map_or(ABSENT, u64::from)
}

fn flag(f: Option<bool>) -> u64 {
    f.map_or(2, u64::from)
}

fn cell(c: Option<Cell>) -> [u64; 3] {
    let Some(c) = c else { return [ABSENT; 3] };
    let charging = match c.charging {
        Charging::No => 0,
        Charging::Yes => 1,
        Charging::Unknown => 2,
        Charging::Charged => 3,
        Charging::Other(b) => 256 + u64::from(b),
    };
    [c.level.into(), charging, byte(c.threshold)]
}

fn range(r: Option<&AmbientRange>) -> [u64; 4] {
    r.map_or([0; 4], |r| [r.voice.into(), r.min.into(), r.max.into(), r.step.into()])
}

/// A decoder's reading, as numbers.
fn numbers(reading: Reading) -> Vec<u64> {
    match reading {
        Reading::Battery(r) => [cell(r.main), cell(r.left), cell(r.right), cell(r.case)].concat(),
        Reading::Noise(r) => {
            let mode = match r.mode {
                NoiseMode::Off => 0,
                NoiseMode::Anc => 1,
                NoiseMode::Ambient => 2,
            };
            vec![
                mode,
                byte(r.mode_byte),
                byte(r.ambient_level),
                flag(r.focus_on_voice),
                r.settled.into(),
                flag(r.adaptive),
                byte(r.adaptive_sensitivity),
            ]
        }
        // The record has two places; those behind the count are zero.
        Reading::NoiseCapability { kind, ranges } => {
            [&[kind.into(), ranges.len() as u64][..], &range(ranges.first()), &range(ranges.get(1))].concat()
        }
        Reading::Equalizer(r) => vec![r.preset.into(), r.steps.len() as u64, r.steps.len() as u64],
        Reading::PairedDevices(devices) => vec![devices.len() as u64],
        Reading::SupportFunctions { functions, .. } => vec![functions.len() as u64],
        Reading::GeneralSettingParam { slot, enabled } => vec![slot.into(), enabled.into()],
        _ => unreachable!("no decoder here reads another"),
    }
}

fn devices(payload: &[u8]) -> Result<Vec<PairedDevice>, u8> {
    match read(Decoder::Paired, payload)? {
        Reading::PairedDevices(devices) => Ok(devices),
        _ => unreachable!("its decoder reads no other"),
    }
}

/// How many characters bytes are, where they are text.
fn characters(bytes: &[u8]) -> Option<u64> {
    std::str::from_utf8(bytes).ok().map(|text| text.chars().count() as u64)
}

/// The device at an index: offsets found here, and held to the Rust's strings.
fn device(payload: &[u8], index: usize) -> Told {
    let devices = match devices(payload) {
        Ok(devices) => devices,
        Err(number) => return Told::refused(number),
    };
    let Some(device) = devices.get(index) else { return Told::refused(21) };
    let mut address = 3;
    for _ in 0..index {
        address += 22 + usize::from(payload[address + 21]);
    }
    let name = address + 22;
    let len = usize::from(payload[address + 21]);
    let bytes = &payload[name..name + len];
    assert_eq!(String::from_utf8_lossy(&payload[address..address + 17]), device.address);
    assert_eq!(String::from_utf8_lossy(bytes), device.name);
    let [a, b, c] = device.detail.map(u64::from);
    let characters = characters(bytes).unwrap_or(ABSENT);
    Told::accepted(&[address as u64, device.status.into(), a, b, c, name as u64, len as u64, characters])
}

/// What a setting is called, and the characters of both texts.
fn setting_info(payload: &[u8]) -> Told {
    match texts(payload) {
        Ok(read @ [_, name, name_len, summary, summary_len]) => {
            let counted = |at: usize, len: usize| characters(&payload[at..at + len]).expect("an accepted text");
            let both = [counted(name, name_len), counted(summary, summary_len)];
            Told::accepted(&[&read.map(|n| n as u64)[..], &both].concat())
        }
        Err(number) => Told::refused(number),
    }
}

impl Payload {
    fn of(call: Call, bytes: Vec<u8>) -> Payload {
        Payload { call, bytes, index: 0, values: MOST_VALUES, table: 1, room: 0 }
    }

    fn compare(
        &self,
        tally: &mut Tally,
        entry: &'static str,
        expected: Told,
        ours: impl FnOnce(&[u8], &mut [u64]) -> u8,
    ) -> Option<String> {
        tally.add(entry, expected.status);
        let mut values = Values::new(self.values);
        let status = ours(&self.bytes, values.lend());
        told_difference(&expected, status, &values)
    }

    fn reading(
        &self,
        tally: &mut Tally,
        entry: &'static str,
        decoder: Decoder,
        ours: impl FnOnce(&[u8], &mut [u64]) -> u8,
    ) -> Option<String> {
        let expected = read(decoder, &self.bytes).map_or_else(Told::refused, |r| Told::accepted(&numbers(r)));
        self.compare(tally, entry, expected, ours)
    }

    /// The pairs go to the front of the lent records; 20 where they do not fit; refusals change nothing. The export tells no table.
    fn support_functions(&self, tally: &mut Tally) -> Option<String> {
        let unset = ours::SupportFunction { code: 0xA5, priority: 0x5A };
        let table = if self.table == 1 { Table::One } else { Table::Two };
        let functions = read(Decoder::Support(table), &self.bytes).map(|reading| match reading {
            Reading::SupportFunctions { functions, .. } => functions,
            _ => unreachable!("its decoder reads no other"),
        });
        // Two records before and behind are lent to nobody.
        let room = functions.as_ref().map_or(4, Vec::len).saturating_add_signed(self.room);
        let mut records = vec![unset; room + 4];
        let mut expected = records.clone();
        let told = match &functions {
            Err(number) => Told::refused(*number),
            Ok(functions) if room < functions.len() => Told::refused(20),
            Ok(functions) => {
                for (record, f) in expected[2..].iter_mut().zip(functions) {
                    *record = ours::SupportFunction { code: f.code, priority: f.priority };
                }
                Told::accepted(&[functions.len() as u64])
            }
        };
        let difference = self.compare(tally, "support_functions", told, |bytes, values| {
            ours::support_functions(self.table, bytes, &mut records[2..2 + room], values)
        });
        difference.or_else(|| {
            let at = records.iter().zip(&expected).position(|(a, b)| a != b)?;
            Some(format!("record {} of {room} expected: {:?}\nours:     {:?}", at as isize - 2, expected[at], records[at]))
        })
    }

    /// The masked payload, zeros behind it, and its length; a payload that the decoder refuses stays as it was.
    fn masked(&self, tally: &mut Tally) -> Option<String> {
        let mut expected = self.bytes.clone();
        let devices = devices(&self.bytes);
        tally.add("mask_paired", devices.as_ref().err().copied().unwrap_or(0));
        if let Ok(devices) = devices {
            common::log::mask(&mut expected, devices.len());
        }
        let masked = expected.len();
        expected.resize(self.bytes.len(), 0);
        let mut lent = Lent::holding(&self.bytes);
        let len = ours::mask_paired(lent.lend());
        if len != masked {
            return Some(format!("expected: a masked payload of {masked} bytes\nours:     {len}"));
        }
        left_difference("payload", &expected, &lent)
    }
}

impl Case for Payload {
    fn difference(&self, tally: &mut Tally) -> Option<String> {
        match self.call {
            Call::Message => {
                let expected = Message::split(&self.bytes).map_or(Told::refused(19), |m| {
                    assert_eq!(m.body, self.bytes.get(2..).unwrap_or(&[]));
                    Told::accepted(&[m.command.to_byte().into(), byte(m.kind), m.len as u64])
                });
                self.compare(tally, "message", expected, ours::message)
            }
            Call::Battery => self.reading(tally, "battery", Decoder::Battery, ours::battery),
            Call::Noise => self.reading(tally, "noise", Decoder::Noise, ours::noise),
            Call::Capability => self.reading(tally, "noise_capability", Decoder::Capability, ours::noise_capability),
            Call::Equalizer => self.reading(tally, "equalizer", Decoder::Equalizer, ours::equalizer),
            Call::PairedDevices => self.reading(tally, "paired_devices", Decoder::Paired, ours::paired_devices),
            Call::PairedDevice => {
                let expected = device(&self.bytes, self.index);
                self.compare(tally, "paired_device", expected, |bytes, values| ours::paired_device(bytes, self.index, values))
            }
            Call::MaskPaired => self.masked(tally),
            Call::SupportCheck => self.reading(tally, "support_check", Decoder::Support(Table::One), ours::support_check),
            Call::GeneralSetting => self.reading(tally, "general_setting", Decoder::Setting, ours::general_setting),
            Call::GeneralSettingInfo => {
                self.compare(tally, "general_setting_info", setting_info(&self.bytes), ours::general_setting_info)
            }
            Call::SupportFunctions => self.support_functions(tally),
            Call::CountCharacters => {
                let expected = characters(&self.bytes).map_or(vec![0], |n| vec![1, n]);
                tally.add("count_characters", if expected[0] == 1 { 0 } else { b'N' });
                let mut values = Values::new(self.values);
                let status = ours::count_characters(&self.bytes, values.lend());
                told_difference(&Told::accepted(&expected), status, &values)
            }
        }
    }

    fn smaller(&self) -> Vec<Payload> {
        let mut all: Vec<Payload> = fewer(&self.bytes).into_iter().map(|bytes| Payload { bytes, ..self.clone() }).collect();
        if self.index > 0 {
            all.push(Payload { index: self.index / 2, ..self.clone() });
            all.push(Payload { index: self.index - 1, ..self.clone() });
        }
        if self.room != 0 {
            all.push(Payload { room: self.room - self.room.signum(), ..self.clone() });
        }
        if self.values != MOST_VALUES {
            all.push(Payload { values: MOST_VALUES, ..self.clone() });
        }
        all
    }

    fn shown(&self) -> String {
        format!(
            "{:?} of {} bytes [{}], index {}, values {}, table {}, {:+} records over the least",
            self.call,
            self.bytes.len(),
            hex(&self.bytes),
            self.index,
            self.values,
            self.table,
            self.room
        )
    }
}

/// The decoder of a plan's entry.
fn call_of(entry: u8) -> Call {
    match entry {
        1 => Call::Battery,
        2 => Call::Noise,
        3 => Call::Capability,
        4 => Call::Equalizer,
        5 => Call::PairedDevices,
        6 => Call::SupportCheck,
        7 => Call::GeneralSetting,
        _ => Call::GeneralSettingInfo,
    }
}

/// Everything that is short.
pub fn exhaustive(run: &mut Run) {
    for bytes in shortest() {
        for call in READINGS {
            run.case(&Payload::of(call, bytes.clone()));
        }
        run.case(&Payload::of(Call::CountCharacters, bytes));
    }
    // Every kind with every length up to 24, over some contents.
    let mut c = Choice::new(3);
    let contents = [vec![0; 24], vec![1; 24], c.bytes(24), content(&mut c, 24)];
    for call in READINGS {
        for contents in &contents {
            for kind in 0..=255 {
                for n in 2..=24 {
                    let mut bytes = contents[..n].to_vec();
                    bytes[1] = kind;
                    run.case(&Payload::of(call, bytes));
                }
            }
        }
    }
    // Every byte at every place of what the decoders accept.
    for entry in 1..=8 {
        for _ in 0..6 {
            let bytes = accepted(&mut c, entry, 0);
            for at in 0..bytes.len().min(60) {
                for b in 0..=255 {
                    let mut bytes = bytes.clone();
                    bytes[at] = b;
                    run.case(&Payload::of(call_of(entry), bytes));
                }
            }
        }
    }
    // A name of every length, alone and among others, before and behind them; each list whole and with its last byte cut off.
    for n in 0..=255 {
        let long = content(&mut c, n);
        for others in [vec![], vec![vec![]], vec![b"Al".to_vec(), vec![b'n'; 255]]] {
            for at in 0..=others.len() {
                let names = [&others[..at], &[long.clone()], &others[at..]].concat();
                let bytes = paired(&mut c, 0x37, &names);
                run.case(&Payload::of(Call::MaskPaired, bytes[..bytes.len() - 1].to_vec()));
                run.case(&Payload::of(Call::MaskPaired, bytes));
            }
        }
    }
    // Every length of a support list, in records exactly enough, one too few and more.
    for count in 0..=255 {
        for room in -2..=2 {
            for more in [0, 1] {
                let mut bytes = support(&mut c, 0x07, count);
                bytes.truncate(bytes.len() - more);
                let table = c.below(4) as u8;
                run.case(&Payload { room, table, ..Payload::of(Call::SupportFunctions, bytes) });
            }
        }
    }
    // Every setting.
    for kind in [0x00, 0xD1] {
        for a in 0..=255 {
            for b in 0..=255 {
                run.case(&Payload::of(Call::GeneralSetting, vec![0xD7, kind, a, b]));
            }
        }
    }
    // A setting's texts of every length, some of them with a byte more and cut at every byte.
    for n in 0..=255 {
        for m in 0..=255 {
            run.case(&Payload::of(Call::GeneralSettingInfo, setting_texts(&vec![b'n'; n], &vec![b's'; m])));
        }
        let bytes = [setting_texts(&vec![b'n'; n], &vec![b's'; 255 - n]), vec![0]].concat();
        for len in 0..=bytes.len() {
            run.case(&Payload::of(Call::GeneralSettingInfo, bytes[..len].to_vec()));
        }
    }
    // Short ones, among them those that the original reads since it counts a repaired text.
    for n in 0..=6 {
        for rest in strings(&[0, 1, 2, 3, b'A', 0xFF], n) {
            run.case(&Payload::of(Call::GeneralSettingInfo, [&[0xD1, 0xD1, 0x00, 0x00], &rest[..]].concat()));
        }
    }
    // Text round its edges.
    let edges = [0x00, 0x7F, 0x80, 0x8F, 0x90, 0x9F, 0xA0, 0xBF, 0xC0, 0xC2, 0xE0, 0xFF];
    for first in [0x00, 0x80, 0xC1, 0xC2, 0xDF, 0xE0, 0xE1, 0xEC, 0xED, 0xEE, 0xEF, 0xF0, 0xF1, 0xF3, 0xF4, 0xF5, 0xFF] {
        for second in 0..=255 {
            for rest in [strings(&edges, 1), strings(&edges, 2)].concat() {
                run.case(&Payload::of(Call::CountCharacters, [&[first, second], &rest[..]].concat()));
            }
        }
        for second in edges {
            for rest in [strings(&edges, 0), strings(&edges, 1), strings(&edges, 2)].concat() {
                in_payloads(run, &[&[first, second], &rest[..]].concat());
            }
        }
    }
    for letter in (0..=0x10_FFFF).step_by(0x40).filter_map(char::from_u32) {
        in_payloads(run, letter.to_string().as_bytes());
    }
    // Letters behind and before plain ones, cut at every byte, in numbers that fit and that do not.
    for letter in ["a", "é", "ヘ", "🎧"] {
        for n in 0..=70 {
            let text = ["n".repeat(n), letter.into(), "n".repeat(70 - n), letter.into()].concat();
            for len in 0..=text.len() {
                let bytes = text.as_bytes()[..len].to_vec();
                run.case(&Payload { values: len % 4, ..Payload::of(Call::CountCharacters, bytes) });
            }
            in_payloads(run, text.as_bytes());
        }
        for n in 0..=255 / letter.len() {
            in_payloads(run, letter.repeat(n).as_bytes());
        }
    }
    levels(run);
}

/// Batteries: every level in every cell of every layout, of two cells each with every other; every charging byte and threshold beside levels
/// round the bound; levels of 255 with every kind and every length up to 12; and every number of values.
fn levels(run: &mut Run) {
    let mut c = Choice::new(8);
    let every: Vec<u8> = (0..=255).collect();
    for (kind, len) in BATTERY {
        let places = level_places(kind);
        let mut battery = |levels: &[u8]| {
            let mut bytes = c.bytes(len);
            bytes[1] = kind;
            for (&at, &level) in places.iter().zip(levels) {
                bytes[at] = level;
            }
            bytes
        };
        for levels in strings(&every, places.len()) {
            run.case(&Payload::of(Call::Battery, battery(&levels)));
        }
        for levels in strings(&[0, 99, 100, 101, 255], places.len()) {
            for at in (2..len).filter(|at| !places.contains(at)) {
                for b in 0..=255 {
                    let mut bytes = battery(&levels);
                    bytes[at] = b;
                    run.case(&Payload::of(Call::Battery, bytes));
                }
            }
            for values in 0..=MOST_VALUES {
                run.case(&Payload { values, ..Payload::of(Call::Battery, battery(&levels)) });
            }
        }
    }
    for kind in 0..=255 {
        for n in 2..=12 {
            let mut bytes = vec![255; n];
            bytes[1] = kind;
            run.case(&Payload::of(Call::Battery, bytes));
        }
    }
}

/// These bytes as a device's name; as a setting's name, and as its summary; and in a payload that has another form, which is found first.
fn in_payloads(run: &mut Run, text: &[u8]) {
    let device = paired(&mut Choice::new(text.len() as u64), 0x37, &[b"Al".to_vec(), text.to_vec()]);
    run.case(&Payload { index: 1, ..Payload::of(Call::PairedDevice, device) });
    run.case(&Payload::of(Call::GeneralSettingInfo, setting_texts(text, b"Al")));
    run.case(&Payload::of(Call::GeneralSettingInfo, setting_texts("é".as_bytes(), text)));
    run.case(&Payload::of(Call::GeneralSettingInfo, [setting_texts(text, text), vec![0]].concat()));
}

/// A payload of each decoder, whole, with a byte more or less, or damaged; and any bytes.
pub fn random(run: &mut Run, c: &mut Choice) {
    let entry = c.between(1, 8) as u8;
    let mut bytes = if c.one_in(12) { any(c) } else { accepted(c, entry, 0) };
    // No decoder looks at the command.
    if let Some(command) = bytes.first_mut() {
        *command = c.byte();
    }
    for _ in 0..c.of(&[0, 0, 0, 1, 1, 2, 4]) {
        damage(c, &mut bytes);
    }
    if c.one_in(10) {
        bytes.push(c.byte());
    }
    let index = if c.one_in(20) { c.number() as usize } else { c.below(1 + usize::from(bytes.get(2).map_or(0, |&n| n.min(9)))) };
    let call = if c.one_in(4) { c.of(&READINGS) } else { call_of(entry) };
    let case = Payload { call, bytes, index, values: values(c), table: c.below(4) as u8, room: room(c) };
    run.case(&case);
    match entry {
        1 => run.case(&Payload { call: Call::Battery, bytes: any_levels(c, 0x23), ..case }),
        5 => {
            run.case(&Payload { call: Call::PairedDevice, ..case.clone() });
            run.case(&Payload { call: Call::MaskPaired, ..case });
        }
        6 => run.case(&Payload { call: Call::SupportFunctions, ..case }),
        8 => run.case(&Payload { call: Call::GeneralSettingInfo, bytes: setting_texts(&name(c), &name(c)), ..case }),
        _ => {}
    }
}

/// Text of every form, cut and damaged.
pub fn random_text(run: &mut Run, c: &mut Choice) {
    let mut bytes = Vec::new();
    for _ in 0..c.below(8) {
        let n = if c.one_in(6) { c.below(70) } else { 1 };
        for _ in 0..n {
            let most = c.of(&[0x80, 0x800, 0xD800, 0x1_0000, 0x11_0000]);
            let letter = char::from_u32(c.below(most) as u32).unwrap_or('a');
            bytes.extend(letter.to_string().bytes());
        }
    }
    if c.one_in(2) {
        damage(c, &mut bytes);
    }
    if c.one_in(10) {
        bytes = any(c);
    }
    if bytes.len() <= 255 {
        in_payloads(run, &bytes);
    }
    run.case(&Payload { values: values(c), ..Payload::of(Call::CountCharacters, bytes) });
}
