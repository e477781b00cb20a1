//! Why a decoder refuses what the original answers with `None`, by 02's C-16: 25 for another kind, then 26 for another length, then 19. Kind
//! and length are judged here, by the tables of 01; whether the rest is right is the original's word. Then 29, by 02's C-20, for a battery
//! level above 100, which the original reads.
use original::mdr::payload::{
    Message, Reading, Table, decode_battery, decode_equalizer, decode_general_setting_info, decode_general_setting_param,
    decode_noise, decode_noise_capability, decode_paired_devices, decode_support_functions,
};

#[derive(Clone, Copy, Debug)]
pub enum Decoder {
    Battery,
    Noise,
    Capability,
    Equalizer,
    Paired,
    Support(Table),
    Setting,
    SettingTexts,
}

/// Kinds with one length each.
pub const BATTERY: [(u8, usize); 6] = [(0x00, 4), (0x01, 6), (0x02, 4), (0x08, 5), (0x09, 8), (0x0A, 5)];
const NOISE: [(u8, usize); 6] = [(0x01, 5), (0x13, 7), (0x15, 7), (0x17, 7), (0x19, 9), (0x22, 6)];

/// The places of a battery's levels in the payload, by its kind. Thresholds and charging bytes are none.
const LEVELS: [(u8, &[usize]); 6] = [(0x00, &[2]), (0x01, &[2, 4]), (0x02, &[2]), (0x08, &[2]), (0x09, &[2, 4]), (0x0A, &[2])];
pub const MOST_LEVEL: u8 = 100;

fn listed<T: Copy>(kinds: &[(u8, T)], kind: u8) -> Option<T> {
    kinds.iter().find(|listed| listed.0 == kind).map(|listed| listed.1)
}

/// Where the levels of a battery of this kind stand; nowhere in a kind that is not served.
pub fn level_places(kind: u8) -> &'static [usize] {
    listed(&LEVELS, kind).unwrap_or(&[])
}

/// The levels that the original read: of main, left, right and case, those that there are.
pub(crate) fn levels(reading: &Reading) -> impl Iterator<Item = u8> {
    let cells = match reading {
        Reading::Battery(r) => [r.main, r.left, r.right, r.case],
        _ => [None; 4],
    };
    cells.into_iter().flatten().map(|cell| cell.level)
}

impl Decoder {
    fn serves(self, kind: u8) -> bool {
        match self {
            Decoder::Battery => listed(&BATTERY, kind).is_some(),
            Decoder::Noise => listed(&NOISE, kind).is_some(),
            Decoder::Capability => (0x13..=0x19).contains(&kind) || kind == 0x22,
            Decoder::Equalizer | Decoder::Support(_) => kind == 0x00,
            Decoder::Paired => kind == 0x02,
            // The kind is the slot.
            Decoder::Setting | Decoder::SettingTexts => true,
        }
    }

    /// The only length that a payload of a served kind can have, by its count and the lengths that it holds; none where it ends before one
    /// of these.
    fn length(self, kind: u8, payload: &[u8]) -> Option<usize> {
        let byte = |at: usize| payload.get(at).map(|&b| usize::from(b));
        match self {
            Decoder::Battery => listed(&BATTERY, kind),
            Decoder::Noise => listed(&NOISE, kind),
            Decoder::Capability => Some(3 + 4 * byte(2)?),
            Decoder::Equalizer => Some(4 + byte(3)?),
            Decoder::Support(_) => Some(3 + 2 * byte(2)?),
            // `names` are the bytes of those so far.
            Decoder::Paired => {
                let count = byte(2)?;
                let names = (0..count).try_fold(0, |names, i| Some(names + byte(3 + 22 * i + names + 21)?))?;
                Some(4 + 22 * count + names)
            }
            Decoder::Setting => Some(4),
            Decoder::SettingTexts => {
                let name = byte(4)?;
                Some(6 + name + byte(5 + name)?)
            }
        }
    }

    /// The levels of a payload of a served kind and its length.
    fn levels(self, kind: u8, payload: &[u8]) -> impl Iterator<Item = u8> {
        let places = if matches!(self, Decoder::Battery) { level_places(kind) } else { &[] };
        places.iter().map(|&at| payload[at])
    }

    /// Whether more than kind and length is tried that the original tries too.
    fn tries_contents(self) -> bool {
        matches!(self, Decoder::Capability | Decoder::Setting | Decoder::SettingTexts)
    }
}

/// 25, 26 or 29; none where kind and length are right, and a battery's levels.
pub fn cause(decoder: Decoder, payload: &[u8]) -> Option<u8> {
    match payload.get(1) {
        Some(&kind) if decoder.serves(kind) => {
            if decoder.length(kind, payload) != Some(payload.len()) {
                return Some(26);
            }
            decoder.levels(kind, payload).any(|level| level > MOST_LEVEL).then_some(29)
        }
        _ => Some(25),
    }
}

pub(crate) fn of_the_rust(decoder: Decoder, payload: &[u8]) -> Option<Reading> {
    let m = Message::split(payload)?;
    match decoder {
        Decoder::Battery => decode_battery(&m),
        Decoder::Noise => decode_noise(&m),
        Decoder::Capability => decode_noise_capability(&m),
        Decoder::Equalizer => decode_equalizer(&m),
        Decoder::Paired => decode_paired_devices(&m),
        Decoder::Support(table) => decode_support_functions(table, &m),
        Decoder::Setting => decode_general_setting_param(&m),
        Decoder::SettingTexts => decode_general_setting_info(&m),
    }
}

/// What the original reads; else the number of the cause. The rule is held to it: it reads nothing of another kind or length, and all of the
/// right ones where nothing else is tried, 29 too; and the levels that it reads are those by which the rule gives 29 or does not. Setting
/// texts, which it repairs, are read by `settings::texts`.
pub fn read(decoder: Decoder, payload: &[u8]) -> Result<Reading, u8> {
    let same_levels = |reading: &Reading| levels(reading).eq(decoder.levels(payload[1], payload));
    match (cause(decoder, payload), of_the_rust(decoder, payload)) {
        (None, Some(reading)) if same_levels(&reading) => Ok(reading),
        (Some(29), Some(reading)) if same_levels(&reading) => Err(29),
        (Some(number @ (25 | 26)), None) => Err(number),
        (None, None) if decoder.tries_contents() => Err(19),
        (cause, theirs) => panic!("{decoder:?} of {payload:02X?}: {cause:?} by the rule, the original reads {theirs:?}"),
    }
}
