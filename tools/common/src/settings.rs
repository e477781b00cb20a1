//! Setting texts: the original's reading where both are text by RFC 3629. It counts the bytes of the repaired strings; 02's C-11 counts raw
//! bytes and refuses a text that is none.
use crate::causes::{Decoder, cause, of_the_rust};
use original::mdr::payload::{GeneralSetting, Message, Reading, decode_general_setting_info};

/// Slot, and offset and length of name and summary in the payload.
pub type Texts = [usize; 5];

/// Offset and length of the text whose length byte stands at a place.
fn text_at(payload: &[u8], at: usize) -> Option<(usize, usize)> {
    let len = usize::from(*payload.get(at)?);
    payload.get(at + 1..at + 1 + len)?;
    Some((at + 1, len))
}

/// OURS, by 02: 25 and 26 by raw lengths, then 19 for another body, then 23 where a text is none. Held to the original: it reads nothing where
/// 25 or 19 is given; where both texts are text it reads the same strings, and where it reads any that are not ours it has repaired one.
pub fn texts(payload: &[u8]) -> Result<Texts, u8> {
    let theirs = of_the_rust(Decoder::SettingTexts, payload);
    let text = |at: usize, len: usize| std::str::from_utf8(&payload[at..at + len]).ok();
    if let Some(number) = cause(Decoder::SettingTexts, payload) {
        if let Some(setting) = theirs {
            assert_eq!(number, 26, "the original read {setting:?}");
            let (name, len) = text_at(payload, 4).expect("the original read a name");
            if text(name, len).is_some() {
                let (summary, len) = text_at(payload, name + len).expect("the original read a summary");
                assert!(text(summary, len).is_none(), "neither text of {setting:?} is repaired");
            }
        }
        return Err(number);
    }
    if payload[2] != 0x00 || payload[3] > 0x01 {
        assert_eq!(theirs, None);
        return Err(19);
    }
    let (name, name_len) = text_at(payload, 4).expect("a name");
    let (summary, summary_len) = text_at(payload, name + name_len).expect("a summary");
    let (Some(name_text), Some(summary_text)) = (text(name, name_len), text(summary, summary_len)) else { return Err(23) };
    let ours = GeneralSetting { slot: payload[1], name: name_text.into(), summary: summary_text.into() };
    assert_eq!(theirs, Some(Reading::GeneralSettingInfo(ours)));
    Ok([payload[1].into(), name, name_len, summary, summary_len])
}

/// The original's reading, where its strings are the payload's own bytes: neither was repaired.
pub(crate) fn unrepaired(m: &Message, payload: &[u8]) -> Option<Reading> {
    let reading = decode_general_setting_info(m)?;
    let Reading::GeneralSettingInfo(setting) = &reading else { return None };
    let own = |at: usize, text: &str| usize::from(payload[at]) == text.len() && payload[at + 1..].starts_with(text.as_bytes());
    (own(4, &setting.name) && own(5 + setting.name.len(), &setting.summary)).then_some(reading)
}
