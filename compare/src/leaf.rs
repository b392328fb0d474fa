//! What the Rust answers for one text, as one word.

use mkperth_mspxml::exposed;

use crate::duration::{self, Duration};
use crate::hex;
use crate::number::{self, Number};

#[derive(Debug, Clone, Copy, PartialEq, Eq, Hash)]
pub enum Kind {
    Date,
    Time,
    Duration,
    Number,
    I64,
    U64,
    U32,
    U16,
    I32,
    Trim,
    Utf8,
}

impl Kind {
    pub const ALL: [(&'static str, Kind); 11] = [
        ("date", Kind::Date),
        ("time", Kind::Time),
        ("duration", Kind::Duration),
        ("number", Kind::Number),
        ("i64", Kind::I64),
        ("u64", Kind::U64),
        ("u32", Kind::U32),
        ("u16", Kind::U16),
        ("i32", Kind::I32),
        ("trim", Kind::Trim),
        ("utf8", Kind::Utf8),
    ];

    pub fn named(name: &str) -> Option<Kind> {
        Kind::ALL.into_iter().find(|(n, _)| *n == name).map(|(_, k)| k)
    }
}

/// The answer for the bytes as they are, with nothing trimmed before: a number, with `part` behind it where a duration's sum was not whole, `none`,
/// `long` (refusal 5), the bits of an f64, hex for `trim`, `yes` or `no` for `utf8`; `not-utf8` where the Rust cannot be asked.
pub fn answer(kind: Kind, bytes: &[u8]) -> String {
    let text = match std::str::from_utf8(bytes) {
        _ if kind == Kind::Utf8 => return yes_no(std::str::from_utf8(bytes).is_ok()),
        Ok(text) => text,
        Err(_) => return "not-utf8".into(),
    };
    match kind {
        Kind::Date => or_none(exposed::date_of(text).map(|d| d.days())),
        Kind::Time => or_none(exposed::time_of(text)),
        Kind::Duration => duration_answer(text),
        Kind::Number => number_answer(text),
        Kind::I64 => or_none(text.parse::<i64>().ok()),
        Kind::U64 => or_none(text.parse::<u64>().ok()),
        Kind::U32 => or_none(text.parse::<u32>().ok()),
        Kind::U16 => or_none(text.parse::<u16>().ok()),
        Kind::I32 => or_none(text.parse::<i32>().ok()),
        Kind::Trim => hex::encode(text.trim().as_bytes()),
        Kind::Utf8 => yes_no(true),
    }
}

fn or_none(value: Option<impl std::fmt::Display>) -> String {
    value.map_or("none".into(), |v| v.to_string())
}

fn yes_no(value: bool) -> String {
    if value { "yes" } else { "no" }.into()
}

/// The minutes are the Rust's; whether the sum was whole is from the paper.
fn duration_answer(text: &str) -> String {
    match (duration::duration(text), exposed::duration_of(text)) {
        (Duration::Long, _) => "long".into(),
        (told, Some(minutes)) if told.is_fractional() => format!("{minutes} part"),
        (_, minutes) => or_none(minutes),
    }
}

fn number_answer(text: &str) -> String {
    match number::number(text) {
        Number::Absent => "none".into(),
        Number::Long => "long".into(),
        Number::Short(value) => format!("{:016x}", value.to_bits()),
    }
}

/// The most minutes that a duration's text gives back.
pub const MAX_MINUTES: i64 = 1_000_000_000;

/// `duration`'s text; refusal 8 outside 0 to 1,000,000,000.
pub fn duration_text(minutes: i64) -> Result<String, u32> {
    if (0..=MAX_MINUTES).contains(&minutes) { Ok(exposed::duration(minutes)) } else { Err(8) }
}

/// `time`'s text; refusal 8 above 1440.
pub fn time_text(minutes: u32) -> Result<String, u32> {
    if minutes <= 1440 { Ok(exposed::time(minutes as u16)) } else { Err(8) }
}
