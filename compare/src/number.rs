//! Number texts, from document 01, "Numbers, durations, times".

#[derive(Debug, Clone, Copy, PartialEq)]
pub enum Number {
    /// No number text, or `inf` or `nan`.
    Absent,
    Short(f64),
    Long,
}

/// What document 01 says of a text without blanks around it.
pub fn number(text: &str) -> Number {
    let Ok(value) = text.parse::<f64>() else { return Number::Absent };
    if !text.bytes().any(|b| b.is_ascii_digit()) {
        return Number::Absent;
    }
    if is_short(text) { Number::Short(value) } else { Number::Long }
}

pub fn is_long(text: &str) -> bool {
    number(text) == Number::Long
}

/// Of a text that is a decimal number: at most 15 digits after leading zeros are dropped and its power of
/// ten, fraction digits taken off, in -22 to 22; or all digits 0.
fn is_short(text: &str) -> bool {
    let (mantissa, exponent) = text.split_once(['e', 'E']).unwrap_or((text, "0"));
    let mantissa = mantissa.trim_start_matches(['+', '-']);
    let fraction = mantissa.split_once('.').map_or(0, |(_, f)| f.len() as i64);
    let digits = mantissa.replace('.', "");
    let digits = digits.trim_start_matches('0').len();
    let power = whole(exponent) - fraction;
    digits == 0 || digits <= 15 && (-22..=22).contains(&power)
}

/// A whole number of any length, held to a range that no fraction's length reaches.
fn whole(text: &str) -> i64 {
    let magnitude = text.trim_start_matches(['+', '-']).trim_start_matches('0');
    let magnitude = if magnitude.len() > 15 { 1_000_000_000_000_000 } else { magnitude.parse().unwrap_or(0) };
    if text.starts_with('-') { -magnitude } else { magnitude }
}
