//! Bytes as lower-case hex; `-` stands for no bytes.

pub fn encode(bytes: &[u8]) -> String {
    if bytes.is_empty() {
        return "-".into();
    }
    let digit = |d: u8| char::from_digit(d.into(), 16).unwrap_or('?');
    bytes.iter().flat_map(|b| [digit(b >> 4), digit(b & 15)]).collect()
}

/// The bytes of a hex text (blanks around it are dropped), if it is one.
pub fn decode(text: &str) -> Option<Vec<u8>> {
    let text = text.trim().as_bytes();
    if text == b"-" {
        return Some(Vec::new());
    }
    let digit = |d: &u8| char::from(*d).to_digit(16);
    let byte = |pair: &[u8]| match pair {
        [a, b] => Some((digit(a)? * 16 + digit(b)?) as u8),
        _ => None,
    };
    text.chunks(2).map(byte).collect()
}
