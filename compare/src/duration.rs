//! Durations, from ISO 8601 and document 01, "Numbers, durations, times": the four figures of a text, their sum, and whether the sum was a whole
//! number before rounding (document 02, E2). The Rust gives the minutes alone; `selftest` holds these against it.

use crate::number::{self, Number};

/// What a duration's text gives.
#[derive(Debug, Clone, Copy, PartialEq, Eq)]
pub enum Duration {
    /// No duration, or one above 1,000,000,000 minutes.
    Absent,
    /// The reading comes to a number that is too long (refusal 5).
    Long,
    Is {
        minutes: u32,
        /// Whether the sum was a whole number before rounding.
        whole: bool,
    },
}

impl Duration {
    /// Whether there are minutes, and the sum was not whole.
    pub fn is_fractional(self) -> bool {
        matches!(self, Duration::Is { whole: false, .. })
    }
}

/// The four figures of a text.
#[derive(Default)]
struct Figures {
    days: f64,
    hours: f64,
    minutes: f64,
    seconds: f64,
}

impl Figures {
    /// In minutes, summed from left to right.
    fn sum(&self) -> f64 {
        let days = self.days * 1440.0;
        let to_hours = days + self.hours * 60.0;
        let to_minutes = to_hours + self.minutes;
        to_minutes + self.seconds / 60.0
    }
}

/// The most minutes.
const MOST: f64 = 1e9;

/// What a text gives, blanks around it dropped: `P`, days with `D`, and behind a `T` pieces with `H`, `M` and `S`, from left to right. An ill-formed
/// piece ends the reading with none, one that is too long with refusal 5, and a repeated unit overwrites.
pub fn duration(text: &str) -> Duration {
    let Some(behind) = text.trim().strip_prefix('P') else { return Duration::Absent };
    let (date, time) = behind.split_once('T').unwrap_or((behind, ""));
    let date = [date].into_iter().filter(|piece| !piece.is_empty()).map(|piece| (piece, true));
    let time = pieces(time).map(|piece| (piece, false));
    let mut figures = Figures::default();
    for (piece, of_date) in date.chain(time) {
        let Some((number, unit)) = parted(piece) else { return Duration::Absent };
        let figure = match (unit, of_date) {
            ('D', true) => &mut figures.days,
            ('H', false) => &mut figures.hours,
            ('M', false) => &mut figures.minutes,
            ('S', false) => &mut figures.seconds,
            _ => return Duration::Absent,
        };
        match number::number(number) {
            Number::Short(value) if value >= 0.0 => *figure = value,
            Number::Long => return Duration::Long,
            _ => return Duration::Absent,
        }
    }
    rounded(figures.sum())
}

/// The pieces of a time: each ends at its unit, and what is left behind the last is one too.
fn pieces(time: &str) -> impl Iterator<Item = &str> {
    time.split_inclusive(['H', 'M', 'S'])
}

/// A piece's number and its unit, the last character.
fn parted(piece: &str) -> Option<(&str, char)> {
    let unit = piece.chars().next_back()?;
    Some((&piece[..piece.len() - unit.len_utf8()], unit))
}

/// The sum, which is not below 0, to the nearest whole number, halves away from zero.
fn rounded(sum: f64) -> Duration {
    if sum > MOST {
        return Duration::Absent;
    }
    // Exact: the part behind the point has no more digits than the sum.
    let (floor, part) = (sum.floor(), sum - sum.floor());
    Duration::Is { minutes: floor as u32 + u32::from(part >= 0.5), whole: part == 0.0 }
}
