//! The day sheet, from document 01, "Day sheet".

use crate::Refusal;
use crate::bits::BitWriter;
use crate::model::{self, Calendar, FIRST_DAY, LAST_DAY, Model, Period};

const DEFAULT_PERIODS: [Period; 2] = [(480, 720), (780, 1020)];

/// The sheet of a date in the calendar of that row; 6 or 8, the lowest that applies.
pub fn sheet(bytes: &[u8], calendar: u32, date: i32) -> Result<Vec<u8>, Refusal> {
    let model = model::decode(bytes).map_err(|_| 6u32)?;
    sheet_of(&model, calendar, date)
}

/// The same of a model that decoded.
pub fn sheet_of(model: &Model, calendar: u32, date: i32) -> Result<Vec<u8>, Refusal> {
    let calendar = model.calendars.get(calendar as usize).ok_or(8u32)?;
    if !(FIRST_DAY..=LAST_DAY).contains(&date) {
        return Err(8);
    }
    Ok(day_sheet(calendar, date))
}

fn day_sheet(calendar: &Calendar, date: i32) -> Vec<u8> {
    let mut w = BitWriter::default();
    w.code(weekday(date) as u8);
    w.put(1, calendar.holidays.contains(&date).into());
    w.put(1, calendar.extra_days.contains(&date).into());
    w.periods(day_periods(calendar, date));
    w.into_bytes()
}

/// Monday is 0; day 0 was a Thursday.
pub fn weekday(date: i32) -> usize {
    (i64::from(date) + 3).rem_euclid(7) as usize
}

/// The periods that the date works when it works: its own, else its weekday's, else the default ones.
pub fn day_periods(calendar: &Calendar, date: i32) -> &[Period] {
    let own = calendar.exceptions.iter().find(|(d, _)| *d == date).map(|(_, periods)| periods);
    let week = &calendar.periods[weekday(date)];
    own.filter(|p| !p.is_empty()).or(Some(week).filter(|p| !p.is_empty())).map_or(&DEFAULT_PERIODS, Vec::as_slice)
}
