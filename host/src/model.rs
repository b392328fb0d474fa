//! What is asked of a packed model: the check, the outline, the sheet of a day. Any bytes may be given.

use crate::bits::Reader;
use crate::{Refusal, boundary, check_words};

/// A row of the outline.
#[derive(Debug, Clone, Copy, PartialEq, Eq, Hash)]
pub struct Row {
    /// The activity's row in the model, from 0.
    pub activity: u32,
    /// How deep it stands, from 1.
    pub level: u32,
}

/// A day of the week.
#[derive(Debug, Clone, Copy, PartialEq, Eq, Hash)]
#[allow(missing_docs)]
pub enum Weekday {
    Monday,
    Tuesday,
    Wednesday,
    Thursday,
    Friday,
    Saturday,
    Sunday,
}

/// A time of work, in minutes after midnight.
#[derive(Debug, Clone, Copy, PartialEq, Eq, Hash)]
pub struct Period {
    /// Its start.
    pub from: u16,
    /// Its end, later than its start and 1440 at most.
    pub to: u16,
}

/// What a calendar says of a day.
#[derive(Debug, Clone, PartialEq, Eq, Hash)]
pub struct DaySheet {
    /// The day of the week.
    pub weekday: Weekday,
    /// Whether the day stands in the calendar's holidays.
    pub holiday: bool,
    /// Whether it stands in its extra days.
    pub extra: bool,
    /// When the day works if it works: its own periods, or its weekday's, or 8 to 12 and 13 to 17 o'clock.
    pub periods: Vec<Period>,
}

/// The refusal of a number, or the result where it is 0.
fn answer<T>(number: u32, result: impl FnOnce() -> T) -> Result<T, Refusal> {
    if number == 0 { Ok(result()) } else { Err(Refusal::of(number)) }
}

/// Whether a model keeps the check's list: ids distinct, parents before their children, rows in range, calendars that there are, expenses
/// distinct.
///
/// # Errors
///
/// [`Refusal::NotModel`] for bytes that are no model, [`Refusal::CheckFailed`] for a model that breaks the list.
///
/// ```
/// assert_eq!(mspdi::check(b"no model"), Err(mspdi::Refusal::NotModel));
/// ```
pub fn check(model: &[u8]) -> Result<(), Refusal> {
    let mut work = vec![0; check_words(model)];
    answer(boundary::check(model, &mut work), || ())
}

/// The least bytes that an activity has in a model: five texts' counts, its kind, its duration, its duration type and nine flags, in whole bytes
/// before each text. So no more activities than a model's bytes over this decode.
const LEAST_ACTIVITY: usize = 27;

/// How many activities the head says there are, as far as the bytes could hold them.
fn most_activities(model: &[u8]) -> usize {
    let said = model.get(4..8).map_or(0, |bytes| bytes.iter().fold(0, |n, b| n * 256 + usize::from(*b)));
    said.min(model.len() / LEAST_ACTIVITY)
}

/// The outline of a model: each activity with its level, each followed by those below it. Activities in a circle of parents are left out.
///
/// # Errors
///
/// [`Refusal::NotModel`] for bytes that are no model.
pub fn outline(model: &[u8]) -> Result<Vec<Row>, Refusal> {
    let count = most_activities(model);
    let (mut rows, mut work) = (vec![0; 2 * count], vec![0; 4 * count]);
    let outcome = boundary::outline(model, &mut rows, &mut work);
    let written = usize::try_from(outcome.written).unwrap_or(usize::MAX);
    answer(outcome.number, || rows.chunks_exact(2).take(written).map(|row| Row { activity: row[0], level: row[1] }).collect())
}

/// The sheet of a day, by its number (0 is 1970-01-01), in the calendar of a row, 0 for the main one.
///
/// # Errors
///
/// [`Refusal::NotModel`] for bytes that are no model, [`Refusal::OutOfRange`] where there is no such calendar and for a day outside the years
/// -9999 to 9999.
pub fn day_sheet(model: &[u8], calendar: u32, date: i32) -> Result<DaySheet, Refusal> {
    // The sheet has 38 bits and the periods of one list of the model, or two periods: no more than the model's bytes and 11 more.
    let mut sheet = vec![0; 64];
    let mut outcome = boundary::day_sheet(model, calendar, date, &mut sheet);
    if outcome.number == Refusal::NoRoom.number() {
        sheet.resize(model.len() + 11, 0);
        outcome = boundary::day_sheet(model, calendar, date, &mut sheet);
    }
    answer(outcome.number, || unpacked(&sheet))
}

/// The sheet of its bytes.
fn unpacked(sheet: &[u8]) -> DaySheet {
    let r = &mut Reader::new(sheet);
    let mut take = |width| r.take(width).unwrap_or_default();
    DaySheet {
        weekday: weekday(take(4)),
        holiday: take(1) == 1,
        extra: take(1) == 1,
        periods: (0..take(32)).map(|_| Period { from: take(11) as u16, to: take(11) as u16 }).collect(),
    }
}

fn weekday(code: u64) -> Weekday {
    use Weekday::*;
    [Monday, Tuesday, Wednesday, Thursday, Friday, Saturday, Sunday][code as usize % 7]
}
