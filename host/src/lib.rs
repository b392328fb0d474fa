//! Microsoft Project XML delivery plans, through a library that is proved equal to its definition for every input.
//!
//! Every function here is safe for every argument: the library tests what it is given and answers with a result or with a [`Refusal`].
//! The boundary that is called is `mspdi.h` beside this crate.
//!
//! A plan goes three steps: an XML parser's events become a packed tree ([`TreeBuilder`]), the tree becomes a model ([`read`]), and a model is asked
//! ([`outline`], [`day_sheet`], [`check`]) or decoded into plain values ([`Plan`]).

mod bits;
mod boundary;
mod model;
mod plan;
mod tree;
mod words;

use std::fmt;

pub use model::{DaySheet, Period, Row, Weekday, check, day_sheet, outline};
pub use plan::{
    Accrual, Activity, ActivityKind, Assignment, Calendar, Constraint, Date, DurationType, Expense, LagKind, Link, LinkKind, Plan, Project, Resource,
    ResourceKind,
};
pub use tree::{TreeBuilder, TreeError, read, read_into};
pub use words::{check_words, work_words};

use boundary::Outcome;

/// Why a call gave no result, by the library's numbers.
#[derive(Debug, Clone, Copy, PartialEq, Eq, Hash)]
#[non_exhaustive]
pub enum Refusal {
    /// 1: the tree breaks the layout.
    Layout,
    /// 2: a name or a text is not UTF-8.
    NotUtf8,
    /// 3: over 5,000,000 elements.
    TooManyElements,
    /// 4: the root is not `Project`, or there is none.
    NotProject,
    /// 5: a number is too long.
    NumberTooLong,
    /// 6: the model does not decode.
    NotModel,
    /// 7: the model breaks the check's list.
    CheckFailed,
    /// 8: a value asked for lies outside its range.
    OutOfRange,
    /// 9: the result is longer than its buffer. The functions here make their buffers long enough.
    NoRoom,
    /// A number that the library's document does not name.
    Unknown(u32),
}

impl Refusal {
    /// The number of the refusal.
    pub fn number(self) -> u32 {
        match self {
            Refusal::Layout => 1,
            Refusal::NotUtf8 => 2,
            Refusal::TooManyElements => 3,
            Refusal::NotProject => 4,
            Refusal::NumberTooLong => 5,
            Refusal::NotModel => 6,
            Refusal::CheckFailed => 7,
            Refusal::OutOfRange => 8,
            Refusal::NoRoom => 9,
            Refusal::Unknown(n) => n,
        }
    }

    fn of(number: u32) -> Refusal {
        match number {
            1 => Refusal::Layout,
            2 => Refusal::NotUtf8,
            3 => Refusal::TooManyElements,
            4 => Refusal::NotProject,
            5 => Refusal::NumberTooLong,
            6 => Refusal::NotModel,
            7 => Refusal::CheckFailed,
            8 => Refusal::OutOfRange,
            9 => Refusal::NoRoom,
            n => Refusal::Unknown(n),
        }
    }
}

impl fmt::Display for Refusal {
    fn fmt(&self, f: &mut fmt::Formatter<'_>) -> fmt::Result {
        let what = match self {
            Refusal::Layout => "the tree breaks the layout",
            Refusal::NotUtf8 => "a name or a text is not UTF-8",
            Refusal::TooManyElements => "over 5,000,000 elements",
            Refusal::NotProject => "the root is not `Project`",
            Refusal::NumberTooLong => "a number is too long",
            Refusal::NotModel => "the model does not decode",
            Refusal::CheckFailed => "the model breaks the check's list",
            Refusal::OutOfRange => "a value asked for lies outside its range",
            Refusal::NoRoom => "the result is longer than its buffer",
            Refusal::Unknown(_) => "an unknown refusal",
        };
        write!(f, "{what} ({})", self.number())
    }
}

impl std::error::Error for Refusal {}

/// The longest text of minutes or of a time.
const LONGEST: usize = 16;

/// Minutes, 0 to 1,000,000,000, as MSPDI writes a duration.
///
/// # Errors
///
/// [`Refusal::OutOfRange`] for any other number.
///
/// ```
/// assert_eq!(mspdi::duration(510).as_deref(), Ok("PT8H30M0S"));
/// assert_eq!(mspdi::duration(-1), Err(mspdi::Refusal::OutOfRange));
/// ```
pub fn duration(minutes: i64) -> Result<String, Refusal> {
    text(|buffer| boundary::duration(minutes, buffer))
}

/// Minutes after midnight, 0 to 1440, as MSPDI writes a time.
///
/// # Errors
///
/// [`Refusal::OutOfRange`] for any other number.
///
/// ```
/// assert_eq!(mspdi::time(510).as_deref(), Ok("08:30:00"));
/// assert_eq!(mspdi::time(1441), Err(mspdi::Refusal::OutOfRange));
/// ```
pub fn time(minutes: u32) -> Result<String, Refusal> {
    text(|buffer| boundary::time(minutes, buffer))
}

/// The text that a call writes into a buffer that is long enough for every text.
fn text(call: impl FnOnce(&mut [u8]) -> Outcome) -> Result<String, Refusal> {
    let mut buffer = [0u8; LONGEST];
    let outcome = call(&mut buffer);
    if outcome.number != 0 {
        return Err(Refusal::of(outcome.number));
    }
    let end = usize::try_from(outcome.written).map_or(LONGEST, |n| n.min(LONGEST));
    Ok(buffer[..end].iter().map(|b| char::from(*b)).collect())
}
