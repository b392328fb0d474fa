//! Our side: each exported leaf behind a safe function, with its answer as the oracle words it.

use oracle::hex;
use oracle::leaf::Kind;

unsafe extern "C" {
    fn probe_date(s: *const u8, len: usize, out: *mut i32) -> u32;
    fn probe_time(s: *const u8, len: usize, out: *mut u16) -> u32;
    fn probe_duration(s: *const u8, len: usize, minutes: *mut u32, whole: *mut u32) -> u32;
    fn probe_number(s: *const u8, len: usize, out: *mut f64) -> u32;
    fn probe_i64(s: *const u8, len: usize, out: *mut i64) -> u32;
    fn probe_u64(s: *const u8, len: usize, out: *mut u64) -> u32;
    fn probe_u32(s: *const u8, len: usize, out: *mut u32) -> u32;
    fn probe_u16(s: *const u8, len: usize, out: *mut u16) -> u32;
    fn probe_i32(s: *const u8, len: usize, out: *mut i32) -> u32;
    fn probe_trim(s: *const u8, len: usize) -> usize;
    fn probe_trimmed(s: *const u8, len: usize, t: *const u8, t_len: usize) -> u32;
    fn probe_utf8(s: *const u8, len: usize) -> u32;
    fn probe_tree(s: *const u8, len: usize) -> u32;
    fn mspdi_duration(minutes: i64, text: *mut u8, len: usize, written: *mut u64) -> u32;
    fn mspdi_time(minutes: u32, text: *mut u8, len: usize, written: *mut u64) -> u32;
    fn mspdi_read(tree: *const u8, len: usize, model: *mut u8, model_len: usize, work: *mut u32, work_len: usize, written: *mut u64) -> u32;
    fn mspdi_check(model: *const u8, len: usize, work: *mut u32, work_len: usize) -> u32;
    fn mspdi_outline(model: *const u8, len: usize, rows: *mut u32, rows_len: usize, work: *mut u32, work_len: usize, count: *mut u64) -> u32;
    fn mspdi_day_sheet(model: *const u8, len: usize, calendar: u32, date: i32, sheet: *mut u8, sheet_len: usize, written: *mut u64) -> u32;
    fn probe_model(s: *const u8, len: usize) -> u32;
}

/// What a leaf gives.
#[derive(Debug, Clone, Copy, PartialEq)]
pub enum Answer<T> {
    Value(T),
    Absent,
    Long,
}

macro_rules! leaf {
    ($name:ident, $entry:ident, $value:ty) => {
        pub fn $name(s: &[u8]) -> Answer<$value> {
            let mut out = <$value>::default();
            // Sound: pointer and length are those of a slice that is lent for the call, and `out` is a local.
            match unsafe { $entry(s.as_ptr(), s.len(), &mut out) } {
                0 => Answer::Value(out),
                1 => Answer::Absent,
                _ => Answer::Long,
            }
        }
    };
}

leaf!(date, probe_date, i32);
leaf!(time, probe_time, u16);
leaf!(number, probe_number, f64);
leaf!(whole_i64, probe_i64, i64);
leaf!(whole_u64, probe_u64, u64);
leaf!(whole_u32, probe_u32, u32);
leaf!(whole_u16, probe_u16, u16);
leaf!(whole_i32, probe_i32, i32);

/// The number that the call returns, the minutes, and 1 where the sum was whole.
pub fn duration(s: &[u8]) -> (u32, u32, u32) {
    let (mut minutes, mut whole) = (u32::MAX, u32::MAX);
    // Sound: as above.
    let number = unsafe { probe_duration(s.as_ptr(), s.len(), &mut minutes, &mut whole) };
    (number, minutes, whole)
}

/// How long the trimmed text is.
pub fn trim(s: &[u8]) -> usize {
    // Sound: as above.
    unsafe { probe_trim(s.as_ptr(), s.len()) }
}

fn is_trimmed(s: &[u8], t: &[u8]) -> bool {
    // Sound: as above.
    unsafe { probe_trimmed(s.as_ptr(), s.len(), t.as_ptr(), t.len()) == 1 }
}

pub fn utf8(s: &[u8]) -> bool {
    // Sound: as above.
    unsafe { probe_utf8(s.as_ptr(), s.len()) == 1 }
}

/// The refusal of a tree, 0 for none.
pub fn tree(s: &[u8]) -> u32 {
    // Sound: as above.
    unsafe { probe_tree(s.as_ptr(), s.len()) }
}

/// The refusal's number or 0, and what was written, of the text of minutes into a lent buffer.
pub fn duration_text(minutes: i64, text: &mut [u8]) -> (u32, u64) {
    let mut written = u64::MAX;
    // Sound: as above.
    let number = unsafe { mspdi_duration(minutes, text.as_mut_ptr(), text.len(), &mut written) };
    (number, written)
}

pub fn time_text(minutes: u32, text: &mut [u8]) -> (u32, u64) {
    let mut written = u64::MAX;
    // Sound: as above.
    let number = unsafe { mspdi_time(minutes, text.as_mut_ptr(), text.len(), &mut written) };
    (number, written)
}

/// The refusal's number or 0, and how many bytes were written.
pub fn read(tree: &[u8], model: &mut [u8], work: &mut [u32]) -> (u32, u64) {
    let mut written = u64::MAX;
    // Sound: as above.
    let number = unsafe { mspdi_read(tree.as_ptr(), tree.len(), model.as_mut_ptr(), model.len(), work.as_mut_ptr(), work.len(), &mut written) };
    (number, written)
}

/// Whether a model decodes.
pub fn decodes(model: &[u8]) -> bool {
    // Sound: as above.
    unsafe { probe_model(model.as_ptr(), model.len()) == 1 }
}

pub fn check(model: &[u8], work: &mut [u32]) -> u32 {
    // Sound: as above.
    unsafe { mspdi_check(model.as_ptr(), model.len(), work.as_mut_ptr(), work.len()) }
}

/// The refusal's number or 0, and how many rows were written.
pub fn outline(model: &[u8], rows: &mut [u32], work: &mut [u32]) -> (u32, u64) {
    let mut count = u64::MAX;
    // Sound: as above.
    let number = unsafe { mspdi_outline(model.as_ptr(), model.len(), rows.as_mut_ptr(), rows.len(), work.as_mut_ptr(), work.len(), &mut count) };
    (number, count)
}

/// The refusal's number or 0, and how many bytes were written.
pub fn day_sheet(model: &[u8], calendar: u32, date: i32, sheet: &mut [u8]) -> (u32, u64) {
    let mut written = u64::MAX;
    // Sound: as above.
    let number = unsafe { mspdi_day_sheet(model.as_ptr(), model.len(), calendar, date, sheet.as_mut_ptr(), sheet.len(), &mut written) };
    (number, written)
}

fn worded<T: ToString>(answer: Answer<T>) -> String {
    match answer {
        Answer::Value(value) => value.to_string(),
        Answer::Absent => "none".into(),
        Answer::Long => "long".into(),
    }
}

/// Without minutes both places are 0; what is left otherwise is shown as it is.
fn duration_worded(said: (u32, u32, u32)) -> String {
    match said {
        (0, minutes, 1) => minutes.to_string(),
        (0, minutes, 0) => format!("{minutes} part"),
        (1, 0, 0) => "none".into(),
        (2, 0, 0) => "long".into(),
        _ => format!("{said:?}"),
    }
}

/// The answer in the words of `oracle::leaf::answer`.
pub fn answer(kind: Kind, s: &[u8]) -> String {
    match kind {
        Kind::Date => worded(date(s)),
        Kind::Time => worded(time(s)),
        Kind::Duration => duration_worded(duration(s)),
        Kind::Number => worded(match number(s) {
            Answer::Value(x) => Answer::Value(format!("{:016x}", x.to_bits())),
            Answer::Absent => Answer::Absent,
            Answer::Long => Answer::Long,
        }),
        Kind::I64 => worded(whole_i64(s)),
        Kind::U64 => worded(whole_u64(s)),
        Kind::U32 => worded(whole_u32(s)),
        Kind::U16 => worded(whole_u16(s)),
        Kind::I32 => worded(whole_i32(s)),
        Kind::Trim => trimmed(s),
        Kind::Utf8 => if utf8(s) { "yes" } else { "no" }.into(),
    }
}

/// The part of `s` that has the trimmed text's length and is it.
fn trimmed(s: &[u8]) -> String {
    let part = if trim(s) == 0 { Some(&s[..0]) } else { s.windows(trim(s)).find(|part| is_trimmed(s, part)) };
    part.map_or("no part of the text".into(), hex::encode)
}

mod recurrence {
    unsafe extern "C" {
        pub fn probe_rule(
            s: *const u8,
            len: usize,
            kind: *mut u32,
            from: *mut u32,
            last: *mut u32,
            most: *mut u32,
            period: *mut u32,
            month: *mut u32,
            day: *mut u32,
            item: *mut u32,
            position: *mut u32,
            weekdays: *mut u32,
        );
        pub fn probe_next(
            kind: u32,
            from: u32,
            last: u32,
            most: u32,
            period: u32,
            month: u32,
            day: u32,
            item: u32,
            position: u32,
            weekdays: u32,
            at: *mut u32,
            left: *mut u32,
            next: *mut u32,
        ) -> u32;
        pub fn probe_week_day(s: *const u8, len: usize, first: *mut u32, count: *mut u32);
    }
}

/// The day number of a date that is counted from 1 January of the year -10000.
fn day_number(date: u32) -> i32 {
    date as i32 - 4_371_953
}

/// The days of a tree whose root is an `Exception`; `None` where it is no rule.
pub fn rule_days(s: &[u8]) -> Option<Vec<i32>> {
    let mut r = [0u32; 10];
    let [kind, from, last, most, period, month, day, item, position, weekdays] = &mut r;
    // Sound: as above.
    unsafe { recurrence::probe_rule(s.as_ptr(), s.len(), kind, from, last, most, period, month, day, item, position, weekdays) };
    let (mut at, mut left, mut day) = (r[1], r[3], 0);
    let mut days = Vec::new();
    loop {
        // Sound: as above.
        let said = unsafe { recurrence::probe_next(r[0], r[1], r[2], r[3], r[4], r[5], r[6], r[7], r[8], r[9], &mut at, &mut left, &mut day) };
        match said {
            0 => days.push(day_number(day)),
            1 => return Some(days),
            _ => return None,
        }
    }
}

/// The days of a tree whose root is a `WeekDay`.
pub fn week_day_days(s: &[u8]) -> Vec<i32> {
    let (mut first, mut count) = (0, 0);
    // Sound: as above.
    unsafe { recurrence::probe_week_day(s.as_ptr(), s.len(), &mut first, &mut count) };
    (0..count).map(|k| day_number(first + k)).collect()
}
