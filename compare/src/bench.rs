//! A large tree, and how long the Rust takes with it.

use std::time::{Duration, Instant};

use mkperth_mspxml::exposed::Tree;

use crate::read;
use crate::tree::put_record;

/// Fields of a task in MSPDI's order, with a text of the usual length.
const FIELDS: [(&str, &str); 60] = [
    ("Name", "Reinforcement of the slab, second floor, axes C to F"),
    ("Type", "1"),
    ("IsNull", "0"),
    ("CreateDate", "2026-01-05T08:00:00"),
    ("Contact", "site.office@example.org"),
    ("OutlineNumber", "1.2.3"),
    ("OutlineLevel", "3"),
    ("Priority", "500"),
    ("Start", "2026-03-02T08:00:00"),
    ("Finish", "2026-03-06T17:00:00"),
    ("Duration", "PT40H0M0S"),
    ("DurationFormat", "7"),
    ("Work", "PT40H0M0S"),
    ("Stop", "NA"),
    ("Resume", "NA"),
    ("ResumeValid", "0"),
    ("EffortDriven", "0"),
    ("Recurring", "0"),
    ("OverAllocated", "0"),
    ("Estimated", "0"),
    ("Milestone", "0"),
    ("Summary", "0"),
    ("Critical", "0"),
    ("IsSubproject", "0"),
    ("ExternalTask", "0"),
    ("EarlyStart", "2026-03-02T08:00:00"),
    ("EarlyFinish", "2026-03-06T17:00:00"),
    ("LateStart", "2026-03-09T08:00:00"),
    ("LateFinish", "2026-03-13T17:00:00"),
    ("StartVariance", "0"),
    ("FinishVariance", "0"),
    ("WorkVariance", "0"),
    ("FreeSlack", "24000"),
    ("TotalSlack", "24000"),
    ("FixedCost", "0"),
    ("FixedCostAccrual", "3"),
    ("PercentComplete", "0"),
    ("PercentWorkComplete", "0"),
    ("Cost", "1250.50"),
    ("OvertimeCost", "0"),
    ("OvertimeWork", "PT0H0M0S"),
    ("ActualDuration", "PT0H0M0S"),
    ("ActualCost", "0"),
    ("ActualWork", "PT0H0M0S"),
    ("RegularWork", "PT40H0M0S"),
    ("RemainingDuration", "PT40H0M0S"),
    ("RemainingCost", "1250.50"),
    ("RemainingWork", "PT40H0M0S"),
    ("ACWP", "0"),
    ("CV", "0"),
    ("ConstraintType", "4"),
    ("CalendarUID", "-1"),
    ("ConstraintDate", "2026-03-02T08:00:00"),
    ("LevelAssignments", "1"),
    ("LevelingCanSplit", "1"),
    ("LevelingDelay", "0"),
    ("IgnoreResourceCalendar", "0"),
    (
        "Notes",
        "Bars as drawing 14; the crane is booked for the morning. Check the cover before the inspector comes, and send the photographs to the site office on the same day.",
    ),
    ("Rollup", "0"),
    ("EarnedValueMethod", "0"),
];

/// A packed tree of that many tasks, each with a UID and that many fields in all.
pub fn big_tree(tasks: usize, fields: usize) -> Vec<u8> {
    let mut out = Vec::new();
    put_record(&mut out, 1, "Project", "");
    put_record(&mut out, 2, "Tasks", "");
    for uid in 1..=tasks {
        put_record(&mut out, 3, "Task", "");
        if fields > 0 {
            put_record(&mut out, 4, "UID", &uid.to_string());
        }
        for (name, text) in FIELDS.iter().cycle().take(fields.saturating_sub(1)) {
            put_record(&mut out, 4, name, text);
        }
    }
    out
}

/// A packed tree of that many tasks that all want one id.
pub fn one_id_tree(tasks: usize) -> Vec<u8> {
    let mut out = Vec::new();
    put_record(&mut out, 1, "Project", "");
    put_record(&mut out, 2, "Tasks", "");
    for uid in 1..=tasks {
        put_record(&mut out, 3, "Task", "");
        put_record(&mut out, 4, "UID", &uid.to_string());
        put_record(&mut out, 4, "WBS", "1.2.3");
    }
    out
}

/// A packed tree with one calendar of 1,000 exceptions, each every 580th day from its own day on, 5,000 days at most, so that their days interleave.
pub fn interleaved_tree() -> Vec<u8> {
    let mut out = Vec::new();
    put_record(&mut out, 1, "Project", "");
    put_record(&mut out, 2, "Calendars", "");
    put_record(&mut out, 3, "Calendar", "");
    put_record(&mut out, 4, "UID", "1");
    put_record(&mut out, 4, "Name", "Standard");
    put_record(&mut out, 4, "Exceptions", "");
    for k in 0..1_000 {
        put_record(&mut out, 5, "Exception", "");
        put_record(&mut out, 6, "DayWorking", "0");
        put_record(&mut out, 6, "Type", "1");
        put_record(&mut out, 6, "Period", "580");
        put_record(&mut out, 6, "TimePeriod", "");
        put_record(&mut out, 7, "FromDate", &format!("{:04}-{:02}-{:02}T00:00:00", 1970 + k / 336, k / 28 % 12 + 1, k % 28 + 1));
        put_record(&mut out, 7, "ToDate", "9999-12-31T00:00:00");
    }
    out
}

/// The head of a calendar's element.
fn put_calendar(out: &mut Vec<u8>, uid: usize, name: &str, base: Option<usize>) {
    put_record(out, 3, "Calendar", "");
    put_record(out, 4, "UID", &uid.to_string());
    put_record(out, 4, "Name", name);
    put_record(out, 4, "IsBaseCalendar", if base.is_some() { "0" } else { "1" });
    put_record(out, 4, "BaseCalendarUID", &base.map_or("-1".into(), |uid| uid.to_string()));
}

/// An exception of one day off, in a calendar's Exceptions.
fn put_day_off(out: &mut Vec<u8>, date: &str) {
    put_record(out, 5, "Exception", "");
    put_record(out, 6, "EnteredByOccurrences", "0");
    put_record(out, 6, "TimePeriod", "");
    put_record(out, 7, "FromDate", &format!("{date}T00:00:00"));
    put_record(out, 7, "ToDate", &format!("{date}T23:59:00"));
    put_record(out, 6, "Occurrences", "1");
    put_record(out, 6, "Type", "1");
    put_record(out, 6, "DayWorking", "0");
}

/// A packed tree with a base calendar of ten days off and so many calendars over it, as a plan has one for each resource: a name and a day off of its own.
pub fn calendars_tree(count: usize) -> Vec<u8> {
    let mut out = Vec::new();
    put_record(&mut out, 1, "Project", "");
    put_record(&mut out, 2, "Calendars", "");
    put_calendar(&mut out, 1, "Standard", None);
    put_record(&mut out, 4, "Exceptions", "");
    for month in 1..=10 {
        put_day_off(&mut out, &format!("2026-{month:02}-02"));
    }
    for k in 2..=count + 1 {
        put_calendar(&mut out, k, &format!("Crew {k}"), Some(1));
        put_record(&mut out, 4, "Exceptions", "");
        put_day_off(&mut out, &format!("2026-{:02}-{:02}", k % 12 + 1, k / 12 % 28 + 1));
    }
    out
}

/// An exception of so many days, every so many, in a calendar's Exceptions: off, or worked from 7 to 12 and from 13 to 16.
fn put_days(out: &mut Vec<u8>, from: &str, days: usize, period: usize, worked: bool) {
    put_record(out, 5, "Exception", "");
    put_record(out, 6, "Type", "1");
    put_record(out, 6, "Period", &period.to_string());
    put_record(out, 6, "EnteredByOccurrences", "1");
    put_record(out, 6, "Occurrences", &days.to_string());
    put_record(out, 6, "TimePeriod", "");
    put_record(out, 7, "FromDate", &format!("{from}T00:00:00"));
    put_record(out, 6, "DayWorking", if worked { "1" } else { "0" });
    if worked {
        put_record(out, 6, "WorkingTimes", "");
        for (from, to) in [("07:00:00", "12:00:00"), ("13:00:00", "16:00:00")] {
            put_record(out, 7, "WorkingTime", "");
            put_record(out, 8, "FromTime", from);
            put_record(out, 8, "ToTime", to);
        }
    }
}

/// A packed tree with a base calendar of 5,000 days with hours, every second day, and one over it that has the days between.
pub fn hours_tree() -> Vec<u8> {
    let mut out = Vec::new();
    put_record(&mut out, 1, "Project", "");
    put_record(&mut out, 2, "Calendars", "");
    for (uid, from) in [(1, "2000-01-01"), (2, "2000-01-02")] {
        put_calendar(&mut out, uid, "Site", if uid == 1 { None } else { Some(1) });
        put_record(&mut out, 4, "Exceptions", "");
        put_days(&mut out, from, 5_000, 2, true);
    }
    out
}

/// A packed tree with one calendar of 5,000 exceptions of one day with hours, one every 17 months.
pub fn sparse_tree() -> Vec<u8> {
    let mut out = Vec::new();
    put_record(&mut out, 1, "Project", "");
    put_record(&mut out, 2, "Calendars", "");
    put_calendar(&mut out, 1, "Site", None);
    put_record(&mut out, 4, "Exceptions", "");
    for month in (0..5_000).map(|k| 17 * k) {
        put_days(&mut out, &format!("{:04}-{:02}-01", 1 + month / 12, month % 12 + 1), 1, 1, true);
    }
    out
}

/// A packed tree with a base calendar whose two days off lie in the years 1 and 9999, and so many calendars over it, each with 20 days off.
pub fn far_days_tree(count: usize) -> Vec<u8> {
    let mut out = Vec::new();
    put_record(&mut out, 1, "Project", "");
    put_record(&mut out, 2, "Calendars", "");
    put_calendar(&mut out, 1, "Standard", None);
    put_record(&mut out, 4, "Exceptions", "");
    put_day_off(&mut out, "0001-01-01");
    put_day_off(&mut out, "9999-12-31");
    for k in 2..=count + 1 {
        put_calendar(&mut out, k, &format!("Crew {k}"), Some(1));
        put_record(&mut out, 4, "Exceptions", "");
        put_days(&mut out, &format!("2026-{:02}-{:02}", k % 12 + 1, k / 12 % 28 + 1), 20, 1, false);
    }
    out
}

/// The shortest of five runs.
pub fn best_of_5(mut run: impl FnMut()) -> Duration {
    let timed = |_| {
        let start = Instant::now();
        run();
        start.elapsed()
    };
    (0..5).map(timed).min().unwrap_or_default()
}

/// The Rust building its elements from the packed bytes (the replay and `tree::parse`). The elements are
/// dropped outside the time.
pub fn bench_tree(tree: &[u8]) -> Duration {
    let mut built = Vec::new();
    let build = || {
        built.clear();
        let start = Instant::now();
        built.push(quick_xml::with_tree(tree, Tree::build));
        start.elapsed()
    };
    std::iter::repeat_with(build).take(5).min().unwrap_or_default()
}

/// The Rust's whole `read`, elements included.
pub fn bench_read(tree: &[u8]) -> Duration {
    best_of_5(|| drop(read::rust_read(tree)))
}
