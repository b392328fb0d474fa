//! The days of an exception, from document 01, "Calendars": every day from the first to the last is asked
//! whether it fits, with no thought of speed.

use mkperth_core::Date;
use mkperth_mspxml::exposed;

use crate::sheet::weekday;
use crate::tree::Node;

const CENTURY: i64 = 36_600;

struct Rule {
    from: i32,
    period: i64,
    month: i64,
    day: i64,
    item: i64,
    position: i64,
    mask: i64,
}

/// `None` where the exception gives no rule.
pub fn days(x: &Node) -> Option<Vec<i32>> {
    let int = |name: &str, default: i64| text_of(x, name).and_then(|t| t.parse().ok()).unwrap_or(default);
    let from = date(child(x, "TimePeriod")?, "FromDate")?;
    let to = child(x, "TimePeriod").and_then(|p| date(p, "ToDate")).unwrap_or(from);
    let by_occurrences = matches!(text_of(x, "EnteredByOccurrences"), Some("1" | "true"));
    let last = if by_occurrences { Date::from_days(from + CENTURY as i32).map_or(to, Date::days) } else { to };
    let so_many = if by_occurrences { int("Occurrences", 1).clamp(0, 5_000) as usize } else { 5_000 };
    let rule = Rule {
        from,
        period: int("Period", 1).clamp(1, 1_000),
        month: int("Month", 0),
        day: int("MonthDay", 1),
        item: int("MonthItem", 0),
        position: int("MonthPosition", 0),
        mask: int("DaysOfWeek", 0),
    };
    let fits: fn(&Rule, i32) -> bool = match int("Type", 1) {
        1 => Rule::daily,
        2 | 3 if !(0..=11).contains(&rule.month) => return None,
        2 => |r, d| r.yearly(d) && r.on_day(d),
        3 => |r, d| r.yearly(d) && r.at_position(d),
        4 => |r, d| r.monthly(d) && r.on_day(d),
        5 => |r, d| r.monthly(d) && r.at_position(d),
        6 => Rule::weekly,
        _ => return None,
    };
    Some((from..=last).filter(|d| fits(&rule, *d)).take(so_many).collect())
}

impl Rule {
    fn daily(&self, d: i32) -> bool {
        let after = i64::from(d - self.from);
        after % self.period == 0 && after / self.period < 5_000
    }

    /// In the month of a year up to 200 after the first.
    fn yearly(&self, d: i32) -> bool {
        let ((y0, _, _), (y, m, _)) = (ymd(self.from), ymd(d));
        i64::from(m) == self.month + 1 && y - y0 <= 200
    }

    /// In a Period-th month, its step below 2,400.
    fn monthly(&self, d: i32) -> bool {
        let ((y0, m0, _), (y, m, _)) = (ymd(self.from), ymd(d));
        let after = i64::from(y - y0) * 12 + i64::from(m) - i64::from(m0);
        after % self.period == 0 && after / self.period < 2_400
    }

    fn on_day(&self, d: i32) -> bool {
        i64::from(ymd(d).2) == self.day
    }

    fn at_position(&self, d: i32) -> bool {
        let (y, m, _) = ymd(d);
        nth_in_month(y, m, self.item, self.position) == Some(d)
    }

    fn weekly(&self, d: i32) -> bool {
        let sunday = self.from - sunday_first(self.from) as i32;
        let after = i64::from(d - self.from);
        self.mask >> sunday_first(d) & 1 == 1 && i64::from((d - sunday) / 7) % self.period == 0 && after <= CENTURY
    }
}

pub fn nth_in_month(y: i32, m: u32, item: i64, position: i64) -> Option<i32> {
    let first = Date::from_ymd(y, m, 1)?.days();
    if (y, m) == (9999, 12) {
        return None;
    }
    let fitting: Vec<i32> = (first..).take_while(|d| ymd(*d).1 == m).filter(|d| fits_item(item, sunday_first(*d))).collect();
    match position {
        0..=3 => fitting.get(position as usize).copied(),
        4 => fitting.last().copied(),
        _ => None,
    }
}

fn fits_item(item: i64, day: usize) -> bool {
    match item {
        0 => true,
        1 => (1..=5).contains(&day),
        2 => day == 0 || day == 6,
        3..=9 => day as i64 == item - 3,
        _ => false,
    }
}

/// Days of a WeekDay of DayType 0: at most 3,660 after the first, and a reversed range is its first alone.
pub fn weekday_days(w: &Node) -> Vec<i32> {
    let period = child(w, "TimePeriod");
    match (period.and_then(|p| date(p, "FromDate")), period.and_then(|p| date(p, "ToDate"))) {
        (Some(from), Some(to)) => (from..=to.clamp(from, from + 3_660)).collect(),
        _ => Vec::new(),
    }
}

/// Sunday is 0.
fn sunday_first(d: i32) -> usize {
    (weekday(d) + 1) % 7
}

fn ymd(d: i32) -> (i32, u32, u32) {
    Date::from_days(d).map_or((0, 0, 0), Date::ymd)
}

fn child<'a>(e: &'a Node, name: &str) -> Option<&'a Node> {
    e.children.iter().find(|c| c.name == name)
}

fn text_of<'a>(e: &'a Node, name: &str) -> Option<&'a str> {
    child(e, name).map(|c| c.text.trim()).filter(|t| !t.is_empty())
}

fn date(e: &Node, name: &str) -> Option<i32> {
    text_of(e, name).and_then(exposed::date_of).map(Date::days)
}
