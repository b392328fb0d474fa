//! A model as plain Rust values.

use crate::bits::Reader;
use crate::{Period, Refusal};

/// A day of the calendar.
#[derive(Debug, Clone, Copy, PartialEq, Eq, PartialOrd, Ord, Hash)]
pub struct Date {
    /// -9999 to 9999.
    pub year: i32,
    /// 1 to 12.
    pub month: u32,
    /// 1 to 31.
    pub day: u32,
}

/// A plan: what a model holds.
#[derive(Debug, Clone, PartialEq, Eq)]
pub struct Plan {
    /// The project itself.
    pub project: Project,
    /// The main one first.
    pub calendars: Vec<Calendar>,
    /// The kept tasks, in the order of the file.
    pub activities: Vec<Activity>,
    /// The kept links.
    pub links: Vec<Link>,
    /// Work and material resources.
    pub resources: Vec<Resource>,
    /// Who works on what.
    pub assignments: Vec<Assignment>,
    /// What cost resources cost on an activity.
    pub expenses: Vec<Expense>,
}

/// What a plan says of itself.
#[derive(Debug, Clone, PartialEq, Eq)]
pub struct Project {
    /// Its title, or its name.
    pub name: String,
    /// The day on which it starts.
    pub start: Date,
    /// The sign of its currency.
    pub currency: String,
    /// How many exceptions of calendars give no rule.
    pub skipped: u32,
    /// How many links have no predecessor.
    pub dangling: u32,
    /// How many links go to another project.
    pub across: u32,
    /// How many tasks have a duration that was not whole minutes.
    pub fractional: u32,
    /// The day of its status.
    pub data_date: Option<Date>,
}

/// A calendar. Weeks begin on Monday.
#[derive(Debug, Clone, PartialEq, Eq)]
pub struct Calendar {
    /// Distinct from the other calendars' where the model was read.
    pub name: String,
    /// Which weekdays work.
    pub week: [bool; 7],
    /// The hours of each weekday; where there are none, 8 to 12 and 13 to 17 o'clock.
    pub hours: [Vec<Period>; 7],
    /// Days off on a working weekday.
    pub holidays: Vec<Date>,
    /// Days worked on another weekday.
    pub extra_days: Vec<Date>,
    /// Days with their own hours.
    pub exceptions: Vec<(Date, Vec<Period>)>,
}

/// What an activity is.
#[derive(Debug, Clone, Copy, PartialEq, Eq, Hash)]
pub enum ActivityKind {
    /// It takes time.
    Task,
    /// A milestone that no link enters.
    StartMilestone,
    /// A milestone that a link enters.
    FinishMilestone,
}

/// What stays where an activity's duration or work changes.
#[derive(Debug, Clone, Copy, PartialEq, Eq, Hash)]
#[allow(missing_docs)]
pub enum DurationType {
    FixedDurationAndRate,
    FixedDurationAndUnits,
    FixedRate,
    FixedUnits,
}

/// When an activity may stand.
#[derive(Debug, Clone, Copy, PartialEq, Eq, Hash)]
#[allow(missing_docs)]
pub enum Constraint {
    AsLateAsPossible,
    StartOn(Date),
    FinishOn(Date),
    StartOnOrAfter(Date),
    StartOnOrBefore(Date),
    FinishOnOrAfter(Date),
    FinishOnOrBefore(Date),
}

/// A task of the plan. Rows count from 0.
#[derive(Debug, Clone, PartialEq, Eq)]
pub struct Activity {
    /// Distinct from the other activities' where the model was read.
    pub id: String,
    /// Its name.
    pub name: String,
    /// Task or milestone.
    pub kind: ActivityKind,
    /// Days, a part of a day as a day.
    pub duration: i64,
    /// The minutes, where they are not whole days.
    pub minutes: Option<i64>,
    /// The row of the activity that it stands below.
    pub parent: Option<u32>,
    /// Its notes.
    pub notes: String,
    /// The name of its calendar, where that is not the main one.
    pub calendar: Option<String>,
    /// When it may stand.
    pub constraint: Option<Constraint>,
    /// The day on which it is due.
    pub deadline: Option<Date>,
    /// The day on which it began.
    pub start: Option<Date>,
    /// The day on which it ended.
    pub finish: Option<Date>,
    /// Hundredths of a percent.
    pub percent: Option<i64>,
    /// What stays where its duration or work changes.
    pub duration_type: DurationType,
    /// The minutes left, where it is under way.
    pub remaining: Option<i64>,
    /// Its UID in the file.
    pub uid: String,
}

/// Which ends a link ties.
#[derive(Debug, Clone, Copy, PartialEq, Eq, Hash)]
#[allow(missing_docs)]
pub enum LinkKind {
    FinishToStart,
    StartToStart,
    FinishToFinish,
    StartToFinish,
}

/// What a lag counts.
#[derive(Debug, Clone, Copy, PartialEq, Eq, Hash)]
pub enum LagKind {
    /// Working time.
    Working,
    /// Time that passes.
    Elapsed,
    /// A share of the predecessor's duration, in hundredths of a percent.
    Percent(i64),
}

/// A link between two activities, by their rows.
#[derive(Debug, Clone, PartialEq, Eq)]
pub struct Link {
    /// The row that it leaves.
    pub predecessor: u32,
    /// The row that it enters.
    pub successor: u32,
    /// Which ends it ties.
    pub kind: LinkKind,
    /// Days.
    pub lag: i64,
    /// Minutes, where the lag is not whole days.
    pub minutes: Option<i64>,
    /// What the lag counts.
    pub lag_kind: LagKind,
}

/// What a resource is.
#[derive(Debug, Clone, Copy, PartialEq, Eq, Hash)]
#[allow(missing_docs)]
pub enum ResourceKind {
    Labor,
    Nonlabor,
    Material,
}

/// A resource.
#[derive(Debug, Clone, PartialEq, Eq)]
pub struct Resource {
    /// Distinct from the other resources' where the model was read.
    pub id: String,
    /// Its name.
    pub name: String,
    /// Labor or material.
    pub kind: ResourceKind,
    /// What a material is counted in.
    pub unit: String,
    /// Hundredths: 100 is one.
    pub max_units: i64,
    /// The name of its calendar, where that is not the main one.
    pub calendar: Option<String>,
    /// Hundredths of the currency.
    pub price: Option<i64>,
}

/// An activity's resource, by their rows, with hours in hundredths.
#[derive(Debug, Clone, PartialEq, Eq)]
pub struct Assignment {
    /// The activity's row.
    pub activity: u32,
    /// The resource's row.
    pub resource: u32,
    /// Planned hours.
    pub planned: i64,
    /// Hours worked.
    pub actual: i64,
    /// Hours left, where they are not planned less worked.
    pub remaining: Option<i64>,
    /// Hundredths of units, where they are not 100.
    pub rate: Option<i64>,
}

/// When an expense falls due.
#[derive(Debug, Clone, Copy, PartialEq, Eq, Hash)]
#[allow(missing_docs)]
pub enum Accrual {
    Start,
    End,
    Uniform,
}

/// What an activity costs beside its work, in hundredths of the currency.
#[derive(Debug, Clone, PartialEq, Eq)]
pub struct Expense {
    /// The activity's row.
    pub activity: u32,
    /// The cost resource's name.
    pub name: String,
    /// Planned.
    pub planned: i64,
    /// Spent.
    pub actual: i64,
    /// Left, where it is not planned less spent.
    pub remaining: Option<i64>,
    /// When it falls due.
    pub accrual: Accrual,
}

impl Date {
    /// The date of a day number, 0 for 1970-01-01; none outside the years -9999 to 9999.
    pub fn from_days(days: i32) -> Option<Date> {
        if !(FIRST_DAY..=LAST_DAY).contains(&days) {
            return None;
        }
        // Days from 1 March of the year -400 * 26, and years from March, so that the leap day is the last.
        let days = days + 719_468 + 26 * 146_097;
        let (era, of_era) = (days / 146_097, days % 146_097);
        let year = (of_era - of_era / 1460 + of_era / 36_524 - of_era / 146_096) / 365;
        let of_year = of_era - (365 * year + year / 4 - year / 100);
        let month = (5 * of_year + 2) / 153;
        let (day, month) = (of_year - (153 * month + 2) / 5 + 1, if month < 10 { month + 3 } else { month - 9 });
        let year = year + 400 * (era - 26) + i32::from(month <= 2);
        Some(Date { year, month: month as u32, day: day as u32 })
    }

    /// The number of the day, 0 for 1970-01-01; none where there is no such day.
    pub fn days(self) -> Option<i32> {
        if !(-9999..=9999).contains(&self.year) || !(1..=12).contains(&self.month) || !(1..=31).contains(&self.day) {
            return None;
        }
        let (month, day) = (self.month as i32, self.day as i32);
        let (year, month) = if month > 2 { (self.year, month - 3) } else { (self.year - 1, month + 9) };
        let from_start = year + 26 * 400;
        let (era, of_era) = (from_start / 400, from_start % 400);
        let of_era = 365 * of_era + of_era / 4 - of_era / 100 + (153 * month + 2) / 5 + day - 1;
        let days = era * 146_097 + of_era - 719_468 - 26 * 146_097;
        (Date::from_days(days) == Some(self)).then_some(days)
    }
}

/// 1 January of -9999 and 31 December of 9999.
const FIRST_DAY: i32 = -4_371_587;
const LAST_DAY: i32 = 2_932_896;

impl Plan {
    /// The plan of a model's bytes: of exactly those that [`check`](crate::check) does not refuse with [`Refusal::NotModel`]. Each is taken for one
    /// whose project record has four counts (document 02, E2); one that was stored before is refused or means something else: read its tree again.
    ///
    /// # Errors
    ///
    /// [`Refusal::NotModel`] for bytes that are no model.
    pub fn decode(model: &[u8]) -> Result<Plan, Refusal> {
        decoded(model).ok_or(Refusal::NotModel)
    }

    /// The plan of a packed tree: read, then decoded.
    ///
    /// # Errors
    ///
    /// As of [`read`](crate::read).
    pub fn read(tree: &[u8]) -> Result<Plan, Refusal> {
        Plan::decode(&crate::read(tree)?)
    }

    /// The calendar of an activity or a resource: the one of the name, or the main one where there is none.
    pub fn calendar(&self, name: Option<&str>) -> Option<&Calendar> {
        match name {
            Some(name) => self.calendars.iter().find(|c| c.name == name),
            None => self.calendars.first(),
        }
    }
}

// ---- decoding

fn decoded(model: &[u8]) -> Option<Plan> {
    let r = &mut Reader::new(model);
    let mut counts = [0; 6];
    for count in &mut counts {
        *count = r.count()?;
    }
    let [calendars, activities, links, resources, assignments, expenses] = counts;
    let plan = Plan {
        project: r.record(project)?,
        calendars: r.records(calendars, calendar)?,
        activities: r.records(activities, activity)?,
        links: r.records(links, link)?,
        resources: r.records(resources, resource)?,
        assignments: r.records(assignments, assignment)?,
        expenses: r.records(expenses, expense)?,
    };
    (r.left() == 0).then_some(plan)
}

impl Reader<'_> {
    fn flag(&mut self) -> Option<bool> {
        Some(self.take(1)? == 1)
    }

    /// One of so many cases, by its code.
    fn code<T: Copy>(&mut self, cases: &[T]) -> Option<T> {
        cases.get(self.take(4)? as usize).copied()
    }

    fn count(&mut self) -> Option<u32> {
        Some(self.take(32)? as u32)
    }

    fn number(&mut self) -> Option<i64> {
        Some(self.take(64)? as i64)
    }

    fn date(&mut self) -> Option<Date> {
        Date::from_days(self.take(32)? as u32 as i32)
    }

    fn text(&mut self) -> Option<String> {
        let count = self.count()?;
        self.pad()?;
        String::from_utf8(self.bytes(count as usize)?.to_vec()).ok()
    }

    fn optional<T>(&mut self, get: impl FnOnce(&mut Self) -> Option<T>) -> Option<Option<T>> {
        if self.flag()? { get(self).map(Some) } else { Some(None) }
    }

    fn period(&mut self) -> Option<Period> {
        let (from, to) = (self.take(11)? as u16, self.take(11)? as u16);
        (from < to && to <= 1440).then_some(Period { from, to })
    }

    /// A list that rises strictly by `key`.
    fn list<T, K: PartialOrd>(&mut self, get: impl Fn(&mut Self) -> Option<T>, key: impl Fn(&T) -> K) -> Option<Vec<T>> {
        let count = self.count()?;
        let mut items: Vec<T> = Vec::new();
        for _ in 0..count {
            let item = get(self)?;
            if items.last().is_some_and(|last| key(last) >= key(&item)) {
                return None;
            }
            items.push(item);
        }
        Some(items)
    }

    fn periods(&mut self) -> Option<Vec<Period>> {
        self.list(Self::period, |p| (p.from, p.to))
    }

    fn dates(&mut self) -> Option<Vec<Date>> {
        self.list(Self::date, |d| *d)
    }

    /// A record and the zero bits behind it.
    fn record<T>(&mut self, get: impl Fn(&mut Self) -> Option<T>) -> Option<T> {
        let record = get(self)?;
        self.pad()?;
        Some(record)
    }

    fn records<T>(&mut self, count: u32, get: impl Fn(&mut Self) -> Option<T>) -> Option<Vec<T>> {
        (0..count).map(|_| self.record(&get)).collect()
    }
}

fn project(r: &mut Reader) -> Option<Project> {
    Some(Project {
        name: r.text()?,
        start: r.date()?,
        currency: r.text()?,
        skipped: r.count()?,
        dangling: r.count()?,
        across: r.count()?,
        fractional: r.count()?,
        data_date: r.optional(Reader::date)?,
    })
}

fn calendar(r: &mut Reader) -> Option<Calendar> {
    let name = r.text()?;
    let mut week = [false; 7];
    for day in &mut week {
        *day = r.flag()?;
    }
    let mut hours: [Vec<Period>; 7] = Default::default();
    for day in &mut hours {
        *day = r.periods()?;
    }
    Some(Calendar {
        name,
        week,
        hours,
        holidays: r.dates()?,
        extra_days: r.dates()?,
        exceptions: r.list(|r| Some((r.date()?, r.periods()?)), |(date, _)| *date)?,
    })
}

fn activity(r: &mut Reader) -> Option<Activity> {
    use ActivityKind::*;
    use DurationType::*;
    Some(Activity {
        id: r.text()?,
        name: r.text()?,
        kind: r.code(&[Task, StartMilestone, FinishMilestone])?,
        duration: r.number()?,
        minutes: r.optional(Reader::number)?,
        parent: r.optional(Reader::count)?,
        notes: r.text()?,
        calendar: r.optional(Reader::text)?,
        constraint: r.optional(constraint)?,
        deadline: r.optional(Reader::date)?,
        start: r.optional(Reader::date)?,
        finish: r.optional(Reader::date)?,
        percent: r.optional(Reader::number)?,
        duration_type: r.code(&[FixedDurationAndRate, FixedDurationAndUnits, FixedRate, FixedUnits])?,
        remaining: r.optional(Reader::number)?,
        uid: r.text()?,
    })
}

fn constraint(r: &mut Reader) -> Option<Constraint> {
    use Constraint::*;
    let dated = match r.take(4)? {
        1 => return Some(AsLateAsPossible),
        2 => StartOn,
        3 => FinishOn,
        4 => StartOnOrAfter,
        5 => StartOnOrBefore,
        6 => FinishOnOrAfter,
        7 => FinishOnOrBefore,
        _ => return None,
    };
    r.date().map(dated)
}

fn link(r: &mut Reader) -> Option<Link> {
    use LinkKind::*;
    Some(Link {
        predecessor: r.count()?,
        successor: r.count()?,
        kind: r.code(&[FinishToStart, StartToStart, FinishToFinish, StartToFinish])?,
        lag: r.number()?,
        minutes: r.optional(Reader::number)?,
        lag_kind: lag_kind(r)?,
    })
}

fn lag_kind(r: &mut Reader) -> Option<LagKind> {
    match r.take(4)? {
        0 => Some(LagKind::Working),
        1 => Some(LagKind::Elapsed),
        2 => r.number().map(LagKind::Percent),
        _ => None,
    }
}

fn resource(r: &mut Reader) -> Option<Resource> {
    use ResourceKind::*;
    Some(Resource {
        id: r.text()?,
        name: r.text()?,
        kind: r.code(&[Labor, Nonlabor, Material])?,
        unit: r.text()?,
        max_units: r.number()?,
        calendar: r.optional(Reader::text)?,
        price: r.optional(Reader::number)?,
    })
}

fn assignment(r: &mut Reader) -> Option<Assignment> {
    Some(Assignment {
        activity: r.count()?,
        resource: r.count()?,
        planned: r.number()?,
        actual: r.number()?,
        remaining: r.optional(Reader::number)?,
        rate: r.optional(Reader::number)?,
    })
}

fn expense(r: &mut Reader) -> Option<Expense> {
    use Accrual::*;
    Some(Expense {
        activity: r.count()?,
        name: r.text()?,
        planned: r.number()?,
        actual: r.number()?,
        remaining: r.optional(Reader::number)?,
        accrual: r.code(&[Start, End, Uniform])?,
    })
}
