//! The model and its packed form, from document 01, "The model", with the fourth count of document 02, E2, and with every reason of refusal 6.

use crate::bits::{BitReader, BitWriter};

#[derive(Debug, Clone, Default, PartialEq, Eq)]
pub struct Model {
    pub project: Project,
    /// The main one first.
    pub calendars: Vec<Calendar>,
    pub activities: Vec<Activity>,
    pub links: Vec<Link>,
    pub resources: Vec<Resource>,
    pub assignments: Vec<Assignment>,
    pub expenses: Vec<Expense>,
}

#[derive(Debug, Clone, Default, PartialEq, Eq)]
pub struct Project {
    pub name: String,
    pub start: i32,
    pub currency: String,
    pub skipped: u32,
    pub dangling: u32,
    pub across: u32,
    pub fractional: u32,
    pub data_date: Option<i32>,
}

/// From and to, in minutes after midnight.
pub type Period = (u16, u16);

#[derive(Debug, Clone, Default, PartialEq, Eq)]
pub struct Calendar {
    pub name: String,
    /// Monday first.
    pub week: [bool; 7],
    pub periods: [Vec<Period>; 7],
    pub holidays: Vec<i32>,
    pub extra_days: Vec<i32>,
    pub exceptions: Vec<(i32, Vec<Period>)>,
}

#[derive(Debug, Clone, Default, PartialEq, Eq)]
pub struct Activity {
    pub id: String,
    pub name: String,
    pub kind: u8,
    pub duration: i64,
    pub minutes: Option<i64>,
    pub parent: Option<u32>,
    pub notes: String,
    pub calendar: Option<String>,
    pub constraint: Option<Constraint>,
    pub deadline: Option<i32>,
    pub start: Option<i32>,
    pub finish: Option<i32>,
    pub percent: Option<i64>,
    pub duration_type: u8,
    pub remaining: Option<i64>,
    pub uid: String,
}

/// MSPDI's code, 1 to 7, and a date unless it is 1.
#[derive(Debug, Clone, Copy, PartialEq, Eq)]
pub struct Constraint {
    pub code: u8,
    pub date: Option<i32>,
}

#[derive(Debug, Clone, Default, PartialEq, Eq)]
pub struct Link {
    pub predecessor: u32,
    pub successor: u32,
    pub kind: u8,
    pub lag: i64,
    pub minutes: Option<i64>,
    pub lag_kind: LagKind,
}

#[derive(Debug, Clone, Copy, Default, PartialEq, Eq)]
pub enum LagKind {
    #[default]
    Working,
    Elapsed,
    Percent(i64),
}

#[derive(Debug, Clone, Default, PartialEq, Eq)]
pub struct Resource {
    pub id: String,
    pub name: String,
    pub kind: u8,
    pub unit: String,
    pub max_units: i64,
    pub calendar: Option<String>,
    pub price: Option<i64>,
}

#[derive(Debug, Clone, Default, PartialEq, Eq)]
pub struct Assignment {
    pub activity: u32,
    pub resource: u32,
    pub planned: i64,
    pub actual: i64,
    pub remaining: Option<i64>,
    pub rate: Option<i64>,
}

#[derive(Debug, Clone, Default, PartialEq, Eq)]
pub struct Expense {
    pub activity: u32,
    pub name: String,
    pub planned: i64,
    pub actual: i64,
    pub remaining: Option<i64>,
    pub accrual: u8,
}

/// How many codes each kind has, from 0.
pub const ACTIVITY_KINDS: u8 = 3;
pub const DURATION_TYPES: u8 = 4;
pub const LINK_KINDS: u8 = 4;
pub const RESOURCE_KINDS: u8 = 3;
pub const ACCRUALS: u8 = 3;

/// 1 January of -9999 and 31 December of 9999.
pub const FIRST_DAY: i32 = -4_371_587;
pub const LAST_DAY: i32 = 2_932_896;
/// The end of a day, the largest time.
pub const DAY_END: u16 = 1440;

// ---- writing

impl BitWriter {
    fn flag(&mut self, value: bool) {
        self.put(1, value.into());
    }

    pub fn code(&mut self, value: u8) {
        self.put(4, value.into());
    }

    fn date(&mut self, value: i32) {
        self.put(32, value as u32 as u64);
    }

    /// A count or a row.
    fn count(&mut self, value: u32) {
        self.put(32, value.into());
    }

    fn number(&mut self, value: i64) {
        self.put(64, value as u64);
    }

    fn text(&mut self, value: &str) {
        self.count(value.len() as u32);
        self.put_bytes(value.as_bytes());
    }

    fn optional<T>(&mut self, value: Option<T>, put: impl FnOnce(&mut Self, T)) {
        self.flag(value.is_some());
        if let Some(value) = value {
            put(self, value);
        }
    }

    fn list<T>(&mut self, items: &[T], put: impl Fn(&mut Self, &T)) {
        self.count(items.len() as u32);
        for item in items {
            put(self, item);
        }
    }

    pub fn periods(&mut self, periods: &[Period]) {
        self.list(periods, |w, (from, to)| {
            w.put(11, (*from).into());
            w.put(11, (*to).into());
        });
    }
}

/// Each of `items` as a record from a whole byte.
fn put_records<T>(w: &mut BitWriter, items: &[T], put: impl Fn(&mut BitWriter, &T)) {
    for item in items {
        put(w, item);
        w.align();
    }
}

impl Model {
    pub fn encode(&self) -> Vec<u8> {
        let mut w = BitWriter::default();
        let counts =
            [self.calendars.len(), self.activities.len(), self.links.len(), self.resources.len(), self.assignments.len(), self.expenses.len()];
        counts.iter().for_each(|n| w.count(*n as u32));
        put_records(&mut w, std::slice::from_ref(&self.project), put_project);
        put_records(&mut w, &self.calendars, put_calendar);
        put_records(&mut w, &self.activities, put_activity);
        put_records(&mut w, &self.links, put_link);
        put_records(&mut w, &self.resources, put_resource);
        put_records(&mut w, &self.assignments, put_assignment);
        put_records(&mut w, &self.expenses, put_expense);
        w.into_bytes()
    }
}

fn put_project(w: &mut BitWriter, p: &Project) {
    w.text(&p.name);
    w.date(p.start);
    w.text(&p.currency);
    w.count(p.skipped);
    w.count(p.dangling);
    w.count(p.across);
    w.count(p.fractional);
    w.optional(p.data_date, BitWriter::date);
}

fn put_calendar(w: &mut BitWriter, c: &Calendar) {
    w.text(&c.name);
    c.week.iter().for_each(|day| w.flag(*day));
    c.periods.iter().for_each(|day| w.periods(day));
    w.list(&c.holidays, |w, d| w.date(*d));
    w.list(&c.extra_days, |w, d| w.date(*d));
    w.list(&c.exceptions, |w, (date, periods)| {
        w.date(*date);
        w.periods(periods);
    });
}

fn put_activity(w: &mut BitWriter, a: &Activity) {
    w.text(&a.id);
    w.text(&a.name);
    w.code(a.kind);
    w.number(a.duration);
    w.optional(a.minutes, BitWriter::number);
    w.optional(a.parent, BitWriter::count);
    w.text(&a.notes);
    w.optional(a.calendar.as_deref(), BitWriter::text);
    w.optional(a.constraint, |w, c| {
        w.code(c.code);
        c.date.into_iter().for_each(|d| w.date(d));
    });
    w.optional(a.deadline, BitWriter::date);
    w.optional(a.start, BitWriter::date);
    w.optional(a.finish, BitWriter::date);
    w.optional(a.percent, BitWriter::number);
    w.code(a.duration_type);
    w.optional(a.remaining, BitWriter::number);
    w.text(&a.uid);
}

fn put_link(w: &mut BitWriter, l: &Link) {
    w.count(l.predecessor);
    w.count(l.successor);
    w.code(l.kind);
    w.number(l.lag);
    w.optional(l.minutes, BitWriter::number);
    match l.lag_kind {
        LagKind::Working => w.code(0),
        LagKind::Elapsed => w.code(1),
        LagKind::Percent(share) => {
            w.code(2);
            w.number(share);
        }
    }
}

fn put_resource(w: &mut BitWriter, r: &Resource) {
    w.text(&r.id);
    w.text(&r.name);
    w.code(r.kind);
    w.text(&r.unit);
    w.number(r.max_units);
    w.optional(r.calendar.as_deref(), BitWriter::text);
    w.optional(r.price, BitWriter::number);
}

fn put_assignment(w: &mut BitWriter, x: &Assignment) {
    w.count(x.activity);
    w.count(x.resource);
    w.number(x.planned);
    w.number(x.actual);
    w.optional(x.remaining, BitWriter::number);
    w.optional(x.rate, BitWriter::number);
}

fn put_expense(w: &mut BitWriter, e: &Expense) {
    w.count(e.activity);
    w.text(&e.name);
    w.number(e.planned);
    w.number(e.actual);
    w.optional(e.remaining, BitWriter::number);
    w.code(e.accrual);
}

// ---- reading back

/// Why a model does not decode: each is refusal 6.
#[derive(Debug, Clone, Copy, PartialEq, Eq, Hash)]
pub enum Fault {
    Cut,
    LeftOver,
    PadBit,
    Code,
    Time,
    Date,
    NotRising,
    Period,
    Utf8,
}

type Decoded<T> = Result<T, Fault>;

impl BitReader<'_> {
    fn bits(&mut self, width: u32) -> Decoded<u64> {
        self.take(width).ok_or(Fault::Cut)
    }

    fn pad(&mut self) -> Decoded<()> {
        if self.align() { Ok(()) } else { Err(Fault::PadBit) }
    }

    fn flag(&mut self) -> Decoded<bool> {
        Ok(self.bits(1)? == 1)
    }

    /// A code below `kinds`.
    fn code(&mut self, kinds: u8) -> Decoded<u8> {
        let code = self.bits(4)? as u8;
        if code < kinds { Ok(code) } else { Err(Fault::Code) }
    }

    fn time(&mut self) -> Decoded<u16> {
        let time = self.bits(11)? as u16;
        if time <= DAY_END { Ok(time) } else { Err(Fault::Time) }
    }

    fn date(&mut self) -> Decoded<i32> {
        let date = self.bits(32)? as u32 as i32;
        if (FIRST_DAY..=LAST_DAY).contains(&date) { Ok(date) } else { Err(Fault::Date) }
    }

    fn count(&mut self) -> Decoded<u32> {
        Ok(self.bits(32)? as u32)
    }

    fn number(&mut self) -> Decoded<i64> {
        Ok(self.bits(64)? as i64)
    }

    fn text(&mut self) -> Decoded<String> {
        let count = self.count()?;
        self.pad()?;
        let bytes = self.take_bytes(count as usize).ok_or(Fault::Cut)?;
        String::from_utf8(bytes.to_vec()).map_err(|_| Fault::Utf8)
    }

    fn optional<T>(&mut self, get: impl FnOnce(&mut Self) -> Decoded<T>) -> Decoded<Option<T>> {
        if self.flag()? { get(self).map(Some) } else { Ok(None) }
    }

    /// A list whose items rise strictly by `key`.
    fn list<T, K: PartialOrd>(&mut self, get: impl Fn(&mut Self) -> Decoded<T>, key: impl Fn(&T) -> K) -> Decoded<Vec<T>> {
        let count = self.count()?;
        let mut items: Vec<T> = Vec::new();
        for _ in 0..count {
            let item = get(self)?;
            if items.last().is_some_and(|last| key(last) >= key(&item)) {
                return Err(Fault::NotRising);
            }
            items.push(item);
        }
        Ok(items)
    }

    fn dates(&mut self) -> Decoded<Vec<i32>> {
        self.list(Self::date, |d| *d)
    }

    fn period(&mut self) -> Decoded<Period> {
        let period = (self.time()?, self.time()?);
        if period.0 < period.1 { Ok(period) } else { Err(Fault::Period) }
    }

    fn periods(&mut self) -> Decoded<Vec<Period>> {
        self.list(Self::period, |p| *p)
    }

    fn records<T>(&mut self, count: u32, get: impl Fn(&mut Self) -> Decoded<T>) -> Decoded<Vec<T>> {
        // A record has 18 bytes at least: a link.
        let mut items = Vec::with_capacity((count as usize).min(self.left() / 18));
        for _ in 0..count {
            items.push(get(self)?);
            self.pad()?;
        }
        Ok(items)
    }
}

pub fn decode(bytes: &[u8]) -> Decoded<Model> {
    let r = &mut BitReader::new(bytes);
    let mut counts = [0; 6];
    for count in &mut counts {
        *count = r.count()?;
    }
    let [calendars, activities, links, resources, assignments, expenses] = counts;
    let project = take_project(r)?;
    r.pad()?;
    let model = Model {
        project,
        calendars: r.records(calendars, take_calendar)?,
        activities: r.records(activities, take_activity)?,
        links: r.records(links, take_link)?,
        resources: r.records(resources, take_resource)?,
        assignments: r.records(assignments, take_assignment)?,
        expenses: r.records(expenses, take_expense)?,
    };
    if r.at_end() { Ok(model) } else { Err(Fault::LeftOver) }
}

fn take_project(r: &mut BitReader) -> Decoded<Project> {
    Ok(Project {
        name: r.text()?,
        start: r.date()?,
        currency: r.text()?,
        skipped: r.count()?,
        dangling: r.count()?,
        across: r.count()?,
        fractional: r.count()?,
        data_date: r.optional(BitReader::date)?,
    })
}

fn take_calendar(r: &mut BitReader) -> Decoded<Calendar> {
    let mut c = Calendar { name: r.text()?, ..Calendar::default() };
    for day in &mut c.week {
        *day = r.flag()?;
    }
    for day in &mut c.periods {
        *day = r.periods()?;
    }
    c.holidays = r.dates()?;
    c.extra_days = r.dates()?;
    c.exceptions = r.list(|r| Ok((r.date()?, r.periods()?)), |(date, _)| *date)?;
    Ok(c)
}

fn take_activity(r: &mut BitReader) -> Decoded<Activity> {
    Ok(Activity {
        id: r.text()?,
        name: r.text()?,
        kind: r.code(ACTIVITY_KINDS)?,
        duration: r.number()?,
        minutes: r.optional(BitReader::number)?,
        parent: r.optional(BitReader::count)?,
        notes: r.text()?,
        calendar: r.optional(BitReader::text)?,
        constraint: r.optional(take_constraint)?,
        deadline: r.optional(BitReader::date)?,
        start: r.optional(BitReader::date)?,
        finish: r.optional(BitReader::date)?,
        percent: r.optional(BitReader::number)?,
        duration_type: r.code(DURATION_TYPES)?,
        remaining: r.optional(BitReader::number)?,
        uid: r.text()?,
    })
}

fn take_constraint(r: &mut BitReader) -> Decoded<Constraint> {
    match r.code(8)? {
        0 => Err(Fault::Code),
        1 => Ok(Constraint { code: 1, date: None }),
        code => Ok(Constraint { code, date: Some(r.date()?) }),
    }
}

fn take_link(r: &mut BitReader) -> Decoded<Link> {
    Ok(Link {
        predecessor: r.count()?,
        successor: r.count()?,
        kind: r.code(LINK_KINDS)?,
        lag: r.number()?,
        minutes: r.optional(BitReader::number)?,
        lag_kind: take_lag_kind(r)?,
    })
}

fn take_lag_kind(r: &mut BitReader) -> Decoded<LagKind> {
    Ok(match r.code(3)? {
        0 => LagKind::Working,
        1 => LagKind::Elapsed,
        _ => LagKind::Percent(r.number()?),
    })
}

fn take_resource(r: &mut BitReader) -> Decoded<Resource> {
    Ok(Resource {
        id: r.text()?,
        name: r.text()?,
        kind: r.code(RESOURCE_KINDS)?,
        unit: r.text()?,
        max_units: r.number()?,
        calendar: r.optional(BitReader::text)?,
        price: r.optional(BitReader::number)?,
    })
}

fn take_assignment(r: &mut BitReader) -> Decoded<Assignment> {
    Ok(Assignment {
        activity: r.count()?,
        resource: r.count()?,
        planned: r.number()?,
        actual: r.number()?,
        remaining: r.optional(BitReader::number)?,
        rate: r.optional(BitReader::number)?,
    })
}

fn take_expense(r: &mut BitReader) -> Decoded<Expense> {
    Ok(Expense {
        activity: r.count()?,
        name: r.text()?,
        planned: r.number()?,
        actual: r.number()?,
        remaining: r.optional(BitReader::number)?,
        accrual: r.code(ACCRUALS)?,
    })
}
