//! Random models: those that the Rust reads, made-up ones that a reader never gives, and damaged ones.

use super::{damaged, project};
use crate::model::{
    self, ACCRUALS, ACTIVITY_KINDS, Activity, Assignment, Calendar, Constraint, DAY_END, DURATION_TYPES, Expense, FIRST_DAY, LAST_DAY, LINK_KINDS,
    LagKind, Link, Model, Period, Project, RESOURCE_KINDS, Resource,
};
use crate::read;
use crate::rng::Rng;

/// A packed model; about one in three does not decode.
pub fn packed_model(rng: &mut Rng) -> Vec<u8> {
    let bytes = match rng.below(20) {
        0..=5 => read_one(rng),
        18 => packed_old(rng),
        19 => (0..rng.below(140)).map(|_| rng.next() as u8 & rng.next() as u8 & rng.next() as u8).collect(),
        6..=9 => made_up(rng).encode(),
        _ => decoding(rng),
    };
    if rng.one_in(4) { damaged(rng, &bytes) } else { bytes }
}

/// A made-up model that decodes.
fn decoding(rng: &mut Rng) -> Vec<u8> {
    loop {
        let bytes = made_up(rng).encode();
        if model::decode(&bytes).is_ok() {
            return bytes;
        }
    }
}

/// A model that the Rust reads from a random tree.
pub fn read_one(rng: &mut Rng) -> Vec<u8> {
    loop {
        if let Ok(model) = read::read_model(&project::packed_tree(rng)) {
            return model;
        }
    }
}

/// A model in the form before E2 (document 02), which had no fourth count: one that the Rust reads, a made-up one, or a project alone. It is decoded
/// as any bytes are.
pub fn packed_old(rng: &mut Rng) -> Vec<u8> {
    let model = match rng.below(3) {
        0 => model::decode(&read_one(rng)).unwrap_or_default(),
        1 => made_up(rng),
        _ => Model { project: project_record(rng), ..Model::default() },
    };
    old_form(&model)
}

/// The model without the four bytes of its fourth count. They stand behind the six counts of the head, the name and the currency, each behind its
/// length, the start, and three counts.
pub fn old_form(model: &Model) -> Vec<u8> {
    let mut bytes = model.encode();
    let at = 24 + 4 + model.project.name.len() + 4 + 4 + model.project.currency.len() + 12;
    bytes.drain(at..at + 4);
    bytes
}

/// A model whose parts are mostly in order.
pub fn made_up(rng: &mut Rng) -> Model {
    let (activities, resources) = (rng.below(9), rng.below(4));
    let mut many = |most: usize| rng.below(most + 1);
    let (calendars, links, assignments, expenses) = (many(2), many(3), many(3), many(3));
    Model {
        project: project_record(rng),
        calendars: (0..calendars).map(|_| calendar(rng)).collect(),
        activities: (0..activities).map(|row| activity(rng, row, activities)).collect(),
        links: (0..links).map(|_| link(rng, activities)).collect(),
        resources: (0..resources).map(|row| resource(rng, row)).collect(),
        assignments: (0..assignments).map(|_| assignment(rng, activities, resources)).collect(),
        expenses: (0..expenses).map(|_| expense(rng, activities)).collect(),
    }
}

fn optional<T>(rng: &mut Rng, value: impl FnOnce(&mut Rng) -> T) -> Option<T> {
    if rng.one_in(2) { Some(value(rng)) } else { None }
}

fn text(rng: &mut Rng) -> String {
    rng.pick(&["", "a", "Standard", "\u{e9}", "\u{1f600}", "1", "2"]).into()
}

fn number(rng: &mut Rng) -> i64 {
    match rng.below(3) {
        0 => rng.next() as i64,
        1 => *rng.pick(&[&i64::MIN, &i64::MAX, &-1]),
        _ => rng.range(-5, 5),
    }
}

/// A date; at times the first, the last, or one outside the years.
fn date(rng: &mut Rng) -> i32 {
    match rng.below(60) {
        0 => FIRST_DAY,
        1 => LAST_DAY,
        2 => *rng.pick(&[&(FIRST_DAY - 1), &(LAST_DAY + 1), &i32::MIN, &i32::MAX]),
        3..=9 => rng.range(FIRST_DAY.into(), LAST_DAY.into()) as i32,
        _ => rng.range(20_450, 20_470) as i32,
    }
}

/// A row below `count`, mostly.
fn row(rng: &mut Rng, count: usize) -> u32 {
    match rng.below(40) {
        0 => count as u32,
        1 => u32::MAX,
        _ => rng.below(count) as u32,
    }
}

/// A code below `kinds`, mostly.
fn code(rng: &mut Rng, kinds: u8) -> u8 {
    if rng.one_in(60) { rng.below(16) as u8 } else { rng.below(kinds.into()) as u8 }
}

fn project_record(rng: &mut Rng) -> Project {
    Project {
        name: text(rng),
        start: date(rng),
        currency: text(rng),
        skipped: rng.below(3) as u32,
        dangling: rng.next() as u32,
        across: rng.below(3) as u32,
        fractional: if rng.one_in(3) { rng.next() as u32 } else { rng.below(3) as u32 },
        data_date: optional(rng, date),
    }
}

/// Items that mostly rise.
fn rising<T: Ord>(rng: &mut Rng, make: impl Fn(&mut Rng) -> T) -> Vec<T> {
    let mut items: Vec<T> = (0..rng.below(4)).map(|_| make(rng)).collect();
    if !rng.one_in(30) {
        items.sort_unstable();
        items.dedup();
    }
    items
}

fn period(rng: &mut Rng) -> Period {
    let (a, b) = (rng.range(0, DAY_END.into()) as u16, rng.range(0, DAY_END.into()) as u16);
    match rng.below(60) {
        0 => (a, a),
        1 => (b.max(a), a.min(b)),
        2 => (a, DAY_END + 1 + rng.below(600) as u16),
        3 => (0, DAY_END),
        _ if a == b => (0, 1),
        _ => (a.min(b), a.max(b)),
    }
}

fn periods(rng: &mut Rng) -> Vec<Period> {
    rising(rng, period)
}

fn calendar(rng: &mut Rng) -> Calendar {
    let mut exceptions = rising(rng, |rng| (date(rng), periods(rng)));
    if !rng.one_in(10) {
        exceptions.dedup_by_key(|(date, _)| *date);
    }
    Calendar {
        name: text(rng),
        week: std::array::from_fn(|_| rng.one_in(2)),
        periods: std::array::from_fn(|_| if rng.one_in(2) { periods(rng) } else { Vec::new() }),
        holidays: rising(rng, date),
        extra_days: rising(rng, date),
        exceptions,
    }
}

fn activity(rng: &mut Rng, own: usize, count: usize) -> Activity {
    let parent = match rng.below(4) {
        0 => None,
        1 => Some(row(rng, count)),
        _ if own == 0 => None,
        _ => Some(rng.below(own) as u32),
    };
    Activity {
        id: if rng.one_in(12) { text(rng) } else { format!("A{own}") },
        name: text(rng),
        kind: code(rng, ACTIVITY_KINDS),
        duration: number(rng),
        minutes: optional(rng, number),
        parent,
        notes: text(rng),
        calendar: if rng.one_in(4) { Some(text(rng)) } else { None },
        constraint: optional(rng, constraint),
        deadline: optional(rng, date),
        start: optional(rng, date),
        finish: optional(rng, date),
        percent: optional(rng, number),
        duration_type: code(rng, DURATION_TYPES),
        remaining: optional(rng, number),
        uid: text(rng),
    }
}

fn constraint(rng: &mut Rng) -> Constraint {
    let code = if rng.one_in(60) { rng.below(16) } else { 1 + rng.below(7) } as u8;
    Constraint { code, date: if code == 1 { None } else { Some(date(rng)) } }
}

fn link(rng: &mut Rng, activities: usize) -> Link {
    let lag_kind = match rng.below(3) {
        0 => LagKind::Working,
        1 => LagKind::Elapsed,
        _ => LagKind::Percent(number(rng)),
    };
    Link {
        predecessor: row(rng, activities),
        successor: row(rng, activities),
        kind: code(rng, LINK_KINDS),
        lag: number(rng),
        minutes: optional(rng, number),
        lag_kind,
    }
}

fn resource(rng: &mut Rng, own: usize) -> Resource {
    Resource {
        id: if rng.one_in(8) { text(rng) } else { format!("R{own}") },
        name: text(rng),
        kind: code(rng, RESOURCE_KINDS),
        unit: text(rng),
        max_units: number(rng),
        calendar: if rng.one_in(4) { Some(text(rng)) } else { None },
        price: optional(rng, number),
    }
}

fn assignment(rng: &mut Rng, activities: usize, resources: usize) -> Assignment {
    Assignment {
        activity: row(rng, activities),
        resource: row(rng, resources),
        planned: number(rng),
        actual: number(rng),
        remaining: optional(rng, number),
        rate: optional(rng, number),
    }
}

fn expense(rng: &mut Rng, activities: usize) -> Expense {
    Expense {
        activity: row(rng, activities),
        name: text(rng),
        planned: number(rng),
        actual: number(rng),
        remaining: optional(rng, number),
        accrual: code(rng, ACCRUALS),
    }
}
