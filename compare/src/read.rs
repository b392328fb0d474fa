//! What the Rust reads from a packed tree, as the model of document 01. The Rust does not have the fourth count of the project record (document 02,
//! E2): it is worked out beside it.

use std::collections::HashMap;

use mkperth_core as core;
use mkperth_mspxml::Read;

use crate::Refusal;
use crate::model::{Activity, Assignment, Calendar, Constraint, Expense, LagKind, Link, Model, Project, Resource};
use crate::{tasks, tree};

/// The packed model of a packed tree, or the refusal's number.
pub fn read_model(tree: &[u8]) -> Result<Vec<u8>, Refusal> {
    model_of_tree(tree).map(|m| m.encode())
}

pub fn model_of_tree(tree: &[u8]) -> Result<Model, Refusal> {
    tree::refusal(tree, &["Project"])?;
    Ok(model_of(&rust_read(&tree::for_the_rust(tree)), tasks::fractional(tree)))
}

/// The Rust's own `read` of a tree that is not refused.
pub fn rust_read(tree: &[u8]) -> Read {
    quick_xml::with_tree(tree, || mkperth_mspxml::read("")).expect("the Rust refuses a tree that document 01 accepts")
}

fn model_of(read: &Read, fractional: u32) -> Model {
    let p = &read.project;
    let activity_rows = rows(p.activities.iter().map(|a| &a.id));
    let resource_rows = rows(p.resources.iter().map(|r| &r.id));
    let activity = |id: &String| activity_rows[id];
    Model {
        project: project_of(read, fractional),
        calendars: std::iter::once(&p.calendar).chain(&p.calendars).map(calendar_of).collect(),
        activities: p.activities.iter().map(|a| activity_of(a, a.parent.as_ref().map(activity))).collect(),
        links: p.relationships.iter().map(|l| link_of(l, activity(&l.predecessor), activity(&l.successor))).collect(),
        resources: p.resources.iter().map(resource_of).collect(),
        assignments: p.assignments.iter().map(|x| assignment_of(x, activity(&x.activity), &resource_rows)).collect(),
        expenses: p.expenses.iter().map(|e| expense_of(e, activity(&e.activity))).collect(),
    }
}

/// The row of each id; ids are distinct.
fn rows<'a>(ids: impl Iterator<Item = &'a String>) -> HashMap<&'a String, u32> {
    ids.zip(0..).collect()
}

fn project_of(read: &Read, fractional: u32) -> Project {
    let p = &read.project;
    Project {
        name: p.name.clone(),
        start: p.start.days(),
        currency: p.currency.clone(),
        skipped: counted(read, "warn-msp-recurring"),
        dangling: counted(read, "warn-msp-dangling"),
        across: counted(read, "warn-msp-cross"),
        fractional,
        data_date: p.data_date.map(core::Date::days),
    }
}

/// The number in the warning of that key; 0 where it was not given.
fn counted(read: &Read, key: &str) -> u32 {
    let of_key = |warning: &String| warning.strip_prefix(key)?.strip_prefix(" n=")?.parse().ok();
    read.warnings.iter().find_map(of_key).unwrap_or(0)
}

fn calendar_of(c: &core::Calendar) -> Calendar {
    Calendar {
        name: c.name.clone(),
        week: c.week,
        periods: c.periods.clone(),
        holidays: c.holidays.iter().map(|d| d.days()).collect(),
        extra_days: c.extra_days.iter().map(|d| d.days()).collect(),
        exceptions: c.exceptions.iter().map(|(d, periods)| (d.days(), periods.clone())).collect(),
    }
}

fn activity_of(a: &core::Activity, parent: Option<u32>) -> Activity {
    Activity {
        id: a.id.clone(),
        name: a.name.clone(),
        kind: a.kind as u8,
        duration: a.duration,
        minutes: a.duration_minutes,
        parent,
        notes: a.notes.clone(),
        calendar: a.calendar.clone(),
        constraint: a.constraint.map(constraint_of),
        deadline: a.secondary_constraint.and_then(|c| constraint_of(c).date),
        start: a.actual_start.map(core::Date::days),
        finish: a.actual_finish.map(core::Date::days),
        percent: a.percent_complete,
        duration_type: a.duration_type as u8,
        remaining: a.remaining_minutes,
        uid: a.extra.get("msp.uid").cloned().unwrap_or_default(),
    }
}

/// MSPDI's ConstraintType; the reader gives no mandatory one.
fn constraint_of(c: core::Constraint) -> Constraint {
    use core::Constraint as C;
    let (code, date) = match c {
        C::AsLateAsPossible => (1, None),
        C::StartOn(d) | C::MandatoryStart(d) => (2, Some(d)),
        C::FinishOn(d) | C::MandatoryFinish(d) => (3, Some(d)),
        C::StartOnOrAfter(d) => (4, Some(d)),
        C::StartOnOrBefore(d) => (5, Some(d)),
        C::FinishOnOrAfter(d) => (6, Some(d)),
        C::FinishOnOrBefore(d) => (7, Some(d)),
    };
    Constraint { code, date: date.map(core::Date::days) }
}

fn link_of(l: &core::Relationship, predecessor: u32, successor: u32) -> Link {
    let lag_kind = match l.lag_kind {
        core::LagKind::Working => LagKind::Working,
        core::LagKind::Elapsed => LagKind::Elapsed,
        core::LagKind::Percent(share) => LagKind::Percent(share),
    };
    Link { predecessor, successor, kind: l.kind as u8, lag: l.lag, minutes: l.lag_minutes, lag_kind }
}

fn resource_of(r: &core::Resource) -> Resource {
    Resource {
        id: r.id.clone(),
        name: r.name.clone(),
        kind: r.kind as u8,
        unit: r.unit.clone(),
        max_units: r.max_units,
        calendar: r.calendar.clone(),
        price: r.prices.first().map(|p| p.per_unit),
    }
}

fn assignment_of(x: &core::Assignment, activity: u32, resource_rows: &HashMap<&String, u32>) -> Assignment {
    let resource = x.resource.as_ref().expect("the reader gives each assignment a resource");
    Assignment { activity, resource: resource_rows[resource], planned: x.planned, actual: x.actual, remaining: x.remaining, rate: x.rate }
}

fn expense_of(e: &core::Expense, activity: u32) -> Expense {
    Expense { activity, name: e.name.clone(), planned: e.planned, actual: e.actual, remaining: e.remaining, accrual: e.accrual as u8 }
}
