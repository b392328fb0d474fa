//! A large model with the fields that plans have: for the times.

use crate::model::{Activity, Assignment, Calendar, Constraint, Expense, LagKind, Link, Model, Project, Resource};
use crate::rng::Rng;

const NAMES: [&str; 6] = [
    "Reinforcement of the slab, second floor, axes C to F", "Translation of chapter 4, maintenance of the feed unit", "Factory acceptance test",
    "Schaltschrank verdrahten und prüfen", "Delivery", "Proof-reading of the operating manual, second pass",
];

const NOTE: &str = "Bars as drawing 14; the crane is booked for the morning. Check the cover before the inspector comes, and send the photographs to the site office.";

const START: i32 = 20_500;

/// How deep the outline goes.
const DEPTH: usize = 6;

/// So many activities that keep the check's list: parents to a depth of 6, notes on one in five, as many links, half as many assignments, a resource
/// for each 50 activities, an expense for each 20.
pub fn large_model(activities: usize) -> Model {
    let rng = &mut Rng::new(activities as u64);
    let (resources, count) = ((activities / 50).max(1), activities as u32);
    Model {
        project: Project {
            name: "Delivery of line 7".into(),
            start: START,
            currency: "EUR".into(),
            data_date: Some(START + 40),
            ..Project::default()
        },
        calendars: (0..4).map(calendar).collect(),
        activities: with_parents(rng, activities),
        links: (1..count).map(|row| link(rng, row)).collect(),
        resources: (0..resources).map(resource).collect(),
        assignments: (0..count).step_by(2).map(|row| assignment(rng, row, resources)).collect(),
        expenses: (0..count).step_by(20).map(expense).collect(),
    }
}

fn calendar(own: usize) -> Calendar {
    let hours = vec![(480, 720), (780, 1020)];
    Calendar {
        name: ["Standard", "Two shifts", "Site", "Translators"][own % 4].into(),
        week: [true, true, true, true, true, false, false],
        periods: std::array::from_fn(|day| if day < 5 { hours.clone() } else { Vec::new() }),
        holidays: (0..60).map(|k| START + 36 * k).collect(),
        extra_days: (0..12).map(|k| START + 100 * k + 3).collect(),
        exceptions: (0..20).map(|k| (START + 50 * k + 7, vec![(480, 720)])).collect(),
    }
}

/// Each is below the row before it, or up to two levels higher.
fn with_parents(rng: &mut Rng, activities: usize) -> Vec<Activity> {
    let mut open: Vec<u32> = Vec::new();
    (0..activities)
        .map(|row| {
            open.truncate(open.len().saturating_sub(rng.below(3)).min(DEPTH - 1));
            let parent = open.last().copied();
            open.push(row as u32);
            activity(rng, row, parent)
        })
        .collect()
}

fn activity(rng: &mut Rng, row: usize, parent: Option<u32>) -> Activity {
    let day = START + rng.below(900) as i32;
    let days = rng.range(1, 20);
    Activity {
        id: format!("{}", row + 1),
        name: format!("{} {}", rng.pick(&NAMES), row % 97),
        kind: u8::from(rng.one_in(12)),
        duration: days,
        minutes: Some(days * 480),
        parent,
        notes: if rng.one_in(5) { NOTE.into() } else { String::new() },
        calendar: if rng.one_in(10) { Some("Site".into()) } else { None },
        constraint: if rng.one_in(4) { Some(Constraint { code: 4, date: Some(day) }) } else { None },
        deadline: if rng.one_in(10) { Some(day + 40) } else { None },
        start: if rng.one_in(2) { Some(day) } else { None },
        finish: if rng.one_in(4) { Some(day + days as i32) } else { None },
        percent: Some(rng.range(0, 100)),
        duration_type: 1,
        remaining: if rng.one_in(2) { Some(days * 240) } else { None },
        uid: format!("{}", row + 1),
    }
}

fn link(rng: &mut Rng, row: u32) -> Link {
    let lag_kind = if rng.one_in(10) { LagKind::Percent(25) } else { LagKind::Working };
    Link { predecessor: rng.below(row as usize) as u32, successor: row, kind: 0, lag: rng.range(0, 3), minutes: Some(0), lag_kind }
}

fn resource(row: usize) -> Resource {
    Resource {
        id: format!("R{row}"),
        name: format!("Crew {row}"),
        unit: "h".into(),
        max_units: 100,
        calendar: Some("Two shifts".into()),
        price: Some(6_500),
        ..Resource::default()
    }
}

fn assignment(rng: &mut Rng, activity: u32, resources: usize) -> Assignment {
    Assignment { activity, resource: rng.below(resources) as u32, planned: rng.range(60, 9_600), actual: 0, remaining: Some(480), rate: None }
}

fn expense(activity: u32) -> Expense {
    Expense { activity, name: format!("Crane, day {activity}"), planned: 125_050, actual: 0, remaining: None, accrual: 1 }
}
