//! Models that keep the check's list, and the same with one oddity each; and activities whose parents make every kind of outline.

use super::models::made_up;
use crate::model::{Activity, Assignment, Calendar, Expense, Link, Model, Resource};
use crate::rng::Rng;

/// What is done to a model that keeps the list. Some keep it still.
pub const ODDITIES: [(&str, fn(&mut Model, &mut Rng)); 34] = [
    ("nothing", |_, _| ()),
    ("two equal ids", |m, rng| two(&mut m.activities, rng, |from, to| to.id = from.id.clone())),
    ("two equal ids far apart", |m, _| ends(&mut m.activities, |from, to| to.id = from.id.clone())),
    ("an id that begins as another", |m, rng| two(&mut m.activities, rng, |from, to| to.id = format!("{}1", from.id))),
    ("ids of equal length", |m, rng| two(&mut m.activities, rng, |from, to| to.id = altered(&from.id))),
    ("an empty id", |m, rng| one(&mut m.activities, rng, |a, _| a.id.clear())),
    ("a parent itself", |m, rng| parent(m, rng, |row, _, _| row)),
    ("a parent behind", |m, rng| parent(m, rng, |row, count, rng| rng.range(row.into(), count.into()) as u32)),
    ("a parent just before", |m, rng| parent(m, rng, |row, _, _| row.saturating_sub(1))),
    ("a parent at the count", |m, rng| parent(m, rng, |_, count, _| count)),
    ("a parent past all", |m, rng| parent(m, rng, |_, _, _| u32::MAX)),
    ("a circle of parents", circle),
    ("two equal resource ids", |m, rng| two(&mut m.resources, rng, |from, to| to.id = from.id.clone())),
    ("two equal resource ids far apart", |m, _| ends(&mut m.resources, |from, to| to.id = from.id.clone())),
    ("a resource's id is an activity's", |m, rng| one(&mut m.resources, rng, |r, _| r.id = "A0".into())),
    ("a predecessor at the count", |m, rng| at_count(m, rng, |m| &mut m.links, |l, count| l.predecessor = count)),
    ("a successor at the count", |m, rng| at_count(m, rng, |m| &mut m.links, |l, count| l.successor = count)),
    ("a link to itself", |m, rng| one(&mut m.links, rng, |l, _| l.successor = l.predecessor)),
    ("an assignment's activity at the count", |m, rng| at_count(m, rng, |m| &mut m.assignments, |a, count| a.activity = count)),
    ("an assignment's resource at the count", |m, rng| {
        let count = m.resources.len() as u32;
        one(&mut m.assignments, rng, |a, _| a.resource = count);
    }),
    ("an assignment's resource past all", |m, rng| one(&mut m.assignments, rng, |a, _| a.resource = u32::MAX)),
    ("an expense's activity at the count", |m, rng| at_count(m, rng, |m| &mut m.expenses, |e, count| e.activity = count)),
    ("two equal expenses", |m, rng| two(&mut m.expenses, rng, |from, to| (to.activity, to.name) = (from.activity, from.name.clone()))),
    ("two equal expenses far apart", |m, _| ends(&mut m.expenses, |from, to| (to.activity, to.name) = (from.activity, from.name.clone()))),
    ("expenses equal but for the activity", |m, _| ends(&mut m.expenses, |from, to| to.name = from.name.clone())),
    ("expenses equal but for the name", |m, _| ends(&mut m.expenses, |from, to| (to.activity, to.name) = (from.activity, altered(&from.name)))),
    ("a calendar that nobody has", |m, rng| one(&mut m.activities, rng, |a, rng| a.calendar = Some(nobodys(rng)))),
    ("a calendar that nobody has, of a resource", |m, rng| one(&mut m.resources, rng, |r, rng| r.calendar = Some(nobodys(rng)))),
    ("the last calendar's name", |m, rng| {
        let name = m.calendars.last().map(|c| c.name.clone());
        one(&mut m.activities, rng, |a, _| a.calendar = name);
    }),
    ("two calendars of one name", |m, _| ends(&mut m.calendars, |from, to| to.name = from.name.clone())),
    ("no calendars", |m, _| m.calendars.clear()),
    ("no activities", |m, _| m.activities.clear()),
    ("no resources", |m, _| m.resources.clear()),
    ("no links, assignments and expenses", |m, _| {
        (m.links, m.assignments, m.expenses) = Default::default();
    }),
];

/// A model that keeps the check's list, but for the oddity of that number.
pub fn odd_model(rng: &mut Rng, oddity: usize) -> Model {
    let mut m = sound(rng);
    ODDITIES[oddity % ODDITIES.len()].1(&mut m, rng);
    m
}

/// A model that keeps the check's list, with up to 40 activities; each section has two records at least.
fn sound(rng: &mut Rng) -> Model {
    let most = if rng.one_in(4) { 40 } else { 6 };
    let mut many = || 2 + rng.below(most);
    let (activities, links, resources, assignments, expenses) = (many(), many(), many() / 2 + 1, many(), many());
    let calendars = 2 + rng.below(2);
    let base = made_up(rng);
    let name = |rng: &mut Rng| if rng.one_in(3) { Some(calendar_name(rng.below(calendars))) } else { None };
    Model {
        project: crate::model::Project { start: 20_460, data_date: None, ..base.project },
        calendars: (0..calendars).map(|row| Calendar { name: calendar_name(row), ..plain_calendar(rng) }).collect(),
        activities: (0..activities).map(|row| activity(rng, row, name)).collect(),
        links: (0..links)
            .map(|_| Link { predecessor: rng.below(activities) as u32, successor: rng.below(activities) as u32, ..Link::default() })
            .collect(),
        resources: (0..resources).map(|row| Resource { id: format!("R{row}"), calendar: name(rng), ..Resource::default() }).collect(),
        assignments: (0..assignments)
            .map(|_| Assignment { activity: rng.below(activities) as u32, resource: rng.below(resources) as u32, ..Assignment::default() })
            .collect(),
        expenses: (0..expenses).map(|k| Expense { activity: rng.below(activities) as u32, name: format!("E{k}"), ..Expense::default() }).collect(),
    }
}

fn calendar_name(row: usize) -> String {
    ["Standard", "Standard*", "Nacht", "\u{e9}"][row % 4].into()
}

/// A name beside those of the calendars.
fn nobodys(rng: &mut Rng) -> String {
    rng.pick(&["", "Standar", "standard", "Standard ", "Standard**", "\u{e8}", "Nach"]).into()
}

fn plain_calendar(rng: &mut Rng) -> Calendar {
    let day = rng.range(20_450, 20_470) as i32;
    Calendar { holidays: vec![day], exceptions: vec![(day + 1, vec![(60, 120)])], ..Calendar::default() }
}

fn activity(rng: &mut Rng, row: usize, name: impl Fn(&mut Rng) -> Option<String>) -> Activity {
    let parent = if row == 0 || rng.one_in(3) { None } else { Some(rng.below(row) as u32) };
    let minutes = if rng.one_in(2) { Some(480) } else { None };
    Activity { id: format!("A{row}"), minutes, parent, calendar: name(rng), uid: format!("{row}"), ..Activity::default() }
}

/// A text of the same length that differs in its last character.
fn altered(text: &str) -> String {
    let mut other = text.to_owned();
    let last = other.pop();
    other.push(if last == Some('~') { '!' } else { '~' });
    other
}

fn one<T>(items: &mut [T], rng: &mut Rng, change: impl FnOnce(&mut T, &mut Rng)) {
    let at = rng.below(items.len());
    if let Some(item) = items.get_mut(at) {
        change(item, rng);
    }
}

/// Changes the later of two items by the earlier one.
fn two<T>(items: &mut [T], rng: &mut Rng, change: impl FnOnce(&T, &mut T)) {
    if items.len() > 1 {
        let later = 1 + rng.below(items.len() - 1);
        let (before, rest) = items.split_at_mut(later);
        change(&before[rng.below(later)], &mut rest[0]);
    }
}

/// Changes the last item by the first.
fn ends<T>(items: &mut [T], change: impl FnOnce(&T, &mut T)) {
    if let [first, .., last] = items {
        change(first, last);
    }
}

/// Gives an activity the parent that `of` makes of its row and the count.
fn parent(m: &mut Model, rng: &mut Rng, of: impl FnOnce(u32, u32, &mut Rng) -> u32) {
    let (count, row) = (m.activities.len() as u32, rng.below(m.activities.len()));
    m.activities[row].parent = Some(of(row as u32, count, rng));
}

/// Some activities in a row are each the parent of the next, the last that of the first.
fn circle(m: &mut Model, rng: &mut Rng) {
    let count = m.activities.len();
    let (first, long) = (rng.below(count), 2 + rng.below(3));
    let last = (first + long).min(count) - 1;
    for row in first..=last {
        m.activities[row].parent = Some(if row == first { last } else { row - 1 } as u32);
    }
}

fn at_count<T>(m: &mut Model, rng: &mut Rng, items: impl FnOnce(&mut Model) -> &mut Vec<T>, change: impl FnOnce(&mut T, u32)) {
    let count = m.activities.len() as u32;
    one(items(m), rng, |item, _| change(item, count));
}

// ---- outlines

/// The shapes of the parents of so many activities.
pub const SHAPES: [(&str, fn(u32, u32, &mut Rng) -> Option<u32>); 10] = [
    ("any parents", |_, count, rng| Some(rng.below(count as usize) as u32)),
    ("any parents, some none", |_, count, rng| (!rng.one_in(3)).then(|| rng.below(count as usize) as u32)),
    ("any parents, some out of range", |_, count, rng| {
        Some(if rng.one_in(8) { u32::MAX - rng.below(3) as u32 } else { rng.below(count as usize + 2) as u32 })
    }),
    ("earlier parents", |row, _, rng| (row > 0 && !rng.one_in(6)).then(|| rng.below(row as usize) as u32)),
    ("later parents", |row, count, rng| Some(row + 1 + rng.below((count - row) as usize) as u32)),
    ("parents near by", |row, _, rng| (row + 2).checked_sub(rng.below(5) as u32)),
    ("a chain downward", |row, _, _| row.checked_sub(1)),
    ("a chain upward", |row, count, _| (row + 1 < count).then_some(row + 1)),
    ("one circle", |row, count, _| Some((row + 1) % count)),
    ("all below the last", |_, count, _| Some(count - 1)),
];

/// A model of so many activities with parents of that shape. Their ids differ, but for very many: there the check ends early.
pub fn shaped(rng: &mut Rng, shape: usize, count: u32) -> Model {
    let id = |row: u32| if count > 1000 { String::new() } else { row.to_string() };
    let activity = |row: u32| Activity { id: id(row), parent: SHAPES[shape % SHAPES.len()].1(row, count, rng), ..Activity::default() };
    Model { activities: (0..count).map(activity).collect(), ..Model::default() }
}

/// Each oddity and each shape in turn, packed.
pub fn packed_odd(rng: &mut Rng, k: usize) -> Vec<u8> {
    let kind = k % (ODDITIES.len() + SHAPES.len());
    match kind.checked_sub(ODDITIES.len()) {
        None => odd_model(rng, kind),
        Some(shape) => {
            let count = if rng.one_in(8) { 1 + rng.below(40) } else { 1 + rng.below(8) } as u32;
            shaped(rng, shape, count)
        }
    }
    .encode()
}
