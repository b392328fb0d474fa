//! The check, from document 01, "The check's list".

use std::collections::HashSet;
use std::hash::Hash;

use crate::Refusal;
use crate::model::{self, Model};

/// Refusal 6 where the bytes are no model, 7 where the list is broken.
pub fn check(bytes: &[u8]) -> Result<(), Refusal> {
    let model = model::decode(bytes).map_err(|_| 6u32)?;
    if keeps_list(&model) { Ok(()) } else { Err(7) }
}

pub fn keeps_list(m: &Model) -> bool {
    distinct(m.activities.iter().map(|a| &a.id))
        && parents_before(m)
        && distinct(m.resources.iter().map(|r| &r.id))
        && rows_in_range(m)
        && calendars_named(m)
        && distinct(m.expenses.iter().map(|e| (e.activity, &e.name)))
}

fn distinct<T: Eq + Hash>(items: impl Iterator<Item = T>) -> bool {
    let mut seen = HashSet::new();
    items.into_iter().all(|item| seen.insert(item))
}

fn parents_before(m: &Model) -> bool {
    m.activities.iter().enumerate().all(|(row, a)| a.parent.is_none_or(|p| (p as usize) < row))
}

fn rows_in_range(m: &Model) -> bool {
    let activity = |row: u32| (row as usize) < m.activities.len();
    let resource = |row: u32| (row as usize) < m.resources.len();
    m.links.iter().all(|l| activity(l.predecessor) && activity(l.successor))
        && m.assignments.iter().all(|x| activity(x.activity) && resource(x.resource))
        && m.expenses.iter().all(|e| activity(e.activity))
}

fn calendars_named(m: &Model) -> bool {
    let names: HashSet<&String> = m.calendars.iter().map(|c| &c.name).collect();
    let mut used = m.activities.iter().filter_map(|a| a.calendar.as_ref()).chain(m.resources.iter().filter_map(|r| r.calendar.as_ref()));
    used.all(|name| names.contains(name))
}
