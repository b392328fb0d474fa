//! The kept tasks of a packed tree, from document 01, and how many of their durations were not whole minutes (document 02, E2).

use crate::duration;
use crate::tree::{self, Element};

/// So many `Task` elements are looked at, kept or not.
const MAX_TASKS: usize = 100_000;

/// The kept tasks of a project, in read order: of the first 100,000 `Task` elements in `Tasks` those that have a UID other than `0` and an
/// OutlineLevel, 1 where none is read, of at least 1.
pub fn kept(project: Element<'_>) -> impl Iterator<Item = Element<'_>> {
    let tasks = project.child("Tasks").into_iter().flat_map(|tasks| tasks.all("Task"));
    tasks.take(MAX_TASKS).filter(|task| task.text_of("UID").is_some_and(|uid| uid != "0") && level(task) >= 1)
}

fn level(task: &Element) -> i64 {
    task.text_of("OutlineLevel").and_then(|text| text.parse().ok()).unwrap_or(1)
}

/// How many kept tasks have a `Duration`, used or not, that gives minutes and was not whole.
pub fn fractional(tree: &[u8]) -> u32 {
    let records = tree::records(tree).unwrap_or_default();
    let is_fractional = |task: &Element| task.text_of("Duration").is_some_and(|text| duration::duration(text).is_fractional());
    Element::root(&records).map_or(0, |root| kept(root).filter(is_fractional).count() as u32)
}
