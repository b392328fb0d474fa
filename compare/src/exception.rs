//! The days of one exception, as the Rust has them.

use mkperth_core::Date;
use mkperth_mspxml::exposed::Tree;

use crate::Refusal;
use crate::tree;

/// Of a tree whose root is an `Exception`: the days of `recurrence_days`, `None` where it gives no rule; of a
/// tree whose root is a `WeekDay`: those of `days_of`.
pub fn days(tree: &[u8]) -> Result<Option<Vec<i32>>, Refusal> {
    tree::refusal(tree, &["Exception", "WeekDay"])?;
    let weekday = tree::records(tree)?.first().is_some_and(|root| root.name == b"WeekDay");
    let root = quick_xml::with_tree(&tree::for_the_rust(tree), Tree::build).map_err(|_| 4u32)?;
    let days = if weekday { Some(root.days_of()) } else { root.recurrence_days() };
    Ok(days.map(|days| days.into_iter().map(Date::days).collect()))
}

pub fn nth_in_month(y: i32, m: u32, item: i64, position: i64) -> Option<i32> {
    mkperth_mspxml::exposed::nth_in_month(y, m, item, position).map(Date::days)
}
