//! How many words of `work` serve best. Any number will do: with fewer, questions are answered by scans, and the answers are the same.

/// The most kept tasks.
const MOST_TASKS: usize = 100_000;

/// The days of the years -9999 to 9999.
const ALL_DAYS: usize = 7_304_484;

/// With more exceptions than these a calendar's days are marked over all years.
const MANY_EXCEPTIONS: usize = 32;

/// What a packed tree holds, by the names of its elements, as far as its records are whole.
#[derive(Default)]
struct Elements {
    tasks: usize,
    resources: usize,
    assignments: usize,
    calendars: usize,
    /// The most exceptions of one calendar, of either form, that may have days: an Exception, or a WeekDay of DayType 0, has them by its TimePeriod.
    exceptions: usize,
}

impl Elements {
    fn of(tree: &[u8]) -> Elements {
        let mut n = Elements::default();
        let mut here = 0;
        let mut rest = tree;
        while let [first, second, high, low, behind @ ..] = rest {
            let name_length = usize::from(first & 1) << 8 | usize::from(*second);
            let length = name_length + (usize::from(*high) << 8 | usize::from(*low));
            let Some((element, next)) = behind.split_at_checked(length) else { break };
            match &element[..name_length] {
                b"Task" => n.tasks += 1,
                b"Resource" => n.resources += 1,
                b"Assignment" => n.assignments += 1,
                b"Calendar" => (n.calendars, here) = (n.calendars + 1, 0),
                b"TimePeriod" => here += 1,
                _ => (),
            }
            n.exceptions = n.exceptions.max(here);
            rest = next;
        }
        n
    }
}

/// How many words of `work` serve best when a tree is read: a table of the kept tasks' UIDs (3 words a task), and behind it, one after the other, what the
/// sections need: the calendars by their UIDs (4 words each) with their names (6 words each) and marks of a calendar's days, with a task's place, its parent
/// and its id (8 words a task), or with the ids of resources; then tables of the resources' UIDs and of the expenses.
pub fn work_words(tree: &[u8]) -> usize {
    let n = Elements::of(tree);
    let tasks = n.tasks.clamp(1, MOST_TASKS);
    let days = match n.exceptions {
        0 => 0,
        1..=MANY_EXCEPTIONS => ALL_DAYS / 100,
        _ => ALL_DAYS,
    };
    let named = 4 * n.calendars.max(1) + 1;
    let sections = [named + 6 * n.calendars + days, named + 8 * tasks, named + 6 * n.resources, 3 * (n.resources + n.assignments + 2)];
    3 * tasks + sections.into_iter().max().unwrap_or(0)
}

/// How many words of `work` serve best when a model is checked: a table of the calendars' names with one of the activities' ids behind it, 3 words each, or one
/// of the ids of resources, or of the expenses, whichever is the largest. What the head says is held to what the bytes could hold.
pub fn check_words(model: &[u8]) -> usize {
    let most = model.len() / 8;
    let said = |at: usize| model.get(at..at + 4).map_or(0, |bytes| bytes.iter().fold(0, |n, b| n * 256 + usize::from(*b))).min(most);
    3 * (said(0) + said(4)).max(said(12)).max(said(20))
}
