//! Trees at the limits, each too large or too special for the random ones.

use crate::tree::{MAX_ELEMENTS, Node, put_record};

/// The names of the limit trees.
pub const LIMITS: [&str; 20] = [
    "elements", "one-element-more", "tasks", "tasks-all", "depth-64", "depth-65", "depth-65-text", "depth-66", "depth-127", "long-text",
    "long-texts", "long-name", "elements-behind-root", "occurrences", "days-of-a-rule", "days-of-a-week-day", "last-year", "stars", "bases",
    "one-day-often",
];

pub fn limit_tree(name: &str) -> Option<Vec<u8>> {
    Some(match name {
        "elements" => elements(MAX_ELEMENTS, 2),
        "one-element-more" => elements(MAX_ELEMENTS + 1, 2),
        "elements-behind-root" => elements(MAX_ELEMENTS + 1, 1),
        "tasks" => tasks(),
        "tasks-all" => tasks_all(),
        "depth-64" => chain(64, "x"),
        "depth-65" => chain(65, ""),
        "depth-65-text" => chain(65, "x"),
        "depth-66" => chain(66, ""),
        "depth-127" => chain(127, ""),
        "long-text" => Node::new("Project", "").field("Title", &"\u{e9}".repeat(32_767)).packed(),
        "long-texts" => long_texts(),
        "occurrences" => exceptions(&[
            rule("1", "2026-01-01", "2026-01-02", "5000"),
            rule("6", "2026-01-01", "2026-01-02", "5001"),
            rule("4", "2026-01-31", "", "5000"),
        ]),
        "days-of-a-rule" => exceptions(&[century("16"), century("32"), rule("1", "1950-06-15", "2500-01-01", "")]),
        "days-of-a-week-day" => week_days(),
        "last-year" => exceptions(&[
            rule("1", "9999-12-01", "9999-12-31", ""),
            rule("5", "9999-10-01", "9999-12-31", ""),
            rule("6", "9990-01-01", "9999-12-31", "5000"),
        ]),
        "stars" => stars(),
        "bases" => bases(),
        "one-day-often" => one_day_often(),
        "long-name" => Node::new("Project", "").field(&"n".repeat(511), "x").field("Title", "after").packed(),
        _ => return None,
    })
}

/// A project and empty elements at that depth.
fn elements(count: usize, depth: u32) -> Vec<u8> {
    let mut out = Vec::new();
    put_record(&mut out, 1, "Project", "");
    for _ in 1..count {
        put_record(&mut out, depth, "", "");
    }
    out
}

/// 100,001 tasks, each with a duration that is not whole minutes: the last one kept, and one behind the limit. The others have UID 0, so that the
/// Rust is quick.
fn tasks() -> Vec<u8> {
    let task = |uid: &str| Node::new("Task", "").field("UID", uid).field("Duration", "PT30S");
    let mut tasks = vec![task("0"); 99_999];
    tasks.push(task("kept"));
    tasks.push(task("unread"));
    Node::with("Project", vec![Node::with("Tasks", tasks)]).packed()
}

/// 1,500 tasks that are all kept, on many levels, each with a link to the one before and to one that there is not, and with seconds, which are whole
/// minutes in one of four.
fn tasks_all() -> Vec<u8> {
    let link = |uid: usize| Node::new("PredecessorLink", "").field("PredecessorUID", &uid.to_string()).field("LinkLag", "-15");
    let task = |row: usize| {
        let task = Node::new("Task", "").field("UID", &row.to_string()).field("OutlineLevel", &(1 + row % 7).to_string());
        let task = task.field("Duration", ["PT60S", "PT29S", "PT30S", "PT90S"][row % 4]);
        task.child(link(row - 1)).child(link(row + 5_000))
    };
    Node::with("Project", vec![Node::with("Tasks", (1..=1_500).map(task).collect())]).packed()
}

/// Texts of 65,535 bytes in ids, names, notes and UIDs.
fn long_texts() -> Vec<u8> {
    let long = "t".repeat(65_535);
    let task = Node::new("Task", "").field("UID", &long).field("Name", &long).field("Notes", &long);
    let calendar = Node::new("Calendar", "").field("UID", &long).field("Name", &long);
    let resource = Node::new("Resource", "").field("UID", &long).field("Name", &long).field("CalendarUID", &long);
    let tasks = Node::with("Tasks", vec![task.clone(), task.clone().field("CalendarUID", &long)]);
    let calendars = Node::with("Calendars", vec![Node::new("Calendar", ""), calendar.clone(), calendar]);
    Node::with("Project", vec![tasks, calendars, Node::with("Resources", vec![resource.clone(), resource])]).packed()
}

/// A rule of a type, daily or on every weekday; by occurrences where there are some.
fn rule(kind: &str, from: &str, to: &str, occurrences: &str) -> Node {
    let period = Node::new("TimePeriod", "").field("FromDate", from).field("ToDate", to);
    let x = Node::new("Exception", "").field("Type", kind).field("DaysOfWeek", "127").field("MonthDay", "31").field("MonthItem", "3");
    let x = x.field("MonthPosition", "4").child(period);
    if occurrences.is_empty() { x } else { x.field("EnteredByOccurrences", "1").field("Occurrences", occurrences) }
}

/// A weekday of every second week from a Sunday on: Thursday (16) falls on the last day that counts, 36,600 after the first, and Friday (32) a day later.
fn century(weekday: &str) -> Node {
    let period = Node::new("TimePeriod", "").field("FromDate", "1950-06-18").field("ToDate", "2060-01-01");
    Node::new("Exception", "").field("Type", "6").field("Period", "2").field("DaysOfWeek", weekday).child(period)
}

fn hours() -> Node {
    Node::with("WorkingTimes", vec![Node::new("WorkingTime", "").field("FromTime", "08:00").field("ToTime", "00:00")])
}

/// A calendar with these exceptions as days off, and one over it where they are worked, with hours.
fn exceptions(rules: &[Node]) -> Vec<u8> {
    let worked = rules.iter().map(|rule| rule.clone().field("DayWorking", "1").child(hours())).collect();
    let first = Node::new("Calendar", "").field("UID", "1").child(Node::with("Exceptions", rules.to_vec()));
    let second = Node::new("Calendar", "").field("UID", "2").field("BaseCalendarUID", "1").child(Node::with("Exceptions", worked));
    let third = Node::new("Calendar", "").field("UID", "3").field("BaseCalendarUID", "2");
    Node::with("Project", vec![Node::with("Calendars", vec![first, second, third])]).packed()
}

/// Days of the old form at the most that count, and one more; a range that is reversed.
fn week_days() -> Vec<u8> {
    let day = |from: &str, to: &str| {
        let period = Node::new("TimePeriod", "").field("FromDate", from).field("ToDate", to);
        Node::new("WeekDay", "").field("DayType", "0").field("DayWorking", "0").child(period)
    };
    let days =
        vec![day("2026-01-01", "2036-01-09"), day("2046-01-01", "2056-01-10"), day("2026-05-05", "2026-05-01"), day("9999-12-01", "9999-12-31")];
    Node::with("Project", vec![Node::with("Calendars", vec![Node::new("Calendar", "").child(Node::with("WeekDays", days))])]).packed()
}

/// 150 tasks, resources and calendars that all want one id or name.
fn stars() -> Vec<u8> {
    let many = |section: &str, name: &str, fields: &[(&str, &str)]| {
        let one = |row: usize| fields.iter().fold(Node::new(name, "").field("UID", &row.to_string()), |node, (name, text)| node.field(name, text));
        Node::with(section, (1..=150).map(one).collect())
    };
    let tasks = many("Tasks", "Task", &[("WBS", "1"), ("CalendarUID", "7")]);
    let resources = many("Resources", "Resource", &[("ID", "1"), ("Name", "n"), ("CalendarUID", "9")]);
    Node::with("Project", vec![tasks, resources, many("Calendars", "Calendar", &[("Name", "n")])]).packed()
}

/// Calendars each over the one before, over the one after, over itself and over one that there is not.
fn bases() -> Vec<u8> {
    let calendar = |uid: usize, base: usize| {
        let from = format!("2026-01-{:02}", 1 + uid % 28);
        let days = Node::with("Exceptions", vec![rule("1", &from, "2026-03-31", "").field("DayWorking", "1").child(hours())]);
        Node::new("Calendar", "").field("UID", &uid.to_string()).field("BaseCalendarUID", &base.to_string()).child(days)
    };
    let chain = (1..=40).map(|uid| calendar(uid, uid - 1));
    let forward = (50..=60).map(|uid| calendar(uid, uid + 1));
    let own = [calendar(70, 70), calendar(71, 5), calendar(71, 60), calendar(72, 71)];
    Node::with("Project", vec![Node::with("Calendars", chain.chain(forward).chain(own).collect())]).packed()
}

/// 200 exceptions of the same days, with hours and without, the last of which counts.
fn one_day_often() -> Vec<u8> {
    let one = |row: usize| {
        let x = rule("1", "2026-01-01", "2026-02-01", "").field("DayWorking", if row % 5 == 0 { "0" } else { "1" });
        if row.is_multiple_of(3) { x } else { x.child(hours()) }
    };
    let calendar = Node::new("Calendar", "").child(Node::with("Exceptions", (0..200).map(one).collect()));
    Node::with("Project", vec![Node::with("Calendars", vec![calendar])]).packed()
}

/// A project with elements below one another to that depth, the last one with a text.
fn chain(depth: u32, text: &str) -> Vec<u8> {
    let mut out = Vec::new();
    put_record(&mut out, 1, "Project", "");
    for at in 2..=depth {
        let head = at << 25 | 4 << 16 | if at == depth { text.len() as u32 } else { 0 };
        out.extend_from_slice(&head.to_be_bytes());
        out.extend_from_slice(b"Name");
    }
    out.extend_from_slice(text.as_bytes());
    out
}
