//! A plan's outline, with each activity's dates, deadline and predecessors, how many durations were not whole minutes, and a month of a calendar:
//! `cargo run --offline --example show_plan FILE [MONTH [CALENDAR]]`. FILE: a packed tree or a model, `-` for standard input; MONTH: as 2026-03, by default that of
//! the project's start; CALENDAR: its name, by default the main one.

use std::fmt::Write;
use std::io::Read;
use std::process::ExitCode;

use mspdi::{Activity, ActivityKind, Calendar, Constraint, Date, LagKind, Link, LinkKind, Plan, outline, read};

fn day(date: Date) -> String {
    format!("{}-{:02}-{:02}", date.year, date.month, date.day)
}

// ---- the outline

/// The line on durations that lost seconds, where there are some.
fn fractional(count: u32) -> Option<String> {
    match count {
        0 => None,
        1 => Some("1 duration was not whole minutes".into()),
        n => Some(format!("{n} durations were not whole minutes")),
    }
}

fn length(a: &Activity) -> String {
    match (a.kind, a.minutes) {
        (ActivityKind::Task, None) => format!("{} d", a.duration),
        (ActivityKind::Task, Some(minutes)) => format!("{} h {:02} min", minutes / 60, minutes % 60),
        _ => "milestone".into(),
    }
}

fn constraint(c: Constraint) -> String {
    let (words, date) = match c {
        Constraint::AsLateAsPossible => return "as late as possible".into(),
        Constraint::StartOn(d) => ("start on", d),
        Constraint::FinishOn(d) => ("finish on", d),
        Constraint::StartOnOrAfter(d) => ("start no earlier than", d),
        Constraint::StartOnOrBefore(d) => ("start no later than", d),
        Constraint::FinishOnOrAfter(d) => ("finish no earlier than", d),
        Constraint::FinishOnOrBefore(d) => ("finish no later than", d),
    };
    format!("{words} {}", day(date))
}

/// What is said of an activity behind its name.
fn details(a: &Activity) -> Vec<String> {
    let dated = |word: &str, date: Option<Date>| date.map(|d| format!("{word} {}", day(d)));
    let mut said = vec![length(a)];
    said.extend(dated("begun", a.start));
    said.extend(dated("ended", a.finish));
    said.extend(a.constraint.map(constraint));
    said.extend(dated("due", a.deadline));
    said.extend(a.calendar.as_ref().map(|name| format!("calendar {name}")));
    said
}

fn lag(l: &Link) -> String {
    match (l.lag_kind, l.minutes) {
        (LagKind::Percent(share), _) => format!(" {:+} %", share as f64 / 100.0),
        (LagKind::Elapsed, Some(minutes)) => format!(" {minutes:+} min elapsed"),
        (_, Some(minutes)) => format!(" {minutes:+} min"),
        (_, None) if l.lag == 0 => String::new(),
        (_, None) => format!(" {:+} d", l.lag),
    }
}

/// As planners write it: the predecessor's id, the ends unless they are finish to start, the lag.
fn predecessor(plan: &Plan, l: &Link) -> String {
    let ends = match l.kind {
        LinkKind::FinishToStart => "",
        LinkKind::StartToStart => " SS",
        LinkKind::FinishToFinish => " FF",
        LinkKind::StartToFinish => " SF",
    };
    let id = plan.activities.get(l.predecessor as usize).map_or("?", |a| a.id.as_str());
    format!("{id}{ends}{}", lag(l))
}

fn show_outline(model: &[u8], plan: &Plan) -> Result<String, String> {
    let mut text = String::new();
    for row in outline(model).map_err(|why| why.to_string())? {
        let a = &plan.activities[row.activity as usize];
        let indent = 2 * row.level as usize;
        let _ = writeln!(text, "{:indent$}{} {} ({})", "", a.id, a.name, details(a).join(", "));
        let entering: Vec<String> = plan.links.iter().filter(|l| l.successor == row.activity).map(|l| predecessor(plan, l)).collect();
        if !entering.is_empty() {
            let _ = writeln!(text, "{:indent$}    after {}", "", entering.join(", "));
        }
    }
    Ok(text)
}

// ---- a month

/// How a day of a calendar is marked: not worked, a holiday, an extra day, its own hours.
fn mark(c: &Calendar, date: Date, weekday: usize) -> char {
    if c.holidays.contains(&date) {
        'h'
    } else if c.exceptions.iter().any(|(d, _)| *d == date) {
        '*'
    } else if c.extra_days.contains(&date) {
        '+'
    } else if c.week[weekday] {
        ' '
    } else {
        '-'
    }
}

fn show_month(c: &Calendar, year: i32, month: u32) -> Option<String> {
    let first = Date { year, month, day: 1 }.days()?;
    let mut text = format!("{}, {year}-{month:02} (- not worked, h holiday, + extra day, * own hours)\n", c.name);
    text.push_str("  Mo   Tu   We   Th   Fr   Sa   Su\n");
    // Day 0, 1970-01-01, is a Thursday.
    let lead = (first + 3).rem_euclid(7) as usize;
    text.push_str(&" ".repeat(5 * lead));
    for (at, date) in (0..31).map_while(|k| Date::from_days(first + k)).take_while(|date| date.month == month).enumerate() {
        let weekday = (lead + at) % 7;
        let _ = write!(text, " {:3}{}", date.day, mark(c, date, weekday));
        if weekday == 6 {
            text.push('\n');
        }
    }
    Some(text)
}

// ---- the command

fn month(text: &str) -> Option<(i32, u32)> {
    let (year, month) = text.rsplit_once('-')?;
    Some((year.parse().ok()?, month.parse().ok()?))
}

fn bytes(file: &str) -> std::io::Result<Vec<u8>> {
    let mut bytes = Vec::new();
    match file {
        "-" => std::io::stdin().read_to_end(&mut bytes).map(|_| bytes),
        file => std::fs::read(file),
    }
}

fn show(words: &[String]) -> Result<(), String> {
    let file = words.first().ok_or("show_plan FILE [MONTH [CALENDAR]]")?;
    let given = bytes(file).map_err(|why| format!("{file}: {why}"))?;
    let model = if Plan::decode(&given).is_ok() { given } else { read(&given).map_err(|why| why.to_string())? };
    let plan = Plan::decode(&model).map_err(|why| why.to_string())?;
    println!("{} from {}", plan.project.name, day(plan.project.start));
    if let Some(line) = fractional(plan.project.fractional) {
        println!("{line}");
    }
    print!("{}", show_outline(&model, &plan)?);
    let (year, month) = match words.get(1) {
        Some(text) => month(text).ok_or(format!("no month: {text}"))?,
        None => (plan.project.start.year, plan.project.start.month),
    };
    let calendar = plan.calendar(words.get(2).map(String::as_str)).ok_or("no such calendar")?;
    println!("{}", show_month(calendar, year, month).ok_or("no such month")?);
    Ok(())
}

fn main() -> ExitCode {
    let words: Vec<String> = std::env::args().skip(1).collect();
    match show(&words) {
        Ok(()) => ExitCode::SUCCESS,
        Err(why) => {
            eprintln!("show_plan: {why}");
            ExitCode::FAILURE
        }
    }
}
