//! Document 01's examples, and the parts written from the paper held against the Rust.

use std::collections::HashSet;

use mkperth_core as core;
use mkperth_mspxml::exposed;

use crate::duration::{self, Duration};
use crate::leaf::{self, Kind};
use crate::model::{self, Activity, FIRST_DAY, Fault, LAST_DAY, Model, Project};
use crate::number::{self, Number};
use crate::rng::Rng;
use crate::tree::{self, Element, Node};
use crate::{check, exception, generate, hex, outline, read, rule, sheet, tasks};

#[derive(Default)]
struct Tests {
    passed: u64,
    failed: u64,
}

impl Tests {
    /// Counts one test; a failed one is printed.
    fn equal<T: PartialEq + std::fmt::Debug>(&mut self, what: &str, got: T, wanted: T) {
        if got == wanted {
            self.passed += 1;
        } else {
            self.failed += 1;
            println!("FAILED {what:.2000}: got {got:?}, wanted {wanted:?}");
        }
    }
}

/// Runs everything, with that many random inputs of each kind; whether all passed.
pub fn run(count: u64) -> bool {
    let t = &mut Tests::default();
    whole_case(t);
    refusals(t);
    texts(t);
    dates(t);
    levels(t);
    links(t);
    recurrence(t);
    ruled_out(t);
    yeses(t);
    fractional(t);
    old_forms(t);
    limits(t);
    fixed_durations(t);
    random_numbers(t, count);
    random_durations(t, count);
    random_rules(t, count);
    random_trees(t, count);
    random_models(t, count);
    println!("{} passed, {} failed", t.passed, t.failed);
    t.failed == 0
}

// ---- document 01's examples

const WHOLE: [u8; 11] = *b"\x02\x07\x00\x00Project";

fn whole_case(t: &mut Tests) {
    let wanted = [&[0, 0, 0, 1], &[0; 49][..], &[0, 0, 0, 8], b"Standard", &[0xF8], &[0; 40]].concat();
    t.equal("the whole case's length", wanted.len(), 106);
    t.equal("the whole case", read::read_model(&WHOLE), Ok(wanted));
}

fn refusals(t: &mut Tests) {
    t.equal("one byte 00", read::read_model(&[0]), Err(1));
    t.equal("02 01 00 00 FF", read::read_model(&[2, 1, 0, 0, 0xFF]), Err(2));
    t.equal("no bytes as a tree", read::read_model(&[]), Err(4));
    let long = project(vec![Node::new("x", "").field("Work", "PT1234567890123456H")]);
    t.equal("PT1234567890123456H", read::read_model(&long), Err(5));
    let behind_root = [&WHOLE[..], b"\x02\x04\x00\x11Cost12345678901234567"].concat();
    t.equal("a long number behind the root", read::read_model(&behind_root), read::read_model(&WHOLE));
    t.equal("no bytes as a model", check::check(&[]), Err(6));
    let one = Activity { id: "1".into(), ..Activity::default() };
    t.equal("two activities 1", check::check(&Model { activities: vec![one.clone(), one], ..Model::default() }.encode()), Err(7));
    t.equal("time 1441", leaf::time_text(1441), Err(8));
    t.equal("calendar row 1", sheet::sheet(&read::read_model(&WHOLE).unwrap_or_default(), 1, 0), Err(8));
}

fn texts(t: &mut Tests) {
    let cases = [
        (Kind::Duration, "PT30S", "1 part"),
        (Kind::Duration, "PT29S", "0 part"),
        (Kind::Duration, "PT60S", "1"),
        (Kind::Duration, "PT1H2H", "120"),
        (Kind::Duration, "PT16666666H40M", "1000000000"),
        (Kind::Duration, "PT16666666H41M", "none"),
        (Kind::Duration, "P1DT1H", "1500"),
        (Kind::Duration, "P", "0"),
        (Kind::Duration, "PT", "0"),
        (Kind::Duration, "P1Y", "none"),
        (Kind::Duration, "PT5", "none"),
        (Kind::Duration, "PT-1H", "none"),
        (Kind::Duration, "PT1234567890123456H", "long"),
        (Kind::Time, "24:00", "1440"),
        (Kind::Time, "24:01", "none"),
        (Kind::Time, "1093:00", "none"),
        (Kind::Time, "8", "480"),
        (Kind::Date, "2024-02-29", "19782"),
        (Kind::Date, "1970-01-01", "0"),
        (Kind::Date, "2026-3-5T08:00", "none"),
        (Kind::Date, "+2026-+1-+5", "none"),
        (Kind::Date, "+2026-1-+5", "20458"),
        (Kind::Number, "inf", "none"),
        (Kind::Number, "nan", "none"),
        (Kind::Number, "1e22", "4480f0cf064dd592"),
        (Kind::Number, "1e23", "long"),
    ];
    for (kind, text, wanted) in cases {
        t.equal(text, leaf::answer(kind, text.as_bytes()), wanted.to_string());
    }
    for minutes in [0, 1, 59, 60, 61, 480, 1440, 99_999, leaf::MAX_MINUTES] {
        let text = leaf::duration_text(minutes).unwrap_or_default();
        t.equal(&text, exposed::duration_of(&text), Some(minutes));
    }
    for minutes in 0..=1440u32 {
        let text = leaf::time_text(minutes).unwrap_or_default();
        t.equal(&text, exposed::time_of(&text).map(u32::from), Some(minutes));
    }
}

fn dates(t: &mut Tests) {
    let first = core::Date::from_ymd(-9999, 1, 1).map(core::Date::days);
    let last = core::Date::from_ymd(9999, 12, 31).map(core::Date::days);
    t.equal("the first and the last day", (first, last), (Some(FIRST_DAY), Some(LAST_DAY)));
    t.equal("the day before", core::Date::from_days(FIRST_DAY - 1), None);
    t.equal("the day after", core::Date::from_days(LAST_DAY + 1), None);
    t.equal("2024-02-29 is a Thursday", sheet::weekday(19_782), 3);
}

/// A packed project with these children.
fn project(children: Vec<Node>) -> Vec<u8> {
    Node::with("Project", children).packed()
}

fn model_of(children: Vec<Node>) -> Model {
    read::model_of_tree(&project(children)).unwrap_or_default()
}

fn task(uid: &str) -> Node {
    Node::new("Task", "").field("UID", uid)
}

fn levels(t: &mut Tests) {
    let tasks = [1, 3, 2, 1].iter().zip(1..).map(|(level, uid): (&i32, i32)| task(&uid.to_string()).field("OutlineLevel", &level.to_string()));
    let model = model_of(vec![Node::with("Tasks", tasks.collect())]);
    let parents: Vec<_> = model.activities.iter().map(|a| a.parent).collect();
    t.equal("levels 1, 3, 2, 1: parents", parents, vec![None, Some(0), Some(0), None]);
    t.equal("levels 1, 3, 2, 1: outline", outline::rows(&model), vec![(0, 1), (1, 2), (2, 2), (3, 1)]);
}

fn links(t: &mut Tests) {
    let lag = |text: &str| {
        let link = Node::new("PredecessorLink", "").field("PredecessorUID", "1").field("LinkLag", text).field("LagFormat", "7");
        let model = model_of(vec![Node::new("MinutesPerDay", "480"), Node::with("Tasks", vec![task("1"), task("2").child(link)])]);
        model.links.first().map(|l| (l.lag, l.minutes))
    };
    t.equal("LinkLag -15 in format 7", lag("-15"), Some((0, Some(-1))));
    t.equal("LinkLag -4801 with 480 a day", lag("-4801"), Some((-1, None)));
}

fn exception(fields: &[(&str, &str)], from: &str, to: &str) -> Node {
    let period = Node::new("TimePeriod", "").field("FromDate", from).field("ToDate", to);
    fields.iter().fold(Node::new("Exception", ""), |x, (name, text)| x.field(name, text)).child(period)
}

fn recurrence(t: &mut Tests) {
    let dates = |x: &Node| {
        let days = exception::days(&x.packed()).ok().flatten().unwrap_or_default();
        days.into_iter().filter_map(core::Date::from_days).map(|d| d.to_string()).collect::<Vec<_>>()
    };
    let x = exception(&[("Type", "5"), ("MonthItem", "4"), ("MonthPosition", "0")], "2026-01-01", "2026-03-31");
    t.equal("type 5, item 4, position 0", dates(&x), ["2026-01-05", "2026-02-02", "2026-03-02"].map(String::from).to_vec());
    let x = exception(&[("Type", "6"), ("DaysOfWeek", "2"), ("Period", "2")], "2026-01-01", "2026-01-31");
    t.equal("type 6, mask 2, Period 2", dates(&x), ["2026-01-12", "2026-01-26"].map(String::from).to_vec());
    let x = exception(&[("Type", "4"), ("MonthDay", "31")], "2026-01-31", "2026-05-31");
    t.equal("type 4, day 31", dates(&x).len(), 3);
    let x = exception(&[("Type", "2"), ("Month", "9223372036854775807")], "2026-01-31", "2026-05-31");
    t.equal("Month at the largest i64", exception::days(&x.packed()), Ok(None));
    for item in 0..=9 {
        t.equal("December 9999", exception::nth_in_month(9999, 12, item, 0), None);
    }
}

fn ruled_out(t: &mut Tests) {
    let link = Node::new("PredecessorLink", "").field("PredecessorUID", "1");
    let model = model_of(vec![Node::with("Tasks", vec![task("1"), task("1"), task("2").child(link)])]);
    t.equal("the last of two equal UIDs", model.links.first().map(|l| l.predecessor), Some(1));
    let times = Node::with("WorkingTime", vec![Node::new("FromTime", "20:00"), Node::new("ToTime", "00:00")]);
    let day = Node::new("WeekDay", "").field("DayType", "2").field("DayWorking", "1").child(Node::with("WorkingTimes", vec![times]));
    let calendar = Node::with("Calendar", vec![Node::with("WeekDays", vec![day])]);
    let model = model_of(vec![Node::with("Calendars", vec![calendar])]);
    t.equal("ToTime 00:00", model.calendars.first().map(|c| c.periods[0].clone()), Some(vec![(1200, 1440)]));
}

/// Each field of a yes, by its text: whether it counts as one. And what is no such field stays as it is.
fn yeses(t: &mut Tests) {
    let saturday = |text: &str| {
        let day = Node::new("WeekDay", "").field("DayType", "7").field("DayWorking", text);
        model_of(vec![Node::with("Calendars", vec![Node::with("Calendar", vec![Node::with("WeekDays", vec![day])])])]).calendars[0].week[5]
    };
    let one_day = |text: &str| {
        let x = exception(&[("EnteredByOccurrences", text)], "9999-12-29", "9999-12-31");
        exception::days(&x.packed()).ok().flatten().is_some_and(|days| days.len() == 1)
    };
    let milestone = |text: &str| model_of(vec![Node::with("Tasks", vec![task("1").field("Milestone", text)])]).activities[0].kind == 1;
    let across = |text: &str| {
        let link = Node::new("PredecessorLink", "").field("PredecessorUID", "1").field("CrossProject", text);
        model_of(vec![Node::with("Tasks", vec![task("1").child(link)])]).project.across == 1
    };
    let each = |text: &str| [saturday(text), one_day(text), milestone(text), across(text)];
    for text in ["1", "true", " true\n"] {
        t.equal(text, each(text), [true; 4]);
    }
    for text in ["0", "false", "TRUE", "True", "truer", "tru", "yes", "01", "1 1", ""] {
        t.equal(text, each(text), [false; 4]);
    }
    let asked = |title: &str, yes: &str| project(vec![Node::new("Title", title), Node::new("Milestone", yes), Node::new("DayWorking", "truer")]);
    t.equal("`1` for `true` in a yes alone", tree::for_the_rust(&asked("true", " true ")).to_vec(), asked("true", " 1 "));
    t.equal("a tree without it stays", tree::for_the_rust(&asked("true", "1")).to_vec(), asked("true", "1"));
    // The tree of docs/DIFFERENCES.md.
    let smallest = b"\x02\x07\0\0Project\x04\x05\0\0Tasks\x06\x04\0\0Task\x08\x03\0\x01UID1\x08\x09\0\x04Milestonetrue";
    t.equal("the Rust reads no yes in `true`", read::rust_read(smallest).project.activities[0].kind as u8, 0);
    t.equal("a milestone by `true`", read::model_of_tree(smallest).map(|m| m.activities[0].kind), Ok(1));
}

/// How many kept tasks have a duration that gives minutes and was not whole.
fn fractional(t: &mut Tests) {
    let count = |tasks: Vec<Node>| model_of(vec![Node::with("Tasks", tasks)]).project.fractional;
    let one = |text: &str| count(vec![task("1").field("Duration", text)]);
    for text in ["PT30S", "PT29S", "PT90S", "PT0.5M", "PT1.5S", "P0.0001D", "PT0.1M", " PT30S\n", "PT60S30S", "PT1M1e-14S", "PT999999999.5M"] {
        t.equal(text, one(text), 1);
    }
    // Whole in decimals, and not in f64: 122.99999999999999 and 0.9999999999999999.
    for text in ["PT2.05H", "PT0.01H0.3M6S"] {
        t.equal(text, one(text), 1);
    }
    for text in ["PT60S", "PT8H0M0S", "PT0.1H54M", "PT0.1M54S", "PT1M1e-20S", "P", "PT-0S", "PT30S60S", "", " ", "PT30", "PT-30S", "30"] {
        t.equal(text, one(text), 0);
    }
    for text in ["PT1000000000.5M", "PT1000000000M30S", "P694445DT30S"] {
        t.equal(text, one(text), 0);
    }
    let part = || task("1").field("Duration", "PT30S");
    t.equal("each kept task counts", count(vec![part(), part(), task("2")]), 2);
    t.equal("a milestone, and elapsed time", count(vec![part().field("Milestone", "1"), part().field("DurationFormat", "8")]), 2);
    t.equal("a task of UID 0", count(vec![task("0").field("Duration", "PT30S")]), 0);
    t.equal("a task without a UID", count(vec![Node::new("Task", "").field("Duration", "PT30S")]), 0);
    t.equal("OutlineLevel 0", count(vec![part().field("OutlineLevel", "0")]), 0);
    t.equal("an OutlineLevel that is not read", count(vec![part().field("OutlineLevel", "x")]), 1);
    t.equal("the first Duration counts", count(vec![part().field("Duration", "PT60S")]), 1);
    t.equal("the second does not", count(vec![task("1").field("Duration", "PT60S").field("Duration", "PT30S")]), 0);
    t.equal("a blank first Duration", count(vec![task("1").field("Duration", " ").field("Duration", "PT30S")]), 0);
    t.equal("a Duration further down", count(vec![task("1").child(Node::new("x", "").field("Duration", "PT30S"))]), 0);
    t.equal("other durations", count(vec![task("1").field("RemainingDuration", "PT30S").field("Work", "PT30S")]), 0);
    let second = model_of(vec![Node::with("Tasks", vec![]), Node::with("Tasks", vec![part()])]);
    t.equal("a second Tasks", second.project.fractional, 0);
}

/// A model in the form before E2 is judged as any bytes are.
fn old_forms(t: &mut Tests) {
    let old = generate::old_form(&read::model_of_tree(&WHOLE).unwrap_or_default());
    t.equal("the whole case before", &old, &[&[0, 0, 0, 1], &[0; 45][..], &[0, 0, 0, 8], b"Standard", &[0xF8], &[0; 40]].concat());
    t.equal("the whole case before, decoded", model::decode(&old), Err(Fault::PadBit));
    // Of a data date the flag and all but the last bit are taken for the count, and the last bit for the flag. The rest stands where it should.
    let dated = |date: &str| model_of(vec![Node::new("StatusDate", date), Node::with("Tasks", vec![task("1"), task("2")])]);
    let even = dated("2026-03-02");
    t.equal("a data date", even.project.data_date, Some(20_514));
    let project = Project { fractional: 0x8000_0000 + 10_257, data_date: None, ..even.project.clone() };
    t.equal("an even data date before", model::decode(&generate::old_form(&even)), Ok(Model { project, ..even }));
    t.equal("an odd data date before", check::check(&generate::old_form(&dated("2026-03-03"))), Err(6));
}

fn limits(t: &mut Tests) {
    let wanted = |name| match name {
        "one-element-more" | "elements-behind-root" => Err(3),
        "depth-65-text" | "depth-66" | "depth-127" => Err(1),
        _ => Ok(()),
    };
    for name in generate::LIMITS {
        let model = generate::limit_tree(name).ok_or(0).and_then(|tree| read::model_of_tree(&tree));
        t.equal(name, model.as_ref().map(|_| ()).map_err(|n| *n), wanted(name));
        let counted = |model: Model| (model.activities.len(), model.project.fractional);
        match name {
            "tasks" => t.equal("the task behind the limit", model.map(counted), Ok((1, 1))),
            "tasks-all" => t.equal("tasks with seconds", model.map(counted), Ok((1_500, 1_125))),
            _ => (),
        }
    }
}

// ---- random inputs

/// A short number is one exact multiplication or division.
fn random_numbers(t: &mut Tests, count: u64) {
    for seed in 0..count {
        let bytes = generate::leaf_text(Kind::Number, &mut Rng::new(seed));
        let text = String::from_utf8_lossy(&bytes);
        if let Number::Short(value) = number::number(&text) {
            t.equal(&text, value.to_bits(), one_operation(&text).to_bits());
        }
    }
}

fn one_operation(text: &str) -> f64 {
    let (mantissa, exponent) = text.split_once(['e', 'E']).unwrap_or((text, "0"));
    let fraction = mantissa.split_once('.').map_or(0, |(_, f)| f.len() as i32);
    let digits = mantissa.replace(['.', '+', '-'], "");
    let whole = digits.trim_start_matches('0').parse::<u64>().unwrap_or(0) as f64;
    let signed = if text.starts_with('-') { -whole } else { whole };
    if whole == 0.0 {
        return signed;
    }
    let power = exponent.parse::<i32>().unwrap_or(0) - fraction;
    let ten = (0..power.abs()).fold(1.0, |p, _| p * 10.0);
    if power < 0 { signed / ten } else { signed * ten }
}

/// The minutes from the paper are the Rust's, of every text but those that are too long.
fn same_minutes(t: &mut Tests, bytes: &[u8]) {
    let Ok(text) = std::str::from_utf8(bytes) else { return };
    let minutes = match duration::duration(text) {
        Duration::Is { minutes, .. } => Some(minutes.into()),
        Duration::Absent => None,
        Duration::Long => return,
    };
    t.equal(text, minutes, exposed::duration_of(text));
}

fn fixed_durations(t: &mut Tests) {
    generate::fixed_texts(Kind::Duration).iter().for_each(|text| same_minutes(t, text));
    // Texts of minutes, which are whole.
    for minutes in [0, 1, 59, 60, 1440, 99_999, leaf::MAX_MINUTES] {
        let text = leaf::duration_text(minutes).unwrap_or_default();
        t.equal(&text, duration::duration(&text), Duration::Is { minutes: minutes as u32, whole: true });
    }
    // So many seconds are whole minutes where 60 divides them.
    for seconds in 0..=600u32 {
        let text = format!("PT{seconds}S");
        t.equal(&text, duration::duration(&text), Duration::Is { minutes: (seconds + 30) / 60, whole: seconds % 60 == 0 });
    }
}

/// Random texts; and figures that are whole numbers, whose sum is had in seconds.
fn random_durations(t: &mut Tests, count: u64) {
    (0..4 * count).for_each(|seed| same_minutes(t, &generate::leaf_text(Kind::Duration, &mut Rng::new(seed))));
    for seed in 0..count {
        let rng = &mut Rng::new(seed);
        let [d, h, m, s] = std::array::from_fn(|_| rng.below(3000) as u32);
        let text = format!("P{d}DT{h}H{m}M{s}S");
        let seconds = 86_400 * d + 3600 * h + 60 * m + s;
        t.equal(&text, duration::duration(&text), Duration::Is { minutes: (seconds + 30) / 60, whole: seconds % 60 == 0 });
    }
}

/// The rules of document 01 and those of the Rust give the same days.
fn random_rules(t: &mut Tests, count: u64) {
    for seed in 0..count {
        let x = generate::rule(&mut Rng::new(seed));
        let tree = x.packed();
        t.equal(&hex::encode(&tree), exception::days(&tree), Ok(rule::days(&x)));
        let w = Node { name: "WeekDay".into(), ..x };
        t.equal("a WeekDay's days", exception::days(&w.packed()), Ok(Some(rule::weekday_days(&w))));
    }
    for seed in 0..count {
        let rng = &mut Rng::new(seed);
        let (y, m) = (rng.range(-10_000, 10_001) as i32, rng.range(0, 13) as u32);
        let (item, position) = (rng.range(-1, 10), rng.range(-1, 5));
        let what = format!("nth {y} {m} {item} {position}");
        t.equal(&what, exception::nth_in_month(y, m, item, position), rule::nth_in_month(y, m, item, position));
    }
}

/// Each model that is read decodes to itself, passes the check, and has the Rust's outline and day periods.
fn random_trees(t: &mut Tests, count: u64) {
    for seed in 0..count {
        let tree = generate::packed_tree(&mut Rng::new(seed));
        let what = hex::encode(&tree);
        let Ok(model) = read::model_of_tree(&tree) else { continue };
        let packed = model.encode();
        t.equal(&what, check::check(&packed), Ok(()));
        same_tasks(t, &what, &tree, &model);
        t.equal(&what, model::decode(&packed), Ok(model));
        same_as_rust(t, &what, &tree, &packed);
    }
}

/// The kept tasks from the paper are the Rust's activities, by their UIDs, and have their minutes where these are not whole days.
fn same_tasks(t: &mut Tests, what: &str, tree: &[u8], model: &Model) {
    let records = tree::records(tree).unwrap_or_default();
    let kept: Vec<Element> = Element::root(&records).into_iter().flat_map(tasks::kept).collect();
    let uids: Vec<&str> = kept.iter().filter_map(|task| task.text_of("UID")).collect();
    t.equal(what, uids, model.activities.iter().map(|a| a.uid.as_str()).collect());
    for (task, activity) in kept.iter().zip(&model.activities).filter(|(_, activity)| activity.minutes.is_some()) {
        let told = task.text_of("Duration").map(duration::duration);
        let minutes = if let Some(Duration::Is { minutes, .. }) = told { Some(minutes.into()) } else { None };
        t.equal(what, minutes, activity.minutes);
    }
}

fn same_as_rust(t: &mut Tests, what: &str, tree: &[u8], packed: &[u8]) {
    let project = read::rust_read(&tree::for_the_rust(tree)).project;
    t.equal(what, outline::outline(packed), Ok(rust_outline(&project)));
    let calendars: Vec<_> = std::iter::once(&project.calendar).chain(&project.calendars).collect();
    let Ok(model) = model::decode(packed) else { return };
    for (rust, own) in calendars.into_iter().zip(&model.calendars) {
        let own_days = rust.exceptions.keys().take(20).map(|d| d.days());
        for date in own_days.chain(20_454..20_461).filter_map(core::Date::from_days) {
            t.equal(what, sheet::day_periods(own, date.days()), rust.day_periods(date));
        }
    }
}

fn rust_outline(project: &core::Project) -> Vec<(u32, u32)> {
    exposed::outline(project).into_iter().map(|(row, level)| (row as u32, level as u32)).collect()
}

/// Models of any kind: what decodes is the encoding of what it decodes to; outlines with circles are the Rust's;
/// every reason of refusal 6 is met.
fn random_models(t: &mut Tests, count: u64) {
    let mut project = read::rust_read(&WHOLE).project;
    let mut faults = HashSet::new();
    for seed in 0..count {
        let packed = generate::packed_model(&mut Rng::new(seed));
        match model::decode(&packed) {
            Ok(model) => t.equal("a decoded model", model.encode(), packed),
            Err(fault) => drop(faults.insert(fault)),
        }
        let made_up = generate::made_up(&mut Rng::new(seed));
        project.activities = made_up.activities.iter().zip(0..).map(with_row_as_id).collect();
        t.equal(&format!("outline {seed}"), outline::rows(&made_up), rust_outline(&project));
    }
    t.equal("reasons of refusal 6", faults.len(), 9);
}

fn with_row_as_id((a, row): (&Activity, u32)) -> core::Activity {
    core::Activity { id: row.to_string(), parent: a.parent.map(|p| p.to_string()), ..core::Activity::default() }
}
