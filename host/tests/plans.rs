//! Whole reads, the decoder and the builder, on the cases of the gate: each tree with the model that the Rust reads, each model, and damaged ones.

use std::thread;

use mspdi::{
    ActivityKind, Constraint, Date, DaySheet, LagKind, Period, Plan, Refusal, TreeBuilder, TreeError, Weekday, check, day_sheet, outline, read,
    read_into, work_words,
};

/// The bodies of the gate's cases of a kind.
fn bodies(kind: u8) -> Vec<&'static [u8]> {
    let mut left: &[u8] = include_bytes!("../../crates/samples/stdin");
    let mut found = Vec::new();
    while let Some((head, rest)) = left.split_first_chunk::<5>() {
        let (body, behind) = rest.split_at(length(&head[1..]));
        if head[0] == kind {
            found.push(body);
        }
        left = behind;
    }
    found
}

fn length(bytes: &[u8]) -> usize {
    bytes[..4].iter().fold(0, |n, b| n << 8 | usize::from(*b))
}

/// Bytes behind their length, and what follows them.
fn piece(bytes: &[u8]) -> (&[u8], &[u8]) {
    bytes[4..].split_at(length(bytes))
}

/// Refusal or 0, tree, and the model that the Rust reads.
fn trees() -> Vec<(u32, &'static [u8], &'static [u8])> {
    let case = |body: &'static [u8]| {
        let (tree, model) = piece(&body[1..]);
        (body[0].into(), tree, model)
    };
    bodies(11).into_iter().map(case).collect()
}

/// The models of the cases.
fn models() -> Vec<&'static [u8]> {
    let read = trees().into_iter().filter(|case| case.0 == 0).map(|case| case.2);
    read.chain(bodies(13).into_iter().map(|body| piece(body).0)).collect()
}

#[test]
fn each_tree_reads_as_by_the_rust() {
    assert!(trees().len() >= 300);
    for (refusal, tree, model) in trees() {
        let expected = if refusal == 0 { Ok(model.to_vec()) } else { Err(refusal) };
        assert_eq!(read(tree).map_err(Refusal::number), expected);
    }
}

#[test]
fn a_room_of_any_length_is_served() {
    for (_, tree, model) in trees().into_iter().filter(|case| case.0 == 0) {
        let room = |length| {
            let mut room = vec![0xAA; length];
            let outcome = read_into(tree, &mut room);
            (outcome, room)
        };
        assert_eq!(room(model.len()), (Ok(model.len()), model.to_vec()));
        assert_eq!(room(model.len() + 3), (Ok(model.len()), [model, &[0; 3]].concat()));
        assert_eq!(room(model.len() - 1), (Err(Refusal::NoRoom), vec![0; model.len() - 1]));
        assert_eq!(room(0), (Err(Refusal::NoRoom), vec![]));
    }
}

/// What decodes is what the check does not refuse with 6.
fn decodes_as_checked(model: &[u8]) {
    assert_eq!(Plan::decode(model).is_ok(), check(model) != Err(Refusal::NotModel), "{model:?}");
}

#[test]
fn the_decoder_accepts_what_the_check_does() {
    for model in models() {
        decodes_as_checked(model);
    }
}

#[test]
fn damaged_models_decode_as_checked() {
    for model in models().into_iter().filter(|model| model.len() <= 400).step_by(9) {
        let mut other = model.to_vec();
        for bit in 0..8 * model.len() {
            other[bit / 8] ^= 0x80 >> (bit % 8);
            decodes_as_checked(&other);
            other[bit / 8] = model[bit / 8];
        }
        for at in 0..model.len() {
            decodes_as_checked(&model[..at]);
            decodes_as_checked(&[&model[..at], &[0], &model[at..]].concat());
        }
    }
}

#[test]
fn dates_go_there_and_back() {
    for days in (-4_371_587..=2_932_896).step_by(97).chain([-4_371_587, -1, 0, 58, 59, 2_932_896]) {
        assert_eq!(Date::from_days(days).and_then(Date::days), Some(days));
    }
    assert_eq!(Date::from_days(20_514), Some(Date { year: 2026, month: 3, day: 2 }));
    assert_eq!(Date::from_days(-4_371_588), None);
    assert_eq!(Date::from_days(2_932_897), None);
    assert_eq!(Date { year: 2026, month: 2, day: 29 }.days(), None);
    assert_eq!(Date { year: 2026, month: 13, day: 1 }.days(), None);
}

/// The plan of the repository, as a packed tree.
const MANUAL: &[u8] = include_bytes!("../../plans/manual.tree");

#[test]
fn the_plan_of_the_repository() {
    let model = read(MANUAL).expect("a plan");
    assert_eq!(check(&model), Ok(()));
    let plan = Plan::decode(&model).expect("a model");
    assert_eq!(Plan::read(MANUAL).as_ref(), Ok(&plan));
    assert_eq!(plan.project.name, "Press line 4: manuals");
    assert_eq!((plan.project.skipped, plan.project.dangling, plan.project.across, plan.project.fractional), (0, 1, 0, 0));
    let names: Vec<&str> = plan.calendars.iter().map(|c| c.name.as_str()).collect();
    assert_eq!(names, ["Standard", "Standard*"]);
    let ids: Vec<&str> = plan.activities.iter().map(|a| a.id.as_str()).collect();
    assert_eq!(ids, ["1", "1.1", "1.2", "1.2*", "2"]);
    let levels: Vec<u32> = outline(&model).expect("an outline").iter().map(|row| row.level).collect();
    assert_eq!(levels, [1, 2, 2, 2, 1]);
    assert_eq!(plan.activities[4].kind, ActivityKind::FinishMilestone);
    assert_eq!(plan.activities[3].constraint, Some(Constraint::StartOnOrAfter(Date { year: 2026, month: 3, day: 30 })));
    // A day of lag, a minute less than none, and a day that passes.
    let lags: Vec<(i64, Option<i64>, LagKind)> = plan.links.iter().map(|l| (l.lag, l.minutes, l.lag_kind)).collect();
    assert_eq!(lags, [(1, None, LagKind::Working), (0, Some(-1), LagKind::Working), (0, Some(1440), LagKind::Elapsed)]);
    // Easter without its weekend, and the last Fridays.
    let days = |dates: &[(u32, u32)]| dates.iter().map(|&(month, day)| Date { year: 2026, month, day }).collect::<Vec<_>>();
    assert_eq!(plan.calendars[0].holidays, days(&[(3, 27), (4, 3), (4, 6), (4, 24), (5, 29), (6, 26)]));
    assert_eq!(plan.calendars[1].holidays, plan.calendars[0].holidays);
    assert_eq!(plan.calendars[1].exceptions.iter().map(|day| day.0).collect::<Vec<_>>(), days(&[(3, 21)]));
    assert_eq!(plan.expenses[0].name, "Terminology check");
}

/// An element with a text.
fn field(tree: &mut TreeBuilder, name: &str, text: &str) {
    tree.start(name).unwrap();
    tree.text(text).unwrap();
    tree.end().unwrap();
}

#[test]
fn a_saturday_worked_by_true() {
    /// The sheet of Saturday, 7 March 2026, where the calendar's WeekDay has this DayWorking, and whether Saturdays are worked.
    fn saturday(working: &str) -> (DaySheet, bool) {
        let mut tree = TreeBuilder::new();
        ["Project", "Calendars", "Calendar", "WeekDays", "WeekDay"].iter().for_each(|name| tree.start(name).unwrap());
        field(&mut tree, "DayType", "7");
        field(&mut tree, "DayWorking", working);
        ["WorkingTimes", "WorkingTime"].iter().for_each(|name| tree.start(name).unwrap());
        field(&mut tree, "FromTime", "06:00:00");
        field(&mut tree, "ToTime", "14:00:00");
        (0..7).for_each(|_| tree.end().unwrap());
        let model = read(&tree.finish().unwrap()).expect("a plan");
        (day_sheet(&model, 0, 20_519).expect("a sheet"), Plan::decode(&model).expect("a model").calendars[0].week[5])
    }
    let sheet = |periods| DaySheet { weekday: Weekday::Saturday, holiday: false, extra: false, periods };
    for yes in ["true", "1", " true\n"] {
        assert_eq!(saturday(yes), (sheet(vec![Period { from: 360, to: 840 }]), true));
    }
    // The usual hours, should the day be worked after all.
    let usual = vec![Period { from: 480, to: 720 }, Period { from: 780, to: 1020 }];
    for no in ["TRUE", "truer", "0", ""] {
        assert_eq!(saturday(no), (sheet(usual.clone()), false));
    }
}

/// A plan of tasks with these fields, in elements of these names from the root on.
fn plan_of(path: &[&str], tasks: &[&[(&str, &str)]]) -> Result<Plan, Refusal> {
    let mut tree = TreeBuilder::new();
    path.iter().for_each(|name| tree.start(name).unwrap());
    for fields in tasks {
        tree.start("Task").unwrap();
        fields.iter().for_each(|(name, text)| field(&mut tree, name, text));
        tree.end().unwrap();
    }
    path.iter().for_each(|_| tree.end().unwrap());
    Plan::read(&tree.finish().unwrap())
}

/// How many durations were not whole minutes.
fn fractional(tasks: &[&[(&str, &str)]]) -> u32 {
    plan_of(&["Project", "Tasks"], tasks).expect("a plan").project.fractional
}

#[test]
fn durations_that_were_not_whole_minutes_are_counted() {
    let one = |text: &str| fractional(&[&[("UID", "1"), ("Duration", text)]]);
    for text in ["PT30S", "PT29S", "PT0.5M", "PT1.5S", "P0.0001D", "PT90S", "PT0.01H", " PT30S\n", "PT1H2H30S", "PT999999999.5M"] {
        assert_eq!(one(text), 1, "{text}");
    }
    // Whole in decimals, and 122.99999999999999 in f64.
    assert_eq!(one("PT2.05H"), 1);
    // Whole minutes, by the f64 sum; no minutes; above 1,000,000,000 of them.
    for text in ["PT60S", "PT8H0M0S", "PT0.5H", "PT0.1M54S", "PT1M1e-20S", "P", "PT-0S", "", "PT30", "PT-30S", "1.5", "PT1000000000M30S"] {
        assert_eq!(one(text), 0, "{text}");
    }
}

#[test]
fn durations_of_kept_tasks_alone_are_counted() {
    let part = ("Duration", "PT30S");
    let tasks: &[&[(&str, &str)]] = &[
        &[("UID", "1"), part],
        &[("UID", "2"), ("Duration", "PT60S")],
        &[("UID", "3")],
        // Used or not: a milestone, and elapsed time.
        &[("UID", "4"), ("Milestone", "1"), ("Duration", "PT0.5M")],
        &[("UID", "5"), ("DurationFormat", "8"), part],
        &[("UID", "5"), part],
        // Not kept.
        &[("UID", "0"), part],
        &[part],
        &[("UID", "6"), ("OutlineLevel", "0"), part],
        // The first child of the name counts, a blank one too.
        &[("UID", "7"), part, ("Duration", "PT60S")],
        &[("UID", "8"), ("Duration", "PT60S"), part],
        &[("UID", "9"), ("Duration", " "), part],
        &[("UID", "10"), ("RemainingDuration", "PT30S"), ("Work", "PT30S")],
    ];
    let plan = plan_of(&["Project", "Tasks"], tasks).expect("a plan");
    assert_eq!((plan.activities.len(), plan.project.fractional), (10, 5));
    assert_eq!(plan_of(&["Project", "x", "Tasks"], tasks).expect("a plan").project.fractional, 0);
    assert_eq!(fractional(&vec![&[("UID", "1"), part][..]; 300]), 300);
    // A number that is too long is refused in a task that is not kept, too.
    assert_eq!(plan_of(&["Project", "Tasks"], &[&[("Duration", "PT0.1234567890123456S")]]), Err(Refusal::NumberTooLong));
}

#[test]
fn the_smallest_plan_has_106_bytes() {
    let tree = b"\x02\x07\0\0Project";
    let model = [&[0, 0, 0, 1], &[0; 49][..], &[0, 0, 0, 8], b"Standard", &[0xF8], &[0; 40]].concat();
    assert_eq!(read(tree), Ok(model.clone()));
    let mut room = [0xAA; 106];
    assert_eq!(read_into(tree, &mut room[..105]), Err(Refusal::NoRoom));
    assert_eq!(room[..105], [0; 105]);
    assert_eq!(read_into(tree, &mut room), Ok(106));
    assert_eq!(room[..], model);
}

#[test]
fn events_become_a_tree() {
    let mut tree = TreeBuilder::new();
    tree.text("\n").unwrap();
    tree.start("ms:Project").unwrap();
    tree.text(" a").unwrap();
    tree.start("Name").unwrap();
    tree.text("B&B").unwrap();
    tree.end().unwrap();
    tree.text("b ").unwrap();
    assert_eq!(tree.clone().finish(), Err(TreeError::Unbalanced));
    tree.end().unwrap();
    assert_eq!(tree.end(), Err(TreeError::Unbalanced));
    assert_eq!(tree.text("x"), Err(TreeError::TextOutside));
    assert_eq!(tree.finish().unwrap(), b"\x02\x07\x00\x04Project ab \x04\x04\x00\x03NameB&B");
}

#[test]
fn what_no_tree_can_hold_is_an_error() {
    let mut tree = TreeBuilder::new();
    assert_eq!(tree.start(&"n".repeat(512)), Err(TreeError::NameTooLong));
    tree.start(&format!("long-prefix:{}", "n".repeat(511))).unwrap();
    tree.text(&"t".repeat(65_535)).unwrap();
    assert_eq!(tree.text("t"), Err(TreeError::TextTooLong));
    for _ in 2..=65 {
        tree.start("deep").unwrap();
    }
    assert_eq!(tree.start("deeper"), Err(TreeError::TooDeep));
    assert_eq!(tree.text("deep"), Err(TreeError::TooDeep));
    tree.text("").unwrap();
    for _ in 1..=65 {
        tree.end().unwrap();
    }
    assert_eq!(read(&tree.finish().unwrap()), Err(Refusal::NotProject));
}

#[test]
fn exceptions_of_the_old_form_have_words() {
    /// Calendars, each with so many elements of a section that may have days.
    fn tree(calendars: usize, section: &str, name: &str, fields: &[(&str, &str)], count: usize) -> Vec<u8> {
        let mut tree = TreeBuilder::new();
        ["Project", "Calendars"].iter().for_each(|name| tree.start(name).unwrap());
        for _ in 0..calendars {
            ["Calendar", section].iter().for_each(|name| tree.start(name).unwrap());
            for _ in 0..count {
                tree.start(name).unwrap();
                fields.iter().for_each(|(name, text)| field(&mut tree, name, text));
                tree.start("TimePeriod").unwrap();
                (0..2).for_each(|_| tree.end().unwrap());
            }
            (0..2).for_each(|_| tree.end().unwrap());
        }
        (0..2).for_each(|_| tree.end().unwrap());
        tree.finish().unwrap()
    }
    for (calendars, count, days) in [(1, 1, 73_044), (1, 32, 73_044), (1, 33, 7_304_484), (33, 1, 73_044)] {
        let words = 3 + 10 * calendars + 1 + days;
        assert_eq!(work_words(&tree(calendars, "Exceptions", "Exception", &[("Type", "1")], count)), words);
        assert_eq!(work_words(&tree(calendars, "WeekDays", "WeekDay", &[("DayType", "0"), ("DayWorking", "0")], count)), words);
    }
    assert!(work_words(&tree(1, "WeekDays", "WeekDay", &[], 0)) < 100);
}

#[test]
fn a_small_stack_serves() {
    let deep = {
        let mut tree = TreeBuilder::new();
        tree.start("Project").unwrap();
        for _ in 0..2_000 {
            (2..=65).for_each(|_| tree.start("Tasks").unwrap());
            (2..=65).for_each(|_| tree.end().unwrap());
        }
        tree.end().unwrap();
        tree.finish().unwrap()
    };
    let on_thread = move || read(&deep).is_ok();
    assert!(thread::Builder::new().stack_size(256 * 1024).spawn(on_thread).unwrap().join().unwrap());
}
