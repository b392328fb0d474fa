//! Random trees of MSPDI's shape: every name that the Rust reads, with odd values among the plain ones.

use super::{damaged, rules, texts};
use crate::rng::Rng;
use crate::tree::{Node, put_record};

/// A packed tree; about one in ten is damaged or breaks a limit.
pub fn packed_tree(rng: &mut Rng) -> Vec<u8> {
    let mut g = Trees { odd: *rng.pick(&[&6, &20, &20, &80, &1_000]), long: rng.one_in(25), rng: rng.clone() };
    let mut tree = g.project().packed();
    *rng = g.rng;
    if rng.one_in(25) {
        second_root(rng, &mut tree);
    }
    if rng.one_in(12) { damaged(rng, &tree) } else { tree }
}

/// Records after the root's: only their layout, UTF-8 and count matter.
fn second_root(rng: &mut Rng, tree: &mut Vec<u8>) {
    put_record(tree, 1, rng.pick(&["Project", "Other", ""]), "  ");
    put_record(tree, 2, "Cost", rng.pick(&["1", "12345678901234567890"]));
    put_record(tree, 2, "Title", "unread");
}

struct Trees {
    rng: Rng,
    /// One field in so many is odd.
    odd: usize,
    /// Whether numbers may be too long.
    long: bool,
}

/// UIDs: few, so that they meet.
const UIDS: [&str; 10] = ["1", "2", "3", "4", "5", "6", "01", "0", "-1", "\u{e9}"];
const NAMES: [&str; 10] =
    ["Concrete", "Formwork", "Standard", "Standard*", "Elapsed (24 hours)", "Gr\u{fc}ndung", "\u{1f3d7} Bau", "x", "Calendar", "true"];

impl Trees {
    fn project(&mut self) -> Node {
        let mut root = Node::new(if self.rng.one_in(60) { "project" } else { "Project" }, "\n  ");
        for name in ["Name", "Title", "StartDate", "StatusDate", "CurrencySymbol", "CalendarUID", "MinutesPerDay"] {
            self.maybe(&mut root, name, 2);
        }
        for section in [Trees::calendars, Trees::tasks, Trees::resources, Trees::assignments] {
            if !self.rng.one_in(8) {
                let node = section(self);
                root.children.push(node);
            }
            if self.rng.one_in(self.odd) {
                let node = section(self);
                root.children.push(node);
            }
        }
        if self.rng.one_in(40) {
            root.children.push(deep(&mut self.rng));
        }
        self.shuffled(root)
    }

    // ---- calendars

    fn calendars(&mut self) -> Node {
        let count = self.rng.below(5);
        Node::with("Calendars", (0..count).map(|_| self.calendar()).collect())
    }

    fn calendar(&mut self) -> Node {
        let mut c = Node::new("Calendar", "");
        self.maybe(&mut c, "UID", 20);
        self.maybe(&mut c, "Name", 10);
        self.maybe(&mut c, "BaseCalendarUID", 2);
        if !self.rng.one_in(4) {
            let count = self.rng.below(8);
            c.children.push(Node::with("WeekDays", (0..count).map(|_| self.weekday()).collect()));
        }
        if !self.rng.one_in(3) {
            let count = self.rng.below(4);
            c.children.push(Node::with("Exceptions", (0..count).map(|_| self.exception()).collect()));
        }
        self.shuffled(c)
    }

    fn weekday(&mut self) -> Node {
        let mut w = Node::new("WeekDay", "");
        self.maybe(&mut w, "DayType", 30);
        self.maybe(&mut w, "DayWorking", 12);
        if !self.rng.one_in(3) {
            w.children.push(self.working_times());
        }
        if self.rng.one_in(2) {
            w.children.push(rules::time_period(&mut self.rng, 1));
        }
        self.shuffled(w)
    }

    fn working_times(&mut self) -> Node {
        let count = self.rng.below(4);
        Node::with("WorkingTimes", (0..count).map(|_| self.working_time()).collect())
    }

    fn working_time(&mut self) -> Node {
        let mut t = Node::new("WorkingTime", "");
        self.maybe(&mut t, "FromTime", 25);
        self.maybe(&mut t, "ToTime", 25);
        t
    }

    fn exception(&mut self) -> Node {
        let mut x = rules::rule(&mut self.rng);
        self.maybe(&mut x, "DayWorking", 5);
        if self.rng.one_in(2) {
            x.children.push(self.working_times());
        }
        self.shuffled(x)
    }

    // ---- tasks and links

    fn tasks(&mut self) -> Node {
        let count = if self.rng.one_in(30) { 60 } else { self.rng.below(10) };
        Node::with("Tasks", (0..count).map(|row| self.task(row)).collect())
    }

    fn task(&mut self, row: usize) -> Node {
        let mut t = Node::new("Task", "");
        if self.rng.one_in(4) {
            self.maybe(&mut t, "UID", 15);
        } else {
            t = t.field("UID", &row.to_string());
        }
        for (name, chance) in [("ID", 2), ("Name", 8), ("WBS", 3), ("OutlineLevel", 4), ("Duration", 6), ("DurationFormat", 3), ("Milestone", 2)] {
            self.maybe(&mut t, name, chance);
        }
        for name in ["Type", "CalendarUID", "ConstraintType", "ConstraintDate", "Deadline", "ActualStart", "ActualFinish", "RemainingDuration"] {
            self.maybe(&mut t, name, 2);
        }
        for name in ["PhysicalPercentComplete", "Notes", "Work", "Cost"] {
            self.maybe(&mut t, name, 2);
        }
        self.more_durations(&mut t);
        for _ in 0..self.rng.below(4) {
            t.children.push(self.link());
        }
        if self.rng.one_in(10) {
            t.children.push(Node::with("ExtendedAttribute", vec![Node::new("FieldID", "188743731"), Node::new("Value", "x")]));
        }
        self.shuffled(t)
    }

    /// One task in eight has a Duration more, and the first counts: a blank one or another in front, or another behind.
    fn more_durations(&mut self, task: &mut Node) {
        let another = self.value("Duration");
        match self.rng.below(24) {
            0 => task.children.insert(0, Node::new("Duration", &texts::blanks(&mut self.rng))),
            1 => task.children.insert(0, Node::new("Duration", &another)),
            2 => task.children.push(Node::new("Duration", &another)),
            _ => (),
        }
    }

    fn link(&mut self) -> Node {
        let mut l = Node::new("PredecessorLink", "");
        self.maybe(&mut l, "PredecessorUID", 15);
        for name in ["Type", "CrossProject", "LinkLag", "LagFormat"] {
            let name_in_link = if name == "Type" { "LinkType" } else { name };
            if !self.rng.one_in(4) {
                let text = self.value(name_in_link);
                self.put(&mut l, name, text);
            }
        }
        l
    }

    // ---- resources and assignments

    fn resources(&mut self) -> Node {
        let count = self.rng.below(6);
        Node::with("Resources", (0..count).map(|_| self.resource()).collect())
    }

    fn resource(&mut self) -> Node {
        let mut r = Node::new("Resource", "");
        self.maybe(&mut r, "UID", 20);
        self.maybe(&mut r, "Name", 12);
        for name in ["ID", "Type", "AccrueAt", "StandardRate", "MaterialLabel", "MaxUnits", "CalendarUID"] {
            self.maybe(&mut r, name, 2);
        }
        self.shuffled(r)
    }

    fn assignments(&mut self) -> Node {
        let count = self.rng.below(8);
        Node::with("Assignments", (0..count).map(|_| self.assignment()).collect())
    }

    fn assignment(&mut self) -> Node {
        let mut x = Node::new("Assignment", "");
        self.maybe(&mut x, "TaskUID", 15);
        self.maybe(&mut x, "ResourceUID", 15);
        for name in ["Work", "ActualWork", "RemainingWork", "Units", "Cost", "ActualCost", "RemainingCost"] {
            self.maybe(&mut x, name, 3);
        }
        self.shuffled(x)
    }

    // ---- fields

    /// A field with its value, but for one in `absent` times.
    fn maybe(&mut self, node: &mut Node, name: &str, absent: usize) {
        if !self.rng.one_in(absent) {
            let text = self.value(name);
            self.put(node, name, text);
        }
    }

    /// The field, sometimes in an odd way.
    fn put(&mut self, node: &mut Node, name: &str, text: String) {
        if !self.rng.one_in(self.odd) {
            node.children.push(Node::new(name, &text));
            return;
        }
        let (before, after) = (texts::blanks(&mut self.rng), texts::blanks(&mut self.rng));
        match self.rng.below(7) {
            0 => node.children.push(Node::new(name, &before)),
            1 => node.children.extend([Node::new(name, &before), Node::new(name, &text)]),
            2 => node.children.extend([Node::new(name, &text), Node::new(name, "1")]),
            3 => node.children.push(Node::with(name, vec![Node::new(name, &text)])),
            4 => node.children.push(Node::new(&name.to_lowercase(), &text)),
            5 => node.children.push(Node::new(&format!("p:{name}"), &text)),
            _ => node.children.push(Node::new(name, &format!("{before}{text}{after}"))),
        }
    }

    fn value(&mut self, name: &str) -> String {
        let long = self.long;
        let rng = &mut self.rng;
        match name {
            "Name" | "Title" | "Notes" | "MaterialLabel" | "CurrencySymbol" => rng.pick(&NAMES).into(),
            "WBS" | "ID" => rng.pick(&["1", "2", "3", "1.1", "1.2", "1*", "1**", "A"]).into(),
            "UID" | "TaskUID" | "ResourceUID" | "PredecessorUID" | "CalendarUID" | "BaseCalendarUID" => rng.pick(&UIDS).into(),
            "StartDate" | "StatusDate" | "ConstraintDate" | "Deadline" | "ActualStart" | "ActualFinish" => texts::date(rng),
            "FromTime" | "ToTime" => texts::time(rng),
            "Duration" | "RemainingDuration" | "Work" | "ActualWork" | "RemainingWork" => texts::duration(rng, long),
            "DayWorking" | "Milestone" | "CrossProject" => texts::yes(rng),
            "MinutesPerDay" => small_or(rng, long, &["480", "480", "450", "1440", "1440.5", "1", "0.5", "0.99", "60.5", "1440.4"]),
            "PhysicalPercentComplete" | "StandardRate" | "MaxUnits" | "Units" => {
                small_or(rng, long, &["1", "1.0", "0.5", "100", "50", "0", "33.335"])
            }
            "Cost" | "ActualCost" | "RemainingCost" => small_or(rng, long, &["100", "50", "0", "-12.345", "0.005", "1e12", "1e13"]),
            _ => self.code(name),
        }
    }

    fn code(&mut self, name: &str) -> String {
        let rng = &mut self.rng;
        let (low, high) = match name {
            "OutlineLevel" => (0, 5),
            "DayType" => (0, 8),
            "DurationFormat" | "LagFormat" => *rng.pick(&[&(3, 12), &(3, 12), &(35, 44), &(0, 60), &(19, 20), &(51, 52)]),
            "LinkLag" => *rng.pick(&[&(-30, 30), &(-10_000, 10_000), &(0, 0), &(4_800, 4_800), &(-100_000_000_010, 100_000_000_010)]),
            "ConstraintType" => (0, 8),
            "Type" | "AccrueAt" | "LinkType" => (0, 4),
            _ => (0, 9),
        };
        if rng.one_in(40) { texts::whole(rng) } else { rng.range(low, high).to_string() }
    }

    /// Children in another order, sometimes.
    fn shuffled(&mut self, mut node: Node) -> Node {
        if self.rng.one_in(self.odd) {
            for at in (1..node.children.len()).rev() {
                node.children.swap(at, self.rng.below(at + 1));
            }
        }
        node
    }
}

fn small_or(rng: &mut Rng, long: bool, plain: &[&str]) -> String {
    if rng.one_in(2) { rng.pick(plain).into() } else { texts::decimal(rng, long) }
}

/// A chain of elements to the depths around the limit.
fn deep(rng: &mut Rng) -> Node {
    let levels = rng.range(60, 66);
    let mut node = Node::new("Task", "");
    for _ in 0..levels {
        node = Node::with(rng.pick(&["Tasks", "Task", "x"]), vec![Node::new("Name", ""), node]);
    }
    node
}
