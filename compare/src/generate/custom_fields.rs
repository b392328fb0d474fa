//! Pairs of trees that differ in custom fields alone: in what the elements of one name hold that stand directly in a Task.

use super::texts;
use crate::rng::Rng;
use crate::tree::{MAX_DEPTH, Record, put_record, records};

/// The name that MSPDI gives a custom field.
pub const CUSTOM: &str = "ExtendedAttribute";

/// The tree with fields of that name put into its Tasks, before, between and behind their children, and the same with other texts and other children in
/// those fields. None of a tree with refusal 1, 2 or 3.
pub fn field_pair(rng: &mut Rng, tree: &[u8], name: &str) -> Option<(Vec<u8>, Vec<u8>)> {
    let one = with_fields(rng, &records(tree).ok()?, name);
    let other = with_others(rng, &records(&one).ok()?, name);
    Some((one, other))
}

fn is_task(name: Option<&&[u8]>) -> bool {
    name.is_some_and(|name| *name == b"Task")
}

fn with_fields(rng: &mut Rng, records: &[Record], name: &str) -> Vec<u8> {
    let mut out = Vec::new();
    // The names of the elements that stand open.
    let mut open: Vec<&[u8]> = Vec::new();
    for record in records {
        end_to(record.depth - 1, rng, &mut out, &mut open, name);
        if is_task(open.last()) && rng.one_in(4) {
            put_field(rng, &mut out, record.depth, name);
        }
        put(&mut out, record);
        open.push(record.name);
    }
    end_to(0, rng, &mut out, &mut open, name);
    out
}

/// Ends the elements below that depth; a Task may get a field at its end.
fn end_to(depth: u32, rng: &mut Rng, out: &mut Vec<u8>, open: &mut Vec<&[u8]>, name: &str) {
    while open.len() > depth as usize {
        if is_task(open.last()) && rng.one_in(3) {
            put_field(rng, out, open.len() as u32 + 1, name);
        }
        open.pop();
    }
}

/// The records with other fields, but for one in six, which stays.
fn with_others(rng: &mut Rng, records: &[Record], name: &str) -> Vec<u8> {
    let mut out = Vec::new();
    let mut open: Vec<&[u8]> = Vec::new();
    let mut left = records;
    while let Some((record, rest)) = left.split_first() {
        left = rest;
        open.truncate(record.depth as usize - 1);
        if record.name == name.as_bytes() && is_task(open.last()) && !rng.one_in(6) {
            put_field(rng, &mut out, record.depth, name);
            let inside = rest.iter().take_while(|below| below.depth > record.depth).count();
            left = &rest[inside..];
        } else {
            put(&mut out, record);
            open.push(record.name);
        }
    }
    out
}

fn put(out: &mut Vec<u8>, record: &Record) {
    let [name, text] = [record.name, record.text].map(|bytes| std::str::from_utf8(bytes).expect("records are UTF-8"));
    put_record(out, record.depth, name, text);
}

/// Names below a custom field: MSPDI's, and some that the reader asks for elsewhere.
const NAMES: [&str; 18] = [
    "FieldID", "Value", "ValueGUID", "DurationFormat", "FieldID", "Value", CUSTOM, "Task", "UID", "Name", "Notes", "Duration", "PredecessorLink",
    "OutlineLevel", "Cost", "Tasks", "Calendar", "",
];

/// An element of that name at that depth with any text and anything below; none past the deepest level.
fn put_field(rng: &mut Rng, out: &mut Vec<u8>, depth: u32, name: &str) {
    if depth > MAX_DEPTH {
        return;
    }
    put_record(out, depth, name, &text(rng));
    let children = if rng.one_in(3) { rng.below(4) } else { 0 };
    for _ in 0..children {
        let name = rng.pick(&NAMES);
        put_field(rng, out, depth + 1, name);
    }
}

fn text(rng: &mut Rng) -> String {
    let long = rng.one_in(40);
    match rng.below(8) {
        0 => String::new(),
        1 => texts::blanks(rng),
        2 => texts::date(rng),
        3 => texts::duration(rng, long),
        4 => texts::decimal(rng, long),
        5 => texts::whole(rng),
        6 => rng.below(10).to_string(),
        _ => (*rng.pick(&["188743731", "x", "Gr\u{fc}ndung", "true", "Standard"])).into(),
    }
}
