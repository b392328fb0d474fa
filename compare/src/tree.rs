//! The packed tree, from document 01, "The tree", and its refusals 1 to 5.

use std::borrow::Cow;

use crate::Refusal;
use crate::duration::{self, Duration};
use crate::number;

pub const MAX_DEPTH: u32 = 65;
pub const MAX_ELEMENTS: usize = 5_000_000;

/// One record: an element with its depth, name and own text.
#[derive(Debug, Clone, Copy, PartialEq, Eq)]
pub struct Record<'a> {
    pub depth: u32,
    pub name: &'a [u8],
    pub text: &'a [u8],
}

/// The records one after the other; `Err(1)` where the layout is broken.
struct Records<'a> {
    left: &'a [u8],
    /// The depth before.
    depth: u32,
}

impl<'a> Records<'a> {
    fn new(tree: &'a [u8]) -> Self {
        Records { left: tree, depth: 0 }
    }

    fn record(&mut self) -> Option<Record<'a>> {
        let head = u32::from_be_bytes(*self.left.first_chunk::<4>()?);
        let (depth, name, text) = (head >> 25, (head >> 16 & 0x1FF) as usize, (head & 0xFFFF) as usize);
        let fits = (1..=MAX_DEPTH).contains(&depth) && depth <= self.depth + 1 && (depth < MAX_DEPTH || text == 0);
        let body = self.left.get(4..4 + name + text).filter(|_| fits)?;
        self.left = &self.left[4 + name + text..];
        self.depth = depth;
        Some(Record { depth, name: &body[..name], text: &body[name..] })
    }
}

impl<'a> Iterator for Records<'a> {
    type Item = Result<Record<'a>, Refusal>;

    fn next(&mut self) -> Option<Self::Item> {
        if self.left.is_empty() {
            return None;
        }
        let record = self.record().ok_or(1);
        if record.is_err() {
            self.left = &[];
        }
        Some(record)
    }
}

/// The records of a tree that keeps the layout, is UTF-8 and has no more elements than allowed.
pub fn records(tree: &[u8]) -> Result<Vec<Record<'_>>, Refusal> {
    let records: Vec<Record> = Records::new(tree).collect::<Result<_, _>>()?;
    let is_utf8 = |bytes| std::str::from_utf8(bytes).is_ok();
    if !records.iter().all(|r| is_utf8(r.name) && is_utf8(r.text)) {
        return Err(2);
    }
    if records.len() > MAX_ELEMENTS {
        return Err(3);
    }
    Ok(records)
}

/// The refusal of a tree whose root is to be called one of `roots`: the lowest that applies.
pub fn refusal(tree: &[u8], roots: &[&str]) -> Result<(), Refusal> {
    let records = records(tree)?;
    let root = records.first().ok_or(4u32)?;
    if !roots.iter().any(|name| name.as_bytes() == root.name) {
        return Err(4);
    }
    let below = records[1..].iter().take_while(|r| r.depth > 1);
    if std::iter::once(root).chain(below).any(too_long) {
        return Err(5);
    }
    Ok(())
}

const NUMBERS: [&str; 8] = ["MinutesPerDay", "PhysicalPercentComplete", "StandardRate", "MaxUnits", "Units", "Cost", "ActualCost", "RemainingCost"];
const DURATIONS: [&str; 5] = ["Duration", "RemainingDuration", "Work", "ActualWork", "RemainingWork"];

/// Whether the element holds a number that is too long (refusal 5).
fn too_long(record: &Record) -> bool {
    let named = |names: &[&str]| names.iter().any(|n| n.as_bytes() == record.name);
    let text = utf8(record.text);
    if named(&NUMBERS) { number::is_long(text.trim()) } else { named(&DURATIONS) && duration::duration(text) == Duration::Long }
}

/// The fields that are read as a yes.
const YES_FIELDS: [&str; 4] = ["DayWorking", "EnteredByOccurrences", "Milestone", "CrossProject"];

/// The tree that the Rust is asked about in place of this one. A yes is `1` or `true` (document 02, E1), and the Rust knows `1` alone: `1` stands for
/// `true` in the fields of a yes, and nowhere else. A tree with no such field is given as it is.
pub fn for_the_rust(tree: &[u8]) -> Cow<'_, [u8]> {
    let is_true = |r: &Record| YES_FIELDS.iter().any(|n| n.as_bytes() == r.name) && utf8(r.text).trim() == "true";
    let records = records(tree).unwrap_or_default();
    if !records.iter().any(is_true) {
        return Cow::Borrowed(tree);
    }
    let mut out = Vec::new();
    for r in &records {
        let text = utf8(r.text);
        put_record(&mut out, r.depth, utf8(r.name), &if is_true(r) { text.replace("true", "1") } else { text.into() });
    }
    Cow::Owned(out)
}

fn utf8(bytes: &[u8]) -> &str {
    std::str::from_utf8(bytes).unwrap_or_default()
}

/// An element of a packed tree: its record, and those of all below it.
#[derive(Clone, Copy)]
pub struct Element<'a> {
    record: &'a Record<'a>,
    below: &'a [Record<'a>],
}

impl<'a> Element<'a> {
    /// The root, if there is one: what stands behind it is unread.
    pub fn root(records: &'a [Record<'a>]) -> Option<Element<'a>> {
        Element::first(records).map(|(root, _)| root)
    }

    /// The first record with all below it, and what is left.
    fn first(records: &'a [Record<'a>]) -> Option<(Element<'a>, &'a [Record<'a>])> {
        let (record, rest) = records.split_first()?;
        let end = rest.iter().position(|r| r.depth <= record.depth).unwrap_or(rest.len());
        Some((Element { record, below: &rest[..end] }, &rest[end..]))
    }

    pub fn name(self) -> &'a [u8] {
        self.record.name
    }

    /// Its own text as it stands.
    pub fn own_text(self) -> &'a [u8] {
        self.record.text
    }

    /// Its direct children.
    pub fn children(self) -> impl Iterator<Item = Element<'a>> {
        let mut left = self.below;
        std::iter::from_fn(move || {
            let (child, rest) = Element::first(left)?;
            left = rest;
            Some(child)
        })
    }

    /// Its direct children of that name.
    pub fn all(self, name: &str) -> impl Iterator<Item = Element<'a>> {
        self.children().filter(move |child| child.record.name == name.as_bytes())
    }

    pub fn child(self, name: &str) -> Option<Element<'a>> {
        self.all(name).next()
    }

    /// The text of the first child of that name, trimmed; empty counts as absent.
    pub fn text_of(self, name: &str) -> Option<&'a str> {
        self.child(name).map(|child| utf8(child.record.text).trim()).filter(|text| !text.is_empty())
    }
}

/// An element with its children, to make packed trees from.
#[derive(Debug, Clone, Default, PartialEq, Eq)]
pub struct Node {
    pub name: String,
    pub text: String,
    pub children: Vec<Node>,
}

impl Node {
    pub fn new(name: &str, text: &str) -> Node {
        Node { name: name.into(), text: text.into(), children: Vec::new() }
    }

    pub fn with(name: &str, children: Vec<Node>) -> Node {
        Node { name: name.into(), text: String::new(), children }
    }

    /// A child with a text.
    pub fn field(mut self, name: &str, text: &str) -> Node {
        self.children.push(Node::new(name, text));
        self
    }

    pub fn child(mut self, child: Node) -> Node {
        self.children.push(child);
        self
    }

    pub fn packed(&self) -> Vec<u8> {
        let mut out = Vec::new();
        self.pack(1, &mut out);
        out
    }

    fn pack(&self, depth: u32, out: &mut Vec<u8>) {
        put_record(out, depth, &self.name, &self.text);
        for child in &self.children {
            child.pack(depth + 1, out);
        }
    }
}

/// One record; what does not fit its field is cut down to it.
pub fn put_record(out: &mut Vec<u8>, depth: u32, name: &str, text: &str) {
    let (name, text) = (cut(name, 511), cut(text, if depth == MAX_DEPTH { 0 } else { 65_535 }));
    let head = depth << 25 | (name.len() as u32) << 16 | text.len() as u32;
    out.extend_from_slice(&head.to_be_bytes());
    out.extend_from_slice(name.as_bytes());
    out.extend_from_slice(text.as_bytes());
}

/// The longest beginning of whole characters within `most` bytes.
fn cut(text: &str, most: usize) -> &str {
    &text[..text.floor_char_boundary(most)]
}
