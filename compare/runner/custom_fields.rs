//! What custom fields hold changes no model (document 02, E13): pairs of trees that differ in it alone, read by both sides.

use oracle::generate::{CUSTOM, field_pair, packed_tree};
use oracle::rng::Rng;
use oracle::tree::{self, Element};
use oracle::{hex, read};

use crate::reads::{Room, expected, said};
use crate::words::work_words;

/// At most so many differences are printed.
const SHOWN: u64 = 5;
/// So many pairs at least are changed in their Notes: a few may agree.
const CONTROLS: u64 = 100;

#[derive(Default)]
struct Tally {
    pairs: u64,
    /// Those with a tree that is refused, and of them those with one that is not.
    left_out: u64,
    one_refused: u64,
    /// Those that differ outside the fields.
    wrong: u64,
    /// Those with another answer of the Rust, those with another of ours, and those of which our first answer is not the Rust's or one side alone sees a
    /// difference.
    rust: u64,
    ours: u64,
    apart: u64,
}

/// Whether the elements have one name, one text, and as many children, related one by one or both fields of that name in a Task, which may hold anything.
fn same_but(a: Element, b: Element, field: &str) -> bool {
    a.name() == b.name() && a.own_text() == b.own_text() && same_children(a, b, field)
}

fn same_children(a: Element, b: Element, field: &str) -> bool {
    let is_field = |c: Element| a.name() == b"Task" && c.name() == field.as_bytes();
    let (mut left, mut right) = (a.children(), b.children());
    loop {
        match (left.next(), right.next()) {
            (None, None) => return true,
            (Some(c), Some(d)) if is_field(c) && is_field(d) || same_but(c, d, field) => (),
            _ => return false,
        }
    }
}

/// Whether the first roots of two trees are related so.
fn is_pair(one: &[u8], other: &[u8], field: &str) -> bool {
    let (Ok(left), Ok(right)) = (tree::records(one), tree::records(other)) else { return false };
    Element::root(&left).zip(Element::root(&right)).is_some_and(|(a, b)| same_but(a, b, field))
}

impl Tally {
    /// One pair, read into the same room with the same words, where both trees are accepted; whether a side gives other answers, or they differ elsewhere.
    fn run(&mut self, one: &[u8], other: &[u8], field: &str) -> bool {
        let (first, second) = (read::read_model(one), read::read_model(other));
        let (Ok(model), Ok(_)) = (&first, &second) else {
            self.left_out += 1;
            self.one_refused += u64::from(first.is_ok() != second.is_ok());
            return false;
        };
        let room = if self.pairs % 2 == 0 { Room::Right } else { Room::Long }.of(model.len());
        let work = (self.pairs as usize).wrapping_mul(7) % (work_words(one).min(2_000) + 8);
        let whole = |tree: &[u8]| read::rust_read(&tree::for_the_rust(tree));
        let left = [one, other].map(|tree| said(tree, room, work));
        let wrong = !is_pair(one, other, field);
        let rust = first != second || whole(one) != whole(other);
        let ours = left[0] != left[1];
        let apart = rust != ours || left[0] != expected(&first, room, work);
        self.pairs += 1;
        for (count, is) in [(&mut self.wrong, wrong), (&mut self.rust, rust), (&mut self.ours, ours), (&mut self.apart, apart)] {
            *count += u64::from(is);
        }
        wrong || rust || ours || apart
    }

    /// So many pairs, and how many of them differ.
    fn of(seed: u64, count: u64, field: &str) -> (Tally, u64) {
        let (mut tally, mut differ) = (Tally::default(), 0);
        let mut k = 0;
        while tally.pairs < count {
            let mut rng = Rng::new(seed.wrapping_add(k << 32));
            k += 1;
            let tree = packed_tree(&mut rng);
            let pair = field_pair(&mut rng, &tree, field).filter(|(one, other)| one != other);
            if let Some((one, other)) = pair
                && tally.run(&one, &other, field)
            {
                differ += 1;
                if field == CUSTOM && differ <= SHOWN {
                    println!("trees {} and {}: other answers, or no pair", hex::encode(&one), hex::encode(&other));
                }
            }
        }
        (tally, differ)
    }

    fn print(&self, what: &str) {
        println!(
            "{what}: {} pairs of trees that are both accepted ({} left out, of {} one alone is refused), {} differ elsewhere too; other answers by the Rust in {}, by ours in {}, the sides apart in {}",
            self.pairs, self.left_out, self.one_refused, self.wrong, self.rust, self.ours, self.apart
        );
    }
}

/// How many pairs differ. A hundredth as many, changed in their Notes instead, must not all agree.
pub fn compare(seed: u64, count: u64) -> u64 {
    let (tally, differ) = Tally::of(seed, count, CUSTOM);
    tally.print("custom fields");
    let (notes, _) = Tally::of(seed, (count / 100).max(CONTROLS), "Notes");
    notes.print("Notes in their place");
    let unseen = notes.rust == 0 || notes.ours == 0;
    if unseen {
        println!("no change of Notes is seen: this compares nothing");
    }
    differ + notes.wrong + notes.apart + u64::from(unseen)
}
