//! Every number of words of `work` in turn, from none to 7 more than serve best: reads of random trees, and checks of random models. `work` never changes an
//! answer, ends as zeros, and nothing behind it is touched.

use oracle::generate::{damaged, packed_tree};
use oracle::rng::Rng;
use oracle::{check, hex, read, tree};

use crate::models::random_model;
use crate::reads::{Answer, Room, expected, show};
use crate::words::{check_words, work_words};
use crate::{ours, shrink};

/// At most so many differences are printed.
const SHOWN: u64 = 5;
/// Most trees are read with at most 7 words more than these, as the days of a calendar alone have 73,044 and more.
const FEW: usize = 2_000;
/// A tree whose model is longer is left out: it would be read by scans again and again.
const MOST_MODEL: usize = 6_000;
/// Those that are read with every number of words have shorter ones.
const SHORT_MODEL: usize = 2_500;
/// What words hold before a call.
const FILLED: u32 = 0xAAAA_AAAA;

#[derive(Default)]
struct Tally {
    inputs: u64,
    calls: u64,
    left_out: u64,
    numbers: [u64; 10],
    differ: u64,
}

impl Tally {
    /// Calls with every number of words up to 7 more than `most`; the first number with which the call is wrong, leaves words that are not zeros, or
    /// touches the word behind.
    fn sweep(&mut self, most: usize, number: u32, mut wrong: impl FnMut(&mut [u32]) -> bool) -> Option<usize> {
        self.inputs += 1;
        let mut words = vec![FILLED; most + 8];
        for length in 0..=most + 7 {
            self.calls += 1;
            self.numbers[number as usize] += 1;
            words[..length].fill(FILLED);
            if wrong(&mut words[..length]) || words[..length].iter().any(|word| *word != 0) || words[length] != FILLED {
                self.differ += 1;
                return Some(length);
            }
        }
        None
    }

    /// One tree in a room, with every number of words.
    fn reads(&mut self, tree: &[u8], answer: &Answer, room: Room, most: usize) {
        let length = room.of(answer.as_ref().map_or(9, Vec::len));
        let right = expected(answer, length, 0);
        let mut model = vec![0; length];
        let wrong = |work: &mut [u32]| {
            model.fill(0xAA);
            ours::read(tree, &mut model, work) != (right.number, right.written) || model != right.model
        };
        if let Some(words) = self.sweep(most, right.number, wrong)
            && self.differ <= SHOWN
        {
            println!("with {words} words:");
            show(tree, room, words);
        }
    }

    /// One model, with every number of words.
    fn checks(&mut self, model: &[u8]) {
        let number = check::check(model).err().unwrap_or(0);
        let wrong = |work: &mut [u32]| ours::check(model, work) != number;
        if let Some(words) = self.sweep(check_words(model), number, wrong)
            && self.differ <= SHOWN
        {
            let other = |model: &[u8]| ours::check(model, &mut vec![FILLED; words]) != check::check(model).err().unwrap_or(0);
            let least = shrink::smallest_model(model, other);
            println!("with {words} words: model {}: the check differs, or what it leaves", hex::encode(&least));
        }
    }

    fn print(&self, what: &str) {
        let numbers: Vec<String> = (0..10).filter(|n| self.numbers[*n] > 0).map(|n| format!("{n}: {}", self.numbers[n])).collect();
        let left_out = if self.left_out > 0 { format!(", {} left out as long", self.left_out) } else { String::new() };
        println!("lengths: {} {what}, {} calls ({}){left_out}, {} differ", self.inputs, self.calls, numbers.join(", "), self.differ);
    }
}

/// Whether the model is at most so long; a refused tree has none.
fn is_short(answer: &Answer, most: usize) -> bool {
    answer.as_ref().map_or(0, Vec::len) <= most
}

/// Random trees, every eighth damaged, each with every number of words to `FEW`.
fn few_words(seed: u64, count: u64) -> Tally {
    let mut tally = Tally::default();
    for k in 0..count {
        let mut rng = Rng::new(seed.wrapping_add(k << 32));
        let made = packed_tree(&mut rng);
        let tree = if k % 8 == 7 { damaged(&mut rng, &made) } else { made };
        let answer = read::read_model(&tree);
        if is_short(&answer, MOST_MODEL) {
            // Mostly one that fits, and each other kind in turn.
            let room = Room::ALL[if k % 3 == 0 { (k / 3 % 4) as usize } else { 2 }];
            tally.reads(&tree, &answer, room, work_words(&tree).min(FEW));
        } else {
            tally.left_out += 1;
        }
    }
    tally
}

/// Whether a tree has two at least of each of these.
fn has_several(tree: &[u8]) -> bool {
    let Ok(records) = tree::records(tree) else { return false };
    let several = |name: &str| records.iter().filter(|record| record.name == name.as_bytes()).count() >= 2;
    ["Task", "Resource", "Calendar", "PredecessorLink", "Assignment", "Exception"].into_iter().all(several)
}

/// The random trees with several of each, every number of words in full.
fn all_words(seed: u64, count: u64) -> Tally {
    let mut tally = Tally::default();
    let mut k = 0;
    while tally.inputs < count {
        let tree = packed_tree(&mut Rng::new(seed.wrapping_add(k << 32)));
        k += 1;
        let answer = if has_several(&tree) { read::read_model(&tree) } else { Err(0) };
        if answer.is_ok() && is_short(&answer, SHORT_MODEL) {
            let room = Room::ALL[if tally.inputs % 4 == 3 { 3 } else { 2 }];
            tally.reads(&tree, &answer, room, work_words(&tree));
        }
    }
    tally
}

fn models(seed: u64, count: u64) -> Tally {
    let mut tally = Tally::default();
    for k in 0..count {
        tally.checks(&random_model(&mut Rng::new(seed.wrapping_add(k << 32)), k));
    }
    tally
}

/// How many differ: so many trees with every number of words up to 2,007 at most, a hundredth as many in full, and five times as many models.
pub fn compare(seed: u64, count: u64) -> u64 {
    let few = few_words(seed, count);
    few.print("random trees with every number of words, 0 to 7 more than serve best or to 2,007");
    let all = all_words(seed, count / 100);
    all.print("random trees with several of everything and every number of words, 0 to 7 more than serve best");
    let checks = models(seed, count * 5);
    checks.print("models checked with every number of words, 0 to 7 more than serve best");
    few.differ + all.differ + checks.differ
}
