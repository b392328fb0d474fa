//! The days of random rules, and of days off, as both sides have them; and their time.

use std::hint::black_box;
use std::time::{Duration, Instant};

use mkperth_mspxml::exposed::Tree;
use oracle::generate::{packed_rule, rule};
use oracle::rng::Rng;
use oracle::{exception, hex, tree};

use crate::{ours, shrink};

/// At most so many differences are printed.
const SHOWN: u64 = 5;

/// The Rust's days; `None` where the exception is skipped.
fn rust(tree: &[u8]) -> Option<Option<Vec<i32>>> {
    exception::days(tree).ok()
}

/// Whether both sides read the tree and differ.
fn differs(tree: &[u8]) -> bool {
    rust(tree).is_some_and(|days| days != ours::rule_days(tree))
}

fn week_day_differs(tree: &[u8]) -> bool {
    rust(tree).is_some_and(|days| days != Some(ours::week_day_days(tree)))
}

/// A random exception as a packed tree, and the same element as a day off.
fn made(seed: u64, k: u64) -> (Vec<u8>, Vec<u8>) {
    let mut root = rule(&mut Rng::new(seed.wrapping_add(k << 32)));
    let exception = root.packed();
    root.name = "WeekDay".into();
    (exception, root.packed())
}

/// How many differ; each is printed with its smallest input.
pub fn compare(seed: u64, count: u64) -> u64 {
    let (mut differ, mut skipped, mut days, mut by_true) = (0, 0, 0, 0);
    for k in 0..count {
        let (tree, day_off) = made(seed, k);
        by_true += u64::from(*tree::for_the_rust(&tree) != *tree);
        match rust(&tree) {
            Some(Some(list)) => days += list.len(),
            _ => skipped += 1,
        }
        for (tree, wrong) in [(&tree, differs as fn(&[u8]) -> bool), (&day_off, week_day_differs)] {
            if wrong(tree) {
                differ += 1;
                if differ <= SHOWN {
                    show(tree, wrong);
                }
            }
        }
    }
    println!("rules: {count} with {days} days, {skipped} of them skipped, {by_true} by occurrences with `true`, {differ} differ");
    differ
}

fn show(tree: &[u8], wrong: fn(&[u8]) -> bool) {
    let least = shrink::smallest(tree, wrong);
    let (rule, day_off) = (ours::rule_days(&least), ours::week_day_days(&least));
    println!("{}: the Rust {:?}, ours {rule:?} as a rule and {day_off:?} as a day off", hex::encode(&least), rust(&least));
}

/// Prints a line: a rule's days, the element built before and outside the time.
pub fn bench(seed: u64) {
    let trees: Vec<Vec<u8>> = (0..2000).map(|k| packed_rule(&mut Rng::new(seed.wrapping_add(k << 32)))).filter(|t| rust(t).is_some()).collect();
    let built: Vec<Tree> = trees.iter().filter_map(|t| quick_xml::with_tree(&tree::for_the_rust(t), Tree::build).ok()).collect();
    let rust = best(|| built.iter().for_each(|root| drop(black_box(root.recurrence_days()))));
    let ours = best(|| trees.iter().for_each(|tree| drop(black_box(ours::rule_days(black_box(tree))))));
    let us = |time: Duration| time.as_secs_f64() * 1e6 / trees.len() as f64;
    println!("\nThe days of a random rule: the Rust {:.2} µs, ours {:.2} µs (mean of {} rules, best of 7 runs).", us(rust), us(ours), trees.len());
}

fn best(mut run: impl FnMut()) -> Duration {
    let once = |_| {
        let start = Instant::now();
        run();
        start.elapsed()
    };
    (0..7).map(once).min().unwrap_or_default()
}
