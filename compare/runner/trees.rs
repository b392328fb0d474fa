//! Trees: random ones, damaged ones and those at the limits, each judged by both sides; and their time on a large one.

use std::time::{Duration, Instant};

use oracle::bench::{bench_tree, big_tree};
use oracle::generate::{LIMITS, damaged, limit_tree, packed_tree};
use oracle::rng::Rng;
use oracle::{hex, tree};

use crate::{ours, shrink};

/// At most so many differences are printed.
const SHOWN: u64 = 5;

/// Document 01's refusal of a tree, 0 for none.
fn expected(bytes: &[u8]) -> u32 {
    tree::refusal(bytes, &["Project"]).err().unwrap_or(0)
}

fn differs(bytes: &[u8]) -> bool {
    expected(bytes) != ours::tree(bytes)
}

/// A random tree; the first half of the count as made, the others damaged.
fn made(seed: u64, k: u64, count: u64) -> Vec<u8> {
    let mut rng = Rng::new(seed.wrapping_add(k << 32));
    let tree = packed_tree(&mut rng);
    if k < count / 2 { tree } else { damaged(&mut rng, &tree) }
}

/// The packed trees that compare/taskjuggler made, if it was run.
pub fn samples() -> Vec<Vec<u8>> {
    let folder = std::env::current_exe().ok().and_then(|exe| Some(exe.parent()?.join("samples")));
    let files = folder.and_then(|folder| std::fs::read_dir(folder).ok()).into_iter().flatten().flatten().map(|entry| entry.path());
    files.filter(|path| path.extension().is_some_and(|end| end == "tree")).filter_map(|path| std::fs::read(path).ok()).collect()
}

/// How many differ; each is printed with its smallest input.
pub fn compare(seed: u64, count: u64) -> u64 {
    let mut differ = 0;
    let mut refused = 0;
    let samples = samples();
    let judged = count + (LIMITS.len() + samples.len()) as u64;
    let limits = LIMITS.iter().filter_map(|name| limit_tree(name));
    for bytes in samples.into_iter().chain(limits).chain((0..count).map(|k| made(seed, k, count))) {
        refused += u64::from(expected(&bytes) != 0);
        if differs(&bytes) {
            differ += 1;
            if differ <= SHOWN {
                let least = shrink::smallest(&bytes, differs);
                println!("tree {}: refusal {} by document 01, ours {}", hex::encode(&least), expected(&least), ours::tree(&least));
            }
        }
    }
    println!("trees: {judged} judged, {refused} of them refused, {differ} differ");
    differ
}

/// Prints a line of the table: the Rust's elements of a tree of 10,000 tasks with 60 fields, and our judgement of it.
pub fn bench() {
    let tree = big_tree(10_000, 60);
    let rust = bench_tree(&tree);
    let ours = (0..5).map(|_| timed(&tree)).min().unwrap_or_default();
    let ms = |time: Duration| time.as_secs_f64() * 1e3;
    println!("\nA tree of {} bytes: the Rust's elements {:.1} ms, our judgement {:.1} ms (best of 5).", tree.len(), ms(rust), ms(ours));
}

fn timed(tree: &[u8]) -> Duration {
    let start = Instant::now();
    std::hint::black_box(ours::tree(std::hint::black_box(tree)));
    start.elapsed()
}
