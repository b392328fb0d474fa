//! Both sides on the same inputs: the Rust, and ours through its static libraries. See compare/README.md.

mod bench;
mod custom_fields;
mod days;
mod leaves;
mod lengths;
mod models;
mod ours;
mod plans;
mod reads;
mod shrink;
mod trees;
#[path = "../../host/src/words.rs"]
mod words;
mod written;

use std::process::ExitCode;

const USAGE: &str = "runner [SEED [COUNT [PART]]]   SEED: of the random inputs, by default 1; COUNT: random texts of each kind, by default 200000;
a tenth as many trees judged, as many read, half as many pairs that differ in custom fields, a hundredth as many read with every number of words, five times as
many models and rules; PART: texts, trees, reads, custom, lengths, models, days or times alone, or plans, the table of plans read alone; by default all";

const PARTS: [&str; 10] = ["all", "texts", "trees", "reads", "custom", "lengths", "models", "days", "times", "plans"];

fn main() -> ExitCode {
    let words: Vec<String> = std::env::args().skip(1).collect();
    let number = |at: usize, usual: u64| words.get(at).map_or(Ok(usual), |word| word.parse::<u64>());
    let part = words.get(2).map_or("all", String::as_str);
    let (Ok(seed), Ok(count), true, ..=3) = (number(0, 1), number(1, 200_000), PARTS.contains(&part), words.len()) else {
        eprintln!("{USAGE}");
        return ExitCode::FAILURE;
    };
    let asked = |name: &str| part == name || part == "all";
    let mut differ = 0;
    if asked("texts") {
        differ += leaves::compare(seed, count) + written::compare(seed, count);
    }
    if asked("trees") {
        differ += trees::compare(seed, count / 10);
    }
    if asked("reads") {
        differ += reads::compare(seed, count);
    }
    if asked("custom") {
        differ += custom_fields::compare(seed, count / 2);
    }
    if asked("lengths") {
        differ += lengths::compare(seed, count / 100);
    }
    if asked("models") {
        differ += models::compare(seed, count * 5);
    }
    if asked("days") {
        differ += days::compare(seed, count * 5);
    }
    println!("\n{differ} differ in all\n");
    if asked("times") {
        bench::table(seed);
        trees::bench();
        bench::models();
        days::bench(seed);
    }
    if asked("times") || part == "plans" {
        plans::table();
    }
    if differ == 0 { ExitCode::SUCCESS } else { ExitCode::FAILURE }
}
