//! The time of whole reads: the Rust's from the packed tree, its elements included, and ours on a thread of 256 KiB with the `work` that serves best. Processor
//! time, as other work may run beside.

use std::hint::black_box;
use std::time::Duration;

use oracle::bench::{big_tree, calendars_tree, far_days_tree, hours_tree, interleaved_tree, one_id_tree, sparse_tree};
use oracle::read::rust_read;

use crate::bench::timed;
use crate::ours;
use crate::words::work_words;

/// The Rust is run once only on trees that are longer: on 100,000 tasks it takes minutes.
const LONG: usize = 20_000_000;

/// Prints the table: plans of so many tasks with so many fields, tasks that all want one id, calendars of very many days, very many calendars.
pub fn table() {
    println!("\n| a plan read | bytes of its tree | the Rust, ms | ours, ms | ours / the Rust | ours a task, µs |\n|---|---|---|---|---|---|");
    line("1,000 tasks that all want one id", &one_id_tree(1_000), None, 1 << 22);
    line("a calendar of 1,000 exceptions, days interleaved", &interleaved_tree(), None, 1 << 26);
    line("2,000 calendars over one base", &calendars_tree(2_000), None, 1 << 22);
    line("8,000 calendars over one base", &calendars_tree(8_000), None, 1 << 24);
    line("5,000 days with hours over 5,000 of the base", &hours_tree(), None, 1 << 22);
    line("5,000 exceptions of a day with hours, far apart", &sparse_tree(), None, 1 << 22);
    line("500 calendars over a base with far days", &far_days_tree(500), None, 1 << 24);
    // 100,000 tasks of 60 fields would be more than 5,000,000 elements.
    let mut last = Duration::ZERO;
    for (tasks, fields) in [(100, 60), (1_000, 60), (10_000, 60), (1_000, 40), (10_000, 40), (100_000, 40)] {
        let tree = big_tree(tasks, fields);
        last = line(&format!("{tasks} tasks of {fields} fields"), &tree, Some(tasks), tree.len());
    }
    // The Rust is not run: its ids alone would have 5 GB.
    let ours = on_256_kib(&one_id_tree(100_000), 1 << 26, 9);
    println!(
        "\n100,000 tasks that all want one id, in a room of 64 MiB: refused with 9 in {:.1} ms, {:.2} times the plan above.",
        ms(ours),
        ms(ours) / ms(last)
    );
}

/// Prints a line, and gives our time.
fn line(what: &str, tree: &[u8], tasks: Option<usize>, room: usize) -> Duration {
    let ours = on_256_kib(tree, room, 0);
    let rust = best(if tree.len() > LONG { 1 } else { 3 }, || timed(|| rust_read(black_box(tree))));
    let each = tasks.map_or(String::new(), |tasks| format!("{:.2} ", 1e3 * ms(ours) / tasks as f64));
    println!("| {what} | {} | {:.2} | {:.2} | {:.2} | {each}|", tree.len(), ms(rust), ms(ours), ms(ours) / ms(rust));
    ours
}

fn ms(time: Duration) -> f64 {
    time.as_secs_f64() * 1e3
}

fn best(runs: usize, run: impl FnMut() -> Duration) -> Duration {
    std::iter::repeat_with(run).take(runs).min().unwrap_or_default()
}

/// Our shortest time of three runs on a thread of 256 KiB, which all end with this number.
fn on_256_kib(tree: &[u8], room: usize, number: u32) -> Duration {
    let (mut model, mut work) = (vec![0; room], vec![0; work_words(tree)]);
    let once = || timed(|| assert_eq!(ours::read(black_box(tree), &mut model, &mut work).0, number));
    std::thread::scope(|scope| {
        let thread = std::thread::Builder::new().stack_size(256 * 1024).spawn_scoped(scope, || best(3, once));
        thread.expect("a thread").join().expect("the tree is read")
    })
}
