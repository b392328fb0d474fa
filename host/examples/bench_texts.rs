//! Time of one text of minutes and of one time: `cargo run --release --offline --example bench_texts`.

use std::hint::black_box;
use std::time::Instant;

const CALLS: u32 = 10_000;
const RUNS: usize = 50;

/// ns a call, the best of the runs.
fn best(call: impl Fn(u32)) -> f64 {
    let once = |_| {
        let start = Instant::now();
        (0..CALLS).for_each(|n| call(black_box(n)));
        start.elapsed().as_nanos()
    };
    (0..RUNS).map(once).min().unwrap_or(0) as f64 / f64::from(CALLS)
}

fn main() {
    println!("duration: {:.1} ns", best(|n| drop(black_box(mspdi::duration(i64::from(n) * 7)))));
    println!("time: {:.1} ns", best(|n| drop(black_box(mspdi::time(n % 1441)))));
}
