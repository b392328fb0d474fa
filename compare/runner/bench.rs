//! Both sides' time on the same texts and on the same large models, in one process: the best of several runs, as tables in Markdown.

use std::hint::black_box;
use std::str::FromStr;
use std::time::{Duration, Instant};

use mkperth_mspxml::exposed;
use oracle::generate::{large_model, leaf_text};
use oracle::leaf::Kind;
use oracle::rng::Rng;
use oracle::{check, model, outline, sheet};

use crate::ours;
use crate::words::check_words;

const TEXTS: u64 = 1000;
const RUNS: usize = 300;

/// A text as plans mostly have it.
fn usual(kind: Kind, rng: &mut Rng) -> String {
    match kind {
        Kind::Date => format!("20{}-{:02}-{:02}T08:00:00", rng.range(20, 39), rng.range(1, 12), rng.range(1, 28)),
        Kind::Time => format!("{:02}:{:02}:00", rng.range(0, 23), rng.range(0, 59)),
        Kind::Duration => format!("PT{}H{}M0S", rng.range(0, 400), rng.range(0, 59)),
        Kind::Number => format!("{}.{:02}", rng.range(0, 99_999), rng.range(0, 99)),
        Kind::I64 | Kind::I32 => rng.range(-9_999, 99_999).to_string(),
        Kind::U64 | Kind::U32 => rng.range(0, 99_999).to_string(),
        Kind::U16 => rng.range(0, 999).to_string(),
        Kind::Trim | Kind::Utf8 => format!(" Reinforcement of the slab, floor {}, axes C to F", rng.range(1, 99)),
    }
}

fn usual_texts(kind: Kind, seed: u64) -> Vec<String> {
    let mut rng = Rng::new(seed);
    (0..TEXTS).map(|_| usual(kind, &mut rng)).collect()
}

/// Texts as the comparison makes them: many are odd, or are none.
fn odd_texts(kind: Kind, seed: u64) -> Vec<String> {
    let mut rng = Rng::new(seed);
    std::iter::repeat_with(|| String::from_utf8(leaf_text(kind, &mut rng))).flatten().take(TEXTS as usize).collect()
}

/// ns a text, the best of the runs.
fn best(texts: &[String], run: &dyn Fn(&str)) -> f64 {
    let once = |_| {
        let start = Instant::now();
        texts.iter().for_each(|text| run(black_box(text)));
        start.elapsed().as_nanos()
    };
    (0..RUNS).map(once).min().unwrap_or(0) as f64 / texts.len() as f64
}

type Side = Box<dyn Fn(&str)>;

// Small functions of std stand behind a call here, as all others do.

#[inline(never)]
fn parsed<T: FromStr>(text: &str) -> Option<T> {
    text.parse().ok()
}

#[inline(never)]
fn trimmed(text: &str) -> &str {
    text.trim()
}

#[inline(never)]
fn is_utf8(bytes: &[u8]) -> bool {
    std::str::from_utf8(bytes).is_ok()
}

/// The Rust's function of a kind, and ours.
fn sides(kind: Kind) -> (Side, Side) {
    fn side<T>(run: impl Fn(&str) -> T + 'static) -> Side {
        Box::new(move |text| drop(black_box(run(text))))
    }
    match kind {
        Kind::Date => (side(exposed::date_of), side(|t| ours::date(t.as_bytes()))),
        Kind::Time => (side(exposed::time_of), side(|t| ours::time(t.as_bytes()))),
        Kind::Duration => (side(exposed::duration_of), side(|t| ours::duration(t.as_bytes()))),
        Kind::Number => (side(parsed::<f64>), side(|t| ours::number(t.as_bytes()))),
        Kind::I64 => (side(parsed::<i64>), side(|t| ours::whole_i64(t.as_bytes()))),
        Kind::U64 => (side(parsed::<u64>), side(|t| ours::whole_u64(t.as_bytes()))),
        Kind::U32 => (side(parsed::<u32>), side(|t| ours::whole_u32(t.as_bytes()))),
        Kind::U16 => (side(parsed::<u16>), side(|t| ours::whole_u16(t.as_bytes()))),
        Kind::I32 => (side(parsed::<i32>), side(|t| ours::whole_i32(t.as_bytes()))),
        Kind::Trim => (side(|t| trimmed(t).len()), side(|t| ours::trim(t.as_bytes()))),
        Kind::Utf8 => (side(|t| is_utf8(t.as_bytes())), side(|t| ours::utf8(t.as_bytes()))),
    }
}

/// Prints the table.
pub fn table(seed: u64) {
    println!("| leaf | texts | the Rust, ns | ours, ns | ours / the Rust |\n|---|---|---|---|---|");
    for (name, kind) in Kind::ALL {
        let (rust, ours) = sides(kind);
        for (which, texts) in [("usual", usual_texts(kind, seed)), ("odd", odd_texts(kind, seed))] {
            let (rust, ours) = (best(&texts, &rust), best(&texts, &ours));
            println!("| {name} | {which} | {rust:.1} | {ours:.1} | {:.2} |", ours / rust);
        }
    }
}

// ---- models

#[repr(C)]
#[derive(Default)]
struct Timespec {
    seconds: i64,
    nanoseconds: i64,
}

unsafe extern "C" {
    fn clock_gettime(clock: i32, time: *mut Timespec) -> i32;
}

/// The processor time of this thread: runs of many milliseconds are seldom left alone on a machine that does other work too.
fn thread_time() -> Duration {
    const CLOCK_THREAD_CPUTIME_ID: i32 = 3;
    let mut time = Timespec::default();
    // Sound: `time` is a local of the form that the call fills.
    unsafe { clock_gettime(CLOCK_THREAD_CPUTIME_ID, &mut time) };
    Duration::new(time.seconds as u64, time.nanoseconds as u32)
}

/// One run's processor time; what it gives is dropped outside it.
pub fn timed<T>(run: impl FnOnce() -> T) -> Duration {
    let start = thread_time();
    let result = black_box(run());
    let time = thread_time() - start;
    drop(result);
    time
}

/// Prints a line: the best time of each side, which take turns.
fn line<A, B>(what: &str, activities: usize, runs: usize, rust: impl Fn() -> A, mut ours: impl FnMut() -> B) {
    let mut best = [Duration::MAX; 2];
    for _ in 0..runs {
        best[0] = best[0].min(timed(&rust));
        best[1] = best[1].min(timed(&mut ours));
    }
    let [rust, ours] = best.map(|time| time.as_secs_f64() * 1e3);
    println!("| {what} | {activities} | {rust:.3} | {ours:.3} | {:.2} |", ours / rust);
}

/// Prints the table of models: decoding, the outline with its decoding and without, a day sheet, and the check.
pub fn models() {
    println!("\n| of a model | activities | from the paper in Rust, ms | ours, ms | ours / the Rust |\n|---|---|---|---|---|");
    for activities in [10_000, 100_000] {
        let bytes = large_model(activities).encode();
        let bytes = black_box(bytes.as_slice());
        let (mut rows, mut work) = (vec![0; 2 * activities], vec![0; 4 * activities]);
        let decoded = || model::decode(bytes);
        line("decoding", activities, 15, decoded, || assert!(ours::decodes(bytes)));
        let outlined = || decoded().map(|m| (outline::rows(&m), m));
        line("outline, with decoding", activities, 15, outlined, || assert_eq!(ours::outline(bytes, &mut rows, &mut work).0, 0));
        line("day sheet", activities, 15, || sheet::sheet(bytes, 3, 20_536), || assert_eq!(ours::day_sheet(bytes, 3, 20_536, &mut [0; 64]).0, 0));
        rows_alone(bytes, activities, &mut rows, &mut work);
        let mut words = vec![0; check_words(bytes)];
        line("check", activities, 15, || check::check(bytes), || assert_eq!(ours::check(bytes, &mut words), 0));
    }
    println!("\nThe models have {} and {} bytes.", large_model(10_000).encode().len(), large_model(100_000).encode().len());
}

/// The rows of a model that is decoded before; ours by the difference from a call that is refused after its decoding.
fn rows_alone(bytes: &[u8], activities: usize, rows: &mut [u32], work: &mut [u32]) {
    let Ok(decoded) = model::decode(bytes) else { return };
    let mut best = [Duration::MAX; 3];
    for _ in 0..15 {
        best[0] = best[0].min(timed(|| outline::rows(&decoded)));
        best[1] = best[1].min(timed(|| assert_eq!(ours::outline(bytes, rows, work).0, 0)));
        best[2] = best[2].min(timed(|| assert_eq!(ours::outline(bytes, &mut [], &mut []).0, 9)));
    }
    let [rust, whole, refused] = best.map(|time| time.as_secs_f64() * 1e3);
    let ours = whole - refused;
    println!("| outline, its rows alone | {activities} | {rust:.3} | {ours:.3} | {:.2} |", ours / rust);
}
