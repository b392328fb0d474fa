//! The oracle on the command line. See compare/README.md.

use std::io::{self, BufRead, BufWriter, Read, Write};
use std::process::ExitCode;

use oracle::leaf::{self, Kind};
use oracle::rng::Rng;
use oracle::{bench, check, exception, generate, hex, outline, read, selftest, sheet};

const USAGE: &str = "oracle read | readlines | leaf KIND | durtext | timetext | days | nth Y M ITEM POSITION | check | outline | sheet
oracle gen SEED COUNT | genleaf KIND SEED COUNT | genrule SEED COUNT | genmodel SEED COUNT | genodd SEED COUNT
oracle fixed KIND | limit [NAME]
oracle selftest [COUNT] | bigtree TASKS FIELDS | bench-tree FILE | bench-read FILE
KIND: date time duration number i64 u64 u32 u16 i32 trim utf8";

fn main() -> ExitCode {
    let args: Vec<String> = std::env::args().skip(1).collect();
    let args: Vec<&str> = args.iter().map(String::as_str).collect();
    match run(&args) {
        Ok(true) => ExitCode::SUCCESS,
        // A reader that has had enough, as `head`.
        Err(e) if e.kind() == io::ErrorKind::BrokenPipe => ExitCode::SUCCESS,
        Ok(false) => ExitCode::FAILURE,
        Err(e) => {
            eprintln!("oracle: {e}");
            ExitCode::FAILURE
        }
    }
}

fn run(args: &[&str]) -> io::Result<bool> {
    match args {
        ["read"] => say(&model_line(&all_of_stdin()?))?,
        ["readlines"] => each_bytes(model_line)?,
        ["leaf", kind] => {
            let kind = kind_named(kind)?;
            each_bytes(|bytes| leaf::answer(kind, bytes))?;
        }
        ["durtext"] => each_line(|line| line.trim().parse().ok().map(|n| or_refused(leaf::duration_text(n))))?,
        ["timetext"] => each_line(|line| line.trim().parse().ok().map(|n| or_refused(leaf::time_text(n))))?,
        ["days"] => each_bytes(days_line)?,
        ["nth", y, m, item, position] => say(&nth_line(&[y, m, item, position])?)?,
        ["check"] => each_bytes(|model| check::check(model).err().unwrap_or(0).to_string())?,
        ["outline"] => each_bytes(outline_line)?,
        ["sheet"] => each_line(sheet_line)?,
        ["gen", seed, count] => generated(seed, count, generate::packed_tree)?,
        ["genrule", seed, count] => generated(seed, count, generate::packed_rule)?,
        ["genmodel", seed, count] => generated(seed, count, generate::packed_model)?,
        ["genodd", seed, count] => numbered(seed, count, generate::packed_odd)?,
        ["genleaf", kind, seed, count] => {
            let kind = kind_named(kind)?;
            generated(seed, count, |rng| generate::leaf_text(kind, rng))?;
        }
        ["fixed", kind] => say_all(generate::fixed_texts(kind_named(kind)?).iter().map(|t| hex::encode(t)))?,
        ["limit"] => say_all(generate::LIMITS.iter().map(|name| name.to_string()))?,
        ["limit", name] => write_bytes(&generate::limit_tree(name).ok_or_else(|| wrong("no such limit; `oracle limit` lists them"))?)?,
        ["selftest"] => return Ok(selftest::run(5_000)),
        ["selftest", count] => return Ok(selftest::run(number(count)?)),
        ["bigtree", tasks, fields] => write_bytes(&bench::big_tree(number(tasks)?, number(fields)?))?,
        ["bench-tree", file] => bench_line("the Rust's elements", file, bench::bench_tree)?,
        ["bench-read", file] => bench_line("the Rust's read", file, bench::bench_read)?,
        _ => return Err(wrong(USAGE)),
    }
    Ok(true)
}

fn wrong(message: &str) -> io::Error {
    io::Error::new(io::ErrorKind::InvalidInput, message)
}

fn number<T: std::str::FromStr>(text: &str) -> io::Result<T> {
    text.parse().map_err(|_| wrong(&format!("no number: {text}")))
}

fn kind_named(name: &str) -> io::Result<Kind> {
    Kind::named(name).ok_or_else(|| wrong(USAGE))
}

// ---- answers as lines

fn or_refused(answer: Result<String, u32>) -> String {
    answer.unwrap_or_else(|n| format!("refused {n}"))
}

fn model_line(tree: &[u8]) -> String {
    or_refused(read::read_model(tree).map(|model| hex::encode(&model)))
}

fn days_line(tree: &[u8]) -> String {
    or_refused(exception::days(tree).map(|days| days.map_or("skipped".into(), |days| joined(days))))
}

fn outline_line(model: &[u8]) -> String {
    or_refused(outline::outline(model).map(|rows| joined(rows.iter().map(|(row, level)| format!("{row}:{level}")))))
}

/// The items with blanks between them; `-` where there is none.
fn joined<T: ToString>(items: impl IntoIterator<Item = T>) -> String {
    let items: Vec<String> = items.into_iter().map(|item| item.to_string()).collect();
    if items.is_empty() { "-".into() } else { items.join(" ") }
}

/// `MODEL CALENDAR DATE`: the sheet.
fn sheet_line(line: &str) -> Option<String> {
    let mut words = line.split_whitespace();
    let model = hex::decode(words.next()?)?;
    let (calendar, date) = (words.next()?.parse().ok()?, words.next()?.parse().ok()?);
    Some(or_refused(sheet::sheet(&model, calendar, date).map(|s| hex::encode(&s))))
}

fn nth_line(args: &[&str; 4]) -> io::Result<String> {
    let day = exception::nth_in_month(number(args[0])?, number(args[1])?, number(args[2])?, number(args[3])?);
    Ok(day.map_or("none".into(), |d| d.to_string()))
}

// ---- input and output

fn all_of_stdin() -> io::Result<Vec<u8>> {
    let mut bytes = Vec::new();
    io::stdin().lock().read_to_end(&mut bytes)?;
    Ok(bytes)
}

/// One answer for each line; a line that cannot be read is an error.
fn each_line(answer: impl Fn(&str) -> Option<String>) -> io::Result<()> {
    let mut out = BufWriter::new(io::stdout().lock());
    for line in io::stdin().lock().lines() {
        let line = line?;
        writeln!(out, "{}", answer(&line).ok_or_else(|| wrong(&format!("cannot read the line: {line:.60}")))?)?;
    }
    out.flush()
}

fn each_bytes(answer: impl Fn(&[u8]) -> String) -> io::Result<()> {
    each_line(|line| hex::decode(line).map(|bytes| answer(&bytes)))
}

fn say(line: &str) -> io::Result<()> {
    writeln!(io::stdout(), "{line}")
}

fn say_all(lines: impl Iterator<Item = String>) -> io::Result<()> {
    let mut out = BufWriter::new(io::stdout().lock());
    for line in lines {
        writeln!(out, "{line}")?;
    }
    out.flush()
}

fn write_bytes(bytes: &[u8]) -> io::Result<()> {
    let mut out = io::stdout().lock();
    out.write_all(bytes)?;
    out.flush()
}

/// `count` random inputs as hex; each has its own generator, so that input k is the same for every count.
fn generated(seed: &str, count: &str, make: impl Fn(&mut Rng) -> Vec<u8>) -> io::Result<()> {
    numbered(seed, count, |rng, _| make(rng))
}

/// The same of inputs that are made by their number too.
fn numbered(seed: &str, count: &str, make: impl Fn(&mut Rng, usize) -> Vec<u8>) -> io::Result<()> {
    let (seed, count): (u64, u64) = (number(seed)?, number(count)?);
    say_all((0..count).map(|k| hex::encode(&make(&mut Rng::new(seed.wrapping_add(k << 32)), k as usize))))
}

fn bench_line(what: &str, file: &str, run: impl Fn(&[u8]) -> std::time::Duration) -> io::Result<()> {
    let tree = std::fs::read(file)?;
    let time = run(&tree);
    say(&format!("{what}: {} bytes, best of 5: {:.1} ms", tree.len(), time.as_secs_f64() * 1e3))
}
