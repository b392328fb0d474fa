//! Models through our check, outline and day sheet, and through those that `compare/src` has from the paper. A case is one model through the check and
//! the outline, with three day sheets.

use oracle::generate::{packed_model, packed_odd, packed_old, read_one, shaped};
use oracle::model::{self, FIRST_DAY, LAST_DAY, Model};
use oracle::rng::Rng;
use oracle::{check, hex, outline, sheet};

use crate::{ours, shrink};

/// At most so many differences are printed.
const SHOWN: u64 = 5;
/// A longer input is printed as it is, by its first bytes.
const SHRUNK: usize = 20_000;
/// Every bit of a model up to this length is flipped.
const SMALL: usize = 260;

/// How much room a call is lent: none, one place less than it needs, as much as it needs, or more.
#[derive(Clone, Copy)]
enum Room {
    None,
    Short,
    Right,
    Long,
}

impl Room {
    fn any(rng: &mut Rng) -> Room {
        *rng.pick(&[&Room::None, &Room::Short, &Room::Right, &Room::Right, &Room::Long, &Room::Long])
    }

    fn of(self, need: usize) -> usize {
        match self {
            Room::None => 0,
            Room::Short => need.saturating_sub(1),
            Room::Right => need,
            Room::Long => need + 3,
        }
    }
}

struct Sheet {
    calendar: u32,
    date: i32,
    room: Room,
}

/// What is asked of a model.
struct Asked {
    check_work: usize,
    rows: Room,
    work: Room,
    sheets: [Sheet; 3],
}

impl Asked {
    fn any(rng: &mut Rng, model: Option<&Model>) -> Asked {
        Asked { check_work: rng.below(200), rows: Room::any(rng), work: Room::any(rng), sheets: std::array::from_fn(|_| any_sheet(rng, model)) }
    }
}

/// A calendar's row, at times the count of calendars or past all, and a date: one of the calendar's, one beside it, or one near the ends of the years.
fn any_sheet(rng: &mut Rng, model: Option<&Model>) -> Sheet {
    let count = model.map_or(1, |m| m.calendars.len());
    let row = match rng.below(10) {
        0 => count,
        1 => u32::MAX as usize,
        _ => rng.below(count),
    };
    let ends = [FIRST_DAY - 1, FIRST_DAY, FIRST_DAY + 1, LAST_DAY - 1, LAST_DAY, LAST_DAY + 1, i32::MIN, i32::MAX, -1, 0];
    let mut dates = vec![ends[rng.below(ends.len())], rng.range(20_450, 20_472) as i32];
    if let Some(calendar) = model.and_then(|m| m.calendars.get(row)) {
        let own = calendar.exceptions.iter().map(|(date, _)| date);
        dates.extend(calendar.holidays.iter().chain(&calendar.extra_days).chain(own));
    }
    let date = dates[rng.below(dates.len())];
    Sheet { calendar: row as u32, date: if rng.one_in(6) { date.wrapping_add(1) } else { date }, room: Room::any(rng) }
}

/// What a call leaves: its number, its count, and each lent slice.
#[derive(Debug, PartialEq)]
struct Left<T> {
    number: u32,
    count: u64,
    lent: Vec<Vec<T>>,
}

/// What document 01 asks of a result, of `each` places a unit of the count, or of a refusal, in slices of these lengths, of which the first takes the result.
fn expected<T: Copy + Default>(result: Result<Vec<T>, u32>, each: usize, lengths: &[usize]) -> Left<T> {
    let mut lent: Vec<Vec<T>> = lengths.iter().map(|n| vec![T::default(); *n]).collect();
    match result {
        Ok(result) => {
            lent[0][..result.len()].copy_from_slice(&result);
            Left { number: 0, count: (result.len() / each) as u64, lent }
        }
        Err(number) => Left { number, count: 0, lent },
    }
}

/// A model's bytes, and the model if they are one.
struct Case<'a> {
    bytes: &'a [u8],
    model: Option<Model>,
}

/// Words that are not zeros.
fn filled(length: usize) -> Vec<u32> {
    vec![0xAAAA_AAAA; length]
}

impl Case<'_> {
    fn new(bytes: &[u8]) -> Case<'_> {
        Case { bytes, model: model::decode(bytes).ok() }
    }

    /// The words of rows and of work that the outline is lent; of bytes that are no model by what their head says, up to 50 activities.
    fn outline_room(&self, asked: &Asked) -> (usize, usize) {
        let said = self.bytes.get(4..8).map_or(0, |b| b.iter().fold(0, |n, b| n * 256 + usize::from(*b)));
        let count = self.model.as_ref().map_or(said.min(50), |m| m.activities.len());
        (asked.rows.of(2 * count), asked.work.of(4 * count))
    }

    fn check(&self, asked: &Asked) -> [Left<u32>; 2] {
        let number = self.model.as_ref().map_or(6, |m| if check::keeps_list(m) { 0 } else { 7 });
        let mut work = filled(asked.check_work);
        let said = ours::check(self.bytes, &mut work);
        let left = |number, work| Left { number, count: 0, lent: vec![work] };
        [left(number, vec![0; asked.check_work]), left(said, work)]
    }

    fn outline(&self, asked: &Asked) -> [Left<u32>; 2] {
        let (rows_len, work_len) = self.outline_room(asked);
        let words = |m: &Model| match m.activities.len() {
            n if rows_len < 2 * n || work_len < 4 * n => Err(9),
            _ => Ok(outline::rows(m).into_iter().flat_map(|(row, level)| [row, level]).collect()),
        };
        let wanted = expected(self.model.as_ref().map_or(Err(6), words), 2, &[rows_len, work_len]);
        let (mut rows, mut work) = (filled(rows_len), filled(work_len));
        let (number, count) = ours::outline(self.bytes, &mut rows, &mut work);
        [wanted, Left { number, count, lent: vec![rows, work] }]
    }

    fn sheet(&self, asked: &Sheet) -> [Left<u8>; 2] {
        let sheet = self.model.as_ref().map_or(Err(6), |m| sheet::sheet_of(m, asked.calendar, asked.date));
        let room = asked.room.of(sheet.as_ref().map_or(8, Vec::len));
        let wanted = expected(sheet.and_then(|s| if s.len() <= room { Ok(s) } else { Err(9) }), 1, &[room]);
        let mut buffer = vec![0xAA; room];
        let (number, written) = ours::day_sheet(self.bytes, asked.calendar, asked.date, &mut buffer);
        [wanted, Left { number, count: written, lent: vec![buffer] }]
    }
}

/// How often each number was the right one, of each call, and how many cases there were and how many differ.
#[derive(Default)]
struct Tally {
    cases: u64,
    check: [u64; 10],
    outline: [u64; 10],
    sheet: [u64; 10],
    differ: u64,
}

fn told<T: std::fmt::Debug>(call: &str, [wanted, said]: &[Left<T>; 2]) -> String {
    format!("{call}: by document 01 {wanted:?}, ours {said:?}")
}

/// The first call of a case whose answers differ, and both answers.
fn difference(bytes: &[u8], asked: &Asked, tally: &mut Tally) -> Option<String> {
    let case = Case::new(bytes);
    let check = case.check(asked);
    tally.check[check[0].number as usize] += 1;
    let outline = case.outline(asked);
    tally.outline[outline[0].number as usize] += 1;
    let mut found = Vec::new();
    found.extend((check[0] != check[1]).then(|| told("check", &check)));
    found.extend((outline[0] != outline[1]).then(|| told("outline", &outline)));
    for one in &asked.sheets {
        let sheet = case.sheet(one);
        tally.sheet[sheet[0].number as usize] += 1;
        found.extend((sheet[0] != sheet[1]).then(|| told(&format!("sheet of calendar {} on {}", one.calendar, one.date), &sheet)));
    }
    found.into_iter().next()
}

impl Tally {
    /// Runs one case; a difference is printed with its smallest input.
    fn run(&mut self, bytes: &[u8], rng: &mut Rng) {
        let asked = Asked::any(rng, model::decode(bytes).ok().as_ref());
        self.run_asked(bytes, &asked);
    }

    fn run_asked(&mut self, bytes: &[u8], asked: &Asked) {
        self.cases += 1;
        if let Some(what) = difference(bytes, asked, self) {
            self.differ += 1;
            if self.differ <= SHOWN {
                show(bytes, asked, &what);
            }
        }
    }

    /// Each bit flipped, cut at each byte, and a byte put in at each place.
    fn run_changed(&mut self, bytes: &[u8], rng: &mut Rng) {
        let mut other = bytes.to_vec();
        for bit in 0..8 * bytes.len() {
            other[bit / 8] ^= 0x80 >> (bit % 8);
            self.run(&other, rng);
            other[bit / 8] = bytes[bit / 8];
        }
        for end in 0..bytes.len() {
            self.run(&bytes[..end], rng);
        }
        for at in 0..=bytes.len() {
            let byte = if rng.one_in(2) { 0 } else { rng.next() as u8 };
            self.run(&[&bytes[..at], &[byte], &bytes[at..]].concat(), rng);
        }
    }
}

fn show(bytes: &[u8], asked: &Asked, what: &str) {
    if bytes.len() > SHRUNK {
        println!("a model of {} bytes, {}..: {what:.300}", bytes.len(), hex::encode(&bytes[..40]));
        return;
    }
    let least = shrink::smallest_model(bytes, |b| difference(b, asked, &mut Tally::default()).is_some());
    let what = difference(&least, asked, &mut Tally::default()).unwrap_or_default();
    println!("model {}: {what:.1000}", hex::encode(&least));
}

/// A head of small counts and bytes of few bits behind it, or bytes of any kind.
fn random_bytes(rng: &mut Rng) -> Vec<u8> {
    let long = rng.below(200);
    if rng.one_in(2) {
        return (0..long).map(|_| rng.next() as u8).collect();
    }
    let head = (0..6).flat_map(|_| [0, 0, 0, rng.below(3) as u8]).collect::<Vec<u8>>();
    head.into_iter().chain((0..long).map(|_| if rng.one_in(3) { rng.next() as u8 & rng.next() as u8 } else { 0 })).collect()
}

/// Whether the kth model is one in the form before E2 (document 02).
fn is_old(k: u64) -> bool {
    k % 20 == 19
}

/// The kth model: one that the Rust reads, a made-up one, an odd one, one in the form before E2, or random bytes.
pub fn random_model(rng: &mut Rng, k: u64) -> Vec<u8> {
    match k % 10 {
        0 | 1 => read_one(rng),
        2..=4 => packed_model(rng),
        5..=8 => packed_odd(rng, (k / 10 * 4 + k % 10 - 5) as usize),
        _ if is_old(k) => packed_old(rng),
        _ => random_bytes(rng),
    }
}

/// A model of at most `SMALL` bytes.
fn small(rng: &mut Rng, k: u64) -> Vec<u8> {
    loop {
        let count = 1 + rng.below(4) as u32;
        let bytes = match k % 4 {
            0 => packed_model(rng),
            1 if k % 8 == 5 => packed_old(rng),
            1 => read_one(rng),
            _ => shaped(rng, (k / 4) as usize, count).encode(),
        };
        if bytes.len() <= SMALL {
            return bytes;
        }
    }
}

/// Very many activities: chains of parents, circles, all below one. They run on a thread of 256 KiB of stack, each in slices that are just right.
fn run_large(tally: &mut Tally) {
    let asked = Asked {
        check_work: 64,
        rows: Room::Right,
        work: Room::Right,
        sheets: [(0, 0), (0, LAST_DAY), (1, FIRST_DAY)].map(|(calendar, date)| Sheet { calendar, date, room: Room::Long }),
    };
    let on_thread = |tally: &mut Tally| {
        let mut rng = Rng::new(1);
        for shape in 0..10 {
            tally.run_asked(&shaped(&mut rng, shape, 100_000).encode(), &asked);
        }
        // Ids that are equal far apart, and ids that all differ.
        let mut many = shaped(&mut rng, 3, 1000);
        tally.run_asked(&many.encode(), &asked);
        many.activities[999].id = many.activities[0].id.clone();
        tally.run_asked(&many.encode(), &asked);
    };
    std::thread::scope(|scope| {
        let thread = std::thread::Builder::new().stack_size(256 * 1024).spawn_scoped(scope, || on_thread(tally));
        thread.expect("a thread").join().expect("the large models run");
    });
}

/// How many differ; each is printed with its smallest input.
pub fn compare(seed: u64, count: u64) -> u64 {
    let tally = &mut Tally::default();
    run_large(tally);
    let (mut old, mut old_decode) = (0, 0);
    for k in 0..count / 2 {
        let rng = &mut Rng::new(seed.wrapping_add(k << 32));
        let bytes = random_model(rng, k);
        if is_old(k) {
            old += 1;
            old_decode += u64::from(model::decode(&bytes).is_ok());
        }
        tally.run(&bytes, rng);
    }
    let mut k = 0;
    while tally.cases < count {
        let rng = &mut Rng::new(seed.wrapping_add(k << 32));
        let bytes = small(rng, k);
        tally.run_changed(&bytes, rng);
        k += 1;
    }
    let [check, outline, sheet] = [&tally.check, &tally.outline, &tally.sheet];
    println!(
        "models: {} cases ({k} small models with each bit flipped, cut and lengthened at each byte; {old} in the form before E2, {old_decode} of which decode); check 0: {}, 6: {}, 7: {}; outline 0: {}, 6: {}, 9: {}; day sheet 0: {}, 6: {}, 8: {}, 9: {}; {} differ",
        tally.cases, check[0], check[6], check[7], outline[0], outline[6], outline[9], sheet[0], sheet[6], sheet[8], sheet[9], tally.differ
    );
    tally.differ
}
