//! Whole reads: random trees, damaged ones, those at the limits and TaskJuggler's, each read by both sides, into rooms of every kind.

use oracle::generate::{LIMITS, damaged, limit_tree, packed_tree};
use oracle::rng::Rng;
use oracle::{hex, read, tasks, tree};

use crate::trees::samples;
use crate::words::work_words;
use crate::{ours, shrink};

/// At most so many differences are printed.
const SHOWN: u64 = 5;

/// Room for the model: none, a byte too little, just enough, more.
#[derive(Clone, Copy)]
pub enum Room {
    No,
    Short,
    Right,
    Long,
}

impl Room {
    pub const ALL: [Room; 4] = [Room::No, Room::Short, Room::Right, Room::Long];

    /// Its bytes, for a model of that length.
    pub fn of(self, length: usize) -> usize {
        match self {
            Room::No => 0,
            Room::Short => length.saturating_sub(1),
            Room::Right => length,
            Room::Long => length + 5,
        }
    }
}

/// What a call leaves: its number, the count, the model's room and the work.
#[derive(Debug, PartialEq)]
pub struct Left {
    pub number: u32,
    pub written: u64,
    pub model: Vec<u8>,
    work: Vec<u32>,
}

/// The Rust's model of a tree, or the refusal.
pub type Answer = Result<Vec<u8>, u32>;

/// What a call must leave in a room and words of these lengths.
pub fn expected(answer: &Answer, room: usize, work: usize) -> Left {
    let (number, bytes) = match answer {
        Err(number) => (*number, &[][..]),
        Ok(bytes) if bytes.len() > room => (9, &[][..]),
        Ok(bytes) => (0, bytes.as_slice()),
    };
    let mut model = bytes.to_vec();
    model.resize(room, 0);
    Left { number, written: bytes.len() as u64, model, work: vec![0; work] }
}

/// What our call leaves in them.
pub fn said(tree: &[u8], room: usize, work: usize) -> Left {
    let (mut model, mut work) = (vec![0xAA; room], vec![0xAAAA_AAAA; work]);
    let (number, written) = ours::read(tree, &mut model, &mut work);
    Left { number, written, model, work }
}

/// Whether the sides differ on a tree in that room.
fn differs(tree: &[u8], answer: &Answer, room: Room, work: usize) -> Option<(Left, Left)> {
    let length = room.of(answer.as_ref().map_or(9, Vec::len));
    let (wanted, got) = (expected(answer, length, work), said(tree, length, work));
    (wanted != got).then_some((wanted, got))
}

#[derive(Default)]
struct Tally {
    trees: u64,
    /// Those read of which the Rust is asked with `1` for `true`.
    by_true: u64,
    /// Those read in which durations are not whole minutes.
    fractional: u64,
    calls: u64,
    numbers: [u64; 10],
    differ: u64,
}

impl Tally {
    fn count(&mut self, tree: &[u8], answer: &Answer) {
        self.trees += 1;
        self.by_true += u64::from(answer.is_ok() && *tree::for_the_rust(tree) != *tree);
        self.fractional += u64::from(answer.is_ok() && tasks::fractional(tree) > 0);
    }

    /// One tree in these rooms.
    fn run(&mut self, tree: &[u8], rooms: &[Room], work: usize) {
        let answer = read::read_model(tree);
        self.count(tree, &answer);
        for &room in rooms {
            self.calls += 1;
            let length = room.of(answer.as_ref().map_or(9, Vec::len));
            self.numbers[expected(&answer, length, 0).number as usize] += 1;
            if differs(tree, &answer, room, work).is_some() {
                self.differ += 1;
                if self.differ <= SHOWN {
                    show(tree, room, work);
                }
            }
        }
    }
}

/// Prints the smallest tree on which the sides differ in that room.
pub fn show(tree: &[u8], room: Room, work: usize) {
    let other = |tree: &[u8]| differs(tree, &read::read_model(tree), room, work);
    let least = if tree.len() > 20_000 { tree.to_vec() } else { shrink::smallest(tree, |tree| other(tree).is_some()) };
    if let Some((wanted, got)) = other(&least) {
        let short = &least[..least.len().min(2_000)];
        println!("tree {} of {} bytes: the Rust {wanted:.900?}, ours {got:.900?}", hex::encode(short), least.len());
    }
}

/// How many differ; each is printed with its smallest tree.
pub fn compare(seed: u64, count: u64) -> u64 {
    let mut tally = Tally::default();
    on_small_stack(&mut tally);
    for k in 0..count {
        let mut rng = Rng::new(seed.wrapping_add(k << 32));
        let tree = packed_tree(&mut rng);
        let tree = if k % 4 == 3 { damaged(&mut rng, &tree) } else { tree };
        // Mostly one that fits, and each other kind in turn.
        let room = Room::ALL[if k % 3 == 0 { (k / 3 % 4) as usize } else { 2 }];
        // Words of every number from none to more than the tables of a small tree need.
        let most = work_words(&tree).min(2_000) + 8;
        tally.run(&tree, &[room], (k as usize).wrapping_mul(7) % most);
    }
    let numbers: Vec<String> = (0..10).filter(|n| tally.numbers[*n] > 0).map(|n| format!("{n}: {}", tally.numbers[n])).collect();
    println!(
        "reads: {} trees, {} of them with `true` for a yes, {} with durations that are not whole minutes, in {} calls ({}), {} differ",
        tally.trees,
        tally.by_true,
        tally.fractional,
        tally.calls,
        numbers.join(", "),
        tally.differ
    );
    tally.differ
}

/// The trees at the limits and TaskJuggler's, on a thread of 256 KiB of stack for our side, in every room.
fn on_small_stack(tally: &mut Tally) {
    let trees = samples().into_iter().chain(LIMITS.iter().filter_map(|name| limit_tree(name)));
    for tree in trees {
        let answer = read::read_model(&tree);
        for (room, work) in Room::ALL.into_iter().flat_map(|room| [(room, 64), (room, work_words(&tree))]) {
            let run = || differs(&tree, &answer, room, work);
            let differ = std::thread::scope(|scope| {
                let thread = std::thread::Builder::new().stack_size(256 * 1024).spawn_scoped(scope, run);
                thread.expect("a thread").join().expect("the tree is read")
            });
            tally.calls += 1;
            let length = room.of(answer.as_ref().map_or(9, Vec::len));
            tally.numbers[expected(&answer, length, 0).number as usize] += 1;
            if differ.is_some() {
                tally.differ += 1;
                show(&tree, room, work);
            }
        }
        tally.count(&tree, &answer);
    }
}
