//! Texts of every kind: the fixed ones, and random ones with a seed.

use oracle::generate::{fixed_texts, leaf_text};
use oracle::hex;
use oracle::leaf::{self, Kind};
use oracle::rng::Rng;

use crate::{ours, shrink};

/// At most so many differences of a kind are printed.
const SHOWN: u64 = 5;

fn differs(kind: Kind, text: &[u8]) -> bool {
    let rust = leaf::answer(kind, text);
    rust != "not-utf8" && rust != ours::answer(kind, text)
}

/// How many answers differ; each is printed with its smallest input.
pub fn compare(seed: u64, count: u64) -> u64 {
    Kind::ALL.into_iter().map(|(name, kind)| compare_kind(name, kind, seed, count)).sum()
}

fn compare_kind(name: &str, kind: Kind, seed: u64, count: u64) -> u64 {
    let random = (0..count).map(|k| leaf_text(kind, &mut Rng::new(seed.wrapping_add(k << 32))));
    let mut differ = 0;
    let mut texts = 0;
    for text in fixed_texts(kind).into_iter().chain(random) {
        texts += 1;
        if differs(kind, &text) {
            differ += 1;
            if differ <= SHOWN {
                show(name, kind, &text);
            }
        }
    }
    println!("{name}: {texts} texts, {differ} differ");
    differ
}

fn show(name: &str, kind: Kind, text: &[u8]) {
    let text = shrink::smallest(text, |t| differs(kind, t));
    println!(
        "{name} {} {:?}: the Rust {}, ours {}",
        hex::encode(&text),
        String::from_utf8_lossy(&text),
        leaf::answer(kind, &text),
        ours::answer(kind, &text)
    );
}
