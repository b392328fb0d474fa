//! The texts of minutes and of times, into buffers of every length.

use oracle::leaf;
use oracle::rng::Rng;

use crate::ours;

const LONGEST: usize = 24;

/// What a call leaves: its number, what was written, and the buffer.
#[derive(PartialEq)]
struct Left {
    number: u32,
    written: u64,
    buffer: Vec<u8>,
}

/// What document 01 asks of a text, or a refusal, in a buffer of that length: zeros behind the text, and zeros all over on a refusal.
fn expected(text: Result<String, u32>, length: usize) -> Left {
    let mut buffer = vec![0; length];
    match text {
        Ok(text) if text.len() <= length => {
            buffer[..text.len()].copy_from_slice(text.as_bytes());
            Left { number: 0, written: text.len() as u64, buffer }
        }
        Ok(_) => Left { number: 9, written: 0, buffer },
        Err(number) => Left { number, written: 0, buffer },
    }
}

fn called(length: usize, call: impl Fn(&mut [u8]) -> (u32, u64)) -> Left {
    let mut buffer = vec![0xAA; length];
    let (number, written) = call(&mut buffer);
    Left { number, written, buffer }
}

/// The ends of the ranges, every minute of a day, and random minutes.
fn minutes(seed: u64, count: u64) -> impl Iterator<Item = i64> {
    let ends = [i64::MIN, -1_000_000_000, 999_999_999, 1_000_000_000, 1_000_000_001, 1 << 32, i64::MAX];
    let mut rng = Rng::new(seed);
    (-60..=1500).chain(ends).chain((0..count).map(move |_| rng.range(-1000, 1_000_001_000)))
}

/// How many differ.
pub fn compare(seed: u64, count: u64) -> u64 {
    let duration = |m: i64, length: usize| called(length, |b| ours::duration_text(m, b)) != expected(leaf::duration_text(m), length);
    let time = |m: u32, length: usize| called(length, |b| ours::time_text(m, b)) != expected(leaf::time_text(m), length);
    let mut differ = 0;
    let mut calls = 0;
    for (at, m) in minutes(seed, count).enumerate() {
        let lengths = if at < 1600 { 0..=LONGEST } else { LONGEST..=LONGEST };
        for length in lengths {
            let as_time = u32::try_from(m).unwrap_or(u32::MAX);
            calls += 2;
            if duration(m, length) || time(as_time, length) {
                differ += 1;
                println!("minutes {m}, buffer of {length}: the texts differ");
            }
        }
    }
    println!("texts of durations and times: {calls} calls, {differ} differ");
    differ
}
