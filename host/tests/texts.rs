//! The texts of minutes and times, and the refusals' numbers.

use mspdi::{Refusal, duration, time};

#[test]
fn minutes_have_texts() {
    assert_eq!(duration(0).as_deref(), Ok("PT0H0M0S"));
    assert_eq!(duration(59).as_deref(), Ok("PT0H59M0S"));
    assert_eq!(duration(510).as_deref(), Ok("PT8H30M0S"));
    assert_eq!(duration(1_000_000_000).as_deref(), Ok("PT16666666H40M0S"));
}

#[test]
fn minutes_outside_their_range_are_refused() {
    for minutes in [-1, 1_000_000_001, 1 << 32, i64::MIN, i64::MAX] {
        assert_eq!(duration(minutes), Err(Refusal::OutOfRange));
    }
}

#[test]
fn times_have_texts() {
    for minutes in 0..=1440 {
        assert_eq!(time(minutes), Ok(format!("{:02}:{:02}:00", minutes / 60, minutes % 60)));
    }
}

#[test]
fn times_outside_their_range_are_refused() {
    for minutes in [1441, 65_536, u32::MAX] {
        assert_eq!(time(minutes), Err(Refusal::OutOfRange));
    }
}

#[test]
fn refusals_have_numbers_and_words() {
    assert_eq!(Refusal::OutOfRange.number(), 8);
    assert_eq!(Refusal::OutOfRange.to_string(), "a value asked for lies outside its range (8)");
}
