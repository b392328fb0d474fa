//! Random exceptions: all types, ranges over the years 0 to 9999, every clamp.

use super::texts;
use crate::rng::Rng;
use crate::tree::Node;

const YEAR_0: i64 = -719_528;
const LAST: i64 = 2_932_896;
const DAY_2026: i64 = 20_454;

pub fn packed_rule(rng: &mut Rng) -> Vec<u8> {
    rule(rng).packed()
}

pub fn rule(rng: &mut Rng) -> Node {
    let kind = rng.range(1, 6);
    let mut x = Node::new("Exception", "");
    if !rng.one_in(20) {
        let text = if rng.one_in(40) { texts::whole(rng) } else { kind.to_string() };
        x = x.field("Type", &text);
    }
    for name in ["Period", "Occurrences", "EnteredByOccurrences"] {
        if !rng.one_in(3) {
            x = x.field(name, &rule_value(rng, name));
        }
    }
    for name in ["Month", "MonthDay", "MonthItem", "MonthPosition", "DaysOfWeek"] {
        if !rng.one_in(8) {
            x = x.field(name, &rule_value(rng, name));
        }
    }
    if rng.one_in(300) { x } else { x.child(time_period(rng, kind)) }
}

fn rule_value(rng: &mut Rng, name: &str) -> String {
    if rng.one_in(60) {
        return texts::whole(rng);
    }
    let value = match name {
        "EnteredByOccurrences" => return texts::yes(rng),
        "Period" => spread(rng, &[(1, 3), (1, 3), (1, 12), (1, 1_002), (-1, 2)]),
        "Occurrences" if rng.one_in(15) => rng.range(4_990, 5_010),
        "Occurrences" => spread(rng, &[(1, 4), (1, 60), (-1, 2)]),
        "Month" => spread(rng, &[(0, 11), (0, 11), (0, 11), (-1, 12)]),
        "MonthDay" => spread(rng, &[(1, 31), (27, 32), (0, 33)]),
        "MonthItem" => spread(rng, &[(0, 9), (0, 9), (-1, 10)]),
        "MonthPosition" => spread(rng, &[(0, 4), (0, 4), (-1, 5)]),
        _ => spread(rng, &[(0, 127), (0, 127), (-2, 300)]),
    };
    value.to_string()
}

/// A value of one of the ranges.
fn spread(rng: &mut Rng, ranges: &[(i64, i64)]) -> i64 {
    let (low, high) = ranges[rng.below(ranges.len())];
    rng.range(low, high)
}

/// A range of days, of a length that suits the type.
pub fn time_period(rng: &mut Rng, kind: i64) -> Node {
    let from = spread(rng, &[(DAY_2026, DAY_2026 + 800), (YEAR_0, LAST), (LAST - 37_500, LAST), (LAST - 800, LAST), (YEAR_0, YEAR_0 + 800)]);
    let to = from + span(rng, kind);
    let mut p = Node::new("TimePeriod", "");
    if !rng.one_in(100) {
        p = p.field("FromDate", &date_text(rng, from));
    }
    if !rng.one_in(30) {
        p = p.field("ToDate", &date_text(rng, to));
    }
    p
}

/// Days from the first to the last: short ones, and now and then one around a limit.
fn span(rng: &mut Rng, kind: i64) -> i64 {
    match (kind, rng.below(40)) {
        (_, 0) => LAST,
        (_, 1) => rng.range(36_590, 36_610),
        (_, 2) => rng.range(3_655, 3_665),
        (_, 3) => rng.range(0, 80_000),
        (_, 4..=6) => rng.range(-400, 3),
        (1 | 6, _) => spread(rng, &[(0, 40), (0, 400), (0, 1_500)]),
        (2 | 3, _) => spread(rng, &[(0, 1_500), (0, 15_000)]),
        _ => spread(rng, &[(0, 100), (0, 1_500), (0, 6_000)]),
    }
}

fn date_text(rng: &mut Rng, days: i64) -> String {
    if rng.one_in(100) { texts::date(rng) } else { texts::dated(rng, days.clamp(YEAR_0, LAST) as i32) }
}
