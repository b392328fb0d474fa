"""Rules with their days by the Rust: the examples of docs/RECURRENCE.md, whose days must be those that stand there, then random ones. The form of a
body stands in crates/samples/src/rules.rt."""
import datetime
import struct
import sys

from .oracle import SEED, element, hexed, oracle, short, unhex

MADE, KEPT, LONGEST = "1200", 400, 700
FIRST_DAY = -4371587

FRIDAYS = "2026-01-30 2026-02-27 2026-03-27 2026-04-24 2026-05-29 2026-06-26"
MID_WEEK = "2026-01-07 2026-01-09 2026-01-19 2026-01-21 2026-01-23 2026-02-02 2026-02-04 2026-02-06"
# Type, FromDate, ToDate, further fields, and the days in docs/RECURRENCE.md
EXAMPLES = [
    ("1", "2026-01-30", "2026-02-10", {"Period": "3"}, "2026-01-30 2026-02-02 2026-02-05 2026-02-08"),
    ("1", "2026-03-10", "2026-03-01", {}, ""),
    ("1", "2026-01-05", "2026-01-05", {"Period": "7", "EnteredByOccurrences": "1", "Occurrences": "3"}, "2026-01-05 2026-01-12 2026-01-19"),
    ("1", "2026-01-05", "2026-01-05", {"Period": "7", "EnteredByOccurrences": "true", "Occurrences": "3"}, "2026-01-05 2026-01-12 2026-01-19"),
    ("1", "9999-12-29", "9999-12-30", {"EnteredByOccurrences": "1", "Occurrences": "5"}, "9999-12-29 9999-12-30"),
    ("2", "2024-01-01", "2036-12-31", {"Month": "1", "MonthDay": "29"}, "2024-02-29 2028-02-29 2032-02-29 2036-02-29"),
    ("3", "2025-01-01", "2027-12-31", {"Month": "10", "MonthItem": "7", "MonthPosition": "2"}, "2025-11-20 2026-11-19 2027-11-18"),
    ("4", "2026-01-31", "2026-08-31", {"MonthDay": "31"}, "2026-01-31 2026-03-31 2026-05-31 2026-07-31 2026-08-31"),
    ("5", "2026-01-01", "2026-06-30", {"MonthItem": "8", "MonthPosition": "4"}, FRIDAYS),
    ("5", "2026-01-01", "2026-04-30", {"MonthItem": "1", "MonthPosition": "0"}, "2026-01-01 2026-02-02 2026-03-02 2026-04-01"),
    ("5", "2026-01-01", "2026-04-30", {"MonthItem": "2", "MonthPosition": "4"}, "2026-01-31 2026-02-28 2026-03-29 2026-04-26"),
    ("5", "9999-11-01", "9999-12-31", {"MonthItem": "8", "MonthPosition": "4"}, "9999-11-26"),
    ("6", "2026-01-07", "2026-02-06", {"DaysOfWeek": "42", "Period": "2"}, MID_WEEK),
    ("7", "2026-01-30", "2026-02-10", {}, "skipped"),
]


def packed(kind, first, last, fields):
    tree = element(1, "Exception") + element(2, "Type", kind)
    tree += element(2, "TimePeriod") + element(3, "FromDate", first) + element(3, "ToDate", last)
    return tree + b"".join(element(2, name, text) for name, text in fields.items())


def written(days):
    """The days that an example states, as the Rust's answer has them."""
    if days in ("", "skipped"):
        return days or "-"
    return " ".join(str((datetime.date.fromisoformat(day) - datetime.date(1970, 1, 1)).days) for day in days.split())


def examples():
    words = [hexed(packed(*example[:4])) for example in EXAMPLES]
    answers = oracle("days", stdin=words)
    for example, answer in zip(EXAMPLES, answers, strict=True):
        if written(example[4]) != answer:
            sys.exit(f"compare/make-samples: the Rust gives other days than docs/RECURRENCE.md for {example}")
    return list(zip(words, answers, strict=True))


def random_rules():
    words = short(oracle("genrule", SEED, MADE), LONGEST)
    told = zip(words, oracle("days", stdin=words), strict=True)
    return [(word, days) for word, days in told if not days.startswith("refused")][:KEPT]


def count_and_check(days):
    if days == "skipped":
        return 0xFFFFFFFF, 0
    numbers = [] if days == "-" else [int(day) for day in days.split()]
    check = 0
    for number in numbers:
        check = (check * 31 + number - FIRST_DAY) % 4294967291
    return len(numbers), check


def bodies():
    return [struct.pack(">II", *count_and_check(days)) + unhex(word) for word, days in examples() + random_rules()]
