"""Trees with what the Rust reads from them: document 01's examples, one with long texts, one with `true` for a yes, one with durations that are not whole
minutes, and random ones, refused ones among them. The form of a body stands in crates/samples/src/trees.rt."""
import struct

from .oracle import SEED, element, hexed, oracle, piece, refusal, short, unhex

# Trees made and kept, those of them that are kept for durations that are not whole minutes, the longest, and the longest model, for which the program
# has room.
MADE, KEPT, FRACTIONAL, LONGEST, ROOM = "8000", 300, 40, 1500, 8192

PROJECT = element(1, "Project")
BRIDGE = [
    (1, "Project", ""),
    (2, "Name", "Brücke"),
    (2, "Tasks", ""),
    (3, "Task", ""),
    (4, "UID", "1"),
    (4, "Name", " Piers\n"),
    (4, "Duration", "PT40H0M0S"),
    (4, "PredecessorLink", ""),
    (5, "PredecessorUID", "2"),
    (3, "Task", ""),
    (4, "UID", "2"),
    (4, "Notes", "x" * 300),
    (2, "Resources", ""),
    (2, "N" * 300, "long name"),
]
# A Saturday worked by `true`, a milestone and a link across projects likewise, and a name that stays.
WORKED = [
    (1, "Project", ""),
    (2, "Calendars", ""),
    (3, "Calendar", ""),
    (4, "Name", "true"),
    (4, "WeekDays", ""),
    (5, "WeekDay", ""),
    (6, "DayType", "7"),
    (6, "DayWorking", "true"),
    (2, "Tasks", ""),
    (3, "Task", ""),
    (4, "UID", "1"),
    (4, "Milestone", " true\n"),
    (4, "PredecessorLink", ""),
    (5, "PredecessorUID", "1"),
    (5, "CrossProject", "true"),
    (3, "Task", ""),
    (4, "UID", "2"),
    (4, "Milestone", "truer"),
]
# Durations of tasks: those that are counted as not whole minutes, those that are not, and those of tasks that are not kept, by UID, field and text.
PARTS = [
    ("1", "Milestone", "1", ["PT30S"]),
    ("2", "DurationFormat", "8", ["PT0.5M"]),
    ("3", "Notes", "", [" P0.0001D\n"]),
    ("4", "Notes", "", ["PT29S", "PT60S"]),
]
WHOLES = [
    ("5", "Notes", "", ["PT60S"]),
    ("6", "Notes", "", ["", "PT30S"]),
    ("7", "Notes", "", ["PT1M1e-20S"]),
    ("8", "Notes", "", ["PT1000000000M30S"]),
    ("9", "RemainingDuration", "PT30S", ["PT30"]),
    ("0", "Notes", "", ["PT30S"]),
    ("10", "OutlineLevel", "0", ["PT30S"]),
]


def timed(tasks):
    """A project with these tasks."""
    tree = PROJECT + element(2, "Tasks")
    for uid, name, text, durations in tasks:
        tree += element(3, "Task") + element(4, "UID", uid) + element(4, name, text)
        tree += b"".join(element(4, "Duration", duration) for duration in durations)
    return tree


# Each with its refusal in document 01, 0 for none.
EXAMPLES = [
    (b"\x00", 1),
    (b"\x02\x01\x00\x00\xff", 2),
    (b"", 4),
    (PROJECT + element(2, "Work", "PT1234567890123456H"), 5),
    (PROJECT, 0),
    (b"".join(element(*fields) for fields in BRIDGE), 0),
    (b"".join(element(*fields) for fields in WORKED), 0),
    (timed(PARTS + WHOLES), 0),
]


def read(words):
    """Trees with what the Rust reads from them."""
    return list(zip(words, oracle("readlines", stdin=words), strict=True))


def fractional(answer):
    """The fourth count of a model: behind the six of the head, the name and the currency, each behind its length, the start, and three counts."""
    if refusal(answer):
        return 0
    model = unhex(answer)
    count = lambda at: int.from_bytes(model[at : at + 4], "big")
    currency = 24 + 4 + count(24) + 4
    return count(currency + 4 + count(currency) + 12)


def made():
    """Random ones, first some with durations that are not whole minutes."""
    told = [case for case in read(short(oracle("gen", SEED, MADE), LONGEST)) if short(case[1:], ROOM)]
    first = [case for case in told if fractional(case[1])][:FRACTIONAL]
    return (first + [case for case in told if case not in first])[:KEPT]


def bodies():
    examples = read([hexed(tree) for tree, _ in EXAMPLES])
    assert [refusal(answer) for _, answer in examples] == [number for _, number in EXAMPLES]
    assert fractional(examples[-1][1]) == len(PARTS)
    return [body(unhex(word), answer) for word, answer in examples + made()]


def body(tree, answer):
    model = b"" if refusal(answer) else unhex(answer)
    return struct.pack(">B", refusal(answer)) + piece(tree) + model
