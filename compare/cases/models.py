"""Small models with the answers of the check, the outline and five day sheets, by compare/src: document 01's model and damaged forms of it, two in the
form before E2 (document 02), each oddity and each shape of `oracle genodd`, those that the Rust reads from random trees, and made-up ones, damaged ones
among them. The form of a body stands in crates/samples/src/models.rt."""
import random
import struct

from .oracle import SEED, element, hexed, oracle, piece, refusal, short, unhex

LONGEST = 1200
FIRST_DAY, LAST_DAY = -4371587, 2932896
ENDS = [FIRST_DAY - 1, FIRST_DAY, LAST_DAY, LAST_DAY + 1, -(2**31), 2**31 - 1, -1, 0]
ASKED = 5


# In the form before E2, which had no fourth count: document 01's model, which does not decode, and a project alone with an even data date, which does.
OLD_WHOLE = b"\0\0\0\1" + bytes(45) + b"\0\0\0\x08Standard\xf8" + bytes(40)
OLD_PROJECT = bytes(48) + ((2**32 + 20514) << 7).to_bytes(5, "big")


def models():
    whole = oracle("readlines", stdin=[hexed(element(1, "Project"))])
    old = [hexed(OLD_WHOLE), hexed(OLD_PROJECT)]
    assert len(unhex(whole[0])) == 106 and oracle("check", stdin=old) == ["6", "0"]
    cut = [whole[0][: 2 * n] for n in (1, 24, 105)] + ["-", whole[0] + "00"] + old
    read = [word for word in oracle("readlines", stdin=oracle("gen", SEED, "400")) if not refusal(word)]
    made = oracle("genmodel", SEED, "400")
    return whole + cut + short(oracle("genodd", SEED, "132"), LONGEST) + short(read, LONGEST)[:60] + short(made, LONGEST)[:110]


def asked(word, rng):
    """Rows of calendars, the count among them, and dates: the ends of the years, and days near those that the generators use."""
    calendars = int.from_bytes(unhex(word)[:4], "big")
    rows = [rng.choice([0, 0, rng.randrange(max(calendars, 1))]) for _ in range(ASKED - 2)] + [calendars, 2**32 - 1]
    dates = [rng.randrange(20450, 20472) for _ in range(3)] + [rng.choice(ENDS), rng.choice(ENDS)]
    return [(min(row, 2**32 - 1), rng.choice(dates)) for row in rows]


def sheets(words):
    """The sheets of each model, one behind the other."""
    rng = random.Random(int(SEED))
    lines = [(word, row, date) for word in words for row, date in asked(word, rng)]
    answers = oracle("sheet", stdin=[f"{word} {row} {date}" for word, row, date in lines])
    packed = [sheet(row, date, answer) for (_, row, date), answer in zip(lines, answers, strict=True)]
    return [b"".join(packed[at : at + ASKED]) for at in range(0, len(packed), ASKED)]


def sheet(row, date, answer):
    told = b"" if refusal(answer) else unhex(answer)
    return struct.pack(">IiBB", row, date, refusal(answer), len(told)) + told


def outline_words(answer):
    rows = [] if refusal(answer) or answer == "-" else [row.split(":") for row in answer.split(" ")]
    return b"".join(struct.pack(">II", int(row), int(level)) for row, level in rows)


def bodies():
    words = models()
    told = zip(words, oracle("check", stdin=words), oracle("outline", stdin=words), sheets(words), strict=True)
    return [piece(unhex(word)) + struct.pack(">B", int(number)) + piece(outline_words(outline)) + days for word, number, outline, days in told]
