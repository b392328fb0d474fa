"""Texts of each kind with what the Rust reads from them: its fixed texts (the odd ones of READING.md, document 01's examples, every limit), then random
ones. The value of a duration is its minutes, and 2^32 more where its sum was not whole. The form of a body stands in crates/samples/src/texts.rt."""
import struct

from .oracle import SEED, oracle, unhex

KINDS = ["date", "time", "duration", "number", "i64", "u64", "u32", "u16", "i32", "trim", "utf8"]
RANDOM = "60"


def tag_and_value(kind, text, answer):
    if answer == "none":
        return 0, 0
    if answer == "long":
        return 3, 0
    if kind == "number":
        return 1, int(answer, 16)
    if kind == "trim":
        part = unhex(answer)
        return 1, text.index(part) << 16 | len(part)
    if kind == "utf8":
        return 1, int(answer == "yes")
    if kind == "duration":
        minutes, *part = answer.split()
        return 1, int(minutes) + (2**32 if part else 0)
    number = int(answer)
    return (1, number) if number >= 0 else (2, -1 - number)


def bodies(kind):
    """In the order made, each text once; the Rust cannot be asked about bytes that are no UTF-8."""
    words = list(dict.fromkeys(oracle("fixed", kind) + oracle("genleaf", kind, SEED, RANDOM)))
    told = [(unhex(word), answer) for word, answer in zip(words, oracle("leaf", kind, stdin=words), strict=True)]
    return [struct.pack(">BQ", *tag_and_value(kind, text, answer)) + text for text, answer in told if answer != "not-utf8"]
