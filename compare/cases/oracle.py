"""The Rust's side, asked by its command, and what the kinds of cases share."""
import pathlib
import struct
import subprocess
import sys

TOP = pathlib.Path(__file__).resolve().parents[2]
ORACLE = TOP / "target/compare/oracle"
SEED = "2026"


def oracle(*words, stdin=None):
    """The lines that the command writes; stdin: its lines."""
    if not ORACLE.exists():
        sys.exit(f"compare/make-samples: no {ORACLE}; run compare/build first")
    told = None if stdin is None else "".join(line + "\n" for line in stdin)
    return subprocess.run([ORACLE, *words], input=told, capture_output=True, text=True, check=True).stdout.split("\n")[:-1]


def hexed(data):
    return data.hex() or "-"


def unhex(word):
    return b"" if word == "-" else bytes.fromhex(word)


def short(words, longest):
    """Those of at most so many bytes."""
    return [word for word in words if len(word) <= 2 * longest]


def refusal(answer):
    return int(answer[8:]) if answer.startswith("refused ") else 0


def piece(data):
    """Bytes behind their length."""
    return struct.pack(">I", len(data)) + data


def element(depth, name, text=""):
    """A record of a packed tree."""
    name, text = name.encode(), text.encode()
    return struct.pack(">I", depth << 25 | len(name) << 16 | len(text)) + name + text
