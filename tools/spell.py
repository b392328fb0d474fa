#!/usr/bin/env python3
"""Turns the repository's own definitions and lemmas to snake case, in every .antt and .rt file below crates/. Run once, right after the kit's port.py.

usage: tools/spell.py [TOP]

What stays: types, facts and modules (a capital first), names of Rattle functions, strings, names that a library has, a dash beside an operator.
A lemma whose new name is a definition's already gets `_lem`. A word that is a field after a dot never gets it.
"""

import collections
import os
import re
import sys

WORD = re.compile(r'"(?:[^"\\]|\\.)*"|[^\s(){}\[\],;.@"]+')
OWN = re.compile(r"^[a-zα-ω][A-Za-z0-9_'?₀-₉-]*$")
USE = re.compile(r"\s*(?:pub )?(?:ghost )?use ([^\s{]+?)(?:\.\{(.*)\})?(?: as (\S+))?;?$")
DECLARES = re.compile(r"\s*(?:\{ )?(?:(?:pub|abbrev|unfoldable|opaque|data|record)\s+)*([^\s(){}:]+(?: [^\s(){}:]+)*) :(?:\s|$)")

# Lemmas that port.py gave the name that a definition gets now, and a definition that gets a library's.
LEMMAS = {"as_many", "in_order", "is_digit", "is_one", "next_row", "not_behind", "place_at", "text_in", "two_digits", "unsigned_by"}
FIXED = {"takeAt": "taken_at"}


def files(top):
    for folder, dirs, names in os.walk(os.path.join(top, "crates")):
        dirs[:] = sorted(d for d in dirs if d != "out")
        for n in sorted(names):
            if n.endswith((".antt", ".rt")):
                yield os.path.join(folder, n)


def cut(line, antt):
    """The line's code and its comment."""
    mark = "--" if antt else "//"
    at = -1 if '"' in line and line.find('"') < line.find(mark) else line.find(mark + " ")
    if line.strip() == mark:
        at = line.find(mark)
    return (line, "") if at < 0 else (line[:at], line[at:])


def snake(name):
    out = ""
    s = name.replace("-", "_")
    for i, ch in enumerate(s):
        if ch.isascii() and ch.isupper():
            before, after = s[i - 1 : i], s[i + 1 : i + 2]
            if i and before != "_" and (before.islower() or before.isdigit() or after.islower()):
                out += "_"
            ch = ch.lower()
        out += ch
    return out


def wanted(word):
    return bool(OWN.match(word)) and ("-" in word or any(c.isascii() and c.isupper() for c in word))


def read(top):
    """What the files declare, what they take from libraries, by word the files."""
    own = set(os.listdir(os.path.join(top, "crates")))
    declared, taken = collections.defaultdict(set), collections.defaultdict(set)
    for path in files(top):
        antt = path.endswith(".antt")
        for line in open(path, encoding="utf-8").read().split("\n"):
            code = cut(line, antt)[0].rstrip()
            use = USE.match(code)
            if use:
                ours = use.group(1).startswith("Rattle.") and use.group(1).split(".")[1] in own
                for part in filter(None, (p.strip() for p in (use.group(2) or "").split(","))):
                    name, _, other = part.partition(" as ")
                    if not ours:
                        taken[name].add(path)
                    if other:
                        declared[other].add(path)
            elif antt:
                m = DECLARES.match(code)
                for name in m.group(1).split() if m else []:
                    declared[name].add(path)
                for name in re.findall(r"\blet ([^\s:=]+) [:=]", code):
                    declared[name].add(path)
                for group in re.findall(r"λ ([^.:(){}]+)\.", code) + re.findall(r"[({]([^\s(){}:]+(?: [^\s(){}:]+)*) : ", code):
                    for name in group.split():
                        declared[name].add(path)
    return declared, taken


def table(declared, taken):
    new = {k: FIXED.get(k, snake(k)) for k in declared if wanted(k) and k not in taken and "Inv" not in k and "μ" not in k}
    camel = {v for k, v in new.items() if any(c.isupper() for c in k)}
    for k, v in list(new.items()):
        if not any(c.isascii() and c.isupper() for c in k) and (v in camel or v in declared):
            new[k] = v + "_lem"
    return new


def turn(path, new):
    antt = path.endswith(".antt")

    def code(text):
        def word(m):
            w = m.group(0)
            if w.startswith('"'):
                return w
            dotted = m.start() > 0 and text[m.start() - 1] == "."
            if dotted:
                return snake(w) if w in new else w
            if antt and w in LEMMAS and not text[m.end() :].startswith("."):
                return w + "_lem"
            if w.startswith("◌") and w.endswith("◌") and re.search("[a-z][A-Z]", w):
                return snake(w)
            return new.get(w, w)

        return WORD.sub(word, text)

    def comment(text):
        return re.sub(r"[a-z][A-Za-z0-9]*[A-Z][A-Za-z0-9]*", lambda m: new.get(m.group(0), m.group(0)), text)

    out = []
    for line in open(path, encoding="utf-8").read().split("\n"):
        a, b = cut(line, antt)
        use = re.match(r"(\s*(?:pub )?(?:ghost )?use )([^\s{;]+?)((?:\.\{.*)?(?: as \S+)?;?\s*)$", a)
        if use and "{" not in use.group(2):
            a = use.group(1) + use.group(2) + code(use.group(3))
        else:
            a = code(a)
        out.append(a + comment(b))
    text = "\n".join(out)
    with open(path, "w", encoding="utf-8") as f:
        f.write(text)


def main(argv):
    top = argv[0] if argv else "."
    declared, taken = read(top)
    new = table(declared, taken)
    for path in files(top):
        turn(path, new)
    print(f"{len(new)} names turned")


if __name__ == "__main__":
    main(sys.argv[1:])
