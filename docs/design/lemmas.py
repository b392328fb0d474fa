"""Lemmas of proofs/ that went: python3 lemmas.py OLD NEW > LEMMAS.md

For each declaration of proofs/ in checkout OLD whose name no proof or definition of the same crate in NEW declares: the functions whose answers led to it
in OLD, by name, and whether they stand in NEW. A lemma is a step of a proof: what it served is the contract of that function.
"""
import collections
import os
import re
import sys

HEAD = re.compile(r"^(\s*)(?:unfoldable )?(?:abbrev )?(?:pub )?(?:record )?([^\s:(){}=]+)(?=\s|$)[^=]*? : ")
SKIP = {"use", "module", "let", "where", "unfolding", "--", "pub", "record", "data", "in", "rw", "|"}


def files(root, part):
    base = os.path.join(root, "crates")
    for crate in sorted(os.listdir(base)):
        top = os.path.join(base, crate, part)
        for at, _, names in os.walk(top):
            for name in sorted(names):
                if name.endswith(".antt") and name != "Lib.antt":
                    path = os.path.join(at, name)
                    yield crate, os.path.relpath(path, os.path.join(base, crate)), open(path).read()


def declared(deep, name, body):
    """A record, or a name that has a line of its own with its value."""
    if re.match(r"\s*(pub )?record ", body):
        return True
    return re.search(r"^ {%d}%s( [^:\n]*)? =( |$)" % (deep, re.escape(name)), body, re.M) is not None


def chunks(text):
    """The declarations of a file, each with its name and text; what stands inside one, as those of a `where`, belongs to it."""
    found = []
    for line in text.split("\n"):
        deep = len(line) - len(line.lstrip())
        m = HEAD.match(line)
        inside = found and found[-1][0] < deep and not re.match(r"\s*module ", line) and found[-1][1] != ""
        if re.match(r"\s*module ", line):
            found.append([deep, "", ""])
        elif m and m.group(2) not in SKIP and not inside:
            found.append([deep, m.group(2), line + "\n"])
        elif found:
            found[-1][2] += line + "\n"
    return [(deep, name, body) for deep, name, body in found if name and declared(deep, name, body)]


def words(text):
    return set(re.findall(r"[^\s(){};,=.:→λ≡∙←]+", text))


def read(root):
    lemmas, answers, names = {}, {}, set()
    for crate, path, text in files(root, "specs"):
        names.update((crate, n) for _, n, _ in chunks(text))
    for crate, path, text in files(root, "proofs"):
        parts = path.split("/")
        held = parts[-1] in ("Answers.antt", "Invariants.antt", "Proof.antt")
        for deep, name, body in chunks(text):
            goal = re.match(r"\s*(abbrev )?(pub )?\S+ : goal\.", body)
            if held and (goal or re.match(r"(returns|loop|overflow|index|requires|in)(-|$)", name)):
                answers.setdefault((crate, "::".join(parts[1:-1])), set()).update(words(body))
            else:
                names.add((crate, name))
                lemmas.setdefault((crate, name), [path, set(), "::".join(parts[1:-1]) if held else None])[1].update(words(body))
    return lemmas, answers, names


def functions(root):
    found = set()
    for crate in os.listdir(os.path.join(root, "crates")):
        for at, _, names in os.walk(os.path.join(root, "crates", crate, "src")):
            for name in names:
                if name.endswith(".rt"):
                    text = open(os.path.join(at, name)).read()
                    found.update((crate, n) for n in re.findall(r"\bfn ([a-z_0-9]+)", text))
    return found


# Lemmas that no answer led to, and what states the same now.
ALONE = {
    ("recurrence", "no_date"): "`date_of [] ≡ None` computes",
    ("recurrence", "weekday_less"): "`weekday d < 7` is arithmetic of a remainder, which the check finds",
    ("text", "eight"): "GONE.md: text::is_utf8 by std's from_utf8, with the clause that it had; runs of ASCII bytes are no step of it",
    ("tree", "passed_first"): "`Passed s from d from` at the walk's begin: the invariant of skip's loop over heads, which the check finds",
}
for _name in ("joined", "or_left", "or_right", "run_more"):
    ALONE[("text", _name)] = ALONE[("text", "eight")]


def main(old, new):
    lemmas, answers, _ = read(old)
    _, _, now = read(new)
    stand = functions(new)
    by_crate = collections.defaultdict(dict)
    for (crate, name), (path, tokens, own) in lemmas.items():
        by_crate[crate][name] = (path, tokens, own)
    gone = sorted(k for k in lemmas if k not in now)
    print("# Lemmas of proofs/ that went\n")
    print("A lemma of proofs/ is a step of the proof of one or a few functions, and states no promise of its own: what it served is the contracts of those, which are proved today. By docs/design/lemmas.py; a line for")
    print("each group of lemmas that served the same functions, with the folders of proofs/ that led to them at the beginning. Where a function itself is gone or has another name, docs/design/GONE.md says what states its promise.\n")
    total = 0
    for crate in sorted(by_crate):
        mine = [n for c, n in gone if c == crate]
        if not mine:
            continue
        users = collections.defaultdict(set)
        for (c, f), tokens in answers.items():
            if c != crate:
                continue
            seen, todo = set(), list(tokens & set(by_crate[crate]))
            while todo:
                n = todo.pop()
                if n in seen:
                    continue
                seen.add(n)
                users[n].add(f)
                todo.extend((by_crate[crate][n][1] & set(by_crate[crate])) - seen)
        groups = collections.defaultdict(list)
        for n in mine:
            who = set(users[n])
            if by_crate[crate][n][2]:
                who.add(by_crate[crate][n][2])
            groups[tuple(sorted(who))].append(n)
        print(f"## {crate} ({len(mine)})\n")
        print("| lemmas gone | served, and what states it now |")
        print("|---|---|")
        for who, ns in sorted(groups.items()):
            there = [w for w in who if (crate, w.split("::")[-1]) in stand]
            lost = [w for w in who if w not in there]
            say = []
            if there:
                say.append("the contracts of " + ", ".join(there) if len(there) <= 12 else f"the contracts of {len(there)} functions, as " + ", ".join(there[:3]))
            if lost:
                say.append("GONE.md: " + ", ".join(lost))
            if not who:
                say.extend(sorted({ALONE.get((crate, n), "no answer led to it") for n in ns}))
            print(f"| {', '.join(ns)} | {'; '.join(say)} |")
            total += len(ns)
        print()
    print(f"{total} in all.")


main(*sys.argv[1:3])
