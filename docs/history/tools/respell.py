#!/usr/bin/env python3
"""Brings the names of definitions, fields, constructors and lemmas of specs/ and proofs/ to snake case.

Run once at the top of the repository, after the names of the library have been brought over.
Types, facts, modules, goals and the names of src/ keep their spelling. A lemma that would have
the name of a definition gets `_lem`; a definition that would have the name of a field gets `_of`.
"""
import glob
import re
import sys

ANTT = sorted(glob.glob("crates/*/specs/**/*.antt", recursive=True) + glob.glob("crates/*/proofs/**/*.antt", recursive=True))
RT = sorted(glob.glob("crates/*/src/**/*.rt", recursive=True))
TEXT = sorted(glob.glob("docs/*.md")) + ["README.md"]
# names that the checker makes, and so not of this repository
GOAL = re.compile(
    r"^(returns|loop-|invariant-|decreases|bounds-|slice_bounds|slice-bounds|offset_bounds|offset-bounds|overflow|nonzero)"
    r"|-requires|-clause-|-cast$"
)
# a character that may stand in a name
NAME = r"[^\s(){}\[\];,.`@\"]"


def read(path):
    with open(path, encoding="utf-8") as f:
        return f.read()


def declared(text):
    """The names that a file of specs/ or proofs/ declares, the fields of its records and its constructors among them."""
    names = []
    for line in text.split("\n"):
        if line.startswith("use ") or line.strip().startswith("--"):
            continue
        top = re.match(r"^(?:abbrev |unfoldable |pub |ruleset |data |record )*([^\s:({]+)(?:\s*:|\s+where|\s*[({])", line)
        inner = re.match(r"^\s+(?:abbrev |unfoldable |pub )*([^\s:({]+)\s*:\s", line)
        names += [m.group(1) for m in (top, inner) if m]
    return [n for n in names if n not in ("let", "mod", "pub", "elim", "rw", "record")]


def snake(name):
    name = name.replace("-", "_")
    return re.sub(r"([a-z0-9])([A-Z])", r"\1_\2", name).lower()


def table():
    names = {}
    for path in ANTT:
        for name in declared(read(path)):
            if name[0].islower() and not GOAL.search(name):
                names[name] = path
    fields = set()
    for path in RT:
        fields |= set(re.findall(r"^\s+(?:pub )?(\w+):\s", read(path), re.M))
    # definitions first, so that lemmas give way
    order = sorted(names, key=lambda n: ("/specs/" not in names[n], "-" in n, n))
    taken, new = set(), {}
    for name in order:
        to = snake(name)
        if to != name and to in fields and "/specs/" in names[name] and not is_field(name, names[name]):
            to += "_of"
        if to in taken:
            to += "_lem"
        if to in taken:
            sys.exit(f"{name} and another name fall together as {to}")
        taken.add(to)
        if to != name:
            new[name] = to
    return new


def is_field(name, path):
    return re.search(r"^\s+(?:pub )?" + re.escape(name) + r"\s*:", read(path), re.M) is not None


def main():
    new = table()
    pattern = re.compile(
        "(?<!" + NAME + ")(" + "|".join(re.escape(n) for n in sorted(new, key=len, reverse=True)) + ")(?!" + NAME + ")"
    )
    changed = 0
    for path in ANTT + RT + TEXT:
        old = read(path)
        text = respelled(old, pattern, new, path)
        if text != old:
            with open(path, "w", encoding="utf-8") as f:
                f.write(text)
            changed += 1
    for name in sorted(new):
        print(f"{name} -> {new[name]}")
    print(f"{len(new)} names in {changed} files")


def respelled(text, pattern, new, path):
    # a dash or a capital tells such a name from a word; in .rt it stands in a `ghost use` or a clause, in pages between backticks
    # a name that src/ may have too is only swapped in the lemmas' own folder, and never behind a dot
    def swap(m):
        name = m.group(1)
        plain = name == snake(name)
        behind_dot = m.start() > 0 and m.string[m.start() - 1] == "."
        if plain and (behind_dot or "/proofs/" not in path):
            return name
        return new[name]

    if path.endswith(".antt"):
        return "\n".join(line if line.strip().startswith("--") else swap_line(line, pattern, swap) for line in text.split("\n"))
    if path.endswith(".rt"):
        return "\n".join(swap_line(line, pattern, swap) if is_ghost(line) else line for line in text.split("\n"))
    return re.sub(r"`[^`\n]+`", lambda m: pattern.sub(swap, m.group(0)), text)


def swap_line(line, pattern, swap):
    if '"' not in line:
        return pattern.sub(swap, line)
    parts = re.split(r'("(?:[^"\\]|\\.)*")', line)
    return "".join(p if p.startswith('"') else pattern.sub(swap, p) for p in parts)


def is_ghost(line):
    return re.match(r"\s*(ghost|requires|ensures)\b", line) is not None


main()
