#!/usr/bin/env python3
"""Respells the names of goals and steps in the answers of a crate: a name of src/ has its underscores back.

usage: tools/goal_names.py CRATE..   (once, after tools/respell.py)
"""
import glob
import re
import sys

WORDS = """in_err in_ok in_default type_inv slice_bounds offset_bounds overflow_add overflow_sub overflow_mul overflow_cast
overflow_step overflow_shl overflow_shr nonzero_div nonzero_rem from_residual yielded_by slice_known""".split()


def respell(crate):
    words = set(WORDS)
    for path in glob.glob(f"crates/{crate}/src/**/*.rt", recursive=True):
        with open(path, encoding="utf-8") as f:
            words |= set(re.findall(r"\b[a-z][a-z0-9]*(?:_[a-z0-9]+)+\b", f.read()))
    by_dash = sorted(((w.replace("_", "-"), w) for w in words), key=lambda p: -len(p[0]))

    def name(m):
        text = m.group(0)
        for dashed, word in by_dash:
            text = re.sub(r"(?<![a-z0-9_])" + re.escape(dashed) + r"(?![a-z0-9_])", word, text)
        return text

    for path in glob.glob(f"crates/{crate}/proofs/**/Answers.antt", recursive=True) + glob.glob(f"crates/{crate}/proofs/**/Invariants.antt", recursive=True):
        with open(path, encoding="utf-8") as f:
            old = f.read()
        goals = set(re.findall(r"\bgoal\.([^\s:]+)", old))
        lines = []
        for line in old.split("\n"):
            if not line.startswith(("use ", "--")):
                line = re.sub(r"(?<=\.)[a-z][^\s(){}\[\];,.]*-[^\s(){}\[\];,.]*", name, line)
                head = re.match(r"((?:abbrev |pub )*)([^\s:]+)", line)
                if head and head.group(2) in goals:
                    line = head.group(1) + name(re.match(r".*", head.group(2))) + line[head.end():]
            lines.append(line)
        new = "\n".join(lines)
        if new != old:
            with open(path, "w", encoding="utf-8") as f:
                f.write(new)
            print(path)


for crate in sys.argv[1:]:
    respell(crate)
