#!/usr/bin/env python3
"""Lists the places in crates/*/src that an older form of the language may have left, by point. docs/DESIGN-PASS.md has the counts."""
import collections
import difflib
import glob
import re
import sys


def sources():
    for name in sorted(glob.glob("crates/*/src/*.rt")):
        yield name, open(name, encoding="utf-8").read()


def functions():
    """Each function as (file, line, name, header, body)."""
    for name, text in sources():
        for found in re.finditer(r"^[ ]*(?:pub(?:\(crate\))? |final )?fn (\w+)", text, re.M):
            start = found.start()
            open_at = re.compile(r"\n[ ]*\{\n|\{\}\n| \{\n|;\n").search(text, start)
            if not open_at or open_at.group(0).startswith(";"):
                continue
            depth, at = 0, open_at.start()
            ghost = re.sub(r"ensures .*|requires .*", lambda m: " " * len(m.group(0)), text)
            while at < len(text):
                if ghost[at] == "{":
                    depth += 1
                elif ghost[at] == "}":
                    depth -= 1
                    if depth == 0:
                        break
                at += 1
            yield name, text.count("\n", 0, start) + 1, found.group(1), text[start : open_at.start()], text[open_at.start() : at + 1]


def grep(pattern):
    for name, text in sources():
        for number, line in enumerate(text.split("\n"), 1):
            if re.search(pattern, line) and not re.match(r"\s*(//|ghost use)", line):
                yield f"{name}:{number}: {line.strip()}"


def kinds_by_number():
    yield from grep(r"^const [A-Z]+: u8 = \d|^\s+(kind|outcome): u\d+,|\b\w+: bool\b")
    yield from grep(r"^\s*(pub )?fn (?!try_from|from)\w*(number|_from)\w*\(")


WORDS = r"[A-Za-z_]\w*|\d[\d_]*|[^\s\w]"
KEPT = {"for", "in", "if", "else", "return", "match", "let", "mut", "while", "Some", "None", "Ok", "Err", "true", "false", "as", "fn", "self"}


def shape(body):
    words = re.findall(WORDS, re.sub(r"//.*", "", body))
    return " ".join(w if w in KEPT or not (w[0].isalnum() or w[0] == "_") else "N" if w[0].isdigit() else "x" for w in words)


def twins():
    """Pairs of functions of one crate or program whose bodies have the same shape, or nearly."""
    found = [(name, line, fn, shape(body).split()) for name, line, fn, header, body in functions()]
    found = [f for f in found if len(f[3]) >= 10]
    for i, (name, line, fn, words) in enumerate(found):
        for other, at, twin, theirs in found[i + 1 :]:
            if words == theirs or min(len(words), len(theirs)) >= 24 and difflib.SequenceMatcher(None, words, theirs, False).ratio() >= 0.88:
                yield f"{name}:{line}: {fn}; {other}:{at}: {twin}"


def counted_loops():
    yield from grep(r"\bfor \w+ in [^{]*\.\.[^.]|\bwhile ")


# Casts of numbers of 8, 16 and 32 bits to wider ones, for which there is a `From`. To and from usize, and to a narrower type, there is none.
WIDENED = r"\b(byte|registers|first_register|register_count|register\(\)|cost|a|b|half\([^)]*\)|word\([^)]*\)|first|guest|count\(block\)|first_slot\(block\)) as u(16|32|64)\b|(byte|half\([^)]*\)) as usize|\bt as u64"


def by_hand():
    """Casts for which there is a `From`, conversions that are no `From`, and comparisons by hand."""
    yield from grep(WIDENED)
    yield from grep(r"\bfn (of|at|to_\w+|as_\w+|entry|event|access|sentence|numbers?)\(.*(self|entry|part|table|g|block)\b")
    yield from grep(r"^impl (PartialEq|Eq|PartialOrd|Ord|Clone|Copy|Default)\b")


def repeated_facts():
    facts = collections.defaultdict(set)
    pairs = collections.defaultdict(set)
    for name, line, fn, header, body in functions():
        for clause in re.findall(r"(?:requires|ensures)(?: \w+)? \{(.*)\}", header):
            for fact in re.split(r" × ", clause):
                fact = re.sub(r"^[ (]+|[ )]+$", "", fact)
                facts[fact].add(f"{name}:{fn}")
        parameters = re.findall(r"(\w+): ([&\w\[\]' <>;]+?)(?:,|\))", header.split("ensures")[0].split("requires")[0])
        for i, p in enumerate(parameters):
            for q in parameters[i + 1 :]:
                pairs[f"{p[0]}: {p[1]}, {q[0]}: {q[1]}"].add(f"{name}:{fn}")
    for fact, where in sorted(facts.items()):
        if len(where) >= 3:
            yield f"{fact}: {len(where)} functions of {', '.join(sorted({w.split(':')[0] for w in where}))}"
    for pair, where in sorted(pairs.items()):
        if len(where) >= 3 and "rt: " not in pair and "out: " not in pair:
            yield f"({pair}): {len(where)} functions of {', '.join(sorted({w.split(':')[0] for w in where}))}"


def lengths_beside():
    yield from grep(r"\bfrom: usize, to: usize|\bat: usize\b|\b(counts|places|count|size): (\[|usize|u32)")


def step_switches():
    yield from grep(r"\bdyn\b|\bfn\(|Box<")
    for name, line, fn, header, body in functions():
        arms = re.findall(r"=> (?:self\.)?\w+\([^)]*\),", body)
        if len(arms) >= 3:
            yield f"{name}:{line}: {fn}"


def answers():
    for name in sorted(glob.glob("crates/*/proofs/**/*.antt", recursive=True)):
        text = open(name, encoding="utf-8").read()
        count = len(re.findall(r"^pub \S+ : goal\.", text, re.M))
        lemmas = re.findall(r"^(?:pub )?(\S+_lem) :", text, re.M)
        if count:
            yield f"{name}: {count} answers"
        for lemma in lemmas:
            yield f"{name}: {lemma}"


POINTS = [kinds_by_number, twins, counted_loops, by_hand, repeated_facts, lengths_beside, step_switches, answers]

if __name__ == "__main__":
    for number, point in enumerate(POINTS, 1):
        places = list(point())
        if len(sys.argv) > 1 and str(number) not in sys.argv[1:]:
            continue
        print(f"point {number}: {len(places)}")
        for place in places:
            print(f"  {place}")
