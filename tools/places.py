#!/usr/bin/env python3
"""Lists the places of src/ that an older form of the language may have left, point by point as docs/DESIGN-PASS.md has them.

Run at the top: `tools/places.py` reads the tree as it stands, `tools/places.py COMMIT` the tree of that commit. With -c only the counts are printed.
A place that is listed is looked at by eye; docs/DESIGN-PASS.md says what became of each.
"""

import collections
import re
import subprocess
import sys

FLAG = re.compile(r"\b\w+: bool\b|\(bool,|, bool\b|Result<bool")
# Option turned into Result or back by a match, and a value that stands for none
TURNED = re.compile(r"None => (return )?Err\(|None => \(0, 0\)|None => false|else \{ 0 \}|return Err\(unread")
NUMBERED = re.compile(r"\b(refusal|verdict) as u8\b")
INDEX = re.compile(r"\bwhile\b|\bfor \w+ in 0\.\.|\.enumerate\(\)|\[\w+ as usize\]|\b\w+\[i\]")
# equality, copying, conversion and printing by hand
BY_HAND = re.compile(r"\b(\w+)\.0 == \w+\.0|fn (same|same_unit|unread|word|form_word|sign|is|name|unit_of|plain_word_of)\b|if same\(")
WIDENED = re.compile(r"\b\w+(\(\))? as (i64|i128|u64|usize|u32|i16)\b")
BESIDE = re.compile(r"\b(len|start|split): usize|\[u8; 16\]|names: &\[|\bleft: usize")
SWITCH = re.compile(r"^\s*match (sign|kind|class|form|op|\(sign, sum\))\b|\bif (over|few|root|sum)\b|\(over,|few:")
OLD_IMPORT = re.compile(r"^use (borrow\.Author|lib\.|native\.)")
PLAIN_ANSWER = re.compile(r"= search rules;?$")


def git(*words):
    return subprocess.run(["git", *words], capture_output=True, text=True, check=True).stdout


def texts(commit, ending):
    """The files of the crates with that ending, as path and text."""
    if commit:
        paths = git("ls-tree", "-r", "--name-only", commit, "crates").split()
        return [(p, git("show", f"{commit}:{p}")) for p in paths if p.endswith(ending)]
    paths = git("ls-files", "-co", "--exclude-standard", "crates").split()
    return [(p, open(p, encoding="utf-8").read()) for p in sorted(set(paths)) if p.endswith(ending)]


def code(line):
    """A line without its comment; clauses are no code."""
    return "" if re.match(r"\s*(//|ghost\b|requires\b|ensures\b)", line) else line


def functions(sources):
    """Each function, as its place, its head, its clauses and its body."""
    for path, text in sources:
        for m in re.finditer(r"^( *)(?:pub(?:\(crate\))? )?fn (\w+)(.*?)\n\1\}", text, re.M | re.S):
            lines = m[3].split("\n")
            clauses = [l.strip() for l in lines if re.match(r"\s*(requires|ensures)\b", l)]
            rest = "\n".join(code(l) for l in lines)
            head, _, body = rest.partition("{")
            yield f"{path}:{text.count(chr(10), 0, m.start()) + 1} {m[2]}", head, clauses, body


def shape(body):
    """The body with its names and numbers left out."""
    tokens = re.findall(r"\w+|[^\w\s]", body)
    words = {"if", "else", "match", "for", "in", "let", "mut", "return", "loop", "while", "Some", "None", "Ok", "Err", "self"}
    return " ".join(t if t in words or not re.match(r"\w", t) else "_" for t in tokens)


def groups(found, least):
    by = collections.defaultdict(set)
    for place, key in found:
        by[key].add(place)
    return {k: v for k, v in by.items() if len(v) >= least}


def lines_like(pattern, sources, keep=code):
    return [f"{p}:{i}: {l.strip()}" for p, t in sources for i, l in enumerate(t.split("\n"), 1) if pattern.search(keep(l))]


def twins(funs):
    found = groups(((p, shape(b)) for p, _, _, b in funs if len(shape(b).split()) >= 12), 2)
    return [", ".join(sorted(v)) for v in found.values()]


def same_contracts(funs):
    found = groups(((p, "\n".join(c)) for p, _, c, _ in funs if c), 2)
    return [", ".join(sorted(v)) for v in found.values()]


def facts(funs):
    """The facts of clauses, apart from the names of the values, that stand in three functions or more of one crate."""
    found = []
    for place, _, clauses, _ in funs:
        crate = place.split("/")[1]
        for clause in clauses:
            inner = re.sub(r"^(requires|ensures)\*?\s*\w*\s*\{ (.*) \}$", r"\2", clause)
            for part in re.split(r" × ", inner):
                part = re.sub(r"\b[a-z_]+\.(old|new|now)\b(\.\w+)?", "x", part.strip("() "))
                part = re.sub(r"\b(at|start|after|n|d|count|line)\b(\.now)?", "y", part)
                if re.search(r"[≤<≡]", part) and not part.startswith("result ≡") and "→" not in part and len(part) < 60:
                    found.append((place, (crate, part)))
    return [f"{k[0]}: {k[1]}  ({len(v)} functions)" for k, v in groups(found, 3).items()]


def travel(funs):
    """Pairs of parameters of one name and type that stand together in three functions or more of one crate."""
    found = []
    for place, head, _, _ in funs:
        crate = place.split("/")[1]
        params = re.findall(r"(\w+): (&?(?:'\w+ )?(?:mut )?[\w\[\]<>]+)", head.split("->")[0])
        params = [p for p in params if p[0] not in ("rt", "rounding", "other")]
        for i, a in enumerate(params):
            for b in params[i + 1:]:
                found.append((place, (crate, f"{a[0]}: {a[1]}, {b[0]}: {b[1]}")))
    return [f"{k[0]}: {k[1]}  ({len(v)} functions)" for k, v in groups(found, 3).items()]


def main():
    words = [w for w in sys.argv[1:] if w != "-c"]
    commit = words[0] if words else None
    sources = [s for s in texts(commit, ".rt") if "/src/" in s[0]]
    funs = list(functions(sources))
    notes = [s for s in texts(commit, ".antt")]
    points = [
        ("1 flags", lines_like(FLAG, sources)),
        ("1 a match for `?`, `ok_or` or `unwrap_or`", lines_like(TURNED, sources)),
        ("1 numbers of refusals and verdicts", lines_like(NUMBERED, sources)),
        ("2 bodies of one shape", twins(funs)),
        ("2 contracts of two functions", same_contracts(funs)),
        ("3 loops by an index", lines_like(INDEX, sources)),
        ("4 equality, copies, conversions and printing by hand", lines_like(BY_HAND, sources)),
        ("4 casts that widen", lines_like(WIDENED, sources)),
        ("5 facts in three contracts", facts(funs)),
        ("5 parameters that travel together", travel(funs)),
        ("6 a length or a place beside, parallel slices", lines_like(BESIDE, sources)),
        ("7 switches on a step", lines_like(SWITCH, sources)),
        ("8 imports from the kit's inner modules", lines_like(OLD_IMPORT, notes, lambda l: l)),
        ("8 answers that are the search alone", lines_like(PLAIN_ANSWER, [n for n in notes if "/Answers.antt" in n[0]], lambda l: l)),
    ]
    for name, found in points:
        print(f"{len(found):4}  point {name}")
        if "-c" not in sys.argv[1:]:
            for place in found:
                print("        " + place)
    lengths = [len(t.split("\n")) - 1 for p, t in notes if "/proofs/" in p]
    print(f"{sum(lengths):4}  lines in {len(lengths)} files of proofs")


if __name__ == "__main__":
    main()
