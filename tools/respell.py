#!/usr/bin/env python3
"""Brings this repository's own definitions and lemmas to the spelling of today's Rattle: run once, at the top, after the upgrade script.

In snake case: definitions, lemmas, fields and constructors. In upper camel case, with no dash: facts. A dash stays where it joins to an operator.
A lemma that would get a name that stands already gets _lem. Names of Rattle's own, of its library and of the functions of src/ stay.
"""

import collections
import os
import re
import sys

NAME = re.compile(r"[^\s(){}\[\],;|.]+")
PLAIN = r"[A-Za-z0-9_']"
MADE = re.compile(r"\.(Goals|Given)$")


def files(ending):
    for folder, folders, names in os.walk("crates"):
        folders[:] = sorted(f for f in folders if f != "out")
        for name in sorted(names):
            if name.endswith(ending):
                yield os.path.join(folder, name)


def read(path):
    with open(path, encoding="utf-8") as f:
        return f.read()


def undotted(text):
    """The names of a text, each with its number, but for what stands behind a dot: parts of a path, and fields."""
    return collections.Counter(m[0] for m in NAME.finditer(text) if not text.startswith(".", m.start() - 1))


def snake(name):
    name = re.sub(rf"(?<={PLAIN})-(?={PLAIN})", "_", name)
    name = re.sub(rf"(?<=[^\W\d_])-(?=[a-z])|(?<=[ᶠℤ])-(?=[a-z])", "_", name)
    return re.sub(r"(?<=[a-z])([A-Z])", lambda m: "_" + m[1].lower(), name)


def camel(name):
    return re.sub(r"-([a-z])", lambda m: m[1].upper(), name)


def found():
    """The names of the proof files that are this repository's own, and all names that stand there."""
    crates, taken, names = set(os.listdir("crates")), set(), collections.Counter()
    for path in files(".antt"):
        text = re.sub(r"--.*", "", read(path))
        for m in re.finditer(r"^use (\S+?)\.\{([^}]*)\}", text, re.M):
            own = re.match(r"Rattle\.(\w+)\.", m[1])
            if not own or own[1] not in crates or MADE.search(m[1]):
                taken.update(n.strip() for n in m[2].split(","))
        taken.update(re.findall(r"^(?:pub |abbrev )*(\S+)\s+:\s+goal\.", text, re.M))
        names += undotted(text)
    return taken, names


def turned():
    taken, names = found()
    own = [n for n in names if n not in taken and "◌" not in n and re.match(r"[^\W\d_]|[<≤≈]ᶠ", n)]
    new = {n: camel(n) for n in own if n[0].isupper() and "-" in n}
    humps = {n: snake(n) for n in own if n[0].islower() and "-" not in n and re.search(r"[a-z][A-Z]", n)}
    dashes = {n: snake(n) for n in own if not n[0].isupper() and "-" in n and snake(n) != n}
    standing = set(humps.values()) | set(names) | taken
    new.update(humps)
    new.update({n: s + "_lem" if s in standing else s for n, s in dashes.items()})
    twice = [s for s, k in collections.Counter(new.values()).items() if k > 1]
    return new, [*meeting(new), *twice]


def meeting(new):
    """The names that would meet, in one file, another that stands there already."""
    for path in files(".antt"):
        here = undotted(re.sub(r"--.*", "", read(path)))
        yield from (f"{path}: {n}" for n in here if new.get(n) in here)


def respelled(text, new):
    """The text with the names turned, comments aside."""
    parts = re.split(r"(--[^\n]*|//[^\n]*)", text)
    return "".join(p if i % 2 else NAME.sub(lambda m: new.get(m[0], m[0]), p) for i, p in enumerate(parts))


def main():
    new, together = turned()
    if together:
        sys.exit(f"names that fall together: {together}")
    for path in [*files(".antt"), *files(".rt")]:
        text = read(path)
        out = respelled(text, new)
        if out != text:
            with open(path, "w", encoding="utf-8") as f:
                f.write(out)
    for n in sorted(new):
        print(n, new[n])


main()
