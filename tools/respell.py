#!/usr/bin/env python3
"""Brings the definitions, fields and lemmas of this repository to the spelling of today's Rattle.

usage: python3 tools/respell.py        at the top of the repository, once, right after /opt/rattle/port/port.py

Functions and fields become snake case. In a lemma's name a dash joins two names and an underscore adds a plain word.
The crate log becomes cell_log, since Rattle has a library of the name log. Goals, code, strings and comments of src/ keep
their words; names in README.md and docs/ are turned as well.
"""

import os
import re

TOKEN = re.compile(r"[^\s(){}\[\],;.`\"]+")
DECLARED = re.compile(r"^(?:abbrev |unfoldable |opaque )*(?:pub )?(?:abbrev |unfoldable )?([^\s(){}\[\],;.:]+) :(?: |$)(.*)")
FIELD = re.compile(r"^  (?:pub )?([a-z][^\s(){}\[\],;.:]*) : ")
# Words that are names of std's, so that a dash joins them to what they are about.
NAMES = set("length take drop set get_or append map push sum count lowest replicate unwrap_or decimal field put remove find at foldl suc".split())


def files(*endings):
    for folder, dirs, names in os.walk("crates"):
        dirs[:] = sorted(d for d in dirs if d != "out")
        for name in sorted(names):
            if name.endswith(endings):
                yield os.path.join(folder, name)


def read(path):
    with open(path, encoding="utf-8") as f:
        return f.read()


def snake(name):
    return re.sub(r"(?<=[a-z0-9])([A-Z])", lambda m: "_" + m.group(1).lower(), name)


def declared():
    """Names that stand at the head of a line in specs/ and proofs/, and fields of records: (definitions and fields, lemmas)."""
    words, lemmas = set(), set()
    for path in files(".antt"):
        in_record = False
        for line in read(path).splitlines():
            in_record = line.startswith(("pub record", "record")) or (in_record and (line.startswith("  ") or not line))
            m = DECLARED.match(line)
            if m and not m.group(2).startswith(("goal.", "need.", "given.")):
                (lemmas if "-" in m.group(1) else words).add(m.group(1))
            m = FIELD.match(line) if in_record else None
            if m:
                words.add(m.group(1))
    return words, lemmas


def lemma(name, names):
    """The dash stays between two names; before a plain word an underscore stands."""
    parts = name.split("-")
    out = parts[0]
    for before, part in zip(parts, parts[1:]):
        out += ("-" if before in names and part in names else "_") + part
    return out


def renaming():
    words, lemmas = declared()
    to = {w: snake(w) for w in words if re.match(r"[a-z]", w) and snake(w) != w}
    for new in [n for n in to.values() if n in words]:
        to[new] = new + "_lem"
    names = NAMES | {to.get(w, w) for w in words}
    for l in lemmas:
        new = lemma("-".join(snake(p) for p in l.split("-")), names)
        if new in words or new in to.values():
            new += "_lem"
        if new != l:
            to[l] = new
    return to, words | lemmas


def turn(text, to):
    return TOKEN.sub(lambda m: to.get(m.group(0), m.group(0)), text)


def turn_file(path, to, crates):
    text = read(path)
    if path.endswith(".rt"):
        lines = [l if l.lstrip().startswith("//") else turn(l, to) for l in text.split("\n")]
        new = "\n".join(re.sub(r"\b(use |ghost use Rattle\.)?log(::|\.specs|\.proofs)", crate_name, l) for l in lines)
    else:
        new = turn(text, to)
        if path.endswith(".antt"):
            new = re.sub(r"\bRattle\.log\.", "Rattle.cell_log.", new)
    if new != text:
        with open(path, "w", encoding="utf-8") as f:
            f.write(new)


def crate_name(m):
    """use log:: and Rattle.log.specs; a module log of the crate itself follows crate:: and stays."""
    if m.group(1) == "use " and m.group(2) == "::":
        return "use cell_log::"
    if m.group(1) and m.group(1).startswith("ghost") and m.group(2) != "::":
        return m.group(1) + "cell_log" + m.group(2)
    return m.group(0)


def main():
    to, all_names = renaming()
    kept = all_names - set(to)
    seen = {}
    for old, new in sorted(to.items()):
        if new in kept or new in seen:
            print(f"look: {old} falls together with {seen.get(new, new)}: {new}")
        seen[new] = old
    for path in list(files(".rt", ".antt")):
        turn_file(path, to, True)
    for folder in ("docs", "."):
        for name in sorted(os.listdir(folder)):
            if name.endswith(".md"):
                path = os.path.join(folder, name)
                text = read(path)
                new = turn(text, {k: v for k, v in to.items() if re.search(r"[A-Z]|-", k)})
                if new != text:
                    with open(path, "w", encoding="utf-8") as f:
                        f.write(new)
    if os.path.isdir("crates/log"):
        os.rename("crates/log", "crates/cell_log")
        text = read("crates.txt")
        with open("crates.txt", "w", encoding="utf-8") as f:
            f.write(re.sub(r"(?m)(?<![\w])log(?![\w])", "cell_log", text))
    for old, new in sorted(to.items()):
        print(f"{old} -> {new}")


if __name__ == "__main__":
    main()
