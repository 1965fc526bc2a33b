#!/usr/bin/env python3
"""Respells the repository's own definitions and lemmas as the installed Rattle spells its own.

usage: python3 tools/respell.py        at the top of the repository, once, after the kit's port.py

Words are in snake case (`fenceOf` is `fence_of`, `with-parts` is `with_parts`); a dash stays only where it joins names
(`length-zeroed`, since `length` and `zeroed` are names); a fact or a type is in camel case (`ExamplesStand`).
A member of a bound is named by the bound (`B.areas`).
Names from src/ keep their spelling, and so do the names that Rattle makes. What would fall together is named, and nothing is written.
A lemma that would have the name of a definition gets `_lem`. A definition may have the name of a function of src/: clauses see the one, code the other.
"""

import collections
import os
import re
import sys

WORD = re.compile(r"[A-Za-z_][A-Za-z0-9_']*(?:-[A-Za-z0-9_']+)*")
DEFINED = re.compile(r"\s*(?:(?:abbrev|unfoldable|pub|record|data)\s+)*(" + WORD.pattern + r")\s*(?:\(.*\))?\s*:\s")
SKIPPED = ("--", "use ", "pub use ", "module ", "let ", "mod ", "pub mod ")
IMPORT = re.compile(r"use\s+([\w.·'-]+)\.\{([^}]*)\}")


def files(root, *ends):
    for folder, dirs, names in os.walk(root):
        dirs[:] = sorted(d for d in dirs if d not in ("out", ".git", "target"))
        for name in sorted(names):
            if name.endswith(ends):
                yield os.path.join(folder, name)


def read(path):
    with open(path, encoding="utf-8") as f:
        return f.read()


def defined_in(text):
    """The names that a file of definitions declares, with the fields and constructors of its types."""
    for line in text.split("\n"):
        if not line.strip().startswith(SKIPPED) and (m := DEFINED.match(line)):
            yield m[1]


def is_of_a_function(path):
    """Goals, invariants and answers of one function: their names are made by Rattle."""
    return os.path.basename(path) in ("Answers.antt", "Invariants.antt", "Proof.antt") and "/proofs/" in path and os.path.basename(os.path.dirname(path)) != "proofs"


def respelled(name, known):
    if name[0].isupper():
        return "".join(part[:1].upper() + part[1:] for part in name.split("-"))
    parts = [re.sub(r"(?<=[a-z0-9])([A-Z])", lambda m: "_" + m[1].lower(), part) for part in name.split("-")]
    joins = len(parts) > 1 and all(part in known or new in known for part, new in zip(name.split("-"), parts))
    return ("-" if joins else "_").join(parts)


def imported(text):
    """For each name that a file imports: is it from a library of the kit?"""
    found = {}
    for m in IMPORT.finditer(text):
        kit = m[1].startswith(("Rattle.std", "lib.", "mathlib.", "Prim.", "native.", "Rattle.core")) or not m[1].startswith("Rattle.")
        for item in m[2].split(","):
            if item.strip():
                found[item.split(" as ")[0].strip()] = kit
    return found


def by_bound(text):
    """The clauses of functions over `B: Board`, with the member `areas` named by the bound."""
    lines, open_clause = [], False
    for line in text.split("\n"):
        if re.match(r"\s*(requires|ensures)\b", line) or open_clause:
            line = re.sub(r"(?<![\w.])areas\b", "B.areas", line)
            open_clause = line.count("{") > line.count("}")
        lines.append(line)
    return "\n".join(lines)


def main():
    antt = list(files("crates", ".antt"))
    rt = list(files("crates", ".rt", ".edit"))
    docs = list(files("docs", ".md")) + ["README.md"]
    texts = {p: read(p) for p in antt + rt + docs}
    own = collections.defaultdict(set)
    for p in antt:
        if not is_of_a_function(p):
            for name in defined_in(texts[p]):
                own[name].add(p)
    for p in antt + rt:
        for alias in re.findall(r" as (" + WORD.pattern + r")[,}]", texts[p]):
            own[alias].add(p)
    known = set(own) | {n for p in antt for n in imported(texts[p])} | {"length", "take", "drop", "set", "map", "all", "sum", "zero", "none"}
    turned = {n: respelled(n, known) for n in own}
    taken = {new for n, new in turned.items() if "-" not in n}
    turned = {n: new + "_lem" if "-" in n and new in taken else new for n, new in turned.items() if n != new}
    clashes = []
    for p in antt:
        words = set(WORD.findall(re.sub(r"\bproofs\.[\w.]*", "", texts[p])))
        clashes += [f"{p}: {n} and {turned[n]}" for n in sorted(words & set(turned)) if turned[n] in words]
    for p in rt:
        fields = set(re.findall(r"^ +(?:pub )?(\w+): [^;]*,$", texts[p], re.M)) if p.endswith(".rt") else set()
        clashes += [f"{p}: the field {new}" for new in turned.values() if new in fields]
    for name, count in collections.Counter(turned.values()).items():
        if count > 1:
            clashes.append(f"{[n for n in turned if turned[n] == name]} fall together")
    print("\n".join(clashes), file=sys.stderr)
    if clashes and "--force" not in sys.argv:
        raise SystemExit(1)
    for p, text in texts.items():
        kit = {n for n, of_kit in imported(text).items() if of_kit}
        made = set(re.findall(r"^\s*(?:abbrev\s+)?pub (\S+) : goal\.", text, re.M)) if is_of_a_function(p) else set()

        def turn(m):
            n = m[0]
            if n not in turned or n in kit or n in made:
                return n
            if "-" in n and text[max(0, m.start() - 1):m.start()] == "." and is_of_a_function(p):
                return n
            return turned[n]

        new = WORD.sub(turn, text) if p not in docs else re.sub(r"`[^`\n]+`", lambda q: WORD.sub(turn, q[0]), text)
        if p.endswith(".rt") and "<B: Board" in text:
            new = by_bound(new)
        if new != text:
            with open(p, "w", encoding="utf-8") as f:
                f.write(new)
    print(f"{len(turned)} names respelled")


main()
