#!/usr/bin/env python3
"""Brings the repository's own definitions and lemmas to snake case, and its own types to camel case.

usage: tools/respell_names.py      at the top of the repository, once, right after the scripts of the toolchain's port.

A name is taken where it is declared in specs/*.antt or proofs/*.antt of a crate (not in the folder of a function's proof, whose
names the toolchain makes). Words are joined by `_`. A dash stays in a lemma's name where it joins names of definitions, as in
`length-be`. Types and facts by name get camel case, as `Said-once` becomes `SaidOnce`. Texts in quotes, comments, functions of
src/ and folders keep their names. The crate `bytes` becomes `octets`, since the toolchain has a library of that name.
"""
import collections
import glob
import os
import re
import subprocess
import sys

DECLARED = re.compile(r"^(\s*)((?:(?:abbrev|unfoldable|pub|data|record)\s+)*)([^\s(){}\[\];,.:|]+)((?:\s+[({].*?)?)\s+:\s+(.*)$")
TOKEN = re.compile(r"[^\s(){}\[\];,.:|\"]+")
WORDS = {"length", "take", "drop", "map", "upd", "count", "cond", "every", "over", "be", "number", "sum", "get_or", "up_to", "and", "or"}
# names that say more than their dashes: renamed by hand
BY_HAND = {"getD-entry": "get_or-entry", "getD-ranged": "get_or-ranged"}


def declared():
    """The names of definitions, with what they come to, and the names of lemmas."""
    specs, lemmas = collections.OrderedDict(), collections.OrderedDict()
    for path in sorted(glob.glob("crates/*/specs/*.antt") + glob.glob("crates/*/proofs/*.antt")):
        for line in open(path, encoding="utf-8"):
            if line.startswith("use ") or line.strip().startswith("--"):
                continue
            m = DECLARED.match(line)
            if m and m[3] not in ("let", "use", "module", "_", "elim"):
                (specs if "/specs/" in path else lemmas).setdefault(m[3], m[5])
    return specs, lemmas


def camel(name):
    return "".join(w[:1].upper() + w[1:] for w in name.split("-"))


def segments(name, known):
    """The name cut at dashes into names of definitions, or None."""
    parts = name.split("-")
    if not parts:
        return None
    for k in range(len(parts), 0, -1):
        head = "-".join(parts[:k])
        if head in known and k < len(parts):
            rest = segments("-".join(parts[k:]), known)
            if rest is not None:
                return [head] + rest
        if head in known and k == len(parts):
            return [head]
    return None


def mapping():
    specs, lemmas = declared()
    names = {}
    for name, means in specs.items():
        if name[0].isupper() and "-" in name:
            names[name] = camel(name)
        elif re.search(r"Type 0( where)?$", means) and name[0].islower():
            names[name] = camel(name)
        elif "-" in name:
            names[name] = name.replace("-", "_")
    known = set(specs) | WORDS
    for name, means in lemmas.items():
        if "-" not in name or name in names:
            continue
        if name in BY_HAND:
            names[name] = BY_HAND[name]
        elif name[0].isupper():
            names[name] = camel(name)
        else:
            cut = segments(name, known)
            if cut and len(cut) > 1:
                names[name] = "-".join(names.get(c, c).replace("-", "_") for c in cut)
            else:
                names[name] = name.replace("-", "_")
    taken = collections.Counter(names.values())
    for new, n in taken.items():
        if n > 1:
            sys.exit(f"names fall together: {[k for k, v in names.items() if v == new]}")
    return {k: v for k, v in names.items() if k != v}


def pieces(text, comment):
    """The text cut into what is code and what is a comment or a text in quotes."""
    cut = re.compile(r'("(?:[^"\\\n]|\\.)*")|(' + re.escape(comment) + r"[^\n]*)")
    at = 0
    for m in cut.finditer(text):
        yield True, text[at : m.start()]
        yield False, m[0]
        at = m.end()
    yield True, text[at:]


def turn(path, names, comment):
    text = open(path, encoding="utf-8").read()
    new = "".join(TOKEN.sub(lambda m: names.get(m[0], m[0]), part) if code else part for code, part in pieces(text, comment))
    new = new.replace("Rattle.bytes.", "Rattle.octets.")
    if path.endswith(".rt"):
        new = re.sub(r"(?m)^(\s*(?:pub )?use )bytes::", r"\1octets::", new)
    if new != text:
        open(path, "w", encoding="utf-8").write(new)


def main():
    os.chdir(subprocess.run(["git", "rev-parse", "--show-toplevel"], capture_output=True, text=True, check=True).stdout.strip())
    names = mapping()
    for path in sorted(glob.glob("crates/**/*.antt", recursive=True)):
        if "/out/" not in path:
            turn(path, names, "--")
    for path in sorted(glob.glob("crates/*/src/**/*.rt", recursive=True)):
        turn(path, names, "//")
    lines = open("crates.txt", encoding="utf-8").read()
    lines = "\n".join(l if l.startswith("#") else re.sub(r"\bbytes\b", "octets", l) for l in lines.split("\n"))
    open("crates.txt", "w", encoding="utf-8").write(lines)
    if os.path.isdir("crates/bytes"):
        subprocess.run(["git", "mv", "crates/bytes", "crates/octets"], check=True)
    for name, new in sorted(names.items()):
        print(f"{name} -> {new}")


if __name__ == "__main__":
    main()
