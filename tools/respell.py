#!/usr/bin/env python3
"""Spells the definitions and lemmas of the crates as today's Rattle does: words in snake case.

usage: python3 tools/respell.py        at the top of the repository, after /opt/rattle/port/port.py

A name counts as the repository's own where a file of specs/ or proofs/ declares it with a type of
its own; what answers a goal (its type is `goal.NAME`) keeps the name that Rattle makes. Types and
modules keep their camel case. Prints each old and new name, and stops before it writes anything
where two names would fall together.
"""

import collections
import os
import re

NAME = r"[A-Za-z_ℕℤ][\w'-]*"
DECLARED = re.compile(rf"^[ \t]*(?:(?:abbrev|unfoldable|pub)[ \t]+)*({NAME})[ \t]+:[ \t]+(?P<type>.*)$", re.M)
TOKEN = re.compile(rf"(?<![\w'\-])({NAME})(?![\w'\-])")
COMMENT = re.compile(r"--[^\n]*")
# lemmas in snake case already, of which a definition now has the name
LEMMAS = {"lines_at"}


def files(root):
    for folder, dirs, names in os.walk(os.path.join(root, "crates")):
        dirs[:] = sorted(d for d in dirs if d not in ("out", "data"))
        for name in sorted(names):
            if name.endswith((".rt", ".antt")):
                yield os.path.join(folder, name)


def snake(name):
    parts = re.sub(r"(?<=[a-z0-9])(?=[A-Z])", "_", name.replace("-", "_"))
    return parts.lower()


def own_names(texts):
    found = collections.defaultdict(set)
    for path, text in texts.items():
        if not path.endswith(".antt"):
            continue
        for m in DECLARED.finditer(COMMENT.sub("", text)):
            name, kind = m.group(1), m.group("type")
            made = re.match(r"(goal|given)\.", kind)
            if not made and name[0].islower() and snake(name) != name:
                found[name].add(path)
    return found


def spelled(path, text, new):
    """The text with the new names; in Rust only clauses have such names, and a dash is a minus."""
    rust = path.endswith(".rt")

    def turn(m):
        name = m.group(1)
        if name not in new or (rust and "-" in name):
            return name
        return new[name]

    if rust:
        return TOKEN.sub(turn, text)
    # prose keeps words that happen to be joined by a dash
    out, at = [], 0
    for c in COMMENT.finditer(text):
        out.append(TOKEN.sub(turn, text[at:c.start()]))
        out.append(TOKEN.sub(lambda m: turn(m) if "-" not in m.group(1) else m.group(1), c.group()))
        at = c.end()
    out.append(TOKEN.sub(turn, text[at:]))
    return "".join(out)


def main():
    root = os.getcwd()
    texts = {}
    for path in files(root):
        with open(path, encoding="utf-8", newline="") as f:
            texts[path] = f.read()
    found = own_names(texts)
    new = {name: snake(name) for name in found}
    # a lemma that would have its function's name, which so far a dash told apart, gets `_lem`
    for old in sorted(n for n in new if "-" in n):
        if any(other != old and new[other] == new[old] for other in new):
            new[old] += "_lem"
    for old in LEMMAS & {m.group(1) for t in texts.values() for m in DECLARED.finditer(t)}:
        new[old] = old + "_lem"
    # a new name must not be one that the same file already has for something else; a definition may
    # have the name of the function of src/ whose result it tells
    clashes = []
    taken = collections.defaultdict(set)
    functions = set()
    for path, text in texts.items():
        for word in TOKEN.findall(text):
            taken[word].add(path)
        if path.endswith(".rt"):
            functions |= set(re.findall(r"\bfn (\w+)", text))
    for old, name in sorted(new.items()):
        both = taken[old] & taken[name]
        if both and name not in functions and name not in LEMMAS:
            clashes.append(f"{old} -> {name}: {', '.join(os.path.relpath(p, root) for p in sorted(both))}")
    for name, count in collections.Counter(new.values()).items():
        if count > 1:
            clashes.append(f"several become {name}: {', '.join(sorted(o for o in new if new[o] == name))}")
    for line in clashes:
        print("clash: " + line)
    if clashes:
        return 1
    for old, name in sorted(new.items()):
        print(f"{old} {name}")
    for path, text in texts.items():
        turned = spelled(path, text, new)
        if turned != text:
            with open(path, "w", encoding="utf-8", newline="") as f:
                f.write(turned)
    return 0


if __name__ == "__main__":
    raise SystemExit(main())
