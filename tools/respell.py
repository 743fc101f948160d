#!/usr/bin/env python3
"""Brings the repository's own definitions and lemmas to today's spelling: a fact or a type in upper camel case, everything else in snake case.

usage: python3 tools/respell.py [--dry]      at the top of a checkout in which port.py has run, once

It reads what the .antt files under crates/ declare, makes the new name of each, and puts it for the old one wherever the old one stands as a
whole name: in .antt files, in the contracts and imports of .rt files, in must-fail edits, and between backticks in docs/ and README.md.
Functions of src/, strings, inputs and outputs are left alone. It stops where two names would fall together.
"""

import os
import re
import sys

# Names that the library spelled otherwise when these were made.
WORDS = {"getD": "get_or", "leZ": "le_int", "ltZ": "lt_int"}
NAME = re.compile(r"[^\s(){}\[\],;.:`\"|@∷→λ]+")
DECLARED = re.compile(r"\s*(?:unfoldable |abbrev )?(?:pub )?(?:unfoldable |abbrev )?([^\s:(){}\[\].]+) :\s")
HEADED = re.compile(r"\s*(?:pub )?(?:record|data) ([^\s:(){}]+)")
GOAL = re.compile(r"\b(?:goal|need|given)\.([^\s:(){}\[\].]+)")
ADDED = re.compile(r"^\s*(?:use|ghost use)\b.*\bas ([^\s,;}]+)", re.M)


def files(root, *endings):
    for folder, dirs, names in os.walk(os.path.join(root, "crates")):
        dirs[:] = sorted(d for d in dirs if d != "out")
        for name in sorted(names):
            if name.endswith(endings):
                yield os.path.join(folder, name)


def read(path):
    with open(path, encoding="utf-8") as f:
        return f.read()


def snake(part):
    return re.sub(r"(?<=[a-z0-9])([A-Z])", lambda m: "_" + m.group(1).lower(), part)


def respelled(name):
    # `PriceLimits` and `VolumeLimits` are variants of the enum of refusals.
    limits = re.fullmatch(r"(?!In|Within)([A-Z][a-z]+)-limits", name)
    if limits:
        return limits.group(1) + "WithinLimits"
    for old, new in WORDS.items():
        name = re.sub(r"(?<![A-Za-z])" + old + r"(?![a-z])", new, name)
    if re.match(r"[A-Z]", name):
        if "-" not in name and "_" not in name:
            return name
        return "".join(p[:1].upper() + p[1:] for p in re.split(r"[-_]", name))
    return "_".join(snake(p) if re.match(r"[a-z]", p) else p for p in name.split("-"))


def declared(root):
    names, goals = set(), set()
    for path in files(root, ".antt"):
        text = read(path)
        goals.update(GOAL.findall(text))
        for line in text.split("\n"):
            if line.lstrip().startswith("--"):
                continue
            for found in (DECLARED.match(line), HEADED.match(line)):
                if found:
                    names.add(found.group(1))
        names.update(ADDED.findall(text))
    return names - goals


def known(root):
    """Every whole name that stands in the proofs and contracts."""
    found = set()
    for path in files(root, ".antt", ".rt"):
        for line in read(path).split("\n"):
            if not line.lstrip().startswith(("--", "//")):
                found.update(NAME.findall(line))
    return found


def turned(text, new, comment):
    out = []
    for line in text.split("\n"):
        if comment and line.lstrip().startswith(comment):
            out.append(re.sub(r"`[^`]*`", lambda m: NAME.sub(lambda n: new.get(n.group(0), n.group(0)), m.group(0)), line))
        else:
            out.append(NAME.sub(lambda n: new.get(n.group(0), n.group(0)), line))
    return "\n".join(out)


def main():
    root = os.getcwd()
    old = sorted(n for n in declared(root) if re.search(r"[A-Za-z]", n) and respelled(n) != n)
    new = {n: respelled(n) for n in old}
    made = {}
    for n in old:
        made.setdefault(new[n], []).append(n)
    there = known(root)
    together = [(m, ns) for m, ns in sorted(made.items()) if len(ns) > 1 or m in there]
    for m, ns in together:
        print(f"respell: {', '.join(ns)} would be {m}" + (", which stands there already" if m in there else ""))
    if "--dry" in sys.argv:
        for n in old:
            print(n, "->", new[n])
        return
    for path in list(files(root, ".antt", ".rt", ".edit")):
        comment = "--" if path.endswith(".antt") else "//" if path.endswith(".rt") else None
        text = read(path)
        after = turned(text, new, comment)
        if after != text:
            with open(path, "w", encoding="utf-8") as f:
                f.write(after)
    pages = [os.path.join(root, "README.md")] + [os.path.join(root, "docs", n) for n in sorted(os.listdir(os.path.join(root, "docs"))) if n.endswith(".md")]
    for path in pages:
        text = read(path)
        after = re.sub(r"`[^`\n]*`", lambda m: NAME.sub(lambda n: new.get(n.group(0), n.group(0)), m.group(0)), text)
        if after != text:
            with open(path, "w", encoding="utf-8") as f:
                f.write(after)
    print(f"respell: {len(old)} names")


if __name__ == "__main__":
    main()
