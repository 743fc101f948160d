#!/usr/bin/env python3
"""Calls the library's `AllByRecursion` by its own name where a file had it under the name `All`, which is another word of today's library.

usage: python3 tools/name_all.py     at the top of a checkout in which port.py has run
"""

import os
import re

NAME = re.compile(r"(?<![^\s(){}\[\],;:`\"|@∷→λ.])All(?![^\s(){}\[\],;:`\"|@∷→λ])")


def main():
    changed = 0
    for folder, dirs, names in os.walk("crates"):
        dirs[:] = [d for d in dirs if d != "out"]
        for name in names:
            path = os.path.join(folder, name)
            if not name.endswith((".rt", ".antt")):
                continue
            with open(path, encoding="utf-8") as f:
                text = f.read()
            if "AllByRecursion as All" not in text:
                continue
            text = text.replace("AllByRecursion as All", "AllByRecursion")
            lines = [l if l.lstrip().startswith(("--", "//")) else NAME.sub("AllByRecursion", l) for l in text.split("\n")]
            with open(path, "w", encoding="utf-8") as f:
                f.write("\n".join(lines))
            changed += 1
    print(f"name_all: {changed} files")


if __name__ == "__main__":
    main()
