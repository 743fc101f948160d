#!/usr/bin/env python3
"""Checks a call-file program against exchange.py, and exchange.py against all schedules of small sessions.

    python3 reference/check.py [--seed N] [--files N] [--lines N] [--sessions N] [PROGRAM]

PROGRAM is crates/voipyndu/out/voipyndu if it is not given. It is run on short files of odd shape, on the stored call
files crates/voipyndu/stdin and reference/sessions/calls.txt, on the file of limits.py, and on `files` files of
generate.py (20) with `lines` lines each (5000), from seed `seed` on (1). What it writes must be what exchange.py
answers, byte for byte. Then brute.py tries all schedules of `sessions` small sessions (1000). How much was compared
and what came up in it is printed. The exit status is 1 if anything differs; the first answer of a file that differs is
then shown.
"""
import argparse
import io
import os
import subprocess
import sys
from collections import Counter

sys.dont_write_bytecode = True
import brute
import exchange
import generate
import limits
from kinds import kinds_of

TOP = os.path.dirname(os.path.dirname(os.path.abspath(__file__)))
PROGRAM = os.path.join(TOP, "crates", "voipyndu", "out", "voipyndu")
STORED = ("crates/voipyndu/stdin", "reference/sessions/calls.txt")

# The refusals that a call file can reach, for each call (docs/REFUSALS.md).
REACHABLE = {
    "admit": (3, 7, 8, 15), "begin": (10, 11, 15), "enter": (3, 4, 5, 6, 7, 8, 15), "withdraw": (3, 9, 15),
    "close": (15,), "clear": (15,), "settle": (13, 15), "annul": (15,), "no form": (14,),
}


class Counts:
    """What came up in the files that were compared."""

    def __init__(self):
        self.files = self.lines = self.answers = self.differing = 0
        self.refused, self.kinds, self.shapes = Counter(), Counter(), Counter()

    def count(self, house, line, printed):
        self.lines += 1
        self.answers += len(printed)
        if printed[0].startswith("(no "):
            call = exchange.read(line)
            self.refused[call[0] if call else "no form", int(printed[0][4:-1])] += 1
        elif printed[0].startswith("(cleared "):
            self.kinds.update(kinds_of(house.clearing, house.capacities))
        if 119 <= len(line) <= 121:
            self.shapes[f"{len(line)} bytes"] += 1
        elif len(line) > 121:
            self.shapes["more bytes"] += 1
        if any(not 32 <= byte < 127 for byte in line):
            self.shapes["bytes that are no text"] += 1


def answer_all(calls, counts):
    """The answers of exchange.py to a call file, each with its line."""
    house = exchange.Exchange()
    for line in io.BytesIO(calls):
        line = line.removesuffix(b"\n")
        printed = exchange.answer(house, line)
        counts.count(house, line, printed)
        for text in printed:
            yield text.encode() + b"\n", line


def first_difference(theirs, answers):
    """Where the program's output leaves the answers, which it does."""
    lines = io.BytesIO(theirs)
    for place, (ours, call) in enumerate(answers, 1):
        their = lines.readline()
        if their != ours:
            return f"answer {place}, to {call}, is {their}, and exchange.py has {ours}"
    return f"after the last answer {lines.readline()} follows"


def compare(program, name, calls, counts):
    answers = list(answer_all(calls, counts))
    counts.files += 1
    counts.shapes["files without a last newline"] += bool(calls) and not calls.endswith(b"\n")
    run = subprocess.run([program], input=calls, stdout=subprocess.PIPE)
    if run.returncode != 0:
        print(f"{name}: the program ends with status {run.returncode}")
    elif run.stdout != b"".join(ours for ours, _ in answers):
        print(f"{name}: {first_difference(run.stdout, answers)}")
    else:
        return
    counts.differing += 1


def short_files():
    """Files of odd shape, by name."""
    yield from (("empty file", b""), ("one newline", b"\n"), ("no newline", b"(admit 1)"), ("two", b"(admit 1)\n\n"))
    yield "a zero byte", b"\x00"
    yield "no end of the last line", b"(admit 1)\n(admit 2"
    for length in (119, 120, 121, 65_535, 65_536, 65_537, 1_000_000):
        for front in (b"(admit 1)", b"(admit "):
            line = front + b"1" * (length - len(front))
            yield f"one line of {length} bytes", line
            yield f"a line of {length} bytes before a call", line + b"\n(admit 2)\n"
    for place in (*range(4_080, 4_100), *range(65_520, 65_540)):
        front = (b"x" * 999 + b"\n") * (place // 1000)
        yield f"a call at byte {place}", front + b" " * (place % 1000 - 1) + b"\n(admit 7)\n(admit 7)"


def call_files(given):
    yield from short_files()
    for name in STORED:
        with open(os.path.join(TOP, name), "rb") as file:
            yield name, file.read()
    yield "limits.py", limits.call_file()
    for seed in range(given.seed, given.seed + given.files):
        yield f"generate.py {seed} {given.lines}", generate.Writer(seed, given.lines).file()


def listed(counter):
    return "; ".join(f"{name}: {times:,}" for name, times in sorted(counter.items()) if times)


def report(counts):
    numbers = Counter()
    for (_, number), times in counts.refused.items():
        numbers[number] += times
    missed = [f"{number} at {call}" for call, due in REACHABLE.items() for number in due
              if not counts.refused[call, number]]
    print(f"{counts.files} call files compared: {counts.lines:,} lines, {counts.answers:,} lines of answers.")
    print(f"Lines refused, by number: {listed(numbers)}.")
    print("Refusals that a call file can reach and that did not come up:", ", ".join(missed) or "none", end=".\n")
    print(f"Lines and files of odd shape: {listed(counts.shapes)}.")
    print(f"Clearings: {listed(counts.kinds)}.")
    print("Nothing differs." if counts.differing == 0 else f"{counts.differing} files differ.")


def main():
    arguments = argparse.ArgumentParser(description=__doc__.splitlines()[0])
    arguments.add_argument("program", nargs="?", default=PROGRAM)
    for name, default in (("seed", 1), ("files", 20), ("lines", 5000), ("sessions", 1000)):
        arguments.add_argument(f"--{name}", type=int, default=default)
    given = arguments.parse_args()
    if not os.path.isfile(given.program):
        sys.exit(f"there is no program {given.program}")
    counts = Counts()
    for name, calls in call_files(given):
        compare(os.path.abspath(given.program), name, calls, counts)
    report(counts)
    print("\nexchange.py against all schedules:")
    failed = brute.main(given.seed, given.sessions)
    return 1 if failed or counts.differing else 0


if __name__ == "__main__":
    sys.exit(main())
