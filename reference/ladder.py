#!/usr/bin/env python3
"""What the program ladder should print: reads its input from standard input, writes its output.

Run: python3 reference/ladder.py < crates/ladder/stdin | cmp - crates/ladder/stdout
It shares nothing with the engine; the rules are those of docs/MARKET.md and docs/CALLS.md."""
import re
import sys

NUMBER = rb"(0|[1-9][0-9]{0,8})"
PRICE = rb"(0|-?[1-9][0-9]{0,8})"
FORM = re.compile(
    rb"\(enter " + NUMBER + rb" (sale|purchase) \(" + rb" ".join([NUMBER] * 4 + [PRICE, NUMBER]) + rb"\)\)")


def answer(line, ladders):
    form = FORM.fullmatch(line) if len(line) <= 120 else None
    if form is None:
        return 14
    zone, side = int(form[1]), form[2].decode()
    agent, unit, number, stamp, price, volume = (int(form[i]) for i in range(3, 9))
    if zone not in (1, 2) or not 1 <= agent <= 9999 or not 1 <= unit <= 999999:
        return 3
    if not 1 <= number <= 25 or not 0 <= stamp <= 999999999:
        return 3
    if not -50000 <= price <= 300000:
        return 4
    if not 1 <= volume <= 100000:
        return 5
    ladder = ladders[zone, side]
    if any(b[1] == unit and b[2] == number for b in ladder):
        return 7
    if len(ladder) == 256:
        return 8
    ladder.append((agent, unit, number, stamp, price, volume))
    return 0


def main():
    data = sys.stdin.buffer.read()
    lines = data.split(b"\n")
    if lines[-1] == b"":
        lines.pop()
    ladders = {(z, s): [] for z in (1, 2) for s in ("sale", "purchase")}
    for line in lines:
        number = answer(line, ladders)
        print("(ok)" if number == 0 else f"(no {number})")
    for (zone, side), ladder in ladders.items():
        turn = 1 if side == "sale" else -1
        for b in sorted(ladder, key=lambda b: (turn * b[4], b[3], b[5], b[1], b[2])):
            print(f"(block {zone} {side} ({' '.join(map(str, b))}))")


main()
