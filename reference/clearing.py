#!/usr/bin/env python3
"""What the program clearing should print: reads its input from standard input, writes its output.

Run: python3 reference/clearing.py < crates/clearing/stdin | cmp - crates/clearing/stdout
It clears with reference/exchange.py, which shares nothing with the engine (docs/CALLS.md has the lines)."""
import sys

import exchange as peer


def high_end(low, high):
    return high if low <= high else low


class Desk:
    def __init__(self):
        self.blocks, self.capacities = {}, (0, 0)

    def begin(self, _, forth, back):
        if max(forth, back) > 30_000_000:
            raise peer.Refused(11)
        self.blocks, self.capacities = {}, (forth, back)
        return ["(ok)"]

    def enter(self, zone, side, agent, unit, number, stamp, price, volume):
        table = {key: block for key, block in self.blocks.items() if key[:2] == (zone, side)}
        if zone not in (1, 2) or not (1 <= agent <= 9999 and 1 <= unit <= 999_999 and 1 <= number <= 25):
            raise peer.Refused(3)
        for number_of, fails in ((4, not -50_000 <= price <= 300_000), (5, not 1 <= volume <= 100_000),
                                 (7, (zone, side, unit, number) in table), (8, len(table) == 256)):
            if fails:
                raise peer.Refused(number_of)
        self.blocks[zone, side, unit, number] = peer.Block(zone, side, agent, unit, number, stamp, price, volume)
        return ["(ok)"]

    def clear(self):
        blocks = list(self.blocks.values())
        low, high = (peer.clear_zones(blocks, self.capacities, rule, peer.by_precedence) for rule in (peer.low_end, high_end))
        lines = [f"(bracket {z} {low.prices[z]} {high.prices[z]})" for z in (1, 2)]
        lines.append(f"(cleared (price {low.prices[1]} {low.prices[2]}) (flow {low.flow}) (surplus {low.surplus}))")
        for zone in (1, 2):
            for side in (peer.SALE, peer.PURCHASE):
                standing = [b for b in blocks if (b.zone, b.side) == (zone, side)]
                for b in sorted(standing, key=peer.precedence):
                    word = "sale" if side == peer.SALE else "purchase"
                    lines.append(f"(block {zone} {word} ({b.agent} {b.unit} {b.number} {b.stamp} {b.price} {b.volume}) {low.volumes[b]})")
        return lines


def answer(desk, line):
    call = peer.read(line) if len(line) <= 120 else None
    if call is None or call[0] not in ("begin", "enter", "clear"):
        return ["(no 14)"]
    try:
        return getattr(desk, call[0])(*call[1:])
    except peer.Refused as refusal:
        return [f"(no {refusal.args[0]})"]


def main():
    lines = sys.stdin.buffer.read().split(b"\n")
    if lines[-1] == b"":
        lines.pop()
    desk = Desk()
    for line in lines:
        print("\n".join(answer(desk, line)))


if __name__ == "__main__":
    main()
