#!/usr/bin/env python3
"""Writes a call file that brings positions and the income to their limits, which takes over 120,000 lines.

    python3 reference/limits.py > CALLS

First agent 1 sells to agent 2 until they stand at 10^14 and at -10^14 cents, which is allowed. Then one cent more is
tried on each side alone and refused by 13, settled again and annulled; a session that adds less than half a cent, one
that passes the limit only on its way, and one that leads back are accepted. Then agents 4 and 5 trade across a
congested interconnector until the income stands at 10^14, and the same is tried with the income.

sessions/write.py has the same sessions, with other agents, in the stored call file.
"""
import sys
from collections import Counter

LIMIT = 10**14
LOWEST, HIGHEST = -50_000, 300_000
FULL, PLACES, NUMBERS = 100_000, 256, 25


class Writer:
    """The lines of sessions whose numbers follow the last one."""

    def __init__(self, last_session=0):
        self.lines = []
        self.last_session = last_session

    def session(self, capacity, blocks, ends=("close", "clear", "settle")):
        """Blocks are (zone, side, agent, volume, price); in each table units and block numbers count from 1."""
        self.last_session += 1
        self.lines.append(f"(begin {self.last_session} {capacity} 0)")
        places = Counter()
        for zone, side, agent, volume, price in blocks:
            unit, number = divmod(places[zone, side], NUMBERS)
            places[zone, side] += 1
            self.lines.append(f"(enter {zone} {side} ({agent} {unit + 1} {number + 1} 0 {price} {volume}))")
        self.lines += [f"({end})" for end in ends]

    def refused_session(self, capacity, blocks):
        self.session(capacity, blocks, ("close", "clear", "settle", "settle", "annul"))


def trade(seller, purchaser, price, zone=1, volume=FULL, count=1):
    """Sales and purchases that are all matched at this price; it is enough that one sale asks it, the others ask 0."""
    sales = (count - 1) * [(zone, "sale", seller, volume, 0)] + [(zone, "sale", seller, volume, price)]
    return sales + count * [(zone, "purchase", purchaser, volume, price)]


def positions(writer, seller, purchaser, third):
    """The seller is led to 10^14 and the purchaser to -10^14, from 0; at last both stand a block away from that."""
    full = [block for zone in (1, 2) for block in trade(seller, purchaser, HIGHEST, zone, count=PLACES)]
    for _ in range(65):
        writer.session(30_000_000, full)  # 1,536,000,000,000 cents
    writer.session(0, trade(seller, purchaser, HIGHEST, count=53))  # 159,000,000,000 cents
    writer.refused_session(0, trade(seller, purchaser, 100_001))  # 1,000,010,000 cents, 10,000 too many
    writer.session(0, trade(seller, purchaser, 100_000))  # 1,000,000,000 cents, and the limit is reached
    writer.refused_session(0, trade(seller, purchaser, 10, volume=1))
    writer.refused_session(0, trade(seller, third, 5, volume=1))
    writer.refused_session(0, trade(third, purchaser, 5, volume=1))
    writer.refused_session(0, trade(purchaser, seller, -5, volume=1))
    writer.session(0, trade(seller, purchaser, 4, volume=1))
    writer.session(0, trade(seller, third, HIGHEST) + trade(third, seller, HIGHEST))
    writer.session(0, trade(third, purchaser, HIGHEST) + trade(purchaser, third, HIGHEST))
    writer.session(0, trade(purchaser, seller, 10, volume=1))
    writer.session(0, trade(seller, purchaser, 10, volume=1))
    writer.refused_session(0, trade(seller, purchaser, 10, volume=1))
    writer.session(0, trade(purchaser, seller, HIGHEST))


def income(writer, seller, purchaser, stands=0):
    """The income is led to 10^14 from where it stands; it stays there, for no session lowers it."""
    def apart(count, volume=FULL, asked=LOWEST, bid=HIGHEST):
        return count * [(1, "sale", seller, volume, asked), (2, "purchase", purchaser, volume, bid)]

    most, for_a_tenth = PLACES * FULL - 1, (HIGHEST - LOWEST) // 10
    sessions, missing = divmod(LIMIT - stands, most * for_a_tenth)
    for _ in range(sessions):
        writer.session(most, apart(PLACES))  # 895,999,965,000 cents
    capacity, missing = divmod(missing, for_a_tenth)
    writer.session(capacity, apart(capacity // FULL + 1))
    writer.session(10, apart(1, 20, 0, missing))  # ten tenths, so a cent for each cent apart, and the limit is reached
    writer.refused_session(1, apart(1, 2, 0, 10))
    writer.refused_session(1, apart(1, 2, 0, 5))
    writer.session(1, apart(1, 2, 0, 4))
    writer.session(2, apart(1, 2, 0, HIGHEST))  # within the capacity: no congestion, no income


def call_file():
    writer = Writer()
    writer.lines += [f"(admit {agent})" for agent in range(1, 6)]
    positions(writer, 1, 2, 3)
    income(writer, 4, 5)
    return "".join(line + "\n" for line in writer.lines).encode()


if __name__ == "__main__":
    sys.stdout.buffer.write(call_file())
