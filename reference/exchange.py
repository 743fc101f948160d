#!/usr/bin/env python3
"""A second exchange, to set the engine's answers against.

It reads a call file from standard input and writes all answers to standard output:

    python3 reference/exchange.py < crates/voipyndu/stdin | cmp - crates/voipyndu/stdout

It is written from docs/MARKET.md, docs/CALLS.md and docs/REFUSALS.md and shares nothing with the engine. It also works
in other ways: a line is read by writing the call that it seems to be and comparing the two texts, blocks stand in
dictionaries and are sorted when they are needed, and the matched amount is found by halving over cumulated volumes.

brute.py imports it and checks its clearing and its settlement by trying all schedules.
"""
import sys
from bisect import bisect_left
from decimal import ROUND_HALF_UP, Decimal
from itertools import accumulate, pairwise
from typing import NamedTuple

LOWEST_PRICE, HIGHEST_PRICE = -50_000, 300_000
LARGEST_POSITION = 10**14
BLOCK_PLACES, ACCOUNT_PLACES = 256, 512
SALE, PURCHASE = "sale", "purchase"


class Block(NamedTuple):
    zone: int
    side: str
    agent: int
    unit: int
    number: int
    stamp: int
    price: int
    volume: int


class Refused(Exception):
    """Carries the number of a refusal."""


# ---- The two price rules and the two sharing rules


def low_end(low, high):
    return low


def midpoint(low, high):
    return (low + high) // 2 if low <= high else low


def by_precedence(amount, tied, front):
    return min(amount, front) if amount <= tied and front <= tied else 0


def in_proportion(amount, tied, front):
    return amount * front // tied if 0 < tied and amount <= tied and front <= tied else 0


# ---- Clearing


def precedence(block):
    price = block.price if block.side == SALE else -block.price
    return price, block.stamp, block.volume, block.unit, block.number, block.zone


class Curve:
    """The blocks of one side end to end, behind `ahead` tenths at the price that is best for this side."""

    def __init__(self, side, blocks, ahead):
        self.blocks = sorted((block for block in blocks if block.side == side), key=precedence)
        self.ahead = ahead
        self.prices = [LOWEST_PRICE if side == SALE else HIGHEST_PRICE] + [block.price for block in self.blocks]
        self.ends = list(accumulate([ahead] + [block.volume for block in self.blocks]))

    def length(self):
        return self.ends[-1]

    def price(self, n):
        """The price of the n-th tenth, from 1 to the length."""
        return self.prices[bisect_left(self.ends, n)]

    def share_out(self, matched, sharing_rule):
        """The matched volume of each block, if `matched` tenths of the curve are matched."""
        volumes = dict.fromkeys(self.blocks, 0)
        if matched > 0:
            marginal = self.price(matched)
            tie = [block for block in self.blocks if block.price == marginal]
            better = [block for block in self.blocks
                      if (block.price < marginal if block.side == SALE else block.price > marginal)]
            amount = matched - self.ahead - sum(block.volume for block in better)
            fronts = list(accumulate((block.volume for block in tie), initial=0))
            given = [sharing_rule(amount, fronts[-1], front) for front in fronts]
            volumes.update((block, block.volume) for block in better)
            volumes.update(zip(tie, (after - before for before, after in pairwise(given))))
        return volumes


def matched_amount(sales, purchases):
    """The largest n at which the sale price is at most the purchase price, found by halving; 0 if there is none."""
    meets, fails = 0, min(sales.length(), purchases.length()) + 1
    while fails - meets > 1:
        n = (meets + fails) // 2
        if sales.price(n) <= purchases.price(n):
            meets = n
        else:
            fails = n
    return meets


def bracket(volumes):
    lows, highs = [LOWEST_PRICE], [HIGHEST_PRICE]
    for block, matched in volumes.items():
        if matched > 0:
            (lows if block.side == SALE else highs).append(block.price)
        if matched < block.volume:
            (highs if block.side == SALE else lows).append(block.price)
    return max(lows), min(highs)


def clear_market(blocks, sharing_rule, imported=0, exported=0):
    """The matched volume of each block where these blocks make one market."""
    sales, purchases = Curve(SALE, blocks, imported), Curve(PURCHASE, blocks, exported)
    matched = matched_amount(sales, purchases)
    return sales.share_out(matched, sharing_rule) | purchases.share_out(matched, sharing_rule)


def net_export(volumes, zone):
    return sum(matched if block.side == SALE else -matched
               for block, matched in volumes.items() if block.zone == zone)


class Clearing(NamedTuple):
    volumes: dict
    prices: dict
    flow: int
    surplus: int
    split: bool


def clear_zones(blocks, capacities, price_rule, sharing_rule):
    """Clears both zones; `capacities` are those from 1 to 2 and from 2 to 1."""
    volumes = clear_market(blocks, sharing_rule)
    flow = net_export(volumes, 1)
    capacity = capacities[0] if flow >= 0 else capacities[1]
    split = abs(flow) > capacity
    if split:
        exporter = 1 if flow > 0 else 2
        importer = 3 - exporter
        sold = clear_market([b for b in blocks if b.zone == exporter], sharing_rule, exported=capacity)
        bought = clear_market([b for b in blocks if b.zone == importer], sharing_rule, imported=capacity)
        prices = {exporter: price_rule(*bracket(sold)), importer: price_rule(*bracket(bought))}
        volumes = sold | bought
        flow = capacity if exporter == 1 else -capacity
    else:
        prices = dict.fromkeys((1, 2), price_rule(*bracket(volumes)))
    surplus = sum(block.price * (matched if block.side == PURCHASE else -matched)
                  for block, matched in volumes.items())
    return Clearing(volumes, prices, flow, surplus, split)


# ---- Settlement


def to_cents(tenths_of_a_cent):
    """To the nearest cent, a half away from zero: that is what `decimal` calls half up."""
    return int(Decimal(tenths_of_a_cent).scaleb(-1).quantize(Decimal(1), ROUND_HALF_UP))


class Entry(NamedTuple):
    agent: int
    unit: int
    number: int
    exact: int
    cents: int


def entries_of(clearing):
    """The entries of a session in their order, the congestion income last."""
    entries = []
    for zone in (1, 2):
        for side, sign in ((SALE, 1), (PURCHASE, -1)):
            matched = [b for b, volume in clearing.volumes.items() if (b.zone, b.side) == (zone, side) and volume > 0]
            for block in sorted(matched, key=precedence):
                exact = sign * clearing.volumes[block] * clearing.prices[zone]
                entries.append(Entry(block.agent, block.unit, block.number, exact, to_cents(exact)))
    exact = clearing.flow * (clearing.prices[2] - clearing.prices[1])
    entries.append(Entry(0, 0, 0, exact, to_cents(exact)))
    return entries


def residue_of(entries):
    remainders = sum(entry.exact - 10 * entry.cents for entry in entries)
    whole, rest = divmod(remainders, 10)
    assert rest == 0, "the residue is not whole"
    return whole


# ---- The exchange


def first_cause(*causes):
    for number, holds in causes:
        if holds:
            raise Refused(number)


def codes_fail(agent=1, unit=1, number=1, stamp=0, zone=1):
    return not (1 <= agent <= 9_999 and 1 <= unit <= 999_999 and 1 <= number <= 25
                and 0 <= stamp <= 999_999_999 and 1 <= zone <= 2)


class Exchange:
    """Each call answers the lines to print, or raises Refused before it has changed anything."""

    states_of = {
        "admit": ("idle", "open"), "begin": ("idle",), "enter": ("open",), "withdraw": ("open",), "close": ("open",),
        "clear": ("closed",), "settle": ("cleared",), "annul": ("open", "closed", "cleared"),
    }

    def __init__(self, price_rule=low_end, sharing_rule=by_precedence):
        self.price_rule, self.sharing_rule = price_rule, sharing_rule
        self.state = "idle"
        self.accounts = {}
        self.blocks = {(zone, side): {} for zone in (1, 2) for side in (SALE, PURCHASE)}
        self.last_session, self.capacities = 0, (0, 0)
        self.income, self.residue = 0, 0
        self.clearing = None

    def make(self, word, *values):
        if self.state not in self.states_of[word]:
            raise Refused(15)
        return getattr(self, word)(*values)

    def admit(self, agent):
        first_cause((3, codes_fail(agent=agent)),
                    (7, agent in self.accounts),
                    (8, len(self.accounts) == ACCOUNT_PLACES))
        self.accounts[agent] = 0
        return ["(ok)"]

    def begin(self, session, forth, back):
        first_cause((10, session > 1_000_000 or session <= self.last_session),
                    (11, max(forth, back) > 30_000_000))
        self.last_session, self.capacities = session, (forth, back)
        for table in self.blocks.values():
            table.clear()
        self.state = "open"
        return ["(ok)"]

    def enter(self, zone, side, agent, unit, number, stamp, price, volume):
        table = self.blocks.get((zone, side), {})
        first_cause((3, codes_fail(agent, unit, number, stamp, zone)),
                    (4, not LOWEST_PRICE <= price <= HIGHEST_PRICE),
                    (5, not 1 <= volume <= 100_000),
                    (6, agent not in self.accounts),
                    (7, (unit, number) in table),
                    (8, len(table) == BLOCK_PLACES))
        table[unit, number] = Block(zone, side, agent, unit, number, stamp, price, volume)
        return ["(ok)"]

    def withdraw(self, zone, side, unit, number):
        table = self.blocks.get((zone, side), {})
        first_cause((3, codes_fail(unit=unit, number=number, zone=zone)),
                    (9, (unit, number) not in table))
        del table[unit, number]
        return ["(ok)"]

    def close(self):
        self.state = "closed"
        return ["(ok)"]

    def clear(self):
        standing = [block for table in self.blocks.values() for block in table.values()]
        self.clearing = clear_zones(standing, self.capacities, self.price_rule, self.sharing_rule)
        self.state = "cleared"
        prices, flow, surplus = self.clearing.prices, self.clearing.flow, self.clearing.surplus
        return [f"(cleared (price {prices[1]} {prices[2]}) (flow {flow}) (surplus {surplus}))"]

    def settle(self):
        entries = entries_of(self.clearing)
        accounts = dict(self.accounts)
        for entry in entries[:-1]:
            accounts[entry.agent] += entry.cents
        cents, residue = entries[-1].cents, residue_of(entries)
        ends = [self.income + cents, self.residue + residue, *accounts.values()]
        first_cause((13, any(abs(end) > LARGEST_POSITION for end in ends)))
        self.accounts, self.income, self.residue = accounts, ends[0], ends[1]
        self.state = "idle"
        lines = [f"(entry {entry.agent} {entry.unit} {entry.number} {entry.cents})" for entry in entries]
        return lines + [f"(settled (income {cents}) (residue {residue}))"]

    def annul(self):
        self.state = "idle"
        return ["(ok)"]


# ---- Call files


TEXTS = {
    "admit": "(admit {})",
    "begin": "(begin {} {} {})",
    "enter": "(enter {} {} ({} {} {} {} {} {}))",
    "withdraw": "(withdraw {} {} ({} {}))",
    "close": "(close)",
    "clear": "(clear)",
    "settle": "(settle)",
    "annul": "(annul)",
}
SIDE_AT, PRICE_AT = 1, 6  # where the side and the price stand among the values of enter
NO_BRACKETS = bytes.maketrans(b"()", b"  ")


def value(word, parts, place):
    """The value that a part of a line stands for, if it is one at all."""
    part = parts[place]
    if word in ("enter", "withdraw") and place == SIDE_AT:
        side = part.decode("latin-1")
        return side if side in (SALE, PURCHASE) else None
    try:
        number = int(part)
    except ValueError:
        return None
    least = -999_999_999 if word == "enter" and place == PRICE_AT else 0
    return number if least <= number <= 999_999_999 else None


def read(line):
    """The call whose text the line is, or None."""
    if len(line) > 120:
        return None
    word, *parts = line.translate(NO_BRACKETS).split() or [b""]
    word = word.decode("latin-1")
    text = TEXTS.get(word)
    if text is None or len(parts) != text.count("{}"):
        return None
    values = [value(word, parts, place) for place in range(len(parts))]
    if None in values or text.format(*values).encode() != line:
        return None
    return word, *values


def answer(exchange, line):
    try:
        call = read(line)
        if call is None:
            raise Refused(14)
        return exchange.make(*call)
    except Refused as refused:
        return [f"(no {refused})"]


def main():
    exchange = Exchange()
    out = sys.stdout.buffer
    for line in sys.stdin.buffer:
        for printed in answer(exchange, line.removesuffix(b"\n")):
            out.write(printed.encode() + b"\n")


if __name__ == "__main__":
    main()
