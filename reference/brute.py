#!/usr/bin/env python3
"""Checks the clearing and the settlement of exchange.py by trying all schedules of small random sessions.

    python3 reference/brute.py [SEED] [COUNT]

SEED is 1 and COUNT 1000 if they are not given. Each session is cleared and settled under both price rules and both
sharing rules. The functions that end in `_faults` list what is checked; the exit status is 1 if anything differs.

All volumes from 0 to what each block bid are tried. Balance and surplus are sums over the two zones, so the schedules
of each zone are laid out once, and the best of each export is kept; each pair of a schedule of zone 1 and one of
zone 2 is thereby covered.
"""
import sys
from collections import Counter
from fractions import Fraction
from itertools import product
from math import floor
from random import Random

sys.dont_write_bytecode = True
import exchange
from exchange import PURCHASE, SALE, Block

RULES = [(price_rule, sharing_rule)
         for price_rule in (exchange.low_end, exchange.midpoint)
         for sharing_rule in (exchange.by_precedence, exchange.in_proportion)]
PRICE_SETS = [
    [-50_000, 300_000],
    [-50_000, -49_999, 299_999, 300_000],
    [1000],
    [2005, 2006],
    [-3, 0, 3],
    [-2005, -1, 1, 2005],
    [1000, 2000, 3000, 4000, 5000],
    [-50_000, -15, 0, 15, 300_000],
]


def small_session(random):
    """Up to four blocks in each zone with few prices, so that ties and splits are frequent."""
    prices = random.choice(PRICE_SETS)
    alike = random.randrange(3) == 0  # blocks that differ in their keys at most
    blocks = []
    for zone in (1, 2):
        for _ in range(random.choice((0, 1, 2, 3, 4, 4, 4))):
            side = random.choice((SALE, PURCHASE))
            unit, number = random.randint(1, 3), random.randint(1, 3)
            if any((b.zone, b.side, b.unit, b.number) == (zone, side, unit, number) for b in blocks):
                continue
            stamp, volume = (0, 3) if alike else (random.randint(0, 1), random.randint(1, 4))
            blocks.append(Block(zone, side, random.randint(1, 3), unit, number, stamp, random.choice(prices), volume))
    largest = random.choice((0, 2, 5, 9))
    return blocks, (random.randint(0, largest), random.randint(0, largest))


def surplus(blocks, volumes):
    return sum(b.price * v if b.side == PURCHASE else -b.price * v for b, v in zip(blocks, volumes))


def sold(blocks, volumes):
    return sum(v for b, v in zip(blocks, volumes) if b.side == SALE)


def bought(blocks, volumes):
    return sum(v for b, v in zip(blocks, volumes) if b.side == PURCHASE)


def best_by_export(blocks):
    """For each export of a zone the greatest surplus, and the greatest sold volume among schedules of that surplus."""
    best, tried = {}, 0
    for volumes in product(*(range(b.volume + 1) for b in blocks)):
        tried += 1
        export = sold(blocks, volumes) - bought(blocks, volumes)
        found = surplus(blocks, volumes), sold(blocks, volumes)
        best[export] = max(found, best.get(export, found))
    return best, tried


def best_schedule(blocks, capacities):
    """Greatest surplus of a balanced schedule, greatest sold volume among those, and how many schedules there are."""
    (one, tried_one), (two, tried_two) = (best_by_export([b for b in blocks if b.zone == zone]) for zone in (1, 2))
    found = [tuple(map(sum, zip(one[flow], two[-flow])))
             for flow in range(-capacities[1], capacities[0] + 1) if flow in one and -flow in two]
    return *max(found), tried_one * tried_two


def matched_by_tenths(blocks, imported=0, exported=0):
    """The matched amount with each curve written out tenth by tenth."""
    sales = sorted(b.price for b in blocks if b.side == SALE for _ in range(b.volume))
    purchases = sorted((b.price for b in blocks if b.side == PURCHASE for _ in range(b.volume)), reverse=True)
    pairs = zip([-50_000] * imported + sales, [300_000] * exported + purchases)
    return max((n for n, (sale, purchase) in enumerate(pairs, 1) if sale <= purchase), default=0)


def unsupported(block, matched, price):
    """Whether the block trades at a loss, or is short and would have gained."""
    gain = price - block.price if block.side == SALE else block.price - price
    return (matched > 0 and gain < 0) or (matched < block.volume and gain > 0)


def clearing_faults(blocks, capacities, clearing, greatest):
    volumes, prices, flow = clearing.volumes, clearing.prices, clearing.flow
    if sorted(volumes) != sorted(blocks):
        yield "not every block has a matched volume"
    if not all(0 <= matched <= block.volume for block, matched in volumes.items()):
        yield "a matched volume is outside its block"
    if exchange.net_export(volumes, 1) != flow or exchange.net_export(volumes, 2) != -flow:
        yield "not balanced with the flow"
    if not -capacities[1] <= flow <= capacities[0]:
        yield "the flow is above the capacity"
    if clearing.surplus != surplus(volumes.keys(), volumes.values()):
        yield "another surplus is reported than the schedule has"
    if clearing.surplus != greatest:
        yield f"the surplus is {clearing.surplus}, and a schedule has {greatest}"
    if any(unsupported(block, matched, prices[block.zone]) for block, matched in volumes.items()):
        yield "a block trades at a loss, or is short and would have gained"
    if flow * (prices[2] - prices[1]) < 0:
        yield "the congestion income is below zero"
    if prices[1] != prices[2] and flow != (capacities[0] if prices[1] < prices[2] else -capacities[1]):
        yield "the prices differ and the flow is not at the capacity towards the dearer zone"
    if not all(-50_000 <= price <= 300_000 for price in prices.values()):
        yield "a price is outside the limits"


def in_order(blocks, side):
    """The blocks of a side in precedence, by sorting for the last mark first."""
    ordered = [b for b in blocks if b.side == side]
    for mark in ("zone", "number", "unit", "volume", "stamp"):
        ordered.sort(key=lambda b: getattr(b, mark))
    ordered.sort(key=lambda b: b.price, reverse=side == PURCHASE)
    return ordered


def volumes_by_tenths(blocks, side, reached, sharing_rule):
    """How many tenths of each block are matched, if the curve written out tenth by tenth is matched up to `reached`."""
    tenths = [b for b in in_order(blocks, side) for _ in range(b.volume)]
    matched = Counter()
    if reached > 0:
        marginal = tenths[reached - 1].price
        better = [b for b in tenths[:reached] if b.price != marginal]
        tie = [b for b in tenths if b.price == marginal]
        left = reached - len(better)
        matched.update(better)
        for c, b in enumerate(tie, 1):
            if sharing_rule is exchange.by_precedence:
                matched[b] += c <= left
            else:
                matched[b] += left * c // len(tie) - left * (c - 1) // len(tie)
    return matched


def markets_of(blocks, clearing):
    """What was cleared as one market: its zones, its blocks, and its imported and exported tenths."""
    if not clearing.split:
        return [((1, 2), blocks, 0, 0)]
    return [((zone,), [b for b in blocks if b.zone == zone], max(0, -export), max(0, export))
            for zone, export in ((1, clearing.flow), (2, -clearing.flow))]


def volume_faults(blocks, clearing, sharing_rule):
    """The matched volumes against curves written out tenth by tenth."""
    for _, market, imported, exported in markets_of(blocks, clearing):
        amount = matched_by_tenths(market, imported, exported)
        matched = volumes_by_tenths(market, SALE, amount - imported, sharing_rule)
        matched += volumes_by_tenths(market, PURCHASE, amount - exported, sharing_rule)
        if any(clearing.volumes[b] != matched[b] for b in market):
            yield "the matched volumes are not those of the curves written out"


def price_faults(blocks, clearing, price_rule):
    """The prices against the least and the greatest price at which no block has a loss or is short of a gain."""
    for zones, market, _, _ in markets_of(blocks, clearing):
        ends = [price for price in sorted({-50_000, 300_000, *(b.price for b in market)})
                if not any(unsupported(b, clearing.volumes[b], price) for b in market)]
        if not ends:
            yield "no price supports the matched volumes"
            continue
        price = ends[0] if price_rule is exchange.low_end else floor(Fraction(ends[0] + ends[-1], 2))
        if any(clearing.prices[zone] != price for zone in zones):
            yield "a price is not the rule's answer to its bracket"


def badly_rounded(exact, cents):
    """Whether another cent is nearer to the exact tenths of a cent, or as near and further from zero."""
    best = min(range(exact // 10 - 1, exact // 10 + 3), key=lambda c: (abs(exact - 10 * c), -abs(c)))
    return cents != best


def settlement_faults(blocks, capacities, rules):
    house = exchange.Exchange(*rules)
    for agent in (1, 2, 3):
        house.make("admit", agent)
    for session in (1, 2):
        house.make("begin", session, *capacities)
        for block in blocks:
            house.make("enter", *block)
        house.make("close")
        house.make("clear")
        residue_before = house.residue
        if any(badly_rounded(entry.exact, entry.cents) for entry in exchange.entries_of(house.clearing)):
            yield "an entry is not the nearest cent, with halves away from zero"
        lines = house.make("settle")
        if sum(house.accounts.values()) + house.income + house.residue != 0:
            yield "positions, income and residue do not add up to zero"
        if 2 * abs(house.residue - residue_before) > len(lines) - 1:
            yield "the residue is above half a cent for each entry"
        if house.income < 0:
            yield "the income is below zero"


def main(seed=1, count=1000):
    random = Random(seed)
    checked = splits = schedules = failed = most_energy = less_energy = 0
    for _ in range(count):
        blocks, capacities = small_session(random)
        greatest, energy, tried = best_schedule(blocks, capacities)
        schedules += tried
        for rules in RULES:
            clearing = exchange.clear_zones(blocks, capacities, *rules)
            faults = [*clearing_faults(blocks, capacities, clearing, greatest),
                      *volume_faults(blocks, clearing, rules[1]),
                      *price_faults(blocks, clearing, rules[0]),
                      *settlement_faults(blocks, capacities, rules)]
            for fault in faults:
                names = ", ".join(rule.__name__ for rule in rules)
                print(f"{fault}: {names}, capacities {capacities}, {blocks}", file=sys.stderr)
            checked += 1
            failed += bool(faults)
            splits += clearing.split
            moved = sold(clearing.volumes.keys(), clearing.volumes.values())
            most_energy += moved == energy
            less_energy += moved < energy
    print(f"{count} sessions under four pairs of rules: {checked} clearings checked, {splits} of them split,")
    print(f"against {schedules} schedules.")
    print("Observed, not required: of the schedules with the greatest surplus the clearing moves the most energy")
    print(f"in {most_energy} clearings, and less than another one in {less_energy}.")
    print("Nothing differs." if failed == 0 else f"{failed} clearings differ.")
    return 1 if failed else 0


if __name__ == "__main__":
    sys.exit(main(*map(int, sys.argv[1:3])))
