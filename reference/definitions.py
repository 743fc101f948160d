#!/usr/bin/env python3
"""Writes crates/worked/specs/Drawn.antt: small random sessions, each with what exchange.py gives for it.

    python3 reference/definitions.py [SEED] [COUNT] > crates/worked/specs/Drawn.antt

SEED is 1 and COUNT 100 if they are not given. The sessions are those of brute.py, under each pair of rules in turn,
drawn so that ties and splits are frequent; how many there are of each kind is written to standard error. The check of
crate `worked` evaluates the definitions of the clearing and of the settlement on them and proves that they give the
same.
"""
import sys
from collections import Counter
from random import Random

sys.dont_write_bytecode = True
import brute
import exchange
from exchange import PURCHASE, SALE
from kinds import kinds_of

NAMES = {exchange.low_end: "low_end", exchange.midpoint: "midpoint",
         exchange.by_precedence: "by_precedence", exchange.in_proportion: "in_proportion"}
HEAD = """\
-- Written by reference/definitions.py with seed {seed}: {count} sessions drawn at random, and what reference/exchange.py gives for each.
use Rattle.std.specs.Prelude.{{List, [], ◌∷◌, pos, negsuc}}
use Rattle.rules.specs.Prices.{{low_end, midpoint}}
use Rattle.rules.specs.Shares.{{by_precedence, in_proportion}}
use Rattle.worked.specs.Session.{{Case, bid, bids, case, entry, gives, session}}

abbrev pub drawn : List Case
drawn ="""


def signed(n):
    return f"pos {n}" if n >= 0 else f"negsuc {-n - 1}"


def listed(texts):
    texts = [*texts, "[]"]
    return f"({' ∷ '.join(texts)})" if len(texts) > 1 else "[]"


def bid_text(b):
    return f"bid {b.agent} {b.unit} {b.number} {b.stamp} ({signed(b.price)}) {b.volume}"


def session_text(blocks, capacities, price_rule, sharing_rule):
    sides = (listed(bid_text(b) for b in blocks if (b.zone, b.side) == (zone, side))
             for zone in (1, 2) for side in (SALE, PURCHASE))
    there, back = capacities
    return "session {} {} {} {} (bids {} {}) (bids {} {})".format(
        NAMES[sharing_rule], NAMES[price_rule], there, back, *sides)


def settle(blocks, capacities, rules):
    """An exchange that has settled this one session of the agents 1, 2 and 3."""
    house = exchange.Exchange(*rules)
    for agent in (1, 2, 3):
        house.make("admit", agent)
    house.make("begin", 1, *capacities)
    for block in blocks:
        house.make("enter", *block)
    for word in ("close", "clear", "settle"):
        house.make(word)
    return house


def table(blocks, zone, side):
    return sorted((b for b in blocks if (b.zone, b.side) == (zone, side)), key=exchange.precedence)


def entry_text(entry):
    return f"entry {entry.agent} {entry.unit} {entry.number} ({signed(entry.cents)})"


def given_text(blocks, house):
    clearing = house.clearing
    volumes = (listed(str(clearing.volumes[b]) for b in table(blocks, zone, side))
               for zone in (1, 2) for side in (SALE, PURCHASE))
    numbers = (clearing.prices[1], clearing.prices[2], clearing.flow, clearing.surplus)
    return " ".join(("gives", *volumes, *(f"({signed(n)})" for n in numbers),
                     listed(map(entry_text, exchange.entries_of(clearing))), f"({signed(house.residue)})",
                     listed(map(signed, house.accounts.values()))))


def draw(random, rules, wanted):
    """A session of at least three blocks, drawn again until it is of the wanted kind."""
    while True:
        blocks, capacities = brute.small_session(random)
        if len(blocks) < 3:
            continue
        house = settle(blocks, capacities, rules)
        kinds = kinds_of(house.clearing, capacities)
        if wanted in (None, *kinds):
            return blocks, capacities, house, kinds + ["residue"] * (house.residue != 0)


WANTED = (None, "short tie", "split, flow from 1 to 2", "short tie across a full line", "split, flow from 2 to 1")


def main(seed=1, count=100):
    random = Random(seed)
    counts = Counter()
    print(HEAD.format(seed=seed, count=count))
    for place in range(count):
        rules = brute.RULES[place % len(brute.RULES)]
        blocks, capacities, house, kinds = draw(random, rules, WANTED[place % len(WANTED)])
        counts.update(kinds)
        print(f"    case ({session_text(blocks, capacities, *rules)})")
        print(f"    ({given_text(blocks, house)}) ∷")
    print("    []")
    print(*(f"{kind}: {times}" for kind, times in sorted(counts.items())), sep="\n", file=sys.stderr)


if __name__ == "__main__":
    main(*map(int, sys.argv[1:3]))
