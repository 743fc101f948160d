"""Which kinds of clearing a clearing is. check.py counts them, and definitions.py draws its sessions by them."""
from collections import defaultdict

import brute


def short_ties(blocks, volumes):
    """Blocks of one side and price that share what does not suffice for all of them."""
    alike = defaultdict(list)
    for block in blocks:
        alike[block.side, block.price].append(block)
    for tie in alike.values():
        if len(tie) > 1 and 0 < sum(volumes[b] for b in tie) < sum(b.volume for b in tie):
            yield tie


def kinds_of(clearing, capacities):
    blocks, volumes, flow, split = list(clearing.volumes), clearing.volumes, clearing.flow, clearing.split
    markets = [market for _, market, _, _ in brute.markets_of(blocks, clearing)]
    across = any(len({b.zone for b in tie}) == 2 for tie in short_ties(blocks, volumes))
    full = split or flow in (capacities[0], -capacities[1])
    kinds = {
        "both zones as one": not split,
        "split, flow from 1 to 2": split and flow > 0,
        "split, flow from 2 to 1": split and flow < 0,
        "split, no capacity": split and flow == 0,
        "not split, and the line is full": not split and flow != 0 and full,
        "short tie": any(tie for market in markets for tie in short_ties(market, volumes)),
        "short tie across the zones": across,
        "short tie across a full line": across and flow != 0 and full,
        "price below zero": min(clearing.prices.values()) < 0,
        "nothing matched": not any(volumes.values()),
    }
    return [kind for kind, holds in kinds.items() if holds]
