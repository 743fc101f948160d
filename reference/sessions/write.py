#!/usr/bin/env python3
"""Writes the stored call file of the program voipyndu to standard output, or with --parts a table of its parts.

    python3 reference/sessions/write.py > crates/voipyndu/stdin
    python3 reference/sessions/write.py --parts

The parts are functions below, in the order of the file; the first line of each one's docstring is its title. Unless
a part says otherwise agent 1 sells and agent 2 buys, stamps are 0 and block numbers 1.
"""
import os
import sys

sys.path.insert(0, os.path.join(os.path.dirname(os.path.abspath(__file__)), os.pardir))
sys.dont_write_bytecode = True
import exchange
import generate
import limits

LOWEST, HIGHEST = -50_000, 300_000


def sale(zone, unit, volume, price, agent=1, number=1, stamp=0):
    return f"(enter {zone} sale ({agent} {unit} {number} {stamp} {price} {volume}))"


def purchase(zone, unit, volume, price, agent=2, number=1, stamp=0):
    return f"(enter {zone} purchase ({agent} {unit} {number} {stamp} {price} {volume}))"


class File:
    def __init__(self):
        self.lines = []
        self.last_session = 0
        self.agents = []

    def write(self, *lines):
        self.lines += [line.encode() if isinstance(line, str) else line for line in lines]

    def begin(self, forth, back):
        self.last_session += 1
        self.write(f"(begin {self.last_session} {forth} {back})")

    def session(self, forth, back, *lines):
        """A whole session with these capacities and lines in it, settled."""
        self.begin(forth, back)
        self.write(*lines, "(close)", "(clear)", "(settle)")

    def limit(self, sessions, *given):
        """Sessions of limits.py."""
        writer = limits.Writer(self.last_session)
        sessions(writer, *given)
        self.write(*writer.lines)
        self.last_session = writer.last_session

    def income(self):
        """Where the income stands after these lines."""
        house = exchange.Exchange()
        for line in self.lines:
            exchange.answer(house, line)
        return house.income


# ---- The parts


def first_settled_session(file):
    """The first settled session of docs/WORKED.md"""
    file.write("(admit 1)", "(admit 2)", "(begin 1 0 0)", "(enter 1 sale (1 11 1 0 2005 1))",
               "(enter 1 sale (1 12 1 0 2005 1))", "(enter 1 purchase (2 21 1 0 2005 2))",
               "(close)", "(clear)", "(settle)")
    file.last_session = 1


def several_sessions(file):
    """The several sessions of docs/WORKED.md: a split from 2 to 1, a negative price, an annulled session, refusals"""
    file.write(
        "(admit 3)", "(admit 4)", "(begin 5 0 35)", "(enter 1 sale (3 11 1 0 6001 20))",
        "(enter 1 purchase (4 21 1 0 9000 50))", "(enter 2 sale (3 12 1 0 3000 80))",
        "(enter 2 purchase (4 22 1 0 4000 10))", "(enter 2 purchase (9 23 1 0 4000 10))", "(close)", "(clear)",
        "(settle)", "(begin 5 0 0)", "(begin 6 0 0)", "(enter 1 sale (3 11 1 0 -2005 1))",
        "(enter 1 purchase (4 21 1 0 -2005 1))", "(withdraw 1 sale (11 2))", "(close)", "(clear)", "(settle)",
        "(begin 7 0 0)", "(close)", "(annul)", "(settle)", "(begin 7 0 0)", "(begin 8 30000001 0)",
        "(begin 8 30000000 0)", "(enter 3 sale (3 11 1 0 300001 0))", "(enter 1 sale (3 11 1 0 300001 0))",
        "(enter 1 sale (3 11 1 0 300000 0))", "(enter 1 sale (3 11 1 0 300000 1))", "(enter 1 sale (4 11 1 9 0 1))",
        "(enter 1 sale (4 11 1 9 -0 1))", "(close)", "(clear)", "(settle)")
    file.last_session = 8


def one_zone(file):
    """One zone: an empty market, a meeting price, one cent apart; then the same in zone 2"""
    file.session(0, 0)
    for zone in (1, 2):
        file.session(0, 0, sale(zone, 11, 10, 3000), purchase(zone, 21, 10, 3000))
        file.session(0, 0, sale(zone, 11, 10, 3001), purchase(zone, 21, 10, 3000))
        file.session(0, 0, sale(zone, 11, 20, 1000), sale(zone, 12, 30, 2500), sale(zone, 13, 30, 2500, stamp=1),
                     purchase(zone, 21, 40, 4000), purchase(zone, 22, 30, 1500))
        file.session(0, 0, sale(zone, 11, 20, 1000), sale(zone, 12, 20, 2500), purchase(zone, 21, 40, 4000),
                     purchase(zone, 22, 30, 1500))


def five_blocks(file):
    """The five-block session with capacities from plenty to none, then with the zones exchanged"""
    def blocks(one, two):
        return (sale(one, 11, 100, 2000), sale(one, 12, 80, 4000), purchase(one, 21, 60, 6000),
                sale(two, 13, 50, 5000), purchase(two, 22, 100, 7000))
    for capacity in (30_000_000, 101, 100, 99, 98, 51, 50, 49, 30, 1, 0):
        file.session(capacity, 0, *blocks(1, 2))
    for capacity in (30_000_000, 101, 100, 99, 98, 51, 50, 49, 30, 1, 0):
        file.session(0, capacity, *blocks(2, 1))
    file.session(0, 30_000_000, *blocks(1, 2))
    file.session(30_000_000, 0, *blocks(2, 1))


def from_two_to_one(file):
    """Flow from 2 to 1: within the capacity, at it, above it"""
    for capacity in (51, 50, 49, 35, 20, 1, 0):
        file.session(0, capacity, sale(1, 11, 20, 6000), purchase(1, 21, 50, 9000), sale(2, 12, 80, 3000),
                     purchase(2, 22, 10, 4000))


def ties_across_zones(file):
    """Ties that span both zones, on each side and on both, with the interconnector free, just full and too small"""
    for capacity in (31, 30, 29, 20, 10, 0):
        file.session(capacity, 0, sale(1, 11, 30, 2000, stamp=5), sale(2, 11, 30, 2000, stamp=5),
                     purchase(2, 22, 40, 3000))
        file.session(0, capacity, purchase(1, 21, 30, 2000, stamp=5), purchase(2, 21, 30, 2000, stamp=5),
                     sale(2, 12, 40, 1000))
    for forth, back in ((9, 9), (10, 0), (0, 10), (0, 0)):
        file.session(forth, back, sale(1, 11, 10, 2000, stamp=1), sale(2, 11, 10, 2000), purchase(1, 21, 10, 2000),
                     purchase(2, 21, 10, 2000, stamp=1))
        file.session(forth, back, sale(1, 11, 10, 2000), sale(2, 11, 10, 2000), purchase(1, 21, 5, 2000),
                     purchase(2, 21, 15, 2000), sale(2, 12, 10, 2000), purchase(1, 22, 7, 2000, stamp=1))


def tie_behind_the_capacity(file):
    """A tie that stands right behind the K tenths, and ties that end at, before and behind the matched amount"""
    for capacity in (5, 10, 15, 24, 25, 30):
        file.session(capacity, 0, sale(1, 11, 40, 1000), purchase(1, 21, 10, 2000), purchase(1, 22, 10, 2000, stamp=1),
                     sale(2, 12, 10, 2500), sale(2, 13, 10, 2500, stamp=1), purchase(2, 23, 35, 4000))
        file.session(0, capacity, sale(2, 11, 40, 1000), purchase(2, 21, 10, 2000), purchase(2, 22, 10, 2000, stamp=1),
                     sale(1, 12, 10, 2500), sale(1, 13, 10, 2500, stamp=1), purchase(1, 23, 35, 4000))


def blocks_at_the_limit_prices(file):
    """Purchases at 300,000 and sales at −50,000 beside the K tenths, and a matched amount that is K alone"""
    for capacity in (51, 50, 49, 40, 30, 10, 1, 0):
        file.session(capacity, 0, sale(1, 11, 50, 1000), purchase(1, 21, 20, HIGHEST, stamp=1),
                     purchase(1, 22, 20, HIGHEST, stamp=2), purchase(2, 23, 100, HIGHEST))
        file.session(0, capacity, sale(2, 11, 50, 1000), purchase(2, 21, 20, HIGHEST, stamp=1),
                     purchase(2, 22, 20, HIGHEST, stamp=2), purchase(1, 23, 100, HIGHEST))
        file.session(capacity, 0, purchase(2, 21, 50, 1000), sale(2, 11, 20, LOWEST, stamp=1),
                     sale(2, 12, 20, LOWEST, stamp=2), sale(1, 13, 100, LOWEST))
        file.session(0, capacity, purchase(1, 21, 50, 1000), sale(1, 11, 20, LOWEST, stamp=1),
                     sale(1, 12, 20, LOWEST, stamp=2), sale(2, 13, 100, LOWEST))
    file.session(30, 0, sale(1, 11, 50, HIGHEST), purchase(1, 21, 20, HIGHEST, stamp=1), purchase(2, 22, 80, HIGHEST))
    file.session(0, 30, sale(2, 11, 80, LOWEST), sale(1, 12, 20, LOWEST, stamp=1), purchase(1, 21, 50, LOWEST))
    file.session(7, 7, sale(1, 11, 9, LOWEST), purchase(1, 21, 9, LOWEST), sale(2, 12, 9, HIGHEST),
                 purchase(2, 22, 9, HIGHEST))


def islands(file):
    """Capacity 0 both ways: trade within each zone alone, nothing that meets, a common flow of 0"""
    file.session(0, 0, sale(1, 11, 10, 5000), purchase(2, 21, 10, 4000))
    file.session(0, 0, sale(1, 11, 40, 2000), purchase(2, 21, 40, 3000))
    file.session(0, 0, sale(2, 11, 40, 2000), purchase(1, 21, 40, 3000))
    file.session(0, 0, sale(1, 11, 10, 2000), purchase(1, 21, 10, 3000), sale(2, 12, 10, 2500),
                 purchase(2, 22, 10, 2600))
    file.session(0, 0, sale(1, 11, 10, 2000), purchase(1, 21, 10, 2300), sale(2, 12, 10, 2500),
                 purchase(2, 22, 10, 2600))
    file.session(0, 0, sale(1, 11, 10, -300), purchase(1, 21, 4, -200), sale(2, 12, 3, 7000), purchase(2, 22, 9, 7005))


def empty_sides(file):
    """Zones with one side empty, and with both"""
    for forth, back in ((0, 0), (5, 5), (30_000_000, 30_000_000)):
        file.session(forth, back, sale(1, 11, 9, 700))
        file.session(forth, back, sale(2, 11, 9, -700))
        file.session(forth, back, purchase(1, 21, 9, 700))
        file.session(forth, back, purchase(2, 21, 9, -700))
        file.session(forth, back, sale(1, 11, 9, 700), sale(2, 12, 9, 600))
        file.session(forth, back, purchase(1, 21, 9, 700), purchase(2, 22, 9, 600))
        file.session(forth, back, sale(1, 11, 9, 700), purchase(2, 22, 8, 800))
        file.session(forth, back, purchase(1, 21, 9, 700), sale(2, 12, 8, 600))
        file.session(forth, back, sale(1, 11, 9, 700), purchase(2, 22, 8, 800), sale(2, 12, 3, 750))
        file.session(forth, back, purchase(1, 21, 9, 700), sale(2, 12, 8, 600), purchase(2, 22, 3, 650))


def nothing_matched(file):
    """Nothing matched, with brackets whose ends differ"""
    file.session(10, 10, sale(1, 11, 5, 4000), sale(2, 12, 5, 3900), purchase(1, 21, 5, 3000), purchase(2, 22, 5, 3100))
    file.session(10, 10, sale(1, 11, 5, 1), purchase(2, 21, 5, -1))
    file.session(10, 10, sale(2, 11, 5, -49_999), purchase(1, 21, 5, LOWEST))
    file.session(10, 10, sale(2, 11, 5, HIGHEST), purchase(1, 21, 5, 299_999))


def negative_prices(file):
    """Prices below zero: in one zone, in both, and on either side of zero across a full interconnector"""
    file.session(0, 0, sale(1, 11, 7, -2000), purchase(1, 21, 7, -1000))
    file.session(30, 0, sale(1, 11, 70, -2000), purchase(1, 21, 7, -1500), sale(2, 12, 20, -900),
                 purchase(2, 22, 60, -600))
    file.session(0, 30, sale(2, 11, 70, -2000), purchase(2, 21, 7, -1500), sale(1, 12, 20, -900),
                 purchase(1, 22, 60, -600))
    file.session(30, 0, sale(1, 11, 70, -2003), purchase(2, 22, 60, 703))
    file.session(0, 30, sale(2, 11, 70, LOWEST), purchase(1, 22, 60, HIGHEST))


def halves(file):
    """Halves of a cent, above and below zero, in entries and in the income; residues of either sign"""
    for price in (2004, 2005, 2006, -2004, -2005, -2006, 5, -5, 4, -4, 1, -1, 0):
        file.session(0, 0, sale(1, 11, 1, price), purchase(1, 21, 1, price))
    for price in (2005, -2005):
        file.session(0, 0, *(sale(1, 10 + i, 1, price) for i in range(9)), purchase(1, 21, 9, price))
        file.session(0, 0, *(purchase(2, 10 + i, 1, price) for i in range(8)), sale(2, 21, 8, price))
    for capacity in (1, 3, 15):
        file.session(capacity, 0, sale(1, 11, 40, 1000), purchase(2, 21, 40, 1005))
        file.session(0, capacity, sale(2, 11, 40, -1005), purchase(1, 21, 40, -1000))
        file.session(capacity, 0, sale(1, 11, 40, -3), purchase(2, 21, 40, 2))
        file.session(capacity, 0, sale(1, 11, 40, 1001), purchase(2, 21, 40, 1005))


def precedence(file):
    """Precedence: the order of entries by price, stamp, volume, unit and block number, and who is cut in a tie"""
    order = [(1000, 9, 9, 9, 9), (1001, 0, 5, 3, 2), (1001, 0, 5, 3, 10), (1001, 0, 5, 20, 1), (1001, 0, 6, 2, 1),
             (1001, 1, 1, 1, 1), (1001, 10, 1, 1, 2), (1002, 0, 1, 1, 3)]
    for turn in (1, -1):
        for wanted in (12, 19, 24, 100):
            file.session(0, 0, *(sale(1, unit, volume, price, number=number, stamp=stamp)
                                 for price, stamp, volume, unit, number in order[::turn]),
                         purchase(1, 500, wanted, 1002))
            file.session(0, 0, *(purchase(2, unit, volume, 2000 - price, number=number, stamp=stamp)
                                 for price, stamp, volume, unit, number in order[::turn]),
                         sale(2, 500, wanted, 998))
    file.session(0, 0, sale(1, 12, 5, 1000, agent=3), sale(1, 11, 5, 1000, agent=4), purchase(1, 21, 5, 1000, agent=1))
    file.session(99, 99, sale(2, 11, 5, 1000, agent=1), sale(1, 11, 5, 1000, agent=4), purchase(1, 21, 5, 1000),
                 purchase(2, 21, 2, 1000))


def inherited_ladders(file):
    """The same units in other zones and on other sides from session to session, so that a kept ladder would show"""
    for turn in range(8):
        one, two = (1, 2) if turn % 2 == 0 else (2, 1)
        file.session(6, 6, sale(one, 11, 20, 100 + turn), sale(one, 12, 20, 90 - turn), purchase(two, 11, 15, 300))
        file.session(6, 6, purchase(one, 11, 7, 95))
        file.session(6, 6, sale(two, 11, 3, 80), purchase(one, 12, 7, 95), purchase(two, 11, 2, 85 + turn))
        file.session(0, 0, sale(one, 11, 1, 10), purchase(one, 11, 1, 10))


def withdrawn_blocks(file):
    """Withdrawals: the first, a middle and the last block, of one table and not of another, and entering again"""
    four = [make(zone, unit, 10 + unit, 1000 + unit) for make in (sale, purchase) for zone in (1, 2)
            for unit in (1, 2, 3, 4)]
    for unit in (1, 2, 4):
        for zone, side in ((1, "sale"), (2, "sale"), (1, "purchase"), (2, "purchase")):
            file.session(5, 5, *four, f"(withdraw {zone} {side} ({unit} 1))", f"(withdraw {zone} {side} ({unit} 1))")
    file.session(5, 5, *four, *(f"(withdraw {zone} sale ({unit} 1))" for zone in (1, 2) for unit in (1, 2, 3, 4)))
    file.session(5, 5, sale(1, 1, 4, 50), "(withdraw 1 sale (1 1))", sale(1, 1, 9, 40, agent=4), purchase(1, 2, 9, 60),
                 sale(1, 1, 9, 40), "(withdraw 2 sale (1 1))", "(withdraw 1 purchase (1 1))", "(withdraw 1 sale (1 2))",
                 "(withdraw 1 sale (2 1))")


def empty_sessions(file):
    """Sessions without a block"""
    for capacity in (0, 30_000_000):
        file.session(capacity, 0)
        file.session(0, capacity)


def annulled_sessions(file):
    """Annulled sessions: open, closed and cleared; what follows is not changed by them"""
    trade = sale(1, 11, 9, 2000), purchase(2, 21, 9, 3000)
    for ends in (("(annul)",), ("(close)", "(annul)"), ("(close)", "(clear)", "(annul)")):
        file.begin(4, 0)
        file.write(*trade, *ends, "(annul)", "(settle)", "(clear)", f"(begin {file.last_session} 4 0)")
        file.session(4, 0, sale(1, 11, 3, 2100), purchase(2, 21, 9, 2900))
    file.begin(0, 0)
    file.write("(annul)")
    file.session(0, 0)


def wrong_states(file):
    """Each call in each state: 15 comes before all checks but 14"""
    def every():
        return ("(admit 0)", "(admit 1)", "(begin 0 0 0)", "(begin 999999 30000001 0)",
                "(enter 3 sale (0 0 0 0 300001 0))", sale(1, 11, 1, 1), "(withdraw 3 sale (0 0))",
                "(withdraw 2 purchase (5 5))", "(close )")
    file.write(*every()[:3], *every()[4:], "(close)", "(clear)", "(settle)", "(annul)")
    file.begin(1, 1)
    file.write(*every(), "(clear)", "(settle)", purchase(2, 21, 3, 5), "(close)")
    file.write(*every(), "(close)", "(settle)", "(clear)")
    file.write(*every(), "(close)", "(clear)", "(settle)")
    file.write("(settle)", "(annul)")


def refused_calls(file):
    """Each refusal of each call, and which one of several causes decides"""
    file.write("(admit 0)", "(admit 10000)", "(admit 999999999)", "(admit 9999)", "(admit 9999)", "(admit 1)")
    last = file.last_session
    file.write("(begin 0 0 0)", f"(begin {last} 0 0)", f"(begin {last - 1} 0 0)", "(begin 1000001 0 0)",
               "(begin 999999999 999999999 0)", "(begin 0 30000001 30000001)", f"(begin {last + 1} 30000001 0)",
               f"(begin {last + 1} 0 30000001)", f"(begin {last + 1} 999999999 999999999)")
    file.begin(30_000_000, 30_000_000)
    good = dict(zone=1, side="sale", agent=1, unit=11, number=1, stamp=0, price=100, volume=5)
    wrong = dict(zone=(0, 3, 999_999_999), agent=(0, 10_000, 999_999_999), unit=(0, 1_000_000, 999_999_999),
                 number=(0, 26, 999_999_999), price=(-50_001, 300_001, -999_999_999, 999_999_999),
                 volume=(0, 100_001, 999_999_999))
    file.write(generate.enter(**good))
    for field, values in wrong.items():
        for value in values:
            file.write(generate.enter(**good | {field: value}))
            file.write(generate.enter(**good | {field: value, "side": "purchase"}))
    causes = [("zone", 3), ("price", 300_001), ("volume", 0), ("agent", 5000), ("unit", 11)]
    for skipped in range(len(causes)):
        file.write(generate.enter(**good | dict(causes[skipped:])))
        for field, value in causes[skipped + 1:]:
            file.write(generate.enter(**good | dict([causes[skipped], (field, value)])))
    file.write(sale(1, 11, 5, 100, agent=4), sale(1, 11, 6, 101), sale(1, 11, 5, 100, number=2), sale(2, 11, 5, 100),
               purchase(1, 11, 5, 100), purchase(2, 11, 5, 100), purchase(2, 11, 5, 100))
    for key in ("0 1", "1000000 1", "11 0", "11 26", "999999999 999999999", "12 1", "11 3", "999999 25"):
        file.write(f"(withdraw 1 sale ({key}))", f"(withdraw 2 purchase ({key}))", f"(withdraw 0 sale ({key}))",
                   f"(withdraw 3 purchase ({key}))")
    file.write("(admit 5)", sale(2, 12, 5, 99, agent=5), "(admit 5)", "(admit 0)", "(close)", "(clear)", "(settle)")


def ends_of_limits(file):
    """Both ends of each limit"""
    file.write("(admit 9998)")
    file.session(30_000_000, 30_000_000, sale(1, 1, 1, LOWEST, agent=9999, number=1, stamp=0),
                 sale(2, 999_999, 100_000, HIGHEST, agent=1, number=25, stamp=999_999_999),
                 purchase(1, 999_999, 100_000, LOWEST, agent=9999, number=25, stamp=999_999_999),
                 purchase(2, 1, 1, HIGHEST, agent=9998, number=1, stamp=0))
    for price in (LOWEST, HIGHEST, 0):
        file.session(0, 0, sale(2, 1, 100_000, price), purchase(2, 1, 100_000, price))


def full_tables(file):
    """All four tables full: 256 blocks each, the 257th refused, 7 before 8, a place freed and taken; all matched"""
    tables = ((1, sale, 15, 1000), (1, purchase, 10, 3000), (2, sale, 5, 1003), (2, purchase, 10, 3015))
    file.begin(1280, 0)
    for zone, make, least, price in tables:
        for place in range(256):
            scattered = place * 37 % 256
            file.write(make(zone, 1 + scattered // 25, least + scattered * 300, price + scattered % 7,
                            agent=1 + place % 4, number=1 + scattered % 25, stamp=place % 3))
    for zone, make, least, _ in tables:
        side, volume = make.__name__, least + 50 * 300
        file.write(make(zone, 900, 5, 2000), make(zone, 3, 5, 2000), make(zone, 900, 5, 2000, agent=5001),
                   make(zone, 900, 0, 2000), f"(withdraw {zone} {side} (900 1))", f"(withdraw {zone} {side} (3 1))",
                   make(zone, 900, volume, 1503), make(zone, 3, 5, 2000))
    file.write("(close)", "(clear)", "(settle)")
    file.session(0, 0, sale(1, 900, 5, 2000), purchase(1, 900, 5, 2000))


def positions_at_their_limits(file):
    """Positions at 10^14 and −10^14 after 67 sessions; a cent more on each side refused by 13 and annulled; led back"""
    file.write("(admit 6)", "(admit 7)", "(admit 8)")
    file.limit(limits.positions, 6, 7, 8)


def full_accounts(file):
    """The accounts full: up to the 512th, the 513th refused, 7 before 8; an agent admitted last trades"""
    admitted = [*range(1, 9), 9998, 9999]
    agents = [9 + place * 101 % 9000 for place in range(512 - len(admitted))]
    file.agents = admitted + agents
    file.write(*(f"(admit {agent})" for agent in agents))
    file.write("(admit 9500)", "(admit 9501)", "(admit 9999)", "(admit 0)", "(admit 1)")
    file.begin(0, 0)
    file.write("(admit 9500)", sale(1, 11, 5, 2001, agent=9500), sale(1, 11, 5, 2001, agent=agents[-1]),
               purchase(1, 21, 5, 2001, agent=agents[0]), "(close)", "(clear)", "(settle)")


def large_sums(file):
    """The largest volumes and prices on 32 blocks of each side: large incomes and positions"""
    for forth, back, one, two in ((3_199_999, 0, 1, 2), (0, 3_199_999, 2, 1), (30_000_000, 30_000_000, 1, 2)):
        file.session(forth, back, *(sale(one, unit, 100_000, LOWEST) for unit in range(1, 33)),
                     *(purchase(two, unit, 100_000, HIGHEST) for unit in range(1, 33)))


def no_forms(file):
    """Lines that are no form: empty lines, other bytes, spaces, letters and digits; lines of 119, 120, 121 and more"""
    file.begin(0, 0)
    file.write(*generate.NO_FORMS)
    file.write("", "", "", sale(1, 11, 5, 2000) + " ", " " + sale(1, 11, 5, 2000), sale(1, 11, 5, 2000) + "\r",
               sale(1, 11, 5, 2000).upper(), sale(1, 11, 5, 2000).replace(" ", "  "),
               sale(1, 11, 5, 2000).replace(" ", "\t"), sale(1, 11, 5, 2000).replace("(", "["),
               "(enter 1 sale (1 11 1 0 0002005 1))", "(enter 01 sale (1 11 1 0 2005 1))",
               "(enter 1 sale (1 11 1 0 - 5 1))", "(enter 1 sale (1 11 1 0 5- 1))", "(enter 1 sale (1 11 1 0 1e3 1))",
               "(enter 1 sale (1 11 1 0 2005.0 1))", "(enter 1 sale (1 11 1 0 9999999999 1))",
               "(enter 1 sale (1 11 1 0 -1234567890 1))", "(enter 1 sale (4294967297 11 1 0 5 1))",
               "(enter 4294967297 sale (1 11 1 0 5 1))", "(enter 1 sale (1 11 1 18446744073709551616 5 1))")
    longest = "(enter 999999999 purchase (999999999 999999999 999999999 999999999 -999999999 999999999))"
    file.write(longest, longest + " ", longest[:-1], longest.replace("-", "-9"))
    for text in ("(close)", "(annul)", sale(1, 11, 5, 2000)):
        for length in (119, 120, 121, 122, 127, 128, 129, 240, 255, 256, 257, 4096, 5000):
            file.write(text + " " * (length - len(text)), " " * (length - len(text)) + text)
        file.write("x" * 120 + text, "x" * 121 + text, text + "\0" * 113, text * 18)
    file.write("(admit " + "0" * 111 + "1)", "(admit " + "0" * 112 + "1)", "(admit " + "1" * 4000 + ")")
    file.write(bytes(byte for byte in range(256) if byte != 10), *(bytes([byte]) for byte in range(256) if byte != 10))
    file.write(*(b"(admit" + bytes([byte]) + b"12)" for byte in range(256) if byte not in b"\n "))
    file.write(sale(1, 12, 5, 2000), purchase(1, 22, 5, 2000), "(close)", "(clear)", "(settle)")


def sessions_at_random(file):
    """Forty sessions at random, with noise between the lines; agents from all 512 accounts"""
    writer = generate.Writer(seed=2005, length=0)
    writer.agents, writer.session = file.agents, file.last_session
    for _ in range(40):
        writer.small_session()
    file.write(*writer.lines)
    file.last_session = writer.session


def income_at_its_limit(file):
    """The income at 10^14 after 113 sessions; a cent more refused by 13 and annulled; it stays there from here on"""
    file.limit(limits.income, 4, 5, file.income())


def last_session(file):
    """Session 1,000,000, after which none can begin; the last line lacks its newline"""
    file.write("(begin 1000001 0 0)", "(begin 1000000 0 50)", sale(1, 11, 20, 6005), purchase(1, 21, 50, 9000),
               sale(2, 12, 80, 3000), purchase(2, 22, 10, 4000), "(close)", "(clear)", "(settle)",
               "(begin 1000000 0 0)", "(begin 1000001 0 0)", "(begin 1 0 0)", "", "(admit 1)", "(settle)", "(admit 9502)")


PARTS = (first_settled_session, several_sessions, one_zone, five_blocks, from_two_to_one, ties_across_zones,
         tie_behind_the_capacity, blocks_at_the_limit_prices, islands, empty_sides, nothing_matched, negative_prices,
         halves, precedence, inherited_ladders, withdrawn_blocks, empty_sessions, annulled_sessions, wrong_states,
         refused_calls, ends_of_limits, large_sums, full_tables, positions_at_their_limits, full_accounts, no_forms,
         sessions_at_random, income_at_its_limit, last_session)


def main():
    file, rows = File(), []
    for part in PARTS:
        first = len(file.lines) + 1
        part(file)
        rows.append(f"| {first} to {len(file.lines)} | {part.__doc__} |")
    if "--parts" in sys.argv:
        print("| Lines | Part |", "|---|---|", *rows, sep="\n")
    else:
        sys.stdout.buffer.write(b"\n".join(file.lines))


if __name__ == "__main__":
    main()
