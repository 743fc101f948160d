#!/usr/bin/env python3
"""Writes a random call file to standard output, always the same one for the same SEED and LINES.

    python3 reference/generate.py SEED [LINES] > CALLS

LINES is 5000 if it is not given. To compare the engine with exchange.py on it:

    crates/voipyndu/out/voipyndu < CALLS > ENGINE; python3 reference/exchange.py < CALLS | cmp - ENGINE

Files of 3000 lines and more also fill a block table and the accounts. Only refusal 13 never comes up: a position
reaches its limit after some 57,000 lines at the earliest. limits.py and sessions/write.py write such files.
"""
import sys
from random import Random

SIDES = ("sale", "purchase")
TABLES = [(zone, side) for zone in (1, 2) for side in SIDES]


class Chance:
    """Choices that rest on one stream of numbers, which Python keeps the same from version to version."""

    def __init__(self, seed):
        self.stream = Random(seed)

    def below(self, n):
        return int(self.stream.random() * n)

    def between(self, low, high):
        return low + self.below(high - low + 1)

    def one_in(self, n):
        return self.below(n) == 0

    def of(self, choices):
        return choices[self.below(len(choices))]


# ---- Texts of calls


def admit(agent):
    return f"(admit {agent})"


def begin(session, forth, back):
    return f"(begin {session} {forth} {back})"


def enter(zone, side, agent, unit, number, stamp, price, volume):
    return f"(enter {zone} {side} ({agent} {unit} {number} {stamp} {price} {volume}))"


def withdraw(zone, side, unit, number):
    return f"(withdraw {zone} {side} ({unit} {number}))"


# ---- Kinds of sessions: how many blocks, and where prices, volumes, units and stamps come from


def few_prices(chance):
    base = chance.of((-50_000, -2005, -3, 0, 1000, 2005, 299_990))
    step = chance.of((1, 2, 5, 10))
    prices = [base + step * i for i in range(chance.between(1, 5))]
    return dict(blocks=chance.between(2, 24), price=lambda: chance.of(prices), volume=lambda: chance.between(1, 12),
                unit=lambda: chance.between(1, 9), stamp=lambda: chance.of((0, 0, 0, 5, 999_999_999)))


def whole_range(chance):
    return dict(blocks=chance.between(4, 40), price=lambda: chance.between(-50_000, 300_000),
                volume=lambda: chance.between(1, 100_000), unit=lambda: chance.between(1, 999_999),
                stamp=lambda: chance.between(0, 999_999_999))


def halves(chance):
    sign = chance.of((-1, 1))
    return dict(blocks=chance.between(2, 16), price=lambda: sign * (10 * chance.between(1, 40) + 5),
                volume=lambda: 2 * chance.below(6) + 1, unit=lambda: chance.between(11, 29), stamp=lambda: 0)


def at_the_limits(chance):
    return dict(blocks=chance.between(3, 16), price=lambda: chance.of((-50_000, -50_000, 300_000, 300_000, 1000)),
                volume=lambda: chance.of((1, 10, 99_999, 100_000)), unit=lambda: chance.of((1, 2, 3, 999_999)),
                stamp=lambda: chance.below(3))


def all_alike(chance):
    price, volume = chance.of((-500, 0, 2005, 300_000)), chance.between(1, 7)
    return dict(blocks=chance.between(3, 20), price=lambda: price, volume=lambda: volume,
                unit=lambda: chance.between(1, 4), stamp=lambda: 7)


def hardly_any(chance):
    return dict(blocks=chance.below(3), price=lambda: 1000 * chance.between(-3, 9), volume=lambda: chance.between(1, 3),
                unit=lambda: chance.between(1, 2), stamp=lambda: 0)


KINDS = (few_prices, few_prices, few_prices, whole_range, halves, at_the_limits, all_alike, hardly_any)


# ---- Lines that are no form


def spoilt(chance, text):
    """A text with one to three bytes put in, taken out or changed."""
    line = bytearray(text.encode())
    for _ in range(chance.between(1, 3)):
        place = chance.below(len(line) + 1)
        byte = chance.of(b"()0123456789- \t\r_+aeLs\x00\xff")
        change = chance.below(3)
        if change == 0 or place == len(line):
            line.insert(place, byte)
        elif change == 1:
            line[place] = byte
        else:
            del line[place]
    return bytes(line)


def long_line(chance, text):
    """A line of 119, 120, 121 or several thousand bytes, with the text of a call in it or cut from it."""
    length = chance.of((119, 120, 121, 122, 240, 241, chance.between(2000, 9000)))
    text = text.encode()
    rest = length - len(text)
    return chance.of((
        text + b" " * rest,
        b"x" * rest + text,
        b"(admit " + b"0" * (length - 9) + b"1)",
        b"(admit " + b"7" * (length - 8) + b")",
        bytes(chance.between(11, 255) for _ in range(length)),
        (text * (length // len(text) + 1))[:length],
    ))


def words_at_random(chance):
    parts = (b"(", b")", b" ", b"admit", b"enter", b"sale", b"close", b"1", b"20", b"-5", b"-0", b"007", b"1234567890")
    return b"".join(chance.of(parts) for _ in range(chance.between(1, 12)))


NO_FORMS = [line.encode() for line in (
    "", " ", "()", "(", "close", "(close", "(close))", "((close))", " (close)", "(close) ", "(close)\r", "(Close)",
    "( close)", "(close )", "(closed)", "(clos)", "(clear)(settle)", "(admit)", "(admit )", "(admit -1)", "(admit +1)",
    "(admit 01)", "(admit 1 2)", "(admit  1)", "(admit\t1)", "(admit 1234567890)", "(admit 1_0)", "(admit (1))",
    "(begin 1 0)", "(begin 1 0 0 0)", "(begin 1 -1 0)", "(begin -1 0 0)", "(begin 1 0 00)", "(begin 1 0 4294967296)",
    "(enter 1 sale 1 11 1 0 2005 1)", "(enter 1 (1 11 1 0 2005 1))", "(enter 1 buy (1 11 1 0 2005 1))",
    "(enter 1 sale (1 11 1 0 -0 1))", "(enter 1 sale (1 11 1 0 --5 1))", "(enter 1 sale (1 11 1 0 5 -1))",
    "(enter 1 sale (-1 11 1 0 5 1))", "(enter -1 sale (1 11 1 0 5 1))", "(enter 1 sale (1 11 1 0 -007 1))",
    "(enter 1 sale (1 11 1 1000000000 5 1))", "(enter 1 sale (1 11 1 0 5))", "(enter 1 sales (1 11 1 0 5 1))",
    "(enter sale 1 (1 11 1 0 5 1))", "(withdraw 1 sale 11 1)", "(withdraw 1 sale (11))", "(withdraw 1 sale (11 1)",
    "(withdraw 1 sale (11 1) )", "(withdraw 1 sale (11 -1))", "(settle 1)", "(annul)x", "; a remark",
)] + [b"(close)\x00", b"\x00", b"\xff\xfe", "(admit １)".encode()]


# ---- The file


class Writer:
    """Keeps roughly what a new exchange would hold after the lines so far, to know which lines would be refused."""

    def __init__(self, seed, length):
        self.chance = Chance(seed)
        self.length = length
        self.lines = []
        self.agents = []
        self.session = 0
        self.standing = {table: [] for table in TABLES}
        self.state = "idle"

    def write(self, text):
        self.lines.append(text.encode() if isinstance(text, str) else text)

    def write_with_noise(self, text):
        while self.chance.one_in(6):
            self.write(self.noise())
        self.write(text)

    # Lines that will be refused, or are no form

    def noise(self):
        chance = self.chance
        kind = chance.below(8)
        if kind == 0:
            return chance.of(NO_FORMS)
        if kind == 1:
            return spoilt(chance, self.some_enter())
        if kind == 2:
            return chance.of((long_line(chance, chance.of((self.some_enter(), "(close)", "(annul)"))),
                              words_at_random(chance), b"",
                              bytes(chance.between(11, 255) for _ in range(chance.below(130)))))
        if kind == 3:
            return self.of_another_state()
        return self.refused_here()

    def some_agent(self):
        return self.chance.of(self.agents) if self.agents else 1

    def some_key(self, table):
        keys = self.standing[table]
        return self.chance.of(keys) if keys else (77, 1)

    def some_enter(self):
        zone, side = self.chance.of(TABLES)
        return enter(zone, side, self.some_agent(), self.chance.between(1, 9), self.chance.between(1, 25),
                     self.chance.below(9), self.chance.between(-50, 50), self.chance.between(1, 9))

    def of_another_state(self):
        bad = self.chance.one_in(3)
        calls = {
            "begin": begin(self.session + 1, 0, 99_999_999 if bad else 0),
            "enter": self.some_enter() if not bad else enter(3, "sale", 0, 0, 0, 0, 999_999_999, 0),
            "withdraw": withdraw(1 + 8 * bad, "sale", *self.some_key((1, "sale"))),
            "close": "(close)", "clear": "(clear)", "settle": "(settle)", "annul": "(annul)",
            "admit": admit(0 if bad else self.some_agent()),
        }
        allowed = {"idle": ("admit", "begin"), "open": ("admit", "enter", "withdraw", "close", "annul"),
                   "closed": ("clear", "annul"), "cleared": ("settle", "annul")}[self.state]
        return self.chance.of([text for word, text in calls.items() if word not in allowed])

    def refused_here(self):
        chance = self.chance
        if self.state == "idle":
            return chance.of((self.bad_admit(), self.bad_begin(), self.bad_begin()))
        if self.state == "open":
            return chance.of((self.bad_admit(), self.bad_enter(), self.bad_enter(), self.bad_enter(),
                              self.bad_withdraw()))
        return self.of_another_state()

    def bad_admit(self):
        return admit(self.chance.of((0, 10_000, 999_999_999, self.some_agent(), self.some_agent())))

    def bad_begin(self):
        chance = self.chance
        number = chance.of((0, self.session, chance.below(self.session + 1), 1_000_001, 999_999_999))
        capacity = chance.of((30_000_001, 999_999_999))
        return chance.of((begin(number, 0, 0), begin(number, capacity, 0), begin(self.session + 1, 0, capacity),
                          begin(self.session + 1, capacity, 30_000_000), begin(self.session + 1, capacity, capacity)))

    def bad_enter(self):
        """An enter with one fault to three, and half of the time also with a key that stands."""
        chance = self.chance
        zone, side = table = chance.of(TABLES)
        unit, number = self.some_key(table) if chance.one_in(2) else (chance.between(1, 50), chance.between(1, 25))
        fields = dict(zone=zone, side=side, agent=self.some_agent(), unit=unit, number=number, stamp=0, price=2005,
                      volume=7)
        faults = (("volume", (0, 100_001, 999_999_999)), ("price", (-50_001, 300_001, -999_999_999, 999_999_999)),
                  ("agent", (9_998, 9_999)), ("agent", (0, 10_000)), ("zone", (0, 3, 999_999_999)),
                  ("unit", (0, 1_000_000)), ("number", (0, 26)))
        for _ in range(chance.of((1, 1, 1, 2, 3))):
            field, wrong = chance.of((*faults[:3], chance.of(faults[3:])))
            fields[field] = chance.of(wrong)
        return enter(**fields)

    def bad_withdraw(self):
        chance = self.chance
        zone, side = table = chance.of(TABLES)
        unit, number = self.some_key(table)
        return chance.of((withdraw(0, side, unit, number), withdraw(3, side, unit, number),
                          withdraw(zone, side, 0, number), withdraw(zone, side, 1_000_000, number),
                          withdraw(zone, side, unit, 0), withdraw(zone, side, unit, 26),
                          withdraw(zone, side, 999_999, number), withdraw(zone, side, 123_456, 25)))

    # Lines that will be accepted

    def admit_some(self, count):
        for _ in range(count):
            agent = self.chance.of((self.chance.between(1, 9), self.chance.between(1, 9997)))
            if agent not in self.agents and len(self.agents) < 512:
                self.agents.append(agent)
                self.write_with_noise(admit(agent))

    def begin_session(self, step=None):
        chance = self.chance
        number = self.session + (step or chance.of((1, 1, 1, 2, 10)))
        capacities = [chance.of((0, 0, chance.between(1, 9), chance.between(1, 60), chance.between(1, 200_000),
                                 30_000_000)) for _ in range(2)]
        self.write_with_noise(begin(number, *capacities))
        self.session, self.state = number, "open"
        self.standing = {table: [] for table in TABLES}

    def enter_block(self, table, kind):
        key = kind["unit"](), self.chance.of((1, 1, 2, 25))
        fields = (self.some_agent(), *key, kind["stamp"](), kind["price"](), kind["volume"]())
        self.write_with_noise(enter(*table, *fields))
        if key not in self.standing[table] and len(self.standing[table]) < 256:
            self.standing[table].append(key)
        if self.chance.one_in(4):  # the same in the other zone
            zone, side = table
            self.write(enter(3 - zone, side, *fields))
            if key not in self.standing[3 - zone, side]:
                self.standing[3 - zone, side].append(key)

    def withdraw_block(self):
        table = self.chance.of(TABLES)
        if self.standing[table]:
            key = self.some_key(table)
            self.standing[table].remove(key)
            self.write_with_noise(withdraw(*table, *key))
            if self.chance.one_in(3):
                self.write(withdraw(*table, *key))

    def end_session(self):
        """On to settle, or to an annul on the way."""
        for word, state in (("close", "closed"), ("clear", "cleared"), ("settle", "idle")):
            if self.chance.one_in(12):
                self.write_with_noise("(annul)")
                self.state = "idle"
                return
            self.write_with_noise(f"({word})")
            self.state = state

    def small_session(self):
        kind = self.chance.of(KINDS)(self.chance)
        tables = TABLES if not self.chance.one_in(6) else [self.chance.of(TABLES) for _ in range(2)]
        self.begin_session()
        for _ in range(kind["blocks"]):
            self.enter_block(self.chance.of(tables), kind)
            if self.chance.one_in(10):
                self.withdraw_block()
            if self.chance.one_in(25):
                self.admit_some(1)
        self.end_session()

    def full_session(self):
        """More than 256 blocks for each of one to four tables."""
        kind = self.chance.of((few_prices, whole_range, at_the_limits))(self.chance)
        kind["unit"] = lambda: self.chance.between(1, 700)
        self.begin_session()
        for table in TABLES[:self.chance.between(1, 4)]:
            while len(self.standing[table]) < 256:
                self.enter_block(table, kind)
            for _ in range(3):
                self.enter_block(table, kind)
            self.write(enter(*table, self.some_agent(), *self.some_key(table), 0, 0, 1))
            self.withdraw_block()
            self.enter_block(table, kind)
        self.end_session()

    def full_accounts(self):
        while len(self.agents) < 512:
            self.admit_some(1)
        for _ in range(3):
            self.write(admit(self.chance.of((9_998, 9_999, self.some_agent(), 0))))

    def last_number(self):
        """Session 1,000,000, after which no other can begin."""
        self.write("(annul)")
        self.state = "idle"
        self.begin_session(1_000_000 - self.session)
        self.end_session()
        self.write(begin(self.chance.of((1, 1_000_000, 1_000_001)), 0, 0))

    def file(self):
        self.admit_some(self.chance.between(2, 6))
        great = self.length >= 3000
        at_lines = sorted(self.chance.below(self.length * 2 // 3) for _ in range(2)) if great else []
        scenes = [self.full_session, self.full_accounts]
        while len(self.lines) < self.length:
            if at_lines and len(self.lines) >= at_lines[0]:
                del at_lines[0]
                scenes.pop(self.chance.below(len(scenes)))()
            self.small_session()
        del self.lines[self.length:]
        if self.chance.one_in(3):
            self.lines[-20:] = []
            self.last_number()
            while len(self.lines) < self.length:
                self.write(self.noise())
            del self.lines[self.length:]
        return b"\n".join(self.lines) + self.chance.of((b"", b"\n"))


def main(seed, length=5000):
    sys.stdout.buffer.write(Writer(seed, length).file())


if __name__ == "__main__":
    main(*map(int, sys.argv[1:3]))
