#!/usr/bin/env python3
"""Measures a call-file program beside the plain one of bench/plain, which has neither contracts nor proofs.

    python3 bench/run.py [--seed N] [--repeat N] [PROGRAM]

PROGRAM is crates/voipyndu/out/voipyndu if it is not given. The plain program is built with `rustc -O` into target/bench. Both
are run in turn on the same call files, each from its start to its end, and the best of several runs counts. What they
write is compared; the exit status is 1 if it differs. Nothing is said about how fast a program should be.

Time is processor time, of the program and of the system for it. Peak memory is what Linux last shows of it (VmHWM)
before the program ends.
"""
import argparse
import os
import subprocess
import sys
import tempfile
from random import Random

TOP = os.path.dirname(os.path.dirname(os.path.abspath(__file__)))
sys.dont_write_bytecode = True
sys.path.insert(0, os.path.join(TOP, "reference"))
from generate import NO_FORMS, TABLES, admit, begin, enter, withdraw

PLACES, ACCOUNTS, LARGEST_CAPACITY = 256, 512, 30_000_000
ENDS = ["(close)", "(clear)", "(settle)"]


# ---- Call files


def some_agents(random, count):
    return random.sample(range(1, 9_999), count)


def some_blocks(random, agents, table, count):
    """Enter lines of one table, with units of their own."""
    for unit in random.sample(range(1, 1_000_000), count):
        yield enter(*table, random.choice(agents), unit, random.randint(1, 25), random.randrange(1_000_000_000),
                    random.randint(-50_000, 300_000), random.randint(1, 100_000))


def full_tables(random):
    """70 sessions of 1,024 blocks, every other one with a line so narrow that the market splits."""
    agents = some_agents(random, ACCOUNTS)
    yield from map(admit, agents)
    for session in range(1, 71):
        narrow = random.randint(0, 1_000) if session % 2 else LARGEST_CAPACITY
        yield begin(session, narrow, narrow)
        blocks = [line for table in TABLES for line in some_blocks(random, agents, table, PLACES)]
        random.shuffle(blocks)
        yield from blocks
        yield from ENDS


def small_sessions(random):
    """20,000 sessions of two to eight blocks, with ties and withdrawals."""
    agents = some_agents(random, 20)
    yield from map(admit, agents)
    for session in range(1, 20_001):
        yield begin(session, random.randint(0, 40), random.randint(0, 40))
        for unit in range(1, random.randint(2, 8) + 1):
            table = random.choice(TABLES)
            yield enter(*table, random.choice(agents), unit, 1, random.randrange(3), 5 * random.randint(-9, 99),
                        random.randint(1, 30))
            if random.randrange(12) == 0:
                yield withdraw(*table, unit, 1)
        yield from ENDS


def idle_refusals(random, agents, session):
    return [admit(0), admit(10_000), admit(random.choice(agents)), admit(9_999),
            begin(session, 0, 0), begin(1_000_001, 0, 0), begin(session + 1, LARGEST_CAPACITY + 1, 0),
            "(close)", "(clear)", "(settle)", "(annul)", withdraw(1, "sale", 1, 1),
            enter(1, "sale", random.choice(agents), 1, 1, 0, 0, 1)]


def open_refusals(random, agents, session):
    """Refusals in a session with a full table of zone 1 sales, units 1 to 256, and no other block."""
    agent, unit = random.choice(agents), random.randint(1, PLACES)
    return [enter(3, "sale", agent, unit, 1, 0, 0, 1), enter(1, "sale", agent, 0, 1, 0, 0, 1),
            enter(1, "sale", agent, unit, 26, 0, 0, 1), enter(1, "sale", agent, unit, 1, 0, 300_001, 1),
            enter(1, "sale", agent, unit, 1, 0, -50_001, 1), enter(1, "sale", agent, unit, 1, 0, 0, 0),
            enter(2, "purchase", 9_999, unit, 1, 0, 0, 1), enter(1, "sale", agent, unit, 1, 0, 0, 1),
            enter(1, "sale", agent, unit + PLACES, 1, 0, 0, 1), withdraw(1, "sale", unit, 2),
            withdraw(2, "purchase", unit, 1), withdraw(0, "sale", unit, 1), begin(session + 1, 0, 0), "(clear)",
            "(settle)"]


def refusals(random):
    """Half a million lines, of which all but a thousand are refused: by 3 to 11, 14 and 15."""
    agents = some_agents(random, ACCOUNTS)
    no_forms = [line.decode("latin-1") for line in NO_FORMS] + ["x" * length for length in (119, 120, 121, 500)]
    yield from map(admit, agents)
    for session, refused in ((1, idle_refusals), (2, open_refusals)):
        yield begin(session, 0, 0)
        for unit in range(1, PLACES + 1):
            yield enter(1, "sale", agents[unit], unit, 1, 0, 1_000 * unit, unit)
        if refused is idle_refusals:
            yield "(annul)"
        for _ in range(125_000):
            yield random.choice(refused(random, agents, session))
            yield random.choice(no_forms)


def growing(places):
    """Sessions that fill their four tables to `places` blocks and are annulled; as many agents as two tables have."""
    def lines(random):
        agents = some_agents(random, 2 * places)
        yield from map(admit, agents)
        for session in range(1, 32_768 // places + 1):
            yield begin(session, 0, 0)
            blocks = [line for table in TABLES for line in some_blocks(random, agents, table, places)]
            random.shuffle(blocks)
            yield from blocks
            yield "(annul)"
    return lines


# ---- Runs


class Programs:
    """The program under test and the plain one, each with a file for what it writes."""

    def __init__(self, program, plain, folder, repeat):
        self.paths, self.folder, self.repeat = (program, plain), folder, repeat
        self.outputs = [os.path.join(folder, name) for name in ("answers", "plain-answers")]

    def write(self, lines, random):
        """Writes a call file and counts its lines."""
        texts = list(lines(random))
        self.calls = os.path.join(self.folder, "calls")
        with open(self.calls, "wb") as file:
            file.writelines(text.encode("latin-1") + b"\n" for text in texts)
        return len(texts)

    def start(self, which):
        with open(self.calls, "rb") as calls, open(self.outputs[which], "wb") as answers:
            return subprocess.Popen([self.paths[which]], stdin=calls, stdout=answers)

    def seconds(self, which):
        running = self.start(which)
        _, status, usage = os.wait4(running.pid, 0)
        running.returncode = os.waitstatus_to_exitcode(status)
        if status != 0:
            sys.exit(f"{self.paths[which]} ends with status {running.returncode}")
        return usage.ru_utime + usage.ru_stime

    def best(self):
        """The best time of each program, run in turn."""
        runs = [(self.seconds(0), self.seconds(1)) for _ in range(self.repeat)]
        return [min(times) for times in zip(*runs)]

    def peak(self, which):
        """Kilobytes."""
        running, kilobytes = self.start(which), 0
        while running.poll() is None:
            with open(f"/proc/{running.pid}/status") as status:
                shown = [line.split()[1] for line in status if line.startswith("VmHWM:")]
            kilobytes = int(shown[0]) if shown else kilobytes
        return kilobytes

    def same(self):
        answers = []
        for path in self.outputs:
            with open(path, "rb") as file:
                answers.append(file.read())
        return answers[0] == answers[1]


def build_plain():
    folder = os.path.join(TOP, "target", "bench")
    os.makedirs(folder, exist_ok=True)
    plain = os.path.join(folder, "plain")
    source = os.path.join(TOP, "bench", "plain", "main.rs")
    subprocess.run(["rustc", "--edition", "2021", "-O", source, "-o", plain], check=True)
    return plain


def speed_table(programs, seed):
    print(f"{'calls per second':34}{'program':>12}{'plain':>12}{'times':>8}{'peak kB':>12}{'plain kB':>12}")
    same = True
    for name, lines in (("full tables", full_tables), ("small sessions", small_sessions), ("refusals", refusals)):
        count = programs.write(lines, Random(seed))
        ours, plain = programs.best()
        peaks = [programs.peak(which) for which in (0, 1)]
        print(f"{f'{name}, {count:,} lines':34}{count / ours:>12,.0f}{count / plain:>12,.0f}{ours / plain:>8.2f}"
              f"{peaks[0]:>12,}{peaks[1]:>12,}", flush=True)
        if not programs.same():
            print(f"{name}: the two programs write different answers")
            same = False
    return same


def growth_table(programs, seed):
    print(f"\n{'nanoseconds for each enter':34}{'program':>12}{'growth':>8}{'plain':>12}{'growth':>8}")
    same, before = True, None
    for places in (32, 64, 128, 256):
        count = programs.write(growing(places), Random(seed))
        times = [1e9 * seconds / count for seconds in programs.best()]
        growth = ["" if before is None else f"{now / then:.2f}" for now, then in zip(times, before or times)]
        print(f"{f'{places} blocks, {2 * places} accounts':34}{times[0]:>12,.0f}{growth[0]:>8}{times[1]:>12,.0f}"
              f"{growth[1]:>8}", flush=True)
        before = times
        same &= programs.same()
    return same


def main():
    arguments = argparse.ArgumentParser(description=__doc__.splitlines()[0])
    arguments.add_argument("program", nargs="?", default=os.path.join(TOP, "crates", "voipyndu", "out", "voipyndu"))
    arguments.add_argument("--seed", type=int, default=1)
    arguments.add_argument("--repeat", type=int, default=5)
    given = arguments.parse_args()
    if not os.path.isfile(given.program):
        sys.exit(f"there is no program {given.program}")
    plain = build_plain()
    with tempfile.TemporaryDirectory() as folder:
        programs = Programs(os.path.abspath(given.program), plain, folder, given.repeat)
        same = speed_table(programs, given.seed)
        same &= growth_table(programs, given.seed)
    print("\nBoth write the same answers." if same else "\nThe answers differ.")
    return 0 if same else 1


if __name__ == "__main__":
    sys.exit(main())
