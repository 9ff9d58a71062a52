#!/usr/bin/env python3
"""Runs scenarios in threads many times, and checks each run or counts what it did. It is no part of the gate.

usage: bench/threads.py [--six N] [--made N] [--seed N] [PROGRAM]
       bench/threads.py --count [--six N] [--made N] [--seed N] [PROGRAM]

PROGRAM is the built `mdbfed`, by default the one that `rt run` leaves in crates/mdbfed/out. There are N runs, by default 200, of a scenario of
six transactions at three sites with six clients, whose tables are known, and N runs, by default 100, of scenarios that are drawn here, the
same for the same seed: sites of all engines and protocols, locals and globals that contend, messages that are lost, repeated and held back, and stops
of every actor. Of each run it checks that

  - the status is 0, and the order names each transaction once;
  - the tables are those that the six programs leave in any order;
  - the printed commands, given to `replay` with the same scenario, print the same but for the edges of a cycle. A run of more commands than
    `replay` reads, 65,536, is counted and not replayed.

It ends with status 1 at the first run that isn't so, and prints its scenario and its output.

With `--count` it counts how much of a run is done in its threads, and in how many lines: N runs each, by default 20, of
examples/threads.run and examples/threads_usual.run, and N runs, by default 100, of scenarios that are drawn here, the same for the same seed,
without lost messages and stops. For each of the three it prints

  - how many of the global transactions a client was told the commit of, so in the threads, and how many committed in an attempt that the
    threads may begin, one of the first 31. Of the second some may have been finished alone, behind the threads;
  - how many attempts of all transactions were begun, and of one at most;
  - how many lines a run has, and the greatest share of those that it may have: the coordinator, each site and each client has a thread of
    `turns` calls at most, each of which makes one line, beside the trip of a scripted stop. Those of closing and finishing alone are counted too;
  - how many attempts were given up (`decides abort late`), and how long a run takes.

Last it prints the greatest share of all runs. It ends with status 1 where the status of a run isn't 0, where a run takes more than a tenth of
the lines that it may have, or where too few globals were told committed in the threads: of 60 in threads.run fewer than 58, of 60 in
threads_usual.run fewer than 50, and of the drawn ones fewer than nine of ten.

What is drawn for it: one to five sites of all engines and protocols; two to forty transactions, about half of them local, of two to six steps on
two to twelve rows of a site, so that they contend; and settings in proportion to the transactions, as one would give them to so many. `turns` is
a hundred for each transaction, and the usual 1,000 at least: the coordinator's thread takes each message of each attempt, some twenty of one, and
a turn that finds no message counts too. `tries` is drawn from 4, the usual number, to 16, the most, since a run should keep to its tenth however
soon an attempt is given up. The clients are the usual four.

Under `taskset -c 0,1` it counts the same on two processors.
"""
import argparse
import pathlib
import random
import subprocess
import sys
import time

TOP = pathlib.Path(__file__).resolve().parent.parent
ENGINES = ("locking", "timestamp", "validation", "multiversion")
PROTOCOLS = ("nothing", "abort", "commit")
SECONDS = 120
# The hosts of a run begin so many attempts of a transaction at most; one more is left for finishing it alone.
THREADS_BEGIN = 31
# The settings of a run where its scenario says nothing of them.
USUAL = {"clients": 4, "turns": 1000, "tries": 4}
# What each thread of a drawn scenario has for each transaction, and the most that a scenario may say of `tries`.
CALLS_EACH, MOST_TRIES = 100, 16
# A run takes at most this share of the lines that it may have.
MOST_SHARE = 0.1
# So many of so many globals are told committed in the threads, at least.
EXAMPLES = {"threads.run": (58, 60), "threads_usual.run": (50, 60)}
DRAWN = (9, 10)

SIX = """site 1 locking nothing
site 2 timestamp abort
site 3 validation commit
global 1 1/get:1 1/add:1:0:1 2/get:1 2/add:1:1:1
global 2 2/get:1 2/add:1:0:10 3/get:1 3/add:1:1:10
global 3 3/get:1 3/add:1:0:100 1/get:1 1/add:1:1:100
local 4 1 get:1 add:1:0:1000
local 5 2 get:1 add:1:0:1000
local 6 3 get:1 add:1:0:1000
link to 1 0 drop
link from 2 1 twice
link to 3 2 hold:3
stop 2 4 0
clients 6
"""
SIX_TABLES = ["table 1 1=1101", "table 2 1=1011", "table 3 1=1110"]


class Wrong(Exception):
    """A run that isn't as it should be."""


def steps_of(draw, sites, keys):
    """Two to six steps at these sites: reads, writes, and writes of what was read before plus an amount."""
    steps, reads = [], 0
    for _ in range(draw.randint(2, 6)):
        at, key = draw.choice(sites), draw.randrange(keys)
        kinds = ["get", "set"] + ["add"] * (2 if reads else 0)
        kind = draw.choice(kinds)
        if kind == "get":
            steps.append((at, f"get:{key}"))
            reads += 1
        elif kind == "set":
            steps.append((at, f"set:{key}:{draw.randrange(1000)}"))
        else:
            steps.append((at, f"add:{key}:{draw.randrange(reads)}:{draw.randrange(1000)}"))
    return steps


def fate_of(draw):
    return draw.choice(["drop", "twice", f"hold:{draw.randint(1, 8)}"])


def settings_of(draw, transactions):
    """Settings in proportion to so many transactions."""
    turns = max(USUAL["turns"], CALLS_EACH * transactions)
    return [f"turns {turns}", f"tries {draw.randint(USUAL['tries'], MOST_TRIES)}"]


def scenario_of(seed, calm=False):
    """A scenario, the same for the same seed. A calm one loses nothing, has no stops, and has settings in proportion to its transactions."""
    draw = random.Random(seed)
    count, keys = draw.randint(1, 5), draw.randint(2, 12)
    sites = sorted(draw.sample(range(1, 9), count))
    lines = [f"policy {draw.choice(['always', 'conservative'])}"] if draw.random() < 0.5 else []
    lines += [f"site {site} {draw.choice(ENGINES)} {draw.choice(PROTOCOLS)}" for site in sites]
    lines += [f"item {site} {key} {draw.randrange(1000)}" for site in sites for key in range(keys) if draw.random() < 0.3]
    transactions = draw.randint(2, 40)
    for tx in range(1, transactions + 1):
        if draw.random() < 0.5:
            at = draw.choice(sites)
            lines.append(f"local {tx} {at} " + " ".join(step for _, step in steps_of(draw, [at], keys)))
        else:
            among = draw.sample(sites, draw.randint(1, count))
            lines.append(f"global {tx} " + " ".join(f"{at}/{step}" for at, step in steps_of(draw, among, keys)))
    if calm:
        return "\n".join(lines + settings_of(draw, transactions)) + "\n"
    lines += [f"clients {draw.randint(1, 16)}", f"turns {draw.choice([1, 10, 100, 1000])}", f"tries {draw.randint(1, 16)}"]
    places = {(way, site, draw.randrange(20)) for site in sites for way in ("to", "from") for _ in range(draw.randint(0, 4))}
    lines += [f"link {way} {site} {place} {fate_of(draw)}" for way, site, place in sorted(places)]
    for actor in [0] + sites:
        for _ in range(draw.randint(0, 3)):
            lines.append(f"stop {actor} {draw.randint(1, 8)} {draw.choice([0, 1, 20, 65535])}")
    return "\n".join(lines) + "\n"


def called(program, word, text):
    """The status of the command on this input, and what it printed."""
    ran = subprocess.run([program, word], input=text.encode(), stdout=subprocess.PIPE, timeout=SECONDS, check=False)
    return ran.returncode, ran.stdout.decode()


def without_edges(line):
    """The line without the edges of its cycle."""
    return line.split(" cycle ")[0] + " cycle" if " cycle " in line else line


def check_order(scenario, output):
    """The order names each transaction of the scenario once."""
    declared = sorted(int(line.split()[1]) for line in scenario.splitlines() if line.split()[0] in ("local", "global"))
    orders = [line for line in output.splitlines() if line.split()[0] == "order"]
    if len(orders) != 1:
        raise Wrong("there is one order")
    if sorted(int(tid.split(".")[0]) for tid in orders[0].split()[1:]) != declared:
        raise Wrong("the order names each transaction once")


def check_again(program, scenario, output):
    """The printed commands print the same again. Answers whether `replay` reads so many."""
    commands = [line.split(" => ")[0] for line in output.splitlines() if " => " in line]
    text = scenario + "commands\n" + "".join(command + "\n" for command in commands)
    if len(commands) > 65_536 or len(text) > 4_194_304:
        return False
    status, again = called(program, "replay", text)
    if status != 0:
        raise Wrong(f"the printed commands end with status {status}")
    if [without_edges(line) for line in output.splitlines()] != [without_edges(line) for line in again.splitlines()]:
        raise Wrong("the printed commands print something else:\n" + again)
    return True


def check_run(program, scenario, tables):
    """One run. Answers how many lines it has, and whether they were replayed."""
    status, output = called(program, "run", scenario)
    try:
        if status != 0:
            raise Wrong(f"status {status}")
        check_order(scenario, output)
        if tables and [line for line in output.splitlines() if line.startswith("table")] != tables:
            raise Wrong("the tables are others")
        return output.count(" => "), check_again(program, scenario, output)
    except Wrong as why:
        print(f"{scenario}\n-- prints --\n{output}\n-- {why}")
        sys.exit(1)


def check_runs(name, program, scenarios, tables):
    """Runs of these scenarios, and a line on them."""
    lines, replayed = [], 0
    for scenario in scenarios:
        count, again = check_run(program, scenario, tables)
        lines.append(count)
        replayed += again
    if lines:
        print(f"{name}: {len(lines)} runs of {min(lines)} to {max(lines)} lines, {replayed} replayed, all as they should be", flush=True)


class Count:
    """What the runs of one kind did in their threads."""

    def __init__(self):
        self.transactions = self.globals = self.told = self.early = self.begun = self.most = self.late = 0
        self.lines, self.shares, self.seconds = [], [], []

    def add(self, scenario, output, seconds):
        """Adds a run."""
        declared = {line.split()[1] for line in scenario.splitlines() if line.startswith("global ")}
        lines = [line.split(" => ") for line in output.splitlines() if " => " in line]
        told = {command.split()[1] for command, answer in lines if command.startswith("fate ") and answer.startswith("committed")}
        outcomes = [line.split() for line in output.splitlines() if line.startswith("outcome ") and line.endswith(" commit")]
        early = {words[1].split(".")[0] for words in outcomes if int(words[1].split(".")[1]) < THREADS_BEGIN}
        begun = [int(answer.split()[1].split(".")[1]) for _, answer in lines if answer.startswith("begun ")]
        self.transactions += sum(line.split()[0] in ("local", "global") for line in scenario.splitlines())
        self.globals += len(declared)
        self.told += len(declared & told)
        self.early += len(declared & early)
        self.begun += len(begun)
        self.most = max([self.most] + [attempt + 1 for attempt in begun])
        self.late += sum(answer.startswith("decides abort late") for _, answer in lines)
        self.lines.append(len(lines))
        self.shares.append(len(lines) / most_lines(scenario))
        self.seconds.append(seconds)

    def __str__(self):
        runs = len(self.lines)
        return (
            f"{runs} runs, {self.told} of {self.globals} globals were told committed in threads, {self.early} before attempt {THREADS_BEGIN}; "
            f"{self.begun} attempts of {self.transactions} transactions, of one at most {self.most}; "
            f"{min(self.lines)} to {max(self.lines)} lines, {sum(self.lines) // runs} on average, at most {max(self.shares):.1%} of what a run may have; "
            f"{self.late} attempts given up; {sum(self.seconds) / runs:.3f} s a run, at most {max(self.seconds):.3f}"
        )

    def faults(self, goal):
        """What isn't as it should be."""
        least, among = goal
        found = []
        if self.told * among < least * self.globals:
            found.append(f"fewer than {least} of {among} globals were told committed in threads")
        if max(self.shares) > MOST_SHARE:
            found.append(f"a run takes more than {MOST_SHARE:.0%} of the lines that it may have")
        return found


def setting(scenario, word):
    """The value of a setting of the scenario."""
    return next((int(line.split()[1]) for line in scenario.splitlines() if line.startswith(word + " ")), USUAL[word])


def most_lines(scenario):
    """How many calls the threads of a run make at most: `turns` for the coordinator, each site and each client."""
    sites = sum(line.startswith("site ") for line in scenario.splitlines())
    return (1 + sites + setting(scenario, "clients")) * setting(scenario, "turns")


def count_runs(name, program, scenarios, goal):
    """Runs these scenarios, and prints what they did. Answers their greatest share of lines, and whether all is as it should be."""
    count = Count()
    for scenario in scenarios:
        began = time.monotonic()
        status, output = called(program, "run", scenario)
        if status != 0:
            print(f"{scenario}\n-- prints --\n{output}\n-- status {status}")
            sys.exit(1)
        count.add(scenario, output, time.monotonic() - began)
        if count.shares[-1] > MOST_SHARE:
            print(f"{scenario}-- takes {count.lines[-1]} lines, {count.shares[-1]:.1%} of those that it may have")
    if not count.lines:
        return 0, True
    print(f"{name}: {count}", flush=True)
    faults = count.faults(goal)
    for fault in faults:
        print(f"{name}: {fault}", flush=True)
    return max(count.shares), not faults


def count_all(words):
    """What the examples and drawn scenarios without losses do in their threads. Answers whether all is as it should be."""
    six = 20 if words.six is None else words.six
    made = 100 if words.made is None else words.made
    kinds = [(name, [(TOP / "examples" / name).read_text()] * six, goal) for name, goal in EXAMPLES.items()]
    calm = [scenario_of(words.seed * 100_000 + at, calm=True) for at in range(made)]
    kinds.append(("drawn scenarios without losses", calm, DRAWN))
    counted = [count_runs(name, words.program, scenarios, goal) for name, scenarios, goal in kinds]
    print(f"the greatest share of the lines that a run may have: {max(share for share, _ in counted):.1%}")
    return all(good for _, good in counted)


def main():
    reader = argparse.ArgumentParser(description=__doc__.splitlines()[0])
    reader.add_argument("--count", action="store_true")
    reader.add_argument("--six", type=int)
    reader.add_argument("--made", type=int)
    reader.add_argument("--seed", type=int, default=1)
    reader.add_argument("program", nargs="?", default=str(TOP / "crates/mdbfed/out/mdbfed"))
    words = reader.parse_args()
    if not pathlib.Path(words.program).exists():
        print(f"{words.program} isn't there: build it by `rt run` in crates/mdbfed")
        sys.exit(2)
    if words.count:
        sys.exit(0 if count_all(words) else 1)
    six = 200 if words.six is None else words.six
    made = 100 if words.made is None else words.made
    check_runs("six transactions", words.program, [SIX] * six, SIX_TABLES)
    check_runs("drawn scenarios", words.program, [scenario_of(words.seed * 100_000 + at) for at in range(made)], None)


if __name__ == "__main__":
    main()
