#!/usr/bin/env python3
"""Measures `mdbfed store FOLDER` on the disk of a folder against `replay`, which keeps its journals in memory. It is no part of the gate.

usage: bench/stores.py [--rounds N] FOLDER [PROGRAM]

PROGRAM is the built `mdbfed`, by default the one that `rt run` leaves in crates/mdbfed/out. The sessions are made here, and stored in a new
folder of FOLDER. The commands of the made ones are those that a run in threads printed, so they differ from time to time. For each session
it prints how many transactions commit, how many syncs and appends that takes (strace counts them; those that open the nine files aren't
counted), and the seconds of `replay` and of `store`, the best and the worst of N runs, by default 5.
"""
import argparse
import pathlib
import subprocess
import sys
import tempfile
import time

from journal_files import CALL, PROGRAM, SECONDS, TOP, Storing, held, printed_decisions

HEADS = (b"site", b"item", b"local", b"global", b"policy")
# Each of nine files is opened with a sync of it and one of the folder.
OPENING_SYNCS = 18


def locals_session(count):
    """So many local transactions at one site, one behind the other, each of four steps."""
    lines = ["site 1 locking nothing"]
    for tx in range(1, count + 1):
        a, b = tx % 100, 200 + tx % 100
        lines.append(f"local {tx} 1 get:{a} add:{a}:0:1 get:{b} add:{b}:1:1")
    lines.append("commands")
    for tx in range(1, count + 1):
        lines += [f"begin {tx}"] + [f"step {tx}"] * 4 + [f"commit {tx}"]
    return ("\n".join(lines) + "\n").encode()


def made_session(program, sites, count):
    """A made scenario with the commands that a run of it in threads printed."""
    words = [sys.executable, TOP / "tools/made.py", "5", str(sites), str(count)]
    made = subprocess.run(words, stdout=subprocess.PIPE, check=True).stdout
    ran = subprocess.run([program, "run"], input=made, stdout=subprocess.PIPE, timeout=SECONDS, check=True).stdout
    commands = [line.split(b" =>")[0] for line in ran.splitlines() if b" =>" in line]
    lines = [line for line in made.splitlines() if line.split(b" ")[0] in HEADS]
    return b"\n".join([*lines, b"commands", *commands]) + b"\n"


def timed(call, rounds):
    """The least and the most seconds of some calls, each of which ends in status 0."""
    found = []
    for _ in range(rounds):
        start = time.perf_counter()
        status = call()[0]
        found.append(time.perf_counter() - start)
        if status:
            sys.exit(f"stores: it ends in status {status}")
    return f"{min(found):.3f} to {max(found):.3f} s"


def measure(name, storing, rounds):
    def store():
        storing.empty()
        return storing.store()

    plain, stored = timed(storing.replay, rounds), timed(store, rounds)
    done = len(printed_decisions(storing.replay()[1]))
    calls = [match[1] for match in map(CALL.match, storing.traced()[2].splitlines()) if match]
    syncs, appends = calls.count("fsync") - OPENING_SYNCS, calls.count("pwrite64")
    size = sum(map(len, held(storing.folder).values()))
    print(f"{name}: {done} commit, {syncs} syncs ({syncs / done:.2f} each), {appends} appends, {size} bytes of journals")
    print(f"    replay {plain}, store {stored}", flush=True)


def main():
    reader = argparse.ArgumentParser(description=__doc__, formatter_class=argparse.RawDescriptionHelpFormatter)
    reader.add_argument("--rounds", type=int, default=5, metavar="N")
    reader.add_argument("folder", metavar="FOLDER")
    reader.add_argument("program", metavar="PROGRAM", nargs="?", default=PROGRAM)
    asked = reader.parse_args()
    program = pathlib.Path(asked.program).resolve()
    if not program.exists():
        sys.exit(f"stores: {program} isn't there: `rt run` in crates/mdbfed proves and builds it")
    sessions = {
        "1,000 locals at a site": locals_session(1000),
        "100 made at 3 sites": made_session(program, 3, 100),
        "1,000 made at 3 sites": made_session(program, 3, 1000),
    }
    with tempfile.TemporaryDirectory(dir=asked.folder) as room:
        session = pathlib.Path(room) / "session"
        for name, text in sessions.items():
            session.write_bytes(text)
            measure(name, Storing(program, pathlib.Path(room), session), asked.rounds)


if __name__ == "__main__":
    main()
