#!/usr/bin/env python3
"""Kills `mdbfed store FOLDER` at each of its calls on the folder's files, and looks at what it leaves. It is no part of the gate.

usage: bench/kills.py [--times N] [--seed N] [PROGRAM [SESSION..]]

PROGRAM is the built `mdbfed`, by default the one that `rt run` leaves in crates/mdbfed/out. Each SESSION is an input of
`replay`; by default they are three of examples/. Where `strace` is there, the process is killed on entry to each of its calls
on the folder's files, one call in a run. Else it is killed N times, by default 50, at random. Of each folder that is left it
checks that

  - no frame is damaged, so a journal is whole but for a torn rest at its end;
  - each file holds what its completed calls put there, and each whole frame that was synced is there;
  - no decision is lost: each commit whose record was synced, and each one that was printed before the kill, is in the journals
    that are left, or in a Checkpoint that took the place of its record;
  - the next process finds the files unlocked: it answers `disk A is used`, or, where nothing was written, as the first one.

What was synced is known from the calls, so at random times only what was printed is asked for. The first folder that isn't so
is kept and named, and the status is then 1.
"""
import argparse
import pathlib
import random
import shutil
import subprocess
import sys
import tempfile
import time

from journal_files import PROGRAM, SESSIONS, Files, Storing, Wrong, check_folder, printed_decisions


class Killing:
    """Kills of one session."""

    def __init__(self, program, room, path):
        self.storing, self.name = Storing(program, room, path), path.name
        self.most = 0
        self.whole = self.storing.replay()
        self.storing.empty()
        start = time.monotonic()
        if self.storing.store() != self.whole:
            raise Wrong(f"{self.name}: `store` and `replay` print different outputs")
        self.seconds = time.monotonic() - start
        self.decided = check_folder(self.storing.folder, None, self.whole[1])
        if self.decided != len(printed_decisions(self.whole[1])):
            raise Wrong(f"{self.name}: the journals have {self.decided} decisions, and the order has others")

    def at_each_call(self):
        kills = 0
        for call, count in self.storing.counts().items():
            for number in range(1, count + 1):
                _, output, log = self.storing.traced("-e", f"inject={call}:signal=KILL:when={number}")
                if "killed by SIGKILL" not in log:
                    raise Wrong(f"{self.name}: call {number} of {call} doesn't come again")
                self.judge(f"killed at {call} {number}", log, output)
                kills += 1
        return kills

    def at_random(self, times):
        for number in range(times):
            self.storing.empty()
            with open(self.storing.session, "rb") as source:
                process = subprocess.Popen([self.storing.program, "store", self.storing.folder], stdin=source, stdout=subprocess.PIPE)
                time.sleep(random.random() * self.seconds)
                process.kill()
                output = process.communicate()[0]
            self.judge(f"kill {number} at random", None, output)
        return times

    def judge(self, where, log, output):
        """Looks at the folder behind a kill, and keeps one that isn't as it should be."""
        try:
            files = None if log is None else Files(log)
            self.most = max(self.most, check_folder(self.storing.folder, files, output))
            self.storing.goes_on(self.whole)
        except Wrong as why:
            kept = pathlib.Path(tempfile.mkdtemp(prefix="kills_"))
            shutil.copytree(self.storing.folder, kept / "journals")
            raise Wrong(f"{self.name}, {where}: {why}; the folder is kept as {kept}/journals") from None


def main():
    reader = argparse.ArgumentParser(description=__doc__, formatter_class=argparse.RawDescriptionHelpFormatter)
    reader.add_argument("--times", type=int, default=50, metavar="N", help="how many kills at random, where strace isn't there")
    reader.add_argument("--seed", type=int, default=1, metavar="N", help="of the random times")
    reader.add_argument("program", metavar="PROGRAM", nargs="?", default=PROGRAM)
    reader.add_argument("sessions", metavar="SESSION", nargs="*")
    asked = reader.parse_args()
    random.seed(asked.seed)
    program = pathlib.Path(asked.program).resolve()
    if not program.exists():
        sys.exit(f"kills: {program} isn't there: `rt run` in crates/mdbfed proves and builds it")
    sessions = [pathlib.Path(name) for name in asked.sessions] or SESSIONS
    with tempfile.TemporaryDirectory() as room:
        try:
            for path in sessions:
                killing = Killing(program, pathlib.Path(room), path)
                kills = killing.at_each_call() if shutil.which("strace") else killing.at_random(asked.times)
                print(f"{path.name}: {kills} kills, up to {killing.most} of {killing.decided} decisions in the journals, none lost", flush=True)
        except Wrong as why:
            sys.exit(f"kills: {why}")


if __name__ == "__main__":
    main()
