#!/usr/bin/env python3
"""Kills `mdbfed store FOLDER` at each of its calls on the folder's files, goes on with `mdbfed resume FOLDER`, and looks at what that says. It is no
part of the gate, and wants `strace`.

usage: bench/resumes.py [--every N] [PROGRAM [SESSION..]]

PROGRAM is the built `mdbfed`, by default the one that `rt run` leaves in crates/mdbfed/out. Each SESSION is an input of `replay`; by default they are
three of examples/. Behind each kill `resume` has to end with status 0, and of what it prints it is checked that

  - each global attempt with a synced Commit record, or one that was printed as committed, has the outcome commit, and no other has it;
  - each line that settles an attempt says its outcome;
  - a second `resume` gives the same outcomes and the same tables;
  - where a `resume` is killed at one of its own calls, behind every Nth kill at each of them (by default behind every 25th), the next one gives the same
    outcomes and the same tables.

The first folder that isn't so is kept and named, and the status is then 1.
"""
import argparse
import pathlib
import re
import shutil
import sys
import tempfile

from journal_files import PROGRAM, SESSIONS, Files, Storing, Wrong, decisions, held, journal_of

REPORTED = (b"outcome ", b"forgotten", b"table ", b"end")


def reported(output):
    """The lines of the report of an output."""
    return [line for line in output.splitlines() if line.startswith(REPORTED)]


class Resuming:
    """A session that is stored, killed and resumed."""

    def __init__(self, program, room, path):
        self.storing, self.name = Storing(program, room, path), path.name
        self.spare = room / "spare"
        self.resumed = 0

    def resume(self, before=()):
        self.resumed += 1
        return self.storing.call(["resume", self.storing.folder], before)

    def whole(self):
        """The output of a `resume` that nothing stops."""
        status, output = self.resume()
        if status != 0 or not output.endswith(b"end\n"):
            raise Wrong(f"resume answers {status} {output[-80:]!r}")
        outcomes = dict(re.findall(rb"^outcome (\d+\.\d+) (\w+)$", output, re.M))
        for name, decision in re.findall(rb"=> settles (\d+\.\d+) (\w+)", output):
            if outcomes.get(name, b"abort") != decision:
                raise Wrong(f"{name.decode()} settles by {decision.decode()}, and its outcome is another one")
        return output, outcomes

    def behind(self, files, again):
        """Behind a kill: what is resumed is what was decided, and stays so."""
        journal = journal_of(0, held(self.storing.folder).get(0, b""))
        committed = {b"%d.%d" % attempt for attempt in decisions(journal)}
        shutil.rmtree(self.spare, ignore_errors=True)
        shutil.copytree(self.storing.folder, self.spare)
        output, outcomes = self.whole()
        told = {name for name, decision in outcomes.items() if decision == b"commit"}
        if told != committed:
            raise Wrong(f"{told} have the outcome commit, and {committed} have committed by the journal")
        if reported(self.whole()[0]) != reported(output):
            raise Wrong("a second resume reports otherwise")
        if again:
            self.stopped(reported(output))

    def restore(self):
        shutil.rmtree(self.storing.folder)
        shutil.copytree(self.spare, self.storing.folder)

    def stopped(self, want):
        """A `resume` is killed at each of its calls, and the next one reports the same."""
        for number in range(1, 1000):
            self.restore()
            words = ["strace", "-f", "-o", self.storing.log, "-e", "trace=openat,pwrite64,fsync,ftruncate,rename", "-P", self.storing.folder]
            words += [word for actor in range(9) for word in ("-P", self.storing.folder / f"disk{actor}")]
            self.resume([*words, "-e", f"inject=openat,pwrite64,fsync,ftruncate,rename:signal=KILL:when={number}"])
            if "killed by SIGKILL" not in self.storing.log.read_text():
                return
            if reported(self.whole()[0]) != want:
                raise Wrong(f"killed at call {number} of a resume, the next one reports otherwise")

    def at_each_call(self, every):
        kills = 0
        for call, count in self.storing.counts().items():
            for number in range(1, count + 1):
                _, _, log = self.storing.traced("-e", f"inject={call}:signal=KILL:when={number}")
                try:
                    self.behind(Files(log), kills % every == 0)
                except Wrong as why:
                    kept = pathlib.Path(tempfile.mkdtemp(prefix="resumes_"))
                    shutil.copytree(self.spare, kept / "journals")
                    raise Wrong(f"{self.name}, killed at {call} {number}: {why}; the folder is kept as {kept}/journals") from None
                kills += 1
        return kills


def main():
    reader = argparse.ArgumentParser(description=__doc__, formatter_class=argparse.RawDescriptionHelpFormatter)
    reader.add_argument("--every", type=int, default=25, metavar="N", help="behind every Nth kill the resuming is killed too")
    reader.add_argument("program", metavar="PROGRAM", nargs="?", default=PROGRAM)
    reader.add_argument("sessions", metavar="SESSION", nargs="*")
    asked = reader.parse_args()
    program = pathlib.Path(asked.program).resolve()
    if not program.exists():
        sys.exit(f"resumes: {program} isn't there: `rt run` in crates/mdbfed proves and builds it")
    if not shutil.which("strace"):
        sys.exit("resumes: strace isn't there")
    sessions = [pathlib.Path(name) for name in asked.sessions] or SESSIONS
    with tempfile.TemporaryDirectory() as room:
        try:
            for path in sessions:
                resuming = Resuming(program, pathlib.Path(room), path)
                kills = resuming.at_each_call(asked.every)
                print(f"{path.name}: {kills} kills, {resuming.resumed} resumes, nothing lost", flush=True)
        except Wrong as why:
            sys.exit(f"resumes: {why}")


if __name__ == "__main__":
    main()
