#!/usr/bin/env python3
"""Plays files of cases with any program from outside, by its words, standard input, standard output, exit status and files `disk0` to `disk8`.

PROGRAM is a command line, as "crates/mdbfed/out/mdbfed" or "python3 mine.py"; a call's words are put after it. A FOLDER or FILE has cases;
without one the folders of the word `replay` are played. crates/cases/README.md says what a case is. A line is printed for each folder, and
below it the cases that differ, with what does. A `sweep` is passed over, and a case in which a call fails or a disk stops is left out and
counted, since neither can be asked for from outside. The status is 0 where no case differs.

example: tools/play.py crates/mdbfed/out/mdbfed
         tools/play.py "python3 mine.py" crates/cases/data/whole crates/cases/data/audit
"""
import argparse
import collections
import concurrent.futures
import pathlib
import re
import shlex
import shutil
import subprocess
import sys
import tempfile

DATA = pathlib.Path(__file__).resolve().parent.parent / "crates/cases/data"
OF_REPLAY = ("locking", "globals", "stops", "engines", "whole")
SECONDS = 120
EDGES = re.compile(rb"( cycle)(?: \d+\.\d+>\d+\.\d+@\d+)+")
INSIDE = ("fails", "stop")


class Differs(Exception):
    """A section doesn't come out as it says."""


class LeftOut(Exception):
    """A case asks for what can't be had from outside."""


def plain(line):
    """The bytes that a line spells, with its line feed, which a backslash at its end takes away."""
    ends = re.search(r"\\*$", line)[0]
    bare = len(ends) % 2
    made = re.sub(r"\\(?:x([0-9a-f]{2})|\\)", lambda it: chr(int(it[1], 16)) if it[1] else "\\", line[:-1] if bare else line)
    return made.encode("latin-1") + (b"" if bare else b"\n")


def spelled(lines):
    """The bytes that the lines of a section spell."""
    made = []
    for line in lines:
        each = re.match(r"\\each (\d+) (\d+) (.*)", line)
        numbers = range(int(each[1]), int(each[2]) + 1) if each else ()
        made += [plain(each[3].replace("{}", str(number))) for number in numbers] if each else [plain(line)]
    return b"".join(made)


def cases_of(path):
    """The cases of a file: lists of the words of a section and its bytes, or of what its lines of digits spell."""
    found = []
    for line in path.read_text(encoding="ascii").split("\n")[:-1]:
        if line.startswith("--- case "):
            found.append([])
        if line.startswith("--- "):
            found[-1].append((line[4:], []))
        elif found:
            found[-1][-1][1].append(line)
    return [[read(path, *section) for section in case] for case in found]


def read(path, words, lines):
    """A section: its words, and the bytes of its lines, or of the file that the words name after `<`."""
    words, sign, name = words.partition(" < ")
    if sign:
        return words, path.with_name(name).read_bytes()
    if words.split(" ")[0] in ("disk", "holds"):
        return words, bytes.fromhex("".join(line.split("#")[0] for line in lines))
    return words, spelled(lines)


def compare(due, there):
    """The output is the one that is due, but for the edges of a cycle, which are free."""
    due, there = (EDGES.sub(rb"\1", text).split(b"\n") for text in (due, there))
    for number, pair in enumerate(zip(due + [None], there + [None]), 1):
        if pair[0] != pair[1]:
            said = ["nothing" if line is None else repr(line[:100].decode("ascii", "replace")) for line in pair]
            raise Differs(f"line {number} is {said[1]}, and {said[0]} is due")


def scenario_of(given):
    """The lines of an input up to its commands."""
    lines = given.split(b"\n")
    return b"\n".join(lines[:lines.index(b"commands")] + [b""]) if b"commands" in lines else given


class Player:
    """A case as it is played: the newest call's input, output and status, and the edit of the next audit."""

    def __init__(self, program, room):
        self.program, self.room = program, room
        self.given = self.put = self.old = self.new = b""
        self.status, self.is_stored = 0, False

    def disk(self, number):
        return self.room / f"disk{int(number)}"

    def call(self, words, text):
        try:
            ran = subprocess.run([*self.program, *words], input=text, stdout=subprocess.PIPE, timeout=SECONDS, check=False)
        except subprocess.TimeoutExpired:
            raise Differs(f"it isn't done in {SECONDS} seconds") from None
        return ran.returncode, ran.stdout

    def run(self, rest, body):
        words = rest.split(" ")
        self.is_stored = words[0] in ("store", "resume") and words[1:] == ["x"]
        if self.is_stored:
            words[1] = str(self.room)
        elif any(self.room.iterdir()):
            raise LeftOut
        self.given = body
        self.status, self.put = self.call(words, body)

    def ends(self, status):
        if self.status != int(status):
            raise Differs(f"the status is {self.status}, and {status} is due")

    def output(self, status, body):
        compare(body, self.put)
        self.ends(status)

    def holds(self, number, body):
        if not self.is_stored:
            raise LeftOut
        there = self.disk(number).read_bytes() if self.disk(number).exists() else b""
        if there != body:
            raise Differs(f"disk {number} holds other bytes than are due")

    def has(self, body):
        lines = collections.Counter(self.put.split(b"\n"))
        for line in body.splitlines():
            if lines[line] != 1:
                raise Differs(f"the line {line.decode('ascii', 'replace')!r} stands there {lines[line]} times")

    def orders(self, rest):
        order = re.search(rb"^order (.*)$", self.put, re.M)
        there = [attempt.split(b".")[0].decode() for attempt in order[1].split(b" ")] if order else []
        for tx in rest.split(" "):
            if there.count(tx) != 1:
                raise Differs(f"transaction {tx} stands {there.count(tx)} times in the order")

    def again(self):
        commands = b"".join(line.split(b" => ")[0] + b"\n" for line in self.put.split(b"\n") if b" => " in line)
        compare(self.put, self.call(["replay"], scenario_of(self.given) + b"commands\n" + commands)[1])

    def audit(self, status, body):
        text = scenario_of(self.given) + b"printed\n" + self.put
        text = text.replace(self.old, self.new, 1) if self.old else text
        self.old = self.new = b""
        ended, put = self.call(["audit"], text)
        compare(body, put)
        if ended != int(status):
            raise Differs(f"the status of the audit is {ended}, and {status} is due")

    def play(self, words, body):
        """Does what a section asks for."""
        what, _, rest = words.partition(" ")
        if what == "disk":
            self.disk(rest).write_bytes(body)
        elif what == "zeros":
            number, count = rest.split(" ")
            self.disk(number).write_bytes(bytes(int(count)))
        elif what in ("run", "output", "holds", "audit"):
            getattr(self, what)(rest, body)
        elif what == "exit":
            self.ends(rest)
        elif what == "begins":
            compare(body, b"".join(self.put.splitlines(True)[:body.count(b"\n")]))
        elif what == "has":
            self.has(body)
        elif what == "orders":
            self.orders(rest)
        elif what == "again":
            self.again()
        elif what == "replace":
            self.old = body
        elif what == "by":
            self.new = body
        elif what in INSIDE:
            raise LeftOut
        elif what not in ("case", "sweep"):
            raise Differs("no such header")


def played(program, case):
    """What is wrong with a case; None where it passes, and nothing where it is left out."""
    with tempfile.TemporaryDirectory() as room:
        player = Player(program, pathlib.Path(room))
        try:
            for words, body in case:
                player.play(words, body)
        except LeftOut:
            return ""
        except Differs as why:
            return f"{words}: {why}"
    return None


def play_folder(program, folder, jobs):
    """Plays the cases of a folder or file, prints what differs, and answers whether something does."""
    paths = sorted(folder.glob("*.case")) if folder.is_dir() else [folder]
    cases = [(path, case) for path in paths for case in cases_of(path)]
    if not cases:
        sys.exit(f"play.py: {folder}: no cases there")
    with concurrent.futures.ThreadPoolExecutor(jobs) as pool:
        found = list(pool.map(lambda it: played(program, it[1]), cases))
    left = found.count("")
    bad = [(path, case, why) for (path, case), why in zip(cases, found) if why]
    print(f"{folder.name}: {len(cases)} cases, {len(bad)} differ, {left} left out")
    for path, case, why in bad:
        print(f"  {path.name}, {case[0][0]}: {why}")
    return bool(bad)


def main():
    reader = argparse.ArgumentParser(description=__doc__, formatter_class=argparse.RawDescriptionHelpFormatter)
    reader.add_argument("program", metavar="PROGRAM", help="the program's command line, in one word")
    reader.add_argument("folders", metavar="FOLDER", nargs="*", type=pathlib.Path, help="folders or files of cases")
    reader.add_argument("--jobs", type=int, default=2, metavar="N", help="how many cases run at a time (2)")
    words = reader.parse_args()
    program = shlex.split(words.program)
    if not program or not shutil.which(program[0]):
        sys.exit(f"play.py: {words.program}: no such program")
    folders = words.folders or [DATA / name for name in OF_REPLAY]
    differ = [play_folder(program, folder, words.jobs) for folder in folders]
    sys.exit(1 if any(differ) else 0)


if __name__ == "__main__":
    main()
