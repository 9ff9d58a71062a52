#!/usr/bin/env python3
"""Runs a program on conformance cases and compares what it prints and its exit status. README.md beside this file says what a case is.

PROGRAM is a command line, as "crates/mdbfed/out/mdbfed" or "python3 mine.py"; a case's words are put behind it. Without a FOLDER it runs the
folders of the word `replay`. It prints a line for each folder, and below it the cases that differ, with the first line that does. The status
is 0 where none differs.

example: conformance/run.py crates/mdbfed/out/mdbfed
         conformance/run.py "python3 mine.py" conformance/whole conformance/audit
"""
import argparse
import concurrent.futures
import pathlib
import re
import shlex
import shutil
import subprocess
import sys
import tempfile

HERE = pathlib.Path(__file__).resolve().parent
OF_REPLAY = ("locking", "globals", "stops", "engines", "whole")
SECONDS = 120
EDGES = re.compile(rb"( cycle)(?: \d+\.\d+>\d+\.\d+@\d+)+")


def disks(path):
    """The bytes of the nine disks of a file of lines `disk N HEX`."""
    found = {}
    for line in path.read_text(encoding="ascii").splitlines():
        _, number, *more = line.split(" ")
        found[int(number)] = bytes.fromhex("".join(more))
    return [found[number] for number in range(9)]


def beside(case, suffix):
    return case.with_name(case.name + suffix)


def status_of(case):
    """The exit status that is due: 0 where none is said."""
    path = case.parent / "status" / case.name
    return int(path.read_text()) if path.exists() else 0


def first_difference(wanted, printed):
    """The first line that differs, but for the edges of a cycle, which are free; or None."""
    wanted, printed = (EDGES.sub(rb"\1", text).split(b"\n") for text in (wanted, printed))
    for number, (due, is_there) in enumerate(zip(wanted + [None], printed + [None]), 1):
        if due != is_there:
            said = ["nothing" if line is None else repr(line[:100].decode("ascii", "replace")) for line in (due, is_there)]
            return f"line {number} is {said[1]}, and {said[0]} is due"
    return None


def compared(case, ran):
    """What is wrong with a run of a case, or None."""
    wrong = first_difference(beside(case, ".stdout").read_bytes(), ran.stdout)
    if wrong is None and ran.returncode != status_of(case):
        return f"the status is {ran.returncode}, and {status_of(case)} is due"
    return wrong


def tried_disks(program, case):
    """A case of `resume`: nine disks in a folder, and what they are afterwards."""
    with tempfile.TemporaryDirectory() as folder:
        files = [pathlib.Path(folder, f"disk{number}") for number in range(9)]
        for file, data in zip(files, disks(case)):
            file.write_bytes(data)
        ran = subprocess.run([*program, "resume", folder], stdin=subprocess.DEVNULL, stdout=subprocess.PIPE, timeout=SECONDS, check=False)
        wrong, after = compared(case, ran), beside(case, ".after")
        if wrong is None and after.exists():
            bad = [str(number) for number, (file, due) in enumerate(zip(files, disks(after))) if file.read_bytes() != due]
            return f"the disks {' '.join(bad)} hold other bytes than are due" if bad else None
        return wrong


def tried(program, case):
    """What is wrong with a case, or None."""
    words = beside(case, ".args")
    try:
        if not words.exists():
            return tried_disks(program, case)
        with case.open("rb") as source:
            line = [*program, *words.read_text().splitlines()]
            ran = subprocess.run(line, stdin=source, stdout=subprocess.PIPE, timeout=SECONDS, check=False)
        return compared(case, ran)
    except subprocess.TimeoutExpired:
        return f"it isn't done in {SECONDS} seconds"


def run_folder(program, folder, jobs):
    """Runs the cases of a folder, prints what differs, and answers whether something does."""
    cases = sorted(path.with_suffix("") for path in folder.glob("*.stdout"))
    if not cases:
        sys.exit(f"run.py: {folder}: no cases there")
    with concurrent.futures.ThreadPoolExecutor(jobs) as pool:
        found = dict(zip(cases, pool.map(lambda case: tried(program, case), cases)))
    bad = {case: wrong for case, wrong in found.items() if wrong}
    print(f"{folder.name}: {len(cases)} cases, {len(bad)} differ")
    for case, wrong in bad.items():
        print(f"  {case.name}: {wrong}")
    return bool(bad)


def main():
    reader = argparse.ArgumentParser(description=__doc__, formatter_class=argparse.RawDescriptionHelpFormatter)
    reader.add_argument("program", metavar="PROGRAM", help="the program's command line, in one word")
    reader.add_argument("folders", metavar="FOLDER", nargs="*", type=pathlib.Path, help="folders of cases")
    reader.add_argument("--jobs", type=int, default=2, metavar="N", help="how many cases run at a time (2)")
    words = reader.parse_args()
    program = shlex.split(words.program)
    if not program or not shutil.which(program[0]):
        sys.exit(f"run.py: {words.program}: no such program")
    folders = words.folders or [HERE / name for name in OF_REPLAY]
    differ = [run_folder(program, folder, words.jobs) for folder in folders]
    sys.exit(1 if any(differ) else 0)


if __name__ == "__main__":
    main()
