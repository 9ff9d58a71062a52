#!/usr/bin/env python3
"""Changes what files of cases want, a number, a status or a line at a time, and plays each changed file: it must be refused.

PLAYER is the built program of crates/cases, which plays the folders that lie where it runs. A line is printed for each change that passes, and
one at the end. A change of a number that is a least count, or into what is right as well, passes by right. It is no part of the
gate. The status is 0 where no change passes.

example: tools/wrong_cases.py crates/cases/out/cases crates/cases/data/disks/bytes.case
"""
import argparse
import pathlib
import re
import shutil
import subprocess
import sys
import tempfile

COUNTED = ("sweep", "output", "exit", "audit", "orders")
SPELLED = ("output", "audit", "has", "holds")


def numbers_changed(lines, at):
    """The line with each of its numbers one greater."""
    for number in re.finditer(r"\d+", lines[at]):
        yield lines[at][:number.start()] + str(int(number[0]) + 1) + lines[at][number.end():]


def changed(lines):
    """Each changed text, with the place of the line that is changed, and what it is changed into."""
    what = ""
    for at, line in enumerate(lines):
        if line.startswith("--- "):
            what = line[4:].split(" ")[0]
            others = [[other] for other in numbers_changed(lines, at)] if what in COUNTED and " < " not in line else []
        elif what in SPELLED and line:
            wanted, sign, remark = line.partition("  #") if what == "holds" else (line, "", "")
            others = [[wanted[:-1] + ("0" if wanted[-1] != "0" else "1") + sign + remark]] + [[]] * (what == "output")
        else:
            others = []
        for other in others:
            yield at, other, lines[:at] + other + lines[at + 1:]


def passes(player, folder, lines):
    """Whether the player passes these lines, beside the files of their folder that aren't cases."""
    with tempfile.TemporaryDirectory() as room:
        one = pathlib.Path(room, "one")
        one.mkdir()
        for file in folder.iterdir():
            if file.suffix != ".case":
                shutil.copy(file, one)
        (one / "a.case").write_text("\n".join(lines))
        ran = subprocess.run([player], cwd=room, stdout=subprocess.PIPE, timeout=120, check=False)
    return ran.returncode == 0


def main():
    reader = argparse.ArgumentParser(description=__doc__, formatter_class=argparse.RawDescriptionHelpFormatter)
    reader.add_argument("player", metavar="PLAYER", type=pathlib.Path, help="the built program")
    reader.add_argument("files", metavar="FILE", nargs="+", type=pathlib.Path, help="files of cases")
    words = reader.parse_args()
    tried = passed = 0
    for file in words.files:
        for at, other, lines in changed(file.read_text(encoding="ascii").split("\n")):
            tried += 1
            if passes(words.player.resolve(), file.parent, lines):
                passed += 1
                print(f"{file}:{at + 1} passes {'as ' + repr(other[0]) if other else 'without it'}")
    print(f"{tried} changes, {passed} pass")
    sys.exit(1 if passed else 0)


if __name__ == "__main__":
    main()
