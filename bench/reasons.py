#!/usr/bin/env python3
"""Gives the program and tools/why.py the same spoiled inputs, and compares the reasons. It is no part of the gate.

usage: bench/reasons.py [--times N] [--seed N] PROGRAM

PROGRAM is the built `mdbfed`. The inputs are the sessions of examples/ for `replay`, and the scenarios of the same
sessions with their outputs for `audit`. Each is spoiled in one to three places: a byte, a word or a line is changed,
taken out, put in twice or put elsewhere. Each input for which the two name another first bad line or another reason
is printed with both answers, and the status is then 1.
"""
import argparse
import pathlib
import random
import subprocess
import sys

TOP = pathlib.Path(__file__).resolve().parent.parent
sys.path.insert(0, str(TOP / "tools"))
from mdbtext import BadLine, place_of_printed, read_audited, read_session, told

BYTES = b" \t\r\n.:/-09aA\x00\x7f\xff"
WORDS = (
    b"", b"0", b"9", b"00", b"-1", b"65536", b"18446744073709551616", b"1.0", b"1.32", b"0.1", b"1.", b"get", b"get:", b"get:1", b"set:1",
    b"add:1:0:1", b"add:1:31:1", b"1/get", b"9/get:1", b"1/", b"hold:65", b"hold:", b"twice", b"commands", b"printed", b"site", b"order",
)


def spoiled_bytes(data, draw):
    at, some = draw.randrange(len(data) + 1), bytes([draw.choice(BYTES)])
    return draw.choice((data[:at] + some + data[at:], data[:at] + some + data[at + 1 :], data[:at] + data[at + 1 :]))


def spoiled_parts(parts, draw, others):
    """One part more, less, twice, another one, or elsewhere."""
    at, to = draw.randrange(len(parts)), draw.randrange(len(parts))
    part = parts[at]
    rest = parts[:at] + parts[at + 1 :]
    return draw.choice((rest, parts[:at] + [part] + parts[at:], rest[:to] + [part] + rest[to:], rest[:to] + [draw.choice(others)] + rest[to:]))


def spoiled(data, draw):
    """The input with one to three places changed."""
    for _ in range(draw.randrange(1, 4)):
        lines = data.split(b"\n")
        at = draw.randrange(len(lines))
        word_changed = b" ".join(spoiled_parts(lines[at].split(b" "), draw, WORDS))
        ways = (spoiled_bytes(data, draw), b"\n".join(spoiled_parts(lines, draw, lines)), b"\n".join(lines[:at] + [word_changed] + lines[at + 1 :]))
        data = draw.choice(ways)
    return data


def reason_of_tools(word, data):
    """What why.py finds: the line and its reason, or nothing."""
    try:
        read_session(data) if word == "replay" else read_audited(data)
    except BadLine as bad:
        return f"bad line {bad.line} {bad.reason}"
    return ""


def reason_of_program(program, word, data):
    """What the program finds: the line and its reason, or nothing; of another end its status."""
    ran = subprocess.run([program, word], input=data, stdout=subprocess.PIPE, stderr=subprocess.PIPE, check=False)
    if ran.returncode not in (0, 2, 9):
        return f"status {ran.returncode}"
    return ran.stdout.decode("ascii", "replace").strip() if ran.returncode == 2 else ""


def inputs():
    """The inputs, each with the program's word."""
    for session in sorted((TOP / "examples").glob("*.fed")):
        data = session.read_bytes()
        yield "replay", data
        yield "audit", data.partition(b"commands\n")[0] + b"printed\n" + session.with_suffix(".out").read_bytes()


def main():
    reader = argparse.ArgumentParser(description=__doc__, formatter_class=argparse.RawDescriptionHelpFormatter)
    reader.add_argument("--times", metavar="N", type=int, default=4000, help="how many inputs there are, by default 4,000")
    reader.add_argument("--seed", metavar="N", type=int, default=1, help="what they are drawn from")
    reader.add_argument("program", metavar="PROGRAM", help="the built program")
    words = reader.parse_args()
    draw, whole, differ, bad = random.Random(words.seed), list(inputs()), 0, 0
    for _ in range(words.times):
        word, data = draw.choice(whole)
        data = spoiled(data, draw)
        tools, program = reason_of_tools(word, data), reason_of_program(words.program, word, data)
        bad += tools != ""
        if tools != program:
            differ += 1
            print(f"{word}: the tools say `{tools}`, the program `{program}`: {data[: place_of_printed(data)]!r}")
    print(f"{words.times} inputs, {bad} of them bad: {differ} differ")
    sys.exit(1 if differ else 0)


if __name__ == "__main__":
    told(main)
