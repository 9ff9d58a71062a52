#!/usr/bin/env python3
"""Measures the built program at a quarter, half and the whole of its limits. It is no part of the gate.

usage: bench/replay.py [--instructions | --plain] [PROGRAM]

PROGRAM is the built `mdbfed`, by default the one that `rt run` leaves in crates/mdbfed/out. Each input is made here, the same at each
run. Each is timed, the best of three runs, with what one byte of input costs; with --instructions they are counted in place of timed, by
valgrind's callgrind, which gives the same number at each run. With --plain the inputs of bench/plain.txt are counted in place of these,
beside what a program without proofs takes for the same work, and with how much a larger input takes of a smaller one. Of the inputs that
are made here there are four kinds:

  examples   the files of examples/
  read       a text of every kind of line at its limits (8 sites of 4,096 items, 1,024 transactions of 32 steps, 4,096 link lines,
             65,536 commands; some 3.5 MB), whose last line is bad, so that it is read to its end and refused
  replay     one locking site with 4,096 items and 1,024 local transactions of 32 steps, begun and carried out one after another
  ENGINE     one site of each engine, and 1,000 local transactions of 8 steps over 4,000 keys that contend: 65,000 commands in random order
"""
import pathlib
import random
import re
import subprocess
import sys
import time

TOP = pathlib.Path(__file__).resolve().parent.parent
LIMIT = 4_194_304
ENGINES = ("locking", "timestamp", "validation", "multiversion")
PARTS = {"1/4": 0.25, "1/2": 0.5, "whole": 1.0}


def read_input(part):
    """Every kind of line at this part of its limit, and a bad line at the end."""
    lines = []
    for site in range(1, 9):
        lines.append(f"site {site} {('locking', 'timestamp', 'validation')[site % 3]} {('nothing', 'abort', 'commit')[site % 3]}")
        for key in range(int(4096 * part)):
            lines.append(f"item {site} {key} {10**19 + key}")
    for tx in range(1, int(1024 * part) + 1):
        steps = [f"{1 + (tx + i) % 8}/get:{i}" if i == 0 else f"{1 + (tx + i) % 8}/add:{60_000 + i}:0:{10**19 + tx}" for i in range(32)]
        lines.append(f"global {tx} " + " ".join(steps))
    for place in range(int(4096 * part)):
        lines.append(f"link to {1 + place % 8} {place} hold:{1 + place % 64}")
    lines.append("commands")
    for i in range(int(65_536 * part) - 1):
        lines.append((f"give {1 + i % 8} {i}", f"take {1 + i % 8} {i}", f"again {1 + i % 1024}.{i % 32}", f"trip {i % 9} {i % 1000} {i % 65536}")[i % 4])
    lines.append("end")
    text = "\n".join(lines) + "\n"
    assert len(text) <= LIMIT, len(text)
    return text.encode()


def replay_input(part):
    """One site, and transactions that are carried out one after another."""
    lines = ["site 1 locking abort"]
    for key in range(int(4096 * part)):
        lines.append(f"item 1 {key} {key * 7919}")
    count = int(1024 * part)
    for tx in range(1, count + 1):
        steps = [f"get:{(tx * 31 + i) % 4096}" if i % 2 == 0 else f"add:{(tx * 31 + i - 1) % 4096}:{i // 2}:{tx}" for i in range(32)]
        lines.append(f"local {tx} 1 " + " ".join(steps))
    lines.append("commands")
    for tx in range(1, count + 1):
        lines += [f"begin {tx}"] + [f"step {tx}"] * 32 + [f"commit {tx}"]
    return ("\n".join(lines) + "\n").encode()


def contended_input(engine, part):
    """One site, and transactions that contend: each command is of a random one."""
    draw = random.Random(20_250)
    count = int(1000 * part)
    lines = [f"site 1 {engine} abort"]
    for tx in range(1, count + 1):
        steps = [f"{'get' if draw.random() < 0.5 else 'set'}:{draw.randrange(int(4000 * part))}" for _ in range(8)]
        lines.append(f"local {tx} 1 " + " ".join(step if step.startswith("get") else f"{step}:{tx}" for step in steps))
    lines.append("commands")
    words = ["begin"] + ["step"] * 8 + ["commit"]
    lines += [f"{draw.choice(words)} {draw.randint(1, count)}" for _ in range(int(65_000 * part))]
    return ("\n".join(lines) + "\n").encode()


def instructions(program, words, text, want):
    """How many instructions one run with these words takes."""
    ran = subprocess.run(
        ["valgrind", "--tool=callgrind", "--callgrind-out-file=/dev/null", program, *words],
        input=text, stdout=subprocess.PIPE, stderr=subprocess.PIPE, timeout=3600, check=False,
    )
    if ran.returncode != want:
        sys.exit(f"status {ran.returncode} in place of {want}: {ran.stdout[:80]!r}")
    return int(re.search(rb"Collected : (\d+)", ran.stderr).group(1))


def best(program, text, want):
    """The seconds of the best of three runs."""
    times = []
    for _ in range(3):
        start = time.perf_counter()
        ran = subprocess.run([program, "replay"], input=text, stdout=subprocess.PIPE, timeout=600, check=False)
        times.append(time.perf_counter() - start)
        if ran.returncode != want:
            sys.exit(f"status {ran.returncode} in place of {want}: {ran.stdout[:80]!r}")
    return min(times)


def inputs():
    """The kind, the part, the text and the status of each input."""
    for path in sorted((TOP / "examples").glob("*.fed")):
        yield "examples", path.name, path.read_bytes(), 0
    for label, part in PARTS.items():
        yield "read", label, read_input(part), 2
    for label, part in PARTS.items():
        yield "replay", label, replay_input(part), 0
    for engine in ENGINES:
        for label in ("1/4", "whole"):
            yield engine, label, contended_input(engine, PARTS[label]), 0


def plain_rows():
    """The rows of bench/plain.txt: an input, the instructions of the plain program, and the smaller input that it is compared with, or none."""
    for line in (TOP / "bench/plain.txt").read_text().splitlines():
        if line and not line.startswith("#"):
            name, taken, *smaller = re.split(r"\s{2,}", line)
            yield name, int(taken), smaller[0] if smaller else None


def plain_input(name):
    """The words and the input of a row."""
    if name.startswith("session"):
        return ["replay"], (TOP / "bench/sessions" / name).read_bytes()
    if name.startswith("contended"):
        return ["replay"], contended_input("locking", PARTS[name.split()[1]])
    return name.split(), b""


def beside_plain(program):
    """Prints each row, and behind a larger input how much it takes of the smaller one."""
    taken, plain = {}, {}
    for name, figure, smaller in plain_rows():
        words, text = plain_input(name)
        plain[name], taken[name] = figure, instructions(program, words, text, 0)
        print(f"{name:20} {taken[name]:14,} instructions, plain {figure:14,}: {taken[name] / figure:.2f} times", flush=True)
        if smaller:
            print(f"{'':20} {taken[name] / taken[smaller]:.2f} times {smaller}, plain {figure / plain[smaller]:.2f}", flush=True)


def main():
    words = sys.argv[1:]
    counted = "--instructions" in words
    beside = "--plain" in words
    words = [word for word in words if word not in ("--instructions", "--plain")]
    program = pathlib.Path(words[0]) if words else TOP / "crates/mdbfed/out/mdbfed"
    if not program.exists():
        sys.exit(f"no program at {program}: build it with `rt run` in crates/mdbfed, or name it")
    if beside:
        beside_plain(str(program))
        return
    for kind, label, text, want in inputs():
        head = f"{kind:13} {label:24} {len(text):9} bytes"
        if counted:
            taken = instructions(str(program), ["replay"], text, want)
            print(f"{head}  {taken:14,} instructions", flush=True)
        else:
            taken = best(str(program), text, want)
            print(f"{head}  {taken * 1000:9.1f} ms  {taken / len(text) * 1e9:9.1f} ns a byte", flush=True)


main()
