#!/usr/bin/env python3
"""Checks a crate from nothing, over the libraries that a gate has built in this checkout, and lists which modules of its proof took long. It is
no part of the gate.

usage: bench/modules.py [--most SECONDS] [--rows ROWS] CRATE
       bench/modules.py --words CRATE

`rt ci` leaves what it built in crates/NAME/out/rlib, so run it here first, on the same files below the crate. The check has one job, and a module
is what the prover did between the file that it keeps of it and the one before, in processor seconds. The dearest ROWS modules are listed, by
default 20. Of a function F

  F.Lts      is its bookkeeping: loans, and the drop of each value that is alive where F may end
  F.Proof    is its goals
  F.Layout   is the layout of its values

The status is 1 where the crate isn't proved, and where the bookkeeping of a function took more than SECONDS, by default 10. With --words nothing is
checked, and the words of such a check are printed, one a line.
"""
import argparse
import bisect
import collections
import os
import pathlib
import re
import subprocess
import sys
import tempfile
import time

TOP = pathlib.Path(__file__).resolve().parent.parent
# How often the processor time of a check is looked at, in seconds.
EVERY = 0.05
BOOKKEEPING = "Lts"
KINDS = (BOOKKEEPING, "Proof", "Layout", "Goals", "Tie", "Met")


def kit():
    """The folder of the kit."""
    return pathlib.Path(subprocess.run(["rt", "doc"], stdout=subprocess.PIPE, text=True, check=True).stdout.strip()).parent


def stands_on():
    """Each crate of crates.txt with those that it stands on, of the kit too."""
    lines = [line.split("#")[0] for line in (TOP / "crates.txt").read_text().splitlines()]
    return {line.split(":")[0].split()[0]: line.split(":")[1].split() for line in lines if ":" in line}


def below(name, uses):
    """The crates of the repository that this one stands on, however far down, lowest first."""
    found = []
    for dep in uses[name]:
        found += [it for it in ([*below(dep, uses), dep] if dep in uses else []) if it not in found]
    return found


def library(name):
    """The folder of a library that a gate has built."""
    folder = TOP / "crates" / name / "out/rlib"
    if not (folder / f"{name}.rlib").is_dir():
        sys.exit(f"modules: no gate has built {name} here: run `rt ci` at the top")
    return folder


def words_of(name):
    """The words of a check of a crate at one job, which runs in the crate's folder."""
    uses, home = stands_on(), kit()
    if name not in uses:
        sys.exit(f"modules: crates.txt has no crate {name}")
    is_program = (TOP / "crates" / name / "src/main.rt").exists()
    words = [home / "bin/rattle", "check", "--crate-name", name, "src/main.rt" if is_program else "src/lib.rt"]
    for dep in ["std", *uses[name]]:
        folder = library(dep) if dep in uses else home / "rlibs"
        words += ["--extern", f"{dep}={folder}/{dep}.rlib"]
    for folder in [home / "rlibs", *map(library, below(name, uses))]:
        words += ["-L", f"dependency={folder}"]
    words += ["--antt-project", home / "rattle/logic/antt-project.json", "--logic-built", home / "logic_built", "--jobs", "1"]
    return [str(it) for it in words]


def spent(number):
    """The processor seconds of a process, and of what it waited for."""
    fields = pathlib.Path(f"/proc/{number}/stat").read_text().rpartition(")")[2].split()
    return sum(map(int, fields[11:15])) / os.sysconf("SC_CLK_TCK")


def checked(name, folder):
    """Checks a crate, keeps what it proved in this folder, and tells how many processor seconds it had taken at many moments."""
    moments = []
    with tempfile.TemporaryFile("w+", errors="replace") as said:
        line = [*words_of(name), "--incremental", folder]
        ran = subprocess.Popen(line, cwd=TOP / "crates" / name, stdin=subprocess.DEVNULL, stdout=said, stderr=subprocess.STDOUT)
        while ran.poll() is None:
            moments.append((time.time(), spent(ran.pid)))
            time.sleep(EVERY)
        said.seek(0)
        lines = said.read().splitlines() or [f"status {ran.returncode}"]
    print("\n".join(lines[-20 if ran.returncode else -1 :]), flush=True)
    if ran.returncode:
        sys.exit(1)
    return moments


def modules_in(folder, moments):
    """The processor seconds and the name of each module that a check has kept there, the dearest first."""
    found, before = [], 0.0
    for moment, name in sorted((file.stat().st_mtime, file.name) for file in pathlib.Path(folder).rglob("*.oantt")):
        now = moments[min(bisect.bisect(moments, (moment,)), len(moments) - 1)][1]
        found.append((now - before, re.sub(r"^Rattle-[a-z_0-9]+-|\.oantt$", "", name)))
        before = now
    return sorted(found, reverse=True)


def kind_of(module):
    """Which part of a function's proof a module is, as in F.Lts or F.Proof.decls."""
    return next((it for it in reversed(module.split(".")) if it in KINDS), "lemmas and others")


def main():
    reader = argparse.ArgumentParser(description=__doc__, formatter_class=argparse.RawDescriptionHelpFormatter)
    reader.add_argument("--most", type=float, default=10.0, metavar="SECONDS")
    reader.add_argument("--rows", type=int, default=20, metavar="ROWS")
    reader.add_argument("--words", action="store_true")
    reader.add_argument("crate", metavar="CRATE")
    asked = reader.parse_args()
    if asked.words:
        print("\n".join(words_of(asked.crate)))
        return 0
    with tempfile.TemporaryDirectory() as folder:
        moments = checked(asked.crate, folder)
        modules = modules_in(folder, moments)
    kinds = collections.Counter()
    for spent, module in modules:
        kinds[kind_of(module)] += spent
    print(f"{sum(kinds.values()):.0f} s:", ", ".join(f"{kind} {spent:.0f}" for kind, spent in kinds.most_common()))
    for spent, module in modules[: asked.rows]:
        print(f"{spent:8.1f}  {module}")
    dear = [module for spent, module in modules if kind_of(module) == BOOKKEEPING and spent > asked.most]
    for module in dear:
        print(f"{module} took more than {asked.most:g} seconds")
    return 1 if dear else 0


if __name__ == "__main__":
    sys.exit(main())
