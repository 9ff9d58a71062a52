#!/usr/bin/env python3
"""Samples the processor time of the checks of a running `rt ci`, prints it by crate and kind, and computes how long that run takes on a few
processors. It is no part of the gate.

usage: bench/gate.py [--every SECONDS] [--lanes N ..] [--memory GB] [--out FILE] [--from FILE | -- COMMAND ..]

COMMAND, by default `rt ci` at the top of the repository, is started, and until it ends the processes below it are looked at each second
(or each SECONDS). A check of a crate is a process of the prover with the children that it forks. The kind of a check is

  proof   what the crate's own proof takes
  tests   the crate once more with its tests
  seed    the crate once more for its must-fail edits, by a check that they begin with
  edit    one must-fail edit
  run     what builds and runs tests and programs

Times are processor seconds, of user and system together, as the kernel counts them; a process that ends between two looks loses what it took
since the last look. A check that `rt ci` takes from what an earlier run kept takes no time and has no row: begin with an empty store, or with
`rt ci --anew`, where the whole is wanted. The table goes to FILE of --out too.

With --from nothing is run, and the table that --out saved is read.

The wall time on N processors (--lanes, by default 2 and 4) is computed from the table by the order in which `rt ci` takes its checks, one
job each: first those with the longest chain of others behind them, by lines; edits where no proof waits; and a check waits while it and
those that run are reckoned with more than 0.85 of the free memory (--memory, by default 24 GB).
"""
import argparse
import collections
import dataclasses
import os
import pathlib
import subprocess
import sys
import time

TOP = pathlib.Path(__file__).resolve().parent.parent
TICK = os.sysconf("SC_CLK_TCK")
KINDS = ("proof", "tests", "seed", "edit", "run")
HEAD = f"{'crate':24}" + "".join(f"{kind:>9}" for kind in KINDS) + f"{'all':>9}"


def processes():
    """Each process: its number, its parent's, its own processor seconds and its words."""
    found = {}
    for name in os.listdir("/proc"):
        if not name.isdigit():
            continue
        try:
            stat = pathlib.Path(f"/proc/{name}/stat").read_text()
            words = pathlib.Path(f"/proc/{name}/cmdline").read_bytes().split(b"\0")
        except OSError:
            continue
        fields = stat.rpartition(")")[2].split()
        found[int(name)] = int(fields[1]), (int(fields[11]) + int(fields[12])) / TICK, [it.decode(errors="replace") for it in words if it]
    return found


def word_after(words, flag):
    return words[words.index(flag) + 1] if flag in words and words.index(flag) + 1 < len(words) else None


def kind_of(words, folder):
    """Which check of a crate a process of the prover is, by its words and the folder that it keeps its work in."""
    name = word_after(words, "--crate-name")
    if name is None:
        return None
    kept = word_after(words, "--incremental") or ""
    if "rt-edits-" in kept or "rt-edits-" in folder or "rt-edit" in folder:
        return name, "seed" if kept.endswith("/seed") else "edit"
    return name, "tests" if "--test" in words else "proof"


def folder_of(number):
    try:
        return os.readlink(f"/proc/{number}/cwd")
    except OSError:
        return ""


def sampled(command, every):
    """Runs the command, and returns the seconds of each check, how long it took, and its status."""
    begun = time.monotonic()
    ran = subprocess.Popen(command, cwd=TOP)
    checks, seconds = {}, {}
    while ran.poll() is None:
        found = processes()
        below = {ran.pid}
        grew = True
        while grew:
            grew = False
            for number, (parent, _, _) in found.items():
                if parent in below and number not in below:
                    below.add(number)
                    grew = True
        for number in below & found.keys():
            parent, spent, words = found[number]
            if number not in checks:
                checks[number] = checks.get(parent) or kind_of(words, folder_of(number))
            seconds[number] = max(spent, seconds.get(number, 0.0))
        time.sleep(every)
    total = collections.defaultdict(float)
    for number, spent in seconds.items():
        total[checks.get(number) or ("rt ci itself", "run")] += spent
    return total, time.monotonic() - begun, ran.returncode


def saved(path):
    """The seconds of each check by a table that was saved."""
    lines = path.read_text().splitlines()
    if lines[0] != HEAD:
        sys.exit(f"gate: {path} is no table of this tool")
    total = {}
    for line in lines[1 : next(at for at, line in enumerate(lines) if line.startswith("minutes "))]:
        figures = [line[24 + 9 * at : 33 + 9 * at].strip() for at in range(len(KINDS))]
        total.update({(line[:24].strip(), kind): float(it) for kind, it in zip(KINDS, figures) if it})
    return total


@dataclasses.dataclass
class Crate:
    """What `rt ci` looks at to put a crate's checks in order."""

    below: list  # those of the repository that it stands on, however far down, lowest first
    lines: int  # of its .rt files
    antt: int  # of its .antt files
    kit: set  # the kit's libraries that it uses itself
    edits: int  # its must-fail edits


def lines_of(folder, ending):
    files = [it for part in ("src", "specs", "proofs") for it in (folder / part).rglob(f"*{ending}")]
    return sum(it.read_bytes().count(b"\n") for it in files)


def crates():
    """Each crate of crates.txt, lowest first."""
    lines = [line.split("#")[0] for line in (TOP / "crates.txt").read_text().splitlines()]
    uses = {line.split(":")[0].split()[0]: line.split(":")[1].split() for line in lines if ":" in line}
    found = {}

    def add(name):
        if name in found:
            return
        below = []
        for it in [it for it in uses[name] if it in uses]:
            add(it)
            below += [more for more in [*found[it].below, it] if more not in below]
        folder = TOP / "crates" / name
        edits = len(list(folder.glob("must-fail/*.edit")))
        found[name] = Crate(below, lines_of(folder, ".rt"), lines_of(folder, ".antt"), {it for it in uses[name] if it not in uses}, edits)

    for name in uses:
        add(name)
    return found


def kit():
    """The folder of the kit."""
    return pathlib.Path(subprocess.run(["rt", "doc"], stdout=subprocess.PIPE, text=True, check=True).stdout.strip()).parent


def memory_of(name, every, libraries):
    """The memory that `rt ci` reckons a check of a crate with, in bytes."""
    crate = every[name]
    used = set().union(*(every[it].kit for it in [name, *crate.below]))
    loaded = sum((libraries / f"{it}.rlib/toolchain/checked.a").stat().st_size for it in used)
    below = sum(every[it].lines for it in crate.below)
    return 1e9 + 1e6 * crate.lines + 2e5 * crate.antt + 8e4 * below + min(5 * loaded, 2.5e9)


@dataclasses.dataclass
class Task:
    """A check of a whole run."""

    waits: list  # the checks that must have ended
    lines: int
    memory: float
    seconds: float


def tasks_of(total):
    """Each check of a whole run, those of the lowest crates first."""
    every, libraries, tasks = crates(), kit() / "rlibs", {}
    for name, crate in every.items():
        memory, below = memory_of(name, every, libraries), [(it, "proof") for it in crate.below]
        spent = {kind: total.get((name, kind), 0.0) for kind in KINDS}
        own = [(name, "proof"), (name, "tests")]
        tasks[own[0]] = Task(below, crate.lines, memory, spent["proof"])
        tasks[own[1]] = Task(below, crate.lines if spent["tests"] else 0, memory, spent["tests"])
        if crate.edits > 1:
            tasks[name, "seed"] = Task(below, 0, memory, spent["seed"])
            own, memory = [*own, (name, "seed")], 0.7 * memory
        for number in range(crate.edits):
            tasks[name, "edit", number] = Task(own, crate.lines, memory, spent["edit"] / crate.edits)
    return tasks


def in_order(tasks):
    """The checks as `rt ci` takes them: those with the most lines in a chain behind them first, edits and their seeds last."""
    behind = dict.fromkeys(tasks, 0)
    for it in reversed(tasks):
        behind[it] += tasks[it].lines
        for other in tasks[it].waits:
            behind[other] = max(behind[other], behind[it])
    return sorted(tasks, key=lambda it: (fills(it), -behind[it]))


def fills(task):
    """Whether the check is one that fills what the proofs leave free."""
    return task[1] in ("seed", "edit")


def wall_of(tasks, lanes, memory):
    """The seconds in which so many processors do these checks, with so many bytes of memory."""
    left, ends, done, now = in_order(tasks), {}, set(), 0.0
    while left or ends:
        lacks = False
        for it in [it for it in left if done.issuperset(tasks[it].waits)]:
            is_idle, taken = len(ends) < lanes, sum(tasks[other].memory for other in ends)
            if lacks and fills(it):
                break
            if is_idle and (not ends or taken + tasks[it].memory <= memory):
                left.remove(it)
                ends[it] = now + tasks[it].seconds
            else:
                lacks = lacks or is_idle and not fills(it)
        now = min(ends.values())
        done.update(it for it, end in ends.items() if end == now)
        ends = {it: end for it, end in ends.items() if end > now}
    return now


def table(total):
    names = sorted({name for name, _ in total}, key=lambda name: -sum(total.get((name, kind), 0.0) for kind in KINDS))
    lines = [HEAD]
    for name in names:
        row = [total.get((name, kind), 0.0) for kind in KINDS]
        lines.append(f"{name:24}" + "".join(f"{it:9.0f}" if it else f"{'':9}" for it in row) + f"{sum(row):9.0f}")
    sums = [sum(spent for (_, kind), spent in total.items() if kind == wanted) for wanted in KINDS]
    lines.append(f"{'minutes':24}" + "".join(f"{it / 60:9.1f}" for it in sums) + f"{sum(sums) / 60:9.1f}")
    return lines


def computed(total, lanes, memory):
    """The wall time on so many processors each. Tests and programs run at the end, one behind the other."""
    tasks, runs = tasks_of(total), sum(spent for (_, kind), spent in total.items() if kind == "run")
    return [f"on {count} processors: {(wall_of(tasks, count, memory) + runs) / 60:.0f} minutes, computed" for count in lanes]


def main():
    words = sys.argv[1:]
    at = words.index("--") if "--" in words else len(words)
    reader = argparse.ArgumentParser(description=__doc__, formatter_class=argparse.RawDescriptionHelpFormatter)
    reader.add_argument("--every", type=float, default=1.0, metavar="SECONDS")
    reader.add_argument("--lanes", type=int, nargs="*", default=[2, 4], metavar="N")
    reader.add_argument("--memory", type=float, default=24.0, metavar="GB")
    reader.add_argument("--out", type=pathlib.Path, metavar="FILE")
    reader.add_argument("--from", type=pathlib.Path, metavar="FILE", dest="table")
    asked = reader.parse_args(words[:at])
    if asked.table:
        total, took, status = saved(asked.table), [], 0
    else:
        total, wall, status = sampled(words[at + 1 :] or ["rt", "ci"], asked.every)
        took = [f"wall: {wall / 60:.1f} minutes"]
    text = "\n".join([*table(total), *took, *computed(total, asked.lanes, 0.85e9 * asked.memory)])
    print(text)
    if asked.out:
        asked.out.write_text(text + "\n")
    return status


if __name__ == "__main__":
    sys.exit(main())
