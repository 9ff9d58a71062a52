#!/usr/bin/env python3
"""Counts what each attempt of a run costs: messages sent, records appended to journals, and forced writes.

A forced write is a sync, for which the actor waits. Which records a protocol forces stands in docs/RULES.md (sections
6, 8 and 9). They are derived from the printed lines, also those of a line in which an actor stops. Messages of work,
tickets, commitment and inquiries count alike, each as often as it is sent, also where it is lost. An attempt of a
global transaction counts to the protocol of its sites, or to `mixed` where they differ. What no attempt has caused
stands last: the set-up of sites, starts and Checkpoints.

The lines of closing count too; with --commands those of the session's commands alone.

example: tools/costs.py examples/presumptions.fed examples/presumptions.out
"""
import argparse

from mdbdisks import Disks
from mdblines import read_run
from mdbstate import attempts
from mdbtext import Wrong, told

HEAD = ("messages", "appended", "forced")
CLASSES = ("nothing", "abort", "commit", "mixed", "local")


def class_of(run, attempt):
    """The protocol of an attempt's sites, or `mixed`; `local` of a local transaction."""
    steps = run.session.globals.get(int(attempt.split(".")[0]))
    if steps is None:
        return "local"
    protocols = {run.session.sites[site][1] for site, _ in steps}
    return protocols.pop() if len(protocols) == 1 else "mixed"


def cost_of(line, calls):
    """The messages, appends and syncs of a line."""
    return [len(line.sends), *(sum(call[0] == name for call in calls) for name in ("append", "sync"))]


def added(costs, key, cost):
    costs[key] = [old + new for old, new in zip(costs.get(key, [0, 0, 0]), cost)]


def costs_of(run, count):
    """What each attempt costs in the first lines. All else is under None, with each set-up: two records, a sync."""
    disks = Disks(run).go_to(count)
    costs = {None: [0, 2 * len(run.session.sites), len(run.session.sites)]}
    for line, calls in zip(run.lines, disks.costs):
        own = line.word not in ("back", "check", "trip", "halt") and line.attempt
        added(costs, own or None, cost_of(line, calls))
    return costs


def outcome_of(run, attempt):
    """How an attempt ended by the report. A local one is committed where it stands in the order."""
    if attempt in run.outcomes:
        return run.outcomes[attempt]
    return "commit" if attempt in run.report[0].split(" ")[1:] else "abort"


def rows(run, costs):
    """The rows to print, each as its words."""
    yield ("attempt", "protocol", "outcome", *HEAD)
    sums = {}
    for attempt in attempts(name for name in costs if name):
        kind, outcome = class_of(run, attempt), outcome_of(run, attempt)
        yield (attempt, kind, outcome, *map(str, costs[attempt]))
        added(sums, (kind, outcome), costs[attempt])
        added(sums, (kind, outcome, "attempts"), [1, 0, 0])
    for kind in CLASSES:
        for outcome in ("commit", "abort"):
            if (kind, outcome) in sums:
                how_many = sums[kind, outcome, "attempts"][0]
                yield (f"{how_many} of", kind, outcome, *map(str, sums[kind, outcome]))
    yield ("others", "-", "-", *map(str, costs[None]))
    yield ("all", "-", "-", *(str(sum(column)) for column in zip(*costs.values())))


def main():
    reader = argparse.ArgumentParser(description=__doc__, formatter_class=argparse.RawDescriptionHelpFormatter)
    reader.add_argument("session", metavar="SESSION", help="the input that the run was made of")
    reader.add_argument("output", metavar="OUTPUT", help="what the program printed for it")
    reader.add_argument("--commands", action="store_true", help="count the commands alone, without closing")
    words = reader.parse_args()
    run = read_run(words.session, words.output)
    if words.commands and run.commanded is None:
        raise Wrong(f"{words.output}: this run in threads doesn't show where closing begins")
    table = list(rows(run, costs_of(run, run.commanded if words.commands else len(run.lines))))
    widths = [max(map(len, column)) for column in zip(*table)]
    for row in table:
        words_left = [word.ljust(width) for word, width in zip(row[:3], widths)]
        print("  ".join(words_left + [word.rjust(width) for word, width in zip(row[3:], widths[3:])]))


if __name__ == "__main__":
    told(main)
