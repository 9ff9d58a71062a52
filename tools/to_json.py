#!/usr/bin/env python3
"""Prints a run as JSON, an object on each line, or as a log that ShiViz draws.

A line of the run is an object with
  line      its number, from 1
  actor     0 for the coordinator, 1 to 8 for a site
  command   the command, and `word`, its first word
  answer    what was answered, without the places of what was sent
  attempt   the attempt that the line is about, as "1.0", or null
  takes     the message that the line takes, as {"way": "to" or "from", "site": S, "place": I, "sent_at": its line}, or null where
            it takes none or none was sent yet
  sends     the messages that it sends, likewise with `taken_at`, the lines that take each of them
  closing   whether the line comes of closing the session or behind it, or null for a run in threads that doesn't show it
A line of the report is an object with `report`, its first word, and `words`, those behind it.

With --shiviz each line of the run is an event with its vector clock: it comes behind the last line of its own actor and behind the line
that sent the message that it takes. ShiViz reads this with its default parser: (?<host>\\S*) (?<clock>{.*})\\n(?<event>.*)

example: tools/to_json.py examples/transfer.fed examples/transfer.out
"""
import argparse
import json

from mdblines import read_run
from mdbtext import told


def message(sent, more):
    """A message by its channel, with the lines at its other end."""
    way, site, place = sent
    return {"way": way, "site": site, "place": place, **more}


def line_object(run, line):
    takes = None
    if line.takes is not None:
        takes = message(line.takes, {"sent_at": run.sent[line.takes].number})
    return {
        "line": line.number,
        "actor": line.actor,
        "command": line.command,
        "word": line.word,
        "answer": line.answer,
        "attempt": line.attempt,
        "takes": takes,
        "sends": [message(sent, {"taken_at": [it.number for it in run.taken.get(sent, [])]}) for sent in line.sends],
        "closing": None if run.commanded is None else line.number > run.commanded,
    }


def objects(run):
    """An object for each line of the output."""
    for line in run.lines:
        yield line_object(run, line)
    for text in run.report:
        words = text.split(" ")
        yield {"report": words[0], "words": words[1:]}


def host(actor):
    return f"site{actor}" if actor else "coordinator"


def events(run):
    """Two lines for each line of the run: its actor with its vector clock, and what happened."""
    clocks, seen = {}, {}
    for line in run.lines:
        clock = clocks.setdefault(line.actor, {})
        source = run.sent.get(line.takes)
        for actor, count in (seen[source.number] if source else {}).items():
            clock[actor] = max(clock.get(actor, 0), count)
        clock[line.actor] = clock.get(line.actor, 0) + 1
        seen[line.number] = dict(clock)
        yield f"{host(line.actor)} " + json.dumps({host(actor): clock[actor] for actor in sorted(clock)})
        yield line.text


def main():
    reader = argparse.ArgumentParser(description=__doc__, formatter_class=argparse.RawDescriptionHelpFormatter)
    reader.add_argument("session", metavar="SESSION", help="the input that the run was made of")
    reader.add_argument("output", metavar="OUTPUT", help="what the program printed for it")
    reader.add_argument("--shiviz", action="store_true", help="print events with vector clocks, as ShiViz reads them")
    words = reader.parse_args()
    run = read_run(words.session, words.output)
    for line in events(run) if words.shiviz else map(json.dumps, objects(run)):
        print(line)


if __name__ == "__main__":
    told(main)
