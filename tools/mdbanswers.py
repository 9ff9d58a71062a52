#!/usr/bin/env python3
"""What an answer means: which message it sends, which record it writes, and whether that is forced (docs/RULES.md, sections 6 to 9).

ANSWERS is plain data: the tools read it here, and a page in a browser reads the same as JSON, which this prints as a command. The patterns
are ones that Python and JavaScript read alike, each for the whole answer without its sends. The first row that fits counts.

example: tools/mdbanswers.py > answers.json
"""
import argparse
import json
import re

from mdbtext import told

# The decision that a protocol presumes: its site settles by it without a force and without an acknowledgement.
PRESUMED = {"nothing": None, "abort": "abort", "commit": "commit"}
# Command, answer, message, record, when the record is forced, meaning. A message `next` is what is outstanding at its site: Work, Take,
# Prepare or the decision. `reply`, `vote` and `decision` stand for the word that the answer has, and `protocol` for what PRESUMED says.
ANSWERS = (
    ("begin", "begun .*", None, None, None, "a local attempt begins"),
    ("step", "(read|wrote) .*", None, None, None, "a step is done"),
    ("step", "waits .*", None, None, None, "the step waits for another attempt"),
    ("step", "(dies|late) .*", None, None, None, "the engine refuses the step, and the attempt aborts"),
    ("commit", "committed .*", None, "Local", "always", "a local attempt commits"),
    ("commit", "invalid .*", None, None, None, "validation refuses the commit, and the attempt aborts"),
    ("abort", "aborted .*", None, None, None, "a local attempt is aborted"),
    ("drop", "dropped .*", None, None, None, "a site gives a subtransaction up before it is prepared"),
    ("ask", "asks .*", "inquiry", None, None, "a site in doubt asks the coordinator"),
    ("give", "did .*", "reply", None, None, "a site answers an operation"),
    ("give", "votes .* yes .*", "vote", "Prepared", "always", "a site votes yes, and is in doubt from here on"),
    ("give", "votes .* no .*", "vote", None, None, "a site votes no, and the attempt aborts there"),
    ("give", "settles .*", "ack", "Ended", "protocol", "a site in doubt takes the decision"),
    ("give", "unheld .*", "ack", None, None, "a decision about what isn't prepared here"),
    ("go", "begun .*", "next", None, None, "the coordinator begins a global attempt"),
    ("take", "initiates", "next", "Initiation", "always", "the participants are on record before the first Prepare"),
    ("take", "(|defers)", "next", None, None, "a reply counts, and the attempt goes on"),
    ("take", "(answers|presumes) .*", "decision", None, None, "an inquiry is answered"),
    ("take", "voted", None, None, None, "a yes counts, and others are missing"),
    ("take", "acked", None, None, None, "an acknowledgement counts, and others are missing"),
    ("take", "forgets", None, "End", "never", "the last acknowledgement is in, and the attempt is forgotten"),
    ("take", "ignored", None, None, None, "the message doesn't count"),
    ("take", "decides commit.*", "decision", "Commit", "always", "all votes are yes, and the tickets close no cycle"),
    ("take", "decides abort.* forgets", "decision", None, None, "the attempt aborts, and needs no acknowledgement"),
    ("take", "decides abort.*", "decision", "Abort where all presume nothing", "always", "the attempt aborts"),
    ("late", "decides abort.* forgets", "decision", None, None, "the attempt is given up, and needs no acknowledgement"),
    ("late", "decides abort.*", "decision", "Abort where all presume nothing", "always", "the attempt is given up"),
    ("again", "(|defers)", "next", None, None, "what is outstanding is sent anew"),
    ("halt", "stopped .*", None, None, None, "a crash"),
    ("back", "up epoch .*", None, "Start", "always", "a site recovers from its log"),
    ("back", "up known .*", None, None, None, "the coordinator recovers from its log"),
    ("check", "checked", None, "Checkpoint", "always", "the log is summed up, and trimmed before the sum"),
)
FIELDS = ("command", "answer", "message", "record", "forced", "meaning")


def named_row(row):
    """A row by its fields; what stands behind `where` is a field of its own."""
    fields = dict(zip(FIELDS, row))
    kind, _, where = (fields["record"] or "").partition(" where ")
    return {**fields, "record": kind or None, "where": where or None}


ROWS = [named_row(row) for row in ANSWERS]
# What a stopped line was to write, where a trip came in the middle of it.
CRASHED = "a crash in the middle of this line"


def row_of(line):
    """The row of a line's answer, or None."""
    return next((row for row in ROWS if row["command"] == line.word and re.fullmatch(row["answer"], line.answer)), None)


def meaning_of(line):
    """What a line means, in a few words, or nothing."""
    row = row_of(line)
    return row["meaning"] if row else CRASHED if line.stops() else ""


def participants(run, attempt):
    """How many steps of a global attempt's program each of its sites has."""
    counts = {}
    for site, _ in run.session.globals.get(int(attempt.split(".")[0]), []):
        counts[site] = counts.get(site, 0) + 1
    return counts


def record_of(run, line):
    """The record that a line writes and whether it is forced, or None."""
    row = row_of(line)
    if not row or not row["record"]:
        return None
    if row["where"] and {run.session.sites[site][1] for site in participants(run, line.attempt)} != {"nothing"}:
        return None
    if row["forced"] == "protocol":
        return row["record"], PRESUMED[run.session.sites[line.actor][1]] != line.answer.split(" ")[-1]
    return row["record"], row["forced"] == "always"


class Names:
    """The name of each message of a run: Work, Take, Prepare, commit, abort; value, done, ticket, yes, no, ack, inquiry and the like."""

    def __init__(self, run):
        self.run, self.names, self.counted, self.decided, self.begun = run, {}, {}, set(), set()
        for line in run.lines:
            self.follow(line)
            for message in line.sends:
                self.names[message] = self.name(line, message)

    def follow(self, line):
        """Counts the replies that the coordinator takes, and keeps what is decided; a restart leaves no attempt undecided."""
        if line.actor != 0:
            return
        source = self.run.sent.get(line.takes)
        if source and source.first() == "did" and line.answer in ("", "initiates", "defers"):
            place = line.attempt, line.takes[1]
            self.counted[place] = self.counted.get(place, 0) + 1
        if line.first() == "begun":
            self.begun.add(line.attempt)
        elif line.first() == "decides":
            self.decided.add(line.attempt)
        elif line.first() == "up":
            self.decided |= self.begun

    def outstanding(self, attempt, site):
        """What the coordinator sends to a site next: its steps one by one, the taking of the ticket, Prepare, and the decision."""
        if attempt in self.decided:
            return self.run.outcomes.get(attempt, "abort")
        left = participants(self.run, attempt).get(site, 0) - self.counted.get((attempt, site), 0)
        return "Work" if left > 0 else "Take" if left == 0 else "Prepare"

    def name(self, line, message):
        row, words = row_of(line), line.answer.split(" ")
        kind = row["message"] if row else None
        if kind == "next":
            return self.outstanding(line.attempt, message[1])
        return {"reply": words[2:3], "vote": words[2:3], "decision": words[1:2]}.get(kind, [kind or "message"])[0]


def main():
    argparse.ArgumentParser(description=__doc__, formatter_class=argparse.RawDescriptionHelpFormatter).parse_args()
    print(json.dumps({"presumed": PRESUMED, "answers": ROWS}, indent=1))


if __name__ == "__main__":
    told(main)
