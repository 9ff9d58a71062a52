#!/usr/bin/env python3
"""Says what is due where an audited output differs, beside what stands there, and which section of docs/RULES.md decides.

INPUT is an input of `audit`: a scenario, the line `printed`, and an output. The program is asked twice: `audit` names
the line, and `replay` carries out the commands of the output up to it. What is due is what the program prints there.
Where several lines are right, as other edges of a cycle, another order or another command, one of them is shown, and
it is said which others are right.

The program is `mdbfed` beside this folder, or another one by --program. Where it isn't built, each of the two calls
compiles it first.

The status is 0 where the output agrees, and 1 where it differs or can't be audited.

example: tools/due.py --program crates/mdbfed/out/mdbfed INPUT
"""
import argparse
import pathlib
import re
import subprocess
import sys

from mdbkinds import kind_of, meaning
from mdbtext import MOST_COMMANDS, OF_COORDINATOR, Bad, BadLine, Wrong, bytes_of, place_of_printed, read_audited, told

TOP = pathlib.Path(__file__).resolve().parent.parent
LONGEST_SHOWN = 2000
# The sections that decide an answer, by the first form that the due line or the line that stands there has.
SECTIONS = (
    (r"(set|awake|stopped .*|up .*|down|checked|large)$", (6,)),
    (r"(none|idle|end|unfinished|spent)$", (1,)),
    (r"(begun|running|committed \S+$|unbegun|aborted)", (2,)),
    (r"committed .* number", (3, 4)),
    (r"(did \S+ )?(waits|dies|late) |(votes .* no )?(invalid|moved)", (4, 5)),
    (r"did .* ticket|votes .* yes", (5, 7)),
    (r"(read|wrote) |did .* (value|done)", (3, 4)),
    (r"(settles|unheld)", (8,)),
    (r"(did|votes|asks|dropped)", (7,)),
)
# What decides where no answer does.
OF_REPORT = {"form": (19,), "open": (12,), "order": (11,), "reads": (11,), "outcome": (9,), "forgotten": (9,), "table": (11,), "cycle": (10,)}


def asked(program, word, data):
    """What the program prints for an input."""
    ran = subprocess.run([program, word], input=data, stdout=subprocess.PIPE, stderr=subprocess.PIPE, check=False)
    if ran.returncode not in ((0, 2, 9) if word == "audit" else (0,)):
        said = (ran.stdout + ran.stderr).decode("ascii", "replace").strip().split("\n")[-1]
        raise Wrong(f"{program} {word}: it ended with status {ran.returncode}: {said[:200]}")
    return ran.stdout.decode("ascii", "replace").split("\n")[:-1]


class Audited:
    """An input of `audit`: its scenario, and the lines behind `printed`, the first of which has the number `first`."""

    def __init__(self, data, name):
        try:
            self.session, texts = read_audited(data)
        except BadLine as why:
            raise Wrong(f"{name}: {why}; tools/why.py says what to do") from None
        if texts is None:
            raise Wrong(f"{name}: it has no line `printed` between a scenario and an output")
        place = place_of_printed(data)
        self.scenario, self.first = data[:place], data[:place].count(b"\n") + 2
        self.texts = [text.decode("ascii", "replace") for text in texts]
        orders = (at for at, text in enumerate(self.texts) if text.split(" ")[0] == "order")
        self.order = next(orders, len(self.texts))

    def command(self, at):
        """The command of a line, or None where it has none of this session."""
        if at >= len(self.texts) or at == self.order:
            return None
        words = self.texts[at].partition(" =>")[0].split(" ")
        try:
            self.session.check_command(words)
        except Bad:
            return None
        return " ".join(words)

    def replayed(self, program, count):
        """What `replay` prints for the commands of the first lines."""
        if count > MOST_COMMANDS:
            raise Wrong(f"line {count} of the output differs, and `replay` takes at most {MOST_COMMANDS} commands")
        commands = "".join(f"{self.command(at)}\n" for at in range(count))
        return asked(program, "replay", self.scenario + b"commands\n" + commands.encode())


def report_due(audited, replayed):
    """The report in the order that is printed: each attempt's reads stand in its place."""
    report = replayed[audited.order :]
    reads = {text.split(" ")[1]: text for text in report if text.startswith("reads ")}
    named = audited.texts[audited.order].split(" ")[1:]
    rest = [text for text in report[1:] if not text.startswith("reads ")]
    return [audited.texts[audited.order], *(reads.get(it, f"reads {it}") for it in named), *rest]


def line_due(audited, program, at, what):
    """The line that is due at a place of the output, or None where none is, and what else would be right."""
    if at > audited.order:
        report = report_due(audited, audited.replayed(program, audited.order))
        behind = at - audited.order
        return (report[behind] if behind < len(report) else None), ""
    is_command = audited.command(at) is not None
    lines = audited.replayed(program, at + is_command)
    if at >= len(lines):
        raise Wrong(f"{program} replay: it prints {len(lines)} lines, and the one that differs is line {at + 1}")
    if what == "cycle" or " cycle " in lines[at]:
        return lines[at], "or another cycle of ticket edges that begins and ends at the refused attempt"
    if what == "order":
        return lines[at], "or another merge of the site orders"
    if is_command:
        return lines[at], ""
    closing = next((number for number, text in enumerate(lines[at:]) if text.split(" ")[0] == "order"), 0)
    if closing:
        return lines[at], f"and {closing - 1} more to close the session, or the line of any other command"
    return lines[at], "or the line of any command"


def answer_of(text):
    return re.sub(r" ?sends [\d/ ]*$", "", (text or "").partition(" =>")[2].strip())


def sections_of(what, due, stands):
    """The sections of docs/RULES.md that decide between two lines."""
    is_answer = " =>" in stands and stands.partition(" =>")[0] == (due or "").partition(" =>")[0]
    if what in OF_REPORT and not (what == "form" and is_answer):
        return OF_REPORT[what]
    word = (due or stands).split(" ")[0]
    is_coordinators = word in OF_COORDINATOR and not re.match("stopped|down|none|idle|spent", answer_of(due))
    if is_coordinators:
        return (10,) if what == "answer" and "cycle" in answer_of(due) else (9,)
    if what == "places":
        return (7, 8)
    for text in (due, stands):
        found = next((sections for form, sections in SECTIONS if re.match(form, answer_of(text))), None)
        if found:
            return found
    return (19,)


def titles():
    """The sections of docs/RULES.md with their titles."""
    heads = re.findall(r"^## (\d+)\. (.*)$", (TOP / "docs/RULES.md").read_text(encoding="utf-8"), re.MULTILINE)
    return {int(number): title for number, title in heads}


def shown(text):
    """A line as it is printed: what isn't ASCII is spelled, and a long one is cut."""
    if text is None:
        return "(no line)"
    said = "".join(it if " " <= it <= "~" else repr(it)[1:-1] for it in text)
    return said if len(said) <= LONGEST_SHOWN else said[:LONGEST_SHOWN] + " .."


def difference(audited, program, number, what):
    """The lines to print about the line that differs."""
    at = number - audited.first
    if not 0 <= at <= len(audited.texts):
        last = audited.first + len(audited.texts) - 1
        raise Wrong(f"{program} audit: it names line {number}, and the output has the lines {audited.first} to {last}")
    stands = audited.texts[at] if at < len(audited.texts) else None
    due, others = line_due(audited, program, at, what)
    heads = titles()
    yield f"line {number} differs, which is line {at + 1} of the output: {what}"
    yield f"  stands: {shown(stands)}"
    yield f"  due:    {shown(due)}" + (f" ({others})" if others else "")
    for section in sections_of(what, due, stands or ""):
        yield f"  docs/RULES.md, section {section}: {heads[section]}"


def main():
    reader = argparse.ArgumentParser(description=__doc__, formatter_class=argparse.RawDescriptionHelpFormatter)
    reader.add_argument("input", metavar="INPUT", help="an input of `audit`; `-` is standard input")
    reader.add_argument("--program", metavar="PROGRAM", default=str(TOP / "mdbfed"), help="the program, by default ./mdbfed of this tree")
    words = reader.parse_args()
    data = bytes_of(words.input)
    if meaning(data):
        raise Wrong(f"{words.input}: {meaning(data)}")
    if kind_of(data) == "session":
        raise Wrong(f"{words.input}: it is an input of `replay`: one of `audit` has `printed` and an output in place of the commands")
    audited = Audited(data, words.input)
    verdict = "".join(asked(words.program, "audit", data))
    if verdict == "agrees":
        print(f"{words.input}: it agrees")
        return
    found = re.fullmatch(r"differs at line (\d+) (\w+)", verdict)
    if not found:
        raise Wrong(f"{words.program} audit: it says `{verdict[:200]}`")
    print(*difference(audited, words.program, int(found[1]), found[2]), sep="\n")
    sys.exit(1)


if __name__ == "__main__":
    told(main)
