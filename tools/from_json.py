#!/usr/bin/env python3
"""Prints the run that objects of JSON give, one object on each line, as tools/to_json.py writes them.

An object of a line needs `command`, `answer` and `sends`, a list of objects with `way`, `site` and `place`. An object
of the report needs `report`, its first word, and `words`, those after it. Of the other fields `line`, `word` and
`actor` are compared with the command where they stand, and all else is passed over. Each line must have the form that
the program prints (docs/FORMATS.md), and the report must end the run.

With --audit SCENARIO the scenario's lines and the line `printed` stand before the run: this is an input of `mdbfed
audit`. SCENARIO may have commands, which are left out.

example: tools/to_json.py examples/transfer.fed examples/transfer.out | tools/from_json.py -
"""
import argparse
import json

from mdblines import REPORT, Line, scenario_lines, session_of
from mdbtext import Bad, Session, Wrong, bytes_of, told

ENGINE = ("locking", "nothing")
REASONS = {"answer": "its answer is none of its command's", "place": "it sends a message that isn't of its actor"}


def any_session():
    """A session in which every site is declared, to read lines without a scenario."""
    session = Session()
    session.sites = {site: ENGINE for site in range(1, 9)}
    return session


def field(found, name, kind):
    """A field of an object, which must be of its kind. No truth value is a number."""
    if name not in found:
        raise Bad(f"it has no `{name}`")
    if not isinstance(found[name], kind) or isinstance(found[name], bool):
        raise Bad(f"its `{name}` is of another kind")
    return found[name]


def place_of(sent):
    """A message that is sent, as it is printed."""
    if not isinstance(sent, dict):
        raise Bad("what it sends isn't a list of objects")
    way, site, place = field(sent, "way", str), field(sent, "site", int), field(sent, "place", int)
    if way not in ("to", "from") or not 1 <= site <= 8 or place < 0:
        raise Bad("it sends a message of no channel")
    return f"{site}/{place}" if way == "to" else str(place)


def line_text(found):
    """The printed line of an object."""
    command, answer = field(found, "command", str), field(found, "answer", str)
    places = [place_of(sent) for sent in field(found, "sends", list)]
    text = command + " =>" + (f" {answer}" if answer else "")
    return text + (" sends " + " ".join(places) if places else "")


def check_line(text, found, number, session):
    """A line has its form, and what else the object says is so."""
    try:
        line = Line(number, text, session)
    except Bad as why:
        raise Bad(REASONS.get(why.reason, f"its command is no command: {why.reason}"), why.word) from None
    said = [(sent["way"], sent["site"], sent["place"]) for sent in found["sends"]]
    if said != line.sends:
        raise Bad("it sends a message that isn't of its actor")
    if found.get("line", number) != number:
        raise Bad(f"its `line` isn't {number}")
    if found.get("word", line.word) != line.word:
        raise Bad("its `word` isn't the first of its command")
    # The site of a local transaction stands in the scenario alone.
    if line.word not in ("begin", "step", "commit", "abort", "fate") and found.get("actor", line.actor) != line.actor:
        raise Bad("its `actor` isn't that of its command")


def report_text(found):
    """A line of the report."""
    words = field(found, "words", list)
    if not all(isinstance(word, str) for word in words):
        raise Bad("its `words` aren't texts")
    text = " ".join([field(found, "report", str), *words])
    if not REPORT.fullmatch(text):
        raise Bad("it is no line of a report")
    return text


def object_of(text):
    """The object that a line spells."""
    try:
        found = json.loads(text)
    except (ValueError, RecursionError):
        raise Bad("it is no JSON") from None
    if not isinstance(found, dict):
        raise Bad("it is no object")
    return found


def text_of(data, number, session, reports):
    """The line of the run that line `number` of the input gives. `reports` has the report's lines so far."""
    found = object_of(data)
    if "report" in found:
        reports.append(report_text(found))
        return reports[-1]
    if reports:
        raise Bad("a line stands after the report began")
    text = line_text(found)
    if not (text.isascii() and text.isprintable()):
        raise Bad("its texts have other characters than the program prints")
    check_line(text, found, number, session)
    return text


def texts_of(data, name):
    """The lines of the run."""
    lines = data.split(b"\n")
    if lines[-1:] == [b""]:
        lines.pop()
    session, texts, reports = any_session(), [], []
    for number, line in enumerate(lines, 1):
        try:
            texts.append(text_of(line, number, session, reports))
        except Bad as why:
            raise Wrong(f"{name}: line {number}: {why.reason}" + (f" ({why.word})" if why.word else "")) from None
    if texts[-1:] != ["end"]:
        raise Wrong(f"{name}: it is cut: its last object isn't the report's `end`")
    return texts


def head_of(path):
    """What stands before the run in an input of `audit`."""
    data = bytes_of(path)
    session_of(data, path)
    return [*scenario_lines(data), "printed"]


def main():
    reader = argparse.ArgumentParser(description=__doc__, formatter_class=argparse.RawDescriptionHelpFormatter)
    reader.add_argument("objects", metavar="OBJECTS", help="a file of objects, one on each line; - is standard input")
    reader.add_argument("--audit", metavar="SCENARIO", help="print an input of `mdbfed audit` for this scenario")
    words = reader.parse_args()
    head = head_of(words.audit) if words.audit else []
    for line in head + texts_of(bytes_of(words.objects), words.objects):
        print(line)


if __name__ == "__main__":
    told(main)
