"""Says what a file is: an input of the program, one of its outputs, a journal. The tools share it."""
import re

from mdbjournal import COORDINATOR, SITE, Journal
from mdbtext import COMMANDS, place_of_printed

# What the program ends with where it prints no report, and what to do about it.
ENDINGS = (
    (r"bad line \d+ \w+", "the program refused its input: give that input to tools/why.py"),
    (r"usage: .*", "the words are no command: a session comes by standard input, as in `mdbfed replay < FILE`"),
    (r"read failed", "standard input couldn't be read: it is closed, or a folder"),
    (r"no memory", "the program is out of memory"),
    (r"too long", "the input has more than 4,194,304 bytes"),
    (r"disk \d failed", "the folder isn't there, has no room or no right to it, the file is in use, or its name is that of no file"),
    (r"disk \d is used", "its journal isn't empty: `resume` goes on from it, and `store` wants another folder"),
    (r"disk \d is damaged at \d+", "tools/journal.py FOLDER shows the frame"),
    (r"disk \d is foreign", "no session leaves that journal: tools/journal.py FOLDER says which file to doubt"),
    (r"disk \d is large", "its journal has more than 67,108,864 bytes"),
    (r"agrees", "the audited output is one of its scenario"),
    (r"differs at line \d+ \w+", "tools/due.py says of the audited input what is due there"),
    (r"sites \d globals \d+ locals \d+ committed \d+ total \d+", "a scenario that `make` drew has run"),
)
# The commands that go on from journals; no session of a user's has these alone.
GOING_ON = ("back", "again", "give", "take", "ask")
REPORT = re.compile(r"(order|forgotten)(?: [\d. ]*)?|(reads|outcome|table) \d.*|end")


def texts_in(data):
    """The lines of a text, without the ends that other systems write."""
    return data.decode("ascii", "replace").replace("\r\n", "\n").split("\n")


def ending_of(text):
    """What a last line without a report means, or None."""
    return next((meaning for form, meaning in ENDINGS if re.fullmatch(form, text, re.ASCII)), None)


def last_of(texts):
    """The last line that isn't empty."""
    return next((text for text in reversed(texts) if text), "")


def is_answered(text):
    """Whether a line is one of an output: a command with its answer."""
    return " =>" in text and text.split(" ")[0] in COMMANDS


def is_journal(data):
    """Whether a file begins with a frame."""
    return data.startswith(b"\0\0") or data.startswith(b"\0") and any(Journal(data, kinds).records for kinds in (SITE, COORDINATOR))


def kind_of_output(texts):
    """Which output the lines are: a report has an order, and none where the session went on from journals."""
    words = {text.split(" ")[0] for text in texts}
    answered = {text.split(" ")[0] for text in texts if is_answered(text)}
    return "resumed" if "order" not in words and answered <= set(GOING_ON) else "output"


def kind_of(data):
    """What a file is: empty, journal, disks, output, resumed, ending, audited, session or scenario."""
    texts = texts_in(data)
    if not data:
        return "empty"
    if is_journal(data):
        return "journal"
    if re.fullmatch("disk [0-8]( ([0-9a-f]{2})*)?", texts[0]):
        return "disks"
    if is_answered(texts[0]) or REPORT.fullmatch(texts[0]):
        return kind_of_output(texts)
    if ending_of(texts[0]):
        return "ending"
    if place_of_printed(data) is not None:
        return "audited"
    return "session" if "commands" in texts else "scenario"


def whole(texts):
    """How an output ends."""
    last = last_of(texts)
    if last == "end":
        return "whole"
    return f"ended by `{last}`: {ending_of(last)}" if ending_of(last) else "cut: its last line isn't `end`"


def meaning(data):
    """What a file is that is no input, and what to do with it; None of an input."""
    kind, texts = kind_of(data), texts_in(data)
    if kind == "journal":
        return "it is a journal and no text: tools/journal.py FOLDER prints the journals of a folder"
    if kind == "disks":
        return "it is a case of `resume`, with the disks as lines `disk N HEX`: conformance/run.py makes a folder of it"
    if kind == "ending":
        return f"it is what the program printed, `{last_of(texts)[:80]}`: {ending_of(texts[0])}"
    if kind == "output":
        return f"it is an output of `replay`, `run` or `store`, {whole(texts)}; for `audit` its scenario and a line `printed` come before it"
    if kind == "resumed":
        return f"it is an output of `resume`, {whole(texts)}; there is no input for it, and `audit` takes none without an order"
    return None
