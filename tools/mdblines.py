"""Reads what mdbfed printed for a session (docs/FORMATS.md, sections 2 and 3), and checks that the two belong together. The tools share it."""
import re

from mdbkinds import ENDINGS
from mdbtext import Bad, BadLine, Wrong, bytes_of, read_session

T, N = r"\d+\.\d+", r"\d+"
KEPT, OTHER = f"stopped kept {N}", f"(?:waits|dies|late) {T}"
CYCLE = f"cycle(?: {T}>{T}@{N})+"
DECIDES = f"decides (?:commit|abort (?:late|site {N} (?:dies {T}|late {T}|unknown|no)|{CYCLE}))(?: forgets)?"
DID = f"did {T} (?:done|value {N}|ticket {N}|unknown|{OTHER})"
VOTES = f"votes {T} (?:yes {N}|no (?:invalid {T} {N}|moved {T}|unknown))"
ANSWERS = {
    "begin": f"none|down|spent|(?:committed|running|begun) {T}",
    "step": f"none|down|idle|end|(?:read|wrote) {N} {N}|{OTHER}",
    "commit": f"none|down|idle|unfinished|invalid {T} {N}|{KEPT}|committed {T} number {N}",
    "abort": f"none|down|idle|aborted {T}",
    "fate": f"none|down|(?:committed|running) {T}|unbegun|aborted",
    "go": f"none|down|spent|(?:committed|running|begun) {T}",
    "again": "none|down|idle|defers|",
    "late": f"none|down|idle|{KEPT}|{DECIDES}",
    "give": f"none|down|{DID}|{VOTES}|settles {T} (?:commit|abort)|unheld {T}|{KEPT}",
    "take": f"none|down|ignored|waits|voted|acked|forgets|undecided|(?:answers|presumes) (?:commit|abort)|initiates|defers|{KEPT}|{DECIDES}|",
    "ask": f"down|idle|asks {T}",
    "drop": f"down|idle|dropped {T}",
    "halt": f"down|{KEPT}",
    "trip": "set",
    "back": f"awake|{KEPT}|up epoch {N} doubtful {N}|up known {N}",
    "check": f"down|large|{KEPT}|checked",
}
FORMS = {word: re.compile(form) for word, form in ANSWERS.items()}
REPORT = re.compile(
    f"order(?: {T})*|reads {T}(?: {N})*|outcome {T} (?:commit|abort)|forgotten(?: {T})*|table {N}(?: {N}={N})*|end", re.ASCII
)


class Line:
    """A printed line. `attempt` is the one that it is about; `takes` and `sends` name messages that were sent, by way, site and number."""

    def __init__(self, number, text, session):
        self.number, self.text = number, text
        self.command, arrow, said = text.partition(" => ")
        if not arrow and text.endswith(" =>"):
            self.command, said = text[:-3], ""
        self.words = self.command.split(" ")
        self.word = self.words[0]
        session.check_command(self.words)
        self.actor = session.home(self.words)
        self.answer, _, places = f" {said}".partition(" sends ")
        self.answer = self.answer.strip()
        if not FORMS[self.word].fullmatch(self.answer):
            raise Bad("answer", said)
        self.sends = [self.sent(place) for place in places.split()]
        self.takes = None
        if self.word in ("give", "take"):
            self.takes = ("to" if self.word == "give" else "from", int(self.words[1]), int(self.words[2]))
        self.attempt = None

    def sent(self, place):
        """A message by its channel and its number there."""
        if self.actor == 0 and re.fullmatch(r"[1-8]/\d+", place):
            site, number = place.split("/")
            return "to", int(site), int(number)
        if self.actor != 0 and place.isdigit():
            return "from", self.actor, int(place)
        raise Bad("place", place)

    def first(self):
        return self.answer.split(" ")[0]

    def stops(self):
        return self.first() == "stopped"

    def places(self):
        """The places of what it sends, as they are printed."""
        return [f"{site}/{number}" if way == "to" else str(number) for way, site, number in self.sends]

    def edges(self):
        """The edges of the cycle for which an attempt is refused, each as two attempts and a site."""
        return [tuple(re.split("[>@]", edge)) for edge in re.findall(f"{T}>{T}@{N}", self.answer)]

    def named(self):
        """The attempt that the answer or the command names as its own, or None."""
        if self.word in ("again", "late", "ask", "drop"):
            return self.words[-1]
        own = re.match(f"(?:begun|running|committed|aborted|did|votes|settles|unheld|asks|dropped) ({T})", self.answer)
        return own[1] if own else None


class Run:
    """The lines of a run and its report. `sent` gives the line that sends a message, and `taken` those that take it."""

    def __init__(self, session, texts, name):
        self.session, self.lines, self.report = session, [], []
        self.sent, self.taken, self.begun, self.next = {}, {}, {}, {}
        for number, text in enumerate(texts, 1):
            try:
                self.add(number, text)
            except Bad as why:
                raise Wrong(f"{name}: line {number} isn't one of this session's: {text[:60]!r} ({why.reason})") from None
        self.outcomes = {words[1]: words[2] for words in map(str.split, self.report) if words[0] == "outcome"}
        self.commanded = self.before_closing()

    def before_closing(self):
        """How many lines stand before those of closing, or None where the run doesn't show it: those of the commands, and of a run in
        threads those before a trip is disarmed, which closing does first and hosts never do."""
        if self.session.commands is not None:
            return len(self.session.commands)
        return next((line.number - 1 for line in self.lines if line.word == "trip" and line.words[2] == "0"), None)

    def add(self, number, text):
        if " => " in text or text.endswith(" =>"):
            if self.report:
                raise Bad("a line behind the report began")
            self.add_line(Line(number, text, self.session))
        elif REPORT.fullmatch(text):
            self.report.append(text)
        else:
            raise Bad("form")

    def add_line(self, line):
        for message in line.sends:
            if message[2] != self.next.get(message[:2], 0):
                raise Bad("the place isn't the next of its channel")
            self.next[message[:2]] = message[2] + 1
            self.sent[message] = line
        if line.takes is not None:
            if (line.takes in self.sent) != (line.answer != "none") and line.answer != "down":
                raise Bad("whether a line before it sends the message")
            if line.takes not in self.sent:
                line.takes = None
        if line.takes is not None:
            self.taken.setdefault(line.takes, []).append(line)
        line.attempt = line.named() or self.behind(line)
        if line.first() == "begun":
            self.begun[line.words[1]] = line.attempt
        self.lines.append(line)

    def behind(self, line):
        """The attempt of the message that a line takes, or the last one that was begun of the transaction."""
        if line.takes is not None:
            return self.sent[line.takes].attempt
        return self.begun.get(line.words[1]) if line.word in ("step", "commit", "abort", "fate") else None


def check_commands(run, name):
    """The lines answer the session's commands, each in its place."""
    for number, command in enumerate(run.session.commands or [], 1):
        if number > len(run.lines):
            raise Wrong(f"{name}: it is cut: command {number} of the session, `{command}`, has no line")
        if run.lines[number - 1].command != command:
            printed = run.lines[number - 1].command
            why = f"line {number} answers `{printed}`, and command {number} is `{command}`"
            raise Wrong(f"{name}: it is another session's, or lines are missing: {why}")


def check_report(run, name):
    """The report is of this session: its transactions and its sites."""
    words = [text.split(" ") for text in run.report]
    kinds = [line[0] for line in words]
    if kinds.count("order") != 1 or kinds.count("forgotten") != 1 or kinds.count("end") != 1 or kinds[0] != "order":
        raise Wrong(f"{name}: the report isn't whole: it has one `order` first, one `forgotten` and one `end`")
    tables = [int(line[1]) for line in words if line[0] == "table"]
    if tables != sorted(run.session.sites):
        sites = sorted(run.session.sites)
        raise Wrong(f"{name}: it is another session's: it has tables of the sites {tables}, and declared are {sites}")
    for attempt in words[0][1:] + [line[1] for line in words if line[0] == "outcome"]:
        if int(attempt.split(".")[0]) not in {**run.session.locals, **run.session.globals}:
            raise Wrong(f"{name}: it is another session's: no transaction of {attempt} is declared")


def texts_of(path):
    """The lines of an output, which ends with `end`."""
    try:
        text = bytes_of(path).decode("ascii")
    except UnicodeDecodeError as why:
        raise Wrong(f"{path}: byte {why.start + 1} is no ASCII: this is no output") from None
    texts = text.split("\n")
    last = texts[-2] if len(texts) > 1 else texts[0]
    if re.match("site [1-8] [a-z]+ [a-z]+$", texts[0]):
        raise Wrong(f"{path}: it is a session and no output; are the two files swapped?")
    for form, meaning in ENDINGS:
        if re.fullmatch(form, last):
            raise Wrong(f"{path}: it ends with `{last}`: {meaning}")
    if text and not text.endswith("end\n"):
        raise Wrong(f"{path}: it is cut, or no output: its last line isn't `end`")
    if not text:
        raise Wrong(f"{path}: it is empty")
    return texts[:-1]


def session_at(path):
    """The session of a file."""
    return session_of(bytes_of(path), path)


def scenario_lines(data):
    """The lines of a session before its commands."""
    lines = data.decode("ascii").split("\n")[:-1]
    return lines[: lines.index("commands")] if "commands" in lines else lines


def session_of(data, path):
    """The session that the bytes of a file spell."""
    try:
        return read_session(data)
    except BadLine as why:
        if b" => " in data.split(b"\n")[0]:
            raise Wrong(f"{path}: it is an output and no session; are the two files swapped?") from None
        raise Wrong(f"{path}: {why}; tools/why.py says what to do") from None


def read_run(session_path, output_path):
    """The run of a session's file and its output's file."""
    session = session_at(session_path)
    run = Run(session, texts_of(output_path), output_path)
    check_commands(run, output_path)
    check_report(run, output_path)
    return run
