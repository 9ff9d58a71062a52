#!/usr/bin/env python3
"""Writes the commands of a session: gives and takes whatever was sent, in the order of sending, until all is quiet.

It prints the session with these commands after those that it has; a session may have none, and no line `commands`.
The program is called to learn what each command makes happen, once a round: in a round each message that was sent and
not yet received is given or taken. An attempt that waits, or whose ticket is held back, is sent `again` once another
one ended since.

A lost message must be named, else it is received after all: --lose "give 2 4" leaves that message where it is.
Messages to an actor that is down stay there; with --all it comes `back` first. --all also begins each declared
transaction that was not begun, one after the other by their numbers, finishes the local ones, sends decisions again
whose acknowledgement is missing after a start, and has each site ask that is in doubt. The program closes the session
by itself, and no commands are written for that.

With --next nothing is added: the commands that may come next are printed, each with what it is about. Where the
program's output for the session is named as well, the program isn't called.

example: tools/drive.py SESSION --all > LONGER
         tools/drive.py examples/transfer.fed examples/transfer.out --next
"""
import argparse
import pathlib
import re
import subprocess

from mdblines import Run, check_commands, check_report, scenario_lines, session_of, texts_of
from mdbmessages import messages_of
from mdbstate import State, attempts
from mdbtext import MOST_COMMANDS, Bad, Wrong, bytes_of, told

PROGRAM = pathlib.Path(__file__).resolve().parent.parent / "mdbfed"
# After such an answer another attempt may go on.
ENDED = re.compile(
    "settles|unheld|committed|aborted|dropped|decides|forgets|invalid|stopped|up|dies|late|"
    "votes .* no|did .* (dies|late)"
)
# Answers to a command that was tried and changed nothing.
VAIN = ("none", "idle", "end", "unfinished")


def printed_by(program, data):
    """What the program prints for a session."""
    ran = subprocess.run([program, "replay"], input=data, stdout=subprocess.PIPE, stderr=subprocess.PIPE, check=False)
    if ran.returncode != 0:
        said = (ran.stdout + ran.stderr).decode("ascii", "replace").strip().split("\n")[-1]
        raise Wrong(f"{program}: it ended with status {ran.returncode}: {said or 'it printed nothing'}")
    return lines_of(ran.stdout, program)


def lines_of(data, name):
    """The lines of an output that is whole."""
    try:
        text = data.decode("ascii")
    except UnicodeDecodeError:
        raise Wrong(f"{name}: what it printed is no ASCII") from None
    if not text.endswith("end\n"):
        raise Wrong(f"{name}: what it printed is cut, or no output: its last line isn't `end`")
    return text.split("\n")[:-1]


class Driver:
    """A session that grows by commands. `run` is what the program printed for those so far. `to_end`: also what a stop
    left is finished."""

    def __init__(self, path, program, lost):
        data = bytes_of(path)
        self.session, self.program, self.lost, self.run = session_of(data, path), program, lost, None
        self.to_end = False
        self.scenario = scenario_lines(data)
        self.session.commands = self.session.commands or []

    def text(self):
        """The session."""
        return "".join(line + "\n" for line in (*self.scenario, "commands", *self.session.commands))

    def read(self, texts, name):
        """Takes the lines that were printed for the commands so far."""
        self.run = Run(self.session, texts, name)
        check_commands(self.run, name)
        check_report(self.run, name)

    def try_out(self, commands, tried=()):
        """Adds commands, and has them answered. Tried ones that changed nothing are taken out. Whether any stays."""
        old, new = self.session.commands, list(commands)
        if len(old) + len(new) > MOST_COMMANDS:
            raise Wrong(f"the session would have more than {MOST_COMMANDS} commands")
        self.session.commands = old + new
        texts = printed_by(self.program, self.text().encode())
        if len(texts) < len(self.session.commands):
            raise Wrong(f"{self.program}: it answers fewer commands than it was given")
        first, behind = len(old), len(self.session.commands)
        kept = [at for at, text in enumerate(texts) if not (first <= at < behind and self.vain(text, tried))]
        self.session.commands = [self.session.commands[at] for at in kept if at < behind]
        self.read([texts[at] for at in kept], self.program)
        return len(self.session.commands) > len(old)

    @staticmethod
    def vain(text, tried):
        command, _, answer = text.partition(" => ")
        return command in tried and (answer in VAIN or answer.startswith("waits "))

    def front(self):
        """The lines of the commands."""
        return self.run.lines[: len(self.session.commands)]

    def state(self):
        return State(self.run).go_to(len(self.session.commands))

    def pending(self):
        """The messages that were sent and not received, in the order of sending."""
        front = self.front()
        received = {line.takes for line in front if line.takes is not None and line.first() != "down"}
        sent = [message for line in front for message in line.sends if message not in received]
        return [message for message in sent if command_of(message) not in self.lost]

    def waiting(self):
        """The attempts that nothing is under way for, and since whose last line another one ended or a start came: the
        undecided ones, and with `to_end` also those that aren't forgotten."""
        last, ended = {}, 0
        for line in self.front():
            last[line.attempt] = line.number
            if ENDED.match(line.answer):
                ended = line.number
        under_way = {self.run.sent[sent].attempt for sent in self.pending()}
        known = self.state().coordinator.known
        due = [name for name in attempts(known) if self.to_end or known[name]["decision"] is None]
        return [name for name in due if name not in under_way and last.get(name, 0) < ended]

    def doubts(self, state):
        """The inquiries about attempts that a site is in doubt of, nothing is under way for, and the coordinator doesn't
        know."""
        other = {self.run.sent[sent].attempt for sent in self.pending()} | set(state.coordinator.known)
        sites = [site for site in state.sites.values() if site.up]
        return [f"ask {site.number} {name}" for site in sites for name in attempts(site.doubts()) if name not in other]

    def count_from(self, site):
        """How many messages a site has sent: the number of its next one."""
        return sum(sent[:2] == ("from", site) for line in self.front() for sent in line.sends)

    def round(self):
        """Receives all that can be received now, or else sends those again that wait. Whether there was any."""
        state = self.state()
        commands, tried = [], []
        following = {site: self.count_from(site) for site in self.session.sites}
        for way, site, number in self.pending():
            if not (state.sites[site] if way == "to" else state.coordinator).up:
                continue
            commands.append(command_of((way, site, number)))
            if way == "to" and state.coordinator.up and f"take {site} {following[site]}" not in self.lost:
                tried.append(f"take {site} {following[site]}")
                commands.append(tried[-1])
                following[site] += 1
        if not commands and state.coordinator.up:
            commands = [f"again {attempt}" for attempt in self.waiting()]
            commands = commands or (self.doubts(state) if self.to_end else [])
        return bool(commands) and self.try_out(commands, tried)

    def quiet(self):
        """Goes on until all is quiet."""
        while self.round():
            pass

    def wake(self):
        """Has each actor that is down come back."""
        down = [actor.number for actor in self.state().actors() if not actor.up]
        if down:
            self.try_out([f"back {actor}" for actor in down])

    def finish_local(self, tx):
        """Steps a local transaction to its end and commits it, unless it waits. Whether it got further."""
        steps = [f"step {tx}"] * len(self.session.locals[tx][1]) + [f"commit {tx}"]
        return self.try_out(steps, steps)

    def unbegun(self):
        """The transactions of which no attempt was begun, by their numbers."""
        begun = {line.words[1] for line in self.front() if line.word in ("begin", "go") and line.first() == "begun"}
        return [tx for tx in sorted({**self.session.locals, **self.session.globals}) if str(tx) not in begun]

    def live_locals(self):
        """The local transactions that are live, by their numbers, each with its attempt."""
        found = {}
        for number, site in self.state().sites.items():
            for tx, attempt in ((int(name.split(".")[0]), name) for name in site.live):
                if self.session.locals.get(tx, (None,))[0] == number:
                    found[tx] = attempt
        return dict(sorted(found.items()))

    def all(self):
        """Wakes all, begins what wasn't begun, and finishes it as far as it goes."""
        self.to_end = True
        self.wake()
        self.quiet()
        for tx in self.unbegun():
            self.try_out([f"go {tx}" if tx in self.session.globals else f"begin {tx}"])
            if tx in self.session.locals:
                self.finish_local(tx)
            self.quiet()
        while any(self.finish_local(tx) for tx in self.live_locals()):
            self.quiet()


def command_of(sent):
    """The command that receives a message."""
    way, site, number = sent
    return f"{'give' if way == 'to' else 'take'} {site} {number}"


def next_commands(driver):
    """The commands that may come next, each with what it is about."""
    state, names = driver.state(), messages_of(driver.run, len(driver.session.commands)).names
    for actor in state.actors():
        if not actor.up:
            yield f"back {actor.number}: {'site ' + str(actor.number) if actor.number else 'the coordinator'} is down"
    for sent in driver.pending():
        down = not (state.sites[sent[1]] if sent[0] == "to" else state.coordinator).up
        yield f"{command_of(sent)}: {names[sent]}" + (", while its receiver is down" if down else "")
    for attempt in driver.waiting() if state.coordinator.up else ():
        yield f"again {attempt}: it waits, and another one ended since"
    yield from local_commands(driver, state)
    for number, site in state.sites.items():
        for attempt in attempts(site.doubts()) if site.up else ():
            yield f"ask {number} {attempt}: it is in doubt since line {site.doubts()[attempt]}"
    for tx in driver.unbegun():
        yield f"{'go' if tx in driver.session.globals else 'begin'} {tx}: no attempt of it was begun"


def local_commands(driver, state):
    """The next step of each live local transaction, or its commit."""
    for tx, attempt in driver.live_locals().items():
        home, steps = driver.session.locals[tx]
        own = [line for line in driver.front() if line.word == "step" and line.attempt == attempt]
        done = sum(line.first() in ("read", "wrote") for line in own)
        waits = state.sites[home].waits.get(attempt)
        if done < len(steps):
            why = f", which was told to wait for {waits}" if waits else ""
            yield f"step {tx}: step {done + 1} of {attempt}{why}"
        else:
            yield f"commit {tx}: {attempt} has no step left"


def check_lost(session, commands):
    """Each command names a message."""
    for command in commands:
        words = command.split(" ")
        try:
            if words[0] not in ("give", "take"):
                raise Bad("it is no give or take")
            session.check_command(words)
        except Bad as why:
            raise Wrong(f"{command!r}: no message is named so: {why.reason}") from None


def main():
    reader = argparse.ArgumentParser(description=__doc__, formatter_class=argparse.RawDescriptionHelpFormatter)
    reader.add_argument("session", metavar="SESSION", help="a scenario, with or without commands")
    reader.add_argument("output", metavar="OUTPUT", nargs="?", help="what the program printed for it; for --next alone")
    reader.add_argument("--program", metavar="PROGRAM", default=str(PROGRAM), help="else ./mdbfed of this tree")
    reader.add_argument("--next", action="store_true", help="print the commands that may come next, and add none")
    reader.add_argument("--all", action="store_true", help="wake all, and begin each transaction that wasn't begun")
    reader.add_argument("--lose", metavar="COMMAND", action="append", default=[], help='a lost message, as "give 2 4"')
    words = reader.parse_args()
    if words.output and not words.next:
        reader.error("an OUTPUT is of use with --next alone")
    driver = Driver(words.session, words.program, words.lose)
    check_lost(driver.session, words.lose)
    if words.output:
        driver.read(texts_of(words.output), words.output)
    else:
        driver.try_out([])
    if words.next:
        print("\n".join(next_commands(driver)) or "nothing: all is quiet")
        return
    driver.all() if words.all else driver.quiet()
    print(driver.text(), end="")


if __name__ == "__main__":
    told(main)
