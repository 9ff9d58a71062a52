"""The disks of a run, line by line, derived from the session and the printed lines by the rules (docs/RULES.md,
sections 3 to 9). How many records a stop keeps and which number a commit prints are compared with what is derived."""
import mdbrecords
from mdbmessages import Messages
from mdbstate import State
from mdbtext import Wrong

# The numbers of these engines are drawn at the sealing; those of the others at the begin.
LATE_NUMBERS = ("locking", "validation")


def pair_of(attempt):
    tx, index = attempt.split(".")
    return int(tx), int(index)


def writes_of(steps, reads, home):
    """What a program has written at a site, by rising key. `reads` has the values of its reads, at all sites."""
    rows = {}
    for site, act in steps:
        if site == home and act[0] == "set":
            rows[act[1]] = act[2]
        elif site == home and act[0] == "add":
            rows[act[1]] = (reads[act[2]] + act[3]) % 2**64
    return sorted(rows.items())


class Disk:
    """The bytes of an actor's disk, how many are synced, and its records. `armed` has a trip's calls and its cut."""

    def __init__(self, kinds):
        self.kinds, self.data, self.synced, self.armed = kinds, b"", 0, None
        self.records, self.frames = [], []

    def call(self, name, *record):
        """Makes a call. Whether the actor stops after it."""
        if name == "append":
            self.records.append(record)
            self.frames.append(mdbrecords.frame_of(mdbrecords.payload_of(*record, self.kinds)))
            self.data += self.frames[-1]
        elif name == "sync":
            self.synced = len(self.data)
        elif name == "cut":
            self.data = b"".join(self.frames)
            self.synced = min(self.synced, len(self.data))
        else:
            self.records, self.frames = self.records[-1:], self.frames[-1:]
            self.data = self.frames[0]
            self.synced = len(self.data)
        if self.armed is None:
            return False
        self.armed[0] -= 1
        return self.armed[0] == 0

    def kept(self, cut):
        """The bytes that a stop keeps."""
        return self.data[: self.synced + cut]

    def stop(self, cut):
        """Keeps what a stop keeps, and counts its whole records."""
        self.data, self.armed = self.kept(cut), None
        self.synced, place = len(self.data), 0
        for count, frame in enumerate(self.frames):
            place += len(frame)
            if place > len(self.data):
                self.records, self.frames = self.records[:count], self.frames[:count]
                break
        return len(self.records)

    def torn(self):
        return len(self.data) > sum(map(len, self.frames))


def forced(*record):
    return [("append", *record), ("sync",)]


class SiteDisk(Disk):
    """A site's disk, with what its engine draws: its counter, and the numbers of the live runs."""

    def __init__(self, number, session):
        super().__init__(mdbrecords.SITE)
        self.number, self.session, self.epoch, self.counter, self.numbers, self.reads = number, session, 1, 0, {}, {}
        self.engine, self.protocol = session.sites[number]
        self.set_up = {"site": number, "engine": self.engine, "protocol": self.protocol}
        self.call("append", "Setup", {**self.set_up, "items": sorted(session.items.get(number, {}).items())})
        self.call("append", "Start", {"epoch": 1})
        self.call("sync")

    def draw(self, attempt):
        self.counter += 1
        self.numbers[attempt] = self.counter

    def sealed(self, attempt):
        """The serial number of a run that is sealed now."""
        if self.engine in LATE_NUMBERS:
            self.draw(attempt)
        return self.numbers[attempt]

    def follow(self, line, site):
        """What a line draws and reads. `site` is the site's state before it."""
        first, attempt = line.first(), line.attempt
        begins = first == "begun" or first == "did" and attempt not in site.live and "unknown" not in line.answer
        if begins:
            self.draw(attempt)
        if first == "begun":
            self.reads[attempt] = []
        if first == "read":
            self.reads[attempt].append(int(line.answer.split(" ")[2]))

    def calls(self, line, site, messages):
        """The disk calls of a line, those included that a stop left out."""
        first, attempt = line.first(), line.attempt
        if line.word == "commit" and first in ("committed", "stopped"):
            return forced("Local", self.local(line))
        if line.word == "give" and first in ("settles", "stopped") and line.takes in messages.decisions:
            return self.ended(attempt, messages.decisions[line.takes])
        seals = first == "stopped" or first == "votes" and " yes " in line.answer
        if line.word == "give" and seals and attempt not in site.doubts():
            return forced("Prepared", self.prepared(line, site, messages))
        if line.word == "check" and first in ("checked", "stopped"):
            return [*forced("Checkpoint", self.sum()), ("trim",)]
        if line.word == "back" and first in ("up", "stopped"):
            return [("cut",)] * self.torn() + forced("Start", {"epoch": self.sum()["epoch"] + 1})
        return []

    def local(self, line):
        number = self.sealed(line.attempt)
        if line.first() == "committed" and line.answer.split(" ")[3] != str(number):
            raise Wrong(f"line {line.number}: by the lines before it the number is {number}")
        steps = [(self.number, act) for _, act in self.session.locals[int(line.words[1])][1]]
        found = writes_of(steps, self.reads[line.attempt], self.number)
        return {"attempt": pair_of(line.attempt), "number": number, "writes": found}

    def prepared(self, line, site, messages):
        ticket = line.answer.split(" ")[3] if line.first() == "votes" else site.tickets[line.attempt]
        asked = messages.asked[line.attempt]
        found = {"attempt": pair_of(line.attempt), "epoch": self.epoch, "number": self.sealed(line.attempt)}
        return {**found, "ticket": int(ticket), "writes": writes_of(asked.steps, asked.reads, self.number)}

    def ended(self, attempt, decision):
        """A decision that the protocol presumes isn't forced."""
        calls = forced("Ended", {"attempt": pair_of(attempt), "decision": decision})
        return calls[:1] if self.protocol == decision else calls

    def restarted(self):
        """The counter goes on from the greatest number on the disk."""
        found = self.sum()
        self.epoch, self.counter, self.numbers, self.reads = found["epoch"], found["counter"], {}, {}

    def sum(self):
        """What the records say together."""
        kind, said = self.records[0] if self.records else ("Setup", {**self.set_up, "items": []})
        start = {"epoch": 0, "counter": 0, "ticket": 0, "owner": None, "locals": [], "doubtful": []}
        found = dict(said) if kind == "Checkpoint" else {**self.set_up, **start, "rows": said["items"]}
        total = Sum(found)
        for kind, said in self.records[1:]:
            total.add(kind, said)
        return total.fields()


class Sum:
    """What a site's records say together, record by record."""

    def __init__(self, found):
        self.found, self.rows, self.by = found, dict(found["rows"]), {}
        self.doubtful = {it["attempt"]: it for it in found["doubtful"]}
        self.locals = list(found["locals"])

    def add(self, kind, said):
        if kind == "Start":
            self.found["epoch"] = said["epoch"]
        elif kind == "Prepared":
            self.doubtful[said["attempt"]] = said
            if said["ticket"] > self.found["ticket"]:
                self.found.update(ticket=said["ticket"], owner=said["attempt"])
        elif kind == "Ended":
            ended = self.doubtful.pop(said["attempt"])
            if said["decision"] == "commit":
                self.install(ended)
        elif kind == "Local":
            self.locals.append(said["attempt"])
            self.install(said)
        if kind in ("Prepared", "Local"):
            self.found["counter"] = max(self.found["counter"], said["number"])

    def install(self, said):
        """The write of a key with the greatest number counts."""
        for key, value in said["writes"]:
            if self.by.get(key, 0) < said["number"]:
                self.rows[key], self.by[key] = value, said["number"]

    def fields(self):
        doubtful = [self.doubtful[pair] for pair in sorted(self.doubtful)]
        return {**self.found, "rows": sorted(self.rows.items()), "locals": sorted(self.locals), "doubtful": doubtful}


class CoordinatorDisk(Disk):
    """The coordinator's disk."""

    def __init__(self, run):
        super().__init__(mdbrecords.COORDINATOR)
        self.run = run

    def follow(self, line, coordinator):
        """A line of the coordinator draws nothing."""

    def participants(self, attempt):
        """The sites of an attempt's program, rising, with their protocols."""
        steps = self.run.session.globals[pair_of(attempt)[0]]
        return [(site, self.run.session.sites[site][1]) for site in sorted({site for site, _ in steps})]

    def calls(self, line, coordinator, messages):
        """The disk calls of a line, those included that a stop left out."""
        first, attempt = line.first(), line.attempt
        if line.word == "check" and first in ("checked", "stopped"):
            return [*forced("Checkpoint", self.sum()), ("trim",)]
        if line.word == "back" and first in ("up", "stopped"):
            return [("cut",)] * self.torn()
        if first == "stopped" and line.word in ("take", "late"):
            return self.record(self.stopped_kind(line, messages), attempt, messages)
        if first == "initiates":
            return self.record("Initiation", attempt, messages)
        if line.answer.startswith("decides commit"):
            return self.record("Commit", attempt, messages)
        if first == "decides" and not line.answer.endswith("forgets") and self.protocols(attempt) == {"nothing"}:
            return self.record("Abort", attempt, messages)
        return self.record("End", attempt, messages) if first == "forgets" else []

    def protocols(self, attempt):
        return {protocol for _, protocol in self.participants(attempt)}

    def record(self, kind, attempt, messages):
        said = {"attempt": pair_of(attempt)}
        if kind == "End":
            return [("append", kind, said)]
        if kind == "Commit":
            return forced(kind, {**said, "tickets": sorted(messages.tickets[attempt].items())})
        return forced(kind, {**said, "participants": self.participants(attempt)})

    def stopped_kind(self, line, messages):
        """Which record the stopped line was appending."""
        said = self.run.sent[line.takes].answer.split(" ") if line.takes else ["late"]
        if said[0] in ("settles", "unheld"):
            return "End"
        if said[0] == "did" and said[2] == "ticket":
            return "Initiation"
        if said[0] != "votes" or said[2] == "no":
            return "Abort"
        messages.tickets.setdefault(line.attempt, {})[line.takes[1]] = int(said[3])
        return "Abort" if self.closes_cycle(line.attempt, messages.tickets[line.attempt]) else "Commit"

    def closes_cycle(self, attempt, tickets):
        """Whether a cycle of the ticket graph goes through an attempt, if it commits beside those that did."""
        graph = {pair: dict(sites) for pair, sites in self.sum()["committed"]}
        own = pair_of(attempt)
        graph[own] = tickets
        seen, due = set(), [own]
        while due:
            first = graph[due.pop()]
            for pair, second in graph.items():
                if pair not in seen and any(first[site] < second[site] for site in first.keys() & second.keys()):
                    seen.add(pair)
                    due.append(pair)
        return own in seen

    def restarted(self):
        """The coordinator draws nothing."""

    def sum(self):
        """What the records say together."""
        opened, committed, ended = {}, {}, set()
        for kind, said in self.records:
            if kind == "Checkpoint" and said is self.records[0][1]:
                opened, committed = dict(said["open"]), dict(said["committed"])
                ended = set(committed) - set(opened)
            elif kind == "Commit":
                committed[said["attempt"]] = said["tickets"]
            elif kind == "End":
                ended.add(said["attempt"])
            elif kind != "Checkpoint":
                opened[said["attempt"]] = said["participants"]
        for pair in committed:
            opened.setdefault(pair, [(site, self.run.session.sites[site][1]) for site, _ in committed[pair]])
        presumed = {pair for pair in committed if all(protocol == "commit" for _, protocol in opened[pair])}
        left = sorted(opened.keys() - ended - presumed)
        return {"open": [(pair, opened[pair]) for pair in left], "committed": sorted(committed.items())}


class Disks:
    """The disks of all actors after the first lines of a run. `costs` has the calls that each line made."""

    def __init__(self, run):
        self.run, self.state, self.messages, self.costs = run, State(run), Messages(run), []
        self.of = {0: CoordinatorDisk(run), **{site: SiteDisk(site, run.session) for site in sorted(run.session.sites)}}

    def step(self):
        """Takes the next line. What no line before it tells can't be derived."""
        line = self.run.lines[self.state.behind]
        try:
            self.costs.append(self.take(line))
        except (KeyError, IndexError, ValueError):
            raise Wrong(f"line {line.number}: its record can't be derived from the lines before it") from None
        self.state.step()

    def take(self, line):
        self.messages.take(line)
        if line.actor not in self.of:
            return []
        disk, actor = self.of[line.actor], self.state.sites[line.actor] if line.actor else self.state.coordinator
        disk.follow(line, actor)
        if line.word == "trip":
            disk.armed = [int(line.words[2]), int(line.words[3])] if line.words[2] != "0" else None
        if line.word == "halt" and line.stops():
            self.check(line, disk.stop(int(line.words[2])))
            return []
        return self.carry_out(line, disk, disk.calls(line, actor, self.messages))

    def carry_out(self, line, disk, calls):
        """Makes the calls of a line, up to the one that stops the actor."""
        for count, call in enumerate(calls, 1):
            if disk.call(*call):
                self.check(line, disk.stop(disk.armed[1]))
                return calls[:count]
        if line.stops():
            raise Wrong(f"line {line.number}: by the lines before it nothing stops the actor here")
        if line.word == "back" and line.first() == "up":
            disk.restarted()
        return calls

    @staticmethod
    def check(line, count):
        if line.answer != f"stopped kept {count}":
            due = f"by the lines before it the actor stops and keeps {count} records"
            raise Wrong(f"line {line.number}: `{line.answer}`, but {due}")

    def go_to(self, count):
        while self.state.behind < count:
            self.step()
        return self
