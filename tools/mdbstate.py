"""What each actor is at after each line of a run, derived from the printed lines by the rules (docs/RULES.md, sections 3 and 6 to 9)."""
import re

from mdbanswers import PRESUMED, record_of
from mdbtext import Wrong

# The answers with which an attempt isn't live any more at its site.
ENDED = "unheld|dropped|(did .* )?(dies|late) |invalid|votes .* (yes|invalid|moved)"


def attempts(names):
    """Attempts by rising number."""
    return sorted(names, key=lambda name: tuple(map(int, name.split("."))))


class Actor:
    """An actor that can stop. Its records stand oldest first, each as its kind and its attempt, or what a Checkpoint says."""

    def __init__(self, number, records):
        self.number, self.up, self.armed, self.records = number, True, None, records

    def arm(self, line):
        if line.word == "trip" and int(line.words[1]) == self.number:
            self.armed = (line.words[2], line.words[3], line.number) if line.words[2] != "0" else None

    def keep(self, line, appends, summed):
        """A stop keeps so many of the records, those of its own line included; a Checkpoint may have trimmed the others."""
        kept = int(line.answer.split(" ")[2])
        if line.word == "check" and kept == 1 and len(self.records) != 1:
            self.records = [("Checkpoint", summed)]
        else:
            self.records = (self.records + appends)[:kept]
        if len(self.records) != kept:
            raise Wrong(f"line {line.number}: {kept} records are kept, but the lines before it make {len(self.records)}")
        self.up, self.armed = False, None

    def check_count(self, line, found):
        """A start prints how many attempts it finds, which the lines before it give too."""
        self.up = True
        said = int(line.answer.split(" ")[-1])
        if said != found:
            raise Wrong(f"line {line.number}: the start finds {said} attempts, but the lines before it make {found}")


class Site(Actor):
    """A site: its live attempts with the line that began each, whom each waits for, and its records."""

    def __init__(self, number, run):
        super().__init__(number, [("Setup", None), ("Start", None)])
        self.run = run
        self.live, self.waits, self.tickets, self.doubtful = {}, {}, {}, {}

    def doubts(self):
        """The attempts in doubt, each with the line that prepared it: Prepared, without an Ended behind it."""
        return self.doubtful

    def add(self, kind, about):
        """A record more, and what it says of those in doubt."""
        self.records.append((kind, about))
        self.count(kind, about)

    def count(self, kind, about):
        if kind == "Checkpoint":
            self.doubtful = dict(about)
        elif kind == "Prepared":
            self.doubtful[about[0]] = about[1]
        elif kind == "Ended":
            self.doubtful.pop(about, None)

    def end(self, attempt):
        for of in (self.live, self.waits, self.tickets):
            of.pop(attempt, None)

    def take(self, line, decides):
        """Takes a line of this site. `decides` says whether the message that it takes is a decision."""
        self.arm(line)
        first, attempt = line.first(), line.attempt
        if line.stops():
            self.stop(line, decides)
        elif first == "up":
            self.check_count(line, len(self.doubts()))
        elif first == "begun" or first == "did" and re.search(" (done|value|ticket|waits)", line.answer):
            self.live.setdefault(attempt, line.number)
        if first in ("read", "wrote", "did", "waits"):
            self.waits.pop(attempt, None)
        self.write(line)
        self.answer(line, attempt)

    def write(self, line):
        """Adds a line's record. A Checkpoint stands for all before it; a vote that is given again has its record."""
        kind = (record_of(self.run, line) or (None,))[0]
        if kind == "Checkpoint":
            self.records = [(kind, tuple(self.doubts().items()))]
        elif kind == "Prepared" and line.attempt not in self.doubts():
            self.add(kind, (line.attempt, line.number))
        elif kind and kind != "Prepared":
            self.add(kind, line.attempt)

    def answer(self, line, attempt):
        """What the answer says of its attempt."""
        said = line.answer
        waits = re.search(r"waits (\S+)", said)
        if waits:
            self.waits[attempt] = waits[1]
        if "ticket" in said:
            self.tickets[attempt] = said.split(" ")[-1]
        if re.match(ENDED, said) or line.word == "abort" and re.match("aborted", said) or line.word == "commit" and re.match("committed", said):
            self.end(attempt)

    def stop(self, line, decides):
        """What stood in the stopped line's way: a local commit's record, a vote's, a decision's, or that of a start."""
        appends = []
        if line.word == "commit":
            appends = [("Local", line.attempt)]
        elif line.word == "give":
            appends = [("Ended", line.attempt) if decides else ("Prepared", (line.attempt, line.number))]
        elif line.word in ("back", "check"):
            appends = [("Start", None) if line.word == "back" else ("Checkpoint", tuple(self.doubts().items()))]
        self.keep(line, appends, tuple(self.doubts().items()))
        self.doubtful = {}
        for kind, about in self.records:
            self.count(kind, about)
        for of in (self.live, self.waits, self.tickets):
            of.clear()


class Coordinator(Actor):
    """The coordinator: the attempts that it knows, and its records."""

    def __init__(self, run):
        super().__init__(0, [])
        self.run, self.known = run, {}

    def participants(self, attempt):
        """The sites of an attempt's program, with their protocols."""
        steps = self.run.session.globals[int(attempt.split(".")[0])]
        return {site: self.run.session.sites[site][1] for site in sorted({site for site, _ in steps})}

    def awaited(self, attempt):
        """The sites whose required acknowledgement is missing."""
        known = self.known[attempt]
        decision = "commit" if known["decision"] == "commit" else "abort"
        return [site for site, protocol in self.participants(attempt).items() if PRESUMED[protocol] != decision and site not in known["acks"]]

    def kinds(self):
        """The kinds of the records that name each attempt."""
        found = {}
        for kind, about in self.records:
            if kind == "Checkpoint":
                found = {attempt: set(kinds) for attempt, kinds in about}
            else:
                found.setdefault(about, set()).add(kind)
        return found

    def sum(self):
        return tuple((attempt, frozenset(kinds)) for attempt, kinds in self.kinds().items())

    def take(self, line, message):
        """Takes a line of the coordinator. `message` is the line that sent what it takes."""
        self.arm(line)
        first, attempt = line.first(), line.attempt
        if first in ("voted", "acked", "decides", "forgets") and attempt not in self.known:
            raise Wrong(f"line {line.number}: `{line.answer}`, but the lines before it don't have {attempt} known")
        if first in ("begun", "initiates") and int(attempt.split(".")[0]) not in self.run.session.globals:
            raise Wrong(f"line {line.number}: `{line.answer}`, but no global transaction of {attempt} is declared")
        if line.stops():
            self.keep(line, self.appended(line, message), self.sum())
            self.known = {}
        elif first == "up":
            self.start(line)
        elif first == "checked":
            self.records = [("Checkpoint", self.sum())]
        elif record_of(self.run, line):
            self.records.append((record_of(self.run, line)[0], attempt))
        if first == "begun":
            self.known[attempt] = {"since": line.number, "decision": None, "acks": set(), "votes": []}
        elif first == "voted":
            self.known[attempt]["votes"].append(int(line.words[1]))
        elif first == "acked":
            self.known[attempt]["acks"].add(int(line.words[1]))
        elif first == "decides":
            self.decide(line, attempt)
        elif first == "forgets":
            del self.known[attempt]

    def decide(self, line, attempt):
        if line.answer.endswith("forgets"):
            del self.known[attempt]
        else:
            self.known[attempt].update(decision=line.answer.split(" ")[1], decided=line.number)

    def appended(self, line, message):
        """The record that the stopped line may have appended: of a last vote the report says whether it is kept as a Commit."""
        attempt = line.attempt
        if line.word == "check":
            return [("Checkpoint", self.sum())]
        if line.word == "late":
            return [("Abort", attempt)]
        if line.word != "take":
            return []
        said = message.answer if message else ""
        if re.match("votes .* yes", said):
            return [("Commit" if self.run.outcomes.get(attempt) == "commit" else "Abort", attempt)]
        if re.match("settles|unheld", said):
            return [("End", attempt)]
        return [("Initiation" if re.match("did .* ticket", said) else "Abort", attempt)]

    def start(self, line):
        """A start knows the attempts that have a record, no End, and a required acknowledgement."""
        for attempt, kinds in self.kinds().items():
            if "End" not in kinds:
                decision = "commit" if "Commit" in kinds else "abort"
                self.known[attempt] = {"since": line.number, "decision": decision, "decided": line.number, "acks": set(), "votes": []}
                if not self.awaited(attempt):
                    del self.known[attempt]
        self.check_count(line, len(self.known))


class State:
    """All actors of a run behind its first lines."""

    def __init__(self, run):
        self.run, self.behind = run, 0
        self.coordinator = Coordinator(run)
        self.sites = {site: Site(site, run) for site in sorted(run.session.sites)}
        self.decisions = set()

    def step(self):
        """Takes the next line."""
        line = self.run.lines[self.behind]
        if line.actor == 0:
            decided = line.attempt in self.coordinator.known and self.coordinator.known[line.attempt]["decision"] is not None
            self.coordinator.take(line, self.run.sent.get(line.takes))
            if line.first() in ("decides", "answers", "presumes") or line.word == "again" and decided:
                self.decisions.update(line.sends)
        elif line.actor in self.sites:
            self.sites[line.actor].take(line, line.takes in self.decisions)
        self.behind += 1

    def go_to(self, count):
        while self.behind < count:
            self.step()
        return self

    def actors(self):
        return [self.coordinator, *self.sites.values()]

    def rests(self):
        """Whether every actor is up, no trip is armed, and nothing is live, in doubt or known."""
        idle = not self.coordinator.known and not any(it.live or it.doubts() for it in self.sites.values())
        return idle and all(it.up and not it.armed for it in self.actors())
