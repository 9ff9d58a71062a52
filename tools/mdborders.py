"""The orders of the sites in a run, with tickets and conflicts, derived from the printed lines by the rules (docs/RULES.md, 3 to 5 and 11)."""
from mdbstate import State
from mdbtext import Wrong

# The engines whose serial number is drawn at the sealing; the others' is drawn at the begin.
DRAWN_AT_SEALING = ("locking", "validation")


class Numbers:
    """The serial number of each attempt that was sealed at a site, by a counter that goes on over begins, sealings and recoveries."""

    def __init__(self, engine):
        self.engine, self.counter, self.begun, self.sealed = engine, 0, {}, {}

    def begin(self, attempt):
        self.counter += 1
        self.begun[attempt] = self.counter

    def seal(self, attempt, line):
        if self.engine in DRAWN_AT_SEALING:
            self.counter += 1
            self.sealed[attempt] = self.counter
        elif attempt in self.begun:
            self.sealed[attempt] = self.begun[attempt]
        else:
            raise Wrong(f"line {line.number}: {attempt} is sealed, but no line before it begins it")

    def crash(self):
        self.counter = max(self.sealed.values(), default=0)


class Orders:
    """The numbers and the tickets of each site, from a whole run."""

    def __init__(self, run):
        self.run, self.tickets, state = run, {}, State(run)
        self.numbers = {site: Numbers(engine) for site, (engine, _) in run.session.sites.items()}
        for line in run.lines:
            site = state.sites.get(line.actor)
            before = (set(site.live), set(site.doubts()), len(site.records)) if site else None
            state.step()
            if site:
                self.follow(line, site, before)
        self.refused = {line.attempt: line for line in run.lines if line.edges()}

    def follow(self, line, site, before):
        if line.attempt is None:
            return self.numbers[line.actor].crash() if line.stops() else None
        (live, doubtful, kept), numbers = before, self.numbers[line.actor]
        if line.word == "begin" and line.first() == "begun":
            numbers.begin(line.attempt)
        elif line.first() == "did" and not line.answer.endswith("unknown") and line.attempt not in live | doubtful:
            numbers.begin(line.attempt)
        elif line.word == "commit" and line.first() == "committed":
            numbers.seal(line.attempt, line)
            self.check(line, numbers.sealed[line.attempt])
        elif line.first() == "votes" and " yes " in line.answer:
            self.tickets[line.attempt, line.actor] = int(line.answer.split(" ")[-1])
            if line.attempt not in doubtful:
                numbers.seal(line.attempt, line)
        elif line.stops():
            if len(site.records) > kept and site.records[-1][0] in ("Local", "Prepared"):
                numbers.seal(line.attempt, line)
            numbers.crash()

    @staticmethod
    def check(line, number):
        printed = int(line.answer.split(" ")[-1])
        if printed != number:
            raise Wrong(f"line {line.number}: number {printed} is printed, but the lines before it make {number}")

    def counts(self, attempt):
        """Whether an attempt stands in the orders: a local one that is sealed, a global one that committed."""
        return int(attempt.split(".")[0]) in self.run.session.locals or self.run.outcomes.get(attempt) == "commit"

    def members(self, site, more=()):
        """The order of a site by rising number, with some attempts more that were sealed there."""
        sealed = self.numbers[site].sealed
        return sorted((it for it in sealed if self.counts(it) or it in more), key=sealed.get)

    def accesses(self, attempt, site):
        """The keys that an attempt reads and writes at a site, by its program."""
        number = int(attempt.split(".")[0])
        _, steps = self.run.session.locals.get(number, (None, self.run.session.globals.get(number, [])))
        acts = [act for at, act in steps if at == site]
        return {act[1] for act in acts if act[0] == "get"}, {act[1] for act in acts if act[0] != "get"}

    @staticmethod
    def conflict(first, second):
        """The keys for which two conflict, given what each reads and writes: one of them writes it."""
        (reads, writes), (other_reads, other_writes) = first, second
        return sorted(writes & (other_reads | other_writes) | reads & other_writes)

    def conflicts(self, site, members):
        """The conflicts of a site's order, each from the earlier attempt to the later; those that follow from others are left out."""
        found, behind, accesses = [], {}, {attempt: self.accesses(attempt, site) for attempt in members}
        for at, second in enumerate(members):
            behind[second] = set()
            for first in reversed(members[:at]):
                keys = [] if first in behind[second] else self.conflict(accesses[first], accesses[second])
                if keys:
                    found.append((first, second, keys))
                    behind[second] |= {first} | behind[first]
        return found

    def ticket_edges(self):
        """From each attempt with a ticket to the next one at the site, over those that committed and those that were refused."""
        edges = []
        for site in sorted(self.numbers):
            takers = [it for it in self.members(site, self.refused) if (it, site) in self.tickets]
            takers.sort(key=lambda it, site=site: self.tickets[it, site])
            edges += [(first, second, site) for first, second in zip(takers, takers[1:])]
        return edges

    def path(self, first, second, site):
        """Conflicts that lead from one attempt to a later one at a site, as few as can be, or none."""
        steps = self.conflicts(site, self.members(site, self.refused))
        ways = {first: []}
        waiting = [first]
        for at in waiting:
            for step in steps:
                if step[0] == at and step[1] not in ways:
                    ways[step[1]] = ways[at] + [step]
                    waiting.append(step[1])
        return ways.get(second, [])
