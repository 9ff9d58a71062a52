"""Checks the journals of a folder against each other (docs/RULES.md, sections 8, 9 and 15). The tools share it.

A Prepared that was voted on, an Ended that its protocol forces, and the coordinator's Initiation and Commit are synced
before anybody is told of them, so they stay. Where one of them is missing, the file that hasn't it is older than
another one, or of another session.
"""

OLDER = "it is older than {}, or of another session"


class Site:
    """What a site's journal says: its set-up, the prepared attempts with their tickets, and how they ended."""

    def __init__(self, records):
        self.site = self.protocol = None
        self.prepared, self.ended, self.doubtful, self.locals = {}, {}, set(), set()
        self.summed = 0
        if records[0][2] == "Checkpoint":
            self.sum_up(records[0][3])
        for _, _, kind, fields in records:
            self.add(kind, fields)

    def add(self, kind, fields):
        """Takes a record. A Checkpoint behind others says nothing new."""
        if kind == "Setup":
            self.site, self.protocol = fields["site"], fields["protocol"]
        elif kind == "Prepared":
            self.prepare(fields)
        elif kind == "Ended":
            self.ended[fields["attempt"]] = fields["decision"]
            self.doubtful.discard(fields["attempt"])
        elif kind == "Local":
            self.locals.add(fields["attempt"][0])

    def prepare(self, fields):
        self.prepared[fields["attempt"]] = fields["ticket"]
        self.doubtful.add(fields["attempt"])

    def sum_up(self, fields):
        """Takes a first Checkpoint, which stands for all before it. Attempts with tickets up to its own may have ended."""
        self.site, self.protocol, self.summed = fields["site"], fields["protocol"], fields["ticket"]
        self.locals.update(it[0] for it in fields["locals"])
        for found in fields["doubtful"]:
            self.prepare(found)

    def globals(self):
        return {*self.prepared, *self.ended}


class Coordinator:
    """What the coordinator's journal says of each attempt: its participants, its Commit's tickets, and its End."""

    def __init__(self, records):
        self.participants, self.committed, self.ended, self.is_summed = {}, {}, set(), False
        for _, _, kind, fields in records:
            self.add(kind, fields)

    def add(self, kind, fields):
        if kind == "Checkpoint":
            self.is_summed = True
            self.participants.update((attempt, dict(sites)) for attempt, sites in fields["open"])
            self.committed.update((attempt, dict(tickets)) for attempt, tickets in fields["committed"])
            self.ended.update(attempt for attempt in self.committed if attempt not in self.participants)
        elif kind == "Commit":
            self.committed[fields["attempt"]] = dict(fields["tickets"])
        elif kind == "End":
            self.ended.add(fields["attempt"])
        else:
            self.participants[fields["attempt"]] = dict(fields["participants"])

    def named(self):
        return {*self.participants, *self.committed}

    def outcome(self, attempt):
        return "commit" if attempt in self.committed else "abort"

    def sites(self):
        """The sites that a record names."""
        return {site for of in (*self.participants.values(), *self.committed.values()) for site in of}


def spelled(attempt):
    return f"{attempt[0]}.{attempt[1]}"


def of_protocol(number, site, coordinator):
    """The coordinator knows the site's protocol."""
    for attempt, sites in sorted(coordinator.participants.items()):
        known = sites.get(number, site.protocol)
        if known != site.protocol:
            yield number, f"its site presumes {site.protocol}, and by disk0 ({spelled(attempt)}) {known}: the two are of different sessions"
            return


def of_commits(number, site, coordinator):
    """What the coordinator committed is prepared at each participant, with the Commit's ticket, and didn't abort there."""
    for attempt, tickets in sorted(coordinator.committed.items()):
        if number not in tickets:
            continue
        name, ticket = spelled(attempt), tickets[number]
        found = site.prepared.get(attempt)
        if site.ended.get(attempt) == "abort":
            yield number, f"{name} is committed in disk0 and ended here by abort: an older copy of it was resumed, or it is of another session"
        elif found is None and ticket > site.summed:
            yield number, f"{name} is committed in disk0 with ticket {ticket} here, and isn't prepared here: {OLDER.format('disk0')}"
        elif found is not None and found != ticket:
            yield number, f"{name} is committed in disk0 with ticket {ticket} here, and prepared here with ticket {found}: it is of another session"


def of_ends(number, site, coordinator):
    """Where the coordinator has an End, a participant that acknowledges the outcome is no longer in doubt."""
    for attempt in sorted(coordinator.ended & site.doubtful):
        outcome = coordinator.outcome(attempt)
        if site.protocol != outcome:
            yield number, f"{spelled(attempt)} is in doubt here, and by disk0 it acknowledged the {outcome}: {OLDER.format('disk0')}"


def of_coordinator(number, site, coordinator):
    """A site ends an attempt by commit only after its Commit, and one of presumed commit prepares after an Initiation."""
    for attempt in sorted(site.globals()):
        name, decision = spelled(attempt), site.ended.get(attempt)
        if decision == "commit" and attempt not in coordinator.committed:
            yield 0, f"{name} ended at site {number} by commit, and has no Commit here: {OLDER.format(f'disk{number}')}"
        elif site.protocol == "commit" and attempt not in coordinator.named() and (attempt in site.doubtful or not coordinator.is_summed):
            yield 0, f"{name} is prepared at site {number}, which presumes commit, and has no Initiation here: {OLDER.format(f'disk{number}')}"


def of_outcomes(sites, coordinator):
    """No attempt ends by commit at one site and by abort at another. Beside its Commit `of_commits` says so."""
    committed = {it: number for number, site in sites.items() for it, decision in site.ended.items() if decision == "commit"}
    for number, site in sites.items():
        for attempt, decision in sorted(site.ended.items()):
            if decision == "abort" and attempt in committed and attempt not in coordinator.committed:
                yield number, f"{spelled(attempt)} ended here by abort, and at site {committed[attempt]} by commit: one of the two was told wrong"


def of_locals(sites, coordinator):
    """A transaction is local or global, and a local one is of one site."""
    named = {attempt[0]: number for number, site in sites.items() for attempt in site.globals()}
    named.update((attempt[0], 0) for attempt in coordinator.named())
    homes = {}
    for number, site in sorted(sites.items()):
        for tx in sorted(site.locals):
            if tx in named:
                yield number, f"transaction {tx} is local here and global in disk{named[tx]}: the two are of different sessions"
            elif homes.setdefault(tx, number) != number:
                yield number, f"transaction {tx} is local here and in disk{homes[tx]}: the two are of different sessions"


def misplaced(sites):
    """The disks that lie under another site's name, or begin with no Setup and no Checkpoint."""
    for number, site in sites.items():
        if site.site is None:
            yield number, "its first record is no Setup and no Checkpoint: its front is missing, or it is the coordinator's"
        elif site.site != number:
            yield number, f"it is the journal of site {site.site}"


def doubts(records):
    """The files to doubt, each with why, by the records of the disks 0 to 8. An empty disk has none; that of a damaged one
    is None, and it isn't compared."""
    sites = {number: Site(found) for number, found in records.items() if number and found}
    wrong = list(misplaced(sites))
    sites = {number: site for number, site in sites.items() if site.site == number}
    coordinator = Coordinator(records[0] or ())
    found = [*wrong, *of_locals(sites, coordinator), *of_outcomes(sites, coordinator)]
    rules = (of_protocol, of_commits, of_ends, of_coordinator) if records[0] is not None else ()
    for number, site in sites.items():
        found += [it for rule in rules for it in rule(number, site, coordinator)]
    found += [(number, "it is empty or missing, and disk0 names its site") for number in coordinator.sites() if records[number] == []]
    return sorted(found)
