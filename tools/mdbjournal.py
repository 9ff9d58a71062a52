"""Reads a journal as docs/FORMATS.md says (section 4): frames of both versions, and the records of a site and of the coordinator."""
import hashlib

ENGINES = {1: "locking", 2: "timestamp", 3: "validation", 4: "multiversion"}
PROTOCOLS = {1: "nothing", 2: "abort", 3: "commit"}
DECISIONS = {1: "commit", 2: "abort"}


class NoRecord(Exception):
    """A payload that is no record."""


class Fields:
    """The fields of a payload, from the front."""

    def __init__(self, payload):
        self.rest = payload

    def number(self, size):
        if len(self.rest) < size:
            raise NoRecord
        found, self.rest = int.from_bytes(self.rest[:size], "big"), self.rest[size:]
        return found

    def within(self, low, high, size):
        found = self.number(size)
        if not low <= found <= high:
            raise NoRecord
        return found

    def named(self, names):
        code = self.number(1)
        if code not in names:
            raise NoRecord
        return names[code]

    def attempt(self):
        return self.within(1, 1024, 4), self.within(0, 31, 1)

    def rising(self, size, item, key=lambda found: found):
        """A count, and so many items whose keys rise."""
        found = [item() for _ in range(self.number(size))]
        keys = [key(it) for it in found]
        if any(second <= first for first, second in zip(keys, keys[1:])):
            raise NoRecord
        return found

    def writes(self):
        return self.rising(2, lambda: (self.number(2), self.number(8)), lambda row: row[0])

    def participants(self, second):
        return self.rising(1, lambda: (self.within(1, 8, 1), second()), lambda it: it[0])

    def protocols(self):
        return self.participants(lambda: self.named(PROTOCOLS))

    def tickets(self):
        return self.participants(lambda: self.number(8))

    def prepared(self):
        found = {"attempt": self.attempt(), "epoch": self.number(4), "number": self.number(8), "ticket": self.number(8)}
        return {**found, "writes": self.writes()}

    def set_up(self):
        return {"site": self.within(1, 8, 1), "engine": self.named(ENGINES), "protocol": self.named(PROTOCOLS)}

    def site_sum(self):
        """What a site's Checkpoint says."""
        found = self.set_up()
        found.update(epoch=self.number(4), counter=self.number(8), ticket=self.number(8))
        found["owner"] = self.attempt() if self.within(0, 1, 1) else None
        found["rows"] = self.writes()
        found["locals"] = self.rising(2, self.attempt)
        found["doubtful"] = self.rising(2, self.prepared, lambda it: it["attempt"])
        return found

    def coordinator_sum(self):
        """What the coordinator's Checkpoint says."""
        return {
            "open": self.rising(2, lambda: (self.attempt(), self.protocols()), lambda it: it[0]),
            "committed": self.rising(2, lambda: (self.attempt(), self.tickets()), lambda it: it[0]),
        }


SITE = {
    1: ("Setup", lambda it: {**it.set_up(), "items": it.writes()}),
    2: ("Start", lambda it: {"epoch": it.number(4)}),
    3: ("Prepared", Fields.prepared),
    4: ("Ended", lambda it: {"attempt": it.attempt(), "decision": it.named(DECISIONS)}),
    5: ("Local", lambda it: {"attempt": it.attempt(), "number": it.number(8), "writes": it.writes()}),
    6: ("Checkpoint", Fields.site_sum),
}
COORDINATOR = {
    1: ("Initiation", lambda it: {"attempt": it.attempt(), "participants": it.protocols()}),
    2: ("Commit", lambda it: {"attempt": it.attempt(), "tickets": it.tickets()}),
    3: ("End", lambda it: {"attempt": it.attempt()}),
    4: ("Abort", lambda it: {"attempt": it.attempt(), "participants": it.protocols()}),
    5: ("Checkpoint", Fields.coordinator_sum),
}


def record_of(payload, kinds):
    """The record of a payload: its kind and its fields."""
    fields = Fields(payload)
    code = fields.number(1)
    if code not in kinds:
        raise NoRecord
    kind, read = kinds[code]
    found = read(fields)
    if fields.rest:
        raise NoRecord
    return kind, found


def frame_at(data, place):
    """The version, payload and length of the frame at a place, and whether its digest is right; None where no whole frame stands there."""
    head = data[place : place + 4]
    if len(head) < 2:
        return None
    length = int.from_bytes(head[:2], "big")
    if length:
        payload = data[place + 2 : place + 2 + length]
        return (1, payload, 2 + length, True) if len(payload) == length else None
    whole = 36 + int.from_bytes(head[2:], "big")
    if len(head) < 4 or len(data) < place + whole:
        return None
    payload, digest = data[place + 4 : place + whole - 32], data[place + whole - 32 : place + whole]
    return 2, payload, whole, hashlib.sha256(head[2:] + payload).digest() == digest


class Journal:
    """The records of a disk with their places and versions, and what stopped the reading: nothing, or a place and what stands there."""

    def __init__(self, data, kinds):
        self.records, self.size, self.damaged, self.torn = [], len(data), None, None
        place = 0
        while place < len(data):
            frame = frame_at(data, place)
            if frame is None:
                self.torn = place, len(data) - place
                return
            version, payload, length, intact = frame
            if not intact:
                self.damaged = place, "its digest isn't that of its length and payload"
                return
            try:
                kind, fields = record_of(payload, kinds)
            except NoRecord:
                self.damaged = place, "its payload is no record"
                return
            self.records.append((place, version, kind, fields))
            place += length


def doubtful(records):
    """The attempts that a site is in doubt of, each with the place of the record that says so."""
    found = {}
    for place, _, kind, fields in records:
        if kind == "Checkpoint":
            found = {it["attempt"]: (place, it["epoch"], it["ticket"]) for it in fields["doubtful"]}
        elif kind == "Prepared":
            found[fields["attempt"]] = place, fields["epoch"], fields["ticket"]
        elif kind == "Ended":
            found.pop(fields["attempt"], None)
    return found


def still_open(records):
    """The coordinator's attempts that want an acknowledgement: their outcome, and their sites with the protocols that the disk names."""
    participants, committed, ended = {}, {}, set()
    for _, _, kind, fields in records:
        if kind == "Checkpoint":
            participants, committed = dict(fields["open"]), dict(fields["committed"])
            ended = {attempt for attempt in committed if attempt not in participants}
        elif kind == "Commit":
            committed[fields["attempt"]] = fields["tickets"]
        elif kind == "End":
            ended.add(fields["attempt"])
        else:
            participants.setdefault(fields["attempt"], fields["participants"])
    found = {}
    for attempt in {**participants, **committed}:
        outcome = "commit" if attempt in committed else "abort"
        sites = participants.get(attempt) or [(site, None) for site, _ in committed.get(attempt, [])]
        # A presumption of the outcome asks for no acknowledgement. Without an Initiation a commit has none of presumed commit.
        if attempt not in ended and any(protocol != outcome for _, protocol in sites):
            found[attempt] = outcome, sites
    return found
