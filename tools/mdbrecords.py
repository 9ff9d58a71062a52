"""Spells the records of journals and their frames (docs/FORMATS.md, section 4). A record is its kind and its fields, as
mdbjournal.py reads it."""
import hashlib

from mdbjournal import DECISIONS, ENGINES, PROTOCOLS


def coded(names, word):
    """The byte of a word."""
    return bytes([next(code for code, name in names.items() if name == word)])


def number(size, value):
    return value.to_bytes(size, "big")


def attempt(pair):
    return number(4, pair[0]) + number(1, pair[1])


def listed(size, items):
    """A count, and so many spelled items."""
    items = list(items)
    return number(size, len(items)) + b"".join(items)


def writes(rows):
    return listed(2, (number(2, key) + number(8, value) for key, value in rows))


def protocols(sites):
    return listed(1, (number(1, site) + coded(PROTOCOLS, protocol) for site, protocol in sites))


def tickets(sites):
    return listed(1, (number(1, site) + number(8, ticket) for site, ticket in sites))


def set_up(it):
    return number(1, it["site"]) + coded(ENGINES, it["engine"]) + coded(PROTOCOLS, it["protocol"])


def prepared(it):
    head = attempt(it["attempt"]) + number(4, it["epoch"]) + number(8, it["number"]) + number(8, it["ticket"])
    return head + writes(it["writes"])


def site_sum(it):
    """A site's Checkpoint."""
    head = set_up(it) + number(4, it["epoch"]) + number(8, it["counter"]) + number(8, it["ticket"])
    owner = b"\0" if it["owner"] is None else b"\1" + attempt(it["owner"])
    lists = listed(2, map(attempt, it["locals"])) + listed(2, map(prepared, it["doubtful"]))
    return head + owner + writes(it["rows"]) + lists


def coordinator_sum(it):
    """The coordinator's Checkpoint."""
    opened = listed(2, (attempt(pair) + protocols(sites) for pair, sites in it["open"]))
    return opened + listed(2, (attempt(pair) + tickets(sites) for pair, sites in it["committed"]))


SITE = {
    "Setup": (1, lambda it: set_up(it) + writes(it["items"])),
    "Start": (2, lambda it: number(4, it["epoch"])),
    "Prepared": (3, prepared),
    "Ended": (4, lambda it: attempt(it["attempt"]) + coded(DECISIONS, it["decision"])),
    "Local": (5, lambda it: attempt(it["attempt"]) + number(8, it["number"]) + writes(it["writes"])),
    "Checkpoint": (6, site_sum),
}
COORDINATOR = {
    "Initiation": (1, lambda it: attempt(it["attempt"]) + protocols(it["participants"])),
    "Commit": (2, lambda it: attempt(it["attempt"]) + tickets(it["tickets"])),
    "End": (3, lambda it: attempt(it["attempt"])),
    "Abort": (4, lambda it: attempt(it["attempt"]) + protocols(it["participants"])),
    "Checkpoint": (5, coordinator_sum),
}


def payload_of(kind, fields, kinds):
    """The payload of a record, of a site or of the coordinator."""
    code, spell = kinds[kind]
    return bytes([code]) + spell(fields)


def frame_of(payload):
    """The frame of version 2 of a payload."""
    counted = number(2, len(payload)) + payload
    return b"\0\0" + counted + hashlib.sha256(counted).digest()
