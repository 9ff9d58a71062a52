"""Checks how journal.py compares the journals of a folder with each other. check.py runs it."""
import hashlib
import pathlib
import tempfile

import mdbcross
from mdbchecks import TOP, called_closed, called_with, require, told_by
from mdbjournal import COORDINATOR, SITE, Journal

NOTHING, ABORT, COMMIT = range(1, 4)


def frame(payload):
    """A frame of version 2."""
    sized = len(payload).to_bytes(2, "big") + payload
    return b"\0\0" + sized + hashlib.sha256(sized).digest()


def attempt(tx):
    return tx.to_bytes(4, "big") + b"\0"


def set_up(site, protocol):
    """The Setup of a locking site without items, and Start 1."""
    return frame(bytes([1, site, 1, protocol, 0, 0])) + frame(b"\2\0\0\0\1")


def prepared(tx, ticket):
    return frame(b"\3" + attempt(tx) + (1).to_bytes(4, "big") + ticket.to_bytes(8, "big") * 2 + b"\0\0")


def ended(tx, decision):
    return frame(b"\4" + attempt(tx) + bytes([1 if decision == "commit" else 2]))


def local(tx, number):
    return frame(b"\5" + attempt(tx) + number.to_bytes(8, "big") + b"\0\0")


def commit(tx, *tickets):
    """A Commit, with each site and its ticket."""
    return frame(b"\2" + attempt(tx) + bytes([len(tickets)]) + b"".join(bytes([site]) + it.to_bytes(8, "big") for site, it in tickets))


def initiation(tx, *participants):
    """An Initiation, with each site and its protocol."""
    return frame(b"\1" + attempt(tx) + bytes([len(participants)]) + b"".join(map(bytes, participants)))


def end(tx):
    return frame(b"\3" + attempt(tx))


def summed(ticket):
    """The Checkpoint of site 2, locking, presumed abort, with that ticket published by 1.0, and nobody in doubt."""
    counted = (1).to_bytes(4, "big") + ticket.to_bytes(8, "big") * 2
    return frame(bytes([6, 2, 1, ABORT]) + counted + b"\1" + attempt(1) + bytes(6))


DECIDED = commit(1, (1, 1), (2, 1))
TOLD = DECIDED + end(1)
FIRST, SECOND = set_up(1, ABORT), set_up(2, ABORT)
DONE = prepared(1, 1) + ended(1, "commit")
OLDER_SITE = "1.0 is in doubt here, and by disk0 it acknowledged the commit: it is older than disk0, or of another session"
UNPREPARED = "1.0 is committed in disk0 with ticket {} here, and isn't prepared here: it is older than disk0, or of another session"
NO_COMMIT = "1.0 ended at site {0} by commit, and has no Commit here: it is older than disk{0}, or of another session"
TOLD_WRONG = "1.0 ended here by abort, and at site 1 by commit: one of the two was told wrong"
DAMAGED = TOLD[:-1] + b"\0"
# The disks 0, 1 and 2, and the files to doubt.
FOLDERS = (
    ("all is told", (TOLD, FIRST + DONE, SECOND + DONE), []),
    ("the decision is on its way", (DECIDED, FIRST + DONE, SECOND + prepared(1, 1)), []),
    ("a site is told to abort, and another one isn't prepared", (b"", FIRST + prepared(1, 1) + ended(1, "abort"), SECOND), []),
    ("a Checkpoint stands for what ended", (TOLD, FIRST + DONE, summed(1)), []),
    ("a site without its Ended", (TOLD, FIRST + DONE, SECOND + prepared(1, 1)), [(2, OLDER_SITE)]),
    ("a site without its Prepared", (TOLD, FIRST + DONE, SECOND), [(2, UNPREPARED.format(1))]),
    ("a Checkpoint from before", (commit(1, (1, 1), (2, 2)), FIRST + DONE, summed(1)), [(2, UNPREPARED.format(2))]),
    ("a site without anything", (TOLD, FIRST + DONE, b""), [(2, "it is empty or missing, and disk0 names its site")]),
    ("no coordinator", (b"", FIRST + DONE, SECOND + prepared(1, 1)), [(0, NO_COMMIT.format(1))]),
    (
        "a coordinator from before, and a site that it told to abort",
        (b"", FIRST + DONE, SECOND + prepared(1, 1) + ended(1, "abort")),
        [(0, NO_COMMIT.format(1)), (2, TOLD_WRONG)],
    ),
    (
        "a damaged coordinator",
        (DAMAGED, FIRST + DONE, SECOND + prepared(1, 1) + ended(1, "abort")),
        [(2, TOLD_WRONG)],
    ),
    (
        "a site that was told to abort",
        (TOLD, FIRST + DONE, SECOND + prepared(1, 1) + ended(1, "abort")),
        [(2, "1.0 is committed in disk0 and ended here by abort: an older copy of it was resumed, or it is of another session")],
    ),
    (
        "another ticket",
        (TOLD, FIRST + DONE, SECOND + prepared(1, 2) + ended(1, "commit")),
        [(2, "1.0 is committed in disk0 with ticket 1 here, and prepared here with ticket 2: it is of another session")],
    ),
    (
        "no Initiation",
        (b"", FIRST, set_up(2, COMMIT) + prepared(1, 1)),
        [(0, "1.0 is prepared at site 2, which presumes commit, and has no Initiation here: it is older than disk2, or of another session")],
    ),
    (
        "another protocol",
        (initiation(1, (1, NOTHING), (2, COMMIT)), FIRST, set_up(2, COMMIT)),
        [(1, "its site presumes abort, and by disk0 (1.0) nothing: the two are of different sessions")],
    ),
    (
        "a local transaction that is global elsewhere",
        (TOLD, FIRST + DONE, SECOND + DONE + local(1, 2)),
        [(2, "transaction 1 is local here and global in disk0: the two are of different sessions")],
    ),
    (
        "a local transaction of two sites",
        (b"", FIRST + local(3, 1), SECOND + local(3, 1)),
        [(2, "transaction 3 is local here and in disk1: the two are of different sessions")],
    ),
    ("swapped sites", (b"", SECOND, FIRST), [(1, "it is the journal of site 2"), (2, "it is the journal of site 1")]),
    (
        "a site without its front",
        (b"", DONE, SECOND),
        [(1, "its first record is no Setup and no Checkpoint: its front is missing, or it is the coordinator's")],
    ),
)


def records_of(disks):
    """The records of the disks 0 to 8, where None stands for a damaged one."""
    journals = {number: Journal(data, SITE if number else COORDINATOR) for number, data in disks.items()}
    return {number: None if it.damaged else it.records for number, it in journals.items()}


def disks_of(path):
    """The disks of a file of lines `disk N HEX`."""
    lines = [line.split(" ") for line in path.read_text().splitlines()]
    return {int(words[1]): bytes.fromhex("".join(words[2:])) for words in lines}


def check_doubts():
    """Which files of a folder are to doubt."""
    for name, disks, wanted in FOLDERS:
        found = mdbcross.doubts(records_of({**dict.fromkeys(range(9), b""), **dict(enumerate(disks))}))
        require(found == wanted, f"mdbcross.py: {name}: {found}")
    for output in sorted((TOP / "conformance/resume").glob("*.stdout")):
        case, text = output.with_suffix(""), output.read_text()
        found = mdbcross.doubts(records_of(disks_of(case)))
        # A changed length looks like a torn rest, and the program goes on; that a Prepared is torn off shows beside the coordinator's disk.
        is_foreign = "foreign" in text or "damaged" in text or case.name == "length-changed"
        require(is_foreign or not found, f"{case}: {found}")
        require(found or case.name not in ("swapped", "moved", "coordinator-alone", "length-changed"), f"{case}: nothing to doubt")
    check_printed_doubts()


def check_printed_doubts():
    """What journal.py prints of a folder, and its status."""
    with tempfile.TemporaryDirectory() as folder:
        room = pathlib.Path(folder)
        for _, disks, wanted in FOLDERS[1], FOLDERS[4]:
            for number, data in enumerate(disks):
                (room / f"disk{number}").write_bytes(data)
            said = called_with(int(bool(wanted)), "journal.py", room).splitlines()
            require([it for it in said if "doubt disk" in it] == [f"doubt disk{number}: {why}" for number, why in wanted], f"journal.py: {said}")
        called_closed("journal.py", room)
        (room / "disk2").write_bytes(SECOND + prepared(1, 1)[:-1])
        torn = f"doubt disk2: {UNPREPARED.format(1)}; or its torn rest at byte {len(SECOND)} is damage"
        require(called_with(1, "journal.py", room).splitlines()[-1] == torn, "journal.py: a torn rest that may be damage")
        (room / "disk0").unlink()
        require("doubt disk0: " + NO_COMMIT.format(1) in called_with(1, "journal.py", room), "journal.py: no coordinator")
        (room / "disk3").mkdir()
        require("disk3: Is a directory" in told_by("journal.py", room), "journal.py: a folder in a disk's place")
        require("no such folder" in told_by("journal.py", room / "disk1"), "journal.py: a file in the folder's place")
