#!/usr/bin/env python3
"""Prints the journals of a folder record by record, and says who is in doubt, what is torn or damaged, and which file to doubt.

The folder has the files disk0 (the coordinator) to disk8 (site 8), each with the bytes of a journal (docs/FORMATS.md, section 4). A file
that is missing or empty is an unused disk. A torn rest at the end is what a stop left: the next start cuts it back. A damaged frame is none
that a stop can leave. A site is in doubt of an attempt that is Prepared without an Ended behind it.

The journals are checked against each other. What was forced before others were told of it must still be there. So it
shows where an attempt has a commit at one site and an abort or nothing at another, where the coordinator's disk is
older than a site's, and where a site was restored from an older copy, and the file to doubt is named. `mdbfed resume`
sees less of this, since it looks at each journal almost by itself. An older copy that lacks only what nobody else was
told of is seen by neither.

The status is 0 where each journal could be read and none is to doubt, and 1 where a frame is damaged or a file is to doubt.

example: tools/journal.py FOLDER
"""
import argparse
import pathlib
import sys

import mdbcross
from mdbjournal import COORDINATOR, SITE, Journal, doubtful, still_open
from mdbtext import Wrong, told


def shown(value):
    """A field's value in one word or a few."""
    if value is None:
        return "none"
    if isinstance(value, dict):
        return "(" + fields_of(value) + ")"
    return str(value)


def attempt(pair):
    return f"{pair[0]}.{pair[1]}"


def field(name, value):
    """A field with its name."""
    if name in ("attempt", "owner"):
        return f"{name} {attempt(value) if value else 'none'}"
    if name in ("writes", "rows", "items"):
        return f"{name} " + (" ".join(f"{key}={row}" for key, row in value) or "none")
    if name in ("participants", "tickets"):
        return f"{name} " + (" ".join(f"{site}:{said}" for site, said in value) or "none")
    if name == "locals":
        return f"{name} " + (" ".join(map(attempt, value)) or "none")
    if name in ("open", "committed"):
        return f"{name} " + (" ".join(f"{attempt(it)}({' '.join(f'{site}:{said}' for site, said in at)})" for it, at in value) or "none")
    if name == "doubtful":
        return f"{name} " + (" ".join(f"({fields_of(it)})" for it in value) or "none")
    return f"{name} {shown(value)}"


def fields_of(fields):
    return ", ".join(field(name, value) for name, value in fields.items())


def ending_lines(journal):
    """What stands behind the last record that could be read."""
    if journal.damaged:
        yield f"  byte {journal.damaged[0]}: DAMAGED: {journal.damaged[1]}; nothing behind it was read"
    if journal.torn:
        yield f"  byte {journal.torn[0]}: a torn rest of {journal.torn[1]} bytes, which a start cuts back"


def site_lines(journal):
    doubts = doubtful(journal.records)
    for it in sorted(doubts):
        place, epoch, ticket = doubts[it]
        yield f"  in doubt: {attempt(it)}, prepared in epoch {epoch} with ticket {ticket} (byte {place}): the coordinator must tell"


def coordinator_lines(journal):
    found = still_open(journal.records)
    for it in sorted(found):
        outcome, sites = found[it]
        where = ", ".join(f"site {site}" + (f" (presumed {protocol})" if protocol else "") for site, protocol in sites)
        yield f"  not ended: {attempt(it)}, {outcome}, of {where}"


def report(number, data):
    """Prints one disk, and answers its journal."""
    name = f"site {number}" if number else "coordinator"
    journal = Journal(data, SITE if number else COORDINATOR)
    print(f"disk{number} ({name}): {len(data)} bytes, {len(journal.records)} records")
    for place, version, kind, fields in journal.records:
        print(f"  byte {place}: {kind}: {fields_of(fields)}" + (" (version 1)" if version == 1 else ""))
    for line in ending_lines(journal):
        print(line)
    for line in site_lines(journal) if number else coordinator_lines(journal):
        print(line)
    return journal


def doubt_lines(journals):
    """The files to doubt, by the journals of the disks that aren't empty. A changed length makes a record a torn rest."""
    records = {number: journals[number].records if number in journals else [] for number in range(9)}
    records.update((number, None) for number, journal in journals.items() if journal.damaged)
    for number, why in mdbcross.doubts(records):
        torn = number in journals and journals[number].torn
        yield f"doubt disk{number}: {why}" + (f"; or its torn rest at byte {torn[0]} is damage" if torn else "")


def main():
    reader = argparse.ArgumentParser(description=__doc__, formatter_class=argparse.RawDescriptionHelpFormatter)
    reader.add_argument("folder", metavar="FOLDER", help="the folder with the files disk0 to disk8")
    folder = pathlib.Path(reader.parse_args().folder)
    if not folder.is_dir():
        raise Wrong(f"{folder}: no such folder")
    files = {number: folder / f"disk{number}" for number in range(9)}
    present = {number: file.read_bytes() for number, file in files.items() if file.exists()}
    if not present:
        raise Wrong(f"{folder}: none of the files disk0 to disk8 is there")
    journals = {number: report(number, data) for number, data in present.items() if data}
    if not journals:
        print("all disks are empty")
    doubts = list(doubt_lines(journals))
    for line in doubts:
        print(line)
    sys.exit(1 if doubts or any(journal.damaged for journal in journals.values()) else 0)


if __name__ == "__main__":
    told(main)
