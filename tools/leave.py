#!/usr/bin/env python3
"""Writes the journals as they stand on the disks after a line of a run, as if all actors stopped there.

`mdbfed resume FOLDER` goes on from them. The folder gets the files disk0 (the coordinator) to disk8 (site 8), as
`mdbfed store FOLDER` keeps them; those of sites that aren't declared are empty. It is made where it isn't there, and
it must not have such files. The records are derived from the session and the printed lines (docs/FORMATS.md, section
4; docs/RULES.md, section 6), and frames are of version 2.

What wasn't synced stays as well. With --cut N each disk keeps N bytes beyond its last sync, as after a stop with that
cut.

example: tools/leave.py examples/transfer.fed examples/transfer.out 16 journals; ./mdbfed resume journals
"""
import argparse
import pathlib

from mdbdisks import Disks
from mdblines import read_run
from mdbtext import Wrong, told

# More bytes than a disk can have.
ALL = 999_999_999


def number_below(limit, word, what):
    """A number that is at most the limit."""
    if not (word.isascii() and word.isdigit() and len(word) < 10 and int(word) <= limit):
        raise Wrong(f"{word}: {what}")
    return int(word)


def left(run, count, cut):
    """The bytes of the nine disks after so many lines."""
    of = Disks(run).go_to(count).of
    return [of[actor].kept(cut) if actor in of else b"" for actor in range(9)]


def write_all(folder, disks):
    """Writes the files of a folder, none of which is there."""
    folder.mkdir(exist_ok=True)
    files = [folder / f"disk{actor}" for actor in range(9)]
    for file in files:
        if file.exists() or file.is_symlink():
            raise Wrong(f"{file}: it is there already; take an empty folder")
    for file, data in zip(files, disks):
        file.write_bytes(data)


def main():
    reader = argparse.ArgumentParser(description=__doc__, formatter_class=argparse.RawDescriptionHelpFormatter)
    reader.add_argument("session", metavar="SESSION", help="the input that the run was made of")
    reader.add_argument("output", metavar="OUTPUT", help="what the program printed for it")
    reader.add_argument("line", metavar="LINE", help="a line of the output, from 1; 0 is the set-up, `end` the last")
    reader.add_argument("folder", metavar="FOLDER", help="the folder for the files disk0 to disk8")
    reader.add_argument("--cut", metavar="N", default=str(ALL), help="how many bytes after its last sync a disk keeps")
    words = reader.parse_args()
    run = read_run(words.session, words.output)
    most = len(run.lines)
    what = f"LINE is 0 to {most}, or `end`: the others are of the report"
    count = most if words.line == "end" else number_below(most, words.line, what)
    disks = left(run, count, number_below(ALL, words.cut, "N is a number of bytes, from 0"))
    write_all(pathlib.Path(words.folder), disks)
    for actor, data in enumerate(disks):
        if data:
            print(f"disk{actor}: {len(data)} bytes")


if __name__ == "__main__":
    told(main)
