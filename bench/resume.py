#!/usr/bin/env python3
"""Counts the instructions of `mdbfed resume FOLDER` on long journals, beside what reading them once takes. It is no part of the gate, and wants
`valgrind`.

usage: bench/resume.py [--records N] [PROGRAM]

PROGRAM is the built `mdbfed`, by default the one that `rt run` leaves in crates/mdbfed/out. The journals are made here, as docs/FORMATS.md has
them, the same at each run, with N records at eight sites together, by default 60,000, and with a quarter of them:

  starts    each site has its Setup and Starts
  commits   1,024 global transactions committed at three sites each, in an order that isn't that of their tickets, and Starts make up the rest

Reading them once is what a `resume` takes that finds a damaged digest in the last frame of site 8: it reads all nine journals and ends with
status 10. A site is digested, read and tested for each rule before its session goes on.
"""
import argparse
import hashlib
import pathlib
import re
import subprocess
import sys
import tempfile

from journal_files import PROGRAM

SITES = range(1, 9)
LOCKING, PRESUMED_ABORT, COMMIT = 1, 2, 1


def big(number, size):
    return number.to_bytes(size, "big")


def frame(payload):
    length = big(len(payload), 2)
    return bytes(2) + length + payload + hashlib.sha256(length + payload).digest()


def attempt(tx):
    return big(tx, 4) + bytes(1)


def set_up(site):
    return bytes([1, site, LOCKING, PRESUMED_ABORT]) + big(0, 2)


def start(epoch):
    return b"\2" + big(epoch, 4)


def prepared(tx, number, ticket):
    return b"\3" + attempt(tx) + big(1, 4) + big(number, 8) + big(ticket, 8) + big(1, 2) + big(tx, 2) + big(tx, 8)


def ended(tx):
    return b"\4" + attempt(tx) + bytes([COMMIT])


def at_sites(tx):
    """The three sites of a transaction, rising."""
    return sorted((tx + step) % 8 + 1 for step in (0, 1, 3))


def initiation(tx):
    return b"\1" + attempt(tx) + bytes([3]) + b"".join(bytes([site, PRESUMED_ABORT]) for site in at_sites(tx))


def commit(tx):
    return b"\2" + attempt(tx) + bytes([3]) + b"".join(bytes([site]) + big(tx, 8) for site in at_sites(tx))


def end(tx):
    return b"\3" + attempt(tx)


def commit_order(count):
    """The transactions, each eight in a row backwards."""
    return [tx for first in range(1, count + 1, 8) for tx in reversed(range(first, min(first + 8, count + 1)))]


def journals(kind, records):
    """The payloads of each disk."""
    count = min(1024, records // 16) if kind == "commits" else 0
    order = commit_order(count)
    disks = {0: [make(tx) for tx in order for make in (initiation, commit, end)]}
    each = (records - len(disks[0])) // 8
    for site in SITES:
        own = [tx for tx in range(1, count + 1) if site in at_sites(tx)]
        made = [set_up(site), start(1)]
        for place, tx in enumerate(own, 1):
            made += [prepared(tx, place, tx), ended(tx)]
        disks[site] = made + [start(epoch) for epoch in range(2, 2 + each - len(made))]
    return disks


def keep(folder, disks):
    """Writes the journals, and gives how many bytes they have."""
    size = 0
    for number, payloads in disks.items():
        data = b"".join(map(frame, payloads))
        (folder / f"disk{number}").write_bytes(data)
        size += len(data)
    return size


def damage(folder):
    """Changes the last byte of site 8's journal."""
    file = folder / "disk8"
    data = bytearray(file.read_bytes())
    data[-1] ^= 1
    file.write_bytes(data)


def counted(program, folder, want):
    """How many instructions a `resume` takes that ends with this status."""
    words = ["valgrind", "--tool=callgrind", "--callgrind-out-file=/dev/null", program, "resume", folder]
    ran = subprocess.run(words, stdout=subprocess.PIPE, stderr=subprocess.PIPE, timeout=3600, check=False)
    if ran.returncode != want:
        sys.exit(f"resume: status {ran.returncode} in place of {want}: {ran.stdout[-200:]!r}")
    return int(re.search(rb"Collected : (\d+)", ran.stderr).group(1))


def measure(program, kind, records):
    """The instructions of a `resume`."""
    disks = journals(kind, records)
    count = sum(map(len, disks.values()))
    with tempfile.TemporaryDirectory() as room:
        folder = pathlib.Path(room)
        size = keep(folder, disks)
        whole = counted(program, folder, 0)
        keep(folder, disks)
        damage(folder)
        once = counted(program, folder, 10)
    print(f"{kind:8} {count:7,} records {size:10,} bytes {whole:14,} instructions, {whole / once:.2f} times reading them once ({once:,})", flush=True)
    return whole


def main():
    reader = argparse.ArgumentParser(description=__doc__.splitlines()[0])
    reader.add_argument("--records", type=int, default=60_000)
    reader.add_argument("program", nargs="?", default=PROGRAM)
    words = reader.parse_args()
    for kind in ("starts", "commits"):
        part, whole = (measure(str(words.program), kind, records) for records in (words.records // 4, words.records))
        print(f"{kind:8} from a quarter to the whole {whole / part:.2f}")


if __name__ == "__main__":
    main()
