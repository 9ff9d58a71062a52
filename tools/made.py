#!/usr/bin/env python3
"""Prints the scenario that `mdbfed make NUMBER SITES TRANSACTIONS` draws and runs (docs/FORMATS.md, section 6).

It is an input of `run`, and with a line `commands` and commands behind it one of `replay`.

example: tools/made.py 5 3 100 > made.run && ./mdbfed run < made.run
"""
import argparse

from mdbtext import ENGINES, PROTOCOLS, told


class Draws:
    """The generator of Knuth's MMIX."""

    def __init__(self, number):
        self.x = number

    def below(self, n):
        self.x = (6364136223846793005 * self.x + 1442695040888963407) % 2**64
        return (self.x >> 33) % n


def transaction(draws, tx, sites):
    """A line that moves an amount from one row to another, at one site or between two."""
    if sites > 1 and tx % 2 == 0:
        a = 1 + draws.below(sites)
        b = 1 + (a + draws.below(sites - 1)) % sites
        k, l, m = draws.below(10), draws.below(10), 1 + draws.below(9)
        return f"global {tx} {a}/get:{k} {a}/add:{k}:0:{2**64 - m} {b}/get:{l} {b}/add:{l}:1:{m}"
    s, k = 1 + draws.below(sites), draws.below(10)
    l = (k + 1 + draws.below(9)) % 10
    m = 1 + draws.below(9)
    return f"local {tx} {s} get:{k} add:{k}:0:{2**64 - m} get:{l} add:{l}:1:{m}"


def scenario(number, sites, transactions):
    """The lines of the scenario."""
    draws = Draws(number)
    kinds = [(ENGINES[draws.below(3)], PROTOCOLS[draws.below(3)]) for _ in range(sites)]
    yield from (f"site {site} {engine} {protocol}" for site, (engine, protocol) in enumerate(kinds, 1))
    yield from (f"item {site} {key} 100" for site in range(1, sites + 1) for key in range(10))
    yield from (transaction(draws, tx, sites) for tx in range(1, transactions + 1))


def between(low, high):
    """A number from low to high, as the program's words spell it."""

    def read(word):
        if not (word.isascii() and word.isdigit()) or word != str(int(word)) or not low <= int(word) <= high:
            raise argparse.ArgumentTypeError(f"{word!r} isn't a number from {low} to {high}")
        return int(word)

    return read


def main():
    reader = argparse.ArgumentParser(description=__doc__, formatter_class=argparse.RawDescriptionHelpFormatter)
    reader.add_argument("number", metavar="NUMBER", type=between(0, 2**64 - 1), help="what the scenario is drawn from, below 2^64")
    reader.add_argument("sites", metavar="SITES", type=between(1, 8), help="how many sites it has, 1 to 8")
    reader.add_argument("transactions", metavar="TRANSACTIONS", type=between(1, 1024), help="how many transactions it has, 1 to 1,024")
    words = reader.parse_args()
    for line in scenario(words.number, words.sites, words.transactions):
        print(line)


if __name__ == "__main__":
    told(main)
