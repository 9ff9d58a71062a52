#!/usr/bin/env python3
"""Refuses each allocation of a call in turn, and counts how the calls end: in status 6, which is the only new answer that there may be, or as
the whole call does. It is no part of the gate.

usage: bench/refusals.py [PROGRAM [FILE..]]

PROGRAM is the built `mdbfed`, by default the one that `rt run` leaves in crates/mdbfed/out. Each FILE is a session for `replay`, or a scenario
for `run` where its name ends in `.run`; by default they are those of examples/, and there is one call of `make`. The program asks the C
library for its memory, so a small library of C, which is compiled here by `cc` and loaded before the others, counts the calls of `malloc` and
`realloc`, refuses one of them, and writes their number down where the program ends, which it does by `_exit`. (`rt try --fail-alloc N` refuses
the Nth too, but builds the program anew for each N.)

A line for each call says how many allocations it makes, and how many times one of them was refused and the call ended in status 6 with
nothing put but `no memory` or nothing at all, ended as the whole one does, or ended otherwise. Each of the last kind is told, and the status is
then 1. What `run` prints depends on its threads, so of that the status and the tables are compared; which allocation is the Nth depends on
them too.
"""
import pathlib
import subprocess
import sys
import tempfile

TOP = pathlib.Path(__file__).resolve().parent.parent
SECONDS = 600
MADE = ["make", "5", "3", "100"]
SHIM = r"""
#include <stddef.h>
#include <stdio.h>
#include <stdlib.h>
#include <sys/syscall.h>
#include <unistd.h>
extern void *__libc_malloc(size_t);
extern void *__libc_realloc(void *, size_t);
static unsigned long calls, refused;
static int is_begun;
static int is_refused(void) { return is_begun && __atomic_add_fetch(&calls, 1, __ATOMIC_SEQ_CST) == refused; }
void *malloc(size_t size) { return is_refused() ? 0 : __libc_malloc(size); }
void *realloc(void *kept, size_t size) { return is_refused() ? 0 : __libc_realloc(kept, size); }
__attribute__((constructor)) static void begin(void) {
    refused = strtoul(getenv("REFUSED"), 0, 10);
    is_begun = 1;
}
void _exit(int status) {
    is_begun = 0;
    FILE *file = fopen(getenv("COUNTED"), "w");
    fprintf(file, "%lu", calls);
    fclose(file);
    for (;;) syscall(SYS_exit_group, status);
}
"""


def fixed(words, status, output):
    """What of a call's end is the same each time."""
    if words == ["run"]:
        return status, [line for line in output.splitlines() if line.startswith(b"table ")]
    return status, output


class Refusing:
    """A built program, and the library that refuses one of its allocations."""

    def __init__(self, program, folder):
        self.program = str(program.resolve())
        self.shim = folder / "refusing.so"
        self.counted = folder / "counted"
        source = folder / "refusing.c"
        source.write_text(SHIM)
        subprocess.run(["cc", "-O1", "-shared", "-fPIC", "-o", self.shim, source], check=True)

    def ended(self, words, text, number):
        """The status and the output where this allocation is refused, counted from 1; at 0 none is."""
        self.counted.unlink(missing_ok=True)
        ran = subprocess.run(
            [self.program, *words], input=text, stdout=subprocess.PIPE, timeout=SECONDS, check=False,
            env={"LD_PRELOAD": str(self.shim), "REFUSED": str(number), "COUNTED": str(self.counted)},
        )
        return ran.returncode, ran.stdout

    def refuse_each(self, words, text):
        """Refuses each allocation of a call: how often the status was 6, how often nothing changed, and the other ends."""
        whole = fixed(words, *self.ended(words, text, 0))
        if not self.counted.exists():
            sys.exit("the program doesn't load the library that counts its allocations")
        wanting, same, others = 0, 0, []
        for number in range(1, int(self.counted.read_text()) + 1):
            status, output = self.ended(words, text, number)
            if status == 6 and output in (b"no memory\n", b""):
                wanting += 1
            elif fixed(words, status, output) == whole:
                same += 1
            else:
                others.append((number, status, output))
        return wanting, same, others


def calls_of(files):
    """The name, the words and the input of each call."""
    if not files:
        yield " ".join(MADE), MADE, b""
        files = sorted((TOP / "examples").glob("*.fed")) + sorted((TOP / "examples").glob("*.run"))
    for path in files:
        yield path.name, ["run" if path.suffix == ".run" else "replay"], path.read_bytes()


def main():
    words = sys.argv[1:]
    program = pathlib.Path(words[0]) if words else TOP / "crates/mdbfed/out/mdbfed"
    if not program.exists():
        print(f"{program} isn't there: build it by `rt run` in crates/mdbfed")
        sys.exit(2)
    failed = False
    with tempfile.TemporaryDirectory() as folder:
        refusing = Refusing(program, pathlib.Path(folder))
        for name, called, text in calls_of([pathlib.Path(word) for word in words[1:]]):
            wanting, same, others = refusing.refuse_each(called, text)
            tried = wanting + same + len(others)
            print(f"{name:28} {tried:6} refused: {wanting:6} end in status 6, {same} change nothing, {len(others)} end otherwise", flush=True)
            for number, status, output in others:
                failed = True
                print(f"    allocation {number}: status {status}, {output[-60:]!r}")
    sys.exit(1 if failed else 0)


main()
