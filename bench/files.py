#!/usr/bin/env python3
"""Tries `mdbfed store FOLDER` on folders that it can't use, and makes its calls on the folder's files fail. It is no part of the gate.

usage: bench/files.py [PROGRAM [SESSION..]]

PROGRAM is the built `mdbfed`, by default the one that `rt run` leaves in crates/mdbfed/out. Each SESSION is an input of
`replay`; by default they are three of examples/. With the first one it tries

  - words that are no command, and a folder whose name is relative;
  - a folder that isn't there, or isn't one, or without a right to it; files that are links, folders, pipes, too large, used,
    another site's or damaged; a second process; a bad input;
  - an output that is closed;

and with each of them

  - a limit on the size of a file, and, where tmpfs can be mounted, a full disk;
  - where `strace` is there, each call on the folder's files failing in turn.

Each ends in its status and one line more than what was printed before, no file changed but those that were to be made empty
or written, no decision lost (as bench/kills.py says), and the next process finds the files unlocked. The first trial that isn't
so is told, and the status is then 1.
"""
import argparse
import os
import pathlib
import re
import resource
import shutil
import subprocess
import sys
import tempfile
import time

from journal_files import ACTORS, PROGRAM, SECONDS, SESSIONS, TOP, Files, Storing, Wrong, check_folder, held

LARGEST = 67_108_864
NOBODY = 65_534
# The errors with which a call fails.
ERRORS = (
    ("openat", "EACCES"),
    ("flock", "EAGAIN"),
    ("statx", "EIO"),
    ("pwrite64", "ENOSPC"),
    ("fsync", "EIO"),
    ("ftruncate", "EIO"),
    ("unlink", "EACCES"),
    ("fchmod", "EPERM"),
    ("rename", "EIO"),
)


def state_of(folder):
    """What stands in a folder: each name with its kind and rights, and the bytes of a file or what a link leads to."""
    found = {}
    for path in folder.iterdir() if folder.is_dir() else ():
        about = path.lstat()
        said = os.readlink(path) if path.is_symlink() else path.read_bytes() if path.is_file() and os.access(path, os.R_OK) else about.st_size
        found[path.name] = about.st_mode, said
    return found


def failed_line(output, whole):
    """The disk that the last line names, where the lines before it are the first ones of the whole output."""
    lines = output.splitlines(keepends=True)
    match = re.fullmatch(rb"disk (\d) failed\n", lines[-1]) if lines else None
    if not match or not whole.startswith(b"".join(lines[:-1])):
        raise Wrong(f"it printed {output[-80:]!r}")
    return int(match[1])


class Trying:
    """A program with a session, and the trials of it."""

    def __init__(self, program, room, session):
        self.room = room
        self.program = room / "mdbfed"
        shutil.copyfile(program, self.program)
        self.program.chmod(0o755)
        self.storing = Storing(self.program, room, session)
        self.folder = self.storing.folder
        self.whole = self.storing.replay()
        if self.whole[0] != 0:
            raise Wrong(f"replay ends in status {self.whole[0]}")

    def wants(self, status, output, opened, before, **how):
        """It ends so, and changes nothing but that the files of the first actors, so many, are made where there were none."""
        found = self.storing.store(**how)
        if found != (status, output):
            raise Wrong(f"status {found[0]} with {found[1][-80:]!r} in place of {status} with {output!r}")
        after = state_of(self.folder)
        made = {name: after.pop(name, None) for name in [f"disk{actor}" for actor in range(opened)] if name not in before}
        if after != before:
            raise Wrong(f"the folder has changed: {sorted(set(after) ^ set(before)) or 'what is in it'}")
        if any(not file or file[1] for file in made.values()):
            raise Wrong(f"of the files {sorted(made)} not each was made empty")

    def is_whole(self, found):
        """It did what `replay` does, and the journals have its decisions."""
        if found != self.whole:
            raise Wrong(f"status {found[0]} with {found[1][-80:]!r}")
        check_folder(self.folder, None, self.whole[1])

    def stored(self):
        """Stores the session in an empty folder: the bytes of its files."""
        self.storing.empty()
        self.is_whole(self.storing.store())
        return held(self.folder)

    # Words.

    def no_command(self):
        usage = None
        for words in ([], ["store"], ["store", ""], ["store", "-x"], ["store", "x", "y"], ["stores", "x"]):
            status, output = self.storing.call(words, cwd=self.room)
            usage = usage or output
            if status != 1 or output != usage or not re.fullmatch(rb"usage: [^\n]* \| store FOLDER \| resume FOLDER\n", output):
                raise Wrong(f"{words}: status {status} with {output!r}")
            if any((self.room / name).exists() for name in ("-x", "x", "y")):
                raise Wrong(f"{words}: a folder was made")

    def relative_folder(self):
        self.storing.empty()
        self.is_whole(self.storing.call(["store", self.folder.name], cwd=self.room))

    # Folders and files that can't be used.

    def no_folder(self):
        shutil.rmtree(self.folder, ignore_errors=True)
        self.wants(5, b"disk 0 failed\n", 0, {})
        if self.folder.exists():
            raise Wrong("the folder was made")

    def a_file_for_a_folder(self):
        shutil.rmtree(self.folder, ignore_errors=True)
        self.folder.write_bytes(b"x")
        self.wants(5, b"disk 0 failed\n", 0, {})
        if self.folder.read_bytes() != b"x":
            raise Wrong("the file has changed")
        self.folder.unlink()

    def no_right_to_the_folder(self):
        self.storing.empty()
        self.folder.chmod(0o555)
        self.wants(5, b"disk 0 failed\n", 0, {}, **as_nobody())
        self.folder.chmod(0o755)

    def no_right_to_a_file(self):
        self.storing.empty()
        self.folder.chmod(0o777)
        (self.folder / "disk5").touch(mode=0o444)
        self.wants(5, b"disk 5 failed\n", 5, state_of(self.folder), **as_nobody())

    def in_the_way(self, actor, status, matter, opened, put):
        """Something stands in the place of an actor's file."""
        self.storing.empty()
        put(self.folder / f"disk{actor}")
        self.wants(status, f"disk {actor} {matter}\n".encode(), opened, state_of(self.folder))

    def a_link(self):
        target = self.room / "target"
        target.write_bytes(b"")
        self.in_the_way(3, 5, "failed", 3, lambda path: path.symlink_to(target))
        if target.read_bytes():
            raise Wrong("it wrote through the link")
        target.unlink()
        self.in_the_way(3, 5, "failed", 3, lambda path: path.symlink_to(target))
        if target.exists():
            raise Wrong("it made a file through the link")

    def two_names_of_a_file(self):
        self.in_the_way(5, 5, "failed", 5, lambda path: ((self.folder / "disk4").touch(), os.link(self.folder / "disk4", path)))

    def a_folder_for_a_file(self):
        self.in_the_way(2, 5, "failed", 2, pathlib.Path.mkdir)

    def a_pipe(self):
        self.in_the_way(6, 5, "failed", 6, os.mkfifo)

    def a_large_file(self):
        self.in_the_way(4, 12, "is large", 5, lambda path: sized(path, LARGEST + 1))

    def the_largest_file(self):
        self.in_the_way(4, 8, "is used", 9, lambda path: sized(path, LARGEST))

    def another_sites_file(self):
        data = self.stored()[1]
        self.in_the_way(2, 8, "is used", 9, lambda path: path.write_bytes(data))

    def a_used_folder(self, change=lambda data: data):
        """It stores nothing in a folder that has journals, whatever these are."""
        least = min(actor for actor, data in self.stored().items() if data)
        path = self.folder / f"disk{least}"
        path.write_bytes(change(path.read_bytes()))
        self.wants(8, f"disk {least} is used\n".encode(), 9, state_of(self.folder))

    def a_damaged_byte(self):
        self.a_used_folder(lambda data: data[:4] + bytes([data[4] ^ 1]) + data[5:])
        tool = [sys.executable, TOP / "tools/journal.py", self.folder]
        ran = subprocess.run(tool, stdout=subprocess.PIPE, timeout=SECONDS, check=False)
        if ran.returncode != 1 or b"byte 0: DAMAGED" not in ran.stdout:
            raise Wrong("tools/journal.py doesn't name the damaged frame")

    def a_second_process(self):
        self.storing.empty()
        first = subprocess.Popen([self.program, "store", self.folder], stdin=subprocess.PIPE, stdout=subprocess.PIPE)
        start = time.monotonic()
        while len(held(self.folder)) < len(ACTORS) and time.monotonic() < start + SECONDS:
            time.sleep(0.01)
        time.sleep(0.2)
        self.wants(5, b"disk 0 failed\n", 0, state_of(self.folder))
        output = first.communicate(self.storing.session.read_bytes(), timeout=SECONDS)[0]
        self.is_whole((first.returncode, output))

    def a_bad_input(self):
        self.storing.empty()
        bad = Storing(self.program, self.room, self.room / "bad")
        bad.session.write_bytes(b"site 9 locking nothing\n")
        found = bad.store()
        if found != (2, b"bad line 1 range\n") or held(self.folder) != dict.fromkeys(ACTORS, b""):
            raise Wrong(f"status {found[0]} with {found[1]!r}")

    # Calls that fail.

    def a_closed_output(self):
        """What is printed isn't printed into a journal."""
        wanted = self.stored()
        for closed in (">&-", "<&- >&-", ">&- 2>&-"):
            self.storing.empty()
            self.storing.store(["sh", "-c", f'exec "$@" {closed}', "sh"])
            found = held(self.folder)
            if "<" not in closed and found != wanted or "<" in closed and any(found.values()):
                raise Wrong(f"{closed}: the journals are others than those of an open output")

    def breaks(self, found, files=None):
        """A file failed: it named a disk behind the right lines, and no decision is lost."""
        if found[0] != 5:
            raise Wrong(f"status {found[0]} with {found[1][-80:]!r} in place of 5")
        failed_line(found[1], self.whole[1])
        check_folder(self.folder, files, found[1])
        self.storing.goes_on(self.whole)

    def a_limit_on_files(self):
        """A write is cut short, and the next one fails."""
        longest = max(map(len, self.stored().values()))
        for limit in range(0, longest, 7):
            self.storing.empty()
            limited = self.storing.store(preexec_fn=lambda: resource.setrlimit(resource.RLIMIT_FSIZE, (limit, limit)), restore_signals=False)
            self.breaks(limited)

    def a_full_disk(self):
        """A disk of a few pages, each of which is for one file."""
        script = 'mount -t tmpfs -o size="$1" tmpfs "$2" || exit 99; "$3" store "$2"; status=$?; cp "$2"/disk* "$4"; exit $status'
        copied, mounted = self.folder, self.room / "mounted"
        mounted.mkdir(exist_ok=True)
        for pages in range(1, 1 + len([data for data in self.stored().values() if data])):
            self.storing.empty()
            words = ["sh", "-c", script, "sh", str(pages * resource.getpagesize()), mounted, self.program, copied]
            with open(self.storing.session, "rb") as source:
                ran = subprocess.run(
                    ["unshare", "-rm", *words], stdin=source, stdout=subprocess.PIPE, stderr=subprocess.PIPE, timeout=SECONDS, check=False
                )
            if ran.returncode in (1, 99, 127):
                return "not tried, for no tmpfs can be mounted"
            if (ran.returncode, ran.stdout) != self.whole:
                self.breaks((ran.returncode, ran.stdout))
        return None

    def each_call_failing(self):
        counts, tried = self.storing.counts(), 0
        for call, error in ERRORS:
            for number in range(1, counts.get(call, 0) + 1):
                status, output, log = self.storing.traced("-e", f"inject={call}:error={error}:when={number}")
                try:
                    if "INJECTED" not in log:
                        raise Wrong("it doesn't come again")
                    self.breaks((status, output), Files(log))
                except Wrong as why:
                    raise Wrong(f"{call} {number} with {error}: {why}") from None
                tried += 1
        return f"{tried} calls, each as it should be"


def as_nobody():
    """How a process has no rights of its own, where this one has all."""
    return {"preexec_fn": lambda: os.setuid(NOBODY)} if os.geteuid() == 0 else {}


def sized(path, size):
    with open(path, "wb") as file:
        file.truncate(size)


def trials_of(trying, is_first):
    """The trials with a session: those of words, folders and files with the first one alone."""
    if is_first:
        yield from (
            trying.no_command, trying.relative_folder, trying.no_folder, trying.a_file_for_a_folder, trying.no_right_to_the_folder,
            trying.no_right_to_a_file, trying.a_link, trying.two_names_of_a_file, trying.a_folder_for_a_file, trying.a_pipe,
            trying.a_large_file, trying.the_largest_file, trying.another_sites_file, trying.a_used_folder, trying.a_damaged_byte,
            trying.a_bad_input, trying.a_second_process, trying.a_closed_output,
        )
    yield from (trying.a_limit_on_files, trying.a_full_disk)
    if shutil.which("strace"):
        yield trying.each_call_failing


def try_all(program, sessions):
    for place, session in enumerate(sessions):
        with tempfile.TemporaryDirectory() as room:
            os.chmod(room, 0o755)
            trying = Trying(program, pathlib.Path(room), session)
            for trial in trials_of(trying, place == 0):
                name = f"{session.name}, {trial.__name__.replace('_', ' ')}"
                try:
                    said = trial()
                except Wrong as why:
                    sys.exit(f"files: {name}: {why}")
                print(f"{name}: {said or 'as it should be'}", flush=True)


def main():
    reader = argparse.ArgumentParser(description=__doc__, formatter_class=argparse.RawDescriptionHelpFormatter)
    reader.add_argument("program", metavar="PROGRAM", nargs="?", default=PROGRAM)
    reader.add_argument("sessions", metavar="SESSION", nargs="*")
    asked = reader.parse_args()
    program = pathlib.Path(asked.program).resolve()
    if not program.exists():
        sys.exit(f"files: {program} isn't there: `rt run` in crates/mdbfed proves and builds it")
    try_all(program, [pathlib.Path(name).resolve() for name in asked.sessions] or SESSIONS)


if __name__ == "__main__":
    main()
