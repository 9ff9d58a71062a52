"""What bench/kills.py and bench/files.py share: calls of a built `mdbfed` over a folder, what its calls on the folder's files must leave there,
and whether a decision is lost. A decision is an attempt with a Commit record on the coordinator's disk or a Local record on a site's, or one
that a Checkpoint in their place names."""
import pathlib
import re
import shutil
import subprocess
import sys

TOP = pathlib.Path(__file__).resolve().parent.parent
sys.path.insert(0, str(TOP / "tools"))
from mdbjournal import COORDINATOR, SITE, Journal  # noqa: E402

PROGRAM = TOP / "crates/mdbfed/out/mdbfed"
# The coordinator and three sites, of which one stops in doubt; a Checkpoint and its trim; a start that cuts a torn rest.
SESSIONS = [TOP / "examples" / name for name in ("presumptions.fed", "checkpoint.fed", "cut_commit.fed")]
ACTORS = range(9)
SECONDS = 120
CALLS = ("openat", "flock", "statx", "pread64", "pwrite64", "fsync", "ftruncate", "unlink", "fchmod", "rename", "close")
# A call of strace's log with its words and its answer; the file that its words name; what is written, how much and where.
CALL = re.compile(r"^(?:\d+ +)?(\w+)\((.*)\) += (-?\d+)")
NAMED = re.compile(r"/disk(\d)(\.next)?[\">]")
PIECE = re.compile(r'"((?:\\x[0-9a-f]{2})*)", \d+, (\d+)$')
# The name of a file, which the log spells byte by byte, as it does what is written.
NAME = re.compile(r'(["<])((?:\\x[0-9a-f]{2})+)([">])(?!, \d+, )')
DECIDED = {"Commit", "Local"}


class Wrong(Exception):
    """What isn't as it should be."""


def unspelled(text):
    return bytes.fromhex(text.replace("\\x", ""))


def journal_of(actor, data):
    return Journal(data, SITE if actor else COORDINATOR)


def decisions(journal):
    """The attempts that committed by the records of a journal, in their order."""
    found = []
    for _, _, kind, fields in journal.records:
        if kind == "Checkpoint":
            found += fields["locals"] if "locals" in fields else [attempt for attempt, _ in fields["committed"]]
        elif kind in DECIDED:
            found.append(fields["attempt"])
    return found


def whole_length(journal):
    """The length of a journal up to the end of its last whole frame."""
    return journal.torn[0] if journal.torn else journal.size


def printed_decisions(output):
    """The attempts of which an output says that they committed."""
    order = re.findall(rb"^order((?: \d+\.\d+)*)\n", output, re.M)
    names = [name for line in order for name in line.split()] + re.findall(rb"=> committed (\d+\.\d+)", output)
    return {tuple(int(part) for part in name.split(b".")) for name in names}


def held(folder):
    """The bytes of each journal's file of the folder that is there."""
    files = {actor: folder / f"disk{actor}" for actor in ACTORS}
    return {actor: file.read_bytes() for actor, file in files.items() if file.is_file()}


class Files:
    """What the completed calls of a log put into the files; how many bytes of whole frames are synced in each; and which decisions are, in the
    order in which they came to be."""

    def __init__(self, log):
        self.held, self.following, self.safe, self.decided, self.failed = {}, {}, {}, [], set()
        self.is_cut = {}
        for line in log.splitlines():
            match = CALL.match(line)
            name = match and NAMED.search(match[2])
            if name:
                self.note(match[1], match[2], int(match[3]), int(name[1]), bool(name[2]))

    def note(self, call, words, answer, actor, is_next):
        """One call on a file of this actor."""
        if call in ("pwrite64", "fsync", "ftruncate", "rename") and actor in self.failed:
            raise Wrong(f"{call} is called on a file of disk{actor}, which has failed")
        if answer < 0:
            if call in ("fsync", "ftruncate", "rename", "fchmod") or is_next and call != "unlink":
                self.failed.add(actor)
            return
        files = self.following if is_next else self.held
        if call == "openat" and (is_next or actor not in files):
            files[actor] = b""
        elif call == "pwrite64":
            piece = PIECE.search(words)
            if int(piece[2]) != len(files[actor]):
                raise Wrong(f"disk{actor} has {len(files[actor])} bytes, and is written at byte {piece[2]}")
            files[actor] += unspelled(piece[1])[:answer]
            self.is_cut[actor] = False
        elif call == "ftruncate":
            files[actor] = files[actor][: int(words.rsplit(",", 1)[1])]
            self.is_cut[actor] = True
            if len(files[actor]) < self.safe.get(actor, 0):
                raise Wrong(f"disk{actor} is cut to {len(files[actor])} bytes, but {self.safe[actor]} bytes of whole frames were synced")
        elif call == "fsync" and not is_next:
            self.sync(actor)
        elif call == "rename":
            self.held[actor] = self.following.pop(actor)
            self.sync(actor)

    def sync(self, actor):
        """What a file holds is synced. A stop may leave a torn rest, and syncs it; each other sync is of whole frames."""
        journal = journal_of(actor, self.held[actor])
        if journal.damaged:
            raise Wrong(f"disk{actor} is synced with a damaged frame at {journal.damaged[0]}")
        if journal.torn and not self.is_cut.get(actor):
            raise Wrong(f"disk{actor} is synced with a torn frame at {journal.torn[0]}")
        self.safe[actor] = whole_length(journal)
        self.decided += [attempt for attempt in decisions(journal) if attempt not in self.decided]


def check_folder(folder, files, output):
    """No frame is damaged, and no synced frame and no decision is lost, be it synced or printed. `files` is None where the calls aren't known.
    The answer is how many decisions the folder has."""
    found = set()
    now = held(folder)
    if files and files.held != now:
        raise Wrong("the files aren't what the completed calls made them")
    for actor, data in now.items():
        journal = journal_of(actor, data)
        if journal.damaged:
            raise Wrong(f"disk{actor} is damaged at {journal.damaged[0]}: {journal.damaged[1]}")
        if files and whole_length(journal) < files.safe.get(actor, 0):
            raise Wrong(f"disk{actor} has whole frames up to {whole_length(journal)}, but {files.safe[actor]} bytes were synced")
        found |= set(decisions(journal))
    for attempt in sorted(printed_decisions(output).union(files.decided if files else ()) - found):
        raise Wrong(f"{attempt[0]}.{attempt[1]} has committed, and no journal says so")
    return len(found)


class Storing:
    """A built program and a session, which it stores in a folder of its own."""

    def __init__(self, program, room, session):
        self.program, self.session = program, session
        self.folder, self.log = room / "journals", room / "calls"

    def call(self, words, before=(), **how):
        """The status and the output of these words on the session."""
        with open(self.session, "rb") as source:
            ran = subprocess.run(
                [*before, self.program, *words], stdin=source, stdout=subprocess.PIPE, stderr=subprocess.PIPE, timeout=SECONDS, check=False, **how
            )
        return ran.returncode, ran.stdout

    def replay(self):
        return self.call(["replay"])

    def store(self, before=(), **how):
        """Stores it in the folder as it stands."""
        return self.call(["store", self.folder], before, **how)

    def empty(self):
        shutil.rmtree(self.folder, ignore_errors=True)
        self.folder.mkdir()

    def traced(self, *more):
        """Stores it in an empty folder under strace, with these words for strace more: the status, the output, and the log of the calls on the
        folder's files."""
        self.empty()
        names = [self.folder] + [self.folder / f"disk{actor}{end}" for actor in ACTORS for end in ("", ".next")]
        paths = [word for name in names for word in ("-P", name)]
        words = ["strace", "-f", "-y", "-xx", "-s", "200000", "-o", self.log, "-e", "trace=" + ",".join(CALLS), *paths, *more]
        self.log.unlink(missing_ok=True)
        status, output = self.store(words)
        if not self.log.exists():
            raise Wrong(f"strace doesn't run: {' '.join(more)}")
        return status, output, NAME.sub(lambda name: name[1] + unspelled(name[2]).decode() + name[3], self.log.read_text())

    def counts(self):
        """How many calls of each name it makes on the folder's files."""
        names = [match[1] for match in map(CALL.match, self.traced()[2].splitlines()) if match]
        return {call: names.count(call) for call in CALLS if call in names}

    def goes_on(self, whole):
        """The next process gets all locks: it finds a used disk, or where nothing was written does what the first one does. A command that goes on
        with the journals of a folder is to be tried here."""
        is_used = any(held(self.folder).values())
        status, output = self.store()
        if is_used and not (status == 8 and re.fullmatch(rb"disk \d is used\n", output)):
            raise Wrong(f"the next process answers {status} {output[-80:]!r}")
        if not is_used and (status, output) != whole:
            raise Wrong(f"the next process, on empty journals, answers {status} {output[-80:]!r}")
