"""Reads sessions of mdbfed as docs/FORMATS.md says, with the reason of the first bad line. The tools beside this file share it."""
import os
import pathlib
import sys

ENGINES = ("locking", "timestamp", "validation", "multiversion")
PROTOCOLS = ("nothing", "abort", "commit")
MOST_BYTES, MOST_STEPS, MOST_ITEMS, MOST_LINKS, MOST_STOPS, MOST_COMMANDS = 2048, 32, 4096, 4096, 64, 65536
# Which actor carries a command out: the coordinator, the one that the command names, or the site of a local transaction.
OF_COORDINATOR = ("go", "again", "late", "take")
OF_ACTOR = ("give", "ask", "drop", "halt", "trip", "back", "check")
OF_LOCAL = ("begin", "step", "commit", "abort", "fate")


class Wrong(Exception):
    """What is wrong with an input of a tool, in one line."""


class BadLine(Wrong):
    """The first bad line of a session, its reason, and the word that has it, if it is one word."""

    def __init__(self, line, reason, word=None):
        super().__init__(f"line {line} is bad: {reason}" + (f" ({word})" if word else ""))
        self.line, self.reason, self.word = line, reason, word


class Bad(Exception):
    """The reason for which a line is bad."""

    def __init__(self, reason, word=None):
        super().__init__(reason)
        self.reason, self.word = reason, word


def told(main):
    """Runs a tool. What is wrong with its inputs is told in one line, with status 1; a closed output ends it quietly."""
    if sys.stdout is None:
        sys.exit(1)
    try:
        try:
            main()
        finally:
            sys.stdout.flush()
    except BrokenPipeError:
        # What is still to be written must go somewhere, or Python complains when it ends.
        os.dup2(os.open(os.devnull, os.O_WRONLY), sys.stdout.fileno())
        sys.exit(1)
    except OSError as why:
        sys.exit(f"{pathlib.Path(sys.argv[0]).name}: {why.filename or 'a file'}: {why.strerror or why}")
    except Wrong as why:
        sys.exit(f"{pathlib.Path(sys.argv[0]).name}: {why}")


def bytes_of(path):
    """The bytes of a file; `-` is standard input."""
    if path == "-" and sys.stdin is None:
        raise Wrong("standard input is closed")
    return sys.stdin.buffer.read() if path == "-" else pathlib.Path(path).read_bytes()


def number_in(low, high, word):
    """A number from low to high, spelled without a leading zero."""
    if not (word.isascii() and word.isdigit()) or (word[0] == "0" and word != "0"):
        raise Bad("number", word)
    if not low <= int(word) <= high:
        raise Bad("range", word)
    return int(word)


def one_of(names, word):
    if word not in names:
        raise Bad("spelling", word)
    return word


def attempt_of(word):
    """The two numbers of an attempt `T.A`."""
    parts = word.split(".")
    if len(parts) != 2:
        raise Bad("spelling", word)
    try:
        return number_in(1, 1024, parts[0]), number_in(0, 31, parts[1])
    except Bad as why:
        raise Bad(why.reason, word) from None


class Session:
    """A scenario and its commands. `commands` is None where no line `commands` stands."""

    def __init__(self, with_commands=True):
        self.with_commands = with_commands
        self.sites, self.items, self.locals, self.globals = {}, {}, {}, {}
        self.settings, self.links, self.stops, self.commands = {}, {}, [], None

    def site(self, word):
        """A declared site."""
        site = number_in(1, 8, word)
        if site not in self.sites:
            raise Bad("site", word)
        return site

    def actor(self, word):
        """The coordinator or a declared site."""
        actor = number_in(0, 8, word)
        if actor and actor not in self.sites:
            raise Bad("site", word)
        return actor

    def act(self, word, whole):
        """Checks the form of an act, and answers a call that gives it, with its numbers checked."""
        name, *fields = word.split(":")
        highest = {"get": (65535,), "set": (65535, 2**64 - 1), "add": (65535, 31, 2**64 - 1)}.get(name)
        if highest is None or len(fields) != len(highest):
            raise Bad("spelling", whole)

        def numbers():
            try:
                return (name, *(number_in(0, high, field) for field, high in zip(fields, highest)))
            except Bad as why:
                raise Bad(why.reason, whole) from None

        return numbers

    def step(self, word, home):
        """A step as its site and its act. A step of a global transaction names its site."""
        if home is not None:
            return home, self.act(word, word)()
        at, slash, rest = word.partition("/")
        if not slash:
            raise Bad("spelling", word)
        act = self.act(rest, word)
        try:
            site = self.site(at)
        except Bad as why:
            raise Bad(why.reason, word) from None
        return site, act()

    def add_program(self, tx, steps, home):
        """A transaction: no other has its number, and its registers hold."""
        if tx in self.locals or tx in self.globals:
            raise Bad("repeated", str(tx))
        reads = 0
        for _, act in steps:
            if act[0] == "add" and act[2] >= reads:
                raise Bad("register", ":".join(map(str, act)))
            reads += act[0] == "get"
        if len(steps) > MOST_STEPS:
            raise Bad("many")
        if home is None:
            self.globals[tx] = steps
        else:
            self.locals[tx] = home, steps

    def program(self, words):
        """`local T S STEP ..` or `global T STEP ..`."""
        first = 3 if words[0] == "local" else 2
        if len(words) <= first:
            raise Bad("count")
        tx = number_in(1, 1024, words[1])
        home = self.site(words[2]) if words[0] == "local" else None
        self.add_program(tx, [self.step(word, home) for word in words[first:]], home)

    def site_line(self, words):
        site = number_in(1, 8, words[1])
        engine, protocol = one_of(ENGINES, words[2]), one_of(PROTOCOLS, words[3])
        if site in self.sites:
            raise Bad("repeated", words[1])
        self.sites[site] = engine, protocol

    def item_line(self, words):
        site, key, value = self.site(words[1]), number_in(0, 65535, words[2]), number_in(0, 2**64 - 1, words[3])
        rows = self.items.setdefault(site, {})
        if key in rows:
            raise Bad("repeated", words[2])
        if len(rows) >= MOST_ITEMS:
            raise Bad("many")
        rows[key] = value

    def setting_line(self, words):
        if words[0] == "policy":
            value = one_of(("always", "conservative"), words[1])
        else:
            value = number_in(1, 100_000 if words[0] == "turns" else 16, words[1])
        if words[0] in self.settings:
            raise Bad("repeated", words[0])
        self.settings[words[0]] = value

    def link_line(self, words):
        way, site, place = one_of(("to", "from"), words[1]), self.site(words[2]), number_in(0, 65535, words[3])
        fate = words[4]
        if fate not in ("drop", "twice"):
            name, colon, count = fate.partition(":")
            if name != "hold" or not colon or ":" in count:
                raise Bad("spelling", fate)
            number_in(1, 64, count)
        if (way, site, place) in self.links:
            raise Bad("repeated", " ".join(words[1:4]))
        if len(self.links) >= MOST_LINKS:
            raise Bad("many")
        self.links[way, site, place] = fate

    def stop_line(self, words):
        stop = self.actor(words[1]), number_in(1, 1000, words[2]), number_in(0, 65535, words[3])
        if sum(other[0] == stop[0] for other in self.stops) >= MOST_STOPS:
            raise Bad("many")
        self.stops.append(stop)

    def scenario_line(self, words):
        if words[0] in ("local", "global"):
            return self.program(words)
        counts = {"site": 4, "item": 4, "clients": 2, "turns": 2, "tries": 2, "policy": 2, "link": 5, "stop": 4}
        if words[0] not in counts:
            raise Bad("word", words[0])
        if len(words) != counts[words[0]]:
            raise Bad("count")
        line = {"site": self.site_line, "item": self.item_line, "link": self.link_line, "stop": self.stop_line}
        return line.get(words[0], self.setting_line)(words)

    def check_command(self, words):
        """Whether the words are a command: its words' count, and then each of them from the left."""
        if words[0] not in COMMANDS:
            raise Bad("word", words[0])
        reads = COMMANDS[words[0]]
        if len(words) != 1 + len(reads):
            raise Bad("count")
        for read, word in zip(reads, words[1:]):
            read(self, word)

    def line(self, text):
        """Takes one line, without its line feed."""
        words = text.split(" ")
        if self.commands is not None:
            self.check_command(words)
            if len(self.commands) >= MOST_COMMANDS:
                raise Bad("many")
            self.commands.append(text)
        elif words[0] == "commands" and self.with_commands:
            if len(words) != 1:
                raise Bad("count")
            self.commands = []
        else:
            self.scenario_line(words)

    def home(self, words):
        """The actor that carries a command out: 0 is the coordinator."""
        if words[0] in OF_COORDINATOR:
            return 0
        if words[0] in OF_ACTOR:
            return int(words[1])
        return self.locals.get(int(words[1]), (0, None))[0]


def within(low, high):
    return lambda session, word: number_in(low, high, word)


TX, PLACE, CALLS, CUT = within(1, 1024), within(0, 2**32 - 1), within(0, 1000), within(0, 65535)
ATTEMPT = lambda session, word: attempt_of(word)
# What stands behind each command's word.
COMMANDS = {
    **{word: (TX,) for word in (*OF_LOCAL, "go")},
    **{word: (ATTEMPT,) for word in ("again", "late")},
    **{word: (Session.site, PLACE) for word in ("give", "take")},
    **{word: (Session.site, ATTEMPT) for word in ("ask", "drop")},
    **{word: (Session.actor,) for word in ("back", "check")},
    "halt": (Session.actor, CUT),
    "trip": (Session.actor, CALLS, CUT),
}


def read_session(data, with_commands=True):
    """The session, or the scenario without commands, that these bytes spell, or its first bad line."""
    session = Session(with_commands)
    lines = data.split(b"\n")
    for number, line in enumerate(lines, 1):
        if number == len(lines) and not line:
            break
        try:
            if len(line) > MOST_BYTES:
                raise Bad("long")
            if number == len(lines):
                raise Bad("ending")
            if any(not 32 <= byte <= 126 for byte in line):
                raise Bad("bytes")
            session.line(line.decode("ascii"))
        except Bad as why:
            raise BadLine(number, why.reason, why.word) from None
    return session


def place_of_printed(data):
    """Where the line `printed` begins in an input of `audit`, or None."""
    if data.startswith(b"printed\n"):
        return 0
    place = data.find(b"\nprinted\n")
    return None if place < 0 else place + 1


def read_audited(data):
    """The scenario of an input of `audit` and the lines after `printed`, None without that line; or the first bad line."""
    place = place_of_printed(data)
    if place is None:
        return read_session(data, False), None
    return read_session(data[:place], False), data[place + len(b"printed\n") :].split(b"\n")[:-1]
