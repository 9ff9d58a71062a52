#!/usr/bin/env python3
"""Says which line of an input is the first bad one, and what to do about it.

The program prints `bad line L WHY` and no more. This prints the line, the word that is wrong where it is one word, and what to write instead
(docs/FORMATS.md, section 1, has all reasons). Where no line is bad it names commands about nothing: those of a transaction that isn't
declared, which the program carries out and answers `none` or `idle`.

An input of `audit` is known by its line `printed`; of the output after it the first line is named that no run prints.
Of a file that is no input, as an output or a journal, it says what it is and what to do with it.

The status is 0 where the program would take the input, and 1 where it would refuse it.

example: tools/why.py examples/transfer.fed
"""
import argparse
import re
import sys

from mdbkinds import kind_of, meaning
from mdblines import REPORT, Line
from mdbtext import COMMANDS, OF_LOCAL, Bad, BadLine, bytes_of, read_audited, read_session, told

LONGEST = 4_194_304
FORMS = {
    "site": "site S ENGINE PROTOCOL",
    "item": "item S K V",
    "local": "local T S STEP ..",
    "global": "global T S/STEP ..",
    "clients": "clients N",
    "turns": "turns N",
    "tries": "tries N",
    "link": "link to S I FATE` or `link from S I FATE",
    "policy": "policy always` or `policy conservative",
    "stop": "stop A C B",
    "commands": "commands",
    "give": "give S I",
    "take": "take S I",
    "ask": "ask S T.A",
    "drop": "drop S T.A",
    "again": "again T.A",
    "late": "late T.A",
    "halt": "halt A B",
    "trip": "trip A C B",
    "back": "back A",
    "check": "check A",
    **{word: f"{word} T" for word in (*OF_LOCAL, "go")},
}
RANGES = "S 1 to 8, T 1 to 1,024, T.A with A 0 to 31, K 0 to 65,535, V below 2^64, A 0 to 8, B 0 to 65,535, C 0 (in `stop` 1) to 1,000"
NAMES = {
    "site": "ENGINE is locking, timestamp, validation or multiversion, and PROTOCOL nothing, abort or commit",
    "policy": "the policy is always or conservative",
    "link": "the way is to or from, and FATE drop, twice or hold:N",
    "local": "a step is get:K, set:K:V or add:K:R:N",
    "global": "a step is S/get:K, S/set:K:V or S/add:K:R:N, with its site before the slash",
}

SCENARIO = [word for word in FORMS if word not in COMMANDS]


def of_long(line, words, bad):
    return f"it has {len(line)} bytes and may have 2,048: shorten the program, or make two transactions of it"


def of_ending(line, words, bad):
    return "the last line has no line feed: end the file with one, as `echo >> FILE` does"


def of_bytes(line, words, bad):
    if line.startswith(b"\xef\xbb\xbf"):
        return "the file begins with a byte order mark: save it as plain ASCII without one"
    if b"\0" in line:
        return "there are bytes of 0: it is no text, or text of two bytes a character; save it as plain ASCII"
    place, byte = next((at, byte) for at, byte in enumerate(line) if not 32 <= byte <= 126)
    if byte == 13:
        return "it ends with a carriage return: end lines by a line feed alone, as `tr -d '\\r' < FILE` does"
    if byte == 9:
        return f"byte {place + 1} is a tab: separate words by one space"
    return f"byte {place + 1} is {byte}, and only the visible characters of ASCII and spaces may stand (32 to 126)"


def of_word(line, words, bad):
    first = words[0]
    if not line:
        return "the line is blank: take it out"
    if line.startswith(b" "):
        return "the line begins with a space: take it out"
    if first[:1] in "#;%" or first[:2] in ("//", "--"):
        return "there are no comments: take the line out"
    if first.lower() != first and first.lower() in FORMS:
        return f"words are in lower case: write `{first.lower()}`"
    if first == "commands":
        return "an input of `run` has no commands, nor one of `audit` before `printed`: take this line and the commands out, or `replay` it"
    if first in COMMANDS:
        return f"`{first}` is a command: the line `commands` must stand before the first one"
    if first in FORMS:
        return f"`{first}` is of the scenario: it must stand before the line `commands`"
    return "no line begins so; a scenario's begin with " + ", ".join(SCENARIO) + ", and commands with " + ", ".join(COMMANDS)


def of_spaces(words):
    """What to do about words without a letter, or None."""
    if words[-1] == "":
        return "a space stands at the end of the line: take it out"
    return "two spaces stand in a row: write one" if "" in words else None


def of_count(line, words, bad):
    if "=>" in words:
        return "it is a line of an output: a command is what stands before ` => `"
    if any(word[:1] == "#" or word[:2] in ("//", "--") for word in words):
        return "there are no comments: take it out of the line"
    return f"it has {len(words)} words: write `{FORMS[words[0]]}`"


def of_spelling(line, words, bad):
    return NAMES.get(words[0], f"an attempt is T.A, as 1.0: write `{FORMS[words[0]]}`")


def of_number(line, words, bad):
    is_value = words[0] == "item" and words[3:] == [bad.word] or re.search("set:[0-9]+:-|add:[0-9]+:[0-9]+:-", bad.word)
    less = re.search("(?:^|:)-([1-9][0-9]*)$", bad.word)
    if is_value and less and int(less[1]) <= 2**64:
        return f"a number has no sign, and sums are modulo 2^64: -{less[1]} is 2^64 - {less[1]}, so write {2**64 - int(less[1])}"
    return "a number is 0, or decimal digits without a leading zero, a sign or a point"


def of_range(line, words, bad):
    if words[0] in ("clients", "turns", "tries", "link"):
        return "clients and tries are 1 to 16, turns 1 to 100,000, a link's message 0 to 65,535, and N of hold:N 1 to 64"
    if words[0] in ("give", "take"):
        return "S is 1 to 8, and I 0 to 4,294,967,295"
    if words[0] in ("local", "global"):
        return "T is 1 to 1,024, S 1 to 8, a key 0 to 65,535, a register 0 to 31, a value or amount below 2^64 (2^64 - 1 takes 1 away)"
    return f"the ranges are {RANGES}"


def of_site(line, words, bad):
    return "that site isn't declared: a line `site S ENGINE PROTOCOL` must stand before this one"


def of_repeated(line, words, bad):
    what = {"site": "this site is declared", "item": "this key of the site has a first row", "link": "this message has a fate"}
    what.update({"local": "this transaction is declared", "global": "this transaction is declared"})
    return what.get(words[0], "a setting stands at most once, and this one stands") + " in an earlier line: take one out"


def of_register(line, words, bad):
    return "R of add:K:R:N counts the program's reads (get) from 0, and so many don't stand before it: read first, or name an earlier read"


def of_many(line, words, bad):
    limits = {"item": "a site has at most 4,096 items", "link": "there are at most 4,096 link lines", "stop": "an actor has at most 64 stop lines"}
    limits.update({"local": "a program has at most 32 steps", "global": "a program has at most 32 steps"})
    return limits.get(words[0], "there are at most 65,536 commands")


def advice(bad, line):
    """What to do about a bad line."""
    words = line.decode("ascii", "replace").split(" ")
    spaces = of_spaces(words) if bad.reason in ("count", "spelling", "number") else None
    ways = (of_long, of_ending, of_bytes, of_word, of_count, of_spelling, of_number, of_range, of_site, of_repeated, of_register, of_many)
    return spaces or {way.__name__[3:]: way for way in ways}[bad.reason](line, words, bad)


def about_nothing(session, command):
    """What a command is about that doesn't exist, or None."""
    words = command.split(" ")
    tx = int(words[-1].split(".")[0])
    if words[0] in OF_LOCAL and tx not in session.locals and not (words[0] == "fate" and tx in session.globals):
        return f"no local transaction {tx} is declared"
    if words[0] in ("go", "again", "late") and tx not in session.globals:
        return f"no global transaction {tx} is declared"
    if words[0] in ("ask", "drop") and int(words[1]) not in {site for site, _ in session.globals.get(tx, [])}:
        return f"no global transaction {tx} with a step at site {words[1]} is declared"
    return None


def remarks(session, data):
    """The commands about nothing, with their lines."""
    first = data.split(b"\n").index(b"commands") + 2 if session.commands is not None else 0
    for number, command in enumerate(session.commands or [], first):
        why = about_nothing(session, command)
        if why:
            yield f"line {number}: `{command}` is about nothing: {why}"


def advice_of(bad, data):
    """The lines about the first bad line."""
    line = data.split(b"\n")[bad.line - 1]
    yield f"{bad}: {advice(bad, line)}"
    yield "  " + "".join(chr(byte) if 32 <= byte <= 126 else f"\\x{byte:02x}" for byte in line[:200])


def fault_of(session, text):
    """Why a line is none that a run of this session prints, or None."""
    if text.endswith(b"\r"):
        return "it ends with a carriage return: end lines by a line feed alone, as `tr -d '\\r' < FILE` does"
    if any(not 32 <= byte <= 126 for byte in text):
        return "there is a byte that no output has"
    said = text.decode("ascii")
    if REPORT.fullmatch(said):
        return None
    if not re.search(" =>( |$)", said):
        return "it is neither a command with ` => ` and its answer nor a line of the report"
    try:
        Line(0, said, session)
    except Bad as why:
        return f"no run prints it ({why.reason}" + (f": {why.word})" if why.word else ")")
    return None


def audited_remarks(data):
    """What is wrong with an input of `audit`, as lines: the first line of its output that no run prints."""
    session, texts = read_audited(data)
    first = data.count(b"\n") - len(texts) + 1
    for number, text in enumerate(texts, first):
        fault = fault_of(session, text)
        if fault:
            yield f"line {number}, which is line {number - first + 1} of the output: {fault}"
            return
    if not texts or texts[-1] != b"end":
        yield f"the output behind line {first - 1} is cut: its last line isn't `end`"


def found_in(data, is_run):
    """The lines to print of an input, and whether the program would take it."""
    kind = kind_of(data)
    if len(data) > LONGEST:
        return [f"it has {len(data)} bytes, and an input at most {LONGEST} (the program prints `too long`)"], False
    if meaning(data):
        return [meaning(data)], False
    try:
        if kind == "audited" and not is_run:
            nothing = "nothing is wrong in it, an input of `audit`; whether its output agrees `audit` says"
            return list(audited_remarks(data)) or [nothing], True
        session = read_session(data, not is_run)
    except BadLine as bad:
        return list(advice_of(bad, data)), False
    nothing = "nothing is wrong in it"
    if session.commands is None and not is_run:
        nothing += f"; {'it is empty' if kind == 'empty' else 'it has no line `commands`'}, so `replay` carries nothing out"
    return list(remarks(session, data)) or [nothing], True


def main():
    reader = argparse.ArgumentParser(description=__doc__, formatter_class=argparse.RawDescriptionHelpFormatter)
    reader.add_argument("input", metavar="INPUT", help="an input of `replay` or `audit`; `-` is standard input")
    reader.add_argument("--run", action="store_true", help="it is an input of `run`, which has no commands")
    words = reader.parse_args()
    found, is_taken = found_in(bytes_of(words.input), words.run)
    for line in found:
        print(line if line.startswith("  ") else f"{words.input}: {line}")
    sys.exit(0 if is_taken else 1)


if __name__ == "__main__":
    told(main)
