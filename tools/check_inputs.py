"""Checks what why.py says of inputs, and due.py of audited outputs. check.py runs it."""
import pathlib
import tempfile

import due
import mdbtext
import why
from mdbchecks import TOP, called_closed, called_with, require, told_by
from mdbkinds import kind_of

SITE = "site 1 locking abort\n"
# A program in place of `mdbfed`: it keeps its input, and prints what is written for its word.
STAND_IN = '#!/bin/sh\ncat > "$0.$1.input"\ncat "$0.$1"\n'
# Lines of examples/transfer.out, each with what takes its place, the verdict, and what due.py says of it.
DUE = (
    (2, "give 1 0 => did 1.0 value 501 sends 0", "answer", "give 1 0 => did 1.0 value 500 sends 0", (3, 4)),
    (6, "give 1 2 => did 1.0 ticket 1 sends 3", "places", "give 1 2 => did 1.0 ticket 1 sends 2", (7, 8)),
    (7, "take 1 2 => sends 1/3", "answer", "take 1 2 => initiates sends 1/3", (9,)),
    (8, "give 1 3 => votes 1.0 yes", "form", "give 1 3 => votes 1.0 yes 1 sends 3", (5, 7)),
    (18, "give 1 4 => settles 1.0 abort sends 4", "answer", "give 1 4 => settles 1.0 commit sends 4", (8,)),
    (23, "commit 2 => committed 2.0 number 5", "answer", "commit 2 => committed 2.0 number 4", (3, 4)),
    (1, "go 1 => running 1.0", "answer", "go 1 => begun 1.0 sends 1/0", (9,)),
    (27, "order 2.0 1.0 3.0", "order", "order 1.0 2.0 3.0 (or another merge of the site orders)", (11,)),
    (28, "reads 1.0 501 40", "reads", "reads 1.0 500 40", (11,)),
    (31, "outcome 1.0 abort", "outcome", "outcome 1.0 commit", (9,)),
    (33, "table 1 10=401", "table", "table 1 10=400", (11,)),
    (35, "end ", "form", "end", (19,)),
)


def called_due(room, scenario, output, verdict):
    """What due.py prints of an output of examples/transfer.fed, where the program has that verdict."""
    program, audited = room / "program", room / "audited"
    program.write_text(STAND_IN)
    program.chmod(0o755)
    (room / "program.audit").write_text(verdict)
    (room / "program.replay").write_text((TOP / "examples/transfer.out").read_text())
    audited.write_text(f"{scenario}printed\n{output}")
    return called_with(int(verdict != "agrees\n"), "due.py", audited, "--program", program)


def check_due():
    """The line that is due, the sections that decide, and what the program is asked."""
    session, output = ((TOP / "examples" / name).read_text() for name in ("transfer.fed", "transfer.out"))
    scenario, commands = session.split("commands\n")
    titles, first = due.titles(), scenario.count("\n") + 2
    named = [numbers for _, numbers in due.SECTIONS] + list(due.OF_REPORT.values())
    require({it for numbers in named for it in numbers} <= set(titles), "due.py: a section that docs/RULES.md hasn't")
    with tempfile.TemporaryDirectory() as folder:
        room = pathlib.Path(folder)
        for number, stands, what, wanted, sections in DUE:
            lines = output.split("\n")
            lines[number - 1] = stands
            said = called_due(room, scenario, "\n".join(lines), f"differs at line {first + number - 1} {what}\n")
            head = f"line {first + number - 1} differs, which is line {number} of the output: {what}"
            ends = [f"  docs/RULES.md, section {it}: {titles[it]}" for it in sections]
            require(said.splitlines() == [head, f"  stands: {stands}", f"  due:    {wanted}", *ends], f"due.py: {said}")
            asked = "".join(f"{it}\n" for it in commands.splitlines()[:number])
            require((room / "program.replay.input").read_text() == f"{scenario}commands\n{asked}", f"due.py: line {number}: what it asks")
        check_other_ends_of_due(room, scenario, output, first)


def check_other_ends_of_due(room, scenario, output, first):
    """An output that agrees, one that is open at its order, one with a line more, and files that aren't of `audit`."""
    require(called_due(room, scenario, output, "agrees\n") == f"{room}/audited: it agrees\n", "due.py: it agrees")
    lines = output.splitlines(keepends=True)
    said = called_due(room, scenario, "".join(lines[:20] + lines[26:]), f"differs at line {first + 20} open\n")
    wanted = "begin 2 => begun 2.0 (and 5 more to close the session, or the line of any other command)"
    require(said.splitlines()[1:3] == ["  stands: order 1.0 2.0 3.0", f"  due:    {wanted}"], f"due.py: {said}")
    said = called_due(room, scenario, output + "end\n", f"differs at line {first + 35} form\n")
    require(said.splitlines()[1:3] == ["  stands: end", "  due:    (no line)"], f"due.py: {said}")
    said = called_due(room, scenario, "".join(lines[:26] + ["order 1.0 3.0 2.0\n", "reads 1.0 500 40\n", "reads 3.0 141\n"]),
                      f"differs at line {first + 28} reads\n")
    require(said.splitlines()[2] == "  due:    reads 3.0 140", f"due.py: the reads in the printed order: {said}")
    for path, wanted in (("transfer.fed", "it is an input of `replay`"), ("transfer.out", "it is an output of `replay`"), ("", "Is a directory")):
        require(wanted in told_by("due.py", TOP / "examples" / path), f"due.py: {path}")
    called_closed("due.py", room / "audited", "--program", room / "program")
    require("No such file" in told_by("due.py", room / "audited", "--program", room / "nothing"), "due.py: no program")
    require("status 1" in told_by("due.py", room / "audited", "--program", "false"), "due.py: a program that fails")


# What a file is, what why.py says of it, and whether the program would take it.
AUDITED = SITE + "local 1 1 get:5\nprinted\n"
WHY_TEXTS = (
    ("", 0, "nothing is wrong in it; it is empty, so `replay` carries nothing out"),
    (SITE, 0, "nothing is wrong in it; it has no line `commands`, so `replay` carries nothing out"),
    (SITE + "item 1 1 -100\n", 1, "-100 is 2^64 - 100, so write 18446744073709551516"),
    (SITE + "local 1 1 get:1 add:1:0:-1\n", 1, "-1 is 2^64 - 1, so write 18446744073709551615"),
    (SITE + "item 1 -1 100\n", 1, "a number is 0, or decimal digits without a leading zero, a sign or a point"),
    (SITE + "local 1 1 get\n", 1, "line 2 is bad: spelling (get): a step is get:K, set:K:V or add:K:R:N"),
    (SITE + "local 1 1 other\n", 1, "line 2 is bad: spelling (other): a step is get:K, set:K:V or add:K:R:N"),
    (AUDITED + "begin 1 => begun 1.0\nend\n", 0, "nothing is wrong in it, an input of `audit`; whether its output agrees `audit` says"),
    (AUDITED + "begin 1 => begun 1.0\n", 0, "the output behind line 3 is cut: its last line isn't `end`"),
    (AUDITED + "begin 2 = none\nend\n", 0, "line 4, which is line 1 of the output: it is neither a command"),
    (AUDITED + "back 2 => awake\nend\n", 0, "line 4, which is line 1 of the output: no run prints it (site: 2)"),
    (AUDITED + "begin 1 => begun 1.0\r\nend\n", 0, "line 4, which is line 1 of the output: it ends with a carriage return"),
    (SITE + "commands\nbegin 1\nprinted\nend\n", 1, "line 2 is bad: word (commands): an input of `run` has no commands, nor one of `audit`"),
    ("begin 1 => none\norder\nforgotten\nend\n", 1, "it is an output of `replay`, `run` or `store`, whole"),
    ("begin 1 => none\norder\n", 1, "it is an output of `replay`, `run` or `store`, cut: its last line isn't `end`"),
    ("back 0 => up known 0\nforgotten\nend\n", 1, "it is an output of `resume`, whole"),
    ("back 0 => up known 0\ndisk 1 failed\n", 1, "it is an output of `resume`, ended by `disk 1 failed`: the folder isn't there"),
    ("bad line 3 word\n", 1, "it is what the program printed, `bad line 3 word`: the program refused its input"),
    ("differs at line 3 form\n", 1, "tools/due.py says of the audited input what is due there"),
    ("disk 0 00\ndisk 1\n", 1, "it is a case of `resume`"),
    ("\0\0\0\5", 1, "it is a journal and no text"),
)


def check_why():
    """What why.py says of files of all kinds."""
    with tempfile.TemporaryDirectory() as folder:
        path = pathlib.Path(folder, "text")
        for text, status, wanted in WHY_TEXTS:
            path.write_bytes(text.encode())
            said = called_with(status, "why.py", path)
            require(said.startswith(f"{path}: ") and wanted in said, f"why.py: {text!r}: {said}")
    for output in sorted((TOP / "conformance").glob("*/*.stdout")):
        kinds = {"audit": ("ending",), "resume": ("ending", "resumed")}.get(output.parent.name, ("output",))
        require(kind_of(output.read_bytes()) in kinds, f"mdbkinds.py: {output}: {kind_of(output.read_bytes())}")
    for name in ("transfer.fed", "transfer.out"):
        called_closed("why.py", TOP / "examples" / name)
    for output in sorted((TOP / "conformance/audit").glob("*.stdout")):
        check_audited(output.with_suffix("").read_bytes(), output)


def check_audited(data, output):
    """The first bad line of an input of `audit` is the recorded one, and none before the one that differs is named."""
    recorded = output.read_text()
    if recorded in ("too long\n",) or recorded.startswith("usage"):
        return
    try:
        remarks = list(why.audited_remarks(data)) if mdbtext.place_of_printed(data) is not None else []
        mdbtext.read_audited(data)
    except mdbtext.BadLine as bad:
        require(recorded == f"bad line {bad.line} {bad.reason}\n", f"{output}: {bad}")
        return
    differs = recorded.split(" ")[3:4]
    require(not recorded.startswith("bad") and (differs or not remarks), f"{output}: {remarks}")
    told_at = [int(it.split(" ")[1].strip(",")) for it in remarks if it.startswith("line ")]
    require(not told_at or told_at[0] >= int(differs[0]), f"{output}: {remarks}")
