"""Checks the tools that write sessions, runs, counts and journals. tools/check.py runs this.

  from_json.py  gives each run back that to_json.py writes, and names the object that is wrong
  drive.py      writes the commands that a recorded program answers, and names those that may come next
  costs.py      counts as often as messages were sent, and what the worked examples are due
  leave.py      leaves journals that are read back as their records, with the tables of the report at the end
"""
import json
import os
import pathlib
import subprocess
import sys
import tempfile

import costs
import drive
import from_json
import mdbdisks
import mdbjournal
import mdblines
import mdbrecords
import mdbtext
import to_json
from mdbchecks import TOOLS, TOP, called, ended, require, require_same

EXAMPLES = TOP / "examples"
TRANSFER = EXAMPLES / "transfer.fed", EXAMPLES / "transfer.out"
# A program that answers from the output beside it: each command as it is recorded there, a message once it was sent.
RECORDED = '''#!/usr/bin/env python3
import sys
texts = open(sys.argv[0] + ".out").read().splitlines()
lines = [text for text in texts if " =>" in text]
sent = set()
for command in sys.stdin.read().split("commands\\n")[1].splitlines():
    words = command.split(" ")
    here = words[0] not in ("give", "take") or command in sent
    found = next((text for text in lines if here and text.split(" =>")[0] == command), command + " => none")
    if found in lines:
        lines.remove(found)
    print(found)
    for place in found.partition(" sends ")[2].split():
        sent.add("give " + place.replace("/", " ") if "/" in place else "take " + words[1] + " " + place)
print("\\n".join(text for text in texts if " =>" not in text))
'''
WAITS = """site 1 locking abort
global 1 1/set:1:1 1/set:5:1
local 2 1 set:5:2
commands
go 1
give 1 0
begin 2
step 2
"""
WAITS_OUT = """go 1 => begun 1.0 sends 1/0
give 1 0 => did 1.0 done sends 0
begin 2 => begun 2.0
step 2 => wrote 5 2
take 1 0 => sends 1/1
give 1 1 => did 1.0 waits 2.0 sends 1
take 1 1 => waits
commit 2 => committed 2.0 number 3
again 1.0 => sends 1/2
give 1 2 => did 1.0 done sends 2
take 1 2 => sends 1/3
give 1 3 => did 1.0 ticket 1 sends 3
take 1 3 => sends 1/4
give 1 4 => votes 1.0 yes 1 sends 4
take 1 4 => decides commit sends 1/5
give 1 5 => settles 1.0 commit sends 5
take 1 5 => forgets
order 2.0 1.0
reads 2.0
reads 1.0
outcome 1.0 commit
forgotten 1.0
table 1 1=1 5=1
end
"""
DRIVEN = """go 1
give 1 0
take 1 0
give 1 1
take 1 1
give 1 2
take 1 2
give 2 0
take 2 0
give 1 3
take 1 3
give 2 1
take 2 1
give 2 2
take 2 2
give 2 3
take 2 3
give 1 4
take 1 4
give 2 4
"""
LOCALS = "begin 2\nstep 2\ncommit 2\nbegin 3\nstep 3\ncommit 3\n"
UNBEGUN = "begin 2: no attempt of it was begun\nbegin 3: no attempt of it was begun\n"
# How many lines of examples/transfer.out stand before the commands that may come next.
NEXT = {
    0: "go 1: no attempt of it was begun\n" + UNBEGUN,
    1: "give 1 0: the Work of 1.0\n" + UNBEGUN,
    5: "give 1 2: the Take of 1.0\ngive 2 0: the Work of 1.0\n" + UNBEGUN,
    7: "give 2 0: the Work of 1.0\ngive 1 3: the Prepare of 1.0\n" + UNBEGUN,
    16: "take 2 3: the vote of 1.0: yes\n"
    "ask 1 1.0: it is in doubt since line 8\nask 2 1.0: it is in doubt since line 16\n" + UNBEGUN,
    21: "step 2: step 1 of 2.0\nbegin 3: no attempt of it was begun\n",
    22: "commit 2: 2.0 has no step left\nbegin 3: no attempt of it was begun\n",
    26: "",
}
COSTS = """attempt  protocol  outcome  messages  appended  forced
1.0      mixed     commit         19         7       5
2.0      local     commit          0         1       1
3.0      local     commit          0         1       1
1 of     mixed     commit         19         7       5
2 of     local     commit          0         2       2
others   -         -               0         4       2
all      -         -              19        13       9
"""
# What a commit costs of a transaction with a step at each of two sites, by their protocols: messages, appended, forced.
COMMIT_COSTS = {
    ("nothing", "nothing"): [16, 6, 5],
    ("abort", "abort"): [16, 6, 5],
    ("commit", "commit"): [14, 6, 4],
    ("abort", "commit"): [15, 7, 5],
}
# The journals after line 21 of examples/transfer.out: Ended is forced at site 1 and not at site 2.
LEFT = """disk0 (coordinator): 108 bytes, 2 records
  byte 0: Initiation: attempt 1.0, participants 1:abort 2:commit
  byte 47: Commit: attempt 1.0, tickets 1:1 2:1
  byte 108: a torn rest of 5 bytes, which a start cuts back
  not ended: 1.0, commit, of site 1 (presumed abort), site 2 (presumed commit)
disk1 (site 1): 210 bytes, 4 records
  byte 0: Setup: site 1, engine locking, protocol abort, items 10=500
  byte 52: Start: epoch 1
  byte 93: Prepared: attempt 1.0, epoch 1, number 2, ticket 1, writes 10=400
  byte 167: Ended: attempt 1.0, decision commit
disk2 (site 2): 172 bytes, 3 records
  byte 0: Setup: site 2, engine validation, protocol commit, items 20=40
  byte 52: Start: epoch 1
  byte 93: Prepared: attempt 1.0, epoch 1, number 2, ticket 1, writes 20=140
  byte 167: a torn rest of 5 bytes, which a start cuts back
  in doubt: 1.0, prepared in epoch 1 with ticket 1 (byte 93): the coordinator must tell
"""
# Objects that are wrong, each with what is said of it.
BAD_OBJECTS = {
    "[": "it is no JSON",
    "[1]": "it is no object",
    "{}": "it has no `command`",
    '{"command": 1, "answer": "", "sends": []}': "its `command` is of another kind",
    '{"command": "go 1", "answer": "begun 1.0", "sends": [{"way": "from", "site": 1, "place": 0}]}':
    "it sends a message that isn't of its actor (0)",
    '{"command": "give 1 0", "answer": "did 1.0 done", "sends": [{"way": "from", "site": 2, "place": 0}]}':
    "it sends a message that isn't of its actor",
    '{"command": "go 1", "answer": "begun", "sends": []}': "its answer is none of its command's (begun)",
    '{"command": "go", "answer": "none", "sends": []}': "its command is no command: count",
    '{"command": "go 1", "answer": "begun 1.0", "sends": [{"way": "to", "site": true, "place": 0}]}':
    "its `site` is of another kind",
    '{"command": "go 1", "answer": "none", "sends": [], "line": 2}': "its `line` isn't 1",
    '{"report": "reads", "words": ["x"]}': "it is no line of a report",
}


def check_writers(run):
    """One run, by all of these tools."""
    objects = "".join(json.dumps(line) + "\n" for line in to_json.objects(run))
    texts = [line.text for line in run.lines] + run.report
    require(from_json.texts_of(objects.encode(), "objects") == texts, "from_json.py: another run comes back")
    counted = costs.costs_of(run, len(run.lines))
    require(sum(cost[0] for cost in counted.values()) == len(run.sent), "costs.py: not each message counts once")
    disks = mdbdisks.Disks(run).go_to(len(run.lines)).of
    tables = {int(words[1]): words[2:] for words in map(str.split, run.report) if words[0] == "table"}
    for number, disk in disks.items():
        journal = mdbjournal.Journal(disk.data, mdbjournal.SITE if number else mdbjournal.COORDINATOR)
        read = [(kind, fields) for _, _, kind, fields in journal.records]
        require(read == disk.records and not journal.torn, f"leave.py: disk {number} is read back otherwise")
        rows = [f"{key}={value}" for key, value in disk.sum()["rows"]] if number else []
        require(rows == tables.get(number, []), f"leave.py: disk {number} leaves another table")


def front_of(paths, count, folder):
    """A session's first commands, and an output with their lines and the whole session's report."""
    session, output = (path.read_text().splitlines() for path in paths)
    head = session.index("commands") + 1
    fed, out = folder / "front.fed", folder / "front.out"
    fed.write_text("\n".join(session[: head + count]) + "\n")
    out.write_text("\n".join(output[:count] + [line for line in output if " =>" not in line]) + "\n")
    return fed, out


def program_at(folder, output):
    """A program that answers from an output."""
    program = folder / "recorded"
    program.write_text(RECORDED)
    program.chmod(0o755)
    (folder / "recorded.out").write_text(output)
    return program


def next_at(fed, out):
    """The commands that may come next."""
    driver = drive.Driver(str(fed), "", [])
    driver.read(mdblines.texts_of(str(out)), str(out))
    return "".join(line + "\n" for line in drive.next_commands(driver))


def check_drive():
    with tempfile.TemporaryDirectory() as room:
        folder = pathlib.Path(room)
        scenario, output = TRANSFER[0].read_text().partition("commands\n")[0], TRANSFER[1].read_text()
        program = program_at(folder, output)
        for count in (1, 14):
            fed = front_of(TRANSFER, count, folder)[0]
            front = fed.read_text()
            driven = called(0, "drive.py", fed, "--program", program)
            whole = sorted((scenario + "commands\n" + DRIVEN).splitlines())
            require(driven.startswith(front), f"drive.py: the {count} commands don't stand first")
            require(sorted(driven.splitlines()) == whole, f"drive.py: {count} commands aren't driven to the end")
        fed = folder / "scenario"
        fed.write_text(scenario)
        driven = called(0, "drive.py", fed, "--program", program, "--all")
        require_same(driven, scenario + "commands\n" + DRIVEN + LOCALS, "drive.py --all")
        driven = called(0, "drive.py", fed, "--program", program)
        require_same(driven, scenario + "commands\n", "drive.py of a quiet session")
        for count, wanted in NEXT.items():
            require_same(next_at(*front_of(TRANSFER, count, folder)), wanted, f"drive.py --next at {count}")
        lost = called(0, "drive.py", front_of(TRANSFER, 1, folder)[0], "--program", program, "--lose", "take 1 1")
        require_same(lost, scenario + "commands\ngo 1\ngive 1 0\ntake 1 0\ngive 1 1\n", "drive.py --lose")
        called(1, "drive.py", fed, "--program", program, "--lose", "go 1")


def check_drive_goes_on():
    """What waits is sent again once the other one ended, and what is down comes back."""
    with tempfile.TemporaryDirectory() as room:
        folder = pathlib.Path(room)
        fed, program = folder / "waits", program_at(folder, WAITS_OUT)
        fed.write_text(WAITS)
        commands = [line.split(" =>")[0] + "\n" for line in WAITS_OUT.splitlines() if " =>" in line]
        head = WAITS.partition("go 1\n")[0]
        driven = called(0, "drive.py", fed, "--program", program)
        require_same(driven, head + "".join(commands[:7]), "drive.py of one that waits")
        driven = called(0, "drive.py", fed, "--program", program, "--all")
        require_same(driven, head + "".join(commands), "drive.py --all of one that waits")
        paths = EXAMPLES / "cut_decision.fed", EXAMPLES / "cut_decision.out"
        program = program_at(folder, paths[1].read_text())
        fed, out = front_of(paths, 20, folder)
        commands = [line.split(" =>")[0] + "\n" for line in paths[1].read_text().splitlines() if " =>" in line]
        wanted = fed.read_text().partition("go 1\n")[0] + "".join(commands)
        require_same(called(0, "drive.py", fed, "--program", program, "--all"), wanted, "drive.py --all of a lost decision")
        paths = EXAMPLES / "stopped_commit.fed", EXAMPLES / "stopped_commit.out"
        program = program_at(folder, paths[1].read_text())
        fed, out = front_of(paths, 4, folder)
        require_same(next_at(fed, out), "back 1: site 1 is down\n", "drive.py --next of one that is down")
        driven = called(0, "drive.py", fed, "--program", program, "--all")
        require_same(driven, fed.read_text() + "back 1\n", "drive.py --all of one that is down")


UNDECIDED = """go 1 => begun 1.0 sends 1/0
give 1 0 => did 1.0 done sends 0
take 1 0 => sends 1/1 2/0
give 1 1 => did 1.0 ticket 1 sends 1
take 1 1 => INITIATESsends 1/2
give 1 2 => votes 1.0 yes 1 sends 2
take 1 2 => voted
give 2 0 => did 1.0 done sends 0
take 2 0 => sends 2/1
give 2 1 => did 1.0 ticket 1 sends 1
take 2 1 => sends 2/2
give 2 2 => votes 1.0 yes 1 sends 2
take 2 2 => decides commitFORGETS sends 1/3 2/3
"""


def two_sites(protocols):
    """The run of a global transaction of a step at each of two sites, which commits: its session and its output."""
    session = "".join(f"site {site} locking {protocol}\n" for site, protocol in enumerate(protocols, 1))
    acknowledged = [site for site, protocol in enumerate(protocols, 1) if protocol != "commit"]
    initiates = "initiates " if "commit" in protocols else ""
    forgets = "" if acknowledged else " forgets"
    lines = UNDECIDED.replace("INITIATES", initiates).replace("FORGETS", forgets).splitlines()
    for site in (1, 2):
        lines.append(f"give {site} 3 => settles 1.0 commit" + (" sends 3" if site in acknowledged else ""))
        if site in acknowledged:
            lines.append(f"take {site} 3 => " + ("forgets" if site == acknowledged[-1] else "acked"))
    report = ["order 1.0", "reads 1.0", "outcome 1.0 commit", "forgotten 1.0", "table 1 1=1", "table 2 2=2", "end"]
    commands = "".join(line.split(" =>")[0] + "\n" for line in lines)
    return session + "global 1 1/set:1:1 2/set:2:2\ncommands\n" + commands, "\n".join(lines + report) + "\n"


def check_costs():
    require_same(called(0, "costs.py", *TRANSFER), COSTS, "costs.py")
    with tempfile.TemporaryDirectory() as room:
        fed, out = pathlib.Path(room) / "fed", pathlib.Path(room) / "out"
        for protocols, wanted in COMMIT_COSTS.items():
            session, output = two_sites(protocols)
            fed.write_text(session)
            out.write_text(output)
            counted = called(0, "costs.py", fed, out, "--commands").splitlines()[1].split()[3:]
            require(list(map(int, counted)) == wanted, f"costs.py: a commit at {protocols}: {counted}")


def check_leave():
    with tempfile.TemporaryDirectory() as room:
        folder = pathlib.Path(room) / "journals"
        said = called(0, "leave.py", *TRANSFER, 21, folder, "--cut", 5)
        require_same(said, "disk0: 113 bytes\ndisk1: 210 bytes\ndisk2: 172 bytes\n", "leave.py")
        wanted = LEFT.replace("108 bytes, 2", "113 bytes, 2")
        require_same(called(0, "journal.py", folder), wanted, "leave.py: its journals")
        names = sorted(file.name for file in folder.iterdir())
        require(names == [f"disk{actor}" for actor in range(9)], "leave.py: nine files")
        require("it is there already" in ended("leave.py", *TRANSFER, 21, folder)[2], "leave.py writes over journals")
        said = called(0, "leave.py", *TRANSFER, 0, folder / "set_up")
        require_same(said, "disk1: 93 bytes\ndisk2: 93 bytes\n", "leave.py before the first line")


def check_records():
    """Each record of the cases of resume is spelled as it stands there."""
    for case in sorted((TOP / "conformance/resume").glob("*.stdout")):
        for words in (line.split(" ") for line in case.with_suffix("").read_text().splitlines()):
            data = bytes.fromhex("".join(words[2:]))
            name = "SITE" if words[1] != "0" else "COORDINATOR"
            for place, version, kind, fields in mdbjournal.Journal(data, getattr(mdbjournal, name)).records:
                frame = mdbrecords.frame_of(mdbrecords.payload_of(kind, fields, getattr(mdbrecords, name)))
                same = version == 1 or data.startswith(frame, place)
                require(same, f"mdbrecords.py: {case.name}: {kind} at byte {place} of disk {words[1]}")


def said_of(text):
    """What is said of an object."""
    try:
        from_json.texts_of(text.encode() + b"\n", "objects")
    except mdbtext.Wrong as why:
        return str(why)
    return "nothing"


def check_from_json():
    for text, said in BAD_OBJECTS.items():
        require(said_of(text) == f"objects: line 1: {said}", f"from_json.py: {text}: {said_of(text)}")
    objects = called(0, "to_json.py", *TRANSFER).encode()
    printed = called(0, "from_json.py", "--audit", TRANSFER[0], "-", given=objects)
    wanted = TRANSFER[0].read_text().partition("commands\n")[0] + "printed\n" + TRANSFER[1].read_text()
    require_same(printed, wanted, "from_json.py --audit")
    called(1, "from_json.py", "-", given=objects[: len(objects) // 2])
    called(1, "from_json.py", TRANSFER[1])


def closed(tool, *words, given=b""):
    """The status and errors of a tool whose output is closed."""
    reading, writing = os.pipe()
    os.close(reading)
    line = [sys.executable, str(TOOLS / tool), *map(str, words)]
    ran = subprocess.run(line, input=given, stdout=writing, stderr=subprocess.PIPE, check=False)
    os.close(writing)
    return ran.returncode, ran.stderr.decode()


def check_wrong_files():
    """Wrong, cut, swapped and foreign files are told in one line, and a closed output in none."""
    session, output = TRANSFER
    with tempfile.TemporaryDirectory() as room:
        cut, empty, folder = (pathlib.Path(room) / name for name in ("cut", "empty", "folder"))
        cut.write_bytes(output.read_bytes()[:100])
        empty.write_bytes(b"")
        others = [session, EXAMPLES / "wait_die.out", cut, empty, room, cut.with_name("missing"), sys.executable]
        for other in others:
            called(1, "costs.py", session, other)
        for tool, more in (("leave.py", (3, folder)), ("drive.py", ("--next",))):
            called(1, tool, session, others[1], *more)
            called(1, tool, output, session, *more)
        require(called(0, "drive.py", *TRANSFER, "--next") == "nothing: all is quiet\n", "drive.py --next at the end")
        called(1, "leave.py", *TRANSFER, 99, folder)
        called(1, "leave.py", *TRANSFER, 3, folder, "--cut", "x")
        called(2, "drive.py", *TRANSFER)
        for program in (cut, sys.executable, cut.with_name("missing")):
            called(1, "drive.py", session, "--program", program)
        objects = called(0, "to_json.py", *TRANSFER).encode()
        for tool, words in (("costs.py", TRANSFER), ("drive.py", (*TRANSFER, "--next")), ("from_json.py", ("-",))):
            require(closed(tool, *words, given=objects) == (1, ""), f"{tool}: its output is closed, and it isn't quiet")
    for tool in ("costs.py", "leave.py", "drive.py", "from_json.py"):
        require(os.access(TOOLS / tool, os.X_OK), f"{tool}: it doesn't run by its name")
        require("example: tools/" in called(0, tool, "--help"), f"{tool}: it has no help")


WRITER_CHECKS = (
    check_drive,
    check_drive_goes_on,
    check_costs,
    check_leave,
    check_records,
    check_from_json,
    check_wrong_files,
)
