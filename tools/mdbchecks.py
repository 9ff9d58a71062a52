"""How the checks of the tools call them and say what is wrong. The files check.py and check_*.py share it."""
import os
import pathlib
import subprocess
import sys

TOOLS = pathlib.Path(__file__).resolve().parent
TOP = TOOLS.parent


class Fault(Exception):
    """What a tool did otherwise than it should."""


def ended(tool, *words, given=b""):
    """The status of a tool, what it prints, and its errors."""
    line = [sys.executable, str(TOOLS / tool), *map(str, words)]
    ran = subprocess.run(line, input=given, stdout=subprocess.PIPE, stderr=subprocess.PIPE, check=False)
    return ran.returncode, ran.stdout.decode(), ran.stderr.decode()


def called(status, tool, *words, given=b""):
    """What a tool prints, which ends with this status, and with one line of error where that is 1."""
    code, printed, errors = ended(tool, *words, given=given)
    if code != status or status == 1 and errors.count("\n") != 1:
        raise Fault(f"{tool} {' '.join(map(str, words))}: status {code}: {errors.strip()[-200:]}")
    return printed


def require(holds, what):
    if not holds:
        raise Fault(what)


def called_with(status, tool, *words):
    """What a tool prints on standard output, which ends with this status and says nothing else."""
    code, printed, errors = ended(tool, *words)
    require((code, errors) == (status, ""), f"{tool}: status {code}: {errors.strip()[-200:]}")
    return printed


def told_by(tool, *words):
    """The one line in which a tool refuses what it is given."""
    code, printed, errors = ended(tool, *words)
    require((code, printed) == (1, ""), f"{tool}: status {code}: {printed[:200]}")
    return errors


def called_closed(tool, *words):
    """A tool whose output is closed ends quietly, with status 1."""
    reads, writes = os.pipe()
    os.close(reads)
    line = [sys.executable, str(TOOLS / tool), *map(str, words)]
    buffered = {name: value for name, value in os.environ.items() if name != "PYTHONUNBUFFERED"}
    ran = subprocess.run(line, stdout=writes, stderr=subprocess.PIPE, universal_newlines=True, check=False, env=buffered)
    os.close(writes)
    require((ran.returncode, ran.stderr) == (1, ""), f"{tool}, with its output closed: status {ran.returncode}: {ran.stderr.strip()[-200:]}")


def require_same(printed, wanted, what):
    """A text is the one that is due; else its first line that isn't is named."""
    both = zip(printed.splitlines() + [""], wanted.splitlines() + [""])
    differing = [f"{one!r} stands for {other!r}" for one, other in both if one != other]
    first = differing[0] if differing else "a line is missing, or one more stands"
    require(printed == wanted, f"{what}: {first}")
