#!/usr/bin/env python3
"""Checks the tools over all sessions of examples/, and the reading of journals over the cases of conformance/resume. It is no part of the gate.

  chart.py     draws each session, whole and in part, and its orders, as XML; some texts of some charts are as they should be, and
               docs/presumptions.svg is what it draws
  to_json.py   makes an object of each line; its vector clocks count each actor's lines, and a message's sending stands before its taking
  standing.py  says at the last line of each session that all rest
  why.py       finds nothing wrong in them, finds each kind of bad line in a text that has it, and says what files of other kinds are
  due.py       shows the line that is due, with a stand-in for the program
  made.py      prints examples/made.run again
  from_json.py, drive.py, costs.py, leave.py  as check_writers.py says
  journal.py   finds the damaged frame of each damaged journal, and no other, and nobody in doubt behind a start; names the
               files to doubt where journals contradict each other, and none of journals that a session leaves

The status is 0 where all is so. tools/examples.sh runs this first.

example: tools/check.py
"""
import argparse
import json
import subprocess
import sys
import xml.dom.minidom

import chart
import chart_orders
import mdbanswers
import mdbcourse
import mdbjournal
import mdblines
import mdborders
import mdbstate
import mdbtext
import standing
import to_json
import why
from check_folders import check_doubts
from check_inputs import check_due, check_why
from check_writers import WRITER_CHECKS, check_writers
from mdbchecks import TOOLS, TOP, Fault, called, require

# A text for each reason, and the line that is bad.
SITE = "site 1 locking abort\n"
BAD_TEXTS = {
    "long": ("local 1 1 " + "get:1 " * 400 + "\n", 1),
    "ending": (SITE + "item 1 1 1", 2),
    "bytes": (SITE + "item\t1 1 1\n", 2),
    "word": (SITE + "\n", 2),
    "count": (SITE + "item 1 1 1 \n", 2),
    "spelling": ("site 1 locks abort\n", 1),
    "number": ("site 01 locking abort\n", 1),
    "range": ("site 9 locking abort\n", 1),
    "site": (SITE + "item 2 1 1\n", 2),
    "repeated": (SITE + SITE, 2),
    "register": (SITE + "local 1 1 get:5 add:5:1:1\n", 2),
    "many": (SITE + "local 1 1" + " get:1" * 33 + "\n", 2),
}
# Texts that the charts of some sessions have, each with how often.
CHART_TEXTS = {
    "presumptions": {
        "presumptions: 29 lines": 1,
        "1, global: 1/set:1:11 2/set:2:22 3/set:3:33": 1,
        "Work": 3,
        "Take": 3,
        "Prepare": 3,
        "done": 3,
        "ticket": 3,
        "yes": 3,
        "commit": 4,
        "ack": 2,
        "inquiry": 1,
        "log Initiation, forced": 1,
        "log Prepared, forced": 3,
        "log Commit, forced": 1,
        "log Ended, forced": 2,
        "log Ended, not forced": 2,
        "log End, not forced": 1,
        "crash: loses Ended, not forced": 1,
        "log Start, forced; recovery: in doubt 1.0": 1,
    },
    "kept_decision": {"a crash is due in disk call 1 from here": 1, "crash: keeps Commit, which it was writing": 1, "recovery: to be settled 1.0": 1},
    "cut_decision": {"crash: what it was writing isn't kept": 1, "abort": 3, "presumes abort 1.0": 1},
    "lost_decision": {"× commit to site 2": 1},
    "conservative_tickets": {"defers 2.0": 1, "× commit to sites 1 2": 1, "closing": 1},
    "cycle_through_locals": {"log Abort, forced": 1, "log Local, forced": 2, "line 34: 2.0 is refused by this cycle of tickets": 1},
}
ORDER_TEXTS = {
    "cycle_through_locals": (
        "key 1",
        "ticket 2",
        "one order for all sites, printed: 4.0 1.0 3.0",
        "site 2: 2.0, before 4.0 by key 2, before 1.0 by key 4",
        "site 1: 1.0, before 3.0 by key 1, before 2.0 by key 3",
    ),
}


def texts_of(picture):
    """The texts of a picture, in their order, and that it is well formed."""
    nodes = xml.dom.minidom.parseString(picture).getElementsByTagName("text")
    return ["".join(part.nodeValue or part.firstChild.nodeValue for part in node.childNodes) for node in nodes]


def check_chart(run):
    for lines in (run.lines, chart.chosen(run, (2, len(run.lines)), None), chart.chosen(run, None, "1"), chart.chosen(run, None, "site1")):
        texts_of(chart.Chart(run, lines).whole())
    texts = texts_of(chart_orders.OrdersChart(run, "a run").whole())
    require(any(text.startswith("one order for all sites, printed: " + run.report[0][6:20]) for text in texts), "chart.py --orders: no order")


def check_course(run):
    """Each message has a name, no bar lasts beyond a session that rests, and the orders of the sites are parts of the printed one."""
    names, course, orders = mdbanswers.Names(run).names, mdbcourse.Course(run), mdborders.Orders(run)
    require("message" not in names.values() and len(names) == len(run.sent), "mdbanswers.py: a message has no name")
    require(not course.broken and all(bar.last for bar in course.bars), "mdbcourse.py: a bar has no end")
    printed, members = run.report[0].split(" ")[1:], [orders.members(site) for site in run.session.sites]
    for site in members:
        require(site == [attempt for attempt in printed if attempt in site], f"mdborders.py: {site} isn't in the order {printed}")
    require({attempt for site in members for attempt in site} == set(printed), "mdborders.py: an attempt stands in no site's order")


def check_json(run):
    objects = list(to_json.objects(run))
    require(len(objects) == len(run.lines) + len(run.report), "to_json.py: an object for each line")
    own, clocks = {}, []
    for head in list(to_json.events(run))[::2]:
        name, clock = head.split(" ", 1)
        own[name] = own.get(name, 0) + 1
        clocks.append(json.loads(clock))
        require(clocks[-1][name] == own[name], f"to_json.py: {head}")
    for line in objects:
        if line.get("takes"):
            before, behind = clocks[line["takes"]["sent_at"] - 1], clocks[line["line"] - 1]
            require(all(behind.get(name, 0) >= count for name, count in before.items()), f"to_json.py: line {line['line']}")


def check_standing(run):
    state = mdbstate.State(run)
    require(state.rests() and not any(" live: " in line for line in standing.report(state)), "standing.py: not all rest before the first line")
    require(any(line.startswith("all rest: ") for line in standing.report(state.go_to(len(run.lines)))), "standing.py: not all rest at the end")


def check_session(path):
    """One session by all tools that read runs."""
    try:
        run = mdblines.read_run(str(path), str(path.with_suffix(".out")))
        for check in (check_chart, check_course, check_json, check_standing, check_writers):
            check(run)
        require(not list(why.remarks(run.session, path.read_bytes())), "why.py finds something")
    except (Fault, mdbtext.Wrong) as fault:
        raise Fault(f"{path}: {fault}") from None


def check_calls():
    """The tools as commands: their statuses, and that two files that don't belong together are told in one line."""
    session, output, other = (TOP / "examples" / name for name in ("transfer.fed", "transfer.out", "wait_die.out"))
    for tool, more in (("chart.py", ()), ("to_json.py", ()), ("standing.py", ("10",))):
        called(0, tool, session, output, *more)
        called(1, tool, session, other, *more)
    require(called(0, "why.py", session).endswith(": nothing is wrong in it\n"), "why.py finds something")
    called(1, "journal.py", TOP / "examples")


def check_bad_texts():
    for reason, (text, line) in BAD_TEXTS.items():
        try:
            mdbtext.read_session(text.encode())
        except mdbtext.BadLine as bad:
            require((bad.line, bad.reason) == (line, reason), f"mdbtext.py: {reason}: {bad}")
            require(why.advice(bad, text.encode().split(b"\n")[line - 1]), f"why.py: {reason}: no advice")
        else:
            raise Fault(f"mdbtext.py: {reason} isn't found")


def check_made():
    require(called(0, "made.py", 5, 3, 4) == (TOP / "examples/made.run").read_text(), "made.py 5 3 4 isn't examples/made.run")
    called(2, "made.py", 5, 9, 4)


def journals(path):
    """The journals of a file of lines `disk N HEX`."""
    lines = [line.split(" ") for line in path.read_text().splitlines()]
    kinds = [mdbjournal.SITE if words[1] != "0" else mdbjournal.COORDINATOR for words in lines]
    return [mdbjournal.Journal(bytes.fromhex("".join(words[2:])), kind) for words, kind in zip(lines, kinds)]


def check_journals():
    for output in sorted((TOP / "conformance/resume").glob("*.stdout")):
        case, text = output.with_suffix(""), output.read_text()
        damaged = [f"disk {number} is damaged at {it.damaged[0]}\n" for number, it in enumerate(journals(case)) if it.damaged]
        require((damaged or [""])[0] == (text if "damaged" in text else ""), f"{case}: journals: {damaged}")
        after = case.with_name(case.name + ".after")
        if after.exists():
            coordinator, *sites = journals(after)
            require(not any(mdbjournal.doubtful(it.records) for it in sites), f"{after}: somebody is in doubt")
            require(not mdbjournal.still_open(coordinator.records), f"{after}: an attempt isn't ended")


def run_of(name):
    path = TOP / "examples" / name
    return mdblines.read_run(str(path.with_suffix(".fed")), str(path.with_suffix(".out")))


def check_chart_texts():
    """What the charts of some sessions say, text by text."""
    for name, wanted in CHART_TEXTS.items():
        run = run_of(name)
        texts = texts_of(chart.Chart(run, run.lines, title=name).whole())
        for text, count in wanted.items():
            require(texts.count(text) == count, f"chart.py: {name}: {text!r} stands {texts.count(text)} times and not {count}")
    for name, wanted in ORDER_TEXTS.items():
        texts = texts_of(chart_orders.OrdersChart(run_of(name), name).whole())
        for text in wanted:
            require(text in texts, f"chart.py --orders: {name}: {text!r} is missing")


def check_chart_parts():
    """What comes from and goes to rows that aren't drawn is named by its line; a verdict marks its line; the foot is as low as the last text."""
    run = run_of("presumptions")
    texts = texts_of(chart.Chart(run, run.lines[4:8]).whole())
    for text in ("ticket from line 4", "done to line 9", "Work from line 3", "4 of 29 lines"):
        require(text in texts, f"chart.py --rows: {text!r} is missing")
    require("cycle" in texts_of(chart.Chart(run, run.lines, (19, "cycle")).whole()), "chart.py --verdict: no reason")
    whole = chart.Chart(run, run.lines)
    rows = [int(node.getAttribute("y")) for node in xml.dom.minidom.parseString(whole.whole()).getElementsByTagName("text")]
    require(0 < whole.height - max(rows) < 40, f"chart.py: the foot is at {whole.height}, and the last text at {max(rows)}")


def check_contradiction():
    """A run that no session prints is still drawn, and the line that contradicts the others is named."""
    run = run_of("presumptions")
    line = next(line for line in run.lines if line.first() == "up")
    line.answer = line.answer[:-1] + "7"
    require("contradicts the lines before it" in texts_of(chart.Chart(run, run.lines).whole()), "chart.py: a contradiction isn't named")


def check_answers():
    """The table of answers as JSON has each row, and a row fits each answer that sends or writes."""
    table = json.loads(called(0, "mdbanswers.py"))
    require(table["answers"] == mdbanswers.ROWS and set(table["presumed"]) == set(mdbtext.PROTOCOLS), "mdbanswers.py: its table")
    require(all(row["command"] in mdbtext.COMMANDS for row in table["answers"]), "mdbanswers.py: a row of no command")


def check_picture():
    """The picture of the documents is the one that the chart draws."""
    drawn = called(0, "chart.py", TOP / "examples/presumptions.fed", TOP / "examples/presumptions.out")
    require(drawn == (TOP / "docs/presumptions.svg").read_text(), "docs/presumptions.svg isn't what chart.py draws")


def check_chart_calls():
    """Cut, foreign and missing files, and choices that don't go together."""
    session, output = TOP / "examples/transfer.fed", TOP / "examples/transfer.out"
    called(0, "chart.py", session, output, "--orders")
    called(0, "chart.py", "--help")
    for words in ((output, session), (session, session), (session, TOP / "missing"), (session, TOP / "docs"), (session, TOP / "mdbfed")):
        called(1, "chart.py", *words)
        called(1, "chart.py", *words, "--orders")
    for words in (("--rows", "5-2"), ("--only", "site9"), ("--verdict", "agrees"), ("--orders", "--rows", "1-2")):
        called(2, "chart.py", session, output, *words)
    called(1, "chart.py", session, output, "--rows", "90-99")
    line = [sys.executable, str(TOOLS / "chart.py"), str(session), str(output)]
    for closed in ("| head -c 1", ">&-"):
        ran = subprocess.run(["bash", "-c", f'"$@" {closed}', "bash", *line], stdout=subprocess.PIPE, stderr=subprocess.PIPE, check=False)
        require(not ran.stderr, f"chart.py {closed}: {ran.stderr.decode()[-200:]}")


CHART_CHECKS = (check_chart_texts, check_chart_parts, check_contradiction, check_answers, check_picture, check_chart_calls)


def main():
    argparse.ArgumentParser(description=__doc__, formatter_class=argparse.RawDescriptionHelpFormatter).parse_args()
    sessions = sorted((TOP / "examples").glob("*.fed"))
    try:
        for session in sessions:
            check_session(session)
        for check in (check_calls, check_bad_texts, check_due, check_why, check_made, check_journals, check_doubts, *CHART_CHECKS, *WRITER_CHECKS):
            check()
    except Fault as why:
        sys.exit(f"check.py: {why}")
    print(f"tools: all do as they should over {len(sessions)} sessions")


if __name__ == "__main__":
    main()
