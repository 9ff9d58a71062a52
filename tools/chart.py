#!/usr/bin/env python3
"""Draws a printed run as a sequence chart (SVG). It is no part of the gate, and it proves nothing: it only shows what the program printed.

Time runs from top to bottom, a line of the run on each row, with its number and its command at the left. There is a lane for each site, with
its engine and its protocol, and one for the coordinator where it has a line. The heads of the lanes stand again every 40 rows. Each
transaction has a colour; its program stands at the top, and so does what the signs mean.

  arrow         from the line that sends a message to each line that takes it, with its name: Work, Take, Prepare, commit, abort; value, done,
                ticket, yes, no, ack, inquiry; `again` where it was taken before; grey where it doesn't count (`ignored`, `unknown`), dashed
                where its actor is down or crashes
  dashed stub   with a cross and the name of a message that nobody takes, so it is lost; with a line's number where a message comes from or
                goes to a row that isn't drawn
  log           below the answer: the record that the line writes, and whether it is forced to the disk
  bar           beside a site's lane: thin while an attempt is live there, broad while it is in doubt; beside the coordinator's: thin while
                the attempt is undecided, hollow while it is decided and not forgotten
  diamond       a decision of the coordinator; green for commit, red for abort
  square, grey  a crash (`halt`, or a `trip` that comes), and the lane while its actor is down, to its recovery (`back`)
  grey attempt  behind an answer that names none: the one that it is about
  closing       above the first line that no command asked for; of a run in threads only where a trip was still armed then
  red band      the line that `audit` named, with its reason (--verdict)

The report stands below the lanes of a whole run, and below it the cycle of each refusal as a graph, whose edges bear the site where the
tickets stand so. With --orders another picture is drawn: the order of each site with its conflicts, the graph of the tickets, and for each
refusal the way in which it would close a cycle, through local transactions too.

example: tools/chart.py examples/presumptions.fed examples/presumptions.out > presumptions.svg
"""
import argparse
import pathlib
import re
from bisect import bisect_left, bisect_right
from xml.sax.saxutils import escape

import mdbanswers
from canvas import BAD, FAINT, GAP, GOOD, INK, LETTER, LOG, LOST, PALE, QUIET, SMALL, colours
from chart_head import Head
from chart_orders import OrdersChart
from mdbcourse import Course, placed
from mdblines import read_run
from mdbtext import Wrong, told

ROW, PAGE, AGAIN, LONGEST, CLOSING, LEAST_WIDTH = 30, 40, 54, 200, 16, 900


def colour_of(line):
    """The colour of a line's answer."""
    if line.first() in ("committed", "checked") or re.match(r"decides commit|settles \S+ commit", line.answer):
        return GOOD
    if line.first() in ("stopped", "down", "dies", "late", "invalid") or {"abort", "no", "dies", "late"} & set(line.answer.split()):
        return BAD
    return INK


def unnamed(line):
    """The attempt that a line is about, where its answer doesn't name it."""
    return line.attempt if line.attempt and line.attempt not in line.answer.split() else ""


def of_site(line, site):
    return line.actor == site or any(message and message[1] == site for message in [line.takes, *line.sends])


def chosen(run, rows, only):
    """The lines to draw."""
    lines = run.lines
    if rows:
        lines = lines[rows[0] - 1 : rows[1]]
    if not only:
        return lines
    if only.startswith("site"):
        return [line for line in lines if of_site(line, int(only[4:]))]
    about = {line.number: line.actor for line in lines if line.attempt and only in (line.attempt, line.attempt.split(".")[0])}
    actors = set(about.values())
    stops = [line.number for line in lines if line.actor in actors and (line.stops() or line.first() == "up")]
    shown = {*about, *stops}
    return [line for line in lines if line.number in shown]


class Chart(Head):
    """The drawing. The coordinator's answers stand at the left of its lane, and those of a site at the right; the names of messages stand at
    the left of the site that takes or sends them."""

    def __init__(self, run, lines, named=None, title=""):
        super().__init__(run, lines, title)
        self.places, self.named = {}, named
        self.numbers = [line.number for line in lines]
        self.rows = {number: row for row, number in enumerate(self.numbers)}
        self.digits = len(str(lines[-1].number)) if lines else 1
        self.names, self.course = mdbanswers.Names(run).names, Course(run)
        self.colours = colours({*run.session.locals, *run.session.globals})
        self.bars = placed([bar for bar in self.course.bars if self.part(bar)])
        self.closing = self.closing_row()
        self.lay_out()
        self.top = self.head_height()
        self.foot = self.down(len(lines) - 1) + ROW - 4 if lines else self.top
        self.height = self.foot + (18 * len(self.report) + GAP if self.report else 0) + GAP // 2

    def lay_out(self):
        """The places of the lanes, as wide as their answers and the names of their messages."""
        left = GAP + LETTER * (self.digits + 1 + max([len(line.command) for line in self.lines], default=0)) + GAP
        shown = {line.actor for line in self.lines}
        if 0 in shown:
            left += max(self.widest(0), 60) + GAP
            self.places[0] = left
            left += max(100, SMALL * max([len(words) for _, words, _ in map(self.missing, self.coordinators())], default=0) + 50)
        whole = len(self.lines) == len(self.run.lines)
        for site in sorted(self.run.session.sites):
            if whole or site in shown:
                self.places[site] = left + max(90, self.names_width(site))
                left = self.places[site] + max(100, self.widest(site) + GAP)
        self.report = [text if len(text) <= LONGEST else f"{text[:LONGEST]} .." for text in self.run.report[:-1]] if whole else []
        self.width = max(left, GAP + LETTER * max([len(text) for text in self.report], default=0) + GAP, LEAST_WIDTH)

    def coordinators(self):
        return [line for line in self.lines if line.actor == 0]

    def widest(self, actor):
        """The room that the answers of an actor and their notes need."""
        mine = [line for line in self.lines if line.actor == actor]
        answers = [LETTER * len(f"{line.answer} {unnamed(line)}") for line in mine]
        return 12 + max(answers + [SMALL * len(self.note(line)) for line in mine], default=0)

    def names_width(self, site):
        """The room at the left of a site's lane: its bars, a bit of the arrow, and the longest name."""
        names = [len(name) + 6 for (_, at, _), name in self.names.items() if at == site]
        stubs = [len(self.missing(line)[1]) + 8 for line in self.lines if line.actor == site]
        return self.beside(site) + 46 + SMALL * max(names + stubs, default=0)

    def beside(self, actor):
        """How far the bars of an actor reach from its lane."""
        return 9 + 8 * (1 + max([bar.column for bar in self.bars if bar.actor == actor], default=-1))

    def note(self, line):
        return "; ".join(self.course.notes.get(line.number, []))

    def colour(self, attempt):
        return self.colours.get(int(attempt.split(".")[0]), INK) if attempt else INK

    def down(self, row):
        """The height of a row, below the heads and the closing that stand before it."""
        return self.top + ROW * row + ROW // 2 + AGAIN * (row // PAGE) + (CLOSING if row >= self.closing else 0)

    def part(self, bar):
        """The rows of a bar that are drawn: the first and the last, or None."""
        last = bar.last or (self.run.lines[-1].number + 1)
        first, behind = bisect_left(self.numbers, bar.first), bisect_right(self.numbers, last)
        drawn = behind - first > 1 or behind > first and bar.last is None
        return (first, behind - 1) if drawn else None

    # The lanes and what lies on them.

    def draw_verdict(self):
        """A band behind the line that the audit named, and its reason; below the lanes where it is one of the report."""
        if not self.named:
            return
        number, what = self.named
        behind = number - len(self.run.lines)
        if number in self.rows:
            y, height = self.down(self.rows[number]) - ROW // 2, ROW
        elif behind > 0 and self.report:
            y, height = self.foot + 18 * (behind - 1) + GAP - 14, 18
        else:
            return
        self.box(0, y, self.width, height, "#f9e1df")
        self.text(self.width - GAP, y + height / 2 + 4, what, BAD, "end", "bold")

    def draw_rows(self):
        for row, line in enumerate(self.lines):
            y = self.down(row)
            self.line(GAP, y, self.places.get(line.actor, self.width), y, FAINT)
            self.text(GAP + LETTER * self.digits, y + 4, str(line.number), PALE, "end")
            self.text(GAP + LETTER * (self.digits + 1), y + 4, escape(line.command), QUIET)

    def draw_heads(self, y):
        for actor, x in self.places.items():
            self.text(x, y, "coordinator" if actor == 0 else f"site {actor}", weight="bold", anchor="middle")
            if actor:
                self.text(x, y + 16, "{}, presumed {}".format(*self.run.session.sites[actor]), QUIET, anchor="middle")

    def draw_pages(self):
        """The heads, over the first row and again every so many rows."""
        for row in range(0, max(len(self.lines), 1), PAGE):
            self.draw_heads(self.down(row) - ROW // 2 - 28)

    def draw_lanes(self):
        for actor, x in self.places.items():
            self.line(x, self.top - 8, x, self.foot, QUIET, 'stroke-width="1.5"')
            since = None
            for row, line in enumerate(self.lines + [None]):
                if line is None or line.actor == actor and line.first() == "up":
                    if since is not None:
                        y = self.down(since)
                        self.box(x - 6, y, 12, min(self.down(row), self.foot) - y, "#d5d9dd")
                    since = None
                elif line.actor == actor and (line.stops() or line.first() == "down") and since is None:
                    since = row

    def draw_bars(self):
        for bar in self.bars:
            if bar.actor in self.places:
                first, last = self.part(bar)
                y, end = self.down(first), self.foot if bar.last is None else self.down(last)
                x = self.places[bar.actor] + (12 + 8 * bar.column) * (1 if bar.actor == 0 else -1)
                self.bar(x, y, end - y, bar.kind, self.colour(bar.attempt))

    def closing_row(self):
        """The first row that no command asked for; behind the last one where there is none."""
        commanded = len(self.run.lines) if self.run.commanded is None else self.run.commanded
        return next((row for row, line in enumerate(self.lines) if line.number > commanded), len(self.lines))

    def draw_closing(self):
        if self.closing < len(self.lines):
            y = self.down(self.closing) - ROW // 2 - CLOSING + 4
            self.line(GAP, y, self.width - GAP, y, INK, 'stroke-dasharray="2 4"')
            self.text(GAP, y + 11, "closing", INK, size=10)

    # Messages.

    def look(self, line):
        """The colour of the arrow to this line, and whether it is dashed."""
        if line.first() in ("down", "stopped"):
            return BAD, 'stroke-dasharray="6 4"'
        if line.first() == "ignored" or line.answer.endswith("unknown"):
            return QUIET, ""
        return self.colour(line.attempt), ""

    def draw_messages(self):
        for row, line in enumerate(self.lines):
            for message in line.sends:
                for taken in self.run.taken.get(message, []):
                    if taken.number in self.rows and message[1] in self.places and 0 in self.places:
                        self.draw_arrow(message, row, taken)
            source = self.run.sent.get(line.takes)
            if source and source.number not in self.rows:
                x, y, step = self.places[line.actor], self.down(row), 1 if line.actor == 0 else -1
                self.arrow(x + 34 * step, y - 9, x + 6 * step, y - 3, QUIET, 'stroke-dasharray="4 3"')
                words = f"{self.names[line.takes]} from line {source.number}"
                self.text(x + (40 + self.beside(line.actor) // 2) * step, y - 6, words, QUIET, "start" if step > 0 else "end", size=10)

    def draw_arrow(self, message, row, taken):
        way, site, _ = message
        x1, x2 = (self.places[actor] for actor in ((0, site) if way == "to" else (site, 0)))
        step, (colour, more) = 1 if x2 > x1 else -1, self.look(taken)
        start, end = (x1, self.down(row) + 4), (x2 - 7 * step, self.down(self.rows[taken.number]) - 4)
        self.arrow(*start, *end, colour, more)
        again = " again" if taken is not self.run.taken[message][0] else ""
        self.draw_name(self.names[message] + again, (start, end), self.rows[taken.number] if way == "to" else row, way, site, colour)

    def draw_name(self, name, ends, row, way, site, colour):
        """The name of a message on its arrow, at the left of the site's bars; beside the arrow where it is steep and other lines are near."""
        (x1, y1), (x2, y2) = ends
        y, step = (y2, -1) if way == "to" else (y1, 1)
        x = self.places[site] - self.beside(site) - 16 - SMALL * len(name) / 2
        lift = abs((y2 - y1) / (x2 - x1)) * (self.places[site] - x)
        lift = max(3, min(lift, 8 + ROW * self.free(row, step, site)))
        self.text(x, y + step * lift + 3, name, colour, "middle", size=10)

    def free(self, row, step, site):
        """How many rows next to this one, upwards or downwards, are free of this site's lines; heads end them."""
        count = 0
        while 0 <= row + step < len(self.lines) and (row + step) // PAGE == row // PAGE and self.lines[row + step].actor != site:
            row, count = row + step, count + 1
        return count

    def missing(self, line):
        """What becomes of a line's messages: whether any is lost, what is said of that and of what other rows take, and its colour."""
        lost, said = [message for message in line.sends if not self.run.taken.get(message)], []
        for name in dict.fromkeys(self.names[message] for message in lost):
            sites = [str(message[1]) for message in lost if self.names[message] == name]
            said.append(f"× {name}" + (f" to site{'s' if sites[1:] else ''} {' '.join(sites)}" if line.actor == 0 else ""))
        for message in line.sends:
            later = [str(taken.number) for taken in self.run.taken.get(message, []) if taken.number not in self.rows]
            if later:
                said.append(f"{self.names[message]} to line {' '.join(later)}")
        return bool(lost), ", ".join(said), LOST if lost else QUIET

    def draw_losses(self):
        """A stub for what nobody takes, and for what is taken in rows that aren't drawn."""
        for row, line in enumerate(self.lines):
            _, words, colour = self.missing(line)
            if words:
                x, y, step = self.places[line.actor], self.down(row), 1 if line.actor == 0 else -1
                end = x + (self.beside(line.actor) + 16) * step
                self.line(x, y + 4, end, y + 13, colour, 'stroke-dasharray="4 3"')
                self.text(end + 4 * step, y + 17, words, colour, "start" if step > 0 else "end", size=10)

    def draw_lines(self):
        """The answers; a browser shows the meaning of the one under the pointer."""
        for row, line in enumerate(self.lines):
            self.parts.append(f"<g><title>{mdbanswers.meaning_of(line)}</title>")
            self.draw_sign(line, self.places[line.actor], self.down(row))
            self.draw_answer(line, self.places[line.actor], self.down(row))
            self.parts.append("</g>")

    def draw_sign(self, line, x, y):
        if line.first() == "decides":
            self.diamond(x, y, colour_of(line))
        elif line.stops():
            self.box(x - 5, y - 5, 10, 10, colour_of(line))
        else:
            self.dot(x, y, self.colour(line.attempt))

    def draw_answer(self, line, x, y):
        side, anchor = (-12, "end") if line.actor == 0 else (12, "start")
        about = f' <tspan fill="{QUIET}" font-weight="normal">{unnamed(line)}</tspan>' if unnamed(line) else ""
        weight = "bold" if line.first() == "decides" else "normal"
        self.text(x + side, y + 4, escape(line.answer) + about, colour_of(line), anchor, weight)
        if self.note(line):
            self.text(x + side, y + 15, self.note(line), LOG, anchor, size=10)
        if self.course.broken and self.course.broken[0] == line.number:
            self.text(x + side, y + 15, "contradicts the lines before it", BAD, anchor, size=10)

    # What stands below the lanes.

    def draw_report(self):
        for place, text in enumerate(self.report):
            self.text(GAP, self.foot + 18 * place + GAP, escape(text))

    def draw_cycles(self):
        """The cycle of each refusal: the attempts in a circle, and an edge where the first one's ticket is smaller at the site."""
        for line in self.lines:
            edges = [(first, second, f"site {site}") for first, second, site in line.edges()]
            if edges:
                nodes = list(dict.fromkeys(attempt for edge in edges for attempt in edge[:2]))
                self.text(GAP, self.height + GAP // 2, f"line {line.number}: {line.attempt} is refused by this cycle of tickets", BAD)
                self.height += self.ring(nodes, edges, self.height + 2 * GAP, [line.attempt]) + 3 * GAP

    def whole(self):
        for draw in (self.draw_head, self.draw_verdict, self.draw_rows, self.draw_lanes, self.draw_bars, self.draw_closing, self.draw_messages):
            draw()
        for draw in (self.draw_losses, self.draw_pages, self.draw_lines, self.draw_report, self.draw_cycles):
            draw()
        return self.picture(self.width, self.height)


def rows_of(word):
    """The two numbers of A-B."""
    found = re.fullmatch(r"([1-9]\d*)-([1-9]\d*)", word)
    if not found or int(found[1]) > int(found[2]):
        raise argparse.ArgumentTypeError(f"{word!r} isn't A-B, two lines of the output, as 10-25")
    return int(found[1]), int(found[2])


def only_of(word):
    if not re.fullmatch(r"[1-9]\d*(\.\d+)?|site[1-8]", word):
        raise argparse.ArgumentTypeError(f"{word!r} is no transaction (7), attempt (7.0) or site (site2)")
    return word


def verdict_of(text):
    """The line and the reason of a verdict."""
    found = re.fullmatch(r"differs at line ([1-9]\d*) ([a-z]+)\s*", text)
    if not found:
        raise argparse.ArgumentTypeError(f"{text!r} isn't `differs at line N WHAT`")
    return int(found[1]), found[2]


def named_by(verdict, session):
    """The line of the output that a verdict names: the lines of the scenario and `printed` stand before it in the text that was audited."""
    if not verdict:
        return None
    with open(session, encoding="ascii", errors="replace") as file:
        lines = file.read().split("\n")
    before = lines.index("commands") if "commands" in lines else len(lines) - 1
    return verdict[0] - before - 1, verdict[1]


def main():
    reader = argparse.ArgumentParser(description=__doc__, formatter_class=argparse.RawDescriptionHelpFormatter)
    reader.add_argument("session", metavar="SESSION", help="the input that the run was made of")
    reader.add_argument("output", metavar="OUTPUT", help="what the program printed for it")
    reader.add_argument("--rows", metavar="A-B", type=rows_of, help="draw these lines of the output alone, counted from 1")
    reader.add_argument("--only", metavar="WHAT", type=only_of, help="draw what concerns a transaction (7), an attempt (7.0) or a site (site2)")
    reader.add_argument("--verdict", metavar="TEXT", type=verdict_of, help="mark the line that `audit` named, as `differs at line 31 cycle`")
    reader.add_argument("--orders", action="store_true", help="draw the orders of the sites, the tickets, and how refusals would close cycles")
    words = reader.parse_args()
    if words.orders and (words.rows or words.only or words.verdict):
        reader.error("--orders draws the whole run; it goes with no other choice")
    run, title = read_run(words.session, words.output), "" if words.session == "-" else pathlib.Path(words.session).stem
    if words.orders:
        print(OrdersChart(run, title).whole(), end="")
        return
    lines = chosen(run, words.rows, words.only)
    if not lines and (words.rows or words.only):
        raise Wrong(f"{words.output}: no line of the {len(run.lines)} is one to draw")
    print(Chart(run, lines, named_by(words.verdict, words.session), title).whole(), end="")


if __name__ == "__main__":
    told(main)
