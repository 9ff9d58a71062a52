"""What stands above the lanes of a chart: its title, the transactions with their programs, and what its signs mean."""
from xml.sax.saxutils import escape

from canvas import BAD, GAP, GOOD, INK, LETTER, LOG, LOST, QUIET, Canvas, program_texts


class Head(Canvas):
    """A chart of some lines of a run. What draws it has `bars`, `colours`, `width`, and `look`, `missing` and `note` of a line."""

    def __init__(self, run, lines, title):
        super().__init__()
        self.run, self.lines, self.title = run, lines, title

    def programs(self):
        """The transactions that are drawn."""
        numbers = sorted({int(line.attempt.split(".")[0]) for line in self.lines if line.attempt})
        return program_texts(self.run.session, numbers, self.colours)

    def legend(self):
        """The signs that this chart has, each as what draws it and its words."""
        kinds, lines = {bar.kind for bar in self.bars}, self.lines
        colour = self.programs()[0][1] if self.programs() else INK
        crossed, taking = [line for line in lines if self.missing(line)[0]], [line for line in lines if line.takes]
        signs = [
            (any(line.sends for line in lines), lambda x, y: self.arrow(x, y, x + 26, y, colour), "message"),
            (any(self.look(line)[0] == QUIET for line in taking), lambda x, y: self.arrow(x, y, x + 26, y, QUIET), "it doesn't count"),
            (any(self.look(line)[1] for line in taking), self.sign_dashed, "its actor is down or crashes"),
            (crossed, lambda x, y: self.text(x + 18, y + 4, "×", LOST), "message that nobody takes: lost"),
            ("live" in kinds, lambda x, y: self.sign_bar(x, y, "live", colour), "live at the site"),
            ("doubt" in kinds, lambda x, y: self.sign_bar(x, y, "doubt", colour), "in doubt: prepared, and not decided there"),
            ("undecided" in kinds, lambda x, y: self.sign_bar(x, y, "undecided", colour), "coordinator: undecided"),
            ("known" in kinds, lambda x, y: self.sign_bar(x, y, "known", colour), "coordinator: decided, not forgotten"),
            (any(line.first() == "decides" for line in lines), lambda x, y: self.diamond(x + 14, y, GOOD), "decision"),
            (any(line.stops() for line in lines), self.sign_crash, "crash, and down until the recovery"),
            (any("log " in self.note(line) for line in lines), self.sign_log, "record written by this line"),
        ]
        return [(draw, words) for holds, draw, words in signs if holds]

    def sign_dashed(self, x, y):
        self.arrow(x, y, x + 26, y, BAD, 'stroke-dasharray="6 4"')

    def sign_crash(self, x, y):
        self.box(x + 16, y - 8, 12, 16, "#d5d9dd")
        self.box(x + 17, y - 8, 10, 10, BAD)

    def sign_log(self, x, y):
        self.text(x + 10, y + 3, "log", LOG, size=10)

    def sign_bar(self, x, y, kind, colour):
        self.bar(x + 24, y - 7, 14, kind, colour)

    def legend_places(self):
        """The place of each sign: a row of them is as wide as the chart."""
        places, x, row = [], GAP, 0
        for _, words in self.legend():
            wide = 34 + LETTER * len(words) + GAP
            if x + wide > self.width and x > GAP:
                x, row = GAP, row + 1
            places.append((x, row))
            x += wide
        return places

    def head_height(self):
        """Title, programs, signs, and the heads of the lanes."""
        signs = self.legend_places()
        return 40 + self.programs_height(self.programs()) + (20 * (signs[-1][1] + 1) + 8 if signs else 0) + 52

    def draw_head(self):
        whole = len(self.lines) == len(self.run.lines)
        count = f"{len(self.lines)} lines" if whole else f"{len(self.lines)} of {len(self.run.lines)} lines"
        self.text(GAP, 26, escape(f"{self.title}: {count}" if self.title else count), weight="bold", size=15)
        y = self.draw_programs(self.programs(), self.width, 46)
        for (draw, words), (x, row) in zip(self.legend(), self.legend_places()):
            draw(x, y + 20 * row + 4)
            self.text(x + 34, y + 20 * row + 8, words, QUIET)
