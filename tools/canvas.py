"""The parts of a picture (SVG) and their colours. chart.py and chart_orders.py draw with it."""
import math
from xml.sax.saxutils import escape

LETTER, SMALL, GAP, MOST_PROGRAMS = 7.3, 6.1, 24, 16
INK, QUIET, PALE, FAINT, LOST, GOOD, BAD, LOG = "#1b2733", "#7d8a96", "#b9c2ca", "#eceff2", "#b8621b", "#2e7d4f", "#b3372f", "#7a5a10"
# The colours of transactions, which come again where there are more of them.
COLOURS = ("#2f6db3", "#8a4fb3", "#1f8a84", "#c05a80", "#6a7d1f", "#4a4fc0", "#9a6a2a", "#3f8f3f")

# The width and the opacity of the bars.
BARS = {"live": (3, 0.45), "doubt": (6, 1), "undecided": (3, 0.45), "known": (6, 0)}


def colours(transactions):
    """A colour for each transaction."""
    return {number: COLOURS[at % len(COLOURS)] for at, number in enumerate(sorted(transactions))}


def program_texts(session, numbers, colour_of):
    """Transactions, each with its program as a text and its colour."""
    texts = []
    for number in numbers:
        home, steps = session.locals.get(number, (None, session.globals.get(number, [])))
        acts = " ".join((f"{site}/" if home is None else "") + ":".join(map(str, act)) for site, act in steps)
        kind = "global" if home is None else f"local at site {home}"
        texts.append((f"{number}, {kind}: {acts}", colour_of.get(number, INK)))
    return texts


class Canvas:
    """The parts of a drawing, in the order in which they cover each other."""

    def __init__(self):
        self.parts = []

    def text(self, x, y, text, colour=INK, anchor="start", weight="normal", size=12):
        sized, around = ("", 4) if size == 12 else (f' font-size="{size}"', 3)
        self.parts.append(
            f'<text x="{x:.0f}" y="{y:.0f}" fill="{colour}" text-anchor="{anchor}" font-weight="{weight}"{sized} '
            f'stroke="white" stroke-width="{around}" paint-order="stroke">{text}</text>'
        )

    def line(self, x1, y1, x2, y2, colour, more=""):
        self.parts.append(f'<line x1="{x1:.0f}" y1="{y1:.0f}" x2="{x2:.0f}" y2="{y2:.0f}" stroke="{colour}" {more}/>')

    def arrow(self, x1, y1, x2, y2, colour, more=""):
        self.line(x1, y1, x2, y2, colour, f'marker-end="url(#{colour[1:]})" {more}')

    def box(self, x, y, width, height, fill, more=""):
        self.parts.append(f'<rect x="{x:.0f}" y="{y:.0f}" width="{width:.0f}" height="{height:.0f}" fill="{fill}" {more}/>')

    def bar(self, middle, y, height, kind, colour):
        """A state of an attempt: thin where it isn't bound, broad where it is in doubt, hollow where it is decided."""
        width, opacity = BARS[kind]
        fill = f'fill-opacity="{opacity}"' + (f' stroke="{colour}"' if not opacity else "")
        self.box(middle - width / 2, y, width, height, colour, fill)

    def diamond(self, x, y, colour):
        self.parts.append(f'<path d="M{x - 7:.0f} {y:.0f} l7 -7 l7 7 l-7 7 z" fill="{colour}"/>')

    def dot(self, x, y, colour):
        self.parts.append(f'<circle cx="{x:.0f}" cy="{y:.0f}" r="4" fill="{colour}"/>')

    def curve(self, points, colour, more=""):
        """An arrow from the first point to the third, bent towards the second."""
        (x1, y1), (x2, y2), (x3, y3) = points
        path = f"M{x1:.0f} {y1:.0f} Q{x2:.0f} {y2:.0f} {x3:.0f} {y3:.0f}"
        self.parts.append(f'<path d="{path}" fill="none" stroke="{colour}" marker-end="url(#{colour[1:]})" {more}/>')

    def draw_programs(self, texts, width, y):
        """A line for each of the first transactions, from a height on; answers the height below them."""
        most = int((width - 2 * GAP - 18) / LETTER)
        for text, colour in texts[:MOST_PROGRAMS]:
            self.box(GAP, y - 9, 10, 10, colour)
            self.text(GAP + 18, y, escape(text if len(text) <= most else text[: most - 3] + " .."), colour)
            y += 16
        if len(texts) > MOST_PROGRAMS:
            self.text(GAP + 18, y, f"and {len(texts) - MOST_PROGRAMS} transactions more", QUIET)
        return 46 + self.programs_height(texts)

    @staticmethod
    def programs_height(texts):
        return 16 * min(len(texts), MOST_PROGRAMS + 1)

    def ring(self, nodes, edges, top, marked):
        """The nodes in a circle, and an arrow with its words from one to another, one for all edges between the same two. Answers its height."""
        radius, words = max(60, 22 * len(nodes)), {}
        half = radius if len(nodes) > 2 else 30
        for first, second, word in edges:
            words.setdefault((first, second), []).append(word)
        middle = GAP + 80 + radius, top + half
        turns = {node: 2 * math.pi * at / len(nodes) - math.pi for at, node in enumerate(nodes)}
        spots = {node: (middle[0] + radius * math.cos(turn), middle[1] + radius * math.sin(turn)) for node, turn in turns.items()}
        for (first, second), shared in words.items():
            if first != second:
                self.bend(spots[first], spots[second], ", ".join(shared), 44 if (second, first) in words else 0)
        for node, (x, y) in spots.items():
            self.text(x, y + 4, node, BAD if node in marked else INK, "middle", "bold")
        return 2 * half

    def bend(self, first, second, word, by):
        """An edge of a ring, bent to its right by so much where there is one back."""
        (x1, y1), (x2, y2) = first, second
        length = math.dist(first, second)
        bent = (x1 + x2) / 2 + by * (y1 - y2) / length, (y1 + y2) / 2 + by * (x2 - x1) / length
        ends = [(x + 22 * (bent[0] - x) / math.dist(bent, (x, y)), y + 22 * (bent[1] - y) / math.dist(bent, (x, y))) for x, y in (first, second)]
        self.curve((ends[0], bent, ends[1]), QUIET)
        self.text((x1 + x2) / 4 + bent[0] / 2, (y1 + y2) / 4 + bent[1] / 2 + 4, word, QUIET, "middle", size=10)

    def picture(self, width, height):
        """The whole picture, with a head for the arrows of each colour."""
        heads = "".join(
            f'<marker id="{colour[1:]}" viewBox="0 0 8 8" refX="8" refY="4" markerWidth="7" markerHeight="7" orient="auto">'
            f'<path d="M0 0 L8 4 L0 8 z" fill="{colour}"/></marker>'
            for colour in (*COLOURS, QUIET, BAD, INK)
        )
        head = (
            f'<svg xmlns="http://www.w3.org/2000/svg" width="{width:.0f}" height="{height:.0f}" font-family="monospace" font-size="12">\n'
            f'<defs>{heads}</defs>\n<rect width="100%" height="100%" fill="white"/>\n'
        )
        return head + "\n".join(self.parts) + "\n</svg>\n"
