"""The picture of the orders: of each site its order with conflicts and tickets, the graph of the tickets, and how a refusal would close a cycle."""
from xml.sax.saxutils import escape

from canvas import BAD, FAINT, GAP, INK, LETTER, QUIET, Canvas, colours, program_texts
from mdborders import Orders

BOX, STEP, LEFT, LEAST_WIDTH = 56, 120, 230, 900


def shown_keys(keys):
    return ("key " if len(keys) == 1 else "keys ") + " ".join(map(str, keys[:4])) + (" .." if keys[4:] else "")


class OrdersChart(Canvas):
    """A row for each site: the attempts by their serial numbers, conflicts as arrows above them, tickets below them."""

    def __init__(self, run, title):
        super().__init__()
        self.run, self.title, self.orders = run, title, Orders(run)
        self.colours = colours({*run.session.locals, *run.session.globals})
        self.rows = {site: self.orders.members(site, self.orders.refused) for site in sorted(run.session.sites)}
        longest = max([len(members) for members in self.rows.values()], default=0)
        merged = LETTER * len(run.report[0]) if run.report else 0
        self.width = max(LEAST_WIDTH, LEFT + STEP * longest + GAP, min(2 * GAP + merged, 2000))
        self.height = 0

    def colour(self, attempt):
        return self.colours.get(int(attempt.split(".")[0]), INK)

    def draw_head(self):
        self.text(GAP, 26, escape(f"{self.title}: the orders of the sites"), weight="bold", size=15)
        numbers = sorted({int(attempt.split(".")[0]) for members in self.rows.values() for attempt in members})
        self.height = self.draw_programs(program_texts(self.run.session, numbers, self.colours), self.width, 46) + 6
        signs = (
            ("from left to right by serial number; square: global; round: local", INK),
            ("above: an arrow from the earlier to the later of two that conflict, with the keys; below: the tickets of the globals", QUIET),
            ("dashed: prepared at the site, and refused by the coordinator, so it stands in no order", BAD),
        )
        for words, colour in signs if self.orders.refused else signs[:2]:
            self.text(GAP, self.height, words, colour)
            self.height += 16

    def draw_site(self, site):
        members = self.rows[site]
        if not members:
            self.text(GAP, self.height + 28, f"site {site}", weight="bold")
            self.text(LEFT, self.height + 28, "no transaction is prepared or committed here", QUIET)
            self.height += 40
            return
        places = {attempt: LEFT + BOX / 2 + STEP * at for at, attempt in enumerate(members)}
        conflicts = self.orders.conflicts(site, members)
        spans = [members.index(second) - members.index(first) for first, second, _ in conflicts]
        y = self.height + 46 + 16 * min(max(spans, default=1), 6)
        self.text(GAP, y + 2, f"site {site}", weight="bold")
        self.text(GAP, y + 18, "{}, presumed {}".format(*self.run.session.sites[site]), QUIET, size=10)
        self.line(LEFT - 20, y, self.width - GAP, y, FAINT)
        for (first, second, keys), span in zip(conflicts, spans):
            self.draw_conflict(places[first], places[second], y - 14, min(span, 6), shown_keys(keys))
        self.draw_tickets(site, members, places, y + 14)
        for attempt, x in places.items():
            self.draw_member(attempt, x, y)
        self.height = y + 62

    def draw_conflict(self, x1, x2, y, span, words):
        high = y - 18 - 32 * span / 2
        self.curve(((x1 + 8, y), ((x1 + x2) / 2, high), (x2 - 8, y)), INK)
        self.text((x1 + x2) / 2, (y + high) / 2 - 3, words, INK, "middle", size=10)

    def draw_tickets(self, site, members, places, y):
        takers = [attempt for attempt in members if (attempt, site) in self.orders.tickets]
        for attempt in takers:
            self.text(places[attempt], y + 14, f"ticket {self.orders.tickets[attempt, site]}", QUIET, "middle", size=10)
        for first, second in zip(takers, takers[1:]):
            x1, x2 = places[first], places[second]
            self.curve(((x1 + 8, y + 18), ((x1 + x2) / 2, y + 40), (x2 - 8, y + 18)), QUIET)

    def draw_member(self, attempt, x, y):
        local = int(attempt.split(".")[0]) in self.run.session.locals
        refused = attempt in self.orders.refused
        look = f'stroke="{BAD if refused else self.colour(attempt)}" stroke-width="1.5" rx="{14 if local else 2}"'
        self.box(x - BOX / 2, y - 14, BOX, 28, "white", look + (' stroke-dasharray="5 3"' if refused else ""))
        self.text(x, y + 4, attempt, BAD if refused else self.colour(attempt), "middle", "bold")

    def draw_merge(self):
        """The one order for all sites, as it is printed."""
        words = self.run.report[0].split(" ")[1:] if self.run.report else []
        most = int((self.width - 2 * GAP) / LETTER) - 34
        text = " ".join(words)
        self.height += 16
        self.text(GAP, self.height, f"one order for all sites, printed: {text if len(text) <= most else text[:most] + ' ..'}", weight="bold")
        self.height += GAP

    def draw_graph(self):
        """The ticket graph of all that committed and of those that were refused."""
        edges = [(first, second, f"site {site}") for first, second, site in self.orders.ticket_edges()]
        found = {attempt for edge in edges for attempt in edge[:2]}
        nodes = [attempt for attempt in self.run.report[0].split(" ")[1:] if attempt in found]
        nodes += sorted(found - set(nodes))
        if nodes:
            self.text(GAP, self.height + 14, "the ticket graph: an edge to the next ticket at a site")
            self.height += self.ring(nodes, edges, self.height + 2 * GAP + 10, self.orders.refused) + 4 * GAP

    def draw_refusals(self):
        """The cycle of each refusal, edge by edge, with the conflicts that stand behind it."""
        for attempt, line in self.orders.refused.items():
            self.text(GAP, self.height + 14, f"line {line.number}: {attempt} is refused; with it committed these would close a cycle", BAD)
            self.height += 18
            for first, second, site in line.edges():
                self.text(GAP + 18, self.height + 14, escape(self.reason(first, second, int(site))))
                self.height += 16
            self.height += 8

    def reason(self, first, second, site):
        path = self.orders.path(first, second, site)
        ways = first + "".join(f", before {later} by {shown_keys(keys)}" for _, later, keys in path)
        return f"site {site}: {ways}" if path else f"site {site}: {first}, before {second} by ticket alone; no conflicts lead from one to the other"

    def whole(self):
        self.draw_head()
        for site in self.rows:
            self.draw_site(site)
        for draw in (self.draw_merge, self.draw_graph, self.draw_refusals):
            draw()
        return self.picture(self.width, self.height + GAP)
