"""What each message of a run says, derived from the printed lines by the rules (docs/RULES.md, sections 7 to 9)."""
import re

# The answers of the coordinator that say a decision.
DECISION = re.compile(r"(?:decides|answers|presumes) (commit|abort)")


class Asked:
    """What was asked for an attempt: the steps that were answered, and what is outstanding at each site."""

    def __init__(self, steps):
        self.steps, self.finished, self.reads, self.decision, self.lost = steps, 0, [], None, False
        self.outstanding = {steps[0][0]: "Work"}

    def finish(self, site, reply):
        """A reply that counts: the next step is due, and where it was the site's last one its ticket."""
        if reply[0] == "ticket":
            self.outstanding[site] = "Prepare"
            return
        if reply[0] == "value":
            self.reads.append(int(reply[1]))
        self.finished += 1
        del self.outstanding[site]
        if all(at != site for at, _ in self.steps[self.finished :]):
            self.outstanding[site] = "Take"
        if self.finished < len(self.steps):
            self.outstanding[self.steps[self.finished][0]] = "Work"


class Messages:
    """The names of the messages of the lines so far, by way, site and number, and what was asked for each attempt."""

    def __init__(self, run):
        self.run, self.names, self.asked, self.decisions, self.tickets = run, {}, {}, {}, {}

    def take(self, line):
        """Takes the next line."""
        if line.actor == 0:
            self.of_coordinator(line)
        elif line.sends:
            self.names[line.sends[0]] = self.of_site(line)

    def of_site(self, line):
        """The name of what a site sends."""
        said = line.answer.split(" ")
        if said[0] == "did":
            return f"the Did of {said[1]}: {' '.join(said[2:])}"
        if said[0] == "votes":
            return f"the vote of {said[1]}: {said[2]}"
        return f"the inquiry about {line.attempt}" if said[0] == "asks" else f"the acknowledgement of {line.attempt}"

    def of_coordinator(self, line):
        """What a line of the coordinator counts, decides and sends."""
        first, attempt = line.first(), line.attempt
        steps = self.run.session.globals.get(int(attempt.split(".")[0])) if attempt else None
        if first == "begun" and steps:
            self.asked[attempt] = Asked(steps)
        if first == "stopped":
            for asked in self.asked.values():
                asked.lost = True
        asked = self.asked.get(attempt)
        if asked and line.word == "take" and first not in ("ignored", "waits", "down", "stopped"):
            self.count(line, asked)
        decided = DECISION.match(line.answer)
        if asked and first == "decides":
            asked.decision = decided[1]
        for sent in line.sends:
            says = decided[1] if decided else self.decided(line, asked)
            if says:
                self.decisions[sent] = says
            name = f"decision to {says}" if says else asked.outstanding.get(sent[1], "message") if asked else "message"
            self.names[sent] = f"the {name} of {attempt}"

    def decided(self, line, asked):
        """What `again` says of an attempt that is decided. After a restart that is its outcome."""
        if line.word != "again":
            return None
        if asked is None or asked.lost and asked.decision is None:
            return self.run.outcomes.get(line.attempt, "abort")
        return asked.decision

    def count(self, line, asked):
        """Counts the reply or the vote that a line takes."""
        site = line.takes[1]
        said = self.run.sent[line.takes].answer.split(" ")
        if said[0] == "did" and said[2] in ("done", "value", "ticket") and site in asked.outstanding:
            asked.finish(site, said[2:])
        elif said[0] == "votes" and said[2] == "yes":
            asked.outstanding.pop(site, None)
            self.tickets.setdefault(line.attempt, {})[site] = int(said[3])


def messages_of(run, count=None):
    """The messages of the first lines of a run, or of all."""
    found = Messages(run)
    for line in run.lines[:count]:
        found.take(line)
    return found
