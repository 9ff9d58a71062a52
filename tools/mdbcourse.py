"""What each actor went through over a run: its records with their fate, and from which line to which an attempt was live, in doubt or known."""
import mdbanswers
from mdbstate import State
from mdbtext import Wrong


class Bar:
    """A state of an attempt at an actor, from one line to another; `last` is None where it lasts to the end."""

    def __init__(self, actor, attempt, kind, first):
        self.actor, self.attempt, self.kind, self.first, self.last, self.column = actor, attempt, kind, first, None, 0


def placed(bars):
    """The bars, which stand in the order of their first lines, with different columns where they overlap at an actor; those of one attempt
    keep theirs where they can."""
    open_bars, last = {}, {}
    for bar in bars:
        beside = [other for other in open_bars.get(bar.actor, []) if other.last is None or other.last > bar.first]
        taken, wanted = {other.column for other in beside}, last.get((bar.actor, bar.attempt), 0)
        bar.column = wanted if wanted not in taken else next(at for at in range(len(taken) + 1) if at not in taken)
        open_bars[bar.actor], last[bar.actor, bar.attempt] = beside + [bar], bar.column
    return bars


class Course:
    """The bars and the notes of a run. `broken` is the first line that the lines before it contradict, with the reason: there it ends."""

    def __init__(self, run):
        self.run, self.bars, self.notes, self.broken, self.open = run, [], {}, None, {}
        self.state = State(run)
        for line in run.lines:
            try:
                self.follow(line)
            except Wrong as why:
                self.broken = line.number, str(why)
                break

    def follow(self, line):
        actor = self.actor_of(line)
        before = list(actor.records) if actor else []
        self.state.step()
        if actor:
            self.notes[line.number] = self.noted(line, before, actor)
            self.change(actor, line)

    def actor_of(self, line):
        return self.state.coordinator if line.actor == 0 else self.state.sites.get(line.actor)

    def noted(self, line, before, actor):
        """What stands below a line's answer: its record, what a crash took away, or what a recovery found."""
        notes = []
        if line.stops():
            return self.crash(line, before, actor.records)
        record = mdbanswers.record_of(self.run, line)
        if record and not (record[0] == "Prepared" and before == actor.records):
            notes.append(f"log {record[0]}, {'forced' if record[1] else 'not forced'}")
        if line.first() == "up":
            found = actor.known if line.actor == 0 else actor.doubts()
            words = "to be settled" if line.actor == 0 else "in doubt"
            notes.append(f"recovery: {words} {' '.join(found)}" if found else "recovery: nothing " + words)
        if line.word == "trip" and line.answer == "set":
            calls = line.words[2]
            notes.append("no crash is due" if calls == "0" else f"a crash is due in disk call {calls} from here")
        return notes

    @staticmethod
    def crash(line, before, after):
        """A crash keeps records from the oldest on: the one that its line was writing, or a part of those that weren't forced."""
        if len(after) > len(before):
            return [f"crash: keeps {after[-1][0]}, which it was writing"]
        lost = [kind for kind, _ in before[len(after) :]] if len(after) > 1 or len(before) <= 2 else []
        notes = [] if line.word == "halt" else ["crash: what it was writing isn't kept"]
        if lost:
            notes.append(f"crash: loses {', '.join(lost)}, not forced")
        return notes or ["crash: all of the log is kept"]

    @staticmethod
    def standing(actor):
        """The state of each attempt at an actor."""
        if actor.number == 0:
            return {attempt: "known" if it["decision"] else "undecided" for attempt, it in actor.known.items()}
        return {**{attempt: "live" for attempt in actor.live}, **{attempt: "doubt" for attempt in actor.doubts()}}

    def change(self, actor, line):
        """Ends the bars of what changed, and begins those of what is new."""
        now = self.standing(actor)
        for (number, attempt), bar in list(self.open.items()):
            if number == actor.number and now.get(attempt) != bar.kind:
                bar.last = line.number
                del self.open[number, attempt]
        for attempt, kind in now.items():
            if (actor.number, attempt) not in self.open:
                bar = self.open[actor.number, attempt] = Bar(actor.number, attempt, kind, line.number)
                self.bars.append(bar)
