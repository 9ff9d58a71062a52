#!/usr/bin/env python3
"""Says where a printed run stands behind one of its lines: who is up, and what is live, in doubt, undecided and not forgotten.

All of it is derived from the printed lines by the rules (docs/RULES.md), as an operator would from a log. A site is in doubt of an attempt
that it prepared and whose end isn't on its disk; it must ask the coordinator. The coordinator's attempts are undecided until the decision, and
not forgotten until each required acknowledgement came.

example: tools/standing.py examples/transfer.fed examples/transfer.out 10
"""
import argparse

from mdblines import read_run
from mdbstate import State, attempts
from mdbtext import Wrong, told


def named(sites):
    return ", ".join(f"site {site}" for site in sites) or "none"


def actor_line(name, actor):
    """Whether an actor is up, and what may stop it."""
    armed = f"; stops behind {actor.armed[0]} more disk calls (armed at line {actor.armed[2]})" if actor.armed else ""
    return f"{name}: {'up' if actor.up else 'down'}{armed}"


def coordinator_lines(coordinator):
    yield actor_line("coordinator", coordinator)
    for attempt in attempts(coordinator.known):
        known = coordinator.known[attempt]
        if known["decision"] is None:
            voted, all_sites = known["votes"], coordinator.participants(attempt)
            yield f"  undecided: {attempt} since line {known['since']}, at {named(all_sites)}; voted yes: {named(voted)}"
        else:
            missing = named(coordinator.awaited(attempt))
            yield f"  not forgotten: {attempt}, {known['decision']} since line {known['decided']}, no acknowledgement yet of {missing}"
    if not coordinator.up:
        kinds = coordinator.kinds()
        unended = [it for it in attempts(kinds) if "End" not in kinds[it]]
        yield f"  its disk names, without an End: {' '.join(unended) or 'nothing'}"


def site_lines(number, site, kind):
    yield actor_line(f"site {number} ({kind[0]}, presumed {kind[1]})", site)
    for attempt in attempts(site.live):
        waits = f", was last told to wait for {site.waits[attempt]}" if attempt in site.waits else ""
        ticket = f", has ticket {site.tickets[attempt]}" if attempt in site.tickets else ""
        yield f"  live: {attempt} since line {site.live[attempt]}{ticket}{waits}"
    doubts = site.doubts()
    for attempt in attempts(doubts):
        yield f"  in doubt: {attempt} since line {doubts[attempt]}"


def report(state):
    """The lines to print."""
    yield from coordinator_lines(state.coordinator)
    for number, site in state.sites.items():
        yield from site_lines(number, site, state.run.session.sites[number])
    if state.rests():
        yield "all rest: every actor is up, no trip is armed, and nothing is live, in doubt, undecided or not forgotten"


def main():
    reader = argparse.ArgumentParser(description=__doc__, formatter_class=argparse.RawDescriptionHelpFormatter)
    reader.add_argument("session", metavar="SESSION", help="the input that the run was made of")
    reader.add_argument("output", metavar="OUTPUT", help="what the program printed for it")
    reader.add_argument("line", metavar="LINE", help="a line of the output, counted from 1; 0 is before the first, `end` behind the last")
    words = reader.parse_args()
    run = read_run(words.session, words.output)
    if words.line != "end" and not (words.line.isdigit() and int(words.line) <= len(run.lines)):
        raise Wrong(f"{words.line}: LINE is 0 to {len(run.lines)}, or `end`: the others are of the report")
    count = len(run.lines) if words.line == "end" else int(words.line)
    state = State(run).go_to(count)
    said = f"`{run.lines[count - 1].text}`" if count else "the set-up"
    print(f"behind line {count} of {len(run.lines)}, {said}:")
    for line in report(state):
        print(line)


if __name__ == "__main__":
    told(main)
