#!/usr/bin/env python3
"""Draws the floors of the house: which crates stand on each, and which floor stands on which. It is no part of the gate.

usage: tools/architecture.py > docs/architecture.svg
       tools/architecture.py --check

The crates and their edges are those of crates.txt; which crate belongs to which floor stands in FLOORS below. An arrow leads from a floor to
one that it stands on, and is left out where a way over other floors leads there too. The status is 1 where a crate has no floor or two, where a floor
names a crate that isn't there, where two floors stand on each other, or, with --check, where docs/architecture.svg is another picture.
"""
import pathlib
import sys
from xml.sax.saxutils import escape

TOP = pathlib.Path(__file__).resolve().parent.parent
PICTURE = TOP / "docs" / "architecture.svg"

# A floor: its name, its title, what lives there and what it may touch, its crates.
FLOORS = [
    ("tests", "Tests and examples", "touch public calls alone",
     "text_tests part_tests file_tests journal_tests engine_tests actor_tests world_tests session_tests cases world_by_hand engine_alone"),
    ("top", "Top", "words, source, sink, disks, status, and what is printed; touches the world's public calls",
     "mdbfed mdb_top resume_output session_outputs outputs"),
    ("threads", "A run in threads", "hosts behind a lock each; touch the actors' public calls",
     "federation_run fed_hosts"),
    ("world", "World", "who gets which message; touches the actors' public calls",
     "run_audit closing world_recovery fed_world session_report session_routes"),
    ("actors", "Actors", "one event, one answer; each touches its own parts and its own disk",
     "local_dbms site_core global_manager coord_core"),
    ("engines", "Engines", "one rule of concurrency control each; touches the rows and runs of one site",
     "any_engine locking_engine timestamp_engine validation_engine multiversion_engine run_book engine_contract"),
    ("parts", "Parts", "one data structure each; touches its own fields",
     "site_book site_tables ticket_item prepared_state journal_sums usable_journals found_disks coord_tables protocol_table global_exec ticket_graph conservative_take "
     "audit_lines order_merge serial_machine trace_merge scripted_link client_drivers"),
    ("texts", "Texts", "one grammar each; touches nothing else",
     "line_text trace_lines scenario_text report_text audit_text scenario_maker case_text"),
    ("bytes", "Bytes and disks", "one format each; touches its own bytes and its own disk",
     "actor_store journal_rules site_journal coord_journal frame_journal file_disks journal_disk fed_messages record_fields field_bytes byte_numbers"),
    ("printed", "Laws of lines and hosts", "touch definitions, those of actors, parts and texts too",
     "line_laws replay_laws made_laws host_laws left_disks held_disks"),
    ("theorems", "Theorems", "touch definitions alone",
     "audit_laws resume_laws found_laws disk_laws progress_laws closing_laws refuted_rules sum_laws federation_laws world_laws commit_laws coord_laws "
     "site_history engine_laws"),
    ("rules", "Rules", "plain types, definitions, and laws on them; no code",
     "audit_rules fed_rules"),
    ("ground", "Ground", "names, the tables of the protocols, chains and merges; touches nothing",
     "order_laws presumptions mdb_base"),
]

# Where a floor is drawn: its left edge, its width, and its row; floors of one row have one upper edge.
WIDTH, MARGIN = 1120, 20
PLACES = {
    "tests": (430, 670, 0), "top": (430, 670, 1), "threads": (430, 670, 2), "world": (430, 670, 3), "actors": (430, 670, 4),
    "engines": (430, 670, 5), "parts": (430, 670, 6), "texts": (430, 560, 7), "bytes": (430, 670, 8),
    "printed": (20, 360, 3), "theorems": (20, 360, 6), "rules": (20, 360, 8), "ground": (20, 1080, 9),
}
INK, QUIET, LINE, SAID, RUNS, CHIP = "#1b2733", "#5d6b77", "#7d8a96", "#fdf6e7", "#eef4fb", "#ffffff"
LETTER, CHIP_HEIGHT, HEAD, GAP = 7.3, 22, 46, 34


def edges_of(text):
    """The crates that each crate stands on, by crates.txt; libraries of the toolchain aren't crates."""
    lines = [line.split("#")[0].partition(":") for line in text.splitlines()]
    found = {name.split()[0]: rest.split() for name, _, rest in lines if name.strip()}
    return {name: [other for other in others if other in found] for name, others in found.items()}


def floors_of(edges):
    """The floor of each crate, and the floors that each floor stands on."""
    homes, wrong = {}, []
    for floor, _, _, crates in FLOORS:
        for crate in crates.split():
            if crate in homes:
                wrong.append(f"{crate} has two floors")
            if crate not in edges:
                wrong.append(f"{crate} is no crate")
            homes[crate] = floor
    wrong += [f"{crate} has no floor" for crate in edges if crate not in homes]
    if wrong:
        sys.exit("architecture: " + "; ".join(wrong))
    stands = {floor: set() for floor, _, _, _ in FLOORS}
    for crate, others in edges.items():
        stands[homes[crate]].update(homes[other] for other in others if homes[other] != homes[crate])
    return stands


def below(stands, floor):
    """All floors below a floor."""
    found, left = set(), list(stands[floor])
    while left:
        at = left.pop()
        if at == floor:
            sys.exit(f"architecture: the floor {floor} stands on itself")
        if at not in found:
            found.add(at)
            left += stands[at]
    return found


def arrows_of(stands):
    """The edges between floors that no way over other floors stands for, in the order of FLOORS."""
    under = {floor: below(stands, floor) for floor in stands}
    return [(floor, other) for floor in stands for other in stands
            if other in stands[floor] and not any(other in under[between] for between in stands[floor] if between != other)]


def chips(names, width):
    """The places of the crates' names in a box of this width, and how high they are together."""
    x, y, placed = 14, HEAD, []
    for name in names.split():
        wide = len(name) * LETTER + 16
        if x + wide > width - 10:
            x, y = 14, y + CHIP_HEIGHT + 6
        placed.append((name, x, y, wide))
        x += wide + 8
    return placed, y + CHIP_HEIGHT + 12


def boxes():
    """Each floor's box: left, top, width, height."""
    heights = {floor: chips(crates, PLACES[floor][1])[1] for floor, _, _, crates in FLOORS}
    rows = sorted({row for _, _, row in PLACES.values()})
    y, tops = 88, {}
    for row in rows:
        tops[row] = y
        # A floor at the left may reach over the next row, where nothing else stands at the left.
        high = [heights[floor] for floor, (x, _, at) in PLACES.items() if at == row and (x > 400 or row == rows[-1])]
        y += max(high) + GAP
    return {floor: (x, tops[row], width, heights[floor]) for floor, (x, width, row) in PLACES.items()}


def way(floor, other, box):
    """The points of the arrow from a floor to one that it stands on."""
    left, top, width, height = box[floor]
    to_left, to_top, to_width, to_height = box[other]
    if floor == "threads" and other == "printed":
        return [(left, top + height / 2), (to_left + to_width / 2, top + height / 2), (to_left + to_width / 2, to_top)]
    if floor == "printed" and other == "actors":
        return [(left + width / 2, top + height), (left + width / 2, to_top + to_height / 2), (to_left, to_top + to_height / 2)]
    if floor == "printed":
        return [(left + width / 2, top + height), (left + width / 2, to_top - 16), (to_left + 40, to_top - 16), (to_left + 40, to_top)]
    if floor == "parts" and other == "bytes":
        return [(left + width - 40, top + height), (left + width - 40, to_top)]
    if left > 400 and to_left < 400:
        middle = min(max(top + height / 2, to_top + 20), to_top + to_height - 20)
        if not top < middle < top + height:
            middle = top + height / 2
            return [(left, middle), (to_left + to_width + 20, middle), (to_left + to_width + 20, to_top + 24), (to_left + to_width, to_top + 24)]
        return [(left, middle), (to_left + to_width, middle)]
    x = left + width / 2
    return [(x, top + height), (x, to_top)]


def drawn(edges):
    box, out = boxes(), []
    height = max(top + high for _, top, _, high in box.values()) + MARGIN
    out.append(f'<svg xmlns="http://www.w3.org/2000/svg" width="{WIDTH}" height="{height:.0f}" font-family="sans-serif" font-size="13">')
    out.append('<defs><marker id="tip" viewBox="0 0 8 8" refX="8" refY="4" markerWidth="8" markerHeight="8" orient="auto">'
               f'<path d="M0 0 L8 4 L0 8 z" fill="{LINE}"/></marker></defs>')
    out.append('<rect width="100%" height="100%" fill="white"/>')
    out.append(f'<text x="20" y="34" font-size="18" font-weight="bold" fill="{INK}">The floors of mdbfed: {len(edges)} crates</text>')
    out.append(f'<text x="20" y="58" fill="{QUIET}">An arrow leads from a floor to one that it stands on. A crate may also stand on crates of its own floor.</text>')
    for floor, title, may, crates in FLOORS:
        x, y, width, high = box[floor]
        fill = SAID if floor in ("printed", "theorems", "rules", "ground") else RUNS
        out.append(f'<rect x="{x}" y="{y:.0f}" width="{width}" height="{high:.0f}" rx="6" fill="{fill}" stroke="{LINE}"/>')
        out.append(f'<text x="{x + 14}" y="{y + 20:.0f}" font-weight="bold" fill="{INK}">{escape(title)}</text>')
        out.append(f'<text x="{x + 14}" y="{y + 37:.0f}" font-size="12" fill="{QUIET}">{escape(may)}</text>')
        for name, at_x, at_y, wide in chips(crates, width)[0]:
            out.append(f'<rect x="{x + at_x:.1f}" y="{y + at_y:.0f}" width="{wide:.1f}" height="{CHIP_HEIGHT}" rx="4" fill="{CHIP}" stroke="{LINE}" stroke-width="0.6"/>')
            out.append(f'<text x="{x + at_x + 8:.1f}" y="{y + at_y + 15:.0f}" font-family="monospace" font-size="12" fill="{INK}">{name}</text>')
    for floor, other in arrows_of(floors_of(edges)):
        points = " ".join(f"{x:.0f},{y:.0f}" for x, y in way(floor, other, box))
        out.append(f'<polyline points="{points}" fill="none" stroke="{LINE}" stroke-width="1.6" marker-end="url(#tip)"/>')
    return "\n".join(out + ["</svg>", ""])


def main():
    words = sys.argv[1:]
    if words not in ([], ["--check"]):
        sys.exit(__doc__)
    picture = drawn(edges_of((TOP / "crates.txt").read_text()))
    if not words:
        sys.stdout.write(picture)
    elif PICTURE.read_text() != picture:
        sys.exit("architecture: docs/architecture.svg is another picture; run tools/architecture.py > docs/architecture.svg")


main()
