#!/usr/bin/env python3
"""Draws docs/architecture.svg: the crates by what they depend on, as crates.txt says, and the paths of a record.

    architecture.py           writes the drawing
    architecture.py --check   compares it with what is there, and the tables of architecture.md with crates.txt

A line is drawn from a crate to each one that it uses, but for those that it reaches through another. A crate's row
is the length of its longest way down. A crate that no column is given for, boxes that overlap, or a call of a way that
isn't public in its crate, is a fault. The last line of a check is `N passed, M failed`.
"""

import os
import re
import sys

ROOT = os.path.dirname(os.path.dirname(os.path.abspath(__file__)))
DRAWING = os.path.join(ROOT, "docs", "architecture.svg")

# The middle of each crate's box, in columns from the left, and what the crate does.
CRATES = {
    "mseed_time": (2.15, "instants, rates, joins"),
    "mseed_record": (2.25, "framing, views, headers, choices"),
    "mseed_steim": (2.25, "words, frames, samples"),
    "mseed_steim_pack": (0.1, "words and frames, packed"),
    "mseed_stream": (3.8, "devices, the cutter"),
    "mseed_text": (3.8, "lines of text"),
    "mseed_select": (1.85, "records that are asked for, lists"),
    "mseed_audit": (0.85, "findings, verdicts, text"),
    "mseed_join": (1, "parts of audits, joined"),
    "mseed_pack": (0, "packing a series"),
    "mseed_repack": (1.35, "stretches, an archive packed anew"),
    "slink_wire": (3.15, "packets, lines, hosts"),
    "slink_feed": (5.3, "rings, sessions, clients, turns"),
    "slink_links": (3.85, "one link after another, TCP"),
    "slink_live": (4.35, "many links at once, as records come"),
    "slink_model": (4.9, "schedules over cut links"),
    "mseed_c": (2.35, "the calls for C"),
    "mseed_files": (3.3, "files, as one input"),
    "mseed_words": (2.7, "what a command line requests"),
    "mseed_feed": (3.35, "serving and fetching as commands"),
    "mseed": (0.5, "the command"),
}

# Crates of tests, examples and benchmarks, on which nothing stands.
LEFT_OUT = ["examples", "mseed_bench", "mseed_tests", "slink_tests"]

# Each step of a way: the crate, and its calls.
WAYS = {
    "audit: an archive's bytes become the text of verdicts": [
        ("mseed_stream", "Cutter"),
        ("mseed_record", "RecordView"),
        ("mseed_steim", "check_samples"),
        ("mseed_time", "join"),
        ("mseed_audit", "Audit, audit"),
    ],
    "select: those of its records that are asked for are copied": [
        ("mseed_stream", "Cutter"),
        ("mseed_record", "RecordView"),
        ("mseed_select", "Selector"),
        ("mseed_select", "select"),
    ],
    "repack: its channels become records of one form": [
        ("mseed_stream", "read_all, split"),
        ("mseed_audit", "Audit"),
        ("mseed_steim", "fill_samples"),
        ("mseed_pack", "fit_view, Packer"),
        ("mseed_stream", "write_all_of"),
    ],
    "serve and fetch: its records become packets, and records again": [
        ("mseed_stream", "Cutter"),
        ("slink_feed", "Ring, Session"),
        ("slink_wire", "Packet"),
        ("slink_links", "serve_link, fetch_link"),
        ("slink_feed", "Client"),
    ],
}

COLUMN, ROW, WIDTH, HEIGHT, MARGIN = 262, 82, 236, 46, 20
COLORS = {"mseed": "#dbe9f6", "slink": "#e3f1dc"}


def text_of(*path):
    with open(os.path.join(ROOT, *path), encoding="utf-8") as file:
        return file.read()


def crates_used():
    """Of each crate of the repository those of the repository that it uses."""
    lines = [line.split("#")[0].partition(":") for line in text_of("crates.txt").splitlines()]
    used = {made.split()[0]: below.split() for made, colon, below in lines if colon}
    used = {crate: below for crate, below in used.items() if crate not in LEFT_OUT}
    return {crate: [low for low in below if low in used] for crate, below in used.items()}


def reached_from(crate, used):
    return {crate}.union(*(reached_from(low, used) for low in used[crate]))


def nearest(crate, used):
    """Those that it uses and reaches through no other."""
    return [low for low in used[crate]
            if not any(low in reached_from(other, used) for other in used[crate] if other != low)]


def depth(crate, used):
    return max((depth(low, used) + 1 for low in used[crate]), default=0)


def is_public(crate, name):
    folder = os.path.join("crates", crate, "src")
    return any(re.search(rf"^pub (?:fn|struct|enum|trait) {name}\b", text_of(folder, file), re.MULTILINE)
               for file in os.listdir(os.path.join(ROOT, folder)) if file.endswith(".rt"))


def label(x, y, text, size=13, weight="normal", anchor="middle"):
    return (f'<text x="{x:g}" y="{y:g}" font-size="{size}" font-weight="{weight}" text-anchor="{anchor}">{text}'
            "</text>")


def box(x, y, crate, words):
    """A box around (x, y), with the crate's name above the words."""
    fill = COLORS[crate.split("_")[0]]
    return [f'<rect x="{x - WIDTH / 2:g}" y="{y - HEIGHT / 2:g}" width="{WIDTH}" height="{HEIGHT}" rx="6" '
            f'fill="{fill}" stroke="#555"/>', label(x, y - 3, crate, 14, "bold"), label(x, y + 15, words, 12)]


def line(x1, y1, x2, y2, ends="arrow"):
    return f'<line x1="{x1:g}" y1="{y1:g}" x2="{x2:g}" y2="{y2:g}" stroke="#555" marker-end="url(#{ends})"/>'


def draw_crates(used):
    rows = {crate: depth(crate, used) for crate in used}
    top = max(rows.values())
    at = {crate: (MARGIN + WIDTH / 2 + CRATES[crate][0] * COLUMN, MARGIN + 40 + HEIGHT / 2 + (top - row) * ROW)
          for crate, row in rows.items()}
    lines = [line(at[crate][0], at[crate][1] + HEIGHT / 2, at[low][0], at[low][1] - HEIGHT / 2)
             for crate in used for low in nearest(crate, used)]
    boxes = [part for crate in used for part in box(*at[crate], crate, CRATES[crate][1])]
    head = label(MARGIN, MARGIN + 12, "What each crate depends on", 16, "bold", "start")
    return [head, *lines, *boxes], MARGIN + 40 + top * ROW + HEIGHT


def draw_ways(y):
    step, parts = 205, []
    for way, steps in WAYS.items():
        y += 50
        parts.append(label(MARGIN, y, way, 14, "bold", "start"))
        for number, (crate, calls) in enumerate(steps):
            x, middle = MARGIN + number * step, y + 12 + HEIGHT / 2
            parts += [f'<rect x="{x}" y="{y + 12}" width="{step - 28}" height="{HEIGHT}" rx="6" '
                      f'fill="{COLORS[crate.split("_")[0]]}" stroke="#555"/>',
                      label(x + (step - 28) / 2, middle - 3, crate, 12),
                      label(x + (step - 28) / 2, middle + 15, calls, 13, "bold")]
            if number:
                parts.append(line(x - 28, middle, x - 2, middle))
        y += 12 + HEIGHT
    return parts, y


def drawing():
    crates, y = draw_crates(crates_used())
    ways, y = draw_ways(y)
    width = MARGIN * 2 + WIDTH + COLUMN * max(column for column, _ in CRATES.values())
    head = (f'<svg xmlns="http://www.w3.org/2000/svg" viewBox="0 0 {width:g} {y + MARGIN:g}" '
            f'width="{width:g}" height="{y + MARGIN:g}" font-family="sans-serif">')
    arrow = ('<defs><marker id="arrow" viewBox="0 0 8 8" refX="8" refY="4" markerWidth="8" markerHeight="8" '
             'orient="auto"><path d="M0 0 L8 4 L0 8 z" fill="#555"/></marker></defs>')
    return "\n".join([head, "<title>The crates, and the paths of a record through them</title>", arrow,
                      '<rect width="100%" height="100%" fill="white"/>', *crates, *ways, "</svg>", ""])


def faults():
    """What of this file, the drawing and the table isn't as crates.txt and the crates say, and what was judged."""
    used = crates_used()
    yield "docs/architecture.svg isn't what is drawn: make drawing", text_of("docs", "architecture.svg") != drawing()
    for way, steps in WAYS.items():
        for crate, calls in steps:
            for call in calls.split(", "):
                yield f"{way}: {call} isn't public in {crate}", not is_public(crate, call)
    places = sorted((depth(crate, used), CRATES[crate][0], crate) for crate in used)
    for (row, column, crate), (next_row, next_column, other) in zip(places, places[1:]):
        yield f"{crate} and {other} are drawn over one another", row == next_row and next_column < column + 1
    page = text_of("docs", "architecture.md")
    rows = dict(re.findall(r"^\| `(\w+)` \|[^|]*\|([^|]*)\|", page, re.MULTILINE))
    needed = re.findall(r"^\| [^|`]* \| `(\w+)` \|$", page, re.MULTILINE)
    for crate in used:
        yield f"docs/architecture.md doesn't say once who needs {crate} alone", needed.count(crate) != 1
        listed = re.findall(r"`(\w+)`", rows.get(crate, ""))
        yield (f"docs/architecture.md: {crate} depends on {nearest(crate, used)}, and not on {listed}",
               crate not in rows or sorted(listed) != sorted(nearest(crate, used)))


def main():
    unknown = [crate for crate in crates_used() if crate not in CRATES]
    if unknown:
        sys.exit(f"docs/architecture.py: give a column to {', '.join(unknown)}\n0 passed, {len(unknown)} failed")
    if sys.argv[1:] != ["--check"]:
        with open(DRAWING, "w", encoding="utf-8") as file:
            file.write(drawing())
        return
    judged = list(faults())
    for fault, is_fault in judged:
        print(("FAILED " if is_fault else "no fault: ") + fault)
    failed = sum(is_fault for _, is_fault in judged)
    print(f"{len(judged) - failed} passed, {failed} failed")
    sys.exit(failed > 0)


main()
