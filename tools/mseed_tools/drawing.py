"""A drawing of channels over time, as an SVG that stands alone."""

from __future__ import annotations

import bisect
import calendar
import datetime
from html import escape
from typing import Iterator, NamedTuple, Optional, Sequence, Tuple

from mseed_tools.instants import EPOCH, SECOND, time_of
from mseed_tools.segments import Mark, Row

WIDTH, ROW, BAR, HEAD, EDGE = 1120, 18, 10, 74, 18
# After so many rows the labels of the axis come again, in a row of their own.
RUN = 40
# Letters of the names and of the title are so wide.
LETTER, BOLD = 7.0, 8.5
# Marks by their upper edges below that of the bar, their heights, and the widths that they have at least.
MARKS = {"gap": (0.0, BAR, 4.0), "overlap": (-4.0, 8.0, 6.0), "finding": (BAR - 6.0, 9.0, 4.0)}
ZOOM = "narrow marks are drawn wider; zoom by --from and --until"
DAY = 86400
# How far apart ticks may stand, in seconds, and above these in months.
STEPS = [1, 2, 5, 10, 30, 60, 120, 300, 600, 1800, 3600, 7200, 10800, 21600, 43200, DAY, 2 * DAY, 5 * DAY, 10 * DAY]
MONTHS = [1, 3, 6, 12, 24, 60, 120, 240, 600]
COLOURS = {"continuous": "#2f7d4f", "broken": "#4a78a8", "undecoded": "#9a9a9a", "gap": "#d03a2b",
           "overlap": "#e39a1e", "finding": "#a0109c"}
LEGEND = [("continuous", "continuous"), ("broken", "with findings"), ("undecoded", "not decoded"), ("gap", "gap"),
          ("overlap", "overlap"), ("finding", "other finding")]
STYLE = """\
text { font: 12px "DejaVu Sans Mono", Menlo, Consolas, monospace; fill: #222; }
.title { font-weight: bold; font-size: 14px; }
.zoom { fill: #777; }
.grid { stroke: #ddd; stroke-width: 1; }
.even { fill: #f6f6f6; }
"""


# From an instant to another, in microseconds; none where that is of what is drawn.
Window = Tuple[Optional[int], Optional[int]]


class Scale(NamedTuple):
    """Where instants stand: from `begin` to `end` in microseconds, and from `left` to `right` in pixels."""

    begin: int
    end: int
    left: float
    right: float

    def at(self, instant: int) -> float:
        """Where an instant stands."""
        return self.left + (instant - self.begin) / (self.end - self.begin) * (self.right - self.left)


def month_after(day: datetime.datetime, months: int) -> Optional[datetime.datetime]:
    """The first of the month so many months later, if there is one."""
    month = day.year * 12 + day.month - 1 + months
    return datetime.datetime(month // 12, month % 12 + 1, 1) if month // 12 <= datetime.MAXYEAR else None


def ticks(begin: int, end: int, most: int) -> list[tuple[int, str]]:
    """Instants between two, at most about so many, at round times, each with its label."""
    length = (end - begin) / SECOND
    step = next((step for step in STEPS if length / step <= most), None)
    if step is not None:
        first = -(-begin // (step * SECOND)) * step * SECOND
        return [(at, words_of(at, step)) for at in range(first, end + 1, step * SECOND)]
    months = next((months for months in MONTHS if length / (months * 30 * DAY) <= most), MONTHS[-1])
    from_ = EPOCH + datetime.timedelta(seconds=begin // SECOND)
    at: Optional[datetime.datetime] = datetime.datetime(from_.year, 1, 1)
    found = []
    while at is not None and at <= EPOCH + datetime.timedelta(seconds=end // SECOND):
        instant = calendar.timegm(at.timetuple()) * SECOND
        if instant >= begin:
            found.append((instant, at.strftime("%Y-%m") if months < 12 else f"{at.year:04}"))
        at = month_after(at, months)
    return found


def words_of(instant: int, step: int) -> str:
    """A tick's label: the day where the tick stands at midnight, else the time."""
    time = time_of(instant)
    if instant % (DAY * SECOND) == 0:
        return time[:10]
    return time[11:16] if step >= 60 else time[11:19]


def merged(spans: Sequence[tuple[float, float]], closer: float) -> Iterator[tuple[float, float, int]]:
    """Spans, by their beginnings, as few where they are closer than so many pixels, each with how many they are."""
    begin = end = 0.0
    count = 0
    for left, right in spans:
        if count and left - end < closer:
            end, count = max(end, right), count + 1
            continue
        if count:
            yield begin, end, count
        begin, end, count = left, right, 1
    if count:
        yield begin, end, count


def box(kind: str, left: float, top: float, width: float, height: float, text: str, count: int) -> str:
    """A rectangle with a text that is shown where somebody points at it."""
    return (f'<rect class="{kind}" data-count="{count}" x="{left:.2f}" y="{top:.2f}" width="{width:.2f}" '
            f'height="{height:.2f}" fill="{COLOURS[kind]}"><title>{escape(text)}</title></rect>')


def bars_of(row: Row, scale: Scale, top: float) -> Iterator[str]:
    """The segments of a row. Those with nothing between that can be seen are one bar."""
    spans = sorted((scale.at(begin), scale.at(end)) for begin, end in row.segments)
    begins = [begin for begin, _ in row.segments]
    for left, right, count in merged(spans, 0.25):
        place = bisect.bisect_left(spans, (left, left))
        first, last = begins[place], max(end for _, end in row.segments[place : place + count])
        text = f"{row.name} from {time_of(first)} to {time_of(last)}"
        yield box(row.state, left, top, max(right - left, 1.0), BAR, text, count)


def marks_of(row: Row, scale: Scale, top: float, is_above: bool) -> Iterator[str]:
    """The marks of a row that lie above the bars, or those below: gaps that can be seen as such, since there may be
    records of later segments in their place. Overlaps stand at the upper edge, other findings at the lower one."""
    for kind, (down, height, least) in MARKS.items():
        marks: list[Mark] = [mark for mark in row.marks if mark.kind == kind and is_above != is_long(mark, scale)]
        spans = [wide(scale.at(mark.begin), scale.at(mark.end), least) for mark in marks]
        place = 0
        for left, right, count in merged(spans, 0.5 if is_above else 0.0):
            text = f"{row.name} {marks[place].text}" + (f", and {count - 1} more up to here" if count > 1 else "")
            place += count
            yield box(kind, left, top + down, right - left, height, text, count)


def is_long(mark: Mark, scale: Scale) -> bool:
    """Whether it is a gap that can be seen as such."""
    return mark.kind == "gap" and not is_narrow(mark, scale)


def is_narrow(mark: Mark, scale: Scale) -> bool:
    """Whether it is drawn wider than it is."""
    return scale.at(mark.end) - scale.at(mark.begin) < MARKS[mark.kind][2]


def wide(left: float, right: float, least: float) -> tuple[float, float]:
    """A span that is seen, as it is at least so wide."""
    more = max(0.0, least - (right - left)) / 2
    return left - more, right + more


def legend(left: float, top: float) -> Iterator[str]:
    """What the colours mean."""
    for kind, text in LEGEND:
        yield f'<rect x="{left:.1f}" y="{top - 9:.1f}" width="12" height="10" fill="{COLOURS[kind]}"/>'
        yield f'<text class="legend" x="{left + 17:.1f}" y="{top:.1f}">{text}</text>'
        left += 17 + LETTER * len(text) + 24


def top_of(number: int) -> int:
    """Where a row begins."""
    return HEAD + ROW * (number + number // RUN)


def axis(scale: Scale, count: int) -> Iterator[str]:
    """The ticks of so many rows, with their labels above each run of rows and, where there are some, below the last."""
    heads = [top_of(number) for number in range(0, max(count, 1), RUN)]
    bottom = top_of(count - 1) + ROW if count else HEAD
    below = [bottom + ROW] if count > RUN else []
    for instant, label in ticks(scale.begin, scale.end, int((scale.right - scale.left) / 90)):
        at = scale.at(instant)
        yield f'<line class="grid" x1="{at:.2f}" x2="{at:.2f}" y1="{HEAD}" y2="{bottom}"/>'
        # Words at the right edge stay within the drawing.
        place = min(at, WIDTH - 4 - LETTER * len(label) / 2)
        for number, top in enumerate([*heads, *below]):
            kind = "tick again" if number else "tick"
            yield f'<text class="{kind}" x="{place:.2f}" y="{top - 5}" text-anchor="middle">{label}</text>'


def scale_of(rows: Sequence[Row], left: float, window: Window) -> Scale:
    """From the first instant to the last one of all segments, where the window names no other; a second at least."""
    begins = [begin for row in rows for begin, _ in row.segments]
    ends = [end for row in rows for _, end in row.segments]
    begin, end = (min(begins), max(ends)) if begins else (0, DAY * SECOND)
    if window[1] is not None:
        begin, end = min(begin, window[1] - SECOND), window[1]
    if window[0] is not None:
        begin = window[0]
    return Scale(begin, end if window[1] is not None else max(end, begin + SECOND), left, WIDTH - EDGE)


def shortened(title: str, room: float) -> str:
    """A title that is no wider than so many pixels."""
    most = max(1, int(room / BOLD))
    return title if len(title) <= most else title[: most - 1] + "\u2026"


def drawing(title: str, rows: Sequence[Row], window: Window = (None, None)) -> str:
    """The drawing, from an instant to another, where they are named."""
    longest = max([len(row.name) for row in rows], default=0)
    scale = scale_of(rows, EDGE + LETTER * longest + 12, window)
    rows = [row.within(scale.begin, scale.end) for row in rows]
    is_coarse = any(is_narrow(mark, scale) for row in rows for mark in row.marks if mark.kind != "finding")
    height = (top_of(len(rows) - 1) + ROW if rows else HEAD) + (24 if len(rows) > RUN else 10)
    when = f"{time_of(scale.begin)[:19]} to {time_of(scale.end)[:19]} UTC" if rows else "no channel"
    short = shortened(title, WIDTH - 2 * EDGE - LETTER * len(when) - 24)
    parts = [f'<svg xmlns="http://www.w3.org/2000/svg" width="{WIDTH}" height="{height}" '
             f'viewBox="0 0 {WIDTH} {height}">', f"<title>{escape(title)}</title>", f"<style>\n{STYLE}</style>",
             f'<rect width="{WIDTH}" height="{height}" fill="#fff"/>',
             f'<text class="title" x="{EDGE}" y="22">{escape(short)}</text>',
             f'<text class="when" x="{WIDTH - EDGE}" y="22" text-anchor="end">{when}</text>', *legend(EDGE, 44)]
    parts += [f'<text class="zoom" x="{WIDTH - EDGE}" y="44" text-anchor="end">{ZOOM}</text>'] if is_coarse else []
    for number in range(0, len(rows), 2):
        parts.append(f'<rect class="even" x="{EDGE}" y="{top_of(number)}" width="{WIDTH - 2 * EDGE}" '
                     f'height="{ROW}"/>')
    parts += axis(scale, len(rows))
    for number, row in enumerate(rows):
        top = top_of(number)
        parts.append(f'<g class="channel" data-name="{escape(row.name)}" data-state="{row.state}">')
        parts.append(f'<text class="name" x="{EDGE}" y="{top + 13}">{escape(row.name)}</text>')
        parts += marks_of(row, scale, top + 4, is_above=False)
        parts += bars_of(row, scale, top + 4)
        parts += marks_of(row, scale, top + 4, is_above=True)
        parts.append("</g>")
    return "\n".join([*parts, "</svg>"]) + "\n"
