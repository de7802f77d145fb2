"""The page of the service: which channels there are, when, what `sds` said of them last, and a form for a request."""

from __future__ import annotations

import datetime
import itertools
import re
import shlex
from html import escape
from typing import Iterator, NamedTuple, Optional, Sequence
from urllib.parse import urlencode

from mseed_tools.asking import DAY, Asked, BadRequest, Request, crossed
from mseed_tools.fdsn import CODES, Refused, of_query, values_of
from mseed_tools.searching import Search
from mseed_tools.verdict import Verdict, verdict_in

HTML = "text/html; charset=utf-8"
SAFE = (("Content-Security-Policy", "default-src 'none'; style-src 'unsafe-inline'; form-action 'self'"),
        ("Cache-Control", "no-store"))
# So many channels are listed at most.
MOST_ROWS = 200
FIELDS = (("network", "Network", "IU or IU,XX"), ("station", "Station", "ANMO or A*"),
          ("location", "Location", "00, or -- for none"), ("channel", "Channel", "BH?"),
          ("starttime", "From", "2024-05-14T03:20:00"), ("endtime", "Until", "2024-05-14T04:00:00"),
          ("minimumlength", "Shortest segment, in seconds", "0"))
# Of each choice what stands for nothing that is asked for, and the values.
CHOICES = (("quality", "Quality", "any", ("D", "R", "Q", "M")),
           ("longestonly", "Longest segment alone", "no", ("true",)),
           ("nodata", "Status without data", "204", ("404",)))
STYLE = """\
:root { color-scheme: light; }
* { box-sizing: border-box; }
body { font: 16px/1.45 system-ui, sans-serif; color: #222; background: #fff; margin: 0 auto; max-width: 72rem;
  padding: 1rem; }
h1 { font-size: 1.5rem; margin: 0 0 .25rem; }
h2 { font-size: 1.15rem; margin: 1.75rem 0 .5rem; }
p { margin: .25rem 0 .75rem; }
code, pre, td.name, td.says { font-family: "DejaVu Sans Mono", Menlo, Consolas, monospace; font-size: .85rem; }
pre { background: #f6f6f6; padding: .6rem; margin: .25rem 0 .75rem; white-space: pre-wrap; overflow-wrap: anywhere; }
form { display: grid; grid-template-columns: repeat(auto-fill, minmax(13rem, 1fr)); gap: .75rem; align-items: end; }
label { display: block; font-size: .85rem; color: #444; }
input, select, button { font: inherit; width: 100%; padding: .35rem .5rem; border: 1px solid #888;
  border-radius: 4px; background: #fff; color: #222; }
button { background: #1d5c8f; color: #fff; border-color: #1d5c8f; cursor: pointer; }
:focus-visible { outline: 3px solid #e39a1e; outline-offset: 1px; }
.error { color: #a01818; font-weight: 600; }
h1, p, td { overflow-wrap: anywhere; }
table { border-collapse: collapse; width: 100%; }
th { text-align: left; font-size: .85rem; color: #444; font-weight: 600; }
td, th { padding: .2rem .5rem .2rem 0; vertical-align: middle; }
td.name { white-space: nowrap; }
td.time { width: 45%; min-width: 8rem; }
tr:nth-child(even) td { background: #f6f6f6; }
.axis { display: flex; justify-content: space-between; font-weight: 400; }
svg { display: block; width: 100%; height: 12px; background: #e4e4e4; }
.continuous { fill: #2f7d4f; } .amiss { fill: #4a78a8; } .unknown { fill: #777; }
.key { display: inline-block; width: .9rem; height: .7rem; margin: 0 .3rem 0 .9rem; }
@media (max-width: 40rem) { td, th { display: block; width: auto !important; } td.name { padding-top: .6rem; }
  tr:nth-child(even) td { background: none; } }
"""
KEYS = (("continuous", "#2f7d4f", "nothing is amiss"), ("amiss", "#4a78a8", "with findings, or days missing"),
        ("unknown", "#777", "not judged"))


class Row(NamedTuple):
    """A channel, and the days of which it has files, as runs."""

    name: str
    runs: list[tuple[datetime.date, datetime.date]]


def rows_of(search: Search, asked: Asked) -> Iterator[Row]:
    """The channels that there are, with their days."""
    for name, files in itertools.groupby(search.files(asked), lambda file: file.channel):
        runs: list[tuple[datetime.date, datetime.date]] = []
        for file in files:
            if runs and file.day == runs[-1][1] + DAY:
                runs[-1] = runs[-1][0], file.day
            else:
                runs.append((file.day, file.day))
        yield Row(name, runs)


def field(name: str, label: str, hint: str, value: str) -> str:
    """A field of the form."""
    return (f'<label>{label}<input name="{name}" value="{escape(value)}" placeholder="{escape(hint)}" '
            f'autocomplete="off"></label>')


def choice(name: str, label: str, nothing: str, options: Sequence[str], value: str) -> str:
    """A choice of the form."""
    items = "".join(f'<option value="{option}"{" selected" * (option == value)}>{option or nothing}</option>'
                    for option in ("", *options))
    return f'<label>{label}<select name="{name}">{items}</select></label>'


def form(values: dict[str, str]) -> str:
    """The form, with what was given."""
    fields = [field(name, label, hint, values.get(name, "")) for name, label, hint in FIELDS]
    fields += [choice(*one, values.get(one[0], "")) for one in CHOICES]
    return (f'<form method="get" action="">{"".join(fields)}'
            f'<button type="submit">Make the request</button></form>')


def made(query: str, base: str) -> tuple[dict[str, str], str]:
    """The values that the form was sent with, and what the page says of the request that they make."""
    if not query:
        return {}, ""
    try:
        values = values_of(query)
        of_query(query)
    except Refused as refused:
        with_values: dict[str, str] = {}
        try:
            with_values = values_of(query)
        except Refused:
            pass
        return with_values, f'<p class="error" role="alert">{escape(refused.why)}</p>'
    url = f"{base}query?{urlencode(values, safe=':*?,')}" if values else f"{base}query"
    curl = f"curl --fail --output data.mseed {shlex.quote(url)}"
    return values, (f'<h2 id="made">The request</h2><p><a href="{escape(url)}">Download the records</a></p>'
                    f'<pre id="url">{escape(url)}</pre><pre id="curl">{escape(curl)}</pre>')


def asked_by(values: dict[str, str]) -> Asked:
    """The channels that are listed: those of the form, or all."""
    try:
        return Asked(Request(tuple(crossed([values.get(name, "*") for name in CODES]))))
    except BadRequest:
        return Asked(Request())


def bar(row: Row, first: datetime.date, days: int, kind: str) -> str:
    """The days of a channel, between the first and the last of all."""
    boxes = "".join(f'<rect class="{kind}" x="{(begin - first).days}" width="{(end - begin).days + 1}" height="10">'
                    f'<title>{begin} to {end}</title></rect>' for begin, end in row.runs)
    return f'<svg viewBox="0 0 {days} 10" preserveAspectRatio="none" role="img" aria-label="days">{boxes}</svg>'


def table(rows: Sequence[Row], verdict: Optional[Verdict]) -> str:
    """The channels, with their days and what was said of them."""
    first, last = min(row.runs[0][0] for row in rows), max(row.runs[-1][1] for row in rows)
    days = (last - first).days + 1
    marks = [first, *([first + datetime.timedelta(days=days // 2)] if days > 2 else []), *([last] if days > 1 else [])]
    axis = "".join(f"<span>{day}</span>" for day in marks)
    lines = []
    for row in rows:
        kind, says = verdict.of(row.name) if verdict else ("unknown", "")
        lines.append(f'<tr><td class="name">{escape(row.name)}</td><td class="time">{bar(row, first, days, kind)}</td>'
                     f'<td class="says">{escape(says)}</td></tr>')
    return (f'<table><thead><tr><th>Channel</th><th class="axis">{axis}</th><th>By the last audit</th></tr></thead>'
            f'<tbody>{"".join(lines)}</tbody></table>')


def channels(root: str, values: dict[str, str], verdict: Optional[Verdict]) -> str:
    """What the page says of the channels."""
    found = rows_of(Search(root), asked_by(values))
    rows = list(itertools.islice(found, MOST_ROWS))
    if not rows:
        return "<p>No channel is there, or none of these codes.</p>"
    more = next(found, None)
    note = f"<p>These are the first {MOST_ROWS}; codes in the form list others.</p>" if more else ""
    keys = "".join(f'<span class="key" style="background:{colour}"></span>{text}' for _, colour, text in KEYS)
    return f"<p>Days of which there are files: {keys}</p>{note}{table(rows, verdict)}"


def audit(verdict: Optional[Verdict]) -> str:
    """What the last audit said of the whole."""
    if verdict is None:
        return "<p>No audit by <code>sds --state</code> is known here.</p>"
    return (f"<p>Audited by <code>sds</code> on {escape(verdict.when)} UTC, status {verdict.status}.</p>"
            f"<pre>{escape(verdict.total)}</pre>")


def page(root: str, state: Optional[str], query: str, base: str) -> tuple[str, tuple[tuple[str, str], ...]]:
    """The page, and the headers that keep it by itself."""
    values, request = made(query, base)
    verdict = verdict_in(state) if state is not None else None
    host = re.sub("^https?://|/fdsnws/.*$", "", base)
    text = f"""<!DOCTYPE html>
<html lang="en">
<head>
<meta charset="utf-8">
<meta name="viewport" content="width=device-width, initial-scale=1">
<title>Waveforms at {escape(host)}</title>
<style>
{STYLE}</style>
</head>
<body>
<h1>Waveforms at {escape(host)}</h1>
<p>miniSEED records by FDSN's dataselect service, version 1.1: <code>{escape(base)}</code>, with
<a href="{escape(base)}application.wadl">its description</a>.</p>
<h2>Make a request</h2>
{form(values)}
{request}
<h2>Channels</h2>
{channels(root, values, verdict)}
<h2>Audit</h2>
{audit(verdict)}
</body>
</html>
"""
    return text, SAFE
