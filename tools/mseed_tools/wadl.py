"""The description of the service for programs, in WADL."""

from __future__ import annotations

from html import escape
from typing import Sequence

from mseed_tools.fdsn import MINISEED, PLAIN, XML

# Each parameter with its type, its default, and the values that it has, where these are few.
PARAMETERS: list[tuple[str, str, str, Sequence[str]]] = [
    ("starttime", "xs:dateTime", "", ()), ("endtime", "xs:dateTime", "", ()), ("network", "xs:string", "*", ()),
    ("station", "xs:string", "*", ()), ("location", "xs:string", "*", ()), ("channel", "xs:string", "*", ()),
    ("quality", "xs:string", "B", ("D", "R", "Q", "M", "B")), ("minimumlength", "xs:double", "0", ()),
    ("longestonly", "xs:boolean", "false", ()), ("format", "xs:string", "miniseed", ("miniseed",)),
    ("nodata", "xs:int", "204", ("204", "404")),
]


def parameter(name: str, kind: str, default: str, options: Sequence[str]) -> str:
    """A parameter."""
    head = f'<param name="{name}" style="query" type="{kind}"' + (f' default="{escape(default)}"' if default else "")
    return head + (">" + "".join(f'<option value="{value}"/>' for value in options) + "</param>" if options else "/>")


def answers(kind: str) -> str:
    """What may come of a request."""
    errors = "".join(f'<response status="{status}"><representation mediaType="{PLAIN.partition(";")[0]}"/></response>'
                     for status in ("400", "404", "413", "414", "431", "500", "503"))
    return f'<response status="200"><representation mediaType="{kind}"/></response><response status="204"/>{errors}'


def wadl(base: str) -> str:
    """The description of the service at an address."""
    parameters = "\n".join(parameter(*one) for one in PARAMETERS)
    return f"""\
<?xml version="1.0" encoding="UTF-8"?>
<application xmlns="http://wadl.dev.java.net/2009/02" xmlns:xs="http://www.w3.org/2001/XMLSchema">
<resources base="{escape(base)}">
<resource path="query">
<method name="GET" id="query">
<request>
{parameters}
</request>
{answers(MINISEED)}
</method>
<method name="POST" id="queryPost">
<request><representation mediaType="text/plain"/></request>
{answers(MINISEED)}
</method>
</resource>
<resource path="version"><method name="GET" id="version">
<response><representation mediaType="text/plain"/></response></method></resource>
<resource path="application.wadl"><method name="GET" id="application.wadl">
<response><representation mediaType="{XML.partition(";")[0]}"/></response></method></resource>
</resources>
</application>
"""
