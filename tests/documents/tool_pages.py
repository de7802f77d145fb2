"""The manual pages of the tools and their completion for bash, as they follow from what the tools take
(tool_words.py)."""

from __future__ import annotations

import datetime
import re
import textwrap
from pathlib import Path
from typing import Iterator, Sequence

from documents.tool_words import Tool, Word, installed_name, paths
from driver.program import ROOT

PAGES, COMPLETION = ROOT / "man", ROOT / "completion" / "mseed-tools.bash"
WIDTH = 80
DATE = re.compile(r"^\.Dd .*\n")
# An item of a list in a help, and what goes on with it.
ITEM, MORE = re.compile(r"  (\S+) {2,}(\S.*)"), re.compile(r"  +(\S.*)")

ENVIRONMENT = [".Sh ENVIRONMENT", ".Bl -tag -width Ds", ".It Ev MSEED", "The program",
               ".Xr mseed 1 ,", "where it isn't the one on the path.", ".El"]
HEAD = """\
# Completion of the tools of mseed for bash: the options of each, their values, and files. Written by
# tests/tool_pages.py.

# Of a tool: its options, those with a value that is no file's name, and what may stand behind one that has few values.
_mseed_tool_words()
{
    case $1 in
"""
REST = """\
    esac
}

_mseed_tool()
{
    local word=${COMP_WORDS[COMP_CWORD]} before=${COMP_WORDS[COMP_CWORD - 1]} proposed= at
    local options= values= choices=

    # Where nothing is proposed, bash proposes files, as after a redirection.
    COMPREPLY=()
    [[ $before == *[\\<\\>] ]] && return

    # Bash parts --jobs=4 at the sign.
    [ "$word" = = ] && word=
    [ "$before" = = ] && before=${COMP_WORDS[COMP_CWORD - 2]}
    for ((at = 1; at < COMP_CWORD; at++)); do
        [ "${COMP_WORDS[at]}" = -- ] && return
    done
    _mseed_tool_words "${COMP_WORDS[0]##*/}" "$before"
    values=${values//[[:space:]]/ }
    if [ "$choices" ]; then
        proposed=$choices
    elif [[ " $values " == *" $before "* ]]; then
        compopt +o bashdefault +o default 2> /dev/null
    elif [[ $word == -* ]]; then
        proposed=$options
    fi
    [ "$proposed" ] && mapfile -t COMPREPLY < <(compgen -W "$proposed" -- "$word")
}

complete -o bashdefault -o default -F _mseed_tool \\
"""


def in_roff(text: str) -> str:
    """A text in which no character means anything, what stands between backticks in bold, and tools by the names by
    which they are installed."""
    names = "|".join(path.name for path in paths())
    text = re.sub(rf"(?<=`)(?:{names})(?=[ `])", lambda name: f"mseed-{name[0].replace('_', '-')}", text)
    text = text.replace("\\", "\\e")
    text = re.sub(r"`([^`]*)`", lambda code: "\\fB" + code[1].replace("-", "\\-") + "\\fP", text)
    return re.sub(r"(?<![\w\\-])--?(?=[a-z])", lambda dashes: "\\-" * len(dashes[0]), text)


def sentences(text: str) -> Iterator[str]:
    """The lines of a paragraph: each sentence begins one."""
    for sentence in re.split(r"(?<=[a-z)`][.:]) +(?=[A-Z`])", " ".join(text.split())):
        for line in textwrap.wrap(in_roff(sentence), WIDTH, break_long_words=False, break_on_hyphens=False):
            yield f"\\&{line}" if line[0] in ".'" else line


def sentence(text: str) -> Iterator[str]:
    """The lines of a phrase of a help, as a sentence."""
    return sentences(text[:1].upper() + text[1:] + ("" if text[-1] in ".:" else "."))


def value_of(word: Word) -> str:
    """The value of an argument, behind its option."""
    if not word.value:
        return ""
    return " Ar " + " | ".join(word.choices or [word.value])


def synopsis(words: Sequence[Word]) -> Iterator[str]:
    """The arguments, as they may be given."""
    for group in sorted({word.group for word in words if word.options and word.group}):
        some = [word for word in words if word.group == group]
        yield ".Op " + " | ".join(f"Fl {word.first()[1:]}{value_of(word)}" for word in some)
    for word in words:
        option = f"Fl {word.first()[1:]}{value_of(word)}" if word.options else ""
        if option and not word.group:
            yield f".{option}" if word.is_required else f".Op {option}"
    for word in words:
        if not word.options:
            more = " ..." if word.count in ("*", "+") else ""
            yield f".Ar {word.value}{more}" if word.count in (None, "+") else f".Op Ar {word.value}{more}"


def options(words: Sequence[Word]) -> Iterator[str]:
    """The arguments one by one."""
    yield ".Bl -tag -width Ds"
    for word in sorted(words, key=lambda word: bool(word.options)):
        names = " , ".join(f"Fl {option[1:]}" for option in word.options)
        yield f".It {names}{value_of(word)}" if names else f".It Ar {word.value}"
        yield from sentence(word.help)
    yield ".El"


def described(about: str) -> Iterator[str]:
    """The paragraphs of a description, and its lists."""
    for number, paragraph in enumerate(about.strip().split("\n\n")):
        lines = paragraph.split("\n")
        if ITEM.fullmatch(lines[0]):
            yield from listed(lines)
            continue
        if number:
            yield ".Pp"
        yield from sentences(paragraph)


def listed(lines: Sequence[str]) -> Iterator[str]:
    """A list of words, each with what it means."""
    items: list[list[str]] = []
    for line in lines:
        item, more = ITEM.fullmatch(line), MORE.fullmatch(line)
        if item:
            items.append([item[1], item[2]])
        elif more:
            items[-1][1] += " " + more[1]
    yield f".Bl -tag -width {max((word for word, _ in items), key=len)} -offset indent"
    for word, text in items:
        yield f".It Li {word}"
        yield from sentences(text)
    yield ".El"


def statuses(after: str) -> Iterator[str]:
    """The statuses, as the end of a help has them."""
    text = " ".join(after.partition("statuses:")[2].split())
    items = [re.fullmatch(r"(\d)(?:, (.*))?", item) for item in re.split(r"; (?=\d)", text)]
    if not all(items):
        yield from sentence(text)
        return
    yield ".Bl -tag -width Ds"
    for item in filter(None, items):
        yield f".It {item[1]}"
        yield from sentence(item[2] or "done")
    yield ".El"


def examples(name: str, after: str) -> Iterator[str]:
    """The examples, as the end of a help has them: commands, and what each does."""
    text = re.search(r"example:\n(.*?)\n(?:\n|\Z)", after + "\n", re.DOTALL)
    assert text is not None, name
    own = name.partition("-")[2].replace("-", "_")
    for number, line in enumerate(text[1].split("\n")):
        command, _, what = line.strip().partition("     ")
        if number:
            yield ".Pp"
        if what or not number:
            yield from sentence((what.strip() or "for example") + ":")
        words = re.sub(rf"^{own}(?= )", name, command).replace("\\", "\\e").replace("-", "\\-")
        yield from (".Bd -literal -offset indent", words, ".Ed")


def page_of(tool: Tool, names: Sequence[str]) -> str:
    """The manual page of a tool, of which these are all, without its date."""
    brief, _, _ = tool.about.strip().partition("\n\n")
    brief = " ".join(brief.split()).rstrip(".")
    # The help that any program has comes last.
    words = sorted(tool.words, key=lambda word: "--help" in word.options)
    others = sorted(["mseed", *(name for name in names if name != tool.name)])
    lines = [f".Dt {tool.name.upper()} 1", ".Os mseed @VERSION@", ".Sh NAME", f".Nm {tool.name}",
             f".Nd {in_roff(brief[0].lower() + brief[1:])}", ".Sh SYNOPSIS", ".Nm", *synopsis(words),
             ".Sh DESCRIPTION", *described(tool.about), ".Ss Arguments", *options(words),
             *ENVIRONMENT, ".Sh EXIT STATUS", *statuses(tool.after), ".Sh EXAMPLES", *examples(tool.name, tool.after),
             ".Sh SEE ALSO", *(f".Xr {name} 1 ," for name in others[:-1]), f".Xr {others[-1]} 1"]
    return "".join(f"{line}\n" for line in lines)


def completion(tools: Sequence[Tool]) -> str:
    """The completion of all tools."""
    lines = []
    for tool in tools:
        every = " ".join(sorted(option for word in tool.words for option in word.options))
        valued = " ".join(sorted(option for word in tool.words for option in word.options
                                 if word.value and not word.is_file() and not word.choices))
        lines += [f"        {tool.name})", *wrapped("options", every), *wrapped("values", valued)]
        for word in tool.words:
            if word.choices and word.options:
                named, few = " | ".join(word.options), " ".join(word.choices)
                lines.append(f"            case $2 in {named}) choices='{few}' ;; esac")
        lines.append("            ;;")
    names = " \\\n".join(textwrap.wrap(" ".join(tool.name for tool in tools), 100, initial_indent="    ",
                                       subsequent_indent="    ", break_on_hyphens=False))
    return HEAD + "".join(f"{line}\n" for line in lines) + REST + names + "\n"


def wrapped(name: str, words: str) -> Iterator[str]:
    """Words that are given to a variable, in lines that aren't long."""
    text = textwrap.wrap(f"{name}='{words}'", 100, break_on_hyphens=False, break_long_words=False)
    yield from (f"            {'    ' if number else ''}{line}" for number, line in enumerate(text))


def path_of(name: str) -> Path:
    """Where the page of a tool is."""
    return PAGES / f"{name}.1"


def undated(text: str) -> str:
    """A page without its date."""
    return DATE.sub("", text)


def written(tools: Sequence[Tool]) -> dict[Path, str]:
    """What is written for the tools: a page each, with the date of the one that is there where it says the same, and
    their completion."""
    found = {COMPLETION: completion(tools)}
    for tool in tools:
        path, text = path_of(tool.name), page_of(tool, [other.name for other in tools])
        before = path.read_text(encoding="utf-8") if path.exists() else ""
        today = datetime.date.today()
        is_same = undated(before) == text
        found[path] = before if is_same else f".Dd {today:%B} {today.day}, {today.year}\n{text}"
    return found


def tool_pages() -> list[Path]:
    """The pages of tools that there should be."""
    return [path_of(installed_name(path)) for path in paths()]
