"""Command lines of the feed, good and damaged, cut at random, and the commands that they are, by the grammar of
docs/protocol.md written as regular expressions. They are the stream of a test of slink_wire.

`python3 -m models.command_lines`, in the folder tests, prints them as a file of that crate; a number after it asks for
so many lines.
"""

from __future__ import annotations

import random
import re
import sys

NUMBER = rb"([0-9A-Fa-f]{1,6})"
CODE = rb"([A-Za-z0-9]{1,%d})"
ROWS = [
    ("Hello", rb"HELLO"),
    ("Station", rb"STATION +" + CODE % 5),
    ("Station", rb"STATION +" + CODE % 5 + rb" +" + CODE % 2),
    ("SelectAll", rb"SELECT"),
    ("Data", rb"DATA"),
    ("Data", rb"DATA +" + NUMBER),
    ("Fetch", rb"FETCH"),
    ("Fetch", rb"FETCH +" + NUMBER),
    ("End", rb"END"),
    ("Bye", rb"BYE"),
]


def command(line: bytes) -> str:
    """The command of a line, as the test writes it."""
    for name, row in ROWS:
        found = re.fullmatch(rb" *" + row + rb" *", line, re.IGNORECASE)
        if not found:
            continue
        words = found.groups()
        if name == "Station":
            net = f'Some(*b"{words[1].decode():2}")' if len(words) > 1 else "None"
            return f'Command::Station {{ sta: *b"{words[0].decode():5}", net: {net} }}'
        if name in ("Data", "Fetch"):
            return f"Command::{name}({f'Some({int(words[0], 16)})' if words else 'None'})"
        return f"Command::{name}"
    return "Command::Other"


def lines_of(stream: bytes) -> list[bytes]:
    """The lines before the first that is too long."""
    pieces = [piece.lstrip(b"\n") for piece in stream.split(b"\r")]
    long = [len(piece) > 255 for piece in pieces]
    end = long.index(True) if True in long else len(pieces) - 1
    return [piece for piece in pieces[:end] if piece]


KEYWORDS = [b"HELLO", b"STATION", b"STATION", b"SELECT", b"DATA", b"DATA", b"FETCH", b"FETCH", b"END", b"BYE", b"INFO"]
STATIONS = [b"STA", b"A1b2C", b"x"]
NETWORKS = [b"XX", b"n", b"7Z"]
NUMBERS = [b"0", b"00001f", b"FfFfFf", b"A"]
OTHERS = [b"ABCDEF", b"NET", b"1234567", b"12g", b"-1", b"S*A", b"STA"]


def arguments(source: random.Random, keyword: bytes) -> list[bytes]:
    """Words after a keyword, mostly such as it takes."""
    if source.random() < 0.2:
        return [source.choice(OTHERS) for _ in range(source.choice([1, 2, 3]))]
    if keyword == b"STATION":
        return [source.choice(STATIONS)] + [source.choice(NETWORKS)] * source.choice([0, 1])
    if keyword in (b"DATA", b"FETCH"):
        return [source.choice(NUMBERS)] * source.choice([0, 1])
    return []


def line(source: random.Random) -> bytes:
    """A line, good or damaged."""
    keyword = source.choice(KEYWORDS)
    words = [source.choice([keyword, keyword.lower(), keyword.title()])] + arguments(source, keyword)
    text = b" " * source.choice([0, 0, 0, 1, 2]) + words[0]
    for word in words[1:]:
        text += b" " * source.choice([1, 1, 1, 2]) + word
    text += b" " * source.choice([0, 0, 0, 1])
    if source.random() < 0.15:
        place = source.randrange(len(text))
        text = text[:place] + bytes([source.choice([0, 9, 10, 32, 127, 255, 95])]) + text[place + 1 :]
    if source.random() < 0.05:
        text = source.choice([b"", b" ", b"   "])
    if source.random() < 0.02:
        text = b"END" + b" " * 252
    return source.choice([b"", b"", b"\n", b"\n\n"]) + text + b"\r"


def stream_of(count: int) -> list[bytes]:
    """A stream of so many lines, in pieces."""
    source = random.Random(20240102)
    stream = b"".join(line(source) for _ in range(count)) + b"\nDATA" + b" " * 252 + b"\rEND\r"
    pieces = []
    while stream:
        size = source.choice([1, 2, 3, 5, 8, 13, 40])
        pieces.append(stream[:size])
        stream = stream[size:]
    return pieces


def bytes_of(piece: bytes) -> str:
    """A piece, as the test writes it."""
    escapes = {10: "\\n", 13: "\\r", 34: '\\"', 92: "\\\\"}
    return 'b"' + "".join(escapes.get(b) or (chr(b) if 32 <= b < 127 else f"\\x{b:02x}") for b in piece) + '"'


def rows(count: int = 60) -> tuple[list[str], list[str]]:
    """The pieces of a stream of so many lines, and the commands of it."""
    pieces = stream_of(count)
    return [bytes_of(piece) for piece in pieces], [command(text) for text in lines_of(b"".join(pieces))]


def main() -> None:
    """Prints them as a file of tests."""
    pieces, commands = rows(*map(int, sys.argv[1:]))
    print("//! A stream of command lines and the commands of it, made by a program of its own from the grammar.\n")
    print("use crate::Command;\n")
    print("/// The stream, in pieces. Its last line but one is too long.")
    print(f"pub static PIECES: [&[u8]; {len(pieces)}] = [")
    print("\n".join(f"    {one}," for one in pieces))
    print("];\n\n/// What its lines before that one command.")
    print(f"pub static COMMANDS: [Command; {len(commands)}] = [")
    print("\n".join(f"    {one}," for one in commands))
    print("];")


if __name__ == "__main__":
    main()
