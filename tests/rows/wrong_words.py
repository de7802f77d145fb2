"""Wrong command lines, made by hand: of each command each option with a value below, above and beside its range, with
options that are another command's, that lack, that are there twice, and that exclude each other. Standard error names
the option or the word, and says what would be right."""

from __future__ import annotations

from typing import Iterator

from driver.rows import Cases, Fact, Row, holds
from driver.texts import About

# An input of which nothing is read.
OTHER = b"no record"

THERE_ARE = "there are audit, join, show, select, repack, serve and fetch"
PATTERNS = "no patterns; one is NET_STA_LOC_CHA, as IU_ANMO_00_BH?, with commas between several"
A_TIME = "a time is as 2024-05-14T03:20 or 2024-135"
LATER = "not after --from; records are asked for from --from up to --until"
OF_PART = "not with --part, which is of all records"
LENGTH = "no length; it is 128, 256, 512, 1024, 2048 or 4096 bytes"
ENCODING = "no encoding; it is int16, int32, steim1 or steim2"
PARTS = "no number of parts; it is 1 to 999999999, in 1 to 9 digits"
STATION = "no station; it is 1 to 5 letters or digits, as ANMO"
NETWORK = "no network; it is 1 or 2 letters or digits, as IU"
PLACE = "no station; it is NET_STA, as IU_ANMO"
NUMBERED = "no station; it is NET_STA or NET_STA:HEX, as IU_ANMO or IU_ANMO:00001F"
TWICE = "given twice; each station is given once"
ADDRESS = "no address; it is as 127.0.0.1"
HOST = "no host; it is an address, as 127.0.0.1, or a name, as localhost"
SECONDS = "no time to wait; it is 0 to 86400 seconds, in 1 to 5 digits"
CAPACITY = "no capacity; it is 1 to 1000000 records, in 1 to 7 digits"
NUMBER = "no number of a record; it is 0 to FFFFFF, in 1 to 6 hexadecimal digits"
INPUT = "-: given twice; standard input is read once"
EMPTY = "an empty argument: it names no file"

SERVE = "serve --port 18000 --station ANMO --network IU"
FETCH = "fetch --port 18000 --station ANMO --network IU"

# What is typed, and the line behind `mseed: bad value`.
WRONG = [
    # Words that name no command.
    ("adit", f"adit: no command, but audit is one; {THERE_ARE}"),
    ("auidt", f"auidt: no command, but audit is one; {THERE_ARE}"),
    ("Audit", f"Audit: no command, but audit is one; {THERE_ARE}"),
    ("sho", f"sho: no command, but show is one; {THERE_ARE}"),
    ("shwo a.mseed", f"shwo: no command, but show is one; {THERE_ARE}"),
    ("selct", f"selct: no command, but select is one; {THERE_ARE}"),
    ("repak --length 512", f"repak: no command, but repack is one; {THERE_ARE}"),
    ("serv", f"serv: no command, but serve is one; {THERE_ARE}"),
    ("fech", f"fech: no command, but fetch is one; {THERE_ARE}"),
    ("joint", f"joint: no command, but join is one; {THERE_ARE}"),
    ("my.mseed", f"my.mseed: no command; {THERE_ARE}"),
    ("help", f"help: no command; {THERE_ARE}"),
    ("unpack", f"unpack: no command, but repack is one; {THERE_ARE}"),
    ("-", f"-: no command; {THERE_ARE}"),
    ("-- audit", f"--: no command; {THERE_ARE}"),

    # Of select, and the commands that take its options.
    ("select --channels ABC", f"--channels ABC: {PATTERNS}"),
    ("select --channels XX_KILN_BHZ", f"--channels XX_KILN_BHZ: {PATTERNS}"),
    ("select --channels IU_ANMO_00_BHZ,", f"--channels IU_ANMO_00_BHZ,: {PATTERNS}"),
    ("select --channels IU_ANMO_00_BH[ZNE]", f"--channels IU_ANMO_00_BH[ZNE]: {PATTERNS}"),
    ("audit --channels ABC", f"--channels ABC: {PATTERNS}"),
    ("show --channels IU.ANMO.00.BHZ", f"--channels IU.ANMO.00.BHZ: {PATTERNS}"),
    ("repack --channels ABC", f"--channels ABC: {PATTERNS}"),
    ("select --from 2024-13-01", f"--from 2024-13-01: no such day; {A_TIME}"),
    ("select --from 2023-02-29", f"--from 2023-02-29: no such day; {A_TIME}"),
    ("select --from 2023-366", f"--from 2023-366: no such day; {A_TIME}"),
    ("select --from 1899-12-31", f"--from 1899-12-31: no such day; {A_TIME}"),
    ("select --from 2101-01-01", f"--from 2101-01-01: no such day; {A_TIME}"),
    ("select --from 2024-05-14T24", f"--from 2024-05-14T24: no such time of day; {A_TIME}"),
    ("select --from 2024-05-14T03:60", f"--from 2024-05-14T03:60: no such time of day; {A_TIME}"),
    ("select --from 2024-05-14T03:20:61", f"--from 2024-05-14T03:20:61: no such time of day; {A_TIME}"),
    ("select --from 2024-05-14T3", f"--from 2024-05-14T3: no such time of day; {A_TIME}"),
    ("select --from yesterday", f"--from yesterday: no time; {A_TIME}"),
    ("select --from 14.05.2024", f"--from 14.05.2024: no time; {A_TIME}"),
    ("select --from 2024-5-14", f"--from 2024-5-14: no time; {A_TIME}"),
    ("select --from 2024/05/14", f"--from 2024/05/14: no time; {A_TIME}"),
    ("select --from 00A3F1", f"--from 00A3F1: no time; {A_TIME}"),
    ("select --from=", f"--from : no time; {A_TIME}"),
    ("select --until 2024-00-01", f"--until 2024-00-01: no such day; {A_TIME}"),
    ("select --until 2024-05-14t03", f"--until 2024-05-14t03: no time; {A_TIME}"),
    ("select --until now", f"--until now: no time; {A_TIME}"),
    ("select --from 2024-05-14 --until 2024-05-14", f"--until 2024-05-14: {LATER}"),
    ("select --from 2024-136 --until 2024-135", f"--until 2024-135: {LATER}"),
    ("audit --from 2024-13-01", f"--from 2024-13-01: no such day; {A_TIME}"),
    ("audit --until 14", f"--until 14: no time; {A_TIME}"),
    ("audit --from 2024 --until 2023", f"--from 2024: no time; {A_TIME}"),
    ("show --from 2024-000", f"--from 2024-000: no such day; {A_TIME}"),
    ("show --until 2024-05-32", f"--until 2024-05-32: no such day; {A_TIME}"),
    ("repack --from 2024-05-14T03.20", f"--from 2024-05-14T03.20: no such time of day; {A_TIME}"),
    ("repack --until 2024-136 --from 2024-137", f"--until 2024-136: {LATER}"),

    # Of audit.
    ("audit --part --channels IU_ANMO_*_*", f"--channels IU_ANMO_*_*: {OF_PART}"),
    ("audit --part --from 2024-05-14", f"--from 2024-05-14: {OF_PART}"),
    ("audit --until 2024-05-14 --part --each", f"--until 2024-05-14: {OF_PART}"),

    # Of join.
    ("join --expect 0", f"--expect 0: {PARTS}"),
    ("join --expect 1000000000", f"--expect 1000000000: {PARTS}"),
    ("join --expect 0000000001", f"--expect 0000000001: {PARTS}"),
    ("join --expect -1", None),
    ("join --expect=-1", f"--expect -1: {PARTS}"),
    ("join --expect twelve", f"--expect twelve: {PARTS}"),
    ("join --expect 1.5", f"--expect 1.5: {PARTS}"),
    ("join --each --part", "--each: not with --part; of the two join takes one"),
    ("join --part --each --expect 2", "--each: not with --part; of the two join takes one"),

    # Of repack.
    ("repack --length 64", f"--length 64: {LENGTH}"),
    ("repack --length 8192", f"--length 8192: {LENGTH}"),
    ("repack --length 500", f"--length 500: {LENGTH}"),
    ("repack --length 4k", f"--length 4k: {LENGTH}"),
    ("repack --length 00000512", f"--length 00000512: {LENGTH}"),
    ("repack --encoding steim3", f"--encoding steim3: {ENCODING}"),
    ("repack --encoding Steim2", f"--encoding Steim2: {ENCODING}"),
    ("repack --encoding 11", f"--encoding 11: {ENCODING}"),
    ("repack --leave", "--leave: only with --stretches"),
    ("repack --leave --length 4096", "--leave: only with --stretches"),

    # Of files.
    ("audit - -", INPUT),
    ("show a.mseed - b.mseed -", INPUT),
    ("select - - a.mseed", INPUT),

    # Of serve.
    ("serve --port 18000 --station ANMO1X --network IU", f"--station ANMO1X: {STATION}"),
    ("serve --port 18000 --station= --network IU", f"--station : {STATION}"),
    ("serve --port 18000 --station IU_ANMO --network IU", f"--station IU_ANMO: {STATION}"),
    ("serve --port 18000 --station ANMO --network IUX", f"--network IUX: {NETWORK}"),
    ("serve --port 18000 --station ANMO --network I-", f"--network I-: {NETWORK}"),
    (f"{SERVE} --address localhost", f"--address localhost: {ADDRESS}"),
    (f"{SERVE} --address 256.0.0.1", f"--address 256.0.0.1: {ADDRESS}"),
    (f"{SERVE} --address 127.0.0", f"--address 127.0.0: {ADDRESS}"),
    (f"{SERVE} --address ::1", f"--address ::1: {ADDRESS}"),
    (f"{SERVE} --timeout 86401", f"--timeout 86401: {SECONDS}"),
    (f"{SERVE} --timeout 000001", f"--timeout 000001: {SECONDS}"),
    (f"{SERVE} --timeout 10s", f"--timeout 10s: {SECONDS}"),
    (f"{SERVE} --capacity 0", f"--capacity 0: {CAPACITY}"),
    (f"{SERVE} --capacity 1000001", f"--capacity 1000001: {CAPACITY}"),
    (f"{SERVE} --capacity 1e6", f"--capacity 1e6: {CAPACITY}"),
    (f"{SERVE} --first 1000000", f"--first 1000000: {NUMBER}"),
    (f"{SERVE} --first 0x1F", f"--first 0x1F: {NUMBER}"),
    (f"{SERVE} --first=", f"--first : {NUMBER}"),
    (f"{SERVE} --live --connections 2", "--connections 2: not with --live, which has --clients"),
    (f"{SERVE} --clients 2", "--clients 2: only with --live; without it there is --connections"),
    (f"{SERVE} my.mseed", f"my.mseed: {PLACE}"),
    (f"{SERVE} IU_COLA:1F", f"IU_COLA:1F: {PLACE}"),
    (f"{SERVE} IU_COLA IU_COLA", f"IU_COLA: {TWICE}"),
    (f"{SERVE} IU_ANMO", f"IU_ANMO: {TWICE}"),
    (f"{SERVE} {' '.join(f'IU_S{number}' for number in range(16))}",
     "IU_S15: one too many; there are at most 16 stations"),

    # Of fetch.
    ("fetch --port 18000 --station A.B --network IU", f"--station A.B: {STATION}"),
    ("fetch --port 18000 --station ANMO --network=", f"--network : {NETWORK}"),
    (f"{FETCH} --address 1.2.3.4.5", f"--address 1.2.3.4.5: {HOST}"),
    (f"{FETCH} --address a/b", f"--address a/b: {HOST}"),
    (f"{FETCH} --timeout 100000", f"--timeout 100000: {SECONDS}"),
    (f"{FETCH} --timeout=-1", f"--timeout -1: {SECONDS}"),
    (f"{FETCH} --from 1000000", f"--from 1000000: {NUMBER}"),
    (f"{FETCH} --from 2024-05-14", f"--from 2024-05-14: {NUMBER}"),
    (f"{FETCH} ANMO", f"ANMO: {NUMBERED}"),
    (f"{FETCH} IU_COLA:", f"IU_COLA:: {NUMBERED}"),
    (f"{FETCH} IU_COLA:1000000", f"IU_COLA:1000000: {NUMBERED}"),
    (f"{FETCH} IU_COLA:1 IU_COLA:2", f"IU_COLA:2: {TWICE}"),
    (f"{FETCH} IU_A IU_B IU_B", f"IU_B: {TWICE}"),
]

# What is typed, and of what `clap` speaks in its own text, the usage of the command beside it.
REFUSED = [
    # Options before a command, and none that there is.
    ("--length 512 repack", "--length", "mseed <COMMAND>"),
    ("--each audit", "--each", "mseed <COMMAND>"),
    ("-x", "-x", "mseed <COMMAND>"),
    ("--hlep", "--hlep", "mseed <COMMAND>"),

    # Of another command.
    ("audit --length 512", "--length", "mseed audit"),
    ("audit --stretches", "--stretches", "mseed audit"),
    ("audit --expect 2", "--expect", "mseed audit"),
    ("audit --port 18000", "--port", "mseed audit"),
    ("join --channels IU_ANMO_*_*", "--channels", "mseed join"),
    ("join --from 2024-05-14", "--from", "mseed join"),
    ("join --length 512", "--length", "mseed join"),
    ("show --each", "--each", "mseed show"),
    ("show --part", "--part", "mseed show"),
    ("show --encoding int32", "--encoding", "mseed show"),
    ("select --each", "--each", "mseed select"),
    ("select --length 512", "--length", "mseed select"),
    ("select --network IU", "--network", "mseed select"),
    ("repack --part", "--part", "mseed repack"),
    ("repack --past-faults", "--past-faults", "mseed repack"),
    ("repack --capacity 5", "--capacity", "mseed repack"),
    (f"{SERVE} --from 1F", "--from", "mseed serve"),
    (f"{SERVE} --tries 3", "--tries", "mseed serve"),
    (f"{SERVE} --channels IU_ANMO_*_*", "--channels", "mseed serve"),
    (f"{SERVE} --holes", "--holes", "mseed serve"),
    (f"{FETCH} --first 0", "--first", "mseed fetch"),
    (f"{FETCH} --live", "--live", "mseed fetch"),
    (f"{FETCH} --connections 2", "--connections", "mseed fetch"),
    (f"{FETCH} --until 2024-05-14", "--until", "mseed fetch"),

    # Lacking: the option, or its value.
    ("serve", "--port", "mseed serve"),
    ("serve --port 18000", "--station", "mseed serve"),
    ("serve --port 18000 --station ANMO", "--network", "mseed serve"),
    ("fetch --station ANMO --network IU", "--port", "mseed fetch"),
    ("fetch --port 18000 --network IU", "--station", "mseed fetch"),
    ("select --from", "--from", ""),
    ("select --channels", "--channels", ""),
    ("repack --length", "--length", ""),
    ("join --expect", "--expect", ""),
    (f"{SERVE} --capacity", "--capacity", ""),

    # Twice.
    ("select --from 2024-135 --from 2024-136", "--from", "mseed select"),
    ("audit --each --each", "--each", "mseed audit"),
    ("repack --length 512 --length 512", "--length", "mseed repack"),
    ("join --expect 2 --expect 2", "--expect", "mseed join"),
    (f"{FETCH} --port 18001", "--port", "mseed fetch"),

    # Numbers out of their ranges.
    ("serve --port 0 --station ANMO --network IU", "1..=65535", ""),
    ("fetch --port 65536 --station ANMO --network IU", "1..=65535", ""),
    ("fetch --port eighteen --station ANMO --network IU", "--port", ""),
    (f"{SERVE} --connections 0", "1..=1000000", ""),
    (f"{SERVE} --connections 1000001", "1..=1000000", ""),
    (f"{SERVE} --live --clients 0", "1..=1024", ""),
    (f"{SERVE} --live --clients 1025", "1..=1024", ""),
    (f"{FETCH} --tries 0", "1..=1000000", ""),
    (f"{FETCH} --tries many", "--tries", ""),

    # No option that there is.
    ("audit -e", "-e", "mseed audit"),
    ("select --chanels IU_ANMO_*_*", "--channels", "mseed select"),
    ("repack --lenght 512", "--length", "mseed repack"),
]

# What isn't typed with spaces between the arguments.
GIVEN = [
    (["audit", ""], EMPTY),
    (["show", "a.mseed", ""], EMPTY),
    ([""], f": no command; {THERE_ARE}"),
    (["select", "--channels", "IU ANMO"], f"--channels IU ANMO: {PATTERNS}"),
    (["select", "--from", "2024-05-14 03:20"], f"--from 2024-05-14 03:20: no time; {A_TIME}"),
    (["select", "--from", "14 mai\n"], f"--from 14 mai?: no time; {A_TIME}"),
    (["select", "--from", "a\x7fb\x1b[0m"], f"--from a?b?[0m: no time; {A_TIME}"),
    (["select", "--from", "é"], f"--from ??: no time; {A_TIME}"),
    (["select", "--from", b"\xff1"], f"--from ?1: no time; {A_TIME}"),
    ([b"\xffaudit"], f"?audit: no command; {THERE_ARE}"),
    (["repack", "--encoding", "e" * 60], f"--encoding {'e' * 60}: {ENCODING}"),
    (["repack", "--encoding", "e" * 61], f"--encoding {'e' * 57}...: {ENCODING}"),
    (["repack", "--encoding", "é" * 40], f"--encoding {'?' * 57}...: {ENCODING}"),
    ([*SERVE.split(), "IU COLA"], f"IU COLA: {PLACE}"),
    ([*FETCH.split(), b"IU_\xe9"], f"IU_?: {NUMBERED}"),
    ([*FETCH.split(), "x" * 100_000], f"{'x' * 57}...: {NUMBERED}"),
]

COMMANDS = ["audit", "join", "show", "select", "repack", "serve", "fetch"]


def wrong() -> Iterator[Row]:
    """Values and words that mean nothing."""
    for typed, line in [*((typed.split(), line) for typed, line in WRONG), *GIVEN]:
        name = " ".join(word if isinstance(word, str) else repr(word) for word in typed)[:200]
        if line is None:
            yield Row(name, OTHER, typed, 3, b"", About(typed[-1]), left=len(OTHER))
        else:
            text = f"mseed: bad value\nmseed: {line}\n".encode()
            yield Row(name, OTHER, typed, 3, b"", text, left=len(OTHER))


def refused() -> Cases:
    """Options and values that `clap` refuses, by name, and with the usage of the command where it has it."""
    for typed, about, usage in REFUSED:
        run = Row(typed, OTHER, typed.split(), 3).run()
        text = run.err.decode()
        yield Fact(f"{typed}: its status, and no output", (3, b""), (run.status, run.out))
        yield holds(f"{typed}: names {about}", about in text and "bad value" not in text, text)
        yield holds(f"{typed}: has the usage", f"Usage: {usage}" in text if usage else "--help" in text, text)


def helps() -> Cases:
    """The help of each command is of its options alone, and of all of them; no word at all gives the program's."""
    overview = Row("", OTHER, ["--help"], 3).run()
    for words in ([], ["-h"], ["--help", "audit"]):
        run = Row("", OTHER, words, 3).run()
        yield Fact(f"{words}: the help of the program", (3, b"", overview.err), (run.status, run.out, run.err))
    for word in ("--version", "-V"):
        run = Row("", OTHER, [word], 3).run()
        yield holds(f"{word}: the version", run.status == 3 and run.err.startswith(b"mseed "), run.err)
    texts = {"": overview.err.decode()}
    for command in COMMANDS:
        run = Row("", OTHER, [command, "--help"], 3).run()
        yield Fact(f"{command}: its help has status 3, and no output", (3, b""), (run.status, run.out))
        texts[command] = run.err.decode()
        yield holds(f"the help of the program names {command}", f"\n  {command} " in texts[""], texts[""])
        for part in (f"Usage: mseed {command}", "Options:", "Statuses: 0", f"\n  mseed {command} "):
            yield holds(f"the help of {command}: {part.strip()}", part in texts[command], texts[command])
        usage = texts[command].partition("Usage: ")[2].partition("\n\n")[0]
        needed = ["--port <PORT>", "--station <STATION>", "--network <NETWORK>"] if command in ("serve", "fetch") else []
        for part in (*needed, "[OPTIONS]"):
            yield holds(f"the usage of {command} has {part}", part in usage, usage)
    for command, text in texts.items():
        widest = max(text.splitlines(), key=len)
        yield holds(f"the help of '{command}' has at most 80 columns", len(widest) <= 80, widest)


def rows() -> Cases:
    """All of them."""
    yield holds("at least 150 wrong command lines", len(WRONG) + len(REFUSED) + len(GIVEN) >= 150,
                len(WRONG) + len(REFUSED) + len(GIVEN))
    yield from wrong()
    yield from refused()
    yield from helps()
