"""The words of the two commands of a feed: which of them ask for nothing that there is, which ones the parser of the
command line refuses in its own text, and which are taken."""

from __future__ import annotations

from typing import Iterator

from driver.rows import Cases, Row
from driver.texts import BAD_VALUE, About, Without

# An input that is no archive.
OTHER = b"no record"
SIXTEEN = [f"XX_P{number}" for number in range(1, 16)]


def bad(name: str, *words: str) -> Row:
    """Arguments that ask for nothing that there is."""
    return Row(name, OTHER, words, 3, b"", BAD_VALUE)


def refused(name: str, about: str, *words: str) -> Row:
    """Arguments that are refused in the parser's own text."""
    return Row(name, OTHER, words, 3, b"", About(about))


def taken(name: str, *words: str) -> Row:
    """Arguments that are taken. What they ask for can't be done: the input is no archive, and nobody answers there."""
    return Row(name, OTHER, words, 2, b"", Without(b"mseed: bad value"))


PLACES = ["", "_", "STA", "XXSTA", "XX-STA", "XX_", "_STA", "XXX_STB", "XX_ABCDEF", "XX_STB_", "XX__STB", "XX_ST B",
          " XX_STB", "XX_STB:", "XX_STB:G", "XX_STB:0000000", "XX_STB:+1", "XX_STB: 1", "XX_STB:1:2", "XX:1_STB", ":1",
          "XX_STÉ"]


def of_either(command: str) -> Iterator[Row]:
    """What `serve` and `fetch` have in common: each wants its port, station and network."""
    feed = [command, "--port", "1", "--station", "STA", "--network", "XX"]
    yield refused(f"{command}: nothing but the word", "--port", command)
    yield refused(f"{command}: no port", "--port", command, "--station", "STA", "--network", "XX")
    yield refused(f"{command}: no station", "--station", command, "--port", "1", "--network", "XX")
    yield refused(f"{command}: no network", "--network", command, "--port", "1", "--station", "STA")
    yield taken(f"{command}: all that is wanted", *feed)
    yield refused(f"{command}: the options first", "--network", "--network", "XX", "--station", "STA", "--port", "1",
                  command)

    # A station has 1 to 5 letters or digits, a network 1 or 2.
    for station in ("", "ABCDEF", "S T", "STA ", "ST-A", "ST_A", "XX_STA", "STÄ"):
        yield bad(f"{command}: station '{station}'", command, "--port", "1", "--network", "XX", f"--station={station}")
    for network in ("", "XXX", "X ", "X_", "-", "É"):
        yield bad(f"{command}: network '{network}'", command, "--port", "1", "--station", "STA", f"--network={network}")
    yield taken(f"{command}: the shortest codes", command, "--port", "1", "--station", "s", "--network", "1")
    yield taken(f"{command}: the longest codes", command, "--port", "1", "--station", "aB345", "--network", "zZ")

    # Further places.
    for place in PLACES:
        yield bad(f"{command}: place '{place}'", *feed, place)
    yield bad(f"{command}: the first place again", *feed, "XX_STA")
    yield bad(f"{command}: a further place again", *feed, "XX_STB", "XX_STC", "XX_STB")
    yield bad(f"{command}: a bad place after good ones", *feed, "XX_STB", "XX_STC", "XX")
    yield bad(f"{command}: a sixteenth further place", *feed, *SIXTEEN, "XX_P16")
    yield taken(f"{command}: fifteen further places", *feed, *SIXTEEN)
    yield taken(f"{command}: the same station of another network, and in small letters", *feed, "YY_STA", "xx_STA",
                "XX_sta")
    yield taken(f"{command}: a place before the options", command, "XX_STB", *feed[1:])

    # The parser judges ports.
    for port in ("0", "65536", "-1", "1.5", "x", "", "18446744073709551617"):
        yield refused(f"{command}: port '{port}'", "port", command, f"--port={port}", *feed[3:])
    yield taken(f"{command}: the last port", command, "--port", "65535", *feed[3:])
    yield taken(f"{command}: a port with zeros and a plus", command, "--port", "+0000000000001", *feed[3:])

    # Options of packing, and of the audit.
    yield refused(f"{command}: a length", "--length", *feed, "--length", "512")
    yield refused(f"{command}: each finding", "--each", *feed, "--each")
    yield refused(f"{command}: a number of parts", "--expect", *feed, "--expect", "2")
    yield refused(f"{command}: an encoding", "--encoding", *feed, "--encoding", "steim2")


SERVE = ["serve", "--port", "1", "--station", "STA", "--network", "XX"]
FETCH = ["fetch", *SERVE[1:]]


def of_the_link() -> Iterator[Row]:
    """Addresses, names and times."""
    addresses = ("", "1", "1.2.3", "1.2.3.4.", ".1.2.3.4", "1.2.3.4.5", "1..3.4", "256.0.0.1", "1.2.3.256", "01.2.3.4",
                 "1.2.3.00", "1.2.3.1000", "+1.2.3.4", " 1.2.3.4", "1.2.3.4 ", "::1", "1.2.3.4:5", "a b", "local host",
                 "host/", "höst", "1-2", "...", "_", "a" * 254)
    for address in addresses:
        yield bad(f"serve: address '{address}'", *SERVE, f"--address={address}")
        yield bad(f"fetch: address '{address}'", *FETCH, f"--address={address}")
    yield bad("serve: a name", *SERVE, "--address", "localhost")
    for address in ("127.0.0.1", "127.0.0.2", "0.0.0.0", "255.255.255.255"):
        yield taken(f"serve: address {address}", *SERVE, "--address", address)
    for address in ("127.0.0.1", "127.255.255.254", "localhost", "LOCALHOST", "no-such-host.invalid", "a_b.invalid"):
        yield taken(f"fetch: address {address}", *FETCH, "--address", address)
    for feed in (SERVE, FETCH):
        for seconds in ("", "-1", "+1", "1.0", "1s", " 1", "86401", "99999", "000000", "086400", "x"):
            yield bad(f"{feed[0]}: timeout '{seconds}'", *feed, f"--timeout={seconds}")
        for seconds in ("0", "00000", "1", "00001", "86400"):
            yield taken(f"{feed[0]}: timeout {seconds}", *feed, "--timeout", seconds)
        yield refused(f"{feed[0]}: two times", "timeout", *feed, "--timeout", "1", "--timeout", "1")
        yield refused(f"{feed[0]}: two addresses", "address", *feed, "--address=1.2.3.4", "--address=1.2.3.4")
    for command in ("audit", "show", "repack"):
        yield refused(f"{command}: an address", "--address", command, "--address", "127.0.0.1")
        yield refused(f"{command}: a time", "--timeout", command, "--timeout", "1")


def of_the_other() -> Iterator[Row]:
    """Options of the other command, and a number for a place that is served."""
    yield refused("serve: a number to begin from", "--from", *SERVE, "--from", "0")
    yield refused("serve: tries", "--tries", *SERVE, "--tries", "1")
    yield bad("serve: a place with a number", *SERVE, "XX_STB:1")
    yield refused("fetch: a capacity", "--capacity", *FETCH, "--capacity", "1000")
    yield refused("fetch: a first number", "--first", *FETCH, "--first", "0")
    yield refused("fetch: connections", "--connections", *FETCH, "--connections", "1")


def numbers() -> Iterator[Row]:
    """Capacities, the numbers of records, and counts."""
    # A capacity is 1 to 1,000,000 in one to seven digits.
    for capacity in ("", "0", "0000000", "1000001", "9999999", "00000001", "01000000", "+1", "-1", "1.0", "1k", "1e3",
                     "0x10", " 1", "1 "):
        yield bad(f"serve: capacity '{capacity}'", *SERVE, f"--capacity={capacity}")
    for capacity in ("1", "0000001", "0001000", "1000000"):
        yield taken(f"serve: capacity {capacity}", *SERVE, "--capacity", capacity)

    # A number has one to six hexadecimal digits, in either case.
    for number in ("", "0000000", "1000000", "G", "g", "0x1", "+1", "-1", " 1", "1 ", "1.0", "é"):
        yield bad(f"serve: first '{number}'", *SERVE, f"--first={number}")
        yield bad(f"fetch: from '{number}'", *FETCH, f"--from={number}")
    for number in ("0", "000000", "9", "a", "F", "fFfFfF", "FFFFFF"):
        yield taken(f"serve: first {number}", *SERVE, "--first", number)
        yield taken(f"fetch: from {number}", *FETCH, "--from", number)
        yield taken(f"fetch: a place from {number}", *FETCH, f"XX_STB:{number}")

    # A place is there twice, whatever numbers it has.
    yield bad("fetch: the first place again, with a number", *FETCH, "XX_STA:1")
    yield bad("fetch: the first place again, with its number", *FETCH, "--from", "1", "XX_STA:1")
    yield bad("fetch: a place with two numbers", *FETCH, "XX_STB:1", "XX_STB:2")
    yield bad("fetch: a place with a number and without", *FETCH, "XX_STB:1", "XX_STB")
    yield taken("fetch: places with a number and without", *FETCH, "XX_STB:1", "XX_STC", "XX_STD:1")

    # The parser judges counts.
    for count in ("0", "1000001", "-1", "x", ""):
        yield refused(f"serve: connections '{count}'", "connections", *SERVE, f"--connections={count}")
        yield refused(f"fetch: tries '{count}'", "tries", *FETCH, f"--tries={count}")
    yield taken("serve: a million connections", *SERVE, "--connections", "1000000")
    yield taken("fetch: two tries", *FETCH, "--tries", "2")


def of_the_audit() -> Iterator[Row]:
    """The option that goes with the audit alone."""
    audited = b"records 0 channels 0\nfault at 0 truncated 9\n"
    yield Row("audit: each finding", OTHER, ["audit", "--each"], 2, audited)
    yield refused("audit: each finding, the option first", "--each", "--each", "audit")
    yield refused("show: each finding", "--each", "show", "--each")
    yield refused("repack: each finding", "--each", "repack", "--each")
    yield refused("each finding, and no command", "--each", "--each")
    for command in ("audit", "show", "repack"):
        yield refused(f"{command}: a number of parts", "--expect", command, "--expect", "2")
    yield refused("audit: each finding twice", "each", "audit", "--each", "--each")


def parsed() -> Iterator[Row]:
    """An option that is given twice, or has no value; and the help, which names the commands, and that of each, which
    names its options."""
    yield refused("serve: two ports", "port", *SERVE, "--port", "1")
    yield refused("fetch: two numbers to begin from", "from", *FETCH, "--from", "1", "--from", "1")
    yield refused("serve: a capacity without a number", "capacity", *SERVE, "--capacity")
    for word in ("audit", "join", "show", "select", "repack", "serve", "fetch"):
        yield refused(f"help: {word}", word, "--help")
    for command, words in (("audit", "--each --part --channels --from --until"),
                           ("join", "--each --part --past-faults --expect"),
                           ("repack", "--length --encoding --stretches --leave --channels --from --until"),
                           ("serve", "NET_STA --port --station --network --address --timeout --capacity --first "
                                     "--connections --live --clients"),
                           ("fetch", "NET_STA:HEX --port --station --network --address --timeout --from --tries "
                                     "--tell-next --holes")):
        for word in words.split():
            yield refused(f"help of {command}: {word}", word, command, "--help")


def rows() -> Cases:
    """All of them."""
    yield from of_either("serve")
    yield from of_either("fetch")
    yield from of_the_link()
    yield from of_the_other()
    yield from numbers()
    yield from of_the_audit()
    yield from parsed()
