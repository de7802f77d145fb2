#!/usr/bin/env python3
"""Makes the archives of a small network: three stations, three channels each, ten minutes with an earthquake.

    make.py [FOLDER]

They are written into FOLDER, or beside this script: a sound one of all stations, and others of the nearest station,
each with one damage. The script makes the samples as whole numbers, and `mseed repack` packs them, so each run gives
the same bytes. The program is the one that MSEED names, or that of the repository.
"""

import datetime
import math
import os
import struct
import subprocess
import sys

HERE = os.path.dirname(os.path.abspath(__file__))
PROGRAM = os.environ.get("MSEED", os.path.join(HERE, "..", "crates", "mseed", "out", "mseed"))

NETWORK = "XX"
START = datetime.datetime(2024, 5, 14, 3, 20)
RATE = 20
SAMPLES = 10 * 60 * RATE

# The earthquake: when it happens, in seconds from the start, and how fast its waves are, in kilometres a second.
ORIGIN, P_SPEED, S_SPEED = 120, 6.0, 3.5
# How strong each wave is on each component, in hundredths.
COMPONENTS = {"BHZ": (100, 45), "BHN": (35, 100), "BHE": (50, 80)}


class Station:
    """A station: how far it is from the earthquake, how its clock stands to the start, and how it packs."""

    def __init__(self, code, kilometres, clock, length, encoding):
        self.code, self.kilometres, self.clock, self.length, self.encoding = code, kilometres, clock, length, encoding


STATIONS = [Station("KILN", 21, 0, 512, "steim2"), Station("MOOR", 63, 13_125, 512, "steim1"),
            Station("TARN", 126, -1_550, 4096, "steim2")]


# ---------------------------------------------------------------- samples

def noise(seed):
    """So many numbers without a pattern, from -2^15 to 2^15 - 1."""
    state = seed
    for _ in range(SAMPLES):
        state = (state * 6364136223846793005 + 1442695040888963407) % 2**64
        yield (state >> 48) - 2**15


def ringing(pushes, hertz, seconds, peak):
    """How a weight on a spring of this frequency moves when it is pushed so, where a push dies away within so many
    seconds. The largest number is the peak."""
    damping = math.exp(-1 / (seconds * RATE))
    last, older = round(2**16 * 2 * damping * math.cos(2 * math.pi * hertz / RATE)), round(2**16 * damping**2)
    moved = [0, 0]
    for push in pushes:
        moved.append(push + (last * moved[-1] - older * moved[-2] >> 16))
    largest = max(abs(number) for number in moved)
    return [number * peak // largest for number in moved[2:]]


def wave(seed, hertz, arrival, fades, peak):
    """A wave that arrives so many seconds after the start, is strongest half a second later, and then fades."""
    begins, rises = round(arrival * RATE), RATE // 2
    strengths, strength = [0] * begins, 2**32
    while len(strengths) < SAMPLES:
        since = len(strengths) - begins
        strengths.append(2**32 * since // rises if since < rises else strength)
        strength -= strength // round(fades * RATE) if since >= rises else 0
    return [number * strength >> 32 for number, strength in zip(ringing(noise(seed), hertz, 0.25, peak), strengths)]


def ground(station, channel):
    """The samples of a channel: the instrument's offset and noise, the hum of the sea, and the earthquake."""
    seed = 100 * STATIONS.index(station) + 10 * list(COMPONENTS).index(channel)
    offset = seed - 137
    hum = ringing(noise(seed), 0.2, 8, 15)
    hiss = [number // 2**14 for number in noise(seed + 1)]
    p_strength, s_strength = (percent * 2_400 // station.kilometres for percent in COMPONENTS[channel])
    p = wave(seed + 2, 3, ORIGIN + station.kilometres / P_SPEED, 4 + station.kilometres / 20, p_strength // 3)
    s = wave(seed + 3, 1.5, ORIGIN + station.kilometres / S_SPEED, 8 + station.kilometres / 10, s_strength)
    return [offset + sum(numbers) for numbers in zip(hum, hiss, p, s)]


# ---------------------------------------------------------------- records

def at(instant):
    """A start as a header has it, but for the microseconds that its ten-thousandths leave."""
    day = instant.timetuple().tm_yday
    return struct.pack(">HHBBBBH", instant.year, day, instant.hour, instant.minute, instant.second, 0,
                       instant.microsecond // 100)


def integers(station, channel, samples):
    """Records of integers, for the program to pack: the header, a blockette 1000, a 1001, and up to 1,008 samples."""
    records = []
    for first in range(0, len(samples), 1008):
        part = samples[first : first + 1008]
        start = START + datetime.timedelta(seconds=first / RATE, microseconds=station.clock)
        codes = f"{station.code:5}  {channel}{NETWORK}".encode()
        head = b"%06dD " % (len(records) + 1) + codes + at(start)
        head += struct.pack(">HhhBBBBiHH", len(part), RATE, 1, 0, 0, 0, 2, 0, 64, 48)
        head += struct.pack(">HHBBBB", 1000, 56, 3, 1, 12, 0)
        head += struct.pack(">HHBbBB", 1001, 0, 0, start.microsecond % 100, 0, 0)
        records.append((head + struct.pack(f">{len(part)}i", *part)).ljust(4096, b"\0"))
    return b"".join(records)


def packed(station, channel):
    """The records of a channel, as the program packs them."""
    call = [PROGRAM, "repack", "--length", str(station.length), "--encoding", station.encoding]
    made = subprocess.run(call, input=integers(station, channel, ground(station, channel)), check=True,
                          stdout=subprocess.PIPE).stdout
    return [made[first : first + station.length] for first in range(0, len(made), station.length)]


def samples_in(record):
    return struct.unpack_from(">H", record, 30)[0]


def as_written(stations):
    """The records of these stations in the order in which their loggers finish them."""
    finished = []
    for station in stations:
        for channel in COMPONENTS:
            samples = 0
            for record in packed(station, channel):
                samples += samples_in(record)
                finished.append((samples, len(finished), record))
    return [record for _, _, record in sorted(finished)]


# ---------------------------------------------------------------- damages

def of_channel(records, channel):
    """Where a channel's records stand among others."""
    return [place for place, record in enumerate(records) if record[15:18] == channel.encode()]


def with_gap(records):
    """Two neighbouring records of BHZ are lost."""
    lost = of_channel(records, "BHZ")[8:10]
    return b"".join(record for place, record in enumerate(records) if place not in lost)


def with_overlap(records):
    """A record of BHN was sent twice."""
    twice = of_channel(records, "BHN")[5]
    return b"".join(records[: twice + 1] + records[twice:])


def with_drift(records):
    """The station samples a little more slowly than it says, so that each record begins 3 ms after the last one's end."""
    moved = list(records)
    for channel in COMPONENTS:
        samples = 0
        for number, place in enumerate(of_channel(records, channel)):
            start = START + datetime.timedelta(seconds=samples / RATE, microseconds=3_000 * number)
            moved[place] = records[place][:20] + at(start) + records[place][30:]
            samples += samples_in(records[place])
    return b"".join(moved)


def with_bad_constant(records):
    """The last sample of a record of BHE, as its first frame gives it, isn't the one to which its differences lead."""
    place = of_channel(records, "BHE")[11]
    last = struct.unpack_from(">i", records[place], 72)[0]
    bad = records[place][:72] + struct.pack(">i", last ^ 1 << 6) + records[place][76:]
    return b"".join(records[:place] + [bad] + records[place + 1 :])


def with_end_cut(records):
    """The last record was only begun."""
    return b"".join(records)[:-200]


def with_junk(records):
    """512 bytes that are no record stand before the record in the middle."""
    junk = b"logger 7: power lost, started again\n".ljust(512, b"\0")
    middle = len(records) // 2
    return b"".join(records[:middle] + [junk] + records[middle:])


DAMAGES = {"gap": with_gap, "overlap": with_overlap, "drift": with_drift, "bad_constant": with_bad_constant,
           "cut": with_end_cut, "junk": with_junk}


def main():
    folder = sys.argv[1] if len(sys.argv) > 1 else HERE
    archives = {"network": b"".join(as_written(STATIONS))}
    nearest = as_written(STATIONS[:1])
    for name, damage in DAMAGES.items():
        archives["network_" + name] = damage(nearest)
    for name, archive in archives.items():
        with open(os.path.join(folder, name + ".mseed"), "wb") as file:
            file.write(archive)


if __name__ == "__main__":
    main()
