#!/usr/bin/env python3
"""Writes the loads that the program bench is measured with, put together without any code of the library.

usage: tools/loads.py DIR           writes each load to a file of its name
       tools/loads.py NAME > FILE   writes one of them

docs/SPEED.md tells what each is, and what a load holds.
"""
import functools
import random
import struct
import sys
from pathlib import Path

import frames

START = 1_149_580_800  # the second in which the first slot lies
WAIT = 100_000  # of the policy, in microseconds
HELD = 32  # slots that a concentrator keeps frames of


@functools.cache
def after(byte):
    """The register that eight shifts make of a byte at its top."""
    register = byte << 8
    for _ in range(8):
        register = (register << 1 ^ (0x1021 if register & 0x8000 else 0)) & 0xFFFF
    return register


def check_word(data):
    """As in frames.py, but a byte at a time: loads have millions."""
    register = 0xFFFF
    for byte in data:
        register = (register << 8 & 0xFFFF) ^ after(register >> 8 ^ byte)
    return register


frames.check_word = check_word


class Line:
    """A sender: its code, and the configuration and data frames of its stations."""

    def __init__(self, number, rate, stations, phasors, digitals, form):
        self.id = 100 + number
        names = [f"V{k}" for k in range(phasors)], [], [f"D{k}" for k in range(digitals)]
        parts = [frames.station(f"Station {number} {k}", 1000 + 8 * number + k, form, *names) for k in range(stations)]
        self.config = frames.config(self.id, 0, rate, *parts)
        self.body = stations * (2 + (8 if form & 2 else 4) * phasors + 4 + 2 * digitals)

    def data(self, second, count, seed):
        body = bytes((seed * 31 + self.id * 7 + k * 13) % 251 for k in range(self.body))
        return frames.frame(0xAA02, self.id, second, seed % 4, count, body)


# Stations, phasors, digital words and FORMAT of a line: 14 bytes of body, 32, 64, with which sixteen lines
# fill a plan, and 254, with which four nearly do.
SHAPES = {"small": (1, 2, 0, 0), "middle": (1, 6, 1, 0), "full": (2, 6, 1, 0), "long": (1, 31, 0, 2)}


class Load:
    """What a concentrator is opened with, and the calls that are made on it, in their order."""

    def __init__(self, rate, ports, shape):
        self.rate = rate
        self.lines = [Line(number, rate, *SHAPES[shape]) for number in range(ports)]
        self.reading = START * 1_000_000
        self.calls = []
        self.feed = []

    def stamp(self, slot):
        """Of the slots counted from the start, in microseconds since 1970."""
        return START * 1_000_000 + slot * 1_000_000 // self.rate

    def tick(self, reading):
        self.reading = max(self.reading, reading)
        self.calls.append((self.reading, 0, b"t"))

    def data(self, slot, port):
        second, count = divmod(self.stamp(slot), 1_000_000)
        return self.lines[port].data(second, count, slot)

    def admit(self, port, data):
        self.calls.append((self.reading, port, data))

    def pull(self, port, data):
        """A frame that comes now and is pulled at once."""
        self.feed.append((self.reading, port, data))
        self.calls.append((self.reading, 0, b"p"))

    def write(self, times=1):
        self.calls += [(self.reading, 0, b"w")] * times

    def bytes(self):
        lines = frames.capture([(0, 0, line.config) for line in self.lines])
        calls = frames.capture(self.calls)
        head = struct.pack(">HQII", self.rate, WAIT, len(lines), len(calls))
        return head + lines + calls + frames.capture(self.feed)


def steady(rate, shape, ports=16, slots=480, pulled=False, absent=(), together=8, behind=0):
    """Each slot comes whole, and closes by its last frame or, with absent lines, by its wait. Slots are written
    so many together, and so many always stay behind."""
    load = Load(rate, ports, shape)
    for slot in range(slots + behind):
        load.tick(load.stamp(slot))
        for port in range(ports):
            if port not in absent:
                (load.pull if pulled else load.admit)(port, load.data(slot, port))
        if slot >= behind and (slot - behind + 1) % together == 0:
            load.write(together)
    return load


def empty(rate, shape, seconds=2):
    """No frame comes: every slot is written with absent blocks alone."""
    load = Load(rate, 16, shape)
    load.tick(load.stamp(0))
    for second in range(1, seconds + 1):
        load.tick(load.stamp(rate * second))
        load.write(rate if second > 1 else rate * (1_000_000 - WAIT) // 1_000_000 + 1)
    return load


def leaps(rate, step, times=100):
    """The clock goes on by so many microseconds at a time, and no frame comes."""
    load = Load(rate, 16, "small")
    for k in range(times + 1):
        load.tick(load.stamp(0) + k * step)
    return load


def mixed(rate, slots=40):
    """Frames of both ways that come whole, damaged, repeated, late and early, slots that lack some, writes of
    slots that are not there, and one long leap."""
    load = Load(rate, 15, "small")
    pick = random.Random(1).randrange
    for slot in range(slots):
        leaps = slot >= slots * 3 // 4
        now = slot + 59 * rate if leaps else slot
        load.tick(load.stamp(now) + pick(20_000))
        for port in range(15):
            befalls = pick(12)
            data = load.data(now - 60 if befalls == 0 else now + 40 if befalls == 1 else now, port)
            if befalls == 2:
                data = data[:-1] + bytes([data[-1] ^ 1])
            way = load.pull if pick(2) else load.admit
            if befalls != 3:
                way(port + 1 if befalls == 4 else port, data)
            if befalls == 5:
                way(port, data)
        load.write(pick(3))
    return load


LOADS = {
    "mixed": lambda: mixed(50),
    **{
        f"{way}-{shape}-{rate}": functools.partial(steady, rate, shape, pulled=way == "pull")
        for way in ("admit", "pull") for shape in ("small", "full") for rate in (50, 120)
    },
    **{f"half-{shape}-120": functools.partial(steady, 120, shape, absent=range(0, 16, 2)) for shape in ("small", "full")},
    **{f"empty-{shape}-120": functools.partial(empty, 120, shape) for shape in ("small", "full")},
    **{f"ports-{ports}": functools.partial(steady, 120, "full", ports=ports) for ports in (1, 4, 16)},
    **{f"ports-{ports}-pull": functools.partial(steady, 120, "full", ports=ports, pulled=True) for ports in (1, 4, 16)},
    **{f"body-{shape}": functools.partial(steady, 120, shape) for shape in ("small", "middle", "full")},
    "body-long": functools.partial(steady, 120, "long", ports=4),
    **{f"behind-{n}": functools.partial(steady, 120, "full", together=1, behind=n) for n in (0, 8, 31)},
    **{f"leap-{step}": functools.partial(leaps, 120, step) for step in (20_000, 1_000_000, 60_000_000)},
}


def main(where):
    if where in LOADS:
        sys.stdout.buffer.write(LOADS[where]().bytes())
        return
    for name, make in LOADS.items():
        (Path(where) / name).write_bytes(make().bytes())


main(sys.argv[1])
