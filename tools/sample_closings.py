#!/usr/bin/env python3
"""Writes the sample capture that the program closings is run on, from frames worked out by hand.

usage: tools/sample_closings.py > crates/closings/stdin

It shares no code with the library: frames are put together by tools/frames.py.
"""
import sys

from frames import BESIDES, capture, frame

SMALL_DATA = frame(0xAA02, 7735, 1149580800, 0x03, 33333, bytes.fromhex("0000 392B0000 0000 0000"))
PAIR_DATA = frame(
    0xAA02, 7740, 1149580800, 0, 33334,
    bytes.fromhex("0000 42C80000 3F800000 42700000 00000000 41C80000")
    + bytes.fromhex("0000 392B0000 19990000 0000 0000 0001"))
DAMAGED = SMALL_DATA[:16] + b"\x38" + SMALL_DATA[17:]
DATA = [
    (1149580800052500, 1, SMALL_DATA),
    (1149580800052500, 1, DAMAGED),
    (1149580800054000, 4, PAIR_DATA),
]

sys.stdout.buffer.write(capture(BESIDES + DATA))
