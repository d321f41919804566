#!/usr/bin/env python3
"""Writes the sample capture that the program replay is run on, from frames worked out by hand.

usage: tools/sample_capture.py > crates/replay/stdin

It shares no code with the library: frames are put together by tools/frames.py.
"""
import struct
import sys

from frames import BESIDES, capture, frame

# Data of the three senders that agree on a rate, at 30 frames a second from 08:00:00 on.
SECOND = 1149580800


def worked_data(slot, quality=0):
    body = bytes.fromhex("0000 392B0000 E36ACE7C E36A3183 04440000") + struct.pack(">hh", 2500 - 10 * slot, 0)
    body += struct.pack(">fff", 100, 1000 + slot, 10000) + bytes.fromhex("3C12")
    return frame(0xAA01, 7734, SECOND, quality, round(slot * 1000000 / 30), body)


def small_data(slot, quality=0):
    """This sender rounds its counts down."""
    body = struct.pack(">HHhhh", 0, 14635, -slot, slot, 0)
    return frame(0xAA02, 7735, SECOND, quality, slot * 1000000 // 30, body)


def pair_data(slot, quality=0):
    """This sender rounds its counts up."""
    body = struct.pack(">Hfffff", 0, 100 + slot, 1, 60, 0, 25 - slot / 8)
    body += struct.pack(">HHhHhhhH", 0, 14635, slot, 6553, -slot, 0, 0, 1)
    return frame(0xAA02, 7740, SECOND, quality, -(-slot * 1000000 // 30), body)


def came(slot, line, delay, data):
    """A record that came so long after the slot's stamp."""
    return (SECOND * 1000000 + slot * 1000000 // 30 + delay, line, data)


def stream():
    """Fourteen slots of the three senders, with what befalls frames on their way."""
    for slot in range(1, 16):
        if slot == 13:
            continue  # a moment of silence on all lines
        yield came(slot, 0, 8100 + 37 * slot, worked_data(slot))
        if slot == 10:
            yield came(slot, 0, 9900, worked_data(slot))  # once more
        small = small_data(slot, 0x03 if slot == 1 else 0)
        if slot == 12:
            small = small[:16] + b"\x38" + small[17:]  # damaged
        if slot != 5:  # missing
            yield came(slot, 1, 8174 if slot == 2 else 12300 - 41 * slot, small)
        delay = 142000 if slot == 8 else 20400 + 53 * slot  # one comes late
        yield came(slot, 4, delay, pair_data(slot, 0x45 if slot == 9 else 0))


sys.stdout.buffer.write(capture(BESIDES + list(stream())))
