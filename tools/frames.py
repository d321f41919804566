"""Frames and captures for the tools, put together without any code of the library.

The check word is computed bit by bit here. The standard's worked frames are literals, and their check words are compared.
"""
import struct


def check_word(data):
    register = 0xFFFF
    for byte in data:
        register ^= byte << 8
        for _ in range(8):
            register = (register << 1 ^ (0x1021 if register & 0x8000 else 0)) & 0xFFFF
    return register


def frame(sync, id_code, soc, quality, count, body):
    head = struct.pack(">HHHIB", sync, 16 + len(body), id_code, soc, quality) + count.to_bytes(3, "big")
    return head + body + struct.pack(">H", check_word(head + body))


def name(text):
    return text.ljust(16).encode("ascii")


# The worked frames of the standard, station 7734.
BREAKERS = [f"BREAKER {c} STATUS" for c in "123456789ABCDEFG"]
CHANNELS = ["VA", "VB", "VC", "I1", "ANALOG1", "ANALOG2", "ANALOG3"] + BREAKERS
WORKED_CONFIG = frame(
    0xAA31, 7734, 1149577200, 0x56, 463000,
    bytes.fromhex("000F4240 0001") + name("Station A") + bytes.fromhex("1E36 0004 0004 0003 0001")
    + b"".join(map(name, CHANNELS))
    + bytes.fromhex("000DF847 000DF847 000DF847 0100B2D0 00000001 01000001 02000001 0000FFFF 0000 0016 001E"))
WORKED_DATA = bytes.fromhex(
    "AA010034 1E36 44853600 000041B1 0000 392B0000 E36ACE7C E36A3183 04440000"
    "09C4 0000 42C80000 447A0000 461C4000 3C12 D43F")
assert WORKED_CONFIG[-2:] == bytes.fromhex("D5D1") and len(WORKED_CONFIG) == 454
assert check_word(WORKED_DATA[:-2]) == 0xD43F


def station(text, id_code, form, phasors, analogs, digitals):
    """A station part; a digital word has a name for each of its 16 bits."""
    channels = phasors + analogs + [f"{d} BIT {b:X}" for d in digitals for b in range(16)]
    return (name(text) + struct.pack(">5H", id_code, form, len(phasors), len(analogs), len(digitals))
            + b"".join(map(name, channels))
            + bytes.fromhex("000DF847") * len(phasors) + bytes.fromhex("00000001") * len(analogs)
            + bytes.fromhex("0000FFFF") * len(digitals) + bytes.fromhex("0001 0000"))


def config(id_code, count, rate, *stations):
    body = struct.pack(">IH", 1000000, len(stations)) + b"".join(stations) + struct.pack(">h", rate)
    return frame(0xAA32, id_code, 1149577200, 0, count, body)


# Senders of the 2011 edition: one small station; two stations, in floats and in integers; and one at
# another rate than the rest.
SMALL_CONFIG = config(7735, 500000, 30, station("Station B", 7735, 0, ["VB1"], [], []))
PAIR_CONFIG = config(
    7740, 510000, 30,
    station("Station C1", 7741, 15, ["VC1"], ["TEMP"], []),
    station("Station C2", 7742, 1, ["VC2", "IC2"], [], ["SWITCH"]))
FAST_CONFIG = config(7750, 520000, 50, station("Station D", 7750, 0, ["VD1"], [], []))

COMMAND = frame(0xAA42, 7800, 1149580800, 0, 40000, bytes.fromhex("0002"))
NO_SYNC = b"\xAB" + COMMAND[1:]

# What each sample holds besides the data of its senders: the configurations, one worked data frame, and frames of no use.
BESIDES = [
    (1149577200463900, 0, WORKED_CONFIG),
    (1149577200501200, 1, SMALL_CONFIG),
    (1149577200511000, 4, PAIR_CONFIG),
    (1149577200520800, 3, FAST_CONFIG),
    (1149580800038000, 0, WORKED_DATA),
    (1149580800041000, 2, COMMAND),
    (1149580800060000, 2, COMMAND[:12]),
    (1149580800061000, 2, NO_SYNC),
    (1149580800070000, 0, WORKED_DATA[:-1]),
    (1149580800071000, 15, WORKED_DATA + b"\x00"),
]


def capture(records):
    """The bytes of a capture, its records in the order of their readings: of each its reading, its line and its frame."""
    out = b"PHC" + struct.pack(">H", 1)
    for reading, port, data in sorted(records, key=lambda record: record[0]):
        out += struct.pack(">QBH", reading, port, len(data)) + data
    return out
