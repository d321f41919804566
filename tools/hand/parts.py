"""Frames that are put together here, the list that cases are written to, and the lines that most of them use."""
from frames import check_word

# ---- frames

def big(value, width):
    return value.to_bytes(width, "big")


def sealed(data):
    return data + big(check_word(data), 2)


def frame(sync, sender, soc, quality, count, body, size=None):
    """A frame; its FRAMESIZE is its length, unless another is given."""
    size = 16 + len(body) if size is None else size
    return sealed(big(sync, 2) + big(size, 2) + big(sender, 2) + big(soc, 4)
                  + big(quality, 1) + big(count, 3) + body)


def station(code, form=0, phasors=0, analogs=0, digitals=0):
    """A station part of 30 + 20P + 20A + 260D bytes. Its names are blank."""
    return (b" " * 16 + big(code, 2) + big(form, 2)
            + big(phasors, 2) + big(analogs, 2) + big(digitals, 2)
            + b" " * 16 * (phasors + analogs + 16 * digitals)
            + bytes(4) * (phasors + analogs + digitals) + bytes(4))


def config(sender, rate, *stations, time_base=1_000_000, number=None):
    """A configuration 2; its NUM_PMU is the number of stations, unless another is given."""
    number = len(stations) if number is None else number
    body = big(time_base, 4) + big(number, 2) + b"".join(stations) + big(rate % 65536, 2)
    return frame(0xAA32, sender, 0, 0, 0, body)


def data(sender, soc, count, body, quality=0):
    return frame(0xAA02, sender, soc, quality, count, body)


def damaged(good):
    """The same frame with one bit of its check word turned."""
    return good[:-1] + big(good[-1] ^ 1, 1)


def capture(*records, mark=b"PHC", version=1):
    """A capture of records (reading, port, bytes)."""
    out = mark + big(version, 2)
    for reading, port, held in records:
        out += big(reading, 8) + big(port, 1) + big(len(held), 2) + held
    return out


def words(text):
    return bytes.fromhex(text)


def text(data):
    return data.hex() or "-"


# ---- the list

CALLS = []
ANSWERS = []


def group(title, *rows):
    """A sentence, as comment lines, then rows of a call and its answer, then an empty line."""
    for line in title.strip().split("\n"):
        comment = "# " + line.strip()
        CALLS.append(comment)
        ANSWERS.append(comment)
    for call, answer in rows:
        CALLS.append(call)
        ANSWERS.append(answer)
    CALLS.append("")
    ANSWERS.append("")


def add(configuration, answer, room=66000):
    return f"add {text(configuration)} {room}", answer


def admit(port, given, answer):
    return f"admit {port} {text(given)}", answer


def pull(port, given, verdict):
    return "pull 1040", f"0 {port} {len(given)} {verdict} {text(given)}"


def tick(reading, answer="0"):
    return f"tick {reading} 1040", answer


def written(number, expected):
    """A ticket of this number, and the frame that is written for it."""
    return (("take", f"0 {number}"),
            (f"write {number} 66000", f"0 {len(expected)} {text(expected)}"))


# ---- the lines that most cases use, at 50 frames a second: a slot every 20,000 microseconds

ONE = station(1001, 0, phasors=1)
TWO = station(1002, 1, phasors=1, analogs=1, digitals=1)
BARE = station(1003)

CONFIG_ONE = config(101, 50, ONE)
CONFIG_TWO = config(102, 50, TWO)
CONFIG_BARE = config(103, 50, BARE)

# STAT, a phasor of two integers, FREQ, DFREQ
BODY_ONE = words("0000 0001 0002 0003 0004")
OTHER_ONE = words("0000 1111 1111 1111 1111")
GONE_ONE = words("8000 8000 8000 8000 8000")
# STAT, a phasor of magnitude and angle, FREQ, DFREQ, an analog, a digital word
BODY_TWO = words("0000 0005 0006 0007 0008 0009 000A")
GONE_TWO = words("8000 0000 8000 8000 8000 8000 0000")
# STAT, FREQ, DFREQ
BODY_BARE = words("0000 000B 000C")
GONE_BARE = words("8000 8000 8000")

BEGIN = (("plan 77 50", "0"),)
ONE_PORT = BEGIN + (add(CONFIG_ONE, "0 0"),)
TWO_PORTS = ONE_PORT + (add(CONFIG_TWO, "0 1"),)
THREE_PORTS = TWO_PORTS + (add(CONFIG_BARE, "0 2"),)


def one(soc, count, body=BODY_ONE, quality=0):
    return data(101, soc, count, body, quality)


def two(soc, count, body=BODY_TWO, quality=0):
    return data(102, soc, count, body, quality)


def bare(soc, count, body=BODY_BARE, quality=0):
    return data(103, soc, count, body, quality)


def combined(soc, count, quality, *bodies):
    """The frame of a slot, of the combined sender 77."""
    return data(77, soc, count, b"".join(bodies), quality)
