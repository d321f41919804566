"""Two boxes that wait for each other."""
from hand.parts import (
    BODY_ONE, BODY_TWO, CONFIG_BARE, CONFIG_TWO, GONE_BARE, GONE_ONE, ONE, ONE_PORT, TWO, add, admit, capture,
    config, group, one, pull, tick, two, written)
from hand.piles import above, below, stacked

# ---- two boxes that wait for each other

# The box 88 has the device 102, and the box 77 as that was while it had the device 101 alone. The box 77 has the device
# 101, the box 88 as that is now, and the device 103. Frames are 10 milliseconds on their way.
RING_BELOW = ("plan 88 50", "0"), add(CONFIG_TWO, "0 0"), add(config(77, 50, ONE), "0 1")
RING_ABOVE = ONE_PORT + (add(config(88, 50, TWO, ONE), "0 1"), add(CONFIG_BARE, "0 2"))
SLOTS = range(8)


def written_below(k):
    return below(50000 + k, 0, BODY_TWO, GONE_ONE)


def written_above(k):
    return above(50000 + k, 0, BODY_ONE, BODY_TWO, GONE_ONE, GONE_BARE)


def at(k, later):
    """The reading so long after the stamp of the slot numbered k."""
    return 1000000000 + 20000 * k + later


def ring_records():
    """What comes to the box 88: the frames of the device, and those that the box 77 writes."""
    records = [(at(k, 10000), 0, two(1000, 20000 * k)) for k in SLOTS]
    records += [(at(k, 70000), 1, written_above(k)) for k in SLOTS]
    return capture(*sorted(records))


def ring_above():
    """The calls on the box 77: a frame comes to it every 10 milliseconds, once both sources have begun."""
    rows = []
    for k in range(SLOTS[-1] + 3):
        rows.append(tick(at(k, 10000)))
        if k in SLOTS:
            rows.append(admit(0, one(1000, 20000 * k), "0"))
        rows.append(("take", "23"))
        rows.append(tick(at(k, 20000)))
        # the slot before closes below now, and the one two before that closes here
        if k - 1 in SLOTS:
            rows.append(pull(1, written_below(k - 1), 0))
        rows.append(("pull 1040", "30"))
        if k - 2 in SLOTS:
            rows += written(50000 + k - 2, written_above(k - 2))
    return rows


def ring_below():
    """The calls on the box 88: frames come to it every 20 milliseconds."""
    rows = []
    for k in SLOTS:
        rows.append(tick(at(k, 10000)))
        rows.append(admit(0, two(1000, 20000 * k), "0"))
        if k - 3 in SLOTS:
            rows.append(admit(1, written_above(k - 3), "9"))
        rows.append(("take", "23"))
        rows.append(tick(at(k, 20000)))
        if k - 1 in SLOTS:
            rows += written(50000 + k - 1, written_below(k - 1))
    return rows


group("""Two boxes that name each other as a source, 88 and 77, each with a device of its own. The box 77 waits for a device
         too that never sends. Frames come to it every 10 milliseconds: with a wait of 50 milliseconds that began anew at
         each of them it would never write a slot. The wait counts from a slot's first frame, and no slot stays open for
         longer than 60 milliseconds after its stamp: each is written then, in turn, whatever still comes.""",
      *RING_BELOW,
      ("lower", "0"),
      *RING_ABOVE,
      stacked(1, "rel 30000 60000", ring_records(), 1000000000, 1000000000, upper="rel 50000 60000"),
      *ring_above(),
      ("take", "23"),
      ("counts", "0 16 8"))

group("""The other box of the two: what 77 writes comes to 88, by turns with the frames of its device. A frame of 77 would
         have to have that of 88 in it, and that of 88 the one of 77, so one of them knows the other by an older
         configuration, and refuses its frames for their length (9). Here too each slot is written 40 milliseconds
         after its stamp, which is 30 after its first frame, though frames come every 20.""",
      *RING_BELOW,
      ("open rel 30000 60000 silent 1000000000", "0"),
      *ring_below(),
      ("take", "23"),
      ("counts", "0 8 7 9:5"))
