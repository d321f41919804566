"""Boxes under others."""
from hand.parts import (
    BEGIN, BODY_BARE, BODY_ONE, BODY_TWO, CONFIG_BARE, CONFIG_ONE, CONFIG_TWO, GONE_BARE, GONE_ONE, GONE_TWO, ONE,
    OTHER_ONE, TWO, TWO_PORTS, add, admit, bare, capture, config, data, group, one, pull, text, tick, two, written)

# ---- boxes under others


def place(number):
    """Second and count of a slot at 50 frames a second."""
    return number // 50, 20000 * (number % 50)


def stacked(port, policy, records, lower_reading, reading, upper="abs 100000"):
    return (f"open {upper} stacked {port} {policy} {text(records)} {lower_reading} {reading}", "0")


def below(number, quality, *bodies):
    """The frame of a slot of the lower box 88."""
    return data(88, *place(number), b"".join(bodies), quality)


def above(number, quality, *bodies):
    """The frame of a slot of the upper box 77."""
    return data(77, *place(number), b"".join(bodies), quality)


group("Without a lower line a box under another has the plan of the upper one. Its line counts modulo 16.",
      *TWO_PORTS,
      stacked(19, "abs 0", b"", 1000000000, 1000000000),
      pull(3, above(50000, 15, GONE_ONE, GONE_TWO), 15),
      ("pull 1040", "30"),
      # it was opened with a plan that begins here and is still empty
      *BEGIN,
      ("pull 1040", "30"),
      ("open abs 0 stacked 19 abs 0 - 1000000000 1000000000", "25"))

LOWER = ("plan 88 50", "0"), add(CONFIG_ONE, "0 0"), add(CONFIG_TWO, "0 1"), ("lower", "0")
UPPER = BEGIN + (add(config(88, 50, ONE, TWO), "0 0"), add(CONFIG_BARE, "0 1"))

PILED = capture(
    (1000000000, 0, one(1000, 0, quality=2)),
    (1000005000, 1, two(1000, 0, quality=1)),
    (1000020000, 0, one(1000, 20000, OTHER_ONE)),
    (1000070000, 1, two(1000, 20000)))

group("""Frames through two boxes: the lower one, 88, puts those of the devices 101 and 102 together, and the upper one,
         77, has the frames that it writes as those of a line, beside the device 103.""",
      *LOWER,
      *UPPER,
      stacked(0, "abs 30000", PILED, 1000000000, 1000000000),
      ("pull 1040", "30"),
      tick(1000000000),
      ("pull 1040", "30"),
      # complete below
      tick(1000005000),
      ("pull 1039", "17"),
      pull(0, below(50000, 2, BODY_ONE, BODY_TWO), 0),
      ("pull 1040", "30"),
      # complete above
      admit(1, bare(1000, 0, quality=4), "0"),
      *written(50000, above(50000, 4, BODY_ONE, BODY_TWO, BODY_BARE)),
      # its wait ends below
      tick(1000049999),
      ("pull 1040", "30"),
      ("tick 1000050000 1039", "17"),
      ("pull 1040", "30"),
      tick(1000050000),
      pull(0, below(50001, 0, OTHER_ONE, GONE_TWO), 0),
      ("pull 1040", "30"),
      # the frame of the slot before is too late below, and that is not told here
      tick(1000070000),
      pull(0, below(50002, 15, GONE_ONE, GONE_TWO), 0),
      ("pull 1040", "30"),
      admit(1, bare(1000, 40000), "0"),
      ("take", "23"),
      tick(1000119999),
      ("take", "23"),
      # its wait ends above, and the slot after it is complete
      tick(1000120000),
      pull(0, below(50003, 15, GONE_ONE, GONE_TWO), 0),
      *written(50001, above(50001, 0, OTHER_ONE, GONE_TWO, GONE_BARE)),
      *written(50002, above(50002, 15, GONE_ONE, GONE_TWO, BODY_BARE)),
      ("take", "23"),
      pull(0, below(50004, 15, GONE_ONE, GONE_TWO), 0),
      ("pull 1040", "30"),
      ("counts", "0 7 3"))

group("""The lower plan is a copy: it stays as it was through later plan and add lines, until the next lower one. A box keeps
         its lower plan as well as its own.""",
      ("plan 88 50", "0"),
      add(CONFIG_ONE, "0 0"),
      ("lower", "0"),
      add(CONFIG_TWO, "0 1"),
      *BEGIN,
      add(config(88, 50, ONE), "0 0"),
      add(CONFIG_BARE, "0 1"),
      stacked(0, "abs 0", b"", 1000000000, 1000000000),
      ("plan 88 50", "0"),
      ("lower", "0"),
      pull(0, below(50000, 15, GONE_ONE), 0),
      admit(1, bare(1000, 0), "0"),
      *written(50000, above(50000, 15, GONE_ONE, BODY_BARE)),
      *UPPER,
      # the lower plan is the empty one now
      stacked(0, "abs 0", b"", 1000000000, 1000000000),
      tick(1000000000),
      ("pull 1040", "30"))

EARLY = capture((1000110000, 0, one(1000, 120000)))

group("""A lower box that comes out shut is silent, and so is one that the clock leaps too far for; neither is refused.
         One whose clock is ahead takes frames by it, and they may be too early above (10).""",
      ("plan 88 50", "0"),
      add(CONFIG_ONE, "0 0"),
      ("lower", "0"),
      *BEGIN,
      add(config(88, 50, ONE), "0 0"),
      stacked(0, "abs 540001", EARLY, 1000000000, 1000000000),
      tick(1000110000),
      ("pull 1040", "30"),
      stacked(0, "abs 0", EARLY, 4000000000000001, 1000000000),
      tick(1000110000),
      ("pull 1040", "30"),
      # a tick of 60,000,001 below; the slot that closed on opening still waits
      stacked(0, "abs 0", EARLY, 940000000, 1000000000),
      tick(1000000001),
      pull(0, below(47000, 15, GONE_ONE), 20),
      ("pull 1040", "30"),
      tick(1000110000),
      ("pull 1040", "30"),
      # 60,000,000 below: 3,000 slots are closed
      stacked(0, "abs 0", EARLY, 940000000, 1000000000),
      tick(1000000000),
      pull(0, below(47000, 15, GONE_ONE), 20),
      pull(0, below(47001, 15, GONE_ONE), 20),
      ("counts", "0 0 0 20:2"),
      stacked(0, "abs 0", EARLY, 1000110000, 1000000000),
      ("pull 1040", "30"),
      tick(1000000000),
      pull(0, below(50006, 0, BODY_ONE), 10),
      ("pull 1040", "30"))
