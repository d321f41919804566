"""Pulling, and feeds that are joined and shifted."""
from hand.parts import (
    BODY_ONE, BODY_TWO, CONFIG_TWO, GONE_ONE, GONE_TWO, OTHER_ONE, TWO_PORTS, capture, combined, damaged, frame,
    group, one, pull, text, tick, two, words, written)

# ---- pulling

FED = capture(
    (1000000000, 0, one(1000, 0)),
    (1000000000, 1, b"\x01"),
    (1000000000, 0, one(1000, 0, OTHER_ONE)),
    (1000005000, 15, one(1000, 0)),
    (1000005000, 1, one(1000, 0)),
    (1000005000, 1, CONFIG_TWO),
    (1000005000, 0, damaged(one(1000, 20000))),
    (1000005000, 1, two(1000, 20000)),
    (1000010000, 1, two(1000, 10000)),
    (1000010000, 1, two(1000, 1000000)),
    (1000010000, 0, one(1000, 120000)),
    (1000010000, 0, one(999, 980000)),
    (1000010000, 1, bytes(1040)),
    (1000010000, 1, two(1000, 0, quality=4)))

group("""A pull wants 1,040 bytes (17), then a frame that waits (30). A capture's records wait once a tick has
         come to them, and each frame is taken off whatever its verdict.""",
      *TWO_PORTS,
      (f"open abs 40000 capture {text(FED)} 1000000000", "0"),
      ("pull 1039", "17"),
      ("pull 1040", "30"),
      ("tick 1000000000 1039", "17"),
      ("pull 1040", "30"),
      tick(1000000000),
      ("pull 0", "17"),
      pull(0, one(1000, 0), 0),
      pull(1, b"\x01", 1),
      pull(0, one(1000, 0, OTHER_ONE), 21),
      ("pull 1039", "17"),
      ("pull 1040", "30"),
      tick(1000005000),
      pull(15, one(1000, 0), 15),
      pull(1, one(1000, 0), 6),
      pull(1, CONFIG_TWO, 5),
      tick(1000010000),
      pull(0, damaged(one(1000, 20000)), 4),
      pull(1, two(1000, 20000), 0),
      pull(1, two(1000, 10000), 8),
      pull(1, two(1000, 1000000), 7),
      pull(0, one(1000, 120000), 10),
      pull(0, one(999, 980000), 20),
      pull(1, bytes(1040), 2),
      pull(1, two(1000, 0, quality=4), 0),
      ("pull 1040", "30"),
      *written(50000, combined(1000, 0, 4, BODY_ONE, BODY_TWO)),
      ("take", "23"),
      tick(1000060000),
      *written(50001, combined(1000, 20000, 0, GONE_ONE, BODY_TWO)))

group("A tick with a low reading ticks the feed with the latest one; opening does not tick it.",
      *TWO_PORTS,
      (f"open abs 40000 capture {text(capture((1000050000, 0, one(1000, 60000))))} 1000060000", "0"),
      ("pull 1040", "30"),
      tick(5),
      pull(0, one(1000, 60000), 0),
      ("pull 1040", "30"))

GOOD = (1000000000, 0, one(1000, 0))

group("""An unsound capture is a feed that stays empty: a wrong mark or version, a record that is cut off, a reading
         that falls or is too large, a sixteenth port, a length of 0 or over 1,040. A bare header is sound, and empty too.""",
      *TWO_PORTS,
      *[row for unsound in [
          capture(GOOD, mark=b"PHD"),
          capture(GOOD, version=2),
          capture(GOOD)[:-1],
          capture(GOOD) + b"\0",
          capture(GOOD, (999999999, 0, b"\0")),
          capture(GOOD, (4000000000000001, 0, b"\0")),
          capture(GOOD, (1000000000, 16, b"\0")),
          capture(GOOD, (1000000000, 0, b"")),
          capture(GOOD, (1000000000, 0, bytes(1041))),
          b"PHC\0",
          b"",
          capture(),
      ] for row in [
          (f"open abs 40000 capture {text(unsound)} 1000000000", "0"),
          tick(1000000000),
          ("pull 1040", "30")]],
      (f"open abs 40000 capture {text(capture(GOOD))} 1000000000", "0"),
      tick(1000000000),
      pull(*GOOD[1:], 0),
      ("pull 1040", "30"))

# ---- joined and shifted feeds

LEFT = capture(
    (1000000000, 0, one(1000, 0)),
    (1000030000, 0, one(1000, 20000)))
RIGHT = capture(
    (1000000000, 1, two(1000, 0)),
    (1000010000, 1, two(1000, 20000)),
    (1000070000, 1, two(1000, 60000)))

group("Two captures joined: what waits at the first comes before what waits at the second, whenever it came.",
      *TWO_PORTS,
      (f"open abs 60000 joined {text(LEFT)} {text(RIGHT)} 1000000000", "0"),
      ("pull 1040", "30"),
      tick(1000010000),
      pull(0, one(1000, 0), 0),
      pull(1, two(1000, 0), 0),
      ("take", "0 50000"),
      tick(1000030000),
      pull(0, one(1000, 20000), 0),
      pull(1, two(1000, 20000), 0),
      ("pull 1040", "30"),
      ("write 50000 66000", f"0 40 {text(combined(1000, 0, 0, BODY_ONE, BODY_TWO))}"),
      *written(50001, combined(1000, 20000, 0, BODY_ONE, BODY_TWO)),
      ("take", "23"),
      tick(1000070000),
      pull(1, two(1000, 60000), 0),
      ("pull 1040", "30"),
      tick(1000120000),
      *written(50002, combined(1000, 40000, 15, GONE_ONE, GONE_TWO)),
      *written(50003, combined(1000, 60000, 0, GONE_ONE, BODY_TWO)),
      (f"open abs 60000 joined {text(LEFT)} - 1000000000", "0"),
      tick(1000030000),
      pull(0, one(1000, 0), 0),
      pull(0, one(1000, 20000), 0),
      ("pull 1040", "30"))

LAGGING = capture(
    (1000000000, 0, one(995, 0)),
    (1000000000, 1, two(1060, 0, quality=3)),
    (1000000000, 0, damaged(one(995, 20000))),
    (1000000000, 0, one(1000, 20000)),
    (1000000000, 1, two(59, 0)),
    (1000000000, 1, two(60, 0)),
    (1000000000, 0, one(4294967290, 0)),
    (1000000000, 0, one(4294967291, 0)),
    (1000000000, 1, frame(0xAA42, 7, 1060, 0, 0, words("0002"))),
    (1000000000, 15, b"\x07"))

group("""A capture under shifts: 5 seconds for the line 0, and 61 back for the line 1, which counts as 60. A frame
         that is not sound, or whose second would leave its range, passes as it is.""",
      *TWO_PORTS,
      (f"open abs 40000 shifted 5,-61,0,0,0,0,0,0,0,0,0,0,0,0,0,2147483647 {text(LAGGING)} 1000000000", "0"),
      tick(1000000000),
      pull(0, one(1000, 0), 0),
      pull(1, two(1000, 0, quality=3), 0),
      pull(0, damaged(one(995, 20000)), 4),
      pull(0, one(1005, 20000), 10),
      pull(1, two(59, 0), 20),
      pull(1, two(0, 0), 20),
      pull(0, one(4294967295, 0), 10),
      pull(0, one(4294967291, 0), 10),
      pull(1, frame(0xAA42, 7, 1000, 0, 0, words("0002")), 5),
      pull(15, b"\x07", 15),
      ("pull 1040", "30"),
      *written(50000, combined(1000, 0, 3, BODY_ONE, BODY_TWO)),
      ("take", "23"))
