"""The clock, and what a frame is refused for."""
from hand.parts import (
    BODY_BARE, BODY_ONE, BODY_TWO, CONFIG_ONE, GONE_BARE, GONE_ONE, GONE_TWO, OTHER_ONE, THREE_PORTS, TWO_PORTS,
    admit, bare, combined, damaged, data, frame, group, one, tick, two, words, written)

# ---- the clock

group("The clock steps back: the tick is accepted, nothing opens again, and a late frame stays late.",
      *TWO_PORTS,
      ("open abs 40000 silent 1000000000", "0"),
      tick(1000060000),
      admit(0, one(1000, 20000), "20"),
      tick(1000000000),
      admit(0, one(1000, 20000), "20"),
      tick(0),
      admit(0, one(1000, 20000), "20"),
      admit(0, one(1000, 40000), "0"),
      # the latest reading still counts for what is too early, and for a tick that is too far ahead
      admit(0, one(1000, 160000), "0"),
      admit(0, one(1000, 180000), "10"),
      tick(1060060001, "14"),
      *written(50000, combined(1000, 0, 15, GONE_ONE, GONE_TWO)),
      *written(50001, combined(1000, 20000, 15, GONE_ONE, GONE_TWO)),
      ("take", "23"),
      tick(1060060000),
      *written(50002, combined(1000, 40000, 0, BODY_ONE, GONE_TWO)))

group("A tick wants 1,040 bytes (17) before it looks at the reading (14); refused, it does nothing.",
      *TWO_PORTS,
      ("open abs 0 silent 1000000001", "0"),
      ("tick 4000000000000001 1039", "17"),
      ("tick 4000000000000001 1040", "14"),
      ("tick 18446744073709551615 1040", "14"),
      ("tick 1060000002 1040", "14"),
      ("tick 1060000001 1039", "17"),
      ("take", "23"),
      ("tick 1060000001 1040", "0"),
      ("take", "0 50001"))

# ---- what a frame is refused for

group("The refusals of a frame in their order: each frame here would be refused by a later check too.",
      *TWO_PORTS,
      ("open abs 200000 silent 1000000000", "0"),
      admit(2, b"", "15"),
      admit(16, one(1000, 0), "15"),
      admit(255, one(1000, 0), "15"),
      admit(0, b"", "1"),
      admit(0, bytes(15), "1"),
      admit(0, bytes(16), "2"),
      admit(0, words("AA60") + bytes(14), "2"),
      admit(0, words("AA82") + bytes(14), "2"),
      admit(0, words("AA03") + bytes(14), "2"),
      admit(0, words("AA12") + bytes(14), "3"),
      admit(0, one(1000, 0)[:-1], "3"),
      admit(0, one(1000, 0) + b"\0", "3"),
      admit(0, damaged(CONFIG_ONE), "4"),
      admit(0, frame(0xAA12, 9, 0, 0, 0, b""), "5"),
      admit(0, frame(0xAA22, 9, 0, 0, 0, b""), "5"),
      admit(0, CONFIG_ONE, "5"),
      admit(0, frame(0xAA42, 9, 0, 0, 0, b""), "5"),
      admit(0, frame(0xAA52, 9, 0, 0, 0, b""), "5"),
      admit(0, data(0, 0, 0, b""), "6"),
      admit(0, data(65535, 0, 0, b""), "6"),
      # the sender of the other line, and one station's code
      admit(0, two(1000, 0), "6"),
      admit(0, data(1001, 1000, 0, BODY_ONE), "6"),
      admit(0, data(101, 1000, 1000000, b""), "9"),
      admit(0, data(101, 1000, 1000000, BODY_ONE[:-1]), "9"),
      admit(0, data(101, 1000, 1000000, BODY_ONE + b"\0"), "9"),
      admit(0, one(5000, 1000000), "7"),
      admit(0, one(5000, 999999), "8"),
      admit(0, one(5000, 10000), "8"),
      admit(0, one(5000, 0), "10"),
      admit(0, one(1000, 120000), "10"),
      admit(0, one(999, 980000), "20"),
      admit(0, one(0, 0), "20"),
      admit(0, one(1000, 100000), "0"),
      admit(0, one(1000, 100000), "21"),
      # version 1 is read as well
      admit(0, frame(0xAA01, 101, 1000, 0, 0, BODY_ONE), "0"))

group("A repeated frame is refused (21), and the first one stays.",
      *TWO_PORTS,
      ("open abs 40000 silent 1000000000", "0"),
      admit(0, one(1000, 0, BODY_ONE, 2), "0"),
      admit(0, one(1000, 0, OTHER_ONE, 9), "21"),
      admit(0, one(1000, 0, BODY_ONE, 2), "21"),
      tick(1000040000),
      *written(50000, combined(1000, 0, 2, BODY_ONE, GONE_TWO)))

group("""The time quality written is the worst code of the ports present, without the byte's upper bits, or
         15 with none.""",
      *THREE_PORTS,
      ("open abs 40000 silent 1000000000", "0"),
      admit(1, two(1000, 0, quality=0x65), "0"),
      admit(0, one(1000, 0, quality=0xF3), "0"),
      admit(2, bare(1000, 0, quality=0x04), "0"),
      admit(2, bare(1000, 20000, quality=0x0B), "0"),
      admit(0, one(1000, 20000, quality=0x00), "0"),
      admit(1, two(1000, 40000, quality=0xF0), "0"),
      admit(2, bare(1000, 80000, quality=0x0F), "0"),
      tick(1000120000),
      *written(50000, combined(1000, 0, 0x05, BODY_ONE, BODY_TWO, BODY_BARE)),
      *written(50001, combined(1000, 20000, 0x0B, BODY_ONE, GONE_TWO, BODY_BARE)),
      *written(50002, combined(1000, 40000, 0x00, GONE_ONE, BODY_TWO, GONE_BARE)),
      *written(50003, combined(1000, 60000, 0x0F, GONE_ONE, GONE_TWO, GONE_BARE)),
      *written(50004, combined(1000, 80000, 0x0F, GONE_ONE, GONE_TWO, BODY_BARE)),
      ("take", "23"))
