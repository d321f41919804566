"""Plans: begun, filled, published, searched."""
from hand.parts import (
    BARE, BEGIN, BODY_BARE, CONFIG_BARE, CONFIG_ONE, CONFIG_TWO, GONE_BARE, ONE, TWO, TWO_PORTS, add, admit, bare,
    big, combined, config, damaged, frame, group, station, text, tick, words, written)

# ---- the plan

group("Without a plan and without a box there is nothing to call.",
      ("publish 0 66000", "no plan"),
      add(CONFIG_ONE, "no plan"),
      ("find 1001", "no plan"),
      ("open abs 0 silent 0", "no plan"),
      ("open abs 0 stacked 0 abs 0 - 0 0", "no plan"),
      ("lower", "no plan"),
      tick(0, "no box"),
      admit(0, b"", "no box"),
      ("pull 1040", "no box"),
      ("take", "no box"),
      ("write 0 66000", "no box"),
      ("counts", "no box"))

PUBLISHED = frame(0xAA32, 77, 1234567890, 0, 123456,
                  big(1_000_000, 4) + big(2, 2) + ONE + TWO + big(50, 2))

group("""Two lines make a plan. Their parts of 50 and 330 bytes stand between 20 bytes and 4; a buffer
         of one byte less is 17, then a reading past the last one is 14.""",
      *TWO_PORTS,
      ("find 1001", "0 0 0"),
      ("find 1002", "0 1 0"),
      ("find 102", "none"),
      ("publish 1234567890123456 403", "17"),
      ("publish 4000000000000001 403", "17"),
      ("publish 4000000000000001 404", "14"),
      ("publish 1234567890123456 404", f"0 404 {text(PUBLISHED)}"))

group("An empty plan is published by nobody: 17 under 24 bytes, then 14, then 25.",
      *BEGIN,
      ("publish 4000000000000001 23", "17"),
      ("publish 4000000000000001 24", "14"),
      ("publish 4000000000000000 24", "25"))

group("A plan of the sender 0 or 65,535 takes nothing (6), and then none of the rate 0 or 121 (12).",
      ("plan 0 0", "0"),
      add(b"", "6"),
      ("plan 65535 50", "0"),
      add(CONFIG_ONE, "6"),
      ("plan 77 0", "0"),
      add(b"", "12"),
      ("plan 77 121", "0"),
      add(config(101, 121, ONE), "12"),
      ("plan 77 120", "0"),
      add(config(101, 120, ONE), "0 0"),
      ("plan 77 1", "0"),
      add(config(101, 1, ONE), "0 0"))

group("A configuration by itself: each frame has one fault more than the next, and the first one counts.",
      *BEGIN,
      add(b"", "1"),
      add(words("AB32000E006500000000000000000000")[:15], "1"),
      add(words("AB32000E006500000000000000000000"), "2"),
      add(words("AAB2000E006500000000000000000000"), "2"),
      add(words("AA62000E006500000000000000000000"), "2"),
      add(words("AA72000E006500000000000000000000"), "2"),
      add(words("AA33000E006500000000000000000000"), "2"),
      add(words("AA30000E006500000000000000000000"), "2"),
      add(words("AA12000E006500000000000000000000"), "3"),
      add(damaged(frame(0xAA12, 0, 0, 0, 0, b"")), "4"),
      add(frame(0xAA02, 0, 0, 0, 0, b""), "5"),
      add(frame(0xAA12, 0, 0, 0, 0, b""), "5"),
      add(frame(0xAA22, 0, 0, 0, 0, b""), "5"),
      add(frame(0xAA42, 0, 0, 0, 0, b""), "5"),
      add(frame(0xAA52, 0, 0, 0, 0, b""), "5"),
      add(frame(0xAA32, 0, 0, 0, 0, b""), "6"),
      add(frame(0xAA32, 65535, 0, 0, 0, b""), "6"),
      # 23 bytes, where NUM_PMU and DATA_RATE want 24
      add(frame(0xAA32, 101, 0, 0, 0, bytes(7)), "9 0"),
      # 24 bytes, with the time base 0 and no station
      add(frame(0xAA32, 101, 0, 0, 0, bytes(8)), "11 0"),
      add(config(101, 50, ONE, time_base=999), "11 0"),
      add(config(101, 50, number=0), "11 0"),
      add(config(101, 50, *[BARE] * 9), "11 0"),
      # version 1 is read as well, and the top byte of the time base means nothing
      add(frame(0xAA31, 101, 0, 0, 0, words("FF0F4240 0001") + ONE + big(50, 2)), "0 0"),
      add(config(101, 50, ONE, time_base=1000), "0 1"),
      add(config(101, 50, ONE, time_base=16_777_215), "0 2"),
      add(config(101, 50, *[BARE] * 8), "0 3"))

group("A configuration's stations: 9 and 11 tell the station, from 0, where reading stopped.",
      *BEGIN,
      # 25 of the first 26 bytes of a station stand before the last 4
      add(config(101, 50, ONE[:25], number=1), "9 0"),
      add(config(101, 50, ONE, number=2), "9 1"),
      add(config(101, 50, station(0, 0, 33, 0, 0)), "11 0"),
      add(config(101, 50, station(0, 0, 0, 17, 0)), "11 0"),
      add(config(101, 50, ONE, station(0, 0, 0, 0, 5)), "11 1"),
      add(config(101, 50, station(0)[:26], number=1), "6"),
      add(config(101, 50, ONE, station(65535)[:26], number=2), "6"),
      add(config(101, 50, ONE[:49], number=1), "9 0"),
      add(config(101, 50, BARE, TWO[:329], number=2), "9 1"),
      add(config(101, 51, ONE + b"\0", number=1), "9 1"),
      add(config(101, 51, ONE, BARE + b"\0", number=2), "9 2"),
      add(config(101, 51, ONE), "12"),
      add(config(101, -50, ONE), "12"),
      add(config(101, 50, station(9, 0, 32, 16, 4)), "0 0"))

WIDE = station(9, 2, phasors=32)    # a block of 262 bytes
LESS = station(9, 2, phasors=29)    # a block of 238 bytes

group("""A plan is full (27) past 1,024 bytes of data body, 32 stations or 16 ports; only then a buffer is
         short (17).""",
      *BEGIN,
      add(CONFIG_ONE, "17", 73),
      add(CONFIG_ONE, "0 0", 74),
      add(CONFIG_TWO, "17", 403),
      add(CONFIG_TWO, "0 1", 404),
      *BEGIN,
      add(config(101, 50, WIDE, WIDE, WIDE, WIDE), "27", 0),
      add(config(101, 50, WIDE, WIDE, WIDE, LESS), "0 0"),
      add(CONFIG_BARE, "27"),
      *BEGIN,
      add(config(101, 50, *[BARE] * 8), "0 0"),
      add(config(101, 50, *[BARE] * 8), "0 1"),
      add(config(101, 50, *[BARE] * 8), "0 2"),
      add(config(101, 50, *[BARE] * 7), "0 3"),
      add(config(101, 50, BARE, BARE), "27"),
      add(CONFIG_BARE, "0 4"),
      add(CONFIG_BARE, "27"),
      *BEGIN,
      *[add(CONFIG_BARE, f"0 {port}") for port in range(16)],
      add(CONFIG_BARE, "27", 0),
      # the sixteenth line takes frames as the first does
      ("open abs 40000 silent 1000000000", "0"),
      admit(15, bare(1000, 0), "0"),
      admit(16, bare(1000, 0), "15"),
      tick(1000040000),
      *written(50000, combined(1000, 0, 0, *[GONE_BARE] * 15, BODY_BARE)))
