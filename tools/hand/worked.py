"""The standard's worked frames, and the examples of slots and waits."""
from frames import check_word
from hand.parts import (
    BEGIN, GONE_ONE, GONE_TWO, ONE, TWO, TWO_PORTS, add, admit, combined, config, data, group, one, tick, two,
    words, written)

# ---- worked examples

WORKED_CONFIG = words(
    "AA3101C6 1E36 448527F0 56071098 000F4240 0001") + b"Station A       " + words(
    "1E36 0004 0004 0003 0001") + b"".join(name.ljust(16).encode() for name in [
        "VA", "VB", "VC", "I1", "ANALOG1", "ANALOG2", "ANALOG3",
        *[f"BREAKER {c} STATUS" for c in "123456789ABCDEFG"]]) + words(
    "000DF847 000DF847 000DF847 0100B2D0 00000001 01000001 02000001 0000FFFF 0000 0016 001E D5D1")
WORKED_DATA = words(
    "AA010034 1E36 44853600 000041B1 0000 392B0000 E36ACE7C E36A3183 04440000"
    "09C4 0000 42C80000 447A0000 461C4000 3C12 D43F")
assert len(WORKED_CONFIG) == 454 and check_word(WORKED_CONFIG[:-2]) == 0xD5D1
assert len(WORKED_DATA) == 52 and check_word(WORKED_DATA[:-2]) == 0xD43F
WORKED_BODY = WORKED_DATA[14:50]


def worked(soc, count):
    return data(7734, soc, count, WORKED_BODY)


group("""The standard's worked frames: the configuration of 454 bytes makes a line, and the count of the
         data frame of 52 bytes lies on no slot at 30 frames a second (8).""",
      ("plan 77 30", "0"),
      add(WORKED_CONFIG, "17", 453),
      add(WORKED_CONFIG, "0 0", 454),
      ("find 7734", "0 0 0"),
      ("open abs 100000 silent 1149580800000000", "0"),
      admit(0, WORKED_DATA, "8"))

group("""At 30 frames a second and the time base 1,000,000 the counts 33,333 and 33,334 lie on the slot
         after the second's first, and 33,332, 33,335 and 999,999 on none.""",
      ("open abs 100000 silent 1149580800000000", "0"),
      admit(0, worked(1149580800, 33332), "8"),
      admit(0, worked(1149580800, 33335), "8"),
      admit(0, worked(1149580800, 999999), "8"),
      admit(0, worked(1149580800, 33333), "0"),
      admit(0, worked(1149580800, 33334), "21"),
      ("open abs 100000 silent 1149580800000000", "0"),
      admit(0, worked(1149580800, 33334), "0"),
      tick(1149580800133333),
      ("take", "0 34487424000"),
      ("write 34487424000 51", "17"),
      *written(34487424000, combined(
          1149580800, 0, 15,
          words("8000 80008000 80008000 80008000 80008000 8000 8000 7FC00000 7FC00000 7FC00000 0000"))),
      *written(34487424001, combined(1149580800, 33333, 0, WORKED_BODY)),
      ("take", "23"))

group("""The same at other time bases: at 16,777,215 and 50 frames a second the counts 335,544 and 335,545
         lie on the slot after the first, at 1,000 only 20 does.""",
      *BEGIN,
      add(config(101, 50, ONE, time_base=16_777_215), "0 0"),
      add(config(102, 50, TWO, time_base=1_000), "0 1"),
      ("open abs 100000 silent 1000000000", "0"),
      admit(0, one(1000, 335543), "8"),
      admit(0, one(1000, 335546), "8"),
      admit(0, one(1000, 16777214), "8"),
      admit(0, one(1000, 16777215), "7"),
      admit(0, one(1000, 335544), "0"),
      admit(0, one(1000, 335545), "21"),
      admit(1, two(1000, 19), "8"),
      admit(1, two(1000, 21), "8"),
      admit(1, two(1000, 999), "8"),
      admit(1, two(1000, 1000), "7"),
      admit(1, two(1000, 20), "0"))

group("Opened at 1,000,000,001, the first slot at 50 frames a second is 50,001.",
      *TWO_PORTS,
      ("open abs 0 silent 1000000001", "0"),
      ("take", "23"),
      admit(0, one(1000, 0), "20"),
      tick(1000019999),
      ("take", "23"),
      tick(1000020000),
      *written(50001, combined(1000, 20000, 15, GONE_ONE, GONE_TWO)),
      ("take", "23"))

group("""A wait of 540,000 opens at 50 frames a second, and one of 540,001 does not (26); of two policies
         the lesser bound counts.""",
      ("open abs 540000 silent 1000000001", "0"),
      ("open abs 540001 silent 1000000001", "26"),
      ("open rel 0 540000 silent 0", "0"),
      ("open rel 0 540001 silent 0", "26"),
      ("open soon abs 60000000 rel 0 540000 silent 0", "0"),
      ("open soon rel 0 540001 abs 18446744073709551615 silent 0", "26"),
      ("plan 77 120", "0"),
      add(config(101, 120, ONE), "0 0"),
      ("open abs 166666 silent 0", "0"),
      ("open abs 166667 silent 0", "26"),
      ("plan 77 1", "0"),
      add(config(101, 1, ONE), "0 0"),
      ("open abs 31900000 silent 0", "0"),
      ("open abs 31900001 silent 0", "26"),
      ("open abs 18446744073709551615 silent 0", "26"))

group("""A stamp of 1,000,000 under the relative wait of 20,000 and at most 150,000: arrivals at 990,000,
         1,010,000 and 1,140,000 close at 1,020,000, 1,030,000 and 1,150,000.""",
      *TWO_PORTS,
      ("open rel 20000 150000 silent 990000", "0"),
      admit(0, one(1, 0), "0"),
      tick(1019999),
      ("take", "23"),
      tick(1020000),
      ("take", "0 50"),
      ("open rel 20000 150000 silent 990000", "0"),
      tick(1010000),
      admit(0, one(1, 0), "0"),
      tick(1029999),
      ("take", "23"),
      tick(1030000),
      ("take", "0 50"),
      ("open rel 20000 150000 silent 990000", "0"),
      tick(1140000),
      admit(0, one(1, 0), "0"),
      tick(1149999),
      ("take", "23"),
      tick(1150000),
      ("take", "0 50"))
