"""Counts."""
from hand.parts import (
    BODY_ONE, CONFIG_ONE, GONE_TWO, OTHER_ONE, TWO_PORTS, admit, capture, combined, damaged, data, group, one,
    pull, text, tick, two, words, written)

# ---- counts

group("""Counts: the frames accepted, the slots written, and each number that frames were refused by with how many
         they were. A call that is refused itself counts as nothing, and a new box counts anew.""",
      *TWO_PORTS,
      ("open abs 40000 silent 1000000000", "0"),
      ("counts", "0 0 0"),
      ("pull 1040", "30"),
      tick(1060000001, "14"),
      ("take", "23"),
      ("counts", "0 0 0"),
      admit(0, one(1000, 0), "0"),
      admit(0, one(1000, 0, OTHER_ONE), "21"),
      admit(0, one(1000, 0), "21"),
      ("counts", "0 1 0 21:2"),
      admit(2, b"", "15"),
      admit(0, b"", "1"),
      admit(0, bytes(16), "2"),
      admit(0, words("AA02") + bytes(14), "3"),
      admit(0, damaged(one(1000, 0)), "4"),
      admit(0, CONFIG_ONE, "5"),
      admit(0, two(1000, 0), "6"),
      admit(0, data(101, 1000, 0, BODY_ONE + b"\0"), "9"),
      admit(0, one(1000, 1000000), "7"),
      admit(0, one(1000, 10000), "8"),
      admit(0, one(1000, 120000), "10"),
      admit(0, one(999, 980000), "20"),
      ("counts", "0 1 0 1:1 2:1 3:1 4:1 5:1 6:1 7:1 8:1 9:1 10:1 15:1 20:1 21:2"),
      # 29 slots are closed, and the slot 32 past the first of them is open
      tick(1000600000),
      admit(1, two(1000, 640000), "22"),
      ("take", "0 50000"),
      ("write 50000 39", "17"),
      ("counts", "0 1 0 1:1 2:1 3:1 4:1 5:1 6:1 7:1 8:1 9:1 10:1 15:1 20:1 21:2 22:1"),
      *written(50000, combined(1000, 0, 0, BODY_ONE, GONE_TWO)),
      admit(1, two(1000, 640000), "0"),
      ("counts", "0 2 1 1:1 2:1 3:1 4:1 5:1 6:1 7:1 8:1 9:1 10:1 15:1 20:1 21:2 22:1"),
      ("open abs 540001 silent 1000000000", "26"),
      ("counts", "26"),
      (f"open abs 40000 capture {text(capture((1000000000, 1, two(1000, 0)), (1000000000, 1, two(1000, 0))))}"
       " 1000000000", "0"),
      ("counts", "0 0 0"),
      tick(1000000000),
      pull(1, two(1000, 0), 0),
      pull(1, two(1000, 0), 21),
      ("counts", "0 1 0 21:1"))
