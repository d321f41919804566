"""Slots that nobody writes, and tickets."""
from hand.parts import (
    BODY_ONE, BODY_TWO, GONE_ONE, GONE_TWO, OTHER_ONE, TWO_PORTS, add, admit, combined, config, data, group, one,
    station, text, tick, two, words, written)

# ---- a backlog

FAST = station(1001, 15, phasors=1, analogs=1, digitals=1)
FAST_BODY = words("0000 3F800000 40000000 42480000 00000000 41200000 5555")
FAST_GONE = words("8000 7FC00000 7FC00000 7FC00000 7FC00000 7FC00000 0000")


def later(soc, count):
    return data(101, soc, count, FAST_BODY)


def backlog(first, last, held=()):
    """Slots at 20 frames a second that are written in order, with the body or absent."""
    rows = []
    for number in range(first, last + 1):
        soc, place = divmod(number, 20)
        quality, body = (0, FAST_BODY) if number in held else (15, FAST_GONE)
        rows += written(number, combined(soc, 50000 * place, quality, body))
    return rows


group("""A backlog at 20 frames a second: a tick of 2 seconds closes 41 slots. A frame of the open slot 41
         past the oldest unwritten one is refused (22) until that is less than 32, after ten writes; one
         of a closed slot is 20. The slots are written in order, each with its own frame or absent.""",
      ("plan 77 20", "0"),
      add(config(101, 20, FAST), "0 0"),
      ("open abs 1 silent 1000000000", "0"),
      admit(0, later(1000, 50000), "0"),
      admit(0, later(1000, 100000), "0"),
      admit(0, later(1000, 150000), "10"),
      ("take", "23"),
      tick(1002000001),
      admit(0, later(1002, 0), "20"),
      admit(0, later(1000, 0), "20"),
      admit(0, later(1001, 600000), "20"),
      admit(0, later(1002, 50000), "22"),
      admit(0, later(1002, 100000), "22"),
      admit(0, later(1002, 150000), "10"),
      *backlog(20000, 20008, held=(20001, 20002)),
      admit(0, later(1002, 50000), "22"),
      # the ticket alone moves nothing
      ("take", "0 20009"),
      admit(0, later(1002, 50000), "22"),
      ("write 20009 39", "17"),
      admit(0, later(1002, 50000), "22"),
      *backlog(20009, 20009),
      admit(0, later(1002, 50000), "0"),
      admit(0, later(1002, 50000), "20"),
      admit(0, later(1002, 100000), "22"),
      *backlog(20010, 20041, held=(20041,)),
      ("take", "23"))

group("""The longest wait at 50 frames a second: a frame that is not too early (10) lies less than 32 past the
         oldest slot, if that is written as soon as it is closed, and else may be refused (22).""",
      *TWO_PORTS,
      ("open abs 540000 silent 1000000000", "0"),
      tick(1000539999),
      ("take", "23"),
      admit(0, one(1000, 0), "0"),
      admit(0, one(1000, 620000), "0"),
      admit(0, one(1000, 640000), "10"),
      tick(1000540000),
      admit(0, one(1000, 640000), "22"),
      *written(50000, combined(1000, 0, 0, BODY_ONE, GONE_TWO)),
      admit(0, one(1000, 640000, OTHER_ONE), "0"),
      admit(1, two(1000, 640000), "0"),
      tick(1001180000),
      *[row for place in range(1, 31)
        for row in written(50000 + place, combined(1000, 20000 * place, 15, GONE_ONE, GONE_TWO))],
      *written(50031, combined(1000, 620000, 0, BODY_ONE, GONE_TWO)),
      *written(50032, combined(1000, 640000, 0, OTHER_ONE, BODY_TWO)),
      ("take", "23"))

# ---- tickets

group("""A ticket is out until it is spent (24). One of another number is refused (29), and the right one is
         still out. A short buffer (17) puts the slot back and spends the ticket, so that it is taken again.""",
      *TWO_PORTS,
      ("open abs 0 silent 1000000000", "0"),
      ("write 50000 66000", "29"),
      ("take", "0 50000"),
      ("take", "24"),
      ("write 50001 66000", "29"),
      ("write 49999 0", "29"),
      ("write 0 66000", "29"),
      ("write 18446744073709551615 66000", "29"),
      ("take", "24"),
      ("write 50000 39", "17"),
      ("write 50000 66000", "29"),
      ("take", "0 50000"),
      ("write 50000 0", "17"),
      ("take", "0 50000"),
      ("write 50000 40", f"0 40 {text(combined(1000, 0, 15, GONE_ONE, GONE_TWO))}"),
      ("write 50000 40", "29"),
      ("take", "23"),
      ("write 50001 40", "29"),
      # while a ticket is out, frames are taken and slots close
      tick(1000020000),
      ("take", "0 50001"),
      admit(0, one(1000, 40000), "0"),
      tick(1000040000),
      ("take", "24"),
      ("write 50002 66000", "29"),
      ("write 50001 66000", f"0 40 {text(combined(1000, 20000, 15, GONE_ONE, GONE_TWO))}"),
      *written(50002, combined(1000, 40000, 0, BODY_ONE, GONE_TWO)),
      ("take", "23"))

group("A ticket that another box handed out writes here too, if a ticket of that number is out.",
      *TWO_PORTS,
      ("open abs 0 silent 1000000000", "0"),
      ("take", "0 50000"),
      ("open abs 0 silent 1000000000", "0"),
      ("write 50000 66000", "29"),
      ("take", "0 50000"),
      ("write 50000 66000", f"0 40 {text(combined(1000, 0, 15, GONE_ONE, GONE_TWO))}"))
