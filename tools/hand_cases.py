#!/usr/bin/env python3
"""Writes a list of calls for the console, and the answers that it is to print, worked out by hand.

usage: tools/hand_cases.py CALLS ANSWERS

It shares no code with the library. Frames are put together here, with the check word of tools/frames.py, which is
computed bit by bit. Every answer is written down as a literal; only the bytes of frames that are published, written
or pulled are put together from the rules: header, bodies or absent blocks, check word.

Number 13 is no call's answer (an unsound capture is a feed that stays empty), and 28, after 10^15
frames, is out of reach.

The cases are the modules of hand/, each of which adds its own to the list when it is imported.
"""
import sys
from importlib import import_module

from frames import check_word
from hand.parts import ANSWERS, CALLS

SUBJECTS = ("plans", "worked", "closing", "refusals", "backlog", "feeds", "counts", "piles", "ring")


def main():
    if len(sys.argv) != 3:
        sys.exit("usage: tools/hand_cases.py CALLS ANSWERS")
    for subject in SUBJECTS:
        import_module(f"hand.{subject}")
    for path, lines in zip(sys.argv[1:], (CALLS, ANSWERS)):
        with open(path, "w", encoding="ascii", newline="\n") as file:
            file.write("".join(line + "\n" for line in lines))


assert check_word(b"123456789") == 0x29B1
main()
