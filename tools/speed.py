#!/usr/bin/env python3
"""Runs the program bench and the same job in plain Rust on the same loads, and prints what their calls cost.

usage: tools/speed.py BENCH PLAIN LOADS

BENCH and PLAIN are the two programs, and LOADS is a folder that tools/loads.py filled. First it compares what
the two print and write for every load. Instructions are counted by callgrind, and are the same in every run;
times are the least of several runs.
"""
import re
import subprocess
import sys
from pathlib import Path

CALLS = ["tick", "admit", "pull", "take", "write"]
RUNS = 15  # that the least time is taken of

# The tables: what is shown of which loads, and whether it is timed.
TABLES = [
    ("Every line sends every slot", True, ["admit", "pull", "write"],
     [f"{way}-{shape}-{rate}" for way in ("admit", "pull") for shape in ("small", "full") for rate in (50, 120)]),
    ("Lines that send nothing", True, ["write"],
     [f"{name}-{shape}-120" for name in ("half", "empty") for shape in ("small", "full")]),
    ("By ports", False, ["admit", "pull", "write"],
     [f"ports-{n}{way}" for n in (1, 4, 16) for way in ("", "-pull")]),
    ("By bytes of body", False, ["admit", "write"], [f"body-{shape}" for shape in ("small", "middle", "full", "long")]),
    ("By slots that are closed and not written", False, ["admit", "take", "write"], [f"behind-{n}" for n in (0, 8, 31)]),
    ("By microseconds of a step of the clock", False, ["tick"], [f"leap-{step}" for step in (20_000, 1_000_000, 60_000_000)]),
]


def output(program, load, *args):
    return subprocess.run([program, *args], stdin=load.open("rb"), capture_output=True, check=True).stdout


def compare(programs, loads):
    """Both print the same sum, and write the same bytes."""
    for load in loads:
        for args in ([], ["--bytes"]):
            ours, plain = (output(program, load, *args) for program in programs)
            if ours != plain:
                sys.exit(f"{load.name} {args}: the outputs differ")
    print(f"{len(loads)} loads: same sums, same bytes\n")


def instructions(program, load):
    """By call, how many instructions one takes, with all that it calls."""
    out = Path(load.parent, "callgrind.out")
    words = ["valgrind", "--tool=callgrind", f"--callgrind-out-file={out}", program]
    subprocess.run(words, stdin=load.open("rb"), capture_output=True, check=True)
    names, made, spent = {}, {}, {}
    called = None
    for line in out.read_text().splitlines():
        if match := re.match(r"c?fn=\((\d+)\)(?: (.*))?", line):
            names.setdefault(match[1], match[2])
            if line.startswith("cfn="):
                called = re.search(r"calls::(\w+)$", names[match[1]] or "")
        elif match := re.match(r"calls=(\d+)", line):
            count = int(match[1])
        elif called and re.match(r"[\d+*-]", line):
            made[called[1]] = made.get(called[1], 0) + count
            spent[called[1]] = spent.get(called[1], 0) + int(line.split()[-1])
            called = None
    out.unlink()
    return {call: spent[call] / made[call] for call in CALLS if call in made}


def times(program, load):
    """By call, how many nanoseconds one takes at the least. A write's time is with its take."""
    least = {}
    for _ in range(RUNS):
        for line in output(program, load, "--times").decode().splitlines():
            call, count, spent = line.split()
            if int(count):
                least[call] = min(least.get(call, float("inf")), int(spent) / int(count))
    return least


def show(title, timed, calls, loads, programs):
    head = "| Load | Call | instructions, ours | plain | ratio |" + (" ns, ours | plain | ratio | millions a second, ours |" if timed else "")
    print(f"{title}\n\n{head}\n|{'---|' * (head.count('|') - 1)}")
    for load in loads:
        counts = [instructions(program, load) for program in programs]
        spent = [times(program, load) for program in programs] if timed else None
        for call in calls:
            if call in counts[0]:
                ours, plain = (count[call] for count in counts)
                row = f"| {load.name} | {call} | {ours:,.0f} | {plain:,.0f} | {plain / ours:.2f} |"
                if timed:
                    ours, plain = (each[call] for each in spent)
                    row += f" {ours:,.0f} | {plain:,.0f} | {plain / ours:.2f} | {1e3 / ours:.2f} |"
                print(row)
    print(flush=True)


def main(bench, plain, folder):
    programs = [bench, plain]
    compare(programs, sorted(path for path in Path(folder).iterdir() if path.is_file()))
    for title, timed, calls, names in TABLES:
        show(title, timed, calls, [Path(folder, name) for name in names], programs)


main(*sys.argv[1:])
