#!/usr/bin/env python3
"""Counts the instructions of the program on scripts of bench.py, by callgrind, and prints one table in Markdown. Not part of
the gate. It needs valgrind.

Build the program first (it stays as crates/ccreplay/out/ccreplay), and then name the sizes, or none for 4000 32000:

    (cd crates/ccreplay && rt run -- replay < /dev/null)
    bench/count.py [SIZE ..]

CCREPLAY names another program. FUNCTIONS=1 also prints what each function took, where it is one instruction an object or
more. ALL=1 counts every shape of bench.py, and not these six. LIVE are the numbers of natives beside which a slice is
counted (1000,10000,100000 if left out; none where empty).

A row has the instructions of a script's second part, for each object: those of the whole script less those of its first
part. Left out is what the C library takes to join freed blocks (malloc_consolidate, unlink_chunk), some 70 an object at the end
of a run: by the number of objects it falls into both runs, or into one of them. A slice is one of 900 in a row, each of one
unit, in a collection of so many natives that live.
"""

import os
import re
import subprocess
import sys
import tempfile

from bench import (
    PROGRAM, SHAPES as EVERY_SHAPE, chain, live_chain, mapping_chain, mapping_chain_backwards, ring, script_chain_walked,
    suspects_forgotten,
)

SHAPES = [
    ("a chain of natives that lives, collected", live_chain),
    ("the same, its suspects forgotten before", suspects_forgotten),
    ("a chain of script objects, walked to forget", script_chain_walked),
    ("a ring, collected", ring),
    ("a chain of entries, scanned", mapping_chain),
    ("the same, set against its order", mapping_chain_backwards),
]
SLICES = 900
FUNCTIONS = bool(os.environ.get("FUNCTIONS"))
ALL = bool(os.environ.get("ALL"))
LIVE = [int(it) for it in os.environ.get("LIVE", "1000,10000,100000").split(",") if it]
JOINING = ("malloc_consolidate", "unlink_chunk")


def count(folder, lines):
    """The instructions of one run but for the joining of freed blocks, and those of each function."""
    script, profile = f"{folder}/script", f"{folder}/profile"
    with open(script, "w") as it:
        it.write("".join(f"{line}\n" for line in lines))
    with open(script, "rb") as it:
        run = subprocess.run(
            ["valgrind", "--tool=callgrind", f"--callgrind-out-file={profile}", PROGRAM, "replay"],
            stdin=it, stdout=subprocess.DEVNULL, stderr=subprocess.PIPE, text=True,
        )
    found = re.search(r"Collected : (\d+)", run.stderr)
    if run.returncode or not found:
        sys.exit(f"count: the run ended with status {run.returncode}")
    rows = subprocess.run(
        ["callgrind_annotate", "--threshold=100", "--show-percs=no", profile], capture_output=True, text=True
    ).stdout
    functions, joining = {}, 0
    for number, name in re.findall(r"^ *([\d,]+) +(\S.*)$", rows, re.MULTILINE):
        if any(it in name for it in JOINING):
            joining += int(number.replace(",", ""))
        else:
            functions[name] = functions.get(name, 0) + int(number.replace(",", ""))
    return int(found.group(1)) - joining, functions


def difference(folder, name, size, first, more, by):
    """Prints the row of what comes after the first part, divided."""
    whole, of_whole = count(folder, first + more)
    part, of_part = count(folder, first)
    print(f"| {name} | {size} | {(whole - part) / by:.0f} |", flush=True)
    rows = sorted(((of_whole.get(it, 0) - of_part.get(it, 0)) / by, it) for it in of_whole.keys() | of_part.keys())
    for took, function in reversed(rows):
        if FUNCTIONS and abs(took) >= 1:
            print(f"    {took:8.1f}  {function[:120]}", flush=True)


def main():
    sizes = sorted({int(it) for it in sys.argv[1:]}) or [4000, 32000]
    if any(it < 4 or it % 2 for it in sizes):
        sys.exit("count: sizes are even, and at least 4")
    if not os.access(PROGRAM, os.X_OK):
        sys.exit(f"count: there is no program {PROGRAM}: build it, or name one in CCREPLAY")
    print("| script | objects | instructions for each |")
    print("|---|---:|---:|")
    with tempfile.TemporaryDirectory(prefix="ccreplay-count-") as folder:
        for name, made in EVERY_SHAPE if ALL else SHAPES:
            for size in sizes:
                shape = made(size)
                difference(folder, name, size, shape.build, shape.end, shape.times * size)
        for live in LIVE:
            # the first slice begins the collection; its end is not reached
            units = min(SLICES, live - 2)
            difference(folder, "`slice 1`", live, chain(live)[0] + ["slice 1"], ["slice 1"] * units, units)


if __name__ == "__main__":
    main()
