#!/usr/bin/env python3
"""Times the program on scripts that this file makes, and prints one table in Markdown; or counts its instructions. Not
part of the gate.

Build the program first (it stays as crates/ccreplay/out/ccreplay), and then name the sizes, or none for 1000 2000 4000:

    (cd crates/ccreplay && rt run -- replay < /dev/null)
    bench/bench.py [SIZE ..]

CCREPLAY names another program. RUNS is how often each script is run (7 if left out); the quickest run counts. ONLY and
EXCEPT are parts of names, with commas between: only shapes with one of the first are timed, and none with one of the
second.

A shape is a script in two parts: the first builds N objects, and the second, its last lines, has them collected, swept,
traversed, where they are live, or found on the way to an object. The whole script is timed, and the first part alone.
Columns:

    seconds       the whole script, from the program's start to its end, with the output written to a file
    commands/s    the script's lines by those seconds
    ns/object     the second part alone (the difference of the two times), by the N objects, and by how often it does
                  its work: a chain of entries is marked 64 times and scanned 8 times, a path is found 8 times, and most
                  other work is done once
    growth        the time of each size by that of the least size, of the whole script and of the second part

Each run's output is checked before it counts: status 0, one reply a line, none of them a refusal, and as many `- free`
and `- unlink` lines as the shape must have.

    bench/bench.py --count [SIZE ..]

counts in place of timing, by callgrind (valgrind): the instructions of the four commands that make a native that holds
itself, drop it and collect it, beside SIZE natives that live (1000 10000 100000 if left out). Each count is the difference
of two scripts, with these commands and without. The machine's noise is not in it. The largest size takes some seconds a
script. The first such cycle comes behind the collection that looked at all SIZE natives, and its collection gives back the
room that this one took. The second comes behind the first.

    bench/bench.py --check MADE [SIZE ..]

counts what `check` takes beside `replay`, by callgrind: for the script that the file MADE has (`ccmade` writes the one of seed 7
with 100000 lines; `-` for none) and its transcript; and the second part of two shapes, for each object, at each size (4000
64000 if left out).
"""

import os
import re
import subprocess
import sys
import tempfile
import time

ROOT = os.path.dirname(os.path.dirname(os.path.abspath(__file__)))
PROGRAM = os.environ.get("CCREPLAY", f"{ROOT}/crates/ccreplay/out/ccreplay")
RUNS = int(os.environ.get("RUNS", "7"))
ONLY = [it for it in os.environ.get("ONLY", "").split(",") if it]
EXCEPT = [it for it in os.environ.get("EXCEPT", "").split(",") if it]


class Shape:
    """A script's two parts, and how many natives it frees and unlinks in all. The second part does its work `times`
    times, where one time is too short to be told from the noise of the whole."""

    def __init__(self, build, end, frees, unlinks, times=1):
        self.build, self.end, self.frees, self.unlinks, self.times = build, end * times, frees, unlinks, times


def chain(size, first="n0"):
    """A chain: each native holds the one before it. `first` keeps the first; n1 and n2 hold the last two by turns."""
    lines = [f"native {first} 1", f"copy n1 {first}"]
    for k in range(1, size):
        to, before = ("n2", "n1") if k % 2 else ("n1", "n2")
        lines += [f"native {to} 1", f"set {to} 0 {before}"]
    return lines, "n2" if size % 2 == 0 else "n1"


def dropped_chain(size):
    """The last reference to the chain's last native is dropped: all are freed, one after the other, without a collection."""
    build, last = chain(size)
    others = [f"drop {it}" for it in ("n0", "n1", "n2") if it != last]
    return Shape(build + others, [f"drop {last}"], size, 0)


def made_beside_a_chain(size):
    """Beside a chain that lives: a native is made, touched, suspected and, with its last reference, forgotten; as often
    as the chain has natives."""
    build, _ = chain(size)
    turn = ["native n254 0", "copy n253 n254", "drop n253", "drop n254"]
    return Shape(build, turn * size, size, 0)


def ring(size):
    """One ring, which no register holds: one collection frees it."""
    build, last = chain(size)
    build += [f"set n0 0 {last}", "drop n0", "drop n1", "drop n2"]
    return Shape(build, ["collect"], size, size)


def pairs(size):
    """Cycles of two natives each, which no register holds: one collection frees them all."""
    lines = []
    for _ in range(size // 2):
        lines += ["native n0 1", "native n1 1", "set n0 0 n1", "set n1 0 n0"]
    return Shape(lines + ["drop n0", "drop n1"], ["collect"], size, size)


def chain_from_pair(size):
    """A cycle of two natives and a chain that hangs from it, which no register holds: one collection frees them all."""
    build, last = chain(size - 2, "n3")
    build += ["native n4 1", "native n5 2", "set n4 0 n5", "set n5 0 n4", f"set n5 1 {last}"]
    build += [f"drop n{it}" for it in range(1, 6)]
    return Shape(build, ["collect"], size, size)


def live_chain(size):
    """A chain whose last native a register holds: the collection traverses all suspects and frees nothing."""
    build, _ = chain(size)
    return Shape(build, ["collect"], 0, 0)


def suspects_forgotten(size):
    """The live chain, whose natives are suspects: they are forgotten, each with its mark taken, and the collection behind that has
    no candidate."""
    build, _ = chain(size)
    return Shape(["version 2"] + build, ["forget", "collect"], 0, 0)


def script_chain_walked(size):
    """A chain of script objects whose last a register holds: suspects are forgotten, of which there is none, so the time is that of
    the walk over script objects."""
    return Shape(script_chain(size), ["forget"], 0, 0, times=8)


def script_chain(size):
    """A chain of script objects, whose last a register holds: all live."""
    lines = ["script s1 1"]
    for _ in range(1, size):
        lines += ["script s2 1", "put s2 0 s1", "copy s1 s2"]
    return ["version 2"] + lines + ["drop s2"]


def script_chain_traced(size):
    """It is marked in one piece."""
    return Shape(script_chain(size), ["gc"], 0, 0, times=8)


def script_chain_marked(size, units):
    """It is marked in slices of so many units: the begin is one, each object, and the end."""
    return Shape(script_chain(size), [f"mark {units}"] * -(-(size + 2) // units), 0, 0, times=8)


def script_chain_by_hundreds(size):
    """It is marked in slices of 100 units."""
    return script_chain_marked(size, 100)


def script_chain_singly(size):
    """It is marked a unit at a time."""
    return script_chain_marked(size, 1)


def script_ring(size):
    """One ring of script objects, which nothing holds: one script collection sweeps it."""
    lines = ["script s0 1", "copy s1 s0"]
    for _ in range(1, size):
        lines += ["script s2 1", "put s2 0 s1", "copy s1 s2"]
    return Shape(lines + ["put s0 0 s1", "drop s0", "drop s1", "drop s2"], ["gc"], size, 0)


def reflector_ring(size):
    """A ring through both heaps: each native holds the reflector of the next, and no register holds any of them. The
    objects are the natives and their reflectors. A script collection makes the reflectors gray, one collection unlinks
    the natives, and a script collection frees all."""
    natives = size // 2
    lines = ["native n0 1", "copy n1 n0"]
    for _ in range(1, natives):
        lines += ["native n2 1", "wrap s1 n2", "set n1 0 s1", "copy n1 n2"]
    lines += ["wrap s1 n0", "set n1 0 s1", "drop s1", "drop n0", "drop n1", "drop n2"]
    return Shape(lines, ["gc", "collect", "gc"], 2 * natives, natives)


def entries(size):
    """A chain of entries in one map: each value is the next key, and the entries are set in this order. s0 holds the
    map and s1 the first key."""
    lines = ["weakmap s0", "script s1 0", "copy s3 s1"]
    for _ in range(1, size):
        lines += ["script s2 0", "wset s0 s3 s2", "copy s3 s2"]
    return lines + ["drop s2", "drop s3"]


def entries_backwards(size):
    """The same, set against the order: the last key's entry first."""
    lines = ["weakmap s0", "script s1 0"]
    for _ in range(1, size):
        lines += ["script s2 0", "wset s0 s2 s1", "copy s1 s2"]
    return lines + ["drop s2"]


def entry_chain(size):
    """A chain of entries. Registers hold the map and the first key, so all live. Script collections mark them in the order
    in which they were set."""
    return Shape(entries(size), ["gc"], 0, 0, times=64)


def entry_chain_backwards(size):
    """The same, set against the order."""
    return Shape(entries_backwards(size), ["gc"], 0, 0, times=64)


def scanned(build):
    """A native, which n0 holds, holds the map and the first key of these entries, so a script collection made them gray:
    each entry is a mapping of a collection, whose scan goes from the native along the chain. All live. Collections follow
    each other, and the native is a suspect of each. The time is that of a whole collection: begin, a unit for each object,
    and the scan."""
    hold = ["native n0 2", "set n0 0 s0", "set n0 1 s1", "drop s0", "drop s1", "gc"]
    return Shape(build + hold, ["copy n1 n0", "drop n1", "collect"], 0, 0, times=8)


def mapping_chain(size):
    """A chain of entries, scanned by a collection in the order in which they were set."""
    return scanned(entries(size))


def mapping_chain_backwards(size):
    """The same, set against the order."""
    return scanned(entries_backwards(size))


def proxies(size):
    """A chain of proxies: each stands for the one before it, the first for a plain object. s1 holds the last."""
    lines = ["script s1 0"]
    for _ in range(1, size):
        lines += ["proxy s2 s1", "copy s1 s2"]
    return lines + ["drop s2"]


def held_by_native(lines):
    """What s1 holds is held by a native, which n0 holds, and by no script register, so a script collection makes it gray."""
    return lines + ["native n0 1", "set n0 0 s1", "drop s1", "gc"]


def proxy_chain(size):
    """A chain of proxies whose last a register holds, so all live: script collections mark it."""
    return Shape(proxies(size), ["gc"], 0, 0, times=64)


def proxy_chain_exposed(size):
    """A gray chain of proxies, exposed by its last, and made gray again."""
    return Shape(held_by_native(proxies(size)), ["expose n0 0", "gc"], 0, 0, times=32)


def proxy_chain_scanned(size):
    """A gray chain of proxies, traversed and scanned by collections that follow each other."""
    return Shape(held_by_native(proxies(size)), ["copy n1 n0", "drop n1", "collect"], 0, 0, times=8)


def proxy_keys(size):
    """One map whose keys are proxies of one object that lives. No register holds the proxies or their values: they live by
    the map and the delegate alone. Script collections mark them."""
    lines = ["weakmap s0", "script s1 0"]
    for _ in range(size // 2):
        lines += ["proxy s2 s1", "script s3 0", "wset s0 s2 s3"]
    return Shape(lines + ["drop s2", "drop s3"], ["gc"], 0, 0, times=64)


def live_chain_in_slices(size):
    """The live chain, a unit at a time with a command between: a begin, a unit for each suspect, and the end. What is
    divided by the objects is the time of one unit and that command."""
    build, _ = chain(size)
    return Shape(build, ["slice 1", "copy n254 n255"] * (size + 2), 0, 0)


def path_along_chain(size):
    """The path to the far end of a chain, whose last native a register holds: all its natives are found and told."""
    build, last = chain(size)
    others = [f"drop {it}" for it in ("n0", "n1", "n2") if it != last]
    return Shape(["version 2"] + build + others, ["why #1"], 0, 0, times=8)


def path_along_entries(size):
    """The path to the value of the last entry of a chain of entries. The map and the first key are in registers."""
    return Shape(["version 2"] + entries(size), [f"why @{size + 1}"], 0, 0, times=8)


def path_along_entries_backwards(size):
    """The same, with the entries set against the order."""
    return Shape(["version 2"] + entries_backwards(size), ["why @2"], 0, 0, times=8)


def path_to_nothing(size):
    """A name that was never made is asked for: all the natives of a living chain are found, and none is told."""
    build, _ = chain(size)
    return Shape(["version 2"] + build, [f"why #{size + 1}"], 0, 0, times=8)


def path_beside_a_chain(size):
    """A native in the first register is asked for beside a living chain, as often as this has natives: no other is found
    before. What is divided by the objects is the time of one answer."""
    build, _ = chain(size)
    return Shape(["version 2"] + build, ["why #1"] * size, 0, 0)


SHAPES = [
    ("chain, dropped", dropped_chain),
    ("made and let go, beside a live chain", made_beside_a_chain),
    ("one ring, collected", ring),
    ("cycles of two, collected", pairs),
    ("chain from a cycle, collected", chain_from_pair),
    ("live chain, traversed", live_chain),
    ("live chain, a unit at a time", live_chain_in_slices),
    ("live chain, its suspects forgotten", suspects_forgotten),
    ("chain of script objects, walked to forget", script_chain_walked),
    ("chain of script objects, marked by `gc`", script_chain_traced),
    ("chain of script objects, marked 100 units at a time", script_chain_by_hundreds),
    ("chain of script objects, marked a unit at a time", script_chain_singly),
    ("ring of script objects, swept", script_ring),
    ("ring through reflectors, collected and swept", reflector_ring),
    ("chain of entries, marked", entry_chain),
    ("chain of entries, marked against its order", entry_chain_backwards),
    ("chain of entries, scanned", mapping_chain),
    ("chain of entries, scanned against its order", mapping_chain_backwards),
    ("chain of proxies, marked", proxy_chain),
    ("chain of proxies, exposed", proxy_chain_exposed),
    ("chain of proxies, scanned", proxy_chain_scanned),
    ("keys that are proxies, marked", proxy_keys),
    ("path along a chain", path_along_chain),
    ("path along a chain of entries", path_along_entries),
    ("path along a chain of entries, against its order", path_along_entries_backwards),
    ("path to nothing, beside a live chain", path_to_nothing),
    ("path of one step, beside a live chain", path_beside_a_chain),
]


def check(said, status, lines, frees, unlinks):
    """Ends with a complaint unless the output is that of a whole run of the shape."""
    rows = said.split(b"\n")
    if rows.pop() != b"" or status:
        sys.exit(f"bench: the run ended with status {status}")
    heads = [it[:1] for it in rows]
    counts = {
        "replies": (heads.count(b"=") + heads.count(b"!"), lines),
        "refusals": (heads.count(b"!"), 0),
        "freed": (sum(it.startswith(b"- free ") for it in rows), frees),
        "unlinked": (sum(it.startswith(b"- unlink ") for it in rows), unlinks),
    }
    for what, (found, wanted) in counts.items():
        if found != wanted:
            sys.exit(f"bench: {what}: {found}, and not {wanted}")


class Script:
    """A script in a file, how many lines it has, what its output must have, and its quickest run so far."""

    def __init__(self, path, lines, frees, unlinks):
        self.path, self.lines, self.frees, self.unlinks, self.quickest = path, len(lines), frees, unlinks, float("inf")
        with open(path, "w") as it:
            it.write("".join(f"{line}\n" for line in lines))

    def run(self, said):
        """Runs it once, and checks its output."""
        with open(self.path, "rb") as script, open(said, "wb") as out:
            start = time.perf_counter()
            status = subprocess.call([PROGRAM, "replay"], stdin=script, stdout=out)
            took = time.perf_counter() - start
        with open(said, "rb") as it:
            check(it.read(), status, self.lines, self.frees, self.unlinks)
        self.quickest = min(self.quickest, took)


# a native that holds itself is made, let go, and collected
SELF_CYCLE = ["native n255 1", "set n255 0 n255", "drop n255", "collect"]

# what is in the heaps besides: how many of the natives hold a script object each, which a script collection made gray
BESIDE = [
    ("nothing else", 0),
    ("one gray script object", 1),
    ("1,000 holders", 1000),
]


def living_chain(size, holders):
    """A chain that lives, of which so many natives hold a script object. All script objects are gray, and nothing is
    suspected any more."""
    lines = []
    for k in range(size):
        to, before = ("n2", "n1") if k % 2 else ("n1", "n2")
        lines += [f"native {to} 2"]
        if k > 0:
            lines += [f"set {to} 0 {before}"]
        if k < holders:
            lines += ["script s0 0", f"set {to} 1 s0"]
    if holders > 0:
        lines += ["drop s0", "gc"]
    return lines + ["collect"]


def instructions(path, words=("replay",)):
    """How many instructions the program takes for an input, with its start."""
    with open(path, "rb") as script:
        tool = ["valgrind", "--tool=callgrind", "--callgrind-out-file=/dev/null"]
        ran = subprocess.run(tool + [PROGRAM, *words], stdin=script, stdout=subprocess.DEVNULL, stderr=subprocess.PIPE)
    found = re.search(rb"Collected : (\d+)", ran.stderr)
    if ran.returncode or not found:
        sys.exit(f"bench: callgrind ended with status {ran.returncode}")
    return int(found.group(1))


def count(sizes):
    """Prints what the self-cycle's commands take beside living natives, the first time and the second."""
    print("| a native that holds itself, beside | " + " | ".join(f"{size:,} that live" for size in sizes) + " |")
    print("|---|" + "---:|" * len(sizes))
    with tempfile.TemporaryDirectory(prefix="ccreplay-bench-") as folder:
        for name, holders in BESIDE:
            taken = []
            for size in sizes:
                build = living_chain(size, min(holders, size))
                scripts = [Script(f"{folder}/{k}", build + k * SELF_CYCLE, k, k) for k in range(3)]
                for script in scripts:
                    script.run(f"{folder}/said")
                none, one, two = (instructions(script.path) for script in scripts)
                taken.append((one - none, two - one))
            for k, which in enumerate(("the first", "the second")):
                print(f"| {name}, {which} | " + " | ".join(f"{it[k]:,}" for it in taken) + " |", flush=True)


# shapes that are judged: many natives are freed by one drop, and unlinked and freed by one collection
JUDGED = [
    ("chain, dropped", dropped_chain),
    ("one ring, collected", ring),
]


def judged(folder, path):
    """The instructions of `check` for a script and what `replay` answers to it."""
    with open(path, "rb") as it:
        script = it.read()
    ran = subprocess.run([PROGRAM, "replay"], input=script, capture_output=True)
    both = f"{folder}/both"
    with open(both, "wb") as it:
        it.write(script + ran.stdout)
    words = ["check", str(len(script))]
    with open(both, "rb") as it:
        if subprocess.run([PROGRAM, *words], stdin=it, capture_output=True).stdout != b"lawful\n":
            sys.exit("bench: a transcript of ours is not lawful")
    return instructions(both, words)


def count_checks(made, sizes):
    """Prints what `check` takes beside `replay`."""
    with tempfile.TemporaryDirectory(prefix="ccreplay-bench-") as folder:
        if made != "-":
            one, other = instructions(made), judged(folder, made)
            print(f"The made script: replay {one:,}, check {other:,}, {other / one:.2f} times as many.\n")
        print("| judged, instructions an object | " + " | ".join(f"{size:,}" for size in sizes) + " |")
        print("|---|" + "---:|" * len(sizes))
        for name, shape in JUDGED:
            row = []
            for size in sizes:
                it = shape(size)
                whole = Script(f"{folder}/whole", it.build + it.end, it.frees, it.unlinks)
                build = Script(f"{folder}/build", it.build, 0, 0)
                row.append((judged(folder, whole.path) - judged(folder, build.path)) / it.times / size)
            print(f"| {name} | " + " | ".join(f"{it:,.0f}" for it in row) + " |", flush=True)


def main():
    if sys.argv[1:2] == ["--check"] and len(sys.argv) > 2:
        return count_checks(sys.argv[2], sorted({int(it) for it in sys.argv[3:]}) or [4000, 64000])
    counts = sys.argv[1:2] == ["--count"]
    default = [1000, 10000, 100000] if counts else [1000, 2000, 4000]
    sizes = sorted({int(it) for it in sys.argv[1 + counts :]}) or default
    if any(it < 4 or it % 2 for it in sizes):
        sys.exit("bench: sizes are even, and at least 4")
    if not os.access(PROGRAM, os.X_OK):
        sys.exit(f"bench: there is no program {PROGRAM}: build it, or name one in CCREPLAY")
    if counts:
        return count(sizes)
    shapes = [it for it in SHAPES if not (ONLY and not any(part in it[0] for part in ONLY) or any(part in it[0] for part in EXCEPT))]
    with tempfile.TemporaryDirectory(prefix="ccreplay-bench-") as folder:
        rows = []
        for name, made in shapes:
            for size in sizes:
                shape = made(size)
                whole = Script(f"{folder}/{len(rows)}.whole", shape.build + shape.end, shape.frees, shape.unlinks)
                build = Script(f"{folder}/{len(rows)}.build", shape.build, 0, 0)
                rows.append((name, size, shape.times, whole, build))
        # one run of each script after the other, and so again: a minute in which the machine is busy spoils no row
        for _ in range(RUNS):
            for _, _, _, whole, build in rows:
                whole.run(f"{folder}/said")
                build.run(f"{folder}/said")
    print("| shape | objects | commands | seconds | commands/s | ns/object | growth, whole | growth, second part |")
    print("|---|---:|---:|---:|---:|---:|---:|---:|")
    least = {}
    for name, size, times, script, build in rows:
        whole, end = script.quickest, max(script.quickest - build.quickest, 0.0)
        first = least.setdefault(name, (whole, end))
        grown = f"{end / first[1]:.1f}" if first[1] else "?"
        print(
            f"| {name} | {size} | {script.lines} | {whole:.4f} | {script.lines / whole:.0f} "
            f"| {end / times / size * 1e9:.0f} | {whole / first[0]:.1f} | {grown} |"
        )


if __name__ == "__main__":
    main()
