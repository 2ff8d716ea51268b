#!/usr/bin/env python3
"""Has a collector answer made scripts, and `cccheck` judge its transcripts.

    bench/peers/judge.py [--scripts N] [--lines N] [--first SEED] [--words natives|both] [--refused PERCENT] PROGRAM [WORD ..]

The program reads a script on standard input and writes its transcript on standard output. The scripts are those of scripts.py.
It prints one line of sums, and each transcript that is not lawful with what cccheck says of it. The status is 0 if all are
lawful. CCCHECK names another checker than crates/cccheck/out/cccheck.
"""

import argparse
import os
import subprocess
import sys
import tempfile

from scripts import made

ROOT = os.path.dirname(os.path.dirname(os.path.dirname(os.path.abspath(__file__))))
CCCHECK = os.environ.get("CCCHECK", f"{ROOT}/crates/cccheck/out/cccheck")
MOST_SHOWN = 5


def must_be_there(*programs):
    for program in programs:
        if not os.access(program, os.X_OK):
            sys.exit(f"there is no program {program}: build it by rt run in its crate, or name one in CCCHECK or CCREPLAY")


def verdict(folder, script, transcript):
    """What cccheck says of a transcript."""
    with open(f"{folder}/script", "wb") as file:
        file.write(script)
    ran = subprocess.run([CCCHECK, f"{folder}/script", "-"], input=transcript, capture_output=True)
    if ran.returncode not in (0, 1):
        sys.exit(f"judge: cccheck ended with status {ran.returncode}: {ran.stderr.decode()}")
    return ran.stdout.decode().rstrip("\n")


def main():
    words = argparse.ArgumentParser(description="Has cccheck judge a collector over made scripts.")
    words.add_argument("--scripts", type=int, default=1000, help="how many scripts")
    words.add_argument("--lines", type=int, default=150, help="how many lines each has, its end aside")
    words.add_argument("--first", type=int, default=1, help="the seed of the first")
    words.add_argument("--words", choices=["natives", "both"], default="both")
    words.add_argument("--refused", type=int, default=5, help="so many of a hundred lines may be refused")
    words.add_argument("program", nargs=argparse.REMAINDER)
    given = words.parse_args()
    if not given.program:
        words.error("name a program")
    must_be_there(CCCHECK)
    sums = dict.fromkeys(["lines", "answered", "refused", "unlinked", "freed"], 0)
    unlawful = 0
    with tempfile.TemporaryDirectory(prefix="judge-") as folder:
        for seed in range(given.first, given.first + given.scripts):
            lines = made(seed, given.lines, given.words, given.refused)
            script = "".join(f"{line}\n" for line in lines).encode()
            try:
                ran = subprocess.run(given.program, input=script, capture_output=True, timeout=60)
            except subprocess.TimeoutExpired:
                sys.exit(f"judge: the program did not end within a minute on seed {seed}")
            if ran.returncode:
                sys.exit(f"judge: the program ended with status {ran.returncode} on seed {seed}: {ran.stderr.decode()}")
            said = verdict(folder, script, ran.stdout)
            if said != "lawful":
                unlawful += 1
                if unlawful <= MOST_SHOWN:
                    print(f"seed {seed}: {said}")
            told = ran.stdout.splitlines()
            sums["lines"] += len(lines)
            sums["answered"] += len(told)
            for name, start in (("refused", b"!"), ("unlinked", b"- unlink"), ("freed", b"- free")):
                sums[name] += sum(line.startswith(start) for line in told)
    print(
        f"{given.scripts} scripts of {sums['lines']} lines, {sums['answered']} lines of transcript: {sums['refused']} refusals, "
        f"{sums['unlinked']} unlinked, {sums['freed']} freed; {given.scripts - unlawful} lawful, {unlawful} not"
    )
    return 0 if unlawful == 0 else 1


if __name__ == "__main__":
    sys.exit(main())
