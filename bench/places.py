#!/usr/bin/env python3
"""Counts what `cccheck` takes beside `ccreplay check`, by callgrind (valgrind), and prints one table in Markdown. Not part of the
gate.

Build both programs first (rt run in crates/ccreplay and in crates/cccheck), and then name the numbers of lines, or none for 4000
16000 64000 128000:

    bench/places.py [LINES ..]

CCREPLAY and CCCHECK name other programs. A row is a script of bench/peers/scripts.py of so many lines with its transcript. The
figures are instructions for each line of script and transcript together: of check; of cccheck where the transcript is lawful; and
where a wrong reply stands in its middle, and at its end. A second table has chains of natives, of whose last one the last answer
says that it is freed: the path to it is the whole chain, and both programs say that the transcript is not lawful.
"""

import os
import re
import subprocess
import sys
import tempfile

HERE = os.path.dirname(os.path.abspath(__file__))
sys.path.insert(0, f"{HERE}/peers")

from changes import CCREPLAY, is_reply
from judge import CCCHECK, must_be_there
from scripts import made


def text(lines):
    return "".join(f"{line}\n" for line in lines).encode()


def counted(folder, words, status, given=b""):
    """The instructions of a run, which must end with this status."""
    run = subprocess.run(
        ["valgrind", "--tool=callgrind", f"--callgrind-out-file={folder}/profile", *words], input=given, capture_output=True
    )
    found = re.search(rb"Collected : (\d+)", run.stderr)
    if run.returncode != status or not found:
        sys.exit(f"places: {words[0]} ended with status {run.returncode}")
    return int(found.group(1))


def with_wrong_reply(lines, place):
    """The lines with another reply in place of the first one from a place on."""
    while not is_reply(lines[place]):
        place += 1
    return lines[:place] + ["! long"] + lines[place + 1:]


def row(folder, count):
    """Prints the row of a script of so many lines."""
    script = made(7, count)
    run = subprocess.run([CCREPLAY, "replay"], input=text(script), capture_output=True, check=True)
    transcript = run.stdout.decode().splitlines()
    for name, lines in (
        ("script", script),
        ("lawful", transcript),
        ("middle", with_wrong_reply(transcript, len(transcript) // 2)),
        ("end", with_wrong_reply(transcript, len(transcript) - 1)),
    ):
        with open(f"{folder}/{name}", "wb") as file:
            file.write(text(lines))
    of_check = counted(folder, [CCREPLAY, "check", str(len(text(script)))], 0, text(script) + text(transcript))
    of_places = [
        counted(folder, [CCCHECK, f"{folder}/script", f"{folder}/{name}"], status)
        for name, status in (("lawful", 0), ("middle", 1), ("end", 1))
    ]
    both = len(script) + len(transcript)
    figures = [f"{it / both:,.0f}" for it in (of_check, *of_places)]
    print(f"| {len(script):,} | {len(transcript):,} | {' | '.join(figures)} | {max(of_places) / of_check:.2f} |", flush=True)


def chain_row(folder, count):
    """Prints the row of a chain that a script of so many lines makes, with a wrong free line at its end."""
    natives = count // 3
    script = ["native n0 1", "copy n1 n0"] + (natives - 1) * ["native n2 1", "set n1 0 n2", "copy n1 n2"] + ["drop n1", "drop n2", "drop n3"]
    run = subprocess.run([CCREPLAY, "replay"], input=text(script), capture_output=True, check=True)
    transcript = run.stdout.decode().splitlines()
    transcript.insert(len(transcript) - 1, f"- free #{natives}")
    for name, lines in (("script", script), ("free", transcript)):
        with open(f"{folder}/{name}", "wb") as file:
            file.write(text(lines))
    of_check = counted(folder, [CCREPLAY, "check", str(len(text(script)))], 1, text(script) + text(transcript))
    of_places = counted(folder, [CCCHECK, f"{folder}/script", f"{folder}/free"], 1)
    both = len(script) + len(transcript)
    print(f"| {len(script):,} | {of_check / both:,.0f} | {of_places / both:,.0f} | {of_places / of_check:.2f} |", flush=True)


def main():
    counts = sorted({int(it) for it in sys.argv[1:]}) or [4000, 16000, 64000, 128000]
    must_be_there(CCCHECK, CCREPLAY)
    with tempfile.TemporaryDirectory(prefix="places-") as folder:
        print("| lines of script | of transcript | check | cccheck, lawful | wrong in the middle | wrong at the end | most by check |")
        print("|---:|---:|---:|---:|---:|---:|---:|")
        for count in counts:
            row(folder, count)
        print("\n| lines of script of a chain | check | cccheck | by check |\n|---:|---:|---:|---:|")
        for count in counts:
            chain_row(folder, count)


if __name__ == "__main__":
    main()
