#!/usr/bin/env python3
"""Makes one change in each of many lawful transcripts, and tests where `cccheck` says that they part.

    bench/peers/changes.py [--count N] [--first SEED] [--lines N] [PROGRAM [WORD ..]]

A script is one of scripts.py. The program answers it, or `ccreplay replay` if none is named. A change drops, doubles, swaps or
moves a line, writes another number or another reply, puts an event in, or cuts the text. Of each changed transcript these are
tested:

- Where cccheck says `lawful`, `ccreplay check` says so too.
- Else the line that it names is that of the change or one behind it.
- The lines before that line, with an ending that is made here, are lawful for `ccreplay check`.
- With that line, and each of some endings, they are not.
- What cccheck says of the line is the case (causes.py).

It prints how many changes of each kind parted at the change, behind it, at the end, or not at all. The status is 0 if all tests
passed. CCREPLAY and CCCHECK name other programs than those of crates/ccreplay/out and crates/cccheck/out.
"""

import argparse
import random
import re
import subprocess
import sys
import tempfile

from answers import CCREPLAY, Listed, answers_of_ours, asked, is_refused, is_reply, replayed, split, with_refusals
from causes import fault_of_cause
from judge import CCCHECK, must_be_there, verdict
from scripts import made

KINDS = [
    "dropped", "doubled", "swapped", "moved", "another number", "another reply", "event put in", "event moved",
    "cut", "no line feed",
]
REPLIES = [
    "= ok", "= none", "= #1", "= #2", "= @1", "= ~1", "= census 0",
    "! empty", "! kind", "! slot", "! line", "! long", "! full", "! nomem",
]
LINE = re.compile(r"line ([1-9][0-9]*)\b.*")


def is_lawful(script, lines):
    text = script + "".join(f"{line}\n" for line in lines)
    ran = subprocess.run([CCREPLAY, "check", str(len(script.encode()))], input=text.encode(), capture_output=True)
    return ran.stdout == b"lawful\n"


def with_ending(lines, front, reply=None):
    """A front of a transcript, with an ending that is lawful if one is. It has the replies of ours, and each `gc` frees what
    ours has freed by then. The reply is that to the command whose answer the front leaves unfinished, if it is to be another.
    A command that the front answers by `! nomem` does nothing, as a line does that is no command."""
    commands = asked(lines)
    answers, rest = split(front)
    if len(answers) > len(commands):
        return front
    answers_so_far = answers + [rest + [reply]] if reply else answers
    ours = answers_of_ours(with_refusals(lines, answers_so_far))
    ending, listed, ours_listed = [], Listed(), Listed()
    for (_, word), answer, of_ours in zip(commands, answers, ours):
        listed.take(word, answer)
        ours_listed.take(word, of_ours)
    for (_, word), of_ours in list(zip(commands, ours))[len(answers):]:
        ours_listed.take(word, of_ours)
        listed.take(word, rest)
        if is_refused(of_ours):
            answer = of_ours[-1:]
        elif word == "gc":
            frees = [f"- free {it}" for it in listed.names if it not in ours_listed.names]
            listed.take(word, frees)
            answer = frees + of_ours[-1:]
        elif word == "census":
            answer = listed.census()[len(rest):]
        elif word == "why":
            answer = of_ours[len(rest):]
        else:
            answer = of_ours[-1:]
        if reply:
            answer = [reply]
        elif word in ("slice", "collect") and rest[-1:] == ["- abandon"]:
            answer = ["! nomem"]
        listed.take(word, answer)
        ending += answer
        rest, reply = [], None
    return front + ending


def another_number(draw, line):
    """The line with another number in it."""
    at = draw.choice(list(re.finditer(r"[0-9]+", line)))
    new = draw.choice([int(at.group()) + 1, max(0, int(at.group()) - 1), draw.randrange(1, 30)])
    return f"{line[:at.start()]}{new}{line[at.end():]}"


def changed(draw, kind, lines):
    """The text after a change, or none where there is nothing to change so."""
    new = list(lines)
    at = draw.randrange(len(lines))
    events = [place for place, line in enumerate(lines) if line.startswith("- ")]
    replies = [place for place, line in enumerate(lines) if is_reply(line)]
    if kind == "dropped":
        del new[at]
    elif kind == "doubled":
        new.insert(at, lines[at])
    elif kind == "swapped":
        other = draw.choice([min(at + 1, len(lines) - 1), draw.randrange(len(lines))])
        new[at], new[other] = new[other], new[at]
    elif kind == "moved":
        new.insert(draw.randrange(len(lines)), new.pop(at))
    elif kind == "another number":
        at = draw.choice([place for place, line in enumerate(lines) if re.search("[0-9]", line)])
        new[at] = another_number(draw, lines[at])
    elif kind == "another reply":
        new[draw.choice(replies)] = draw.choice(REPLIES)
    elif kind == "event put in":
        name = draw.choice(["#", "#", "#", "@", "~"]) + str(draw.randrange(1, 12))
        new.insert(at, draw.choice([f"- free {name}", f"- free {name}", f"- unlink {name}", "- abandon"]))
    elif kind == "event moved":
        if not events:
            return None
        event = new.pop(draw.choice(events))
        new.insert(draw.randrange(max(0, at - 8), min(len(new), at + 8) + 1), event)
    elif kind == "cut":
        del new[at:]
    if kind == "no line feed":
        return "".join(f"{line}\n" for line in new)[:-1]
    return None if new == lines else "".join(f"{line}\n" for line in new)


def first_difference(lines, new):
    """The number of the first line in which two lists differ."""
    for number, (line, other) in enumerate(zip(lines, new), 1):
        if line != other:
            return number
    return min(len(lines), len(new)) + 1


def fault_of(folder, lines, transcript, text):
    """Where a changed transcript parts, as a word, and what is wrong with what is said of it, if anything."""
    script = "".join(f"{line}\n" for line in lines)
    said = verdict(folder, script.encode(), text.encode())
    new = text.splitlines()
    change = first_difference(transcript, new)
    if said == "lawful":
        return "lawful", None if text.endswith("\n") and is_lawful(script, new) else "it says lawful, and check does not"
    if said.startswith("end"):
        number = len(new) + 1
    elif LINE.fullmatch(said):
        number = int(LINE.fullmatch(said).group(1))
    else:
        return "", f"it says {said}"
    where = "at the end" if said.startswith("end") else "at the change" if number == change else "behind it"
    if text.endswith("\n") and is_lawful(script, new):
        return where, f"check says lawful, and it says {said}"
    if number < change:
        return where, f"the change is in line {change}, and it says {said}"
    if number > len(new) + 1 or (number == len(new) + 1 and not said.startswith("end")):
        return where, f"there is no such line, and it says {said}"
    if not is_lawful(script, with_ending(lines, new[:number - 1])):
        return where, f"the lines before are not those of a lawful transcript, and it says {said}"
    front = new[:number]
    if number <= len(new):
        endings = [with_ending(lines, front)]
        if not is_reply(front[-1]):
            endings += [with_ending(lines, front, "! nomem"), with_ending(lines, front + ["- abandon"], "! nomem")]
        if any(is_lawful(script, it) for it in endings):
            return where, f"a lawful transcript goes on with that line, and it says {said}"
        fault = fault_of_cause(lines, front, said)
        return where, fault and f"{fault}, and it says {said}"
    return where, None


def main():
    words = argparse.ArgumentParser(description="Tests where cccheck says that changed transcripts part.")
    words.add_argument("--count", type=int, default=2000, help="how many changed transcripts")
    words.add_argument("--first", type=int, default=1, help="the seed of the first")
    words.add_argument("--lines", type=int, default=60, help="how many lines each script has, its end aside")
    words.add_argument("program", nargs=argparse.REMAINDER, help="ccreplay replay if left out")
    given = words.parse_args()
    program = given.program or [CCREPLAY, "replay"]
    must_be_there(CCCHECK, CCREPLAY)
    sums = {kind: dict.fromkeys(["at the change", "behind it", "at the end", "lawful"], 0) for kind in KINDS}
    tested = faults = 0
    seed = given.first
    with tempfile.TemporaryDirectory(prefix="changes-") as folder:
        while tested < given.count:
            draw = random.Random(seed)
            lines = made(seed, given.lines)
            transcript = replayed("".join(f"{line}\n" for line in lines), program)
            kind = KINDS[seed % len(KINDS)]
            text = changed(draw, kind, transcript)
            if text is not None:
                where, fault = fault_of(folder, lines, transcript, text)
                tested += 1
                if fault:
                    faults += 1
                    print(f"seed {seed}, {kind}: {fault}")
                else:
                    sums[kind][where] += 1
            seed += 1
    print("| change | at the change | behind it | at the end | lawful still |\n|---|---:|---:|---:|---:|")
    for kind in KINDS:
        print(f"| {kind} | {' | '.join(str(it) for it in sums[kind].values())} |")
    print(f"{tested} changed transcripts: {tested - faults} as they must be, {faults} not")
    return 0 if faults == 0 else 1


if __name__ == "__main__":
    sys.exit(main())
