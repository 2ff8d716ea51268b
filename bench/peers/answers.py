"""What transcripts and scripts consist of, for changes.py and causes.py."""

import os
import subprocess

from judge import ROOT

CCREPLAY = os.environ.get("CCREPLAY", f"{ROOT}/crates/ccreplay/out/ccreplay")
MADE = {"native", "script", "weakmap", "proxy"}


def replayed(script, program=(CCREPLAY, "replay")):
    """The lines of our transcript of a script, or of another program's."""
    ran = subprocess.run(program, input=script.encode(), capture_output=True, check=True)
    return ran.stdout.decode().splitlines()


def is_reply(line):
    return line[:2] in ("= ", "! ")


def is_refused(answer):
    return answer[-1].startswith("!")


def asked(lines):
    """The lines of a script that are answered: each with its first word, or none where it is too long."""
    answered = []
    for place, line in enumerate(lines):
        words = [it for it in line.removesuffix("\r").split(" ") if it]
        if len(line) > 120:
            answered.append((place, ""))
        elif words and not words[0].startswith("%"):
            answered.append((place, words[0]))
    return answered


def split(lines):
    """The answers that a transcript has whole, and the lines behind the last reply."""
    answers, answer = [], []
    for line in lines:
        answer.append(line)
        if is_reply(line):
            answers.append(answer)
            answer = []
    return answers, answer


class Listed:
    """The names that a census lists."""

    def __init__(self):
        self.names = []

    def take(self, word, lines):
        """Goes on over the lines of an answer to a command with this word."""
        for line in lines:
            if line.startswith("- free ") and line[7:] in self.names:
                self.names.remove(line[7:])
            if line[:3] in ("= #", "= @", "= ~") and word in MADE | {"wrap"} and line[2:] not in self.names:
                self.names.append(line[2:])

    def census(self):
        order = sorted((it for it in self.names if it[0] == "#"), key=lambda it: int(it[1:]))
        order += [it for it in self.names if it[0] != "#"]
        return [f"+ {it}" for it in order] + [f"= census {len(order)}"]


def with_refusals(lines, answers):
    """The script in which each line that is answered by `! nomem` is no command, since it does nothing. A slice and a collection
    stay, which leave the graph as it is."""
    undone = {
        place for (place, word), answer in zip(asked(lines), answers)
        if answer[-1] == "! nomem" and word not in ("slice", "collect")
    }
    return ["no command" if place in undone else line for place, line in enumerate(lines)]


def answers_of_ours(lines):
    """Our answers to a script."""
    return split(replayed("".join(f"{line}\n" for line in lines)))[0]
