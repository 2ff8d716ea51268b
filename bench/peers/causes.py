"""Whether what cccheck says of a line is the case: by our replies, by the names that a census lists, and by `why`."""

import re

from answers import Listed, answers_of_ours, asked, is_refused, split, with_refusals

SAID = re.compile(r"line ([0-9]+), answer to line ([0-9]+)(?: \((.*?)\))?: (.*)")
COLLECTIONS = ("slice", "collect", "gc")
NAME = "[#@~](?:0|[1-9][0-9]*)"
ITEM = re.compile(
    f"= (ok|none|census (0|[1-9][0-9]*)|{NAME})|! (long|line|empty|kind|slot|full|nomem)|- abandon|- (free|unlink) {NAME}"
)


class Position:
    """Behind some lines of a transcript: the command that is answered there, what came of its answer, and the line that parts."""

    def __init__(self, lines, front):
        self.lines = lines
        self.answers, self.rest = split(front[:-1])
        self.line = front[-1]
        self.commands = asked(lines)
        self.is_over = len(self.answers) >= len(self.commands)
        if self.is_over:
            return
        self.place, self.word = self.commands[len(self.answers)]
        self.script = with_refusals(lines, self.answers)
        self.ours = answers_of_ours(self.script)
        self.due = self.ours[len(self.answers)]
        self.listed = Listed()
        for (_, word), answer in zip(self.commands, self.answers):
            self.listed.take(word, answer)
        self.listed.take(self.word, self.rest)

    def reply(self):
        """The reply that is due."""
        is_given_up = self.word in ("slice", "collect") and self.rest[-1:] == ["- abandon"]
        return "! nomem" if is_given_up else self.due[-1]

    def answer_left(self):
        """What is left of an answer that has one text: that to a census, to `why`, or to a line that is no command."""
        whole = self.due if is_refused(self.due) or self.word == "why" else self.listed.census()
        return whole[len(self.rest):] if whole[:len(self.rest)] == self.rest else None

    def path(self, name):
        """The steps to an object behind the command, as cccheck writes them; none where no register reaches it."""
        kept = [*self.script]
        for (place, _), answer in zip(self.commands, self.ours):
            if answer[-1] in ("! line", "! long"):
                kept[place] = "no command"  # in version 2 it may be one
        steps = answers_of_ours(["version 2", *kept[:self.place + 1], f"why {name}"])[-1]
        if steps == ["= none"]:
            return None
        return ", ".join(" ".join([*step.split(" ")[2:], step.split(" ")[1]]) for step in steps[:-1])

    def has_event(self, name, what):
        return self.line == f"- {'free' if what == 'freed' else 'unlink'} {name}"


def may_not(at, name, what):
    if what == "freed":
        return name[0] != "#" and at.word != "gc"
    return name[0] != "#" or at.word not in COLLECTIONS


EVENT = f"({NAME}) is (freed|unlinked)"
CAUSES = [
    # a cause, and whether it is the case at a position
    ("no line of an answer", lambda at: at.line[:1] in "+:" or not ITEM.fullmatch(at.line)),
    ("the reply is (.*)", lambda at, reply: at.reply() == reply != at.line),
    ("the census lists (.*) here", lambda at, name: at.answer_left()[0] == f"+ {name}" != at.line),
    ("the step here is (.*)", lambda at, step: at.answer_left()[0] == step != at.line),
    ("the answer ends here: (.*)", lambda at, reply: at.answer_left() == [reply] != [at.line]),
    (f"{EVENT}, and this command may not (?:free|unlink) it", lambda at, *event: at.has_event(*event) and may_not(at, *event)),
    (
        f"{EVENT}, but it is not there any more, or never was",
        lambda at, name, what: at.has_event(name, what) and name not in at.listed.names,
    ),
    (
        f"{EVENT}, but [ns][0-9]+ leads to it: (.*)",
        lambda at, name, what, path: at.has_event(name, what) and at.path(name) == path,
    ),
    (
        f"{EVENT}, but the command is refused: (.*)",
        lambda at, name, what, reply: at.has_event(name, what) and at.due[-1] == reply,
    ),
    ("an event, but the command is refused: (.*)", lambda at, reply: at.line[:2] == "- " and at.due[-1] == reply),
    (f"{EVENT} behind an abandonment", lambda at, *event: at.has_event(*event) and "- abandon" in at.rest),
    (
        f"({NAME}) is unlinked, and its number does not rise",
        lambda at, name: at.has_event(name, "unlinked") and any(it.startswith("- unlink") for it in at.rest),
    ),
    (
        "a collection is abandoned, and this command may not abandon one",
        lambda at: at.line == "- abandon" and (at.word not in COLLECTIONS or is_refused(at.due)),
    ),
    ("a second abandonment", lambda at: at.line == "- abandon" and "- abandon" in at.rest),
    ("an abandonment behind another event", lambda at: at.line == "- abandon" and at.word == "gc" and at.rest != []),
    (
        f"the census behind it lists exactly what is reached, but ({NAME}) is not",
        lambda at, name: name in at.listed.names and at.path(name) is None,
    ),
]


def fault_of_cause(lines, front, said):
    """What is wrong with what cccheck says of the last line of a front, if anything."""
    at = Position(lines, front)
    if said.endswith(": nothing is asked any more"):
        return None if at.is_over else "something is asked still"
    found = SAID.fullmatch(said)
    if at.is_over or not found:
        return "this is not the form of what it says"
    _, asked_line, text, cause = found.groups()
    line = lines[at.place].removesuffix("\r")
    if int(asked_line) != at.place + 1 or text != (None if len(lines[at.place]) > 120 else line):
        return f"it answers line {at.place + 1}"
    for form, is_case in CAUSES:
        words = re.fullmatch(form, cause)
        if words:
            return None if is_case(at, *words.groups()) else "this is not the case"
    return "there is no such cause"
