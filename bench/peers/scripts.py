#!/usr/bin/env python3
"""Makes a script from a seed.

    bench/peers/scripts.py SEED LINES [natives|both] [PERCENT]

`natives` has the words of natives in version 1, and slices; `both`, which is the default, all words of version 1 but proxy.
So many of a hundred lines, 5 if left out, may be refused or are no command at all: the others do something. A plain model of
the objects, from which nothing is ever freed, says which do. In the end most registers are emptied, and a census is taken
behind gc, collect and gc.
"""

import random
import sys

# n and s are registers, and N and S those that must hold an object; i is an index, k a number of slots, u one of units
FORMS = [
    # a form, how often it is drawn in scripts of natives, and how often in scripts of both
    ("native n k", 16, 14), ("copy n n", 8, 5), ("drop n", 12, 10), ("set N i N", 24, 12), ("set N i none", 5, 3),
    ("get n N i", 10, 7), ("slice u", 6, 12), ("collect", 2, 2), ("gc", 2, 4), ("census", 2, 2),
    ("script s k", 0, 8), ("weakmap s", 0, 4), ("copy s s", 0, 3), ("drop s", 0, 14), ("set N i S", 0, 14), ("get s N i", 0, 7),
    ("put S i S", 0, 10), ("put S i none", 0, 2), ("take s S i", 0, 5), ("wrap s N", 0, 12), ("unwrap n S", 0, 5),
    ("preserve S", 0, 3), ("wset S S S", 0, 10), ("wset S S none", 0, 2), ("wget s S S", 0, 5), ("expose N i", 0, 3),
]
STRANGE = [
    # none of them changes an object or a register
    "", "   ", "% a comment", "  % drop n0", "%" + 119 * "a", "%" + 120 * "a", "drop n0" + 120 * " ", "native n0", "native n0 01",
    "native n0 65", "drop n256", "drop n", "Drop n0", "set n0 4294967296 none", "set n0 4294967295 none", "set n0 -1 none",
    "set\tn0 0 none", "drop n0 n1", "set n00 0 none", "nothing", "version 3", "slice 0", "slice 1000001", "census %", "  census",
    "slice   2", "collect  ", "census\r", "gc\r",
]
ROW = ["gc", "collect", "gc", "census"]


class Thing:
    """An object of the model: its kind, its slots, what a weak map has, and the native of a reflector or the reverse."""

    def __init__(self, kind, slots, partner=None):
        self.kind, self.slots, self.values, self.partner = kind, [None] * slots, {}, partner


class Model:
    """Registers by the letter, and what each command makes of them."""

    def __init__(self):
        self.banks = {"n": [None] * 256, "s": [None] * 256}

    def at(self, register):
        return self.banks[register[0]][int(register[1:])]

    def is_refused(self, form, operands):
        letters = form.split()[1:]
        if any(letter in "NS" and self.at(it) is None for letter, it in zip(letters, operands)):
            return True
        word = form.split()[0]
        first = self.at(operands[0]) if letters and letters[0] in "NS" else None
        if word in ("set", "put"):
            return self.has_no_slot(first, operands[1])
        if word == "expose":
            return self.has_no_slot(first, operands[1]) or self.is_other(first, operands[1], "s")
        if word in ("get", "take"):
            holder = self.at(operands[1])
            return self.has_no_slot(holder, operands[2]) or self.is_other(holder, operands[2], operands[0][0])
        if word == "wset":
            return first.kind != "map"
        if word == "wget":
            return self.at(operands[1]).kind != "map"
        if word in ("unwrap", "preserve"):
            return self.at(operands[-1]).kind != "reflector"
        return False

    @staticmethod
    def has_no_slot(holder, index):
        return holder.kind == "map" or int(index) >= len(holder.slots)

    @staticmethod
    def is_other(holder, index, bank):
        held = holder.slots[int(index)]
        return held is not None and (held.kind == "native") != (bank == "n")

    def do(self, form, operands):
        """Does a command that is not refused."""
        word, letters = form.split()[0], form.split()[1:]
        held = [self.at(it) if letter in "nsNS" else None for letter, it in zip(letters, operands)]
        fresh = None
        if word in ("native", "script"):
            fresh = Thing(word, int(operands[1]))
        elif word == "weakmap":
            fresh = Thing("map", 0)
        elif word == "copy":
            fresh = held[1]
        elif word in ("get", "take"):
            fresh = held[1].slots[int(operands[2])]
        elif word == "wrap":
            if held[1].partner is None:
                held[1].partner = Thing("reflector", 4, held[1])
            fresh = held[1].partner
        elif word == "unwrap":
            fresh = held[1].partner
        elif word == "wget":
            fresh = held[1].values.get(held[2])
        elif word in ("set", "put"):
            held[0].slots[int(operands[1])] = held[2]
        elif word == "wset":
            held[0].values[held[1]] = held[2]
        if letters and letters[0] in "ns":
            self.banks[letters[0]][int(operands[0][1:])] = fresh


def made(seed, lines, words="both", percent=5):
    """The lines of a script."""
    draw = random.Random(f"{seed} {lines} {words} {percent}")
    model = Model()
    weights = [form[1 if words == "natives" else 2] * draw.choice((1, 2, 2, 3, 6)) for form in FORMS]
    registers = draw.randint(2, 7)
    slots = draw.randint(1, 4)

    def operand(letter):
        if letter in "nNsS":
            return f"{letter.lower()}{draw.randrange(registers)}"
        if letter == "none":
            return letter
        return str({"i": draw.randrange(slots), "k": slots, "u": draw.choice((1, 1, 1, 2, 3, 6))}[letter])

    script = []
    while len(script) < lines:
        may_be_refused = draw.randrange(100) < percent
        if may_be_refused and draw.randrange(2) == 0:
            script.append(draw.choice(STRANGE))
            continue
        if draw.randrange(80) == 0:
            script += ROW
        form = draw.choices(FORMS, weights)[0][0]
        operands = [operand(letter) for letter in form.split()[1:]]
        refused = model.is_refused(form, operands)
        if refused and not may_be_refused:
            continue
        if not refused:
            model.do(form, operands)
        script.append(" ".join([form.split()[0], *operands]))
    banks = "n" if words == "natives" else "ns"
    script += [f"drop {bank}{it}" for bank in banks for it in range(registers) if draw.randrange(4)]
    return script + ROW


def main():
    words = sys.argv[1:]
    if len(words) not in (2, 3, 4):
        sys.exit("scripts: name a seed and a number of lines")
    given = [int(words[0]), int(words[1]), *words[2:3], *map(int, words[3:])]
    sys.stdout.write("".join(f"{line}\n" for line in made(*given)))


if __name__ == "__main__":
    main()
