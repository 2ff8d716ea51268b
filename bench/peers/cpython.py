#!/usr/bin/env python3
"""Answers a script of natives by CPython's own collector: its reference counts and its `gc`. `cccheck` judges what it writes.

    bench/peers/cpython.py [--natives N] [SCRIPT [TRANSCRIPT]]

Without names it reads standard input and writes standard output. It takes the words of natives in version 1: native, drop,
copy, set, get, slice, collect, gc and census. At a line with a word or a register of script objects, and at `version 2`, it
ends with status 2.

A native is a Python object with a list of slots. Between two commands nothing but the registers and the slots refers to one:
a weak reference tells when it dies, and a census lists what the interpreter itself tracks. CPython does not collect on its
own here. `collect` and `gc` are a full collection, and `slice` is one of the youngest generation.
"""

import argparse
import gc
import re
import sys
import weakref

REGISTERS = 256
MOST_SLOTS = 64
MOST_INDEX = 4294967295
MOST_UNITS = 1000000
MOST_NATIVES = 1000000
LONGEST_LINE = 120

NUMBER = re.compile(rb"0|[1-9][0-9]*")
SCRIPT_REGISTER = re.compile(rb"s(0|[1-9][0-9]*)")
WORDS_OF_SCRIPT = set(b"script weakmap proxy put take wrap unwrap preserve wset wget expose".split())


class Native:
    """A counted object."""

    __slots__ = ("number", "slots", "__weakref__")

    def __init__(self, number, slots):
        self.number = number
        self.slots = [None] * slots


class Watch(weakref.ref):
    """A weak reference that knows the number of its native. It is called when the native dies."""

    __slots__ = ("number",)

    def __init__(self, native, call):
        super().__init__(native, call)
        self.number = native.number


class NotInGrammar(Exception):
    """A line that is no command."""


class NotTaken(Exception):
    """A line that is of script objects, or of version 2."""


# The readers of one token each

def number(token, most, least=0):
    if not NUMBER.fullmatch(token) or not least <= int(token) <= most:
        raise NotInGrammar
    return int(token)


def register(token):
    if token[:1] != b"n":
        raise NotInGrammar
    return number(token[1:], REGISTERS - 1)


def source(token):
    return None if token == b"none" else register(token)


def index(token):
    return number(token, MOST_INDEX)


def slots(token):
    return number(token, MOST_SLOTS)


def units(token):
    return number(token, MOST_UNITS, 1)


FORMS = {
    b"native": (register, slots),
    b"drop": (register,),
    b"copy": (register, register),
    b"set": (register, index, source),
    b"get": (register, register, index),
    b"slice": (units,),
    b"collect": (),
    b"gc": (),
    b"census": (),
}


def parse(tokens):
    """The word of a line and its operands."""
    if tokens[0] in WORDS_OF_SCRIPT or any(SCRIPT_REGISTER.fullmatch(it) for it in tokens[1:]):
        raise NotTaken
    form = FORMS.get(tokens[0])
    if form is None or len(form) != len(tokens) - 1:
        raise NotInGrammar
    return tokens[0].decode(), [read(token) for read, token in zip(form, tokens[1:])]


class Heap:
    """The registers, and what died. Each method does one command and returns its reply; no variable of it that refers to a
    native outlives the call."""

    def __init__(self, most):
        self.registers = [None] * REGISTERS
        self.most = most
        self.made = 0
        self.watches = {}
        self.died = []
        self.has_begun = False

    def dies(self, watch):
        """The interpreter calls this for each native that it destroys."""
        self.died.append(watch.number)
        del self.watches[watch.number]

    def held(self, place):
        """What a register holds, as a reply."""
        return "= none" if self.registers[place] is None else f"= #{self.registers[place].number}"

    def native(self, place, count):
        if self.made == self.most:
            return "! full"
        self.made += 1
        fresh = Native(self.made, count)
        self.watches[self.made] = Watch(fresh, self.dies)
        self.registers[place] = fresh
        return self.held(place)

    def drop(self, place):
        self.registers[place] = None
        return "= ok"

    def copy(self, place, origin):
        self.registers[place] = self.registers[origin]
        return self.held(place)

    def set(self, place, i, origin):
        if self.registers[place] is None or (origin is not None and self.registers[origin] is None):
            return "! empty"
        if i >= len(self.registers[place].slots):
            return "! slot"
        self.registers[place].slots[i] = None if origin is None else self.registers[origin]
        return "= ok"

    def get(self, place, origin, i):
        if self.registers[origin] is None:
            return "! empty"
        if i >= len(self.registers[origin].slots):
            return "! slot"
        self.registers[place] = self.registers[origin].slots[i]
        return self.held(place)

    def slice(self, _units):
        gc.collect(0)
        return "= ok"

    def collect(self):
        gc.collect()
        return "= ok"

    gc = collect

    def census(self):
        there = sorted(it.number for it in gc.get_objects() if type(it) is Native)
        return "".join(f"+ #{it}\n" for it in there) + f"= census {len(there)}"


def answer(heap, line):
    """What is written for a line, which has no line feed."""
    tokens = [it for it in line.removesuffix(b"\r").split(b" ") if it]
    is_long = len(line) > LONGEST_LINE
    if not is_long and (not tokens or tokens[0].startswith(b"%")):
        return ""
    if not heap.has_begun and tokens == [b"version", b"2"]:
        raise NotTaken
    heap.has_begun = True
    if is_long:
        return "! long\n"
    try:
        word, operands = parse(tokens)
    except NotInGrammar:
        return "! line\n"
    reply = getattr(heap, word)(*operands)
    died, heap.died = heap.died, []
    return "".join(f"- free #{it}\n" for it in died) + reply + "\n"


def main():
    words = argparse.ArgumentParser(description="Answers a script of natives by CPython's own collector.")
    words.add_argument("--natives", type=int, default=MOST_NATIVES, help="how many natives may ever be made")
    words.add_argument("script", nargs="?", help="standard input if left out")
    words.add_argument("transcript", nargs="?", help="standard output if left out")
    given = words.parse_args()
    with open(given.script, "rb") if given.script else sys.stdin.buffer as file:
        lines = file.read().split(b"\n")
    if not lines[-1]:
        lines.pop()
    gc.disable()
    heap = Heap(given.natives)
    with open(given.transcript, "w") if given.transcript else sys.stdout as out:
        for place, line in enumerate(lines, 1):
            try:
                out.write(answer(heap, line))
            except NotTaken:
                print(f"cpython: line {place} is of script objects or of version 2, which are not taken", file=sys.stderr)
                return 2
    return 0


if __name__ == "__main__":
    sys.exit(main())
