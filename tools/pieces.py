#!/usr/bin/env python3
"""Compares the pieces of code on the pages with the files that the gate proves.

    tools/pieces.py            writes the whole files on docs/EMBEDDING.md anew; then says what --check says
    tools/pieces.py --check    writes nothing; says which piece is not that of its file, and exits 1 where one is not

A piece is what stands between two fences, and its file is the one that the paragraph before it names last, in backquotes. Each
piece of docs/EMBEDDING.md is compared, and each piece of rust of README.md and of docs/HOST.md.

On docs/EMBEDDING.md a piece is the whole text of its file, so that who copies it has what the gate proves; but one of the
program crates/ccdom is some lines of its file, and so is a piece of the other pages: each part between two empty lines stands
there in a row, indented or not, one part after the other; or in the file without its `///` comments and attributes.

On docs/HOST.md stands each public call of the facade, by its signature: in backquotes, from `fn` on, as its file has it but for
the breaks of its lines.
"""
import re
import sys
from pathlib import Path

ROOT = Path(__file__).resolve().parent.parent
EMBEDDING = ROOT / 'docs' / 'EMBEDDING.md'
README = ROOT / 'README.md'
HOST = ROOT / 'docs' / 'HOST.md'
IN_PARTS = ROOT / 'crates' / 'ccdom'
FACADE = ROOT / 'crates' / 'cc_host' / 'src'
FENCE = '```'


class Piece:
    def __init__(self, page, language, first, lines, before):
        self.page = page
        self.language = language
        self.first = first
        self.lines = lines
        self.path = file_named(before)

    def place(self):
        return f'{self.page.relative_to(ROOT)}, line {self.first + 1}'


# The pages

def file_named(paragraph):
    """The file that a paragraph names last, or none."""
    named = [ROOT / word for word in re.findall(r'`([^`\s]+)`', ' '.join(paragraph))]
    files = [path for path in named if path.is_file()]
    return files[-1] if files else None


def paragraph_before(lines, at):
    """The paragraph that ends before a line, empty lines aside."""
    end = at
    while end > 0 and not lines[end - 1]:
        end -= 1
    start = end
    while start > 0 and lines[start - 1]:
        start -= 1
    return lines[start:end]


def pieces(page):
    """Each piece of a page; its first line counts from 0."""
    lines = lines_of(page)
    fences = [number for number, line in enumerate(lines) if line.startswith(FENCE)]
    found = []
    for opening, closing in zip(fences[::2], fences[1::2]):
        language = lines[opening].removeprefix(FENCE).strip()
        found.append(Piece(page, language, opening + 1, lines[opening + 1:closing], paragraph_before(lines, opening)))
    return found


def lines_of(path):
    return path.read_text(encoding='utf-8').splitlines()


# What is wrong with a piece

def first_difference(piece, lines):
    """The first line of a piece that is not the file's; none where all are, and no more are in the file."""
    for number, line in enumerate(piece.lines):
        if number == len(lines) or lines[number] != line:
            return number
    return len(piece.lines) if len(lines) > len(piece.lines) else None


def stands_at(wanted, lines, at):
    return lines[at:at + len(wanted)] == wanted


def place_of(wanted, lines, start):
    """Where these lines stand in a row, from a place on, or none."""
    return next((at for at in range(start, len(lines)) if stands_at(wanted, lines, at)), None)


def paragraphs(lines):
    return [part.split('\n') for part in re.split(r'\n\n+', '\n'.join(lines)) if part]


def indented(lines, indent):
    return [indent + line if line else line for line in lines]


def bare(lines):
    """The lines that are no `///` comment and no attribute."""
    return [line for line in lines if not line.lstrip().startswith(('///', '#['))]


def stands_in(piece, lines):
    """Whether there is a part, and each part between empty lines stands in the file, one after the other."""
    parts = paragraphs(piece.lines)
    at = 0
    for part in parts:
        places = [place_of(indented(part, indent), lines, at) for indent in ('', '    ')]
        there = [place for place in places if place is not None]
        if not there:
            return False
        at = min(there) + len(part)
    return bool(parts)


def fault_of_whole(piece):
    difference = first_difference(piece, lines_of(piece.path))
    if difference is None:
        return None
    return f'the piece is not {piece.path.relative_to(ROOT)}: line {difference + 1} of it differs'


def fault_of_some(piece):
    lines = lines_of(piece.path)
    if stands_in(piece, lines) or stands_in(piece, bare(lines)):
        return None
    return f'the piece does not stand in {piece.path.relative_to(ROOT)}'


def is_whole(piece):
    """Whether a piece is to be the whole text of its file."""
    return piece.page == EMBEDDING and not piece.path.is_relative_to(IN_PARTS)


def fault(piece):
    if piece.path is None:
        return 'no file is named before the piece'
    if is_whole(piece):
        return fault_of_whole(piece)
    return fault_of_some(piece)


# The calls of the facade

def in_one_line(text):
    """A signature without the breaks of its lines."""
    return ' '.join(text.split()).replace('( ', '(').replace(', )', ')')


def facade_files():
    return [FACADE / 'host.rt', FACADE / 'marks.rt', *sorted((FACADE / 'host').glob('*.rt'))]


def signatures(path):
    """Those of the public calls of a file, from `fn` on: each ends where its contract or its body begins."""
    text = path.read_text(encoding='utf-8')
    found = re.findall(r'^    pub (fn .*?)(?=\n *requires|\n *ensures|\s*\{)', text, re.DOTALL | re.MULTILINE)
    return [in_one_line(signature) for signature in found]


def faults_of_calls():
    """Each call of the facade that is not on its page, and each on the page that is none."""
    wanted = [signature for path in facade_files() for signature in signatures(path)]
    shown = re.findall(r'`(fn [^`]*)`', HOST.read_text(encoding='utf-8'))
    page = HOST.relative_to(ROOT)
    lacking = [f'{page}: a call of the facade is not there: {call}' for call in wanted if call not in shown]
    return lacking + [f'{page}: the facade has no such call: {call}' for call in shown if call not in wanted]


# All of it

def compared():
    """Each piece that is compared with its file."""
    return pieces(EMBEDDING) + [piece for page in (README, HOST) for piece in pieces(page) if piece.language == 'rust']


def faults():
    found = [(piece, fault(piece)) for piece in compared()]
    return [f'{piece.place()}: {what}' for piece, what in found if what] + faults_of_calls()


def write_page():
    lines = lines_of(EMBEDDING)
    for piece in reversed(pieces(EMBEDDING)):
        if piece.path is not None and is_whole(piece):
            lines[piece.first:piece.first + len(piece.lines)] = lines_of(piece.path)
    EMBEDDING.write_text('\n'.join(lines) + '\n', encoding='utf-8')


def main():
    words = sys.argv[1:]
    if words not in ([], ['--check']):
        sys.exit('usage: pieces.py [--check]')
    if not words:
        write_page()
    found = faults()
    for what in found:
        print(what, file=sys.stderr)
    sys.exit(1 if found else 0)


if __name__ == '__main__':
    main()
