#!/usr/bin/env python3
"""Measures the gate: how long a run takes, and what of it.

    tools/gate_minutes.py LOG -- COMMAND ..   runs the command (rt ci) at the top of the repository, writes what it says
                                              to LOG with a clock, and prints the figures; ends with its status
    tools/gate_minutes.py LOG                 prints the figures of a log that was written so

A line of the log is a time of day and what the command said, or a time of day, the word `prover` and what a prover cost that
ended then: these are looked for twice a second among the processes of the machine (Linux alone). So nothing else may run that
proves. A prover's processor seconds are its own and those of what it waited for; its seconds by the clock may be half a second
off.

The figures: minutes of the whole run, and until all proofs, all tests and all edits were done; processor minutes of the three;
for each crate processor seconds of its proof, of its tests (which prove the crate once more), of its edits (of which the first
check proves it once more), and how many these are; the longest chain of crates by the seconds of their proofs; the edits that
cost most.
"""
import json
import os
import subprocess
import sys
import threading
import time
from collections import defaultdict
from pathlib import Path

ROOT = Path(__file__).resolve().parent.parent
TICKS = os.sysconf('SC_CLK_TCK')
DEAREST = 20


# What provers cost

def words_of(process):
    return (process / 'cmdline').read_text().split('\0')


def seconds_of(process):
    """When a process began, and its processor seconds so far, with those of the children that it waited for."""
    after_name = (process / 'stat').read_text().rsplit(')', 1)[1].split()
    return after_name[19], sum(map(int, after_name[11:15])) / TICKS


def edited(folder, edit):
    """The files that an edit changes, with their texts after it."""
    texts, path, old = {}, '', ''
    for line in edit.read_text().split('\n'):
        if line.startswith('file: '):
            path = line[6:].strip()
            texts.setdefault(path, (folder / path).read_text())
        elif line.startswith('old: '):
            old = line[5:]
        elif line.startswith('new:'):
            texts[path] = texts[path].replace(old, line[4:].removeprefix(' '))
    return texts


def edit_in(crate, room):
    """Which edit of a crate a copy of the crate shows; none for the crate as it stands."""
    folder = ROOT / 'crates' / crate
    for edit in sorted((folder / 'must-fail').glob('*.edit')):
        if all((room / path).read_text() == text for path, text in edited(folder, edit).items()):
            return edit.stem
    return ''


def first_seen(process, words):
    crate = words[words.index('--crate-name') + 1]
    prover = {'crate': crate, 'what': 'proof', 'from': time.time()}
    room = Path(os.readlink(process / 'cwd'))
    if '/rt-edit-' in str(room):
        prover['what'], prover['edit'] = 'edit', edit_in(crate, room)
    elif '--test' in words:
        prover['what'] = 'tests'
    return prover


class Provers:
    """The provers that run, and what each has cost so far."""

    def __init__(self, write):
        self.running = {}
        self.write = write

    def look(self):
        alive = set()
        for process in Path('/proc').glob('[0-9]*'):
            try:
                words = words_of(process)
                if os.path.basename(words[0]) == 'rattle' and '--crate-name' in words:
                    begun, cost = seconds_of(process)
                    key = process.name, begun
                    alive.add(key)
                    if key not in self.running:
                        self.running[key] = first_seen(process, words)
                    self.running[key]['processor'] = cost
            except (OSError, IndexError, UnicodeDecodeError):
                # it ended meanwhile
                pass
        for key in [it for it in self.running if it not in alive]:
            prover = self.running.pop(key)
            prover['seconds'] = round(time.time() - prover.pop('from'), 1)
            self.write('prover ' + json.dumps(prover))


def run(log, command):
    """Runs the command with a clock, and returns its status."""
    lines = threading.Lock()
    with open(log, 'w') as out:
        def write(text):
            with lines:
                print(time.strftime('%H:%M:%S'), text, file=out, flush=True)

        write('begins: ' + ' '.join(command))
        gate = subprocess.Popen(command, cwd=ROOT, stdout=subprocess.PIPE, stderr=subprocess.STDOUT, text=True, errors='replace',
                                env={**os.environ, 'PYTHONUNBUFFERED': '1'})
        provers, ended = Provers(write), threading.Event()

        def watch():
            while not ended.wait(0.5):
                provers.look()

        watching = threading.Thread(target=watch)
        watching.start()
        for line in gate.stdout:
            write(line.rstrip('\n'))
        status = gate.wait()
        ended.set()
        watching.join()
        provers.look()
        write(f'ends: status {status}')
    return status


# The figures

def clock(text):
    hours, minutes, seconds = map(int, text.split(':'))
    return 3600 * hours + 60 * minutes + seconds


class Figures:
    def __init__(self, log):
        self.cost = defaultdict(lambda: defaultdict(float))
        self.number = defaultdict(int)
        self.proof_seconds = defaultdict(float)
        self.edits = []
        self.done = {}
        first, last, self.verdict = None, None, ''
        for line in open(log):
            at, text = clock(line[:8]), line[9:].rstrip('\n')
            first = at if first is None else first
            # a run may go over midnight
            last = (at - first) % 86400
            if text.startswith('prover '):
                self.add(json.loads(text[7:]), last)
            elif text.endswith(' failed') or ' failed (' in text:
                self.verdict = text
        self.whole = last or 0

    def add(self, prover, at):
        crate, what = prover['crate'], prover['what']
        self.cost[crate][what] += prover['processor']
        self.done[what] = at
        if what == 'proof':
            self.proof_seconds[crate] += prover['seconds']
        if what == 'edit' and prover['edit']:
            self.number[crate] += 1
            self.edits.append((prover['processor'], f"{crate}/{prover['edit']}"))

    def longest_chain(self):
        """The chain of crates, each on the one before, whose proofs take longest one after the other."""
        below = {}
        for line in (ROOT / 'crates.txt').read_text().split('\n'):
            if line.strip() and not line.startswith('#'):
                name, _, on = line.partition(':')
                below[name.split()[0]] = on.split()
        best = {}

        def longest(name):
            if name not in best:
                under = max((longest(it) for it in below[name] if it in below), default=(0.0, []))
                best[name] = under[0] + self.proof_seconds[name], under[1] + [name]
            return best[name]

        return max(longest(name) for name in below)

    def tell(self):
        print(f'{self.whole / 60:.1f} minutes; {self.verdict}')
        for what, said in (('proof', 'proofs'), ('tests', 'tests'), ('edit', 'edits')):
            much = sum(it[what] for it in self.cost.values())
            print(f'{said}: {much / 60:.1f} processor minutes, done after {self.done.get(what, 0) / 60:.1f} minutes')
        print(f"\n{'crate':22}{'proof':>8}{'tests':>8}{'edits':>8}{'number':>8}   (processor seconds)")
        for crate, it in sorted(self.cost.items(), key=lambda pair: -sum(pair[1].values())):
            print(f"{crate:22}{it['proof']:8.0f}{it['tests']:8.0f}{it['edit']:8.0f}{self.number[crate]:8}")
        seconds, chain = self.longest_chain()
        print(f'\nlongest chain: {seconds / 60:.1f} minutes: ' + ', '.join(f'{it} {self.proof_seconds[it]:.0f}' for it in chain))
        print(f'\nthe {DEAREST} dearest of {len(self.edits)} edits:')
        for cost, name in sorted(self.edits, reverse=True)[:DEAREST]:
            print(f'{cost:6.0f} {name}')


def main(words):
    if len(words) < 1 or len(words) > 1 and (words[1] != '--' or len(words) == 2):
        sys.exit(__doc__)
    status = run(words[0], words[2:]) if len(words) > 1 else 0
    Figures(words[0]).tell()
    sys.exit(status)


if __name__ == '__main__':
    main(sys.argv[1:])
