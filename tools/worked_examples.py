#!/usr/bin/env python3
"""Makes theorems and tests of the worked examples, and tests of verdicts.

    tools/worked_examples.py            writes the files that are made of examples/worked.txt and examples/verdicts.txt
    tools/worked_examples.py --check    writes nothing; says which of them differ, and exits 1 where one does

The table says itself how it is read. In crates/cc_worked each example's input becomes a definition in
specs/Inputs.antt, and its theorem stands in proofs/Examples1.antt and the files after it (`Works`): the plain run of
the input writes the output; the run is lawful and quiet by the tests that decide it; it passes the audit. Of an
example that ends with status 5 the theorem says what its input writes within the bytes allowed.

In crates/cc_examples src/worked.rt and the files of src/worked get the examples that the program can be run on: those in
which no memory is refused. Of these the ones with the widest limits, whose whole script is read, are rows of texts.

Of examples/verdicts.txt, scripts with transcripts that are lawful or not, crates/cc_tests_check gets src/verdicts.rt and the files
of src/verdicts.
"""
import re
import sys
from pathlib import Path

ROOT = Path(__file__).resolve().parent.parent
TABLE = ROOT / 'examples' / 'worked.txt'
CRATE = ROOT / 'crates' / 'cc_worked'
TESTS = ROOT / 'crates' / 'cc_examples' / 'src'
VERDICTS = ROOT / 'examples' / 'verdicts.txt'
VERDICT_TESTS = ROOT / 'crates' / 'cc_tests_check' / 'src'
EXAMPLES_IN_A_FILE = 8
VERDICTS_IN_A_TEST = 20
ROWS_IN_A_TEST = 52
DEFAULT_LIMITS = (1000000, 1000000, 4294967295)
STATUSES = {0: 'Done', 5: 'Limit'}
OUTCOMES = {'lawful': 'Lawful', 'unlawful': 'Unlawful'}
STATUS_LIMIT = 5
CONTROLS = {'{cr}': 13, '{tab}': 9}
NOTE = '-- Made by tools/worked_examples.py from examples/worked.txt.\n'


class Example:
    def __init__(self, name):
        self.name = name
        self.shows = ''
        self.limits = DEFAULT_LIMITS
        self.refused = None
        self.input = []
        self.output = []
        self.status = 0
        self.verdict = None
        self.told = None

    def is_whole(self):
        """Whether the whole input is read."""
        return self.status == 0


class TableError(Exception):
    pass


# The table

def pieces(text):
    """A text cut into strings, for bytes as they stand, and pairs of a byte and how often it comes."""
    found = []
    for part in re.split(r'(\{[^}]*\})', text):
        repeated = re.fullmatch(r'\{(.)\*(\d+)\}', part)
        if repeated:
            found.append((ord(repeated[1]), int(repeated[2])))
        elif part in CONTROLS:
            found.append((CONTROLS[part], 1))
        elif part.startswith('{') and part != '{}':
            raise TableError(f'unknown {part}')
        elif part not in ('', '{}'):
            found.append(part)
    return found


def lines(text):
    found = []
    for line in text.split(' / '):
        found += pieces(line) + ['\n']
    return found


def joined(found):
    """The same pieces with neighbouring strings as one."""
    made = []
    for piece in found:
        if made and isinstance(piece, str) and isinstance(made[-1], str):
            made[-1] += piece
        else:
            made.append(piece)
    return made


def add_key(example, key, rest):
    if key == 'shows':
        example.shows = rest
    elif key == 'limits':
        natives, scripts, read = rest.split()
        example.limits = (int(natives), int(scripts), int(read))
    elif key == 'refuse':
        example.refused = int(rest)
    elif key == 'in':
        example.input += lines(rest)
    elif key == 'raw':
        example.input += pieces(rest)
    elif key == 'out':
        example.output += lines(rest)
    elif key == 'status':
        example.status = int(rest)
    elif key == 'end':
        example.output += pieces(rest)
    elif key == 'verdict':
        example.verdict = rest
    elif key == 'told':
        example.told = rest
    else:
        raise TableError(f'unknown word {key}')


def check_example(example, has_verdicts):
    if not example.shows:
        raise TableError(f'{example.name} has no line shows')
    if example.status not in STATUSES:
        raise TableError(f'{example.name} ends with status {example.status}, which no theorem says')
    if has_verdicts != (example.verdict in OUTCOMES):
        raise TableError(f'{example.name} has the verdict {example.verdict}')
    if (example.verdict == 'unlawful') != (example.told is not None):
        raise TableError(f'{example.name} is told {example.told}')


def read_table(path, has_verdicts=False):
    examples = []
    for number, line in enumerate(path.read_text(encoding='utf-8').splitlines(), 1):
        if not line.strip() or line.startswith('#'):
            continue
        key, _, rest = line.partition(' ')
        try:
            if key == 'example':
                if not re.fullmatch(r'[a-z][a-z0-9_]*', rest) or rest in [e.name for e in examples]:
                    raise TableError(f'{rest} is no new name')
                examples.append(Example(rest))
            elif not examples:
                raise TableError('no example has begun')
            else:
                add_key(examples[-1], key, rest)
        except (TableError, ValueError) as error:
            raise TableError(f'{path.name}, line {number}: {error}') from error
    for example in examples:
        check_example(example, has_verdicts)
    return examples


# The terms

def quoted(text):
    return 'codes "' + text.replace('\\', '\\\\').replace('"', '\\"').replace('\n', '\\n') + '"'


def term_of_piece(piece):
    if isinstance(piece, str):
        return quoted(piece)
    byte, times = piece
    return f'replicate {times} {byte}'


def term(found):
    """The term of a list of bytes."""
    parts = [term_of_piece(piece) for piece in joined(found)]
    return ' ++ '.join(parts) if parts else '[]'


def term_of_limits(limits):
    if limits == DEFAULT_LIMITS:
        return 'default_limits'
    return '(limits {} {} {})'.format(*limits)


def term_of_memory(refused):
    return 'ample' if refused is None else f'(refused_at {refused})'


def sentence(text):
    return text[0].upper() + text[1:] + '.'


def imports(body, words):
    """The lines that import, of each module, the words that stand in the text, comments and strings aside."""
    body = re.sub(r'--[^\n]*|"(?:[^"\\]|\\.)*"', '', body)
    made = ''
    for module, names in words:
        used = [name for name in names if re.search(r'(?<![\w.-])' + re.escape(name.strip('◌')) + r'(?![\w.-])', body)]
        if used:
            made += f'use {module}.{{{", ".join(used)}}}\n'
    return made


# The files

def file_of_inputs(examples):
    body = ''
    for example in examples:
        body += f'\n-- {sentence(example.shows)}\n'
        body += f'abbrev pub {example.name} : List ℕ\n{example.name} = {term(example.input)}\n'
    words = [('Rattle.std.specs.Prelude', ['ℕ', 'List', '[]', '◌++◌', 'codes', 'replicate'])]
    return '-- THE INPUTS of the worked examples.\n' + NOTE + imports(body, words) + body


THEOREM_WORDS = [
    ('Rattle.std.specs.Prelude', ['◌≡◌', '[]', '◌++◌', 'codes', 'replicate', 'refl']),
    ('Rattle.cc_worked.specs.Examples', ['limits', 'default_limits', 'ample', 'refused_at', 'text_within']),
]
OTHER_WORDS = [
    ('Rattle.cc_worked.specs.Works', ['Works']),
    ('Rattle.cc_worked.proofs.Opened', ['all_of_a_run']),
]


def theorem(example):
    name = example.name
    given = f'{term_of_limits(example.limits)} {term_of_memory(example.refused)} input.{name}'
    output = term(example.output)
    if example.is_whole():
        claim, proof = f'Works {given}\n    {output if output == "[]" else f"({output})"}', 'record { writes = refl; passes = refl; audited = refl }'
    else:
        claim, proof = f'text_within {given}\n    ≡ {output}', 'refl'
    return f'\n-- {sentence(example.shows)}\npub {name} : {claim}\nunfolding all_of_a_run\n{name} = {proof}\n'


def file_of_theorems(number, examples):
    body = ''.join(theorem(example) for example in examples)
    head = f'-- WORKED EXAMPLES, part {number}: what each writes, and that its run is lawful, quiet and passes the audit.\n' + NOTE
    return head + imports(body, THEOREM_WORDS) + 'use Rattle.cc_worked.specs.Inputs as input\n' + imports(body, OTHER_WORDS) + body


def file_of_names(parts):
    """The file by which other files cite the theorems, wherever they stand."""
    made = '-- THE WORKED EXAMPLES as theorems, from all the files in which they stand.\n' + NOTE
    for number, part in enumerate(parts, 1):
        names = [example.name for example in part]
        made += f'pub use Rattle.cc_worked.proofs.Examples{number}.{{{", ".join(names)}}}\n'
    return made


def file_of_modules(count):
    """The list of modules: the lines that were written by hand, and then one for each file that is made here."""
    lines = (CRATE / 'proofs' / 'Lib.antt').read_text(encoding='utf-8').splitlines()
    by_hand = [line for line in lines if not re.fullmatch(r'pub mod Examples\d*', line)]
    made = [f'pub mod Examples{i}' for i in range(1, count + 1)] + ['pub mod Examples']
    return ''.join(line + '\n' for line in by_hand + made)


# The tests

def plain_bytes(found):
    """The bytes themselves, as a text."""
    return ''.join(piece if isinstance(piece, str) else chr(piece[0]) * piece[1] for piece in found)


def can_be_run(example):
    """Whether no memory is refused: the program gets all that it asks for."""
    return example.refused is None


def byte_string(found):
    text = plain_bytes(found).replace('\\', '\\\\').replace('"', '\\"').replace('\r', '\\r').replace('\t', '\\t').replace('\n', '\\n')
    return f'b"{text}"'


def has_widest_limits(example):
    """Whether the limits are the widest, and the whole script is read within them."""
    return example.limits == DEFAULT_LIMITS and example.is_whole()


def row_of(example):
    """A row of a text: the name, the script and what it makes the program write, parted by bars; a semicolon parts the rows."""
    fields = [example.name, plain_bytes(example.input), plain_bytes(example.output)]
    if any(mark in field for field in fields for mark in '|;'):
        raise TableError(f'{example.name} has a bar or a semicolon, which part the rows of a text')
    return byte_string('|'.join(fields))[2:-1]


def file_of_rows(examples):
    rows = ';\\\n    '.join(row_of(example) for example in examples)
    return f"""//! Some of the worked examples: the name of each, its script, and what this makes the program write.
//!
//! Made by tools/worked_examples.py from examples/worked.txt.

use crate::script::rows_are_answered;

const ROWS: &str = "\\
    {rows}";

#[test]
fn worked_examples_are_answered(rt: HostRuntime) {{
    rows_are_answered(&rt, ROWS);
}}
"""


def test_case(example):
    natives, scripts, read = example.limits
    return f"""    // {sentence(example.shows)}
    Example {{
        name: "{example.name}",
        natives: {natives},
        scripts: {scripts},
        bytes: {read},
        input: {byte_string(example.input)},
        output: {byte_string(example.output)},
        status: Status::{STATUSES[example.status]},
    }},
"""


def file_of_tests(examples):
    cases = [test_case(example) for example in examples]
    return f"""//! The worked examples within narrower limits.
//!
//! Made by tools/worked_examples.py from examples/worked.txt.

use crate::script::{{Example, are_answered}};
use cc_replay::Status;

const EXAMPLES: [Example<'static>; {len(cases)}] = [
{''.join(cases)}];

#[test]
fn worked_examples_are_answered(rt: HostRuntime) {{
    are_answered(&rt, &EXAMPLES);
}}
"""


def files_of_tests(examples):
    """The text of each file of tests by its path."""
    wide = [example for example in examples if has_widest_limits(example)]
    parts = [wide[i:i + ROWS_IN_A_TEST] for i in range(0, len(wide), ROWS_IN_A_TEST)]
    texts = {f'part_{number}': file_of_rows(part) for number, part in enumerate(parts, 1)}
    texts['limits'] = file_of_tests([example for example in examples if not has_widest_limits(example)])
    made = {TESTS / 'worked' / f'{name}.rt': text for name, text in texts.items()}
    made[TESTS / 'worked.rt'] = f"""//! The worked examples that the program can be run on: what each script makes it write. Most stand in texts, a row each, since
//! the check of a table of values takes more steps the longer it is.
//!
//! Made by tools/worked_examples.py from examples/worked.txt.

{''.join(f'mod {name};' + chr(10) for name in sorted(texts))}"""
    return made


def told(example):
    """What is said of the transcript: where it parts from every lawful one, and why."""
    return 'lawful' if example.told is None else example.told


def verdict_case(example):
    natives, scripts, read = example.limits
    return f"""    // {sentence(example.shows)}
    Example {{
        name: "{example.name}",
        natives: {natives},
        scripts: {scripts},
        bytes: {read},
        script: {byte_string(example.input)},
        transcript: {byte_string(example.output)},
        verdict: Verdict::{OUTCOMES[example.verdict]},
        told: b"{told(example)}\\n",
    }},
"""


def file_of_verdicts(cases):
    return f"""//! Some transcripts, whether they are lawful, and else where they are not, and why.
//!
//! Made by tools/worked_examples.py from examples/verdicts.txt.

use crate::example::{{Example, are_judged}};
use cc_check::Verdict;

const EXAMPLES: [Example; {len(cases)}] = [
{''.join(cases)}];

#[test]
fn transcripts_are_judged(rt: HostRuntime) {{
    are_judged(&rt, &EXAMPLES);
}}
"""


def file_of_verdict_tables(count):
    return """//! Scripts with transcripts, right ones and wrong ones, and what a check of them comes to.
//!
//! Made by tools/worked_examples.py from examples/verdicts.txt.

""" + ''.join(f'mod {it};\n' for it in sorted(f'part_{number}' for number in range(1, count + 1)))


def files_of_verdicts(examples):
    """The text of each file of verdicts by its path."""
    cases = [verdict_case(example) for example in examples]
    tables = [cases[i:i + VERDICTS_IN_A_TEST] for i in range(0, len(cases), VERDICTS_IN_A_TEST)]
    made = {VERDICT_TESTS / 'verdicts' / f'part_{number}.rt': file_of_verdicts(table) for number, table in enumerate(tables, 1)}
    made[VERDICT_TESTS / 'verdicts.rt'] = file_of_verdict_tables(len(tables))
    return made


def files(examples):
    """The text of each file by its path."""
    parts = [examples[i:i + EXAMPLES_IN_A_FILE] for i in range(0, len(examples), EXAMPLES_IN_A_FILE)]
    made = {CRATE / 'specs' / 'Inputs.antt': file_of_inputs(examples)}
    for number, part in enumerate(parts, 1):
        made[CRATE / 'proofs' / f'Examples{number}.antt'] = file_of_theorems(number, part)
    made[CRATE / 'proofs' / 'Examples.antt'] = file_of_names(parts)
    made[CRATE / 'proofs' / 'Lib.antt'] = file_of_modules(len(parts))
    made.update(files_of_tests([example for example in examples if can_be_run(example)]))
    return made


def differing(made):
    """The paths of files that are not as they are to be, and of files of theorems or tests that are not to be."""
    wrong = [path for path, text in made.items() if not path.exists() or path.read_text(encoding='utf-8') != text]
    there = sorted((CRATE / 'proofs').glob('Examples*.antt')) + sorted((TESTS / 'worked').glob('*.rt'))
    there += sorted((VERDICT_TESTS / 'verdicts').glob('part_*.rt'))
    left_over = [path for path in there if path not in made]
    return wrong, left_over


def main():
    words = sys.argv[1:]
    if words not in ([], ['--check']):
        sys.exit('usage: worked_examples.py [--check]')
    try:
        made = files(read_table(TABLE))
        made.update(files_of_verdicts(read_table(VERDICTS, True)))
    except TableError as error:
        sys.exit(f'worked_examples.py: {error}')
    wrong, left_over = differing(made)
    if words:
        for path in wrong + left_over:
            print(f'{path.relative_to(ROOT)} is not what tools/worked_examples.py makes of the tables in examples', file=sys.stderr)
        sys.exit(1 if wrong or left_over else 0)
    for path in wrong:
        path.parent.mkdir(exist_ok=True)
        path.write_text(made[path], encoding='utf-8')
    for path in left_over:
        path.unlink()


if __name__ == '__main__':
    main()
