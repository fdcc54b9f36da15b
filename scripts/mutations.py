#!/usr/bin/env python3
"""Small wrong edits of the sources, and whether anything refuses them. Not part of the gate.

    scripts/mutations.py [COUNT [SEED [CRATE ..]]]

draws COUNT edits (50) of src/ by SEED (1), spread over the crates named, or all library crates: an operator, a constant, an
operand or a truth value changed on one line of code, or two tests in a row changed about. Each is made in a copy of the
repository and handed to the prover (`rt check`); one that is no program at all does not count, and another is
drawn for it. An edit that the prover accepts is then run through the programs' stored cases. What is left after both is a
survivor: it either does not change what the code does, or it shows a promise that is too weak.
"""
import pathlib
import random
import re
import shutil
import subprocess
import sys
import tempfile

ROOT = pathlib.Path(__file__).resolve().parent.parent
CRATES = [
    'refusal', 'reading', 'hydrogen', 'activity', 'record', 'agreement', 'solution', 'judge', 'docket', 'chart', 'words',
    'chart_section', 'batch', 'listing', 'joining', 'analyser', 'cases', 'input',
]

# What is written in place of what. Of an edit that fits in several places of a line, one place is drawn.
SWAPS = [
    (r' < ', ' <= '), (r' <= ', ' < '), (r' > ', ' >= '), (r' >= ', ' > '), (r' == ', ' != '), (r' != ', ' == '),
    (r' \+ ', ' - '), (r' - ', ' + '), (r' \* ', ' + '), (r' \+= ', ' -= '), (r'\btrue\b', 'false'), (r'\bfalse\b', 'true'),
    (r'if !', 'if '), (r'\bfirst\b', 'second'), (r'\bsecond\b', 'first'), (r'\bleast\b', 'most'), (r'\bmost\b', 'least'),
    (r'\bsetup\b', 'later'), (r'\bone\b', 'other'), (r'\bother\b', 'one'), (r'\((\w+), (\w+)\)', r'(\2, \1)'),
]

# A test that ends the function where it fails, on three lines.
TEST = re.compile(r'(    if [^\n]* \{\n        return [^\n]*;\n    \}\n)(    if [^\n]* \{\n        return [^\n]*;\n    \}\n)')


def code_lines(path):
    """The lines of code, without comments, contracts, attributes and names of modules."""
    for number, line in enumerate(path.read_text(encoding='utf-8').split('\n')):
        text = line.strip()
        skipped = ('//', 'use ', 'ghost ', 'mod ', 'pub mod', 'requires', 'ensures', '#', 'pub fn', 'fn ', 'pub(crate)', 'pub extern')
        if text and not text.startswith(skipped):
            yield number, line


def edits_of_line(line):
    for old, new in SWAPS:
        for found in re.finditer(old, line):
            yield line[:found.start()] + found.expand(new) + line[found.end():]
    for found in re.finditer(r'(?<![\w.])\d+(?![\w.])', line):
        yield line[:found.start()] + str(int(found.group()) + 1) + line[found.end():]


def edits_of_crate(crate):
    """Every edit of a crate: the file, the number of its first line, the lines and what replaces them. Of a table, one entry in forty."""
    edits = []
    for path in sorted((ROOT / 'crates' / crate / 'src').glob('*.rt')):
        text = path.read_text(encoding='utf-8')
        place = path.relative_to(ROOT)
        for number, line in code_lines(path):
            if re.fullmatch(r'\s*\d+,', line) and number % 40:
                continue
            edits += [(place, number, line, new) for new in edits_of_line(line) if new != line]
        for found in TEST.finditer(text):
            first, second = found.groups()
            edits.append((place, text[:found.start()].count('\n'), (first + second).rstrip('\n'), (second + first).rstrip('\n')))
    return edits


def drawn(seed, crates):
    """Edits taken from the crates in turn."""
    draw = random.Random(seed)
    piles = {crate: draw.sample(edits, len(edits)) for crate in crates for edits in [edits_of_crate(crate)]}
    while any(piles.values()):
        for crate in crates:
            if piles[crate]:
                yield crate, piles[crate].pop()


def run(copy, *words):
    return subprocess.run(['rt', *words], cwd=copy, capture_output=True, text=True)


def stored_cases_hold(copy):
    """Whether each program prints what is stored beside it. `join`, which reads files, is left to the gate."""
    for program in ('peltquarry', 'follow', 'replay'):
        folder = copy / 'crates' / program
        printed = subprocess.run(['rt', 'run'], cwd=folder, stdin=(folder / 'stdin').open('rb'), capture_output=True).stdout
        if printed != (folder / 'stdout').read_bytes():
            return False
    return True


def refused_by(copy, crate):
    """What refuses the crate as it stands in the copy: the front end, the prover, a stored case, or nothing."""
    said = run(copy / 'crates' / crate, 'check')
    if said.returncode == 0:
        return None if run(copy, 'all', 'check').returncode == 0 and stored_cases_hold(copy) else 'a crate above it, or a stored case'
    return 'the prover' if 'logic=not-proved' in said.stdout + said.stderr else 'the front end'


def tried(copy, crate, edit):
    path, number, line, new = edit
    file = copy / path
    before = file.read_text(encoding='utf-8')
    start = len(''.join(before.splitlines(keepends=True)[:number]))
    file.write_text(before[:start] + new + before[start + len(line):], encoding='utf-8')
    try:
        return refused_by(copy, crate)
    finally:
        file.write_text(before, encoding='utf-8')


def main():
    count = int(sys.argv[1]) if len(sys.argv) > 1 else 50
    seed = int(sys.argv[2]) if len(sys.argv) > 2 else 1
    crates = sys.argv[3:] or CRATES
    counts = {}
    with tempfile.TemporaryDirectory() as folder:
        copy = pathlib.Path(folder) / 'copy'
        shutil.copytree(ROOT, copy, ignore=shutil.ignore_patterns('.git', 'reference', 'differential', 'benchmark'))
        if run(copy, 'all', 'check').returncode != 0:
            sys.exit('the crates as they stand are not proved')
        for crate, edit in drawn(seed, crates):
            if sum(counts.values()) == count:
                break
            by = tried(copy, crate, edit)
            if by == 'the front end':
                continue
            counts[by or 'nothing'] = counts.get(by or 'nothing', 0) + 1
            path, number, line, new = edit
            print(f'{"SURVIVES" if by is None else "refused by " + by}: {path}:{number + 1}\n    {line.strip()}\n    {new.strip()}', flush=True)
    print(', '.join(f'{n} refused by {by}' for by, n in sorted(counts.items())))


main()
