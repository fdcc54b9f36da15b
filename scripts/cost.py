#!/usr/bin/env python3
"""What a change costs: a table of every crate, for the notes of docs/changes/, which compare before and after.

    scripts/cost.py [--check]

Lines are counted without blank ones and comments. With --check each crate is also touched (a comment at the end of its root
file) and handed to `rt check`, which begins with what was proved before.
"""
import pathlib
import subprocess
import sys
import time

ROOT = pathlib.Path(__file__).resolve().parent.parent


def crates():
    lines = (ROOT / 'crates.txt').read_text(encoding='utf-8').split('\n')
    return [line.split(':')[0].split()[0] for line in lines if ':' in line and not line.startswith('#')]


def lines_in(paths):
    comments = ('//', '--')
    texts = [path.read_text(encoding='utf-8').split('\n') for path in paths]
    return sum(1 for text in texts for line in text if line.strip() and not line.strip().startswith(comments))


def counted(crate):
    folder = ROOT / 'crates' / crate
    proofs = list(folder.glob('proofs/**/*.antt'))
    of_a_function = ('Invariants.antt', 'Answers.antt', 'Proof.antt')
    functions = [path for path in proofs if path.name in of_a_function]
    laws = [path for path in proofs if path.name not in of_a_function]
    edits = len(list(folder.glob('must-fail/*.edit')))
    return lines_in(folder.glob('src/**/*.rt')), lines_in(folder.glob('specs/**/*.antt')), lines_in(laws), lines_in(functions), edits


def check_seconds(crate):
    root = next(path for name in ('lib.rt', 'main.rt') if (path := ROOT / 'crates' / crate / 'src' / name).exists())
    before = root.read_text(encoding='utf-8')
    root.write_text(before + '// touched\n', encoding='utf-8')
    try:
        start = time.monotonic()
        subprocess.run(['rt', 'check'], cwd=ROOT / 'crates' / crate, capture_output=True, check=True)
        return f'{time.monotonic() - start:.0f}'
    finally:
        root.write_text(before, encoding='utf-8')


def main():
    with_check = '--check' in sys.argv
    print('| crate | src | specs | laws | function proofs | edits |' + (' `rt check` s |' if with_check else ''))
    print('|---|---|---|---|---|---|' + ('---|' if with_check else ''))
    for crate in crates():
        source, specs, laws, functions, edits = counted(crate)
        row = f'| `{crate}` | {source} | {specs} | {laws} | {functions} | {edits} |'
        print(row + (f' {check_seconds(crate)} |' if with_check else ''))


main()
