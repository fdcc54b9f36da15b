#!/usr/bin/env python3
"""Where the time of a crate's proof goes, function by function.

    scripts/slowest.py CRATE

checks the crate from nothing (`rt check`) and prints the seconds of each function and law file, dearest first. The
check saves each module as it is done; the times are those between one save and the next, so nothing else should run. What another
copy of the repository on this machine has proved is taken from there, and does not count.
"""
import collections
import pathlib
import shutil
import subprocess
import sys
import time

ROOT = pathlib.Path(__file__).resolve().parent.parent


def subject(path):
    """The function or file that a module was made for."""
    parts = path.name.removesuffix('.oantt').split('.')[1:]
    made = [number for number, part in enumerate(parts) if part[:1].isupper()]
    return '.'.join(parts[:made[0]] or parts[:1]) if made else '.'.join(parts)


def main():
    crate = sys.argv[1]
    folder = ROOT / 'crates' / crate / 'out' / 'incremental'
    shutil.rmtree(folder, ignore_errors=True)
    start = time.time()
    subprocess.run(['rt', 'check'], cwd=ROOT / 'crates' / crate, capture_output=True, check=True)
    saved = sorted((made, path) for path in folder.rglob('*.oantt') if (made := path.stat().st_mtime) >= start)
    seconds = collections.Counter()
    for (before, _), (after, path) in zip(saved, saved[1:]):
        seconds[subject(path)] += after - before
    for name, spent in seconds.most_common(25):
        print(f'{spent:6.2f} {name}')
    print(f'{saved[-1][0] - saved[0][0] if saved else 0:6.2f} in all')


main()
