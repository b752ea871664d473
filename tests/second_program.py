#!/usr/bin/env python3
"""What the program of a test crate is to write, by a second program:

    python3 tests/second_program.py CRATE [--all] < crates/CRATE/stdin

A line `part NAME` begins a part, and the module NAME.py in the crate's folder answers its lines. With --all the part `images` is
answered as the program answers it with the word `all`.
"""
import importlib
import os
import sys

CRATES = os.path.join(os.path.dirname(os.path.dirname(os.path.abspath(__file__))), 'crates')
PART = 'part '


def parts_of(lines):
    """The parts of an input, each with its name and its lines."""
    starts = [at for at, line in enumerate(lines) if line.startswith(PART)]
    for start, end in zip(starts, [*starts[1:], len(lines)]):
        yield lines[start][len(PART):], lines[start + 1:end]


def main(crate, *words):
    sys.path.insert(0, os.path.join(CRATES, crate))
    for name, lines in parts_of(sys.stdin.read().splitlines()):
        more = {'tries_all': True} if name == 'images' and '--all' in words else {}
        for line in importlib.import_module(name).answers(lines, **more):
            print(line)


if __name__ == '__main__':
    main(*sys.argv[1:])
