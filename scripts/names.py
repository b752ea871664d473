#!/usr/bin/env python3
"""Finds names that stand for two things in crates/:

    python3 scripts/names.py

- a name of two types: struct, enum, union, trait, or a `type` of a module. A type that belongs to a trait or an impl is no name of
  its own there, and is not looked at. Two variants of enums may have one name;
- a name that the definitions of two crates declare, in specs/: a `data` or `record`, or a public definition whose name begins with a
  capital. Those that stand in names_left.txt may, in the crates that it names; a line of it that is true no more is a finding, too.

A line for each such name with the places where it is declared; the status is 1 where there is one.
"""
import collections
import glob
import os
import re
import sys

TOP = os.path.dirname(os.path.dirname(os.path.realpath(__file__)))
CRATES = os.path.join(TOP, 'crates')
LEFT = os.path.join(TOP, 'scripts', 'names_left.txt')

# A declaration that begins its line, as each item of a module does in the layout of `rt fmt`.
DECLARED = re.compile(r'(?:pub(?:\([^)]*\))? )?(?:unsafe )?(?:struct|enum|union|trait|type) (\w+)')
# The same of specs/, whose layout is the hand's.
DEFINED = re.compile(r'(?:pub )?(?:data|record) (\w+)|(?:abbrev pub|pub abbrev|pub) ([A-Z]\w*)')


def sources(folder, ending):
    """The paths of all files of a folder of each crate."""
    return sorted(glob.glob(os.path.join(CRATES, '*', folder, '**', f'*.{ending}'), recursive=True))


def declared(paths, declaration):
    """The places of each name, as `crates/CRATE/src/FILE:LINE`."""
    found = collections.defaultdict(list)
    for path in paths:
        with open(path, encoding='utf-8') as file:
            for number, line in enumerate(file, 1):
                name = declaration.match(line)
                if name:
                    found[name[name.lastindex]].append(f'{os.path.relpath(path, TOP)}:{number}')
    return found


def crates_of(places):
    return {place.split(os.sep)[1] for place in places}


def left():
    """The names that may stand in several crates, each with these crates."""
    with open(LEFT, encoding='utf-8') as file:
        lines = [line.split('#')[0].strip() for line in file]
    return {name.strip(): set(crates.split()) for name, _, crates in (line.partition(':') for line in lines if line)}


def main():
    twice = {name: places for name, places in declared(sources('src', 'rt'), DECLARED).items() if len(places) > 1}
    for name, places in sorted(twice.items()):
        print(f'{name}: {", ".join(places)}')
    print(f'{len(twice)} names stand for two types')
    defined, may = declared(sources('specs', 'antt'), DEFINED), left()
    apart = {name: places for name, places in defined.items() if len(crates_of(places)) > 1}
    new = {name: places for name, places in apart.items() if not crates_of(places) <= may.get(name, set())}
    for name, places in sorted(new.items()):
        print(f'{name}: {", ".join(places)}')
    stale = sorted(name for name in may if name not in apart or may[name] - crates_of(apart[name]))
    for name in stale:
        print(f'scripts/names_left.txt: {name} is defined in fewer crates')
    print(f'{len(new)} more names are defined in two crates than the {len(may)} that are left, and {len(stale)} of these less')
    return 1 if twice or new or stale else 0


sys.exit(main())
