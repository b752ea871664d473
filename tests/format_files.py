#!/usr/bin/env python3
"""Writes a file of each format, and of later ones, by docs/formats.md alone: python3 tests/format_files.py

The files go to tests/formats, where they stay as they are: each NAME.txt has lines `put TIMES BYTES` and `at OFFSET BYTES`, and zeros up
to 64 pages. The command compares them with what it
makes; with the word `write` it first writes those that are missing. The records
are spelled by crates/system_tests/images.py, a second program, which shares nothing with the program either.
"""
import os
import sys

TESTS = os.path.dirname(os.path.abspath(__file__))
FORMATS = os.path.join(TESTS, 'formats')
sys.dont_write_bytecode = True
sys.path.insert(0, os.path.join(os.path.dirname(TESTS), 'crates', 'system_tests'))
import images       # noqa: E402

LENGTH = images.PAGES * images.PAGE
SECTOR = images.SECTOR


def later_root(form, count, rest=b''):
    """The sector of a root of a later format: all behind its number is that format's own."""
    number = images.number
    return (images.MAGIC + number(form, 4) + number(images.PAGES, 4) + number(count, 8) + rest).ljust(SECTOR, b'\0')


def known(form):
    """A device whose roots have the numbers 11 and 12, and in format 3 a record of one commit behind them."""
    db = images.database(images.GRANTS)
    device = images.device_of_grants(db, form)
    if form == 3:
        journal = images.Journal(12)
        old, new = images.records_of(db, 2), images.records_of(images.database(images.GRANTS + images.COMMITS[0]), 2)
        journal.append(13, images.batch_of(old, new))
        for at, sector in journal.sectors.items():
            device.put(SECTOR * (images.JOURNAL_START + at), sector)
    return device


def later(form, *roots):
    """A device of a known format, or of zeros, with such roots in the place of others."""
    device = known(form) if form else images.Device()
    for sector, root in roots:
        device.put(SECTOR * sector, root)
    return device


def files():
    """The bytes of each file, by its name."""
    made = {f'format_{form}': known(form) for form in (1, 2, 3)}
    made |= {
        'later_alone': later(0, (0, later_root(4, 0, b'a sum'))),
        'later_above_format_2': later(2, (1, later_root(4, 13, b'\xff' * 480))),
        'later_above_format_3': later(3, (1, later_root(7, 13))),
        'two_later': later(0, (0, later_root(4, 30)), (1, later_root(5, 31))),
        'later_below_format_2': later(2, (1, later_root(4, 11))),
        'later_of_the_wrong_sector': later(0, (0, later_root(4, 13))),
        'no_format': later(0, (0, later_root(0, 12))),
    }
    return {name: bytes(device.image) for name, device in made.items()}


def bytes_of(name):
    """What a file of tests/formats holds."""
    data = bytearray()
    with open(os.path.join(FORMATS, name + '.txt'), encoding='utf-8') as file:
        for line in file:
            _, times, digits = line.split(' ', 2)
            data += bytes.fromhex(digits) * int(times)
    return bytes(data.ljust(LENGTH, b'\0'))


def names():
    return sorted(name.removesuffix('.txt') for name in os.listdir(FORMATS) if name.endswith('.txt'))


def main(*words):
    made = files()
    for name, data in made.items():
        path = os.path.join(FORMATS, name + '.txt')
        if words == ('write',) and not os.path.exists(path):
            with open(path, 'w', encoding='utf-8') as file:
                file.writelines(line + '\n' for line in images.lines_of(data))
    wrong = sorted({name for name in names() if made.get(name) != bytes_of(name)} | made.keys() - set(names()))
    for name in wrong:
        print(name, 'differs')
    return 1 if wrong else 0


if __name__ == '__main__':
    sys.exit(main(*sys.argv[1:]))
