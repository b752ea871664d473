#!/usr/bin/env python3
"""Says whether a file may be opened by `guarddb serve` without becoming one of another format: may_open.py FILE yes|no

A file of format 1 becomes one of format 2 where it is opened, without a way back. Such a file is refused with status 4 unless the second word
is yes. Whatever else the file is, `guarddb serve` says what is wrong with it.
"""
import sys

from guarddb_layout import format_of

FIRST_FORMAT = 1
REFUSED, WRONG_WORDS = 4, 2


def is_of_first_format(path):
    try:
        return format_of(path) == FIRST_FORMAT
    except OSError:
        return False        # so `guarddb serve` says that it cannot be read


def main():
    if len(sys.argv) != 3 or sys.argv[2] not in ('yes', 'no'):
        print('usage: may_open.py FILE yes|no', file=sys.stderr)
        return WRONG_WORDS
    path, may_migrate = sys.argv[1], sys.argv[2] == 'yes'
    if may_migrate or not is_of_first_format(path):
        return 0
    print(f'guarddb: {path} is of format 1, and its opening makes it one of format 2. Keep a dump: guarddb dump {path} {path}.dump\n'
          'guarddb: then MIGRATE=yes in /etc/guarddb/NAME.conf lets it be opened', file=sys.stderr)
    return REFUSED


if __name__ == '__main__':
    sys.exit(main())
