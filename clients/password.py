#!/usr/bin/env python3
"""Makes verifiers of passwords, which a table of passwords keeps (docs/passwords.md). Each is printed as PostgreSQL spells it.

    python3 clients/password.py < FILE      # that of the password in the first line of standard input
    python3 clients/password.py             # that of a password which is typed twice, without its echo
    python3 clients/password.py --new       # draws a password, prints it, and its verifier in the next line
    python3 clients/password.py --mock      # one of drawn keys, which nobody has the password of

A password is taken from no argument, since every user of the machine may read those of a program.
"""
import sys

import guarddb_scram

MOST = 1100         # bytes that are read, more than a password has


def given():
    """The password that is typed, or stands in the first line of standard input, which has no other."""
    if sys.stdin.isatty():
        return guarddb_scram.asked_twice('')
    line, _, rest = sys.stdin.buffer.read(MOST).partition(b'\n')
    if rest:
        raise ValueError('standard input has more than the line of a password')
    return line.decode('latin-1')


def lines_of(words):
    """The lines to print for the words of the command line; None where these are others."""
    if words == ['--mock']:
        return [guarddb_scram.mock()]
    if words == ['--new']:
        password = guarddb_scram.drawn()
        return [password, guarddb_scram.verifier(password)]
    return None if words else [guarddb_scram.verifier(given())]


def main():
    if sys.argv[1:] in (['--help'], ['-h']):
        print(__doc__.strip())
        return 0
    try:
        lines = lines_of(sys.argv[1:])
    except (ValueError, EOFError, OSError) as fault:
        print(f'password.py: {fault or "nothing was typed"}', file=sys.stderr)
        return 1
    if lines is None:
        print('usage: password.py [--new | --mock], with a password on standard input and on no command line', file=sys.stderr)
        return 2
    print('\n'.join(lines))
    return 0


if __name__ == '__main__':
    sys.exit(main())
