#!/usr/bin/env python3
"""Says whether a server answers: python3 clients/ping.py PLACE [--wait SECONDS] [--timeout SECONDS]

PLACE is a place as `guarddb serve --at` has it, without the words behind its comma: port:P, socket:PATH, pgport:P or pgsocket:FOLDER; or a
number, for a port, or the path of a socket. A session is asked for that no role has, or an encrypted connection, which no place has: so
nobody is let in, nothing is read of the database, and each place answers, also one that asks for passwords. With --wait it is tried again
for so many seconds, as where a server only starts. An answer may take SECONDS of --timeout, 5 without it.

Prints `ok PING` and ends with status 0 where an answer came; with 1 and the reason on standard error where none did, or where the server's
device has failed, so that it serves nobody any more; with 2 for words that cannot be.
"""
import argparse
import contextlib
import os
import socket
import struct
import sys
import time

import guarddb

FAILED, WRONG_WORDS = 1, 2
NOBODY = guarddb.HEAD.pack(5, guarddb.OPEN, 1)      # the frame that asks for a session of the role without a name
SSL_REQUEST = struct.pack('>II', 8, 80877103)       # PostgreSQL's: it is answered in one byte before anything else is said
STOPPED = b'refused 58030\n'                        # of a server whose device has failed
MOST_SECONDS = 86400


def place_of(word):
    """A port or a path, and whether PostgreSQL's protocol is spoken there; a ValueError for a word that is no place."""
    kind, colon, where = word.partition(':')
    if not colon or kind not in ('port', 'socket', 'pgport', 'pgsocket'):
        kind, where = ('port' if word.isascii() and word.isdigit() else 'socket'), word
    if not where or '\0' in where:
        raise ValueError
    if kind == 'pgsocket':
        return os.path.join(where, '.s.PGSQL.5432'), True
    if kind == 'socket':
        return where, False
    port = int(where) if where.isascii() and where.isdigit() else 0
    if not 1 <= port <= 65535:
        raise ValueError
    return port, kind == 'pgport'


def said(place, asked, timeout):
    """What a server says at a place, which is some bytes, after it was sent this. An OSError where it says nothing."""
    with guarddb.connected(place, 0, timeout, None) as connection:
        with contextlib.suppress(BrokenPipeError):      # what a full server says is there before it is sent anything
            connection.socket.sendall(asked)
        found = connection.socket.recv(100)
    if not found:
        raise ConnectionError('the server has closed the connection')
    return found


def ask(place, is_postgres, timeout):
    """Asks once. An OSError where no answer comes."""
    try:
        found = said(place, SSL_REQUEST if is_postgres else NOBODY, timeout)
    except ConnectionResetError:        # what a full server says may be lost where it was sent something
        found = said(place, b'', timeout)
    if found.endswith(STOPPED):
        raise ConnectionError('the device of the server has failed, and it serves nobody')


def ping(place, is_postgres, wait, timeout):
    """Asks until an answer comes, for so many seconds. An OSError where none does."""
    end = time.monotonic() + wait
    while True:
        try:
            return ask(place, is_postgres, timeout)
        except OSError:
            if time.monotonic() >= end:
                raise
        time.sleep(0.05)


def seconds(text):
    number = float(text)
    if not 0 <= number <= MOST_SECONDS:
        raise ValueError
    return number


def words_of():
    parser = argparse.ArgumentParser(description='Says whether a Guarddb server answers at PLACE.')
    parser.add_argument('place', metavar='PLACE', type=place_of, help='port:P, socket:PATH, pgport:P, pgsocket:FOLDER, a port or a path')
    parser.add_argument('--wait', metavar='SECONDS', type=seconds, default=0, help='how long it is tried again')
    parser.add_argument('--timeout', metavar='SECONDS', type=seconds, default=5, help='how long an answer may take')
    return parser.parse_args()


def reason_of(fault):
    return 'no answer came in time' if isinstance(fault, socket.timeout) else str(fault) or type(fault).__name__


def main():
    words = words_of()
    try:
        ping(*words.place, words.wait, words.timeout or 0.001)
    except OSError as fault:
        print(f'ping.py: {reason_of(fault)}', file=sys.stderr)
        return FAILED
    print('ok PING')
    return 0


if __name__ == '__main__':
    sys.exit(main())
