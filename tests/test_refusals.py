#!/usr/bin/env python3
"""Each of the thirty refusals comes through a socket, by its code: python3 tests/test_refusals.py

What stands after a refusal is tried too. Three of them need a server in want: of room in its file, of memory, and of a device
that writes; the last two are given limits of the system (setrlimit). The program is the one in the environment variable
GUARDDB, or else fake_guarddb.py, which has no such wants, so these three are then left out.
"""
import contextlib
import os
import resource
import shutil
import signal
import subprocess
import tempfile
import unittest

from program import IS_FAKE, PATIENCE, PROGRAM, free_port, make_database, served
import guarddb
from guarddb import Refused

SETUP = [
    'CREATE ROLE ann LOGIN', 'CREATE ROLE bob LOGIN', 'CREATE ROLE team', 'GRANT team TO ann',
    'CREATE TABLE t (k BIGINT PRIMARY KEY, x BIGINT, o TEXT)', "INSERT INTO t VALUES (1, 5, 'a')",
    'GRANT INSERT ON t TO ann WITH GRANT OPTION',
]
# a code and a statement of root that is refused so
BY_ROOT = [
    ('42601', 'SELEKT 1'),
    ('42622', f'CREATE ROLE {"n" * 64}'),
    ('42P01', 'SELECT k FROM absent'),
    ('42703', 'SELECT zz FROM t'),
    ('42702', 'SELECT k FROM t JOIN t AS u ON true'),
    ('42712', 'SELECT 1 FROM t JOIN t ON true'),
    ('42704', 'DROP ROLE absent'),
    ('42P07', 'CREATE TABLE t (k BIGINT PRIMARY KEY)'),
    ('42710', 'CREATE ROLE ann'),
    ('42701', 'CREATE TABLE v (k BIGINT PRIMARY KEY, k BIGINT)'),
    ('42804', "SELECT 1 + 'a'"),
    ('0LP01', 'GRANT ann TO team'),
    ('2BP01', 'DROP ROLE ann'),
    ('22012', 'SELECT 1 / 0'),
    ('22003', 'SELECT 9223372036854775807 + 1'),
    ('23502', 'INSERT INTO t (x) VALUES (1)'),
    ('23505', 'INSERT INTO t (k) VALUES (1)'),
    ('54000', f'SELECT {"(" * 65}1{")" * 65}'),
]


def limits(**values):
    """What a server is started with: limits of the system, and the signal for a file that is too large ignored."""
    def set_limits():
        signal.signal(signal.SIGXFSZ, signal.SIG_IGN)
        for name, value in values.items():
            resource.setrlimit(getattr(resource, name), (value, value))
    return {'preexec_fn': set_limits, 'restore_signals': False}


@contextlib.contextmanager
def served_in_want(path, **values):
    """A server of one connection under limits of the system: gives the server and its port."""
    port = free_port()
    server = subprocess.Popen([PROGRAM, 'serve', path, '--port', str(port), '--connections', '1'],
                              stdout=subprocess.DEVNULL, stderr=subprocess.DEVNULL, **limits(**values))
    try:
        yield server, port
    finally:
        if server.poll() is None:
            server.kill()
        server.wait()


class Refusals(unittest.TestCase):
    def setUp(self):
        self.folder = tempfile.mkdtemp(prefix='guarddb-')
        self.addCleanup(shutil.rmtree, self.folder)
        self.path = os.path.join(self.folder, 'db')

    def refused(self, code, call, *words):
        with self.assertRaises(Refused) as found:
            call(*words)
        self.assertEqual(found.exception.code, code, words)

    def started(self, connection):
        root = connection.open('root')
        for statement in SETUP:
            root.ask(statement)
        return root

    def test_statements_and_sessions(self):
        make_database(self.path)
        with served(self.path) as port, guarddb.connect(port, wait=PATIENCE, timeout=PATIENCE) as connection:
            root = self.started(connection)
            ann = connection.open('ann')
            for code, statement in BY_ROOT:
                self.refused(code, root.ask, statement)
            self.refused('42501', ann.ask, 'SELECT k FROM t')
            ann.ask('GRANT INSERT ON t TO bob')
            self.refused('2B000', root.ask, 'REVOKE INSERT ON t FROM ann')
            self.refused('28000', connection.open, 'nobody')
            self.refused('28000', connection.open, 'team')
            self.blocks(root, ann)
            self.numbers(connection)
            self.assertEqual(root.ask('SELECT count(*) FROM t', int), [[1]])

    def blocks(self, root, ann):
        root.ask('BEGIN')
        root.ask('INSERT INTO t (k) VALUES (2)')
        self.refused('55P03', ann.ask, 'INSERT INTO t (k) VALUES (3)')
        self.refused('42703', root.ask, 'SELECT zz FROM t')
        self.refused('25P02', root.ask, 'SELECT 1')
        root.ask('ROLLBACK')

    def numbers(self, connection):
        def exchange(kind, number, text=''):
            return guarddb.read_answer(connection.exchange(kind, number, text))
        self.refused('08003', exchange, guarddb.STATEMENT, 1000, 'SELECT 1')
        self.refused('08003', exchange, guarddb.CLOSE, 1000)
        self.refused('08002', exchange, guarddb.OPEN, 1, 'root')
        with contextlib.ExitStack() as sessions:
            for _ in range(254):
                sessions.enter_context(connection.open('root'))
            self.refused('53300', connection.open, 'root')

    def test_a_bad_frame(self):
        make_database(self.path)
        with served(self.path) as port, guarddb.connect(port, wait=PATIENCE, timeout=PATIENCE) as connection:
            connection.socket.sendall(bytes.fromhex('000000050900000001'))
            self.assertEqual(connection.input.read(), bytes.fromhex('000000130400000000') + b'refused 08P01\n')

    @unittest.skipIf(IS_FAKE, 'needs the program')
    def test_no_room(self):
        make_database(self.path, pages=64)
        with served(self.path) as port, guarddb.connect(port, wait=PATIENCE, timeout=PATIENCE) as connection:
            root = self.started(connection)
            count = 1

            def insert():
                root.ask(f"INSERT INTO t VALUES ({count + 1}, 0, '{'o' * 1000}')")
            with self.assertRaises(Refused) as found:
                while count < 1000:
                    insert()
                    count += 1
            self.assertEqual(found.exception.code, '53100')
            root.ask('BEGIN')
            self.assertEqual(root.ask('SELECT count(*) FROM t', int), [[count]])
            insert()                                    # held in the block, which has not come to the file
            self.refused('53100', root.ask, 'COMMIT')
            self.assertEqual(root.ask('SELECT count(*) FROM t', int), [[count + 1]])
            root.ask('ROLLBACK')
            self.assertEqual(root.ask('SELECT count(*) FROM t', int), [[count]])

    @unittest.skipIf(IS_FAKE, 'needs the program')
    def test_no_memory(self):
        make_database(self.path)
        with served_in_want(self.path, RLIMIT_AS=200_000_000) as (server, port):
            with guarddb.connect(port, wait=PATIENCE, timeout=PATIENCE) as connection:
                root = self.started(connection)
                for first in range(2, 402, 20):
                    rows = ', '.join(f"({k}, {k}, '{'o' * 100}')" for k in range(first, first + 20))
                    root.ask(f'INSERT INTO t VALUES {rows}')
                product = 'FROM t JOIN t AS u ON true JOIN t AS v ON true'
                self.refused('53200', root.ask, f'SELECT t.o, u.o, v.o {product} ORDER BY v.x, u.x, t.x')
                self.assertEqual(root.ask('SELECT count(*) FROM t', int), [[401]])
            self.assertEqual(server.wait(PATIENCE), 0)

    @unittest.skipIf(IS_FAKE, 'needs the program')
    def test_a_device_that_fails(self):
        make_database(self.path)
        with served(self.path) as port, guarddb.connect(port, wait=PATIENCE, timeout=PATIENCE) as connection:
            self.started(connection)
        with served_in_want(self.path, RLIMIT_FSIZE=4096) as (server, port):
            with guarddb.connect(port, wait=PATIENCE, timeout=PATIENCE) as connection:
                root = connection.open('root')
                self.assertEqual(root.ask('SELECT count(*) FROM t', int), [[1]])
                self.refused('58030', root.ask, 'INSERT INTO t (k) VALUES (2)')
                self.refused('58030', root.ask, 'SELECT 1')
            self.assertEqual(server.wait(PATIENCE), 1)
        with served(self.path) as port, guarddb.connect(port, wait=PATIENCE, timeout=PATIENCE) as connection:
            self.assertIn(connection.open('root').ask('SELECT count(*) FROM t', int), ([[1]], [[2]]))


if __name__ == '__main__':
    unittest.main()
