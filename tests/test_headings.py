#!/usr/bin/env python3
"""What a statement would answer, as a client asks for it in frames: python3 tests/test_headings.py

The program is the one in the environment variable GUARDDB; without it nothing is tried.
"""
import contextlib
import os
import random
import signal
import socket
import subprocess
import sys
import unittest

from postgres_client import AtServer
from program import IS_FAKE, PATIENCE, PROGRAM, TOP, frame, free_port, run
from test_passwords import AtPlace
import guarddb

SETUP = ['open r root', 'r: CREATE TABLE n (name TEXT PRIMARY KEY, at BIGINT NOT NULL, done BOOLEAN)', "r: INSERT INTO n VALUES ('a', 1, NULL)",
         'r: GRANT SELECT (name) ON n TO bob']
COLUMNS = 'rows 3\nname\ttext\nat\tint8\ndone\tbool\n'


def answers_in(told):
    """The answers in some bytes, each with its session; the pieces of a long one are put together."""
    found, is_more = [], False
    while told:
        length, kind, number = guarddb.HEAD.unpack(told[:9])
        text, told = told[9:4 + length], told[4 + length:]
        assert kind == guarddb.ANSWER, kind
        found[-1:] = [(number, found[-1][1] + text)] if is_more else [*found[-1:], (number, text)]
        is_more = len(text) == guarddb.MAX_TEXT
    return [(number, text.decode()) for number, text in found]


@contextlib.contextmanager
def serving(path, *words):
    """A server with these words, which listens."""
    server = subprocess.Popen([PROGRAM, 'serve', path, *words], stdout=subprocess.DEVNULL, stderr=subprocess.PIPE, text=True)
    try:
        server.stderr.readline()
        yield
        server.send_signal(signal.SIGTERM)
        server.communicate(timeout=PATIENCE)
    finally:
        if server.poll() is None:
            server.kill()
        server.communicate()


def told_to(place, *pieces):
    """All that is told of these bytes, which go out piece by piece, until the server ends the connection or has no more of them."""
    with socket.socket(socket.AF_INET if isinstance(place, int) else socket.AF_UNIX) as stream:
        stream.settimeout(PATIENCE)
        stream.connect(('127.0.0.1', place) if isinstance(place, int) else place)
        with contextlib.suppress(ConnectionError):      # the server may have ended it already
            for piece in pieces:
                stream.sendall(piece)
            stream.shutdown(socket.SHUT_WR)
        return answers_in(b''.join(iter(lambda: stream.recv(65536), b'')))


def run_shell(*words):
    return subprocess.run([sys.executable, os.path.join(TOP, 'clients', 'shell.py'), *words], stdin=subprocess.DEVNULL, capture_output=True, text=True, timeout=PATIENCE)


@unittest.skipIf(IS_FAKE, 'GUARDDB names no program')
class Headings(AtServer):
    def setUp(self):
        super().setUp()
        self.sock = os.path.join(self.folder, 'sock')
        script = os.path.join(self.folder, 'more.sql')
        with open(script, 'w', encoding='utf-8') as file:
            file.write('\n'.join(SETUP) + '\n')
        status, printed, messages = run('run', self.path, script)
        self.assertEqual((status, 'refused' in printed), (0, False), printed + messages)

    def at(self, words=''):
        return serving(self.path, '--at', f'socket:{self.sock}{words}', '--clients', '8')

    def asked(self, session, statement):
        return session.connection.exchange(guarddb.QUESTION, session.number, statement)

    def test_columns_and_types(self):
        with self.at(), guarddb.connect(self.sock, timeout=PATIENCE) as connection, connection.open('root') as root:
            for statement, told in [
                ('SELECT * FROM n', COLUMNS), ('select * from n;', COLUMNS), ('SELECT n.at, name FROM n WHERE done', 'rows 2\nat\tint8\nname\ttext\n'),
                ('SELECT count(*) FROM n', 'rows 1\ncount\tint8\n'), ("SELECT 1 + at, 'x', at > 1, NULL FROM n LIMIT 0", 'rows 4\n?column?\tint8\n?column?\ttext\n?column?\tbool\n?column?\ttext\n'),
                ('SELECT current_user', 'rows 1\ncurrent_user\ttext\n'), ('SELECT * FROM n JOIN n AS m ON n.at = m.at', 'rows 6\n' + 2 * COLUMNS[7:]),
                ('INSERT INTO n VALUES (\'b\', 2, true)', 'rows 0\n'), ('DELETE FROM n', 'rows 0\n'), ('CREATE TABLE n (k BIGINT PRIMARY KEY)', 'rows 0\n'),
                ('SELECT * FROM o', 'refused 42P01\n'), ('SELECT zz FROM n', 'refused 42703\n'), ('SELECT', 'refused 42601\n'), ('', 'refused 42601\n'),
                ('SELECT 1 / 0', 'rows 1\n?column?\tint8\n'), ('SELECT at FROM n WHERE name', 'refused 42804\n'),
            ]:
                with self.subTest(statement):
                    self.assertEqual(self.asked(root, statement), told)
            self.assertEqual(root.ask('SELECT count(*) FROM n'), [['1']])       # nothing was carried out

    def test_what_a_role_may_not_see(self):
        with self.at(), guarddb.connect(self.sock, timeout=PATIENCE) as connection, connection.open('bob') as bob:
            self.assertEqual(self.asked(bob, 'SELECT name FROM n'), 'rows 1\nname\ttext\n')
            for statement in 'SELECT * FROM n', 'SELECT at FROM n', 'DELETE FROM n', 'SELECT name FROM n WHERE done':
                self.assertEqual(self.asked(bob, statement), 'refused 42501\n')

    def test_sessions_and_blocks(self):
        with self.at(), guarddb.connect(self.sock, timeout=PATIENCE) as connection, connection.open('root') as root, connection.open('root') as other:
            self.assertEqual(connection.exchange(guarddb.QUESTION, 77, 'SELECT 1'), 'refused 08003\n')
            root.ask('BEGIN')
            root.ask('CREATE TABLE u (k BIGINT PRIMARY KEY)')
            self.assertEqual(self.asked(root, 'SELECT * FROM u'), 'rows 1\nk\tint8\n')
            self.assertEqual(self.asked(other, 'SELECT * FROM u'), 'refused 42P01\n')
            self.assertEqual(self.asked(other, 'DELETE FROM n'), 'rows 0\n')        # the lock of another session matters to none
            self.assertEqual(self.asked(root, 'SELECT zz FROM u'), 'refused 42703\n')
            self.assertEqual(root.ask('SELECT count(*) FROM u'), [['0']])           # no block fails by a question
            with self.assertRaises(guarddb.Refused):
                root.ask('SELECT zz FROM u')
            self.assertEqual(self.asked(root, 'SELECT * FROM u'), 'refused 25P02\n')
            root.ask('ROLLBACK')
            self.assertEqual(self.asked(root, 'SELECT * FROM u'), 'refused 42P01\n')

    def test_sent_ahead_and_in_pieces(self):
        """Questions among events are answered in their turn, each once, wherever the bytes are cut."""
        sent = b''.join([frame(1, 7, 'root'), frame(8, 7, 'SELECT * FROM n'), frame(2, 7, 'SELECT * FROM n'), frame(8, 9, 'SELECT 1'), frame(1, 9, 'bob'), frame(8, 9, 'SELECT * FROM n'),
                         frame(8, 7, 'SELECT 1'), frame(3, 9, ''), frame(2, 7, 'SELECT count(*) FROM n'), frame(8, 7, 'SELECT * FROM n')])
        told = [(7, 'ok OPEN\n'), (7, COLUMNS), (7, 'rows 1\na\t1\t\\N\n'), (9, 'refused 08003\n'), (9, 'ok OPEN\n'), (9, 'refused 42501\n'), (7, 'rows 1\n?column?\tint8\n'),
                (9, 'ok CLOSE\n'), (7, 'rows 1\n1\n'), (7, COLUMNS)]
        random.seed(5)
        with self.at():
            self.assertEqual(told_to(self.sock, sent), told)
            self.assertEqual(told_to(self.sock, *(bytes([byte]) for byte in sent)), told)
            for _ in range(10):
                cuts = [0, *sorted(random.sample(range(1, len(sent)), 6)), len(sent)]
                self.assertEqual(told_to(self.sock, *(sent[begin:end] for begin, end in zip(cuts, cuts[1:]))), told)
            for left in range(1, 24):           # a question that does not end is not answered
                self.assertEqual(told_to(self.sock, frame(1, 7, 'root') + frame(8, 7, 'SELECT * FROM n')[:-left]), told[:1])

    def test_the_example_of_the_protocol(self):
        with open(os.path.join(TOP, 'docs', 'protocol.md'), encoding='utf-8') as file:
            page = file.read().split('## What a statement would answer')[1].split('\n## ')[0]
        lines = [line for line in page.split('```')[1].split('\n') if line[:2] in ('> ', '< ', '  ')]
        frames = []
        for line in lines:
            frames[len(frames) - line.startswith('  '):] = [(frames[-1] if line.startswith('  ') else line[:2].encode()) + bytes.fromhex(line[2:75].strip())]
        sent, told = [text[2:] for text in frames]
        with self.at():
            with guarddb.connect(self.sock, timeout=PATIENCE) as connection, connection.open('root') as root:
                root.ask('DROP TABLE t')
                root.ask('CREATE TABLE t (k BIGINT PRIMARY KEY, o TEXT)')
            self.assertEqual(told_to(self.sock, frame(1, 7, 'root') + sent), [(7, 'ok OPEN\n'), *answers_in(told)])

    def test_lengths(self):
        """The longest frame is taken, and a longer one is bad; an answer of many columns is cut as any long one."""
        with self.at(), guarddb.connect(self.sock, timeout=PATIENCE) as connection, connection.open('root') as root:
            self.assertEqual(self.asked(root, 'SELECT 1' + ' ' * (65536 - 8)), 'rows 1\n?column?\tint8\n')
            for size in 65537, guarddb.MAX_TEXT:
                self.assertEqual(self.asked(root, 'SELECT 1' + ' ' * (size - 8)), 'refused 54000\n')
            for count in 9362, 9363, 30000:         # 14 bytes each, and those of the first line
                self.assertEqual(self.asked(root, 'SELECT ' + ','.join(count * '1')), f'rows {count}\n' + count * '?column?\tint8\n')
            self.assertEqual(told_to(self.sock, frame(1, 7, 'root') + guarddb.HEAD.pack(6 + guarddb.MAX_TEXT, 8, 7)), [(7, 'ok OPEN\n'), (0, 'refused 08P01\n')])

    def test_what_is_bad(self):
        opened, told = frame(1, 7, 'root'), [(7, 'ok OPEN\n')]
        with self.at():
            for bad in guarddb.HEAD.pack(6, 8, 7) + b'\xff', guarddb.HEAD.pack(4, 8, 7), guarddb.HEAD.pack(5, 9, 7), guarddb.HEAD.pack(5, 7, 7), guarddb.HEAD.pack(5, 0, 7):
                with self.subTest(bad):
                    self.assertEqual(told_to(self.sock, opened + bad), told + [(0, 'refused 08P01\n')])

    def test_other_places(self):
        """Without --at a question is a bad frame, as ever."""
        port = free_port()
        for where, words in (self.sock, ['--socket', self.sock, '--clients', '8']), (self.sock, ['--socket', self.sock, '--connections', '9']), (port, ['--port', str(port), '--clients', '8']):
            with self.subTest(words), serving(self.path, *words):
                self.assertEqual(told_to(where, frame(1, 7, 'root') + frame(8, 7, 'SELECT 1')), [(7, 'ok OPEN\n'), (0, 'refused 08P01\n')])
                with guarddb.connect(where, timeout=PATIENCE) as connection, connection.open('root') as root:
                    self.assertIsNone(root.ask('SELECT * FROM t').columns)
                with self.assertRaises(ConnectionError) as fault, guarddb.connect(where, timeout=PATIENCE, names=True) as connection, connection.open('root') as root:
                    self.assertEqual(root.ask('SELECT k FROM t', int), [[1], [2]])
                    root.ask('SELECT * FROM t')
                self.assertIn('answers no such question', str(fault.exception))

    def test_ports_and_roles(self):
        port = free_port()
        with serving(self.path, '--at', f'port:{port}', '--clients', '8'), guarddb.connect(port, timeout=PATIENCE, names=True) as connection, connection.open('root') as root:
            self.assertEqual(root.describe('SELECT 1'), [('?column?', 'int8')])
        with self.at(',role=bob'), guarddb.connect(self.sock, timeout=PATIENCE) as connection:
            with self.assertRaises(guarddb.Refused):
                connection.open('root')
            with connection.open('bob') as bob:
                self.assertEqual(bob.describe('SELECT name FROM n'), [('name', 'text')])

    def test_several_places(self):
        other = os.path.join(self.folder, 'other')
        with serving(self.path, '--at', f'socket:{self.sock},no-superuser', '--at', f'socket:{other}', '--clients', '8'):
            with guarddb.connect(other, timeout=PATIENCE, names=True) as connection, connection.open('root') as root:
                self.assertEqual(root.ask('SELECT * FROM n').columns, ['name', 'at', 'done'])
            with guarddb.connect(self.sock, timeout=PATIENCE, names=True) as connection, connection.open('bob') as bob:
                self.assertEqual(bob.describe('SELECT name FROM n'), [('name', 'text')])

    def test_the_module(self):
        with self.at(), guarddb.connect(self.sock, timeout=PATIENCE, names=True) as connection, connection.open('root') as root:
            rows = root.ask('SELECT * FROM n', str, int)
            self.assertEqual((list(rows), rows.columns), ([['a', 1, None]], ['name', 'at', 'done']))
            self.assertEqual(root.ask('SELECT * FROM n WHERE at = ?', values=(9,)).columns, ['name', 'at', 'done'])     # also without rows
            self.assertEqual(root.ask('SELECT at, 1 + 2 FROM n').columns, ['at', '1 + 2'])
            with self.assertRaises(guarddb.Refused) as refused:
                root.ask('SELECT * FROM o')
            self.assertEqual(refused.exception.code, '42P01')
            self.assertEqual(root.describe('SELECT * FROM n'), [guarddb.Column('name', 'text'), guarddb.Column('at', 'int8'), guarddb.Column('done', 'bool')])
            self.assertEqual(root.describe('SELECT done, at + ? FROM n', values=(1,)), [('done', 'bool'), ('?column?', 'int8')])
            self.assertEqual(root.describe('DELETE FROM n'), [])
            with self.assertRaises(guarddb.Refused) as refused:
                root.describe('SELECT zz FROM n')
            self.assertEqual((refused.exception.code, refused.exception.statement), ('42703', 'SELECT zz FROM n'))

    def test_the_shell(self):
        with self.at():
            for words, told in [(['-c', 'SELECT * FROM n'], ' a | 1 | NULL\n(1 row)\n'), (['--names', '-c', 'SELECT * FROM n'], ' name | at | done\n------+----+------\n a    |  1 | NULL\n(1 row)\n'),
                                (['--csv', '-c', 'SELECT * FROM n'], '1,2,3\na,1,\n'), (['--csv', '--names', '-c', 'SELECT * FROM n'], 'name,at,done\na,1,\n'),
                                (['--names', '-c', 'SELECT at FROM n', '-c', 'DELETE FROM n WHERE at = 9'], ' at\n----\n  1\n(1 row)\nDELETE 0\n')]:
                with self.subTest(words):
                    done = run_shell(self.sock, 'root', *words)
                    self.assertEqual((done.returncode, done.stdout, done.stderr), (0, told, ''))
        with serving(self.path, '--socket', self.sock, '--clients', '8'):
            done = run_shell(self.sock, 'root', '--names', '-c', 'SELECT * FROM n')
            self.assertEqual((done.returncode, done.stdout), (2, ''))


@unittest.skipIf(IS_FAKE, 'GUARDDB names no program')
class BehindPasswords(AtPlace):
    def test_questions(self):
        """Before a password is shown a question is a bad frame; then it is answered."""
        with self.served():
            self.assertEqual(told_to(self.place, frame(8, 7, 'SELECT 1')), [(0, 'refused 08P01\n')])
            with self.connect() as connection, connection.open('ann') as ann:
                self.assertEqual(ann.describe('SELECT 1, session_user'), [('?column?', 'int8'), ('session_user', 'text')])


if __name__ == '__main__':
    unittest.main()
