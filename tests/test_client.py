#!/usr/bin/env python3
"""Tests of clients/guarddb.py, and of a server by docs/protocol.md: python3 tests/test_client.py

The server is that of the program in the environment variable GUARDDB, or else fake_guarddb.py.
"""
import contextlib
import decimal
import doctest
import enum
import io
import os
import random
import re
import shutil
import signal
import socket
import struct
import sys
import tempfile
import threading
import unittest
import warnings

from program import PROGRAM, TOP, make_database, served
import guarddb
import guarddb_layout
from guarddb import Done, Refused
sys.path.insert(0, os.path.join(TOP, 'scripts'))
import model

MAX_TEXT = 131067
WHOLE = 1 << 20
BAD_FRAME = bytes.fromhex('000000130400000000726566757365642030385030310a')


def frame(kind, session, payload=b''):
    return struct.pack('>IBI', 5 + len(payload), kind, session) + payload


def frames(session, text):
    """The frames of an answer, by the rule: all but the last are full."""
    cuts = range(0, max(len(text), 1), MAX_TEXT)
    return b''.join(frame(4, session, text[cut:cut + MAX_TEXT]) for cut in cuts)


class Peer:
    """A server of bytes: it sends them to one client, in pieces of a size, and keeps what the client has sent."""
    def __init__(self, sent, size=1 << 20):
        self.listener = socket.create_server(('127.0.0.1', 0))
        self.port, self.sent, self.size, self.got = self.listener.getsockname()[1], sent, size, b''
        self.thread = threading.Thread(target=self.serve)
        self.thread.start()

    def serve(self):
        stream, _ = self.listener.accept()
        with stream, self.listener:
            stream.setsockopt(socket.IPPROTO_TCP, socket.TCP_NODELAY, 1)
            for cut in range(0, len(self.sent), self.size):
                stream.sendall(self.sent[cut:cut + self.size])
            stream.shutdown(socket.SHUT_WR)
            try:
                while piece := stream.recv(65536):
                    self.got += piece
            except ConnectionError:
                pass

    def __enter__(self):
        return guarddb.connect(self.port, timeout=300)

    def __exit__(self, *_):
        self.thread.join()


def answered(text, size=1 << 20):
    """What the client makes of a statement's answer with this text."""
    sent = frames(1, b'ok OPEN\n') + frames(1, text)
    with Peer(sent, size) as connection, connection:
        return connection.open('root').ask('SELECT 1')


class Client(unittest.TestCase):
    """The client beside a server of bytes."""

    def test_what_it_sends(self):
        peer = Peer(frames(1, b'ok OPEN\n') + frames(1, b'ok BEGIN\n') + frames(2, b'ok OPEN\n') + frames(1, b'ok CLOSE\n'))
        with peer as connection, connection:
            with connection.open('Zoë') as session:
                session.ask('BEGIN')
                connection.open('bob')
        self.assertEqual(peer.got, frame(1, 1, 'Zoë'.encode()) + frame(2, 1, b'BEGIN') + frame(1, 2, b'bob') + frame(3, 1))

    def test_answers(self):
        for text, expected in [
            (b'ok COMMIT\n', Done('COMMIT', None, None)),
            (b'ok CREATE TABLE\n', Done('CREATE TABLE', None, None)),
            (b'ok INSERT 256\n', Done('INSERT', 256, None)),
            (b'ok UPDATE 0\n', Done('UPDATE', 0, None)),
            (b'warn 25P01 COMMIT\n', Done('COMMIT', None, '25P01')),
            (b'warn 01007 GRANT\n', Done('GRANT', None, '01007')),
            (b'rows 0\n', []),
            (b'rows 2\n1\t\\N\n2\tit\'s\n', [['1', None], ['2', "it's"]]),
            (b'rows 2\n\n\n', [[''], ['']]),
            (b'rows 1\n\t\n', [['', '']]),
            (b'rows 1\n\\\\N\t\\N\t\\\\\\\\N\n', [['\\N', None, '\\\\N']]),
            (b'rows 1\n\\t\\n\\r\\\\\\\\t\n', [['\t\n\r\\\\t']]),
            ('rows 1\na\x0bb\x0cc\x1cd\x85e\u2028f\n'.encode(), [['a\x0bb\x0cc\x1cd\x85e\u2028f']]),
            (b'rows 1\nrows 2\n', [['rows 2']]),
        ]:
            for size in (1 << 20, 1):
                with self.subTest(text, size=size):
                    self.assertEqual(answered(text, size), expected)

    def test_fields_are_read_by_types(self):
        sent = frames(1, b'ok OPEN\n') + frames(1, b'rows 2\n-7\tf\tt\n\\N\tt\t\\N\n')
        with Peer(sent) as connection, connection:
            rows = connection.open('root').ask('SELECT k, s, o FROM t', int, guarddb.boolean)
        self.assertEqual(rows, [[-7, False, 't'], [None, True, None]])
        with self.assertRaisesRegex(ValueError, r'\Acolumn 2: invalid literal for int\(\) with base 10: .f.\Z'):
            guarddb.read_answer('rows 2\n-7\t\\N\n1\tf\n', (int, int))

    def test_refusals_are_exceptions(self):
        with self.assertRaises(Refused) as found:
            answered(b'refused 42P01\n')
        self.assertEqual(found.exception.code, '42P01')

    def test_large_answers(self):
        for size in range(MAX_TEXT - 2, MAX_TEXT + 3):
            for frames_more in (0, 1, 2):
                fields = size + frames_more * MAX_TEXT - len(b'rows 2\n\n\n')
                with self.subTest(size=size, frames_more=frames_more):
                    rows = [['x' * 5], ['y' * (fields - 5)]]
                    text = 'rows 2\n%s\n%s\n' % (rows[0][0], rows[1][0])
                    self.assertEqual(answered(text.encode(), 9999), rows)

    def test_a_cut_within_a_character_and_within_an_escape(self):
        for letter in ('\u00e9', '\u20ac', '\U0001f600', '\\', '\t'):
            for shift in range(5):
                text = 'x' * (MAX_TEXT - len('rows 1\n') - shift) + letter + 'y'
                spelled = text.replace('\\', '\\\\').replace('\t', '\\t')
                with self.subTest(letter, shift=shift):
                    self.assertEqual(answered(f'rows 1\n{spelled}\n'.encode()), [[text]])

    def test_what_is_no_answer(self):
        opened = frames(1, b'ok OPEN\n')
        for name, sent in [
            ('the end', b''),
            ('a cut frame', frames(1, b'ok BEGIN\n')[:-1]),
            ('a large answer without its last frame', frames(1, b'rows 1\n' + b'x' * MAX_TEXT + b'\n')[:9 + MAX_TEXT]),
            ('another session', frames(2, b'ok BEGIN\n')),
            ('another kind', frame(3, 1, b'ok BEGIN\n')),
            ('a length that is too great', struct.pack('>IBI', MAX_TEXT + 6, 4, 1) + b'x' * 99),
            ('a length that is too small', struct.pack('>IBI', 4, 4, 1)),
            ('too few rows', frames(1, b'rows 3\n1\n2\n')),
            ('too many rows', frames(1, b'rows 1\n1\n2\n')),
            ('no newline', frames(1, b'ok BEGIN')),
            ('no text', frame(4, 1)),
        ]:
            with self.subTest(name), Peer(opened + sent) as connection, connection:
                session = connection.open('root')
                with self.assertRaises(ConnectionError):
                    session.ask('BEGIN')
                with self.assertRaises(OSError):        # the connection is closed
                    session.ask('BEGIN')

    def test_a_bad_frame(self):
        with Peer(frames(1, b'ok OPEN\n') + BAD_FRAME) as connection, connection:
            session = connection.open('root')
            with self.assertRaises(Refused) as found:
                session.ask('BEGIN')
            self.assertEqual(found.exception.code, '08P01')
            with self.assertRaises(OSError):
                session.ask('BEGIN')

    def test_the_first_fault_is_told(self):
        with self.assertRaises(KeyError), Peer(frames(1, b'ok OPEN\n')) as connection, connection, connection.open('root'):
            raise KeyError('the session cannot be closed any more')

    def test_what_is_not_sent(self):
        with Peer(frames(1, b'ok OPEN\n') + frames(1, b'refused 54000\n')) as connection, connection:
            session = connection.open('root')
            for text in ('x' * (MAX_TEXT + 1), '\u00e9' * 65534, '\ud800'):
                with self.assertRaises(ValueError):
                    session.ask(text)
            with self.assertRaises(Refused):            # the connection goes on
                session.ask('x' * MAX_TEXT)

    def test_two_threads(self):
        """The second one sends nothing before the first one has its answer."""
        ours, theirs = socket.socketpair()
        with theirs, guarddb.Connection(ours) as connection:
            answers, first, second = {}, frame(2, 1, b'SELECT 1'), frame(2, 2, b'SELECT 2')

            def ask(number):
                answers[number] = connection.exchange(guarddb.STATEMENT, number, f'SELECT {number}')
            threads = [threading.Thread(target=ask, args=[number]) for number in (1, 2)]
            theirs.settimeout(300)
            for thread, sent, number in zip(threads, (first, b''), (1, 2)):
                thread.start()
                self.assertEqual(theirs.recv(len(sent), socket.MSG_WAITALL) if sent else b'', sent)
            theirs.setblocking(False)
            with self.assertRaises(BlockingIOError):
                theirs.recv(1)
            theirs.settimeout(300)
            theirs.sendall(frames(1, b'ok SET\n'))
            self.assertEqual(theirs.recv(len(second), socket.MSG_WAITALL), second)
            theirs.sendall(frames(2, b'ok RESET\n'))
            for thread in threads:
                thread.join()
            self.assertEqual(answers, {1: 'ok SET\n', 2: 'ok RESET\n'})

    def test_a_thread_that_waits_already(self):
        """The handler of a signal asks on the connection whose answer its thread waits for: it is told so, and the answer comes."""
        ours, theirs = socket.socketpair()
        with theirs, guarddb.Connection(ours) as connection:
            def handle(*_):
                with self.assertRaisesRegex(RuntimeError, 'this thread waits'):
                    connection.exchange(guarddb.STATEMENT, 2, 'SELECT 2')
                theirs.sendall(frames(1, b'ok SET\n'))
            before = signal.signal(signal.SIGALRM, handle)
            self.addCleanup(signal.signal, signal.SIGALRM, before)
            signal.setitimer(signal.ITIMER_REAL, 0.1)
            self.assertEqual(connection.exchange(guarddb.STATEMENT, 1, 'SELECT 1'), 'ok SET\n')

    def test_a_connection_that_another_thread_closes(self):
        """Whoever waits for an answer is told at once, and who asks later, too."""
        ours, theirs = socket.socketpair()
        with theirs:
            connection, told = guarddb.Connection(ours, None), []

            def ask():
                with self.assertRaises(ConnectionError) as found:
                    connection.exchange(guarddb.STATEMENT, 1, 'SELECT 1')
                told.append(str(found.exception))
            thread = threading.Thread(target=ask)
            thread.start()
            self.assertTrue(theirs.recv(1))
            connection.close()
            thread.join()
            ask()
        self.assertEqual(told, ['the connection is closed: by this program'] * 2)

    def test_a_server_that_is_not_there(self):
        with socket.create_server(('127.0.0.1', 0)) as listener:
            port = listener.getsockname()[1]
        with tempfile.TemporaryDirectory() as folder:
            file, closed = os.path.join(folder, 'shop.db'), os.path.join(folder, 'closed.sock')
            with open(file, 'w', encoding='utf-8'), socket.socket(socket.AF_UNIX) as listener:
                listener.bind(closed)
            for place, kind, told in [
                (port, ConnectionRefusedError, f'[Errno 111] connection refused (no server listens there): {port}'),
                (closed, ConnectionRefusedError, f"[Errno 111] connection refused (no server listens there): '{closed}'"),
                (file, ConnectionRefusedError, f"[Errno 111] no socket (guarddb serve makes one): '{file}'"),
                ('/none/shop.sock', FileNotFoundError,
                 "[Errno 2] no such socket (a server makes it, and removes it at its end): '/none/shop.sock'"),
                ('54330', FileNotFoundError, "[Errno 2] no such socket; a port is an int, not a str: '54330'"),
            ]:
                with self.subTest(place), self.assertRaises(kind) as found:
                    guarddb.connect(place, wait=0.05)
                self.assertEqual(str(found.exception), told)
        with self.assertRaisesRegex(OSError, 'path too long'):
            guarddb.connect('x' * 200)

    def test_a_socket_that_takes_no_more_clients(self):
        with tempfile.TemporaryDirectory() as folder, socket.socket(socket.AF_UNIX) as listener, contextlib.ExitStack() as waiting:
            listener.bind(os.path.join(folder, 'a.sock'))
            listener.listen(0)
            with self.assertRaisesRegex(OSError, 'too many clients wait|the server takes none'):
                for _ in range(9):
                    waiting.enter_context(guarddb.connect(os.path.join(folder, 'a.sock'), timeout=0.05))

    def test_a_server_that_does_not_answer(self):
        with socket.create_server(('127.0.0.1', 0)) as listener:
            with guarddb.connect(listener.getsockname()[1], timeout=0.05) as connection:
                text = 'no answer came within 0.05 seconds: it is not known whether the event was carried out'
                with self.assertRaises(socket.timeout) as found:    # which is the TimeoutError of Python 3.10 and later
                    connection.open('root')
                self.assertEqual(str(found.exception), text)
                with self.assertRaises(ConnectionError) as found:   # its answer may come yet, so the connection is closed
                    connection.open('root')
                self.assertEqual(str(found.exception), f'the connection is closed: {text}')
            with guarddb.connect(listener.getsockname()[1]) as connection:
                self.assertEqual(connection.socket.gettimeout(), 30)

    def test_a_server_that_ends_the_connection(self):
        for sent in (b'', frame(4, 1, b'ok BEGIN\n')[:5]):
            with Peer(frames(1, b'ok OPEN\n') + sent) as connection, connection:
                session = connection.open('root')
                with self.assertRaisesRegex(ConnectionError, 'the server ended the connection'):
                    session.ask('BEGIN')

    def test_columns(self):
        """Those that the statement names, and those of the tables that are known; None where the rows have another number."""
        texts = [b'rows 1\n1\tx\n'] * 4 + [b'rows 0\n']
        with Peer(frames(1, b'ok OPEN\n') + b''.join(frames(1, text) for text in texts)) as connection, connection:
            root = connection.open('root')
            self.assertEqual(root.ask('SELECT k, count FROM t').columns, ['k', 'count'])
            self.assertIsNone(root.ask('SELECT * FROM t').columns)
            connection.tables = {'t': ['k', 'Name'], 'u': ['k']}
            self.assertEqual(root.ask('SELECT * FROM t').columns, ['k', 'Name'])
            self.assertIsNone(root.ask('SELECT * FROM u').columns)
            self.assertEqual(root.ask('SELECT * FROM t, u').columns, ['k', 'Name', 'k'])


class Transactions(unittest.TestCase):
    """Blocks that are run again, beside a server of bytes."""

    def played(self, *answers, work=lambda session: session.ask('UPDATE'), **more):
        """What a transaction gives or raises for the answers of its statements, and these statements."""
        peer = Peer(b''.join(frames(1, text.encode() + b'\n') for text in ('ok OPEN', *answers)))
        with peer as connection, connection:
            session = connection.open('root')
            try:
                result = session.transaction(work, pause=0.001, **more)
            except Exception as fault:
                result = fault
        sent, found = peer.got[len(frame(1, 1, b'root')):], []
        while sent:
            length = guarddb.HEAD.unpack(sent[:9])[0]
            found.append(sent[9:length + 4].decode())
            sent = sent[length + 4:]
        return result, found

    def test_a_block_is_committed(self):
        self.assertEqual(self.played('ok BEGIN', 'ok UPDATE 3', 'ok COMMIT'), (Done('UPDATE', 3, None), ['BEGIN', 'UPDATE', 'COMMIT']))

    def test_a_block_is_begun_again(self):
        locked = ['ok BEGIN', 'refused 55P03', 'ok ROLLBACK']
        result, sent = self.played(*locked, *locked, 'ok BEGIN', 'ok UPDATE 1', 'ok COMMIT')
        self.assertEqual((result.count, sent), (1, ['BEGIN', 'UPDATE', 'ROLLBACK'] * 2 + ['BEGIN', 'UPDATE', 'COMMIT']))
        result, sent = self.played(*locked, *locked, tries=2)
        self.assertEqual((result.code, sent), ('55P03', ['BEGIN', 'UPDATE', 'ROLLBACK'] * 2))
        self.assertIsInstance(self.played(tries=0)[0], ValueError)

    def test_what_is_not_tried_again(self):
        """Another refusal, a fault of the work, a block that has failed under it, and a connection that ends."""
        for code in ('23505', '53100', '58030'):
            result, sent = self.played('ok BEGIN', f'refused {code}', 'ok ROLLBACK')
            self.assertEqual((result.code, sent), (code, ['BEGIN', 'UPDATE', 'ROLLBACK']))
        result, sent = self.played('ok BEGIN', 'ok UPDATE 1', 'refused 53100', 'ok ROLLBACK')
        self.assertEqual((result.code, sent), ('53100', ['BEGIN', 'UPDATE', 'COMMIT', 'ROLLBACK']))
        result, sent = self.played('ok BEGIN', 'ok ROLLBACK', work=lambda session: {}['none'])
        self.assertEqual((type(result), sent), (KeyError, ['BEGIN', 'ROLLBACK']))
        result, sent = self.played('ok BEGIN', 'ok ROLLBACK', 'warn 25P01 ROLLBACK', work=lambda session: None)
        self.assertEqual((result.code, sent), ('25P02', ['BEGIN', 'COMMIT', 'ROLLBACK']))
        result, sent = self.played('ok BEGIN', 'ok COMMIT', 'warn 25P01 COMMIT', 'warn 25P01 ROLLBACK', work=lambda session: session.ask('COMMIT'))
        self.assertEqual((type(result), sent), (RuntimeError, ['BEGIN', 'COMMIT', 'COMMIT', 'ROLLBACK']))
        result, sent = self.played('ok BEGIN')
        self.assertEqual((type(result), sent), (ConnectionError, ['BEGIN', 'UPDATE']))

    def test_a_session_in_a_block(self):
        """The block goes on as it was."""
        for answer, kind in [('warn 25001 BEGIN', RuntimeError), ('refused 25P02', Refused)]:
            result, sent = self.played(answer)
            self.assertEqual((type(result), sent), (kind, ['BEGIN']))


class Values(unittest.TestCase):
    """Literals and placeholders, beside the reader of tokens in scripts/model.py."""

    def literal_tokens(self, value):
        """The tokens of a value by the rules of docs/sql.md."""
        if isinstance(value, str):
            return [('text', value)]
        if value is None or isinstance(value, bool):
            return [('word', {None: 'null', True: 'true', False: 'false'}[value])]
        sign = [('sign', '-')] if value < 0 else []
        return [('sign', '('), *sign, ('number', -value), ('sign', ')')] if value < 0 else [('number', value)]

    def tokens(self, text):
        return [token[:2] for token in model.tokens(text)]

    def value(self, generator):
        letters = 'ab?\'"-;\\\n\r\t %_$\u00e9\u2019\u02bc\uff07\U0001f642\x01\x7f\u2028'
        text = ''.join(generator.choice(letters) for _ in range(generator.randrange(8)))
        numbers = 0, 1, -1, guarddb.LEAST, guarddb.GREATEST, generator.randrange(guarddb.LEAST, guarddb.GREATEST)
        return generator.choice([text, text, text, generator.choice(numbers), None, True, False])

    def test_literals(self):
        for value, text in [
            (None, 'NULL'), (True, 'TRUE'), (False, 'FALSE'), (5, '5'), (0, '0'), (-5, '(-5)'), ("it's", "'it''s'"), ('', "''"),
            ("'", "''''"), (2 ** 63 - 1, '9223372036854775807'), (-2 ** 63, '(-9223372036854775808)'),
            ("'; DROP TABLE t; --", "'''; DROP TABLE t; --'"), ('\\', "'\\'"), ('\\\'', "'\\'''"), ('a\n\r\t"?', "'a\n\r\t\"?'"),
            (enum.IntEnum('Number', 'one two').two, '2'), (enum.Enum('Text', {'a': "it's"}, type=str).a, "'it''s'"),
        ]:
            self.assertEqual(guarddb.literal(value), text)

    def test_values_without_a_literal(self):
        for value in (1.5, b'a', ['a'], object(), decimal.Decimal(1)):
            with self.assertRaisesRegex(TypeError, type(value).__name__):
                guarddb.literal(value)
        for value in ('\0', "a\0'b", 2 ** 63, -2 ** 63 - 1, 10 ** 5000):
            with self.assertRaises(ValueError):
                guarddb.literal(value)

    def test_random_literals(self):
        generator = random.Random(3)
        for _ in range(20000):
            value = self.value(generator)
            self.assertEqual(self.tokens(guarddb.literal(value)), self.literal_tokens(value))

    def test_values_without_an_order(self):
        for values in ('a', b'a', {'a': 1}, {1}, frozenset([1])):
            with self.assertRaisesRegex(TypeError, f'not in a {type(values).__name__}'):
                guarddb.filled('SELECT ?', values)
        for values in ([1], (1,), iter([1])):
            self.assertEqual(guarddb.filled('SELECT ?', values), 'SELECT  1 ')

    def test_names(self):
        for name, text in [('ann', '"ann"'), ('a b', '"a b"'), ('"', '""""'), ('a"; DROP ROLE b; --', '"a""; DROP ROLE b; --"'),
                           ("'", '"\'"')]:
            self.assertEqual(guarddb.quoted_name(name), text)
        for name in ('', 'n' * 64, '\u00e9' * 32, 'a\0', '\ud800'):
            with self.assertRaises(ValueError):
                guarddb.quoted_name(name)
        generator = random.Random(8)
        for _ in range(5000):
            name = ''.join(generator.choice('ab?\'"-;\\\n\r\t $\u00e9\x7f\u2028') for _ in range(generator.randrange(1, 30)))
            self.assertEqual(self.tokens(guarddb.quoted_name(name)), [('name', name)])
            self.assertEqual(guarddb.filled(f'{guarddb.quoted_name(name)}=?', [1]), guarddb.quoted_name(name) + '= 1 ')

    def test_random_statements(self):
        """The tokens of a statement are those of its parts, and of a value for each placeholder, whatever stands beside it."""
        generator = random.Random(4)
        parts = ["'a?'", "'it''s ? -- '", '"?"', '"a""?"', '-- ? \'\n', '--\r', '-- "?"\n', 'SELECT', 'x', 'NULL', '\u00e9', '<>',
                 '-', '(', ')', ',', '.', '*', '1', '9223372036854775807', "''"]
        for _ in range(20000):
            statement, expected, values, is_beside = '', [], [], True
            for _ in range(generator.randrange(9)):
                if generator.random() < 0.4:
                    statement += '?' + generator.choice(['', '', ' '])
                    values.append(self.value(generator))
                    expected += self.literal_tokens(values[-1])
                    is_beside = True
                    continue
                part = generator.choice(parts)
                statement += ('' if is_beside and statement[-1:] != '-' else ' ') + part
                expected += self.tokens(part)
                is_beside = False
            with self.subTest(statement, values=values):
                self.assertEqual(self.tokens(guarddb.filled(statement, values)), expected)

    def test_random_values_come_back(self):
        generator, server = random.Random(5), model.Server('root')
        server.open(1, 'root')
        for _ in range(5000):
            values = [self.value(generator) for _ in range(3)]
            answer = server.execute(1, guarddb.filled('SELECT ?,?, ? -- ?', values))
            types = [{int: int, bool: guarddb.boolean}.get(type(value), str) for value in values]
            self.assertEqual(guarddb.read_answer(answer + '\n', tuple(types)), [values])

    def test_what_is_filled(self):
        for statement, values, expected in [
            ('SELECT 1', [], 'SELECT 1'), ('?', [1], ' 1 '), ('?', ['?'], " '?' "), ("'?'", [], "'?'"), ("'?", [], "'?"),
            ('"?" ?', ['?'], '"?"  \'?\' '), ('x?', [5], 'x 5 '), ("'a'?'b'", ['c'], "'a' 'c' 'b'"),
            ('??', ['a', 'b'], " 'a'  'b' "), ('-- ?\n?', [1], '-- ?\n 1 '), ('-- ?\r?', [1], '-- ?\r 1 '),
            ("'it''s ?' ?", [True], "'it''s ?'  TRUE "), ('- - ?', [-1], '- -  (-1) '), ('-?', [-1], '- (-1) '), ('5 - -- ?\n?', [-5], '5 - -- ?\n (-5) '),
        ]:
            with self.subTest(statement):
                self.assertEqual(guarddb.filled(statement, values), expected)

    def test_wrong_counts(self):
        for statement, values in [('?', []), ('?', [1, 2]), ('', [1]), ("'?'", [1]), ('-- ?', [1]), ('"?"', [1]), ('?, ?', [1])]:
            with self.subTest(statement), self.assertRaisesRegex(ValueError, 'placeholders'):
                guarddb.filled(statement, values)


class Aliases(unittest.TestCase):
    """Words that the server takes for the alias of a table."""

    def test_which_words_are_taken(self):
        left = 'LEFT is taken for an alias of the table t: there are no outer joins, and this one is an inner join'
        for statement, expected in [
            ('SELECT x FROM t LEFT JOIN u ON k = y', [left]), ('select x from t\n-- FROM\nleft join u on true', [left]),
            ('SELECT x FROM t OFFSET', ['OFFSET is taken for an alias of the table t: no rows are skipped']),
            ('SELECT 1 FROM a, "b c" FULL', [
                'FULL is taken for an alias of the table "b c": there are no outer joins, and this one is an inner join']),
            ('SELECT x FROM t JOIN my_1 NATURAL ON true', ['NATURAL is taken for an alias of the table my_1: there are no natural joins']),
            ('SELECT x FROM t FETCH, u HAVING', [
                'FETCH is taken for an alias of the table t: LIMIT alone bounds the number of rows',
                'HAVING is taken for an alias of the table u: there are no groups']),
            ('SELECT x FROM t AS left', []), ('SELECT x FROM t "left"', []), ('SELECT left FROM t', []), ('SELECT x FROM left', []),
            ('SELECT x FROM t JOIN u ON t.left', []), ("SELECT 'FROM t LEFT' FROM t", []), ('DELETE FROM t left', []), ('', []),
        ]:
            with self.subTest(statement):
                self.assertEqual(guarddb.taken_for_aliases(statement), expected)

    def test_a_warning_comes_before_the_answer(self):
        """As an error it comes in place of the answer, and nothing is sent."""
        sent = frames(1, b'ok OPEN\n') + frames(1, b'rows 0\n') + frames(1, b'rows 1\n1\n')
        with Peer(sent) as connection, connection:
            session = connection.open('root')
            with self.assertWarns(guarddb.TakenForAlias) as found:
                self.assertEqual(session.ask('SELECT x FROM t RIGHT JOIN u ON true'), [])
            self.assertEqual(found.filename, __file__)
            with warnings.catch_warnings():
                warnings.simplefilter('error', guarddb.TakenForAlias)
                with self.assertRaises(guarddb.TakenForAlias):
                    session.ask('SELECT x FROM t RIGHT JOIN u ON true')
            self.assertEqual(session.ask('SELECT 1'), [['1']])


class Columns(unittest.TestCase):
    """The names of an answer's columns, by the text of its statement."""

    def test_columns(self):
        tables = {'notes': ['k', 'note'], 'A b': ['z'], 'orders': ['number']}
        for statement, expected in [
            ('SELECT k, n.note, "A b" FROM notes n', ['k', 'note', 'A b']), ('select K from notes', ['k']),
            ('SELECT 1 +  2, -k, count(*), (1 -- one\n)', ['1 + 2', '-k', 'count(*)', '(1 )']),
            ("SELECT 'a,  b', NULL, true, current_user", ["'a,  b'", 'NULL', 'true', 'current_user']),
            ('SELECT "a""b", \'it\'\'s\' FROM t;', ['a"b', "'it''s'"]), ('SELECT * FROM notes', ['k', 'note']),
            ('SELECT * FROM notes n, "A b" WHERE k IN (1, 2)', ['k', 'note', 'z']), ('select * from NOTES;', ['k', 'note']),
            ('SELECT * FROM notes JOIN orders o ON k = number CROSS JOIN "A b" ORDER BY k, note', ['k', 'note', 'number', 'z']),
            ('SELECT * FROM other', None), ('SELECT * FROM notes, other', None), ('DELETE FROM notes', None), ('', None), ('SELECT', None),
        ]:
            with self.subTest(statement):
                self.assertEqual(guarddb_layout.columns(statement, tables), expected)
        self.assertIsNone(guarddb_layout.columns('SELECT * FROM notes'))


class Codes(unittest.TestCase):
    def test_the_table_is_that_of_the_page(self):
        with open(os.path.join(TOP, 'docs', 'sql.md'), encoding='utf-8') as file:
            page = re.search(r'\n## Codes\n(.*?)\n### ', file.read(), re.S)[1]
        rows = re.findall(r'^\| (\w{5}) \| (.*?) \|$', page, re.M)
        self.assertEqual(rows, [(code, found.meaning) for code, found in guarddb.CODES.items()])

    def test_names(self):
        """Those of the PostgreSQL manual's appendix A are words that are joined by `_`, each for one code."""
        names = [found.name for found in guarddb.CODES.values()]
        self.assertEqual(len(set(names)), len(names))
        self.assertTrue(all(re.fullmatch('[a-z]+(_[a-z]+)*', name) for name in names))

    def test_texts_of_refusals(self):
        self.assertEqual(str(Refused('42P01')), '42P01 undefined_table: no such table')
        self.assertEqual(str(Refused('99999')), '99999')
        self.assertEqual(Refused('42P01').args, ('42P01',))
        self.assertEqual((Refused('42P01').statement, Refused('42P01').place, Refused('42601', 'DROP t').place), (None, None, 5))

    def test_a_syntax_error_is_shown(self):
        """The exception of a statement has its text, and shows where it goes wrong, or which rule of form it may break."""
        head, sent = str(Refused('42601')), frames(1, b'ok OPEN\n') + frames(1, b'refused 42601\n') * 2 + frames(1, b'refused 42P01\n')
        with Peer(sent) as connection, connection:
            root = connection.open('root')
            for statement, place, text in [('DELETE t', 7, f'{head}\nLINE 1: DELETE t\n               ^\nEXPECTED:  FROM'),
                                           ('SELECT *', None, f'{head}\nFORM:  * and count(*) need FROM, and count(*) takes no ORDER BY and no LIMIT.'),
                                           ('DELETE FROM t', None, '42P01 undefined_table: no such table')]:
                with self.assertRaises(Refused) as found:
                    root.ask(statement)
                self.assertEqual((found.exception.statement, found.exception.place, str(found.exception)), (statement, place, text))


class OverADatabase(unittest.TestCase):
    """A new database of its own, and a server over it."""

    def setUp(self):
        self.folder = tempfile.mkdtemp(prefix='guarddb-')
        self.addCleanup(shutil.rmtree, self.folder)
        self.path = os.path.join(self.folder, 'db')
        make_database(self.path)

    def refuses(self, code, call, *words):
        with self.assertRaises(Refused) as found:
            call(*words)
        self.assertEqual(found.exception.code, code)

    def plays(self, *conversations):
        """What comes back for each of them, in a connection of its own: for bytes, and the size of the pieces in which they are
        sent, with the end behind them."""
        with served(self.path, connections=len(conversations)) as port:
            return [self.played(port, *conversation) for conversation in conversations]

    def played(self, port, sent, size):
        with guarddb.connect(port, wait=300, timeout=300) as connection:
            try:
                for cut in range(0, len(sent), size):
                    connection.socket.sendall(sent[cut:cut + size])
                connection.socket.shutdown(socket.SHUT_WR)
            except OSError:         # the server ended the connection at a bad frame
                pass
            return connection.input.read()


class Server(OverADatabase):
    """A server, event by event and byte by byte."""

    def test_sessions(self):
        with served(self.path) as port, guarddb.connect(port, wait=300, timeout=300) as connection:
            root = connection.open('root')
            self.assertEqual(root.ask('CREATE ROLE ann LOGIN'), Done('CREATE ROLE', None, None))
            root.ask('CREATE TABLE t (k BIGINT PRIMARY KEY, s BOOLEAN, o TEXT)')
            with connection.open('ann') as ann:
                self.refuses('42501', ann.ask, 'SELECT * FROM t')
                root.ask('GRANT SELECT ON t TO ann')
                text = 'it\'s\t\\N\n\r\u20ac\x0c\u2028'
                self.assertEqual(root.ask(f'INSERT INTO t VALUES (1, true, {guarddb.literal(text)}), (2, NULL, NULL)').count, 2)
                self.assertEqual(ann.ask('SELECT * FROM t', int, guarddb.boolean), [[1, True, text], [2, None, None]])
                self.assertEqual(root.ask(f'SELECT k FROM t LIMIT {guarddb.literal(1)}', int), [[1]])
                self.assertEqual(root.ask(f'SELECT 3 -{guarddb.literal(-5)}', int), [[8]])
                self.assertEqual(root.ask('COMMIT'), Done('COMMIT', None, '25P01'))
            self.refuses('08003', ann.ask, 'SELECT 1')
            self.refuses('28000', connection.open, 'bob')
            self.refuses('08002', guarddb.read_answer, connection.exchange(guarddb.OPEN, root.number, 'root'))

    def test_the_tables_of_a_file(self):
        """They are told of a file that no server has open, and why not of another one."""
        with served(self.path) as port, guarddb.connect(port, wait=300, timeout=300) as connection:
            root = connection.open('root')
            root.ask('CREATE TABLE t (k BIGINT PRIMARY KEY, "A b" TEXT)')
            root.ask("INSERT INTO t VALUES (1, 'x')")
            with self.assertRaisesRegex(guarddb_layout.NotDescribed, 'InUse'):
                guarddb_layout.tables(self.path, PROGRAM)
        tables = guarddb_layout.tables(self.path, PROGRAM)
        self.assertEqual(tables, {'t': ['k', 'A b']})
        with served(self.path) as port, guarddb.connect(port, wait=300, timeout=300, tables=tables) as connection:
            rows = connection.open('root').ask('SELECT * FROM t')
            self.assertEqual([dict(zip(rows.columns, row)) for row in rows], [{'k': '1', 'A b': 'x'}])
        with self.assertRaisesRegex(guarddb_layout.NotDescribed, 'Device'):
            guarddb_layout.tables(self.path + '.none', PROGRAM)
        with self.assertRaisesRegex(guarddb_layout.NotDescribed, '/none cannot be started: No such file or directory'):
            guarddb_layout.tables(self.path, '/none')

    def test_a_connection_that_ends_rolls_back(self):
        with served(self.path, connections=3) as port:
            with guarddb.connect(port, wait=300, timeout=300) as connection:
                root = connection.open('root')
                root.ask('CREATE TABLE t (k BIGINT PRIMARY KEY)')
                root.ask('BEGIN')
                root.ask('INSERT INTO t VALUES (1)')
            for count in (1, 2):
                with guarddb.connect(port, timeout=300) as connection, connection.open('root') as root:
                    self.assertEqual(root.ask('INSERT INTO t VALUES (%s)' % count).count, 1)
                    self.assertEqual(root.ask('SELECT count(*) FROM t', int), [[count]])
        with served(self.path) as port, guarddb.connect(port, wait=300, timeout=300) as connection:
            self.assertEqual(connection.open('root').ask('SELECT k FROM t', int), [[1], [2]])

    def test_large_answers(self):
        with served(self.path) as port, guarddb.connect(port, wait=300, timeout=300) as connection:
            root = connection.open('root')
            root.ask('CREATE TABLE t (k BIGINT PRIMARY KEY, o TEXT)')
            root.ask("INSERT INTO t VALUES (1, ''), (2, ''), (3, ''), (4, ''), (5, ''), (6, ''), (7, ''), (8, '')")
            for size in [MAX_TEXT - 1, MAX_TEXT, MAX_TEXT + 1, 2 * MAX_TEXT, 2 * MAX_TEXT + 1]:
                width, left = divmod(size - len('rows 8\n') - 8 * 2, 8)     # each row has a tab and a newline
                root.ask(f"UPDATE t SET o = '{'y' * left}' WHERE k = 1")
                answer = connection.exchange(guarddb.STATEMENT, root.number, f"SELECT '{'x' * width}', o FROM t")
                self.assertEqual(len(answer), size)
                rows = [['x' * width, 'y' * left]] + [['x' * width, '']] * 7
                self.assertEqual(guarddb.read_answer(answer), rows)

    def test_values(self):
        """Values come back as they were, and one with a quote is a text like others."""
        generator, values = random.Random(6), Values('value')
        with served(self.path) as port, guarddb.connect(port, wait=300, timeout=300) as connection:
            root = connection.open('root')
            root.ask('CREATE TABLE t (k BIGINT PRIMARY KEY, x BIGINT, s BOOLEAN, o TEXT)')
            rows = [[guarddb.LEAST, guarddb.GREATEST, True, "'); DROP TABLE t; --"], [-1, guarddb.LEAST, None, '\\N']]
            for number in range(200):
                texts = [value for value in (values.value(generator) for _ in range(9)) if isinstance(value, str)]
                boolean = generator.choice([None, True, False])
                rows.append([number, generator.choice([None, number, -number]), boolean, ''.join(texts)])
            for row in rows:
                self.assertEqual(root.ask('INSERT INTO t VALUES (?,?,?,?) -- ?', values=row).count, 1)
            types = int, int, guarddb.boolean
            self.assertEqual(root.ask('SELECT * FROM t', *types), sorted(rows))
            for row in rows:
                found = root.ask('SELECT * FROM t WHERE o = ? AND k =? LIMIT ?', *types, values=(row[3], row[0], 5))
                self.assertEqual(found, [row])
            self.assertEqual(root.ask('SELECT k FROM t WHERE o = ?', values=["' OR true --"]), [])

    def test_names_in_quotes(self):
        with served(self.path) as port, guarddb.connect(port, wait=300, timeout=300) as connection:
            root = connection.open('root')
            for login in ('n' * 63, '\u00e9' * 31, 'x"; DROP TABLE t; --', "it's\n?", 'Ann', 'select'):
                name = guarddb.quoted_name(login)
                root.ask(f'CREATE ROLE {name} LOGIN')
                with connection.open(login) as session:
                    self.assertEqual(session.ask('SELECT current_user, ?', values=['?']), [[login, '?']])
                root.ask(f'DROP ROLE {name}')

    def test_two_threads(self):
        """Eight threads over one connection, each in a session of its own: each gets its own answers, and every block is committed."""
        with served(self.path) as port, guarddb.connect(port, wait=300, timeout=300) as connection:
            root = connection.open('root')
            root.ask('CREATE TABLE t (k BIGINT PRIMARY KEY, x BIGINT)')
            root.ask('INSERT INTO t VALUES (0, 0)')
            wrong = []

            def work(number, session):
                def add(session):
                    session.ask('INSERT INTO t VALUES (?, 0)', values=[number])     # from here on nobody else writes
                    (x,), = session.ask('SELECT x FROM t WHERE k = 0', int)
                    session.ask('UPDATE t SET x = ? WHERE k = 0', values=[x + 1])
                    session.ask('DELETE FROM t WHERE k = ?', values=[number])
                for _ in range(10):
                    session.transaction(add, tries=1000, pause=0.001)
                    if session.ask('SELECT ?', int, values=[number]) != [[number]]:
                        wrong.append(number)
            threads = [threading.Thread(target=work, args=(number, connection.open('root'))) for number in range(1, 9)]
            for thread in threads:
                thread.start()
            for thread in threads:
                thread.join()
            self.assertEqual((wrong, root.ask('SELECT * FROM t', int, int)), ([], [[0, 80]]))

    def test_values_that_are_not_sent(self):
        with served(self.path) as port, guarddb.connect(port, wait=300, timeout=300) as connection:
            root = connection.open('root')
            for statement, values in [('SELECT ?', ['\0']), ('SELECT ?', [2 ** 63]), ('SELECT ?', ['\ud800']), ('SELECT ?', []),
                                      ('SELECT 1', [1])]:
                with self.assertRaises(ValueError):
                    root.ask(statement, values=values)
            with self.assertRaises(TypeError):
                root.ask('SELECT ?', values=[1.5])
            self.assertEqual(root.ask('SELECT ?', int, values=[1]), [[1]])      # the connection goes on
            self.refuses('42601', root.ask, 'SELECT ?')                         # without values nothing is filled in
            self.assertEqual(root.ask("SELECT '?'"), [['?']])

    def test_limits(self):
        with served(self.path) as port, guarddb.connect(port, wait=300, timeout=300) as connection:
            root = connection.open('root')
            self.assertEqual(root.ask('SELECT 1' + ' ' * 65528), [['1']])
            self.refuses('54000', root.ask, 'SELECT 1' + ' ' * 65529)
            self.refuses('54000', root.ask, 'x' * MAX_TEXT)
            sessions = [connection.open('root') for _ in range(255)]
            self.refuses('53300', connection.open, 'root')
            sessions[7].close()
            connection.open('root')

    def test_events_that_are_sent_ahead(self):
        events = frame(1, 1, b'root') + frame(1, 0, b'root') + frame(2, 1, b'BEGIN') + frame(2, 0, b'SELECT 1')
        events += frame(2, 1, b'COMMIT') + frame(3, 0) + frame(2, 4294967295, b'SELECT 1')
        expected = frames(1, b'ok OPEN\n') + frames(0, b'ok OPEN\n') + frames(1, b'ok BEGIN\n') + frames(0, b'rows 1\n1\n')
        expected += frames(1, b'ok COMMIT\n') + frames(0, b'ok CLOSE\n') + frames(4294967295, b'refused 08003\n')
        self.assertEqual(self.plays((events, WHOLE), (events, 1), (events, 7)), [expected] * 3)

    def test_bad_frames(self):
        opening, opened = frame(1, 7, b'root'), frames(7, b'ok OPEN\n')
        for bad in ('00000004', '00000000', '00020001', 'ffffffff', '000000050900000001', '000000050000000007',
                    '000000050400000007', '00000006030000000161', '000000060100000001ff', '000000070200000007c328'):
            with self.subTest(bad):
                bad = bytes.fromhex(bad)
                found = self.plays((bad, WHOLE), (bad, 1), (opening + bad, WHOLE), (opening + bad, 1))
                self.assertEqual(found, [BAD_FRAME] * 2 + [opened + BAD_FRAME] * 2)
        # What follows is not read. A reset may come in place of the answer, so nothing is asked of it.
        try:
            self.plays((opening + bytes.fromhex('00000004') + frame(2, 7, b'CREATE TABLE t (k BIGINT PRIMARY KEY)'), WHOLE))
        except ConnectionError:
            pass
        with served(self.path) as port, guarddb.connect(port, wait=300, timeout=300) as connection:
            self.refuses('42P01', connection.open('root').ask, 'SELECT * FROM t')

    def test_a_frame_that_is_cut_by_the_end(self):
        opening, opened = frame(1, 7, b'root'), frames(7, b'ok OPEN\n')
        cut = [(opening[:count], WHOLE) for count in range(len(opening))]
        behind = [(opening + frame(3, 7)[:count], WHOLE) for count in range(9)]
        self.assertEqual(self.plays(*cut, *behind), [b''] * len(cut) + [opened] * len(behind))

    def test_clients_that_wait_at_once(self):
        """They are served in the order in which they came, none is passed over, and each is told its own answers alone."""
        with served(self.path, connections=4) as port:
            with guarddb.connect(port, wait=300, timeout=300) as connection:
                connection.open('root').ask('CREATE TABLE t (k BIGINT PRIMARY KEY)')
                waiting = [socket.create_connection(('127.0.0.1', port), timeout=300) for _ in range(3)]
                for number, stream in enumerate(waiting, start=1):
                    insert = frame(2, number, b'INSERT INTO t VALUES (%d)' % number)
                    stream.sendall(frame(1, number, b'root') + insert + frame(2, number, b'SELECT k FROM t'))
                    stream.shutdown(socket.SHUT_WR)
            told = []
            for stream in waiting:
                with stream, stream.makefile('rb') as answers:
                    told.append(answers.read())
        rows = [b'rows %d\n' % count + b''.join(b'%d\n' % key for key in range(1, count + 1)) for count in (1, 2, 3)]
        self.assertEqual(told, [frames(number, b'ok OPEN\n') + frames(number, b'ok INSERT 1\n') + frames(number, seen)
                                for number, seen in enumerate(rows, start=1)])

    def test_a_client_that_goes_away(self):
        """It ends its connection and nothing else."""
        with served(self.path, connections=2) as port:
            with guarddb.connect(port, wait=300, timeout=300) as connection:
                root = connection.open('root')
                root.ask('CREATE TABLE t (k BIGINT PRIMARY KEY)')
                connection.socket.setsockopt(socket.SOL_SOCKET, socket.SO_LINGER, struct.pack('ii', 1, 0))
                connection.socket.sendall(frame(2, root.number, b'SELECT * FROM t') * 2000)
            with guarddb.connect(port, timeout=300) as connection, connection.open('root') as root:
                self.assertEqual(root.ask('SELECT * FROM t'), [])


class Page(OverADatabase):
    """The examples of docs/clients.md for the module, over a new database."""

    def test_the_examples(self):
        with open(os.path.join(TOP, 'docs', 'clients.md'), encoding='utf-8') as file:
            blocks = re.findall(r'```\n(>>> .*?)```', file.read(), re.S)
        with served(self.path) as port:
            text = '\n'.join(blocks).replace('connect(5433, timeout=20)', f'connect({port}, timeout=300, wait=300)')
            examples = doctest.DocTestParser().get_doctest(text, {}, 'clients.md', None, None)
            self.assertGreater(len(examples.examples), 10)
            told = []
            doctest.DocTestRunner(verbose=False).run(examples, out=told.append)
        self.assertEqual(''.join(told), '')


class Protocol(OverADatabase):
    """The examples of docs/protocol.md."""

    def blocks(self, behind=''):
        with open(os.path.join(TOP, 'docs', 'protocol.md'), encoding='utf-8') as file:
            return re.findall(r'```\n(.*?)```', file.read().partition(behind)[2] if behind else file.read(), re.S)

    def hexadecimal(self, line):
        return bytes.fromhex(re.match(r'[<> ]*((?:[0-9A-F]{2} {0,2})*)', line + ' ')[1].replace(' ', ''))

    def test_the_conversation(self):
        sides, side = {'>': b'', '<': b''}, None
        for line in '\n'.join(block for block in self.blocks('\n## A conversation by the byte\n') if block[0] == '>').split('\n'):
            side = line[0] if line[:1] in sides else side
            if line:
                self.assertTrue(self.hexadecimal(line), line)
                sides[side] += self.hexadecimal(line)
        self.assertEqual(len(re.findall(rb'BIGINT|rows|warn', sides['>'] + sides['<'])), 4)
        for size in (WHOLE, 1):
            self.assertEqual(self.plays((sides['>'], size)), [sides['<']])
            os.remove(self.path)
            make_database(self.path)

    def test_the_client(self):
        """The example in Python runs, and prints what stands behind its print."""
        with open(os.path.join(TOP, 'docs', 'protocol.md'), encoding='utf-8') as file:
            example, = re.findall(r'```python\n(.*?)```', file.read(), re.S)
        with served(self.path) as port, contextlib.redirect_stdout(io.StringIO()) as printed:
            exec(example.replace('connect(5433)', f'connect({port}, wait=300, timeout=300)'), {})
        self.assertEqual(printed.getvalue(), re.search(r'print\(.*?# (.*\n)', example)[1])

    def test_the_bad_frames(self):
        blocks = [block for block in self.blocks() if block.startswith('00 02 00 01\n')]
        lines = [line for block in blocks for line in block.split('\n')[:-1]]
        self.assertEqual(len(lines), 4)
        self.assertEqual(self.plays(*[(self.hexadecimal(line), WHOLE) for line in lines]), [BAD_FRAME] * 4)

    def test_the_heads_of_a_large_answer(self):
        block, = [block for block in self.blocks() if 'and 131,067 bytes' in block]
        first, second = block.split('\n')[:-1]
        found = frames(7, b'rows 1\n' + b'x' * (MAX_TEXT - 7) + b'\n')
        self.assertEqual(found[:9], self.hexadecimal(first)[:9])
        self.assertEqual(found[9 + MAX_TEXT:], self.hexadecimal(second))


if __name__ == '__main__':
    unittest.main()
