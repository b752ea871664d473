#!/usr/bin/env python3
"""Tests of PostgreSQL's clients at a server: python3 tests/test_postgres_clients.py [TESTS]

The program is the one in the environment variable GUARDDB. What psql is to print is what PostgreSQL's manual says: the tags of commands in
55.7 (CommandComplete), the codes of errors in appendix A. Where psql, pgbench or a driver of Python is not installed, the tests that take it are skipped.
"""
import contextlib
import os
import pty
import select
import shutil
import stat
import subprocess
import sys
import termios
import time
import unittest

from postgres_client import FLUSH, SYNC, AtServer, Client, bind, codes, execute, kinds, parse, query
from program import PATIENCE, PROGRAM, free_port, run

PSQL, PGBENCH = shutil.which('psql'), shutil.which('pgbench')


def python_with(module):
    """Python's own interpreter, or the system's, for which a package has the module."""
    return next((python for python in (sys.executable, '/usr/bin/python3')
                 if os.path.exists(python) and subprocess.run([python, '-c', f'import {module}'], capture_output=True).returncode == 0), None)


PYTHON = python_with('psycopg2')
WITHOUT = {name: value for name, value in os.environ.items() if not name.startswith('PG')}
OPTIONS = "behind a comma PLACE takes role=NAME, or passwords=TABLE with mock=ROLE, and of a socket mode=600 or mode=660, each once, not '{}'"
RULE = 'serve --at PLACE takes FILE and --clients N, and no port or socket; PLACE is port:P, socket:PATH, pgport:P or pgsocket:FOLDER'


class AtPsql(AtServer):
    def where(self, port=None):
        return ['-h', '127.0.0.1', '-p', str(port)] if port else ['-h', self.folder]

    def psql(self, text, port=None, user='root', options=('-A', '-t'), given=(), **environment):
        """What psql does with a text, or with words: its status, what it prints, and what it says of errors."""
        words = [PSQL, '-X', *options, '-v', 'VERBOSITY=sqlstate', *self.where(port), '-U', user, '-d', user, *given]
        done = subprocess.run(words, input=text, capture_output=True, text=True, timeout=PATIENCE, env=WITHOUT | environment)
        return done.returncode, done.stdout, done.stderr

    def said(self, messages):
        """The codes of errors that psql says."""
        return [line.split()[-1] for line in messages.splitlines() if 'ERROR:' in line or 'FATAL:' in line]


@unittest.skipUnless(PSQL, 'psql is not installed')
class Psql(AtPsql):
    def test_rows(self):
        for port in (None, free_port()):
            with self.subTest(port), self.served('--clients', 5, port=port):
                self.assertEqual(self.psql('SELECT k, x FROM t ORDER BY k;', port), (0, '1|one\n2|\n', ''))
                self.assertEqual(self.psql('SELECT k FROM t WHERE k = 7;', port), (0, '', ''))
                self.assertEqual(self.psql('SELECT 1 + 2, NULL, TRUE;', port), (0, '3||t\n', ''))

    def test_a_table(self):
        with self.served('--clients', 5):
            self.assertEqual(self.psql('SELECT k, x FROM t ORDER BY k;', options=()),
                             (0, ' k |  x  \n---+-----\n 1 | one\n 2 | \n(2 rows)\n\n', ''))

    def test_labels(self):
        with self.served('--clients', 5):
            self.assertEqual(self.psql('SELECT k AS "Key", x AS user FROM t AS y ORDER BY k;', options=()),
                             (0, ' Key | user \n-----+------\n   1 | one\n   2 | \n(2 rows)\n\n', ''))
            self.assertEqual(self.psql('SELECT count(*) AS n FROM t;', options=()), (0, ' n \n---\n 2\n(1 row)\n\n', ''))
            self.assertEqual(self.psql('', options=('-A',), given=['-c', 'SELECT 1 AS a; SELECT 2 AS b']), (0, 'a\n1\n(1 row)\nb\n2\n(1 row)\n', ''))
            status, printed, said = self.psql('SELECT -k AS k FROM t ORDER BY k;\nSELECT k n FROM t;\nSELECT 5 AS five;\n')
            self.assertEqual((status, printed, self.said(said)), (0, '5\n', ['42601', '42601']))

    def test_words(self):
        """-c, several of them, and several statements in one; -f; -1."""
        script = os.path.join(self.folder, 'script.sql')
        with open(script, 'w', encoding='utf-8') as file:
            file.write("-- a script\nINSERT INTO t VALUES (3, 'a;b');\nSELECT x\nFROM t WHERE k = 3;\nSELECT nobody FROM t;\nSELECT 5;\n")
        with self.served('--clients', 5):
            self.assertEqual(self.psql('', given=['-c', 'SELECT 1', '-c', 'SELECT 2; SELECT 3']), (0, '1\n2\n3\n', ''))
            status, printed, said = self.psql('', given=['-c', 'INSERT INTO t VALUES (9, NULL); SELECT 1 / 0'])
            self.assertEqual((status, printed, self.said(said)), (1, 'INSERT 0 1\n', ['22012']))
            self.assertEqual(self.psql('SELECT COUNT(*) FROM t;'), (0, '2\n', ''))
            status, printed, said = self.psql('', given=['-1', '-f', script])
            self.assertEqual((printed, self.said(said)), ('INSERT 0 1\na;b\n', ['42703', '25P02']))
            self.assertEqual(self.psql('SELECT COUNT(*) FROM t;'), (0, '2\n', ''))
            status, printed, said = self.psql('', given=['-f', script])
            self.assertEqual((status, printed, self.said(said)), (0, 'INSERT 0 1\na;b\n5\n', ['42703']))
            status, printed, said = self.psql('', given=['-v', 'ON_ERROR_STOP=1', '-c', 'DELETE FROM t WHERE k = 3', '-f', script])
            self.assertEqual((status, printed, self.said(said)), (3, 'DELETE 1\nINSERT 0 1\na;b\n', ['42703']))

    def test_an_error_and_going_on(self):
        with self.served('--clients', 5):
            status, printed, said = self.psql('SELECT nobody FROM t;\nSELECT 1 / 0;\nSELEC 1;\nSELECT 5;\n')
            self.assertEqual((status, printed, self.said(said)), (0, '5\n', ['42703', '22012', '42601']))

    def test_where_syntax_goes_wrong(self):
        """The line is shown, and below it a caret."""
        with self.served('--clients', 5):
            for text, line, before in [('SELECT k FROM t WHERE k = = 1;', 'SELECT k FROM t WHERE k = = 1;', 26), ("SELECT 'é' +\nFROM t;", 'FROM t;', 0)]:
                with self.subTest(text):
                    status, printed, said = self.psql(text, given=('-v', 'VERBOSITY=default'))
                    head, shown, caret = said.splitlines()
                    self.assertEqual((head.split(':')[-1].strip(), shown.split(': ', 1)[1], caret), ('syntax error', line, ' ' * (shown.index(': ') + 2 + before) + '^'))

    def test_tags_and_a_transaction(self):
        with self.served('--clients', 5):
            lines = ["INSERT INTO t VALUES (3, 'three'), (4, 'four');", 'UPDATE t SET x = NULL WHERE k > 2;', 'DELETE FROM t WHERE k = 4;',
                     'BEGIN;', 'INSERT INTO t VALUES (5, NULL);', 'SELECT COUNT(*) FROM t;', 'ROLLBACK;', 'SELECT COUNT(*) FROM t;',
                     'BEGIN;', "INSERT INTO t VALUES (6, 'six');", 'COMMIT;', 'CREATE TABLE u (k BIGINT PRIMARY KEY);']
            printed = ['INSERT 0 2', 'UPDATE 2', 'DELETE 1', 'BEGIN', 'INSERT 0 1', '4', 'ROLLBACK', '3', 'BEGIN', 'INSERT 0 1', 'COMMIT', 'CREATE TABLE']
            self.assertEqual(self.psql('\n'.join(lines)), (0, '\n'.join(printed) + '\n', ''))
            self.assertEqual(self.psql('SELECT k FROM t ORDER BY k;'), (0, '1\n2\n3\n6\n', ''))

    def test_a_failed_block(self):
        with self.served('--clients', 5):
            status, printed, said = self.psql('BEGIN;\nSELECT 1 / 0;\nSELECT 1;\nCOMMIT;\nSELECT 2;\n')
            self.assertEqual((status, printed, self.said(said)), (0, 'BEGIN\nROLLBACK\n2\n', ['22012', '25P02']))

    def test_a_warning(self):
        with self.served('--clients', 5):
            status, printed, said = self.psql('COMMIT;\n')
            self.assertEqual((status, printed, said.split()[-2:]), (0, 'COMMIT\n', ['WARNING:', '25P01']))

    def test_roles(self):
        with self.served('--clients', 5):
            self.assertEqual(self.psql('SELECT current_user;', user='bob'), (0, 'bob\n', ''))
            status, printed, said = self.psql('DELETE FROM t;', user='bob')
            self.assertEqual((printed, self.said(said)), ('', ['42501']))
            status, printed, said = self.psql('SELECT 1;', user='nobody')
            self.assertEqual((status, printed), (2, ''))
            self.assertIn('FATAL', said)

    def test_what_is_not_there(self):
        """Each is answered by an error, and the next statement is carried out."""
        asked = [('\\d', '0A000'), ('\\dt', '0A000'), ('\\d t', '0A000'), ('\\du', '0A000'), ('\\l', '0A000'), ('\\dp', '0A000'), ('SELECT * FROM pg_catalog.pg_class;', '0A000'),
                 ('SELECT 1 \\gdesc', '0A000'), ('SELECT left FROM t;', '0A000'), ('SAVEPOINT a;', '42601'), ('COPY t TO STDOUT;', '42601'), ('\\copy t to stdout', '42601'),
                 ('PREPARE a AS SELECT 1;', '42601'), ('DECLARE c CURSOR FOR SELECT 1;', '42601'), ('LISTEN a;', '42601'), ('VACUUM;', '42601'), ("SET client_encoding = 'LATIN1';", '42601'),
                 ('SET search_path = a;', '42601')]
        with self.served('--clients', 5):
            for text, code in asked:
                with self.subTest(text):
                    status, printed, said = self.psql(f'{text}\nSELECT 5;\n')
                    self.assertEqual((status, printed, self.said(said)[:1]), (0, '5\n', [code]), said)
            lines = ''.join(f'{text}\nSELECT 5;\n' for text, _ in asked)
            status, printed, said = self.psql(lines)
            self.assertEqual((status, printed), (0, '5\n' * len(asked)))

    def test_what_clients_ask_at_the_start(self):
        with self.served('--clients', 5):
            lines = ['SHOW server_version;', 'SHOW transaction_isolation;', 'SELECT version();', "SET client_encoding = 'UTF8';", 'RESET ALL;', 'END;', 'BEGIN READ WRITE;', 'ABORT;']
            status, printed, said = self.psql('\n'.join(lines))
            self.assertEqual((status, self.said(said)), (0, []), said)
            self.assertEqual(printed.splitlines()[1:2] + printed.splitlines()[3:], ['read committed', 'SET', 'RESET', 'COMMIT', 'BEGIN', 'ROLLBACK'])

    def test_texts_of_each_locale(self):
        """What a text is does not hang on the locale of psql."""
        with self.served('--clients', 5):
            for locale in ('C', 'C.UTF-8'):
                with self.subTest(locale):
                    self.assertEqual(self.psql("SELECT 'é€';\nSELECT k FROM t WHERE x = 'one';\n", LANG=locale, LC_ALL=locale), (0, 'é€\n1\n', ''))

    def test_beyond_as_many_as_may_be(self):
        for port in (None, free_port()):
            with self.subTest(port), self.served('--clients', 1, port=port), Client(port or self.socket, 'root') as first:
                status, printed, said = self.psql('SELECT 1;', port, PGSSLMODE='disable', PGGSSENCMODE='disable')
                self.assertEqual((status, printed), (2, ''))
                self.assertIn('FATAL:  sorry, too many clients already', said)
                self.assertEqual(kinds(first.ask('SELECT 1')), b'TDCZ')

    def test_encryption_is_asked_for(self):
        port = free_port()
        with self.served('--clients', 5, port=port):
            status, printed, said = self.psql('SELECT 1;', port, PGSSLMODE='require')
            self.assertEqual((status, printed), (2, ''))
            self.assertIn('server does not support SSL', said)
            self.assertEqual(self.psql('SELECT 1;', port, PGSSLMODE='prefer'), (0, '1\n', ''))


@unittest.skipUnless(PSQL, 'psql is not installed')
class Typed(AtPsql):
    """psql at a terminal."""

    def test_prompts(self):
        with self.served('--clients', 5):
            for options in ([], ['-n']):
                with self.subTest(options):
                    self.type(options)

    def type(self, options):
        ours, theirs = pty.openpty()
        modes = termios.tcgetattr(theirs)
        modes[3] &= ~termios.ECHO
        termios.tcsetattr(theirs, termios.TCSANOW, modes)
        words = [PSQL, '-X', '-A', '-t', '-v', 'VERBOSITY=sqlstate', *options, *self.where(), '-U', 'root', '-d', 'root']
        environment = WITHOUT | {'TERM': 'dumb', 'LANG': 'C', 'LC_ALL': 'C', 'PAGER': 'cat', 'PSQL_HISTORY': '/dev/null'}
        process = subprocess.Popen(words, stdin=theirs, stdout=theirs, stderr=theirs, env=environment, start_new_session=True)
        os.close(theirs)
        try:
            self.shown(ours, 'root=> ')
            for line, prompt, told in [('SELECT k, x FROM t ORDER BY k;', '=> ', '1|one'), ('BEGIN;', '=*> ', 'BEGIN'), ('SELECT nobody FROM t;', '=!> ', '42703'),
                                       ('SELECT 1;', '=!> ', '25P02'), ('ROLLBACK;', '=> ', 'ROLLBACK'), ('\\d', '=> ', '0A000'), ('SELECT', '-> ', ''), ('7;', '=> ', '7'),
                                       ('\\conninfo', '=> ', 'You are connected')]:
                os.write(ours, line.encode() + b'\n')
                self.assertIn(told, self.shown(ours, 'root' + prompt))
            os.write(ours, b'SELECT nob\t\t FROM t;\n\\q\n')
            process.wait(PATIENCE)
        finally:
            process.kill()
            process.wait()
            os.close(ours)
        self.assertEqual(process.returncode, 0)

    def shown(self, terminal, prompt):
        """What a terminal shows up to a prompt."""
        text, ended = '', time.monotonic() + PATIENCE
        while not text.endswith(prompt):
            self.assertLess(time.monotonic(), ended, text)
            if select.select([terminal], [], [], 1)[0]:
                text += os.read(terminal, 4096).decode()
        return text


@unittest.skipUnless(PGBENCH, 'pgbench is not installed')
class Pgbench(AtPsql):
    def bench(self, script, *words):
        path = os.path.join(self.folder, 'script.sql')
        with open(path, 'w', encoding='utf-8') as file:
            file.write('\n'.join(script) + '\n')
        done = subprocess.run([PGBENCH, '-n', '-f', path, *map(str, words), *self.where(), '-U', 'root', 'root'], capture_output=True, text=True, timeout=PATIENCE, env=WITHOUT)
        return done.returncode, done.stdout, done.stderr

    def test_several_at_once(self):
        reading = ['\\set k random(1, 2)', 'SELECT x FROM t WHERE k = :k;']
        writing = ['\\set k random(10, 1000000)', 'BEGIN;', 'DELETE FROM t WHERE k = :k;', "INSERT INTO t VALUES (:k, 'of :client_id');", 'COMMIT;']
        with self.served('--clients', 8, '--wait', 60):
            for script in (reading, writing):
                with self.subTest(script):
                    status, printed, said = self.bench(script, '-M', 'simple', '-c', 6, '-j', 2, '-t', 50)
                    self.assertEqual(status, 0, said)
                    self.assertIn('number of transactions actually processed: 300/300\n', printed)
                    self.assertIn('number of failed transactions: 0 (0.000%)\n', printed)
            with Client(self.socket, 'root') as client:
                self.assertEqual(kinds(client.ask('SELECT k FROM t WHERE k > 1000000')), b'TCZ')

    def test_the_extended_query(self):
        with self.served('--clients', 8), Client(self.socket, 'root') as client:
            for mode in ('extended', 'prepared'):
                with self.subTest(mode):
                    status, printed, said = self.bench(['SELECT x FROM t;'], '-M', mode, '-t', 5)
                    self.assertEqual(status, 0, said)
                    self.assertIn('number of transactions actually processed: 5/5\n', printed)
                    status, printed, said = self.bench(['\\set k 1', 'SELECT x FROM t WHERE k = :k;', 'UPDATE t SET x = :k WHERE k = -:k;'], '-M', mode, '-t', 5)
                    self.assertEqual(status, 0, said)
                    self.assertIn('number of transactions actually processed: 5/5\n', printed)
                    self.assertEqual(kinds(client.ask('SELECT 1')), b'TDCZ')


@unittest.skipUnless(PYTHON, 'psycopg2 is not installed')
class Psycopg2(AtServer):
    def run_there(self, *lines):
        """What lines over a connection print."""
        head = ['import psycopg2, sys', 'connection = psycopg2.connect(host=sys.argv[1], user="root")', 'cursor = connection.cursor()']
        done = subprocess.run([PYTHON, '-c', '\n'.join([*head, *lines]), self.folder], capture_output=True, text=True, timeout=PATIENCE, env=WITHOUT)
        self.assertEqual((done.returncode, done.stderr), (0, ''))
        return done.stdout.splitlines()

    def test_rows(self):
        with self.served('--clients', 3):
            self.assertEqual(self.run_there('cursor.execute("SELECT k, x, k = 1 FROM t ORDER BY k")', 'print(cursor.fetchall(), cursor.rowcount, cursor.description[0].name)',
                                            'cursor.execute("SELECT k FROM t WHERE k > %s AND x IS NULL", (1,))', 'print(cursor.fetchall())',
                                            'cursor.execute("SELECT k FROM t WHERE k > 5")', 'print(cursor.rowcount)'),
                             ["[(1, 'one', True), (2, None, False)] 2 k", '[(2,)]', '0'])

    def test_labels(self):
        with self.served('--clients', 3):
            self.assertEqual(self.run_there('cursor.execute("SELECT k AS \\"Key\\", x AS end, k FROM t WHERE k = %s", (1,))', 'print([column.name for column in cursor.description], cursor.fetchall())',
                                            'cursor.execute("SELECT count(*) AS n FROM t")', 'print(cursor.description[0].name, cursor.fetchall())'),
                             ["['Key', 'end', 'k'] [(1, 'one', 1)]", 'n [(2,)]'])

    def test_a_transaction(self):
        with self.served('--clients', 3), Client(self.socket, 'bob') as other:
            self.assertEqual(self.run_there('cursor.executemany("INSERT INTO t VALUES (%s, %s)", [(3, "it\'s"), (4, None)])', 'print(cursor.rowcount, cursor.statusmessage)',
                                            'connection.commit()', 'cursor.execute("DELETE FROM t WHERE k = 1")', 'connection.rollback()',
                                            'with connection: cursor.execute("UPDATE t SET x = %s WHERE k = 2", ("a;b",))', 'connection.close()'),
                             ['2 INSERT 0 1'])
            self.assertEqual([body for kind, body in other.ask('SELECT x FROM t ORDER BY k') if kind == b'D'],
                             [b'\0\1\0\0\0\x03one', b'\0\1\0\0\0\x03a;b', b"\0\1\0\0\0\x04it's", b'\0\1\xff\xff\xff\xff'])

    def test_an_error_and_going_on(self):
        with self.served('--clients', 3):
            self.assertEqual(self.run_there('def code(text):', '    try: cursor.execute(text)', '    except psycopg2.Error as fault: print(fault.pgcode, type(fault).__name__)',
                                            'code("SELECT zz FROM t")', 'code("SELECT 1")', 'connection.rollback()', 'code("SELEC")', 'connection.rollback()',
                                            'code("INSERT INTO t VALUES (1, NULL)")', 'connection.rollback()', 'code("SELECT * FROM pg_catalog.pg_class")',
                                            'cursor.execute("SELECT 5")', 'print(cursor.fetchone())', 'connection.commit()'),
                             ['42703 UndefinedColumn', '25P02 InFailedSqlTransaction', '42601 SyntaxError', '23505 UniqueViolation', '0A000 FeatureNotSupported', '(5,)'])

    def test_autocommit(self):
        with self.served('--clients', 3), Client(self.socket, 'bob') as other:
            self.assertEqual(self.run_there('connection.autocommit = True', 'cursor.execute("INSERT INTO t VALUES (3, NULL)")', 'print(connection.info.transaction_status, connection.server_version // 10000)'),
                             ['0 15'])
            self.assertEqual(other.ask('SELECT COUNT(*) FROM t')[1], (b'D', b'\0\1\0\0\0\x013'))


class OtherDrivers(AtServer):
    """Drivers that describe what they prepare. What is not there they are told, and go on."""

    def run_there(self, module, *lines, port=None):
        """What lines print."""
        python = python_with(module)
        if not python:
            self.skipTest(f'{module} is not installed')
        done = subprocess.run([python, '-c', '\n'.join(lines), str(port or self.folder)], capture_output=True, text=True, timeout=PATIENCE, env=WITHOUT)
        self.assertEqual((done.returncode, done.stderr), (0, ''))
        return done.stdout.splitlines()

    def test_psycopg(self):
        with self.served('--clients', 3):
            self.assertEqual(self.run_there('psycopg', 'import psycopg, sys', 'connection = psycopg.connect(host=sys.argv[1], user="root", autocommit=True)',
                                            'print(connection.execute("SELECT k, x FROM t ORDER BY k").fetchall())',
                                            'print(connection.execute("SELECT k FROM t WHERE k = %s", (1,)).fetchall())',
                                            'found = connection.execute("SELECT %s AS \\"a $2\\", x AS user FROM t WHERE k = %s", ("AS z", 1))', 'print([column.name for column in found.description], found.fetchall())',
                                            'cursor = psycopg.ClientCursor(connection)', 'print(cursor.execute("SELECT k FROM t WHERE k = %s AND x = %s", (1, "one")).fetchall())',
                                            'connection.autocommit = False',
                                            'print(connection.execute("SELECT 1").fetchall())', 'connection.rollback()', 'connection.close()'),
                             ["[(1, 'one'), (2, None)]", '[(1,)]', "['a $2', 'user'] [('AS z', 'one')]", '[(1,)]', '[(1,)]'])

    def test_values_of_psycopg(self):
        """Values of each type, in text and in binary, are what they were; a statement is prepared at its sixth use."""
        with self.served('--clients', 3):
            self.assertEqual(self.run_there('psycopg', 'import psycopg, sys', 'connection = psycopg.connect(host=sys.argv[1], user="root", autocommit=True)',
                                            'values = [1, -1, 40000, -40000, 2 ** 40, 2 ** 63 - 1, -2 ** 63, "a", "\'; --", "$1 é", "", True, False, None]',
                                            'for form in ("%s", "%t", "%b"):',
                                            '    for binary in (False, True):',
                                            '        told = [connection.execute(f"SELECT {form}", (value,), binary=binary).fetchone()[0] for value in values]',
                                            '        print(told == values)',
                                            'for number in range(8): connection.execute("INSERT INTO t VALUES (%s, %s)", (10 + number, f"n{number}"))',
                                            'connection.cursor().executemany("INSERT INTO t VALUES (%s, %s)", [(20 + number, None) for number in range(8)])',
                                            'print(connection.execute("SELECT COUNT(*) FROM t WHERE k >= %s AND k < %s", (10, 30)).fetchone())',
                                            'try: connection.execute("SELECT %s + 1", ("x",))', 'except psycopg.Error as fault: print(fault.sqlstate)',
                                            'with connection.transaction(): connection.execute("DELETE FROM t WHERE k >= %(from)s", {"from": 10})',
                                            'print(connection.execute("SELECT x FROM t WHERE k = %s LIMIT %s", (1, 1)).fetchall())', 'connection.close()'),
                             ['True'] * 6 + ['(16,)', '22P02', "[('one',)]"])

    def test_asyncpg(self):
        port = free_port()
        with self.served('--clients', 3, port=port):
            self.assertEqual(self.run_there('asyncpg', 'import asyncio, asyncpg, sys', 'async def main():',
                                            '    connection = await asyncpg.connect(host="127.0.0.1", port=int(sys.argv[1]), user="root", database="root")',
                                            '    print(await connection.execute("INSERT INTO t VALUES (3, NULL)"))',
                                            '    print([tuple(row) for row in await connection.fetch("SELECT k, x, k = 1 FROM t ORDER BY k")])', '    print(await connection.execute("DELETE FROM t WHERE k = 3"))',
                                            '    await connection.close()', 'asyncio.run(main())', port=port),
                             ['INSERT 0 1', "[(1, 'one', True), (2, None, False), (3, None, False)]", 'DELETE 1'])

    def test_labels_of_asyncpg(self):
        port = free_port()
        with self.served('--clients', 3, port=port):
            self.assertEqual(self.run_there('asyncpg', 'import asyncio, asyncpg, sys', 'async def main():',
                                            '    connection = await asyncpg.connect(host="127.0.0.1", port=int(sys.argv[1]), user="root", database="root")',
                                            '    for _ in range(2): print([dict(row) for row in await connection.fetch("SELECT k AS \\"Key\\", x AS user, k = 1 FROM t ORDER BY k LIMIT 1")])',
                                            '    prepared = await connection.prepare("SELECT count(*) AS n FROM t")', '    print([column.name for column in prepared.get_attributes()], await prepared.fetchval())',
                                            '    prepared = await connection.prepare("SELECT $1 AS \\"a $2\\", k AS n FROM t WHERE k = $2")', '    print([column.name for column in prepared.get_attributes()])',
                                            '    for k in (1, 2): print(dict(await prepared.fetchrow("AS z\'; --", k)))',
                                            '    for k in (0, 1): print([dict(row) for row in await connection.fetch("SELECT count(*) AS n FROM t WHERE k > $1", k)])',
                                            '    try: await connection.fetch("SELECT k AS n FROM t WHERE k = $2", 1)', '    except asyncpg.PostgresError as fault: print(fault.sqlstate)',
                                            '    try: await connection.fetch("SELECT -k AS k FROM t WHERE k = $1 ORDER BY k", 1)', '    except asyncpg.PostgresError as fault: print(fault.sqlstate)',
                                            '    await connection.close()', 'asyncio.run(main())', port=port),
                             ["[{'Key': 1, 'user': 'one', '?column?': True}]"] * 2 + ["['n'] 2", "['a $2', 'n']", '{\'a $2\': "AS z\'; --", \'n\': 1}', '{\'a $2\': "AS z\'; --", \'n\': 2}',
                                                                                      "[{'n': 2}]", "[{'n': 1}]", '42P18', '42601'])

    def test_values_of_asyncpg(self):
        port = free_port()
        with self.served('--clients', 3, port=port):
            self.assertEqual(self.run_there('asyncpg', 'import asyncio, asyncpg, sys', 'async def main():',
                                            '    connection = await asyncpg.connect(host="127.0.0.1", port=int(sys.argv[1]), user="root", database="root")',
                                            '    await connection.executemany("INSERT INTO t VALUES ($1, $2)", [(3, "it\'s"), (4, None), (5, "\'; DROP TABLE t; --")])',
                                            '    for k in range(1, 6): print(await connection.fetchval("SELECT x FROM t WHERE k = $1", k))',
                                            '    print(tuple(await connection.fetchrow("SELECT k, k > $1, $2 = x FROM t WHERE x = $2 LIMIT $3", 2, "it\'s", 7)))',
                                            '    try: await connection.executemany("INSERT INTO t VALUES ($1, $2)", [(6, "a"), (1, "b")])',
                                            '    except asyncpg.PostgresError as fault: print(fault.sqlstate)',
                                            '    async with connection.transaction(): print(await connection.execute("DELETE FROM t WHERE k >= $1", 3))',
                                            '    await connection.close()', 'asyncio.run(main())', port=port),
                             ['one', 'None', "it's", 'None', "'; DROP TABLE t; --", '(3, True, True)', '23505', 'DELETE 3'])


    def test_cursors_of_asyncpg(self):
        port = free_port()
        with self.served('--clients', 3, port=port):
            self.assertEqual(self.run_there('asyncpg', 'import asyncio, asyncpg, sys', 'async def main():',
                                            '    connection = await asyncpg.connect(host="127.0.0.1", port=int(sys.argv[1]), user="root", database="root")',
                                            '    await connection.executemany("INSERT INTO t VALUES ($1, $2)", [(k, None) for k in range(3, 41)])',
                                            '    async with connection.transaction():',
                                            '        rows = [row[0] async for row in connection.cursor("SELECT k FROM t WHERE k > $1 ORDER BY k", 0, prefetch=7)]',
                                            '        print(rows == list(range(1, 41)))', '        cursor = await connection.cursor("SELECT k, x FROM t ORDER BY k")',
                                            '        print([tuple(row) for row in await cursor.fetch(2)], (await cursor.fetchrow())[0], len(await cursor.fetch(50)), await cursor.fetchrow())',
                                            '    await connection.close()', 'asyncio.run(main())', port=port),
                             ['True', "[(1, 'one'), (2, None)] 3 37 None"])

    def test_pg8000(self):
        port = free_port()
        with self.served('--clients', 3, port=port):
            self.assertEqual(self.run_there('pg8000', 'import pg8000, sys', 'connection = pg8000.connect(user="root", host="127.0.0.1", port=int(sys.argv[1]))', 'cursor = connection.cursor()',
                                            'def ask(*words): cursor.execute(*words); print(*cursor.fetchall())',
                                            'ask("SELECT k, x, k = 1 FROM t ORDER BY k")', 'cursor.execute("INSERT INTO t VALUES (%s, %s)", (3, "it\'s"))', 'print(cursor.rowcount)',
                                            'ask("SELECT k, x FROM t WHERE x = %s AND k > %s", ("it\'s", 1))', 'ask("SELECT %s, NOT %s", ("\'; --", True))', 'ask("SELECT %s AS a, k AS b FROM t WHERE k = %s", ("AS z", 1))', 'print(*(str(column[0]) for column in cursor.description))',
                                            'cursor.execute("UPDATE t SET x = %s WHERE k = %s", (None, 1))', 'connection.commit()', 'ask("SELECT x FROM t WHERE k = %s", (1,))',
                                            'connection.rollback()', 'connection.close()', port=port),
                             ["[1, 'one', True] [2, None, False]", '1', '[3, "it\'s"]', '["\'; --", False]', "['AS z', 1]", "b'a' b'b'", '[None]'])


class DroppedRoles(AtServer):
    """The clients of a role that is dropped end without a message, and before anything else is done."""

    @contextlib.contextmanager
    def dropping(self, port=None, behind=''):
        """A superuser at a server where the roles carl and dan may come, too."""
        with self.served('--clients', 8, port=port, behind=behind), self.client('root', port) as root:
            for text in ('CREATE ROLE carl LOGIN', 'CREATE ROLE dan LOGIN', 'GRANT SELECT ON t TO PUBLIC'):
                self.assertEqual(codes(root.ask(text)), [])
            yield root

    def client(self, user, port=None):
        return Client(port or self.socket, user)

    def is_over(self, client):
        self.assertEqual(client.rest(), [])

    def reads(self, client):
        self.assertEqual(kinds(client.ask('SELECT k FROM t')), b'TDDCZ')

    def test_a_role_that_is_dropped(self):
        """Also who is silent in a block, and in the middle of an extended query. The others go on, and the role made again begins with nobody."""
        for port in (None, free_port()):
            with self.subTest(port), self.dropping(port) as root, contextlib.ExitStack() as stack:
                busy, silent, halfway, other = (stack.enter_context(self.client(user, port)) for user in ('carl', 'carl', 'carl', 'dan'))
                self.reads(busy)
                self.assertEqual(kinds(silent.ask('BEGIN')), b'CZ')
                halfway.send(parse('SELECT k FROM t'), bind(), FLUSH)
                self.assertEqual(kinds(halfway.until(b'2')), b'12')
                self.assertEqual(kinds(root.ask('DROP ROLE carl')), b'CZ')
                for client in (busy, silent, halfway):
                    self.is_over(client)
                self.assertEqual(kinds(root.ask('CREATE ROLE carl LOGIN')), b'CZ')
                self.reads(other)
                with self.client('carl', port) as made:
                    self.reads(made)
                self.assertEqual(kinds(root.ask('DROP ROLE carl')), b'CZ')
                self.assertEqual(kinds(root.ask('DROP ROLE dan')), b'CZ')
                self.is_over(other)

    def test_a_role_that_is_made_again_at_once(self):
        """Nothing that its old client sends is carried out for the new one, also where both statements came in one piece."""
        with self.dropping() as root, self.client('carl') as carl:
            root.send(query('DROP ROLE carl'), query('CREATE ROLE carl SUPERUSER LOGIN'))
            with contextlib.suppress(OSError):
                carl.send(*[query("INSERT INTO t VALUES (9, 'nine')")] * 20)
            self.assertEqual([kinds(root.until(b'Z')) for _ in range(2)], [b'CZ'] * 2)
            self.assertNotIn(b'C', kinds(carl.rest()))
            self.assertEqual(kinds(root.ask('SELECT k FROM t WHERE k = 9')), b'TCZ')

    def test_a_role_that_is_dropped_in_a_block(self):
        """Who came as it goes on until the COMMIT, and for good after a ROLLBACK and where DROP ROLE is refused."""
        with self.dropping() as root, self.client('carl') as carl, self.client('dan') as dan:
            self.assertEqual([codes(client.ask(f'DROP ROLE {role}')) for client, role in ((dan, 'carl'), (root, 'nobody'), (root, 'bob'))], [['42501'], ['42704'], ['2BP01']])
            for end in ('ROLLBACK', 'COMMIT'):
                self.assertEqual([kinds(root.ask(text)) for text in ('BEGIN', 'DROP ROLE carl')], [b'CZ'] * 2)
                self.reads(carl)
                self.assertEqual(kinds(root.ask(end)), b'CZ')
                if end == 'ROLLBACK':
                    self.reads(carl)
            self.is_over(carl)
            self.reads(dan)

    def test_texts_of_several_statements(self):
        """One text that drops a role and makes it again in one block ends its clients, too; so does one behind which nobody asks again."""
        with self.dropping() as root, self.client('carl') as carl, self.client('dan') as dan:
            self.assertEqual(kinds(root.ask('DROP ROLE dan; CREATE ROLE eve LOGIN')), b'CCZ')
            self.is_over(dan)
            root.send(parse('DROP ROLE carl'), bind(), execute(), SYNC)
            self.assertEqual(kinds(root.until(b'Z')), b'12CZ')
            self.is_over(carl)

    def test_who_is_in_a_block_leaves_nothing(self):
        """What the client of a dropped role has written is not there, and its writer lock is free."""
        with self.dropping() as root, self.client('carl') as carl:
            self.assertEqual(kinds(root.ask('CREATE TABLE open_to_all (k BIGINT PRIMARY KEY)')), b'CZ')
            self.assertEqual(kinds(root.ask('GRANT INSERT, SELECT ON open_to_all TO PUBLIC')), b'CZ')
            self.assertEqual([kinds(root.ask(text)) for text in ('BEGIN', 'DROP ROLE carl')], [b'CZ'] * 2)
            self.assertEqual(kinds(carl.ask('BEGIN')), b'CZ')
            self.assertEqual(codes(carl.ask('INSERT INTO open_to_all VALUES (1)')), ['55P03'])
            self.assertEqual(kinds(root.ask('COMMIT')), b'CZ')
            self.is_over(carl)
            self.assertEqual(kinds(root.ask('INSERT INTO open_to_all VALUES (2)')), b'CZ')
            self.assertEqual(kinds(root.ask('SELECT k FROM open_to_all')), b'TDCZ')


class Places(AtServer):
    def test_the_file_of_the_socket(self):
        with self.served('--clients', 3, '--connections', 1):
            self.assertEqual(stat.S_IMODE(os.stat(self.socket).st_mode), 0o600)
            with Client(self.socket, 'root') as client:
                self.assertEqual(kinds(client.ask('SELECT 1')), b'TDCZ')
        self.assertFalse(os.path.exists(self.socket))

    def test_a_file_that_a_signal_left(self):
        """It is taken by the next server, but not that of a running one."""
        with self.served('--clients', 3):
            self.assertTrue(os.path.exists(self.socket))
            other = os.path.join(self.folder, 'other')
            run('format', other, '--pages', '64', '--admin', 'root')
            status, out, err = run('serve', other, '--at', f'pgsocket:{self.folder}', '--clients', '5')
            self.assertEqual((status, out, err.split('\n')[0]), (1, '', 'guarddb: Net'))
        self.assertTrue(os.path.exists(self.socket))
        with self.served('--clients', 3), Client(self.socket, 'root') as client:
            self.assertEqual(codes(client.ask('SELECT 1')), [])

    def test_frames_at_a_place(self):
        import guarddb
        for kind, where in (('port', free_port()), ('socket', os.path.join(self.folder, 'own'))):
            with self.subTest(kind):
                server = subprocess.Popen([PROGRAM, 'serve', self.path, '--at', f'{kind}:{where}', '--clients', '2', '--connections', '1'], stderr=subprocess.PIPE, text=True)
                server.stderr.readline()
                if kind == 'port':
                    self.assertEqual(server.stderr.readline(), f'guarddb: no passwords are asked for at 127.0.0.1:{where}\n')
                with guarddb.connect(where, wait=PATIENCE, timeout=PATIENCE) as connection:
                    self.assertEqual(connection.open('root').ask('SELECT 1'), [['1']])
                self.assertEqual(server.communicate(timeout=PATIENCE)[1], 'guarddb: done\n')

    def test_words(self):
        folder = '/tmp/' + 'f' * 89
        for words, message in [
            (['--at', 'pgport:5432'], RULE),
            (['--at', 'pgport:5432', '--connections', '5'], RULE),
            (['--at', 'pgport:5432', '--clients', '5', '--port', '5433'], RULE),
            (['--at', 'pgport:5432', '--clients', '5', '--socket', 'a'], RULE),
            (['--at', 'pgport:5432,scram', '--clients', '5'], OPTIONS.format('scram')),
            (['--at', 'pgsocket:/a,/b', '--clients', '5'], OPTIONS.format('/b')),
            (['--at', 'pgport:5432,mode=600', '--clients', '5'], OPTIONS.format('mode=600')),
            (['--at', 'pgsocket:/a,mode=640', '--clients', '5'], OPTIONS.format('mode=640')),
            (['--at', 'pgsocket:/a,role=', '--clients', '5'], OPTIONS.format('role=')),
            (['--at', 'pgsocket:/a,role=b,role=b', '--clients', '5'], OPTIONS.format('role=b,role=b')),
            (['--at', 'pgsocket:/a,', '--clients', '5'], OPTIONS.format('')),
            (['--at', '5432', '--clients', '5'], RULE),
            (['--at', 'PGPORT:5432', '--clients', '5'], RULE),
            (['--at', '', '--clients', '5'], RULE),
            (['--at', 'pgport:0', '--clients', '5'], "--port takes a decimal number from 1 to 65535, not '0'"),
            (['--at', 'pgport:', '--clients', '5'], "--port takes a decimal number from 1 to 65535, not ''"),
            (['--at', 'port:65536', '--clients', '5'], "--port takes a decimal number from 1 to 65535, not '65536'"),
            (['--at', 'socket:', '--clients', '5'], "'' cannot name a socket: PATH has 1 to 107 bytes"),
            (['--at', 'pgsocket:', '--clients', '5'], "'' cannot have the file of a socket: FOLDER has 1 to 93 bytes"),
            (['--at', f'pgsocket:{folder}', '--clients', '5'], f"'{folder}' cannot have the file of a socket: FOLDER has 1 to 93 bytes"),
            (['--at', 'pgsocket:/tmp', '--clients', '0'], "--clients takes a decimal number from 1 to 1000, not '0'"),
        ]:
            with self.subTest(words):
                status, out, err = run('serve', self.path, *words)
                self.assertEqual((status, out, err.split('\n')[0]), (2, '', f'error: {message}'))

    def test_a_folder_of_93_bytes(self):
        folder = self.folder + '/' + 'f' * (92 - len(self.folder))
        os.mkdir(folder)
        server = subprocess.Popen([PROGRAM, 'serve', self.path, '--at', f'pgsocket:{folder}', '--clients', '1', '--connections', '1'], stderr=subprocess.PIPE, text=True)
        self.assertEqual(server.stderr.readline(), f'guarddb: listening on {folder}/.s.PGSQL.5432\n')
        with Client(f'{folder}/.s.PGSQL.5432', 'root') as client:
            self.assertEqual(kinds(client.ask('SELECT 1')), b'TDCZ')
        self.assertEqual(server.communicate(timeout=PATIENCE)[1], 'guarddb: done\n')

    def test_a_place_that_is_not_bound(self):
        folder = os.path.join(self.folder, 'none')
        status, out, err = run('serve', self.path, '--at', f'pgsocket:{folder}', '--clients', '5')
        self.assertEqual((status, out, err.split('\n')[0]), (1, '', 'guarddb: Net'))
        self.assertTrue(err.split('\n')[1].startswith(f'guarddb: {folder}/.s.PGSQL.5432: '), err)


if __name__ == '__main__':
    unittest.main()
