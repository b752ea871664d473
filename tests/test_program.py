#!/usr/bin/env python3
"""Tests of the program's commands as a user calls them: python3 tests/test_program.py

Scripts over memory, over a file, and over connections to a port and to a socket answer the same bytes: those that are expected of
them in crates/system_tests/data/ and in examples/. The program is the one in the environment variable GUARDDB; without it nothing is
tried.
"""
import fcntl
import glob
import json
import os
import re
import resource
import shutil
import signal
import subprocess
import sys
import tempfile
import time
import unittest

from program import IS_FAKE, PATIENCE, PROGRAM, TOP, make_database, python_with, run, served
import guarddb

sys.path.insert(0, os.path.join(TOP, 'crates', 'storage_tests'))
import images       # a second reader of databases, which shares nothing with the program

TENANTS = os.path.join(TOP, 'examples', 'tenants')
SCRIPTS = os.path.join(TOP, 'crates', 'system_tests', 'data')
PAGES = {'four_thousand_events.script': 4096}      # the pages of a script's file, if not 256
REASONS = {'NotADatabase': "not a database; 'guarddb format' makes one in a new file",
           'Damaged': 'the database is damaged; restore it from a copy',
           'Format': 'of format 9, and this guarddb knows 1 to 3; open it with the guarddb that made it, or restore a copy',
           'WrongSize': 'not 64 to 65536 pages of 4096 bytes, or not as many as it was made with'}
NO_FORM = "not 'open SESSION ROLE', 'SESSION: STATEMENT' or 'close SESSION', with one blank after the colon; a statement is one line"

PSYCOPG2 = python_with('psycopg2')


def read(path):
    with open(path, encoding='utf-8', newline='') as file:
        return file.read()


def events(script):
    """(kind, name of the session, text) of each line that is an event."""
    for line in script.split('\n'):
        if line.startswith('open '):
            yield (guarddb.OPEN, *line[5:].split(' ', 1))
        elif line.startswith('close '):
            yield guarddb.CLOSE, line[6:], ''
        elif line and not line.startswith('#'):
            yield (guarddb.STATEMENT, *line.split(': ', 1))


def over_a_connection(path, script, socket_path=None):
    numbers = {}
    with served(path, socket_path=socket_path) as place, guarddb.connect(place, wait=PATIENCE, timeout=PATIENCE) as connection:
        return ''.join(connection.exchange(kind, numbers.setdefault(name, len(numbers) + 1), text)
                       for kind, name, text in events(script))


@unittest.skipIf(IS_FAKE, 'GUARDDB names no program')
class Program(unittest.TestCase):
    def setUp(self):
        self.folder = tempfile.mkdtemp(prefix='guarddb-')
        self.addCleanup(shutil.rmtree, self.folder)

    def path(self, name):
        return os.path.join(self.folder, name)

    def write(self, name, text):
        with open(self.path(name), 'w', encoding='utf-8', newline='') as file:
            file.write(text)
        return self.path(name)

    def compares(self, script, expected, pages=256):
        """Over memory, files and connections the answers are those expected, and a second process finds what the first left."""
        files = [self.path(name) for name in ('run', 'port', 'socket', 'journal')]
        for path in files:
            make_database(path, pages, journal=path == self.path('journal'))
        self.assertEqual(run('run', '--memory', 'root', script), (0, expected, ''))
        for path in (files[0], files[3]):
            self.assertEqual(run('run', path, script), (0, expected, ''))
        self.assertEqual(over_a_connection(files[1], read(script)), expected)
        self.assertEqual(over_a_connection(files[2], read(script), self.path('at')), expected)
        for path in files:
            self.assertEqual(run('check', path), (0, 'ok CHECK\n', ''))
        copies = [self.path(name) for name in ('copy', 'copy_of_journal')]
        for path, copy in zip((files[0], files[3]), copies):
            self.assertEqual(run('copy', path, copy, '--pages', str(pages)), (0, 'ok COPY\n', ''))
            self.assertEqual(self.records(copy), self.records(files[0]))
        files += copies
        first, *others = (run('run', path, self.write('again', self.reads(read(script)))) for path in files)
        self.assertEqual(others, [first] * len(others))
        for path in files:
            os.remove(path)

    def reads(self, script):
        """A script that reads each table that the script makes, as far as it is there, as each role that may."""
        tables = sorted(set(re.findall(r'CREATE TABLE (\w+)', script)))
        roles = sorted({'root', *re.findall(r'CREATE ROLE (\w+)', script)})
        return ''.join(f'open s{n} {role}\n' + ''.join(f's{n}: SELECT * FROM {table}\n' for table in tables)
                       for n, role in enumerate(roles))

    def records(self, path):
        """The records of a database, as the second reader reads them."""
        return images.records_of(self.bytes_of(path))

    def test_scripts(self):
        paths = sorted(glob.glob(os.path.join(SCRIPTS, '*.script')))
        self.assertTrue(paths)
        for path in paths:
            expected = read(path[:-len('script')] + 'expected')
            if 'guarddb: ' in expected:
                continue  # a script with an invalid line ends there, and a socket has no such lines; others have notes on standard error
            with self.subTest(os.path.basename(path)):
                self.compares(path, expected, PAGES.get(os.path.basename(path), 256))

    def test_tenants(self):
        self.compares(os.path.join(TENANTS, 'tenants.sql'), read(os.path.join(TENANTS, 'tenants.expected')))

    def test_tenants_over_a_socket(self):
        words = [sys.executable, os.path.join(TENANTS, 'tenants.py'), PROGRAM]
        found = subprocess.run(words, stdout=subprocess.PIPE, check=True).stdout.decode()
        self.assertIn(f'```\n{found}```\n', read(os.path.join(TENANTS, 'README.md')))

    @unittest.skipUnless(PSYCOPG2, 'psycopg2 is not installed')
    def test_tenants_through_a_driver(self):
        words = [PSYCOPG2, os.path.join(TENANTS, 'tenants_psycopg.py'), PROGRAM]
        found = subprocess.run(words, stdout=subprocess.PIPE, check=True).stdout.decode()
        self.assertIn(f'```\n{found}```\n', read(os.path.join(TENANTS, 'README.md')))

    def test_a_second_run_reads_what_the_first_wrote(self):
        path = self.path('db')
        make_database(path)
        reads = 'r: SELECT * FROM t\nr: SELECT count(*) FROM t\n'
        first = self.write('first', 'open r root\nr: CREATE TABLE t (k BIGINT PRIMARY KEY, o TEXT)\n'
                           "r: INSERT INTO t VALUES (2, 'b'), (1, NULL)\n" + reads)
        second = self.write('second', 'open r root\n' + reads)
        answers = 'rows 2\n1\t\\N\n2\tb\nrows 1\n2\n'
        self.assertEqual(run('run', path, first), (0, 'ok OPEN\nok CREATE TABLE\nok INSERT 2\n' + answers, ''))
        self.assertEqual(run('run', path, second), (0, 'ok OPEN\n' + answers, ''))
        self.assertEqual(over_a_connection(path, read(second)), 'ok OPEN\n' + answers)

    def test_a_block_that_is_open_at_the_end_is_rolled_back(self):
        path = self.path('db')
        make_database(path)
        script = self.write('script', 'open r root\nr: CREATE TABLE t (k BIGINT PRIMARY KEY)\nr: BEGIN\n'
                            'r: INSERT INTO t VALUES (1)\n')
        self.assertEqual(run('run', path, script)[0], 0)
        reads = self.write('reads', 'open r root\nr: SELECT * FROM t\n')
        self.assertEqual(run('run', path, reads), (0, 'ok OPEN\nrows 0\n', ''))

    def test_a_full_file(self):
        path = self.path('db')
        make_database(path, pages=64)
        inserts = ''.join(f"r: INSERT INTO big VALUES ({k}, '{'o' * 1000}')\n" for k in range(300))
        script = self.write('script', 'open r root\nr: CREATE TABLE big (k BIGINT PRIMARY KEY, v TEXT)\nr: BEGIN\n' + inserts
                            + 'r: COMMIT\nr: SELECT count(*) FROM big\nr: ROLLBACK\nr: SELECT count(*) FROM big\n')
        answers = ('ok OPEN\nok CREATE TABLE\nok BEGIN\n' + 'ok INSERT 1\n' * 300
                   + 'refused 53100\nrows 1\n300\nok ROLLBACK\nrows 1\n0\n')
        self.assertEqual(run('run', path, script), (0, answers, ''))

    def make_full(self, path, journal):
        """A file of 64 pages that INSERTs of a row each have filled. How many rows it took."""
        make_database(path, pages=64, journal=journal)
        inserts = ''.join(f"r: INSERT INTO big VALUES ({k}, '{'o' * 1000}')\n" for k in range(300))
        script = self.write('script', 'open r root\nr: CREATE TABLE big (k BIGINT PRIMARY KEY, v TEXT)\n' + inserts)
        answers = run('run', path, script)[1].split('\n')
        self.assertEqual(answers.count('refused 53100'), 300 - answers.count('ok INSERT 1'))
        self.assertLess(120, answers.count('ok INSERT 1'))
        self.assertEqual(answers[-2], 'refused 53100')
        return answers.count('ok INSERT 1')

    def test_a_full_file_is_emptied(self):
        """What removes many rows goes through on a file that INSERTs have filled, and INSERTs go through after it."""
        full, path = self.path('full'), self.path('db')
        inserts = ''.join(f"r: INSERT INTO big VALUES ({k}, '{'o' * 1000}')\n" for k in range(1000, 1030))
        for journal in (False, True):
            count = self.make_full(full, journal)
            cases = [('DELETE FROM big', count), ('DELETE FROM big WHERE k < 80', 80), ('DELETE FROM big WHERE k >= 80', count - 80),
                     ('DELETE FROM big WHERE k >= 21 AND k < 101', 80), ('DROP TABLE big', count)]
            for statement, removed in cases:
                with self.subTest(statement, journal=journal):
                    shutil.copy(full, path)
                    dropped = statement.startswith('DROP')
                    script = self.write('script', f"open r root\nr: UPDATE big SET v = '{'p' * 1000}' WHERE k = 50\nr: {statement}\n"
                                        + 'r: CREATE TABLE big (k BIGINT PRIMARY KEY, v TEXT)\n' * dropped + inserts + 'r: SELECT count(*) FROM big\n')
                    answers = ('ok OPEN\nok UPDATE 1\n' + ('ok DROP TABLE\nok CREATE TABLE\n' if dropped else f'ok DELETE {removed}\n')
                               + 'ok INSERT 1\n' * 30 + f'rows 1\n{count - removed + 30}\n')
                    self.assertEqual(run('run', path, script), (0, answers, ''))
                    self.assertEqual(run('check', path), (0, 'ok CHECK\n', ''))
            os.remove(full)

    def test_a_file_that_is_open_in_a_server(self):
        path = self.path('db')
        make_database(path)
        script = self.write('script', 'open r root\n')
        with served(path) as port, guarddb.connect(port, wait=PATIENCE, timeout=PATIENCE) as connection:
            connection.open('root')
            in_use = (1, '', f'guarddb: InUse\nguarddb: {path}: another process has it open\n')
            self.assertEqual(run('check', path), in_use)
            self.assertEqual(run('run', path, script), in_use)
        self.assertEqual(run('check', path), (0, 'ok CHECK\n', ''))

    def test_another_path_of_a_file_that_is_open(self):
        """The lock is the file's, whatever path it is opened by."""
        path, hard, soft = self.path('db'), self.path('hard'), self.path('soft')
        make_database(path)
        os.link(path, hard)
        os.symlink(path, soft)
        with served(hard) as port, guarddb.connect(port, wait=PATIENCE, timeout=PATIENCE) as connection:
            connection.open('root')
            for other in (path, soft):
                self.assertEqual(run('check', other), (1, '', f'guarddb: InUse\nguarddb: {other}: another process has it open\n'))
        self.assertEqual(run('check', soft), (0, 'ok CHECK\n', ''))

    def test_the_script_is_the_database(self):
        """A file that is named twice is read as a script, whose first line is none, and is not written."""
        path = self.path('db')
        make_database(path)
        with open(path, 'rb') as file:
            before = file.read()
        status, answers, _ = run('run', path, path)
        self.assertIn(status, (1, 2))
        self.assertEqual(answers, '')
        with open(path, 'rb') as file:
            self.assertEqual(file.read(), before)
        self.assertEqual(run('check', path), (0, 'ok CHECK\n', ''))

    def test_altered_files(self):
        def is_told(change, answer):
            path = self.path('db')
            make_database(path, pages=64)
            with open(path, 'r+b') as file:
                change(file)
            self.assertEqual(run('check', path), answer)
            if answer[0]:       # neither is it described, nor copied
                self.assertEqual(run('describe', path), answer)
                self.refuses_copy(answer, path, self.path('new'))
            os.remove(path)

        def put(at, byte):
            def change(file):
                file.seek(at)
                file.write(bytes([byte]))
            return change
        def told(fault):
            return 1, '', f'guarddb: {fault}\nguarddb: {self.path("db")}: {REASONS[fault]}\n'
        for at, byte, fault in [(512, 0, 'NotADatabase'), (523, 9, 'Format'), (527, 0x41, 'WrongSize'), (535, 2, 'Damaged'),
                                (539, 0, 'Damaged'), (8199, 1, 'Damaged'), (4109, 8, 'Damaged'), (4110, 1, 'Damaged')]:
            with self.subTest(at):
                is_told(put(at, byte), told(fault))
        is_told(lambda file: file.truncate(262143), told('WrongSize'))
        is_told(lambda file: file.write(bytes(262144)), told('NotADatabase'))
        for at in (1024, 12288):
            is_told(put(at, 1), (0, 'ok CHECK\n', ''))

    def told(self, fault, *about):
        """What standard error is told of a fault: its name, and then what it is about, and why it came."""
        return 1, '', f'guarddb: {fault}\nguarddb: {": ".join(about)}\n'

    def test_faults(self):
        path, none, script = self.path('db'), self.path('none'), self.write('script', 'open r root\n')
        missing = 'no such file or folder'
        self.assertEqual(run('check', path), self.told('Device', path, missing))
        make_database(path)
        self.assertEqual(run('format', path, '--pages', '64', '--admin', 'root'),
                         self.told('Exists', path, "the name is taken; this command makes a new file"))
        self.assertEqual(run('check', path), (0, 'ok CHECK\n', ''))
        self.assertEqual(run('run', path, none), self.told('Script', none, missing))
        self.assertEqual(run('run', none, none), self.told('Script', none, missing))
        self.assertEqual(run('run', none, script), self.told('Device', none, missing))
        self.assertEqual(run('run', path, script), (0, 'ok OPEN\n', ''))

    def described(self, *words):
        """The description that JSON gives, of a file that is only read."""
        before = self.bytes_of(words[0])
        status, text, messages = run('describe', *words, '--json')
        self.assertEqual((status, messages), (0, ''))
        self.assertEqual(self.bytes_of(words[0]), before)
        return json.loads(text)

    def bytes_of(self, path):
        with open(path, 'rb') as file:
            return file.read()

    def make_orders(self):
        """A database with a table that bob may read through a role, and with a policy."""
        path = self.path('db')
        make_database(path)
        script = ('open r root\nr: CREATE ROLE bob LOGIN\nr: CREATE ROLE staff\nr: GRANT staff TO bob\n'
                  'r: CREATE TABLE orders (id BIGINT PRIMARY KEY, note TEXT)\nr: GRANT SELECT ON orders TO staff\n'
                  'r: ALTER TABLE orders ENABLE ROW LEVEL SECURITY\nr: CREATE POLICY own ON orders USING (note = current_user)\n')
        status, answers, _ = run('run', path, self.write('script', script))
        self.assertEqual((status, answers.count('ok ')), (0, 8))
        return path

    def test_a_description(self):
        path = self.make_orders()
        found = self.described(path)
        self.assertEqual(found['memberships'], [{'role': 'bob', 'in': 'staff', 'through': 'staff', 'admin': False}])
        self.assertEqual(found['tables'], [{'table': 'orders', 'owner': 'root', 'row security': True, 'forced': False}])
        self.assertEqual([(row['column'], row['type'], row['key']) for row in found['columns']],
                         [('id', 'BIGINT', 1), ('note', 'TEXT', None)])
        self.assertIn({'table': 'orders', 'column': None, 'privilege': 'SELECT', 'to': 'staff', 'by': 'root', 'grant option': False},
                      found['privileges'])
        self.assertEqual(found['policies'], [{'table': 'orders', 'policy': 'own', 'kind': 'PERMISSIVE', 'command': 'ALL',
                                              'roles': None, 'using': 'note = current_user', 'with check': None}])
        status, text, messages = run('describe', path)
        self.assertEqual((status, messages), (0, ''))
        self.assertIn('\ntables\n  table   owner  row security  forced\n  orders  root   yes           no\n\n', text)

    def test_a_description_of_a_role(self):
        path = self.make_orders()
        found = self.described(path, 'bob')
        self.assertEqual([row['role'] for row in found['roles']], ['bob'])
        self.assertEqual([(row['column'], row['privilege'], row['held'], row['grants as']) for row in found['rights']],
                         [(None, 'SELECT', True, None), ('id', 'SELECT', True, None), ('note', 'SELECT', True, None)])
        self.assertEqual(found['given'], [{'table': 'orders', 'column': None, 'privilege': 'SELECT', 'through': 'staff', 'by': 'root',
                                           'grant option': False}])
        self.assertEqual(found['row security'], [{'table': 'orders', 'guarded': True}])
        self.assertEqual([(row['command'], row['policy']) for row in found['policies']],
                         [(command, 'own') for command in ('SELECT', 'INSERT', 'UPDATE', 'DELETE')])
        self.assertEqual(self.described(path, 'root')['row security'], [{'table': 'orders', 'guarded': False}])

    def test_what_a_role_may_do_to_columns(self):
        """DELETE is of whole rows: it is told of the table alone."""
        path = self.make_orders()
        run('run', path, self.write('more', 'open r root\nr: GRANT DELETE ON orders TO bob\nr: GRANT UPDATE (note) ON orders TO bob\n'))
        self.assertEqual([(row['column'], row['privilege']) for row in self.described(path, 'bob')['rights']],
                         [(None, 'SELECT'), (None, 'DELETE'), ('id', 'SELECT'), ('note', 'SELECT'), ('note', 'UPDATE')])
        told = [(row['column'], row['privilege']) for row in self.described(path, 'root')['rights']]
        self.assertIn((None, 'DELETE'), told)
        self.assertNotIn(('id', 'DELETE'), told)

    def test_descriptions_that_fail(self):
        path, none = self.make_orders(), self.path('none')
        self.assertEqual(run('describe', path, 'eve'), self.told('NoRole', 'eve', 'no role of the database has this name'))
        self.assertEqual(run('describe', none), self.told('Device', none, 'no such file or folder'))
        status, answers, messages = run('describe', path, '')
        self.assertEqual((status, answers), (2, ''))
        self.assertIn("'' is no name", messages)
        with open('/dev/full', 'w', encoding='utf-8') as full:
            done = subprocess.run([PROGRAM, 'describe', path], stdout=full, stderr=subprocess.PIPE, check=False)
        told = 'guarddb: Output\nguarddb: standard output: closed, or it takes no more\n'
        self.assertEqual((done.returncode, done.stderr.decode()), (1, told))
        with served(path) as port, guarddb.connect(port, wait=PATIENCE, timeout=PATIENCE) as connection:
            connection.open('root')
            self.assertEqual(run('describe', path), self.told('InUse', path, 'another process has it open'))
        self.assertEqual(run('check', path), (0, 'ok CHECK\n', ''))

    def write_image(self, path, name):
        """A file of 64 pages that holds what an image of this name tells."""
        image = b''
        for line in read(os.path.join(SCRIPTS, name)).split('\n'):
            if line.startswith('put '):
                times, *numbers = line[4:].split(' ')
                image += bytes(int(number, 16) for number in numbers) * int(times)
        with open(path, 'wb') as file:
            file.write(image.ljust(64 * 4096, b'\0'))

    def test_a_description_of_a_file_of_format_1(self):
        """It is described as it is, and stays of format 1."""
        path = self.path('db')
        self.write_image(path, 'grants_of_format_1.image')
        self.assertEqual([row['column'] for row in self.described(path)['privileges'] if row['column']], [])
        migrated = f'guarddb: {path} was of format 1 and is of format 2 now\n'
        self.assertEqual(run('check', path), (0, 'ok CHECK\n', migrated))

    def root_formats(self, path):
        """The formats of the root sectors that are not empty, that of the greatest number last."""
        data = self.bytes_of(path)
        roots = sorted((data[at:at + 512] for at in (0, 512)), key=lambda root: root[16:24])
        return [root[11] for root in roots if any(root)]

    def test_a_journal_is_turned_on_and_off(self):
        """The database stays, and goes on as one whose file has never had a journal."""
        path, plain = self.path('db'), self.path('plain')
        for name in (path, plain):
            make_database(name)
        for number, (word, form) in enumerate([('on', 3), ('on', 3), ('off', 2), ('off', 2), ('on', 3), ('off', 2)]):
            table = 'r: CREATE TABLE t (k BIGINT PRIMARY KEY, x TEXT)\n' * (number == 0)
            rows = ''.join(f"r: INSERT INTO t VALUES ({100 * number + k}, '{'x' * k}')\n" for k in range(50))
            script = self.write('script', f'open r root\n{table}{rows}r: DELETE FROM t WHERE k > {100 * number + 40}\nr: SELECT * FROM t\n')
            self.assertEqual(run('run', path, script), run('run', plain, script))
            self.assertEqual(run('journal', path, word), (0, 'ok JOURNAL\n', ''))
            self.assertEqual(self.root_formats(path)[-1], form)
            self.assertEqual(run('check', path), (0, 'ok CHECK\n', ''))
        self.assertNotIn(3, self.root_formats(path))
        self.assertEqual(self.records(path), self.records(plain))

    def test_journals_that_are_refused(self):
        path, none = self.path('db'), self.path('none')
        self.write_image(path, 'grants_of_format_1.image')
        before = self.bytes_of(path)
        first = "of format 1; 'guarddb check' brings it to format 2, which can have a journal"
        self.assertEqual(run('journal', path, 'on'), self.told('Format', path, first))
        self.assertEqual(run('journal', path, 'off'), (0, 'ok JOURNAL\n', ''))
        self.assertEqual(self.bytes_of(path), before)
        self.assertEqual(run('journal', none, 'on'), self.told('Device', none, 'no such file or folder'))
        self.write('text', 'x' * 64 * 4096)
        self.assertEqual(run('journal', self.path('text'), 'off'), self.told('NotADatabase', self.path('text'), REASONS['NotADatabase']))

    def copied(self, path, new, pages=64):
        """Copies a database, which stays as it was; nothing else is left beside the copy."""
        before = self.bytes_of(path)
        done = run('copy', path, new, '--pages', str(pages))
        self.assertEqual(self.bytes_of(path), before)
        self.assertFalse(os.path.lexists(new + '.partial'))
        return done

    def refuses_copy(self, told, path, new, pages=64):
        """A copy that is refused leaves the folder as it was."""
        before = sorted(os.listdir(self.folder))
        self.assertEqual(run('copy', path, new, '--pages', str(pages)), told)
        self.assertEqual(sorted(os.listdir(self.folder)), before)

    def test_a_copy(self):
        path, new = self.make_orders(), self.path('new')
        self.assertEqual(self.copied(path, new, 128), (0, 'ok COPY\n', ''))
        self.assertEqual(os.stat(new).st_size, 128 * 4096)
        self.assertEqual(os.stat(new).st_mode & 0o777, 0o600)
        self.assertEqual(os.stat(new).st_nlink, 1)
        self.assertEqual(self.records(new), self.records(path))
        self.assertEqual(self.described(new), self.described(path))
        self.assertEqual(run('check', new), (0, 'ok CHECK\n', ''))

    def test_a_copy_of_a_full_file(self):
        """A full file is copied to a larger one, which takes more; and to a smaller one once much of it is deleted."""
        path, larger, smaller = self.path('db'), self.path('larger'), self.path('smaller')
        make_database(path, pages=64)
        rows = ''.join(f"r: INSERT INTO big VALUES ({k}, '{'o' * 1000}')\n" for k in range(300))
        run('run', path, self.write('script', 'open r root\nr: CREATE TABLE big (k BIGINT PRIMARY KEY, v TEXT)\n' + rows))
        more = self.write('more', f"open r root\nr: INSERT INTO big VALUES (1000, '{'o' * 1000}')\n")
        self.assertEqual(run('run', path, more)[1], 'ok OPEN\nrefused 53100\n')
        self.assertEqual(self.copied(path, larger, 256), (0, 'ok COPY\n', ''))
        self.assertEqual(run('run', larger, more)[1], 'ok OPEN\nok INSERT 1\n')
        again = ''.join(f"r: INSERT INTO big VALUES ({k}, '{'o' * 1000}')\n" for k in range(300, 500))
        run('run', larger, self.write('again', 'open r root\n' + again))
        # records of something over 1,000 bytes, and those of the definitions: three or four fill a leaf
        count = int(run('run', larger, self.write('count', 'open r root\nr: SELECT count(*) FROM big\n'))[1].split('\n')[2])
        status, _, messages = run('copy', larger, smaller, '--pages', '64')
        wanted = int(re.search('64 pages; it wants at least ([0-9]+)\n', messages)[1])
        self.assertEqual((status, messages), self.told('Full', smaller, f'the database does not fit in 64 pages; it wants at least {wanted}')[::2])
        self.assertTrue(count / 4 < wanted < count / 3 + 8, (count, wanted))
        fewer = f'the database does not fit in {wanted - 1} pages; it wants at least {wanted}'
        self.refuses_copy(self.told('Full', smaller, fewer), larger, smaller, wanted - 1)
        self.assertEqual(self.copied(larger, smaller, wanted + 16), (0, 'ok COPY\n', ''))    # and the reserve
        os.remove(smaller)
        run('run', larger, self.write('less', 'open r root\nr: DELETE FROM big WHERE k > 20\n'))
        self.assertEqual(self.copied(larger, smaller), (0, 'ok COPY\n', ''))

    def test_a_copy_of_a_file_of_format_1(self):
        """It stays of format 1, and its copy is of format 2."""
        path, new = self.path('db'), self.path('new')
        self.write_image(path, 'grants_of_format_1.image')
        self.assertEqual(self.copied(path, new), (0, 'ok COPY\n', ''))
        self.assertEqual(run('check', new), (0, 'ok CHECK\n', ''))
        migrated = f'guarddb: {path} was of format 1 and is of format 2 now\n'
        self.assertEqual(run('check', path), (0, 'ok CHECK\n', migrated))
        self.assertEqual(self.records(new), self.records(path))

    def test_copies_that_fail(self):
        path, new, none = self.make_orders(), self.path('new'), self.path('none')
        self.refuses_copy(self.told('Device', none, 'no such file or folder'), none, new)
        taken = 'the name is taken; this command makes a new file'
        self.refuses_copy(self.told('Exists', path, taken), path, path)
        os.symlink(none, self.path('link'))
        self.refuses_copy(self.told('Exists', self.path('link'), taken), path, self.path('link'))
        self.refuses_copy(self.told('Exists', self.folder, taken), path, self.folder)
        below = self.path('none/new')
        self.refuses_copy(self.told('Device', below, 'no such file or folder'), path, below)
        self.refuses_copy(self.told('Device', '', 'no such file or folder'), path, '')
        self.write('new.partial', 'left')
        left = 'a copy is made there, or was stopped; once none is made it can be removed'
        self.refuses_copy(self.told('Exists', new + '.partial', left), path, new)
        self.assertEqual(read(new + '.partial'), 'left')
        self.write('text', 'x' * 64 * 4096)
        self.refuses_copy(self.told('NotADatabase', self.path('text'), REASONS['NotADatabase']), self.path('text'), self.path('other'))
        self.write('short', 'x')
        self.refuses_copy(self.told('WrongSize', self.path('short'), REASONS['WrongSize']), self.path('short'), self.path('other'))
        self.refuses_copy(self.told('Device', self.folder, 'it is a folder'), self.folder, self.path('other'))
        self.assertEqual(run('check', path), (0, 'ok CHECK\n', ''))

    def test_a_copy_that_is_too_large_for_the_system(self):
        """A new file that the system does not let grow so far is taken away again."""
        def limit():
            signal.signal(signal.SIGXFSZ, signal.SIG_IGN)
            resource.setrlimit(resource.RLIMIT_FSIZE, (100 * 4096, 100 * 4096))
        path, new = self.make_orders(), self.path('new')
        before = sorted(os.listdir(self.folder))
        for pages, told in [(128, self.told('Device', new, 'a call of the system failed')), (100, (0, 'ok COPY\n', ''))]:
            words = [PROGRAM, 'copy', path, new, '--pages', str(pages)]
            done = subprocess.run(words, capture_output=True, preexec_fn=limit, check=False)
            self.assertEqual((done.returncode, done.stdout.decode(), done.stderr.decode()), told)
            self.assertEqual(sorted(os.listdir(self.folder)), before if done.returncode else sorted([*before, 'new']))
        self.assertEqual(self.records(new), self.records(path))

    def test_a_copy_that_is_not_told(self):
        """The copy was made before standard output was told, and stays."""
        path, new = self.make_orders(), self.path('new')
        with open('/dev/full', 'w', encoding='utf-8') as full:
            done = subprocess.run([PROGRAM, 'copy', path, new, '--pages', '64'], stdout=full, stderr=subprocess.PIPE, check=False)
        told = 'guarddb: Output\nguarddb: standard output: closed, or it takes no more\n'
        self.assertEqual((done.returncode, done.stderr.decode()), (1, told))
        self.assertEqual(self.records(new), self.records(path))
        closed = self.path('closed')
        subprocess.run(['sh', '-c', f'exec "$0" copy {path} {closed} --pages 64 0<&- 1>&- 2>&-', PROGRAM], check=False)
        self.assertEqual(self.records(closed), self.records(path))

    def test_readers_go_side_by_side(self):
        """Who reads a file keeps writers out, and no readers; who writes it keeps out both."""
        path, new = self.make_orders(), self.path('new')
        in_use = 'another process has it open'
        with open(path, 'rb') as reading:
            fcntl.flock(reading, fcntl.LOCK_SH)
            self.assertEqual(self.copied(path, new), (0, 'ok COPY\n', ''))
            self.described(path)
            self.assertEqual(run('check', path), self.told('InUse', path, in_use))
        os.remove(new)
        with served(path) as port, guarddb.connect(port, wait=PATIENCE, timeout=PATIENCE) as connection:
            connection.open('root')
            self.refuses_copy(self.told('InUse', path, in_use), path, new)

    def test_a_file_that_is_only_read(self):
        path, new = self.make_orders(), self.path('new')
        os.chmod(path, 0o400)
        self.assertEqual(self.copied(path, new), (0, 'ok COPY\n', ''))
        link = self.path('link')
        os.symlink(path, link)
        self.assertEqual(self.copied(link, self.path('other')), (0, 'ok COPY\n', ''))
        folder = self.path('folder')
        os.mkdir(folder, 0o500)
        if os.getuid() == 0:
            return      # who may do everything is refused nothing
        below = os.path.join(folder, 'new')
        self.refuses_copy(self.told('Device', below, 'permission denied'), path, below)

    def test_a_copy_that_is_stopped(self):
        """Whenever it is stopped, there is no copy or a whole one."""
        path, new = self.path('db'), self.path('new')
        make_database(path, pages=4096)
        rows = ''.join(f"r: INSERT INTO big VALUES ({k}, '{'o' * 1000}')\n" for k in range(4000))
        script = 'open r root\nr: CREATE TABLE big (k BIGINT PRIMARY KEY, v TEXT)\nr: BEGIN\n' + rows + 'r: COMMIT\n'
        self.assertEqual(run('run', path, self.write('script', script))[0], 0)
        started = time.monotonic()
        self.assertEqual(self.copied(path, new, 4096), (0, 'ok COPY\n', ''))
        whole, records = time.monotonic() - started, self.records(new)
        self.assertEqual(records, self.records(path))
        os.remove(new)
        for n in range(20):
            copy = subprocess.Popen([PROGRAM, 'copy', path, new, '--pages', '4096'], stdout=subprocess.DEVNULL, stderr=subprocess.DEVNULL)
            time.sleep(whole * n / 18)
            copy.send_signal(signal.SIGINT if n % 2 else signal.SIGKILL)
            copy.wait()
            if os.path.lexists(new):
                self.assertEqual(self.records(new), records)
                os.remove(new)
            if os.path.lexists(new + '.partial'):
                os.remove(new + '.partial')
        self.assertEqual(self.copied(path, new, 4096), (0, 'ok COPY\n', ''))

    @staticmethod
    def is_begun(path):
        """Whether something was written to a copy: a new file is of zeros."""
        if not os.path.exists(path):
            return False
        with open(path, 'rb') as file:
            return any(file.read(1024))

    def test_how_far_a_copy_is(self):
        """A copy that takes long tells that on standard error, and goes on where it cannot."""
        path, new = self.path('db'), self.path('new')
        make_database(path, pages=8192)
        script = ['open r root\nr: CREATE TABLE big (k BIGINT PRIMARY KEY, v TEXT)\n']
        for first in range(0, 20_000, 4000):
            rows = [f"r: INSERT INTO big VALUES ({k}, '{'o' * 1000}')\n" for k in range(first, first + 4000)]
            script += ['r: BEGIN\n', *rows, 'r: COMMIT\n']
        self.assertEqual(run('run', path, self.write('script', ''.join(script)))[0], 0)
        records = self.records(path)
        with open('/dev/full', 'wb') as full:
            for messages, told in [(subprocess.PIPE, b'guarddb: copied 16 MiB\n'), (full, None)]:
                words = [PROGRAM, 'copy', path, new, '--pages', '8192']
                copy = subprocess.Popen(words, stdout=subprocess.PIPE, stderr=messages)
                while not self.is_begun(new + '.partial') and copy.poll() is None:
                    time.sleep(0.001)
                copy.send_signal(signal.SIGSTOP)
                time.sleep(2.5)
                copy.send_signal(signal.SIGCONT)
                self.assertEqual((*copy.communicate(), copy.returncode), (b'ok COPY\n', told, 0))
                self.assertEqual(self.records(new), records)
                os.remove(new)

    def test_what_the_system_refuses(self):
        path, script = self.path('db'), self.write('script', 'open r root\n')
        make_database(path)
        folder = 'it is a folder'
        self.assertEqual(run('check', self.folder), self.told('Device', self.folder, folder))
        self.assertEqual(run('run', path, self.folder), self.told('Script', self.folder, folder))
        below = os.path.join(path, 'db')
        self.assertEqual(run('check', below), self.told('Device', below, 'a part of the path is not a folder'))
        new = self.path('none/db')
        self.assertEqual(run('format', new, '--pages', '64', '--admin', 'root'), self.told('Device', new, 'no such file or folder'))
        with served(path, socket_path=self.path('at')) as place, guarddb.connect(place, wait=PATIENCE, timeout=PATIENCE):
            other = self.path('other')
            make_database(other)
            self.assertEqual(run('serve', other, '--socket', place, '--connections', '1'),
                             self.told('Net', place, 'the address is in use'))
        if os.getuid() == 0:
            return      # who may do everything is refused nothing
        os.chmod(path, 0o000)
        self.assertEqual(run('run', path, script), self.told('Device', path, 'permission denied'))

    def test_scripts_that_are_not_utf8(self):
        """The first byte that is none is named by its line and by its place there, both counted from 1."""
        path = self.path('db')
        make_database(path)
        for script, line, byte in [(b'\xff', 1, 1), (b'open r root\nr: \xc3', 2, 4), (b'\n\n# \xc3\xa4\xe4b\n', 3, 5)]:
            with open(self.path('script'), 'wb') as file:
                file.write(script)
            about = (self.path('script'), f'line {line}, byte {byte}', 'not UTF-8')
            self.assertEqual(run('run', path, self.path('script')), self.told('Script', *about))
            self.assertEqual(run('run', '--memory', 'root', self.path('script')), self.told('Script', *about))
            done = subprocess.run([PROGRAM], input=script, capture_output=True, check=False)
            self.assertEqual((done.returncode, done.stdout, done.stderr.decode()), self.told_of_input(line, byte))

    def told_of_input(self, line, byte):
        status, _, messages = self.told('Script', 'standard input', f'line {line}, byte {byte}', 'not UTF-8')
        return status, b'', messages

    def explained(self, option, text, status, answers, *told):
        """What a script prints and what is told of it, over a file and in memory."""
        script, path = self.write('s.sql', text), self.path('explained.db')
        make_database(path)
        said = ''.join(line.replace('@', f'guarddb: {script}: line ') + '\n' for line in told)
        self.assertEqual(run('run', path, script, option), (status, answers, said))
        self.assertEqual(run('run', '--memory', 'root', option, script), (status, answers, said))
        self.assertEqual(run('check', path), (0, 'ok CHECK\n', ''))
        os.remove(path)

    def meaning(self, code):
        """What is told of a refusal, by the list of the clients."""
        return f'refused {code}: {guarddb.CODES[code].meaning}'

    def test_refusals_that_are_explained(self):
        """Standard error tells of each its line and its meaning; the answers and the status are those of a run that tells nothing."""
        text = '# first\n\nopen r root\nr: SELECT 1 / 0\nr: SELECT k FROM t\nopen r root\nr: SELECT 2\nr: SELECT 3 +\n'
        answers = 'ok OPEN\nrefused 22012\nrefused 42P01\nrefused 08002\nrows 1\n2\nrefused 42601\n'
        self.assertEqual(run('run', '--memory', 'root', self.write('s.sql', text)), (0, answers, ''))
        told = [f'@4: {self.meaning("22012")}', f'@5: {self.meaning("42P01")}', f'@6: {self.meaning("08002")}',
                f'@8: {self.meaning("42601")}', '    SELECT 3 +', '              ^']
        self.explained('--explain', text, 0, answers, *told)
        self.explained('--stop', text, 3, 'ok OPEN\nrefused 22012\n', told[0])
        good = 'open r root\nr: SELECT 1\n'
        for option in ('--explain', '--stop'):
            self.explained(option, good, 0, 'ok OPEN\nrows 1\n1\n')
            self.explained(option, good + 'no line\n', 2, 'ok OPEN\nrows 1\n1\n', 'guarddb: line 3', f'@3: {NO_FORM}')

    def test_what_a_stopped_script_has_done(self):
        """What was committed before the first refusal is there, what stood in an open block is not, and nothing after it was run."""
        path, script = self.path('stopped'), self.write('s.sql', 'open r root\nr: CREATE TABLE t (k BIGINT PRIMARY KEY)\nr: INSERT INTO t VALUES (1)\n'
                                                       'r: BEGIN\nr: INSERT INTO t VALUES (2)\nr: INSERT INTO t VALUES (1)\nr: ROLLBACK\nr: INSERT INTO t VALUES (3)\n')
        make_database(path)
        answers = 'ok OPEN\nok CREATE TABLE\nok INSERT 1\nok BEGIN\nok INSERT 1\nrefused 23505\n'
        self.assertEqual(run('run', path, script, '--stop'), (3, answers, f'guarddb: {script}: line 6: {self.meaning("23505")}\n'))
        reads = self.write('again', 'open r root\nr: SELECT k FROM t\n')
        self.assertEqual(run('run', path, reads), (0, 'ok OPEN\nrows 1\n1\n', ''))

    def test_places_of_wrong_syntax(self):
        """A mark stands below the first word with which no statement goes on, or behind the last one."""
        for statement, mark in (('SELECT k FORM t', '         ^'), ('SELEC 1', '^'), ('CREATE TABLE t (k BIGINT PRIMARY)', '                                ^'),
                                ("SELECT 'é' 'ü'", '           ^'), ('SELECT\t1 1', '      \t  ^'), ('', '^')):
            with self.subTest(statement=statement):
                self.explained('--explain', f'open r root\nr: {statement}\n', 0, 'ok OPEN\nrefused 42601\n',
                               f'@2: {self.meaning("42601")}', '    ' + statement, '    ' + mark)
        # the number of values is no matter of syntax
        text = 'open r root\nr: CREATE TABLE t (k BIGINT PRIMARY KEY)\nr: INSERT INTO t VALUES (1, 2)\n'
        self.explained('--explain', text, 0, 'ok OPEN\nok CREATE TABLE\nrefused 42601\n', f'@3: {self.meaning("42601")}')

    def test_words_that_are_left_out(self):
        """Where the word at the place, or before it, is one that docs/sql.md lists as left out, that line is told; one in a name is not."""
        for statement, place, line in (
                ('SELECT k FROM t WHERE k IN (1)', 24, 'IN, BETWEEN, LIKE, ILIKE, regular expressions'), ('SELECT sum(k) FROM t', 10, 'aggregates, but for count(*) as the whole list'),
                ('SELECT k FROM t group BY k', 22, 'DISTINCT, GROUP BY, HAVING, windows'), ('CREATE GROUP g', 7, 'USER and GROUP'),
                ('DROP TABLE IF EXISTS t', 14, 'IF EXISTS, IF NOT EXISTS, CASCADE and RESTRICT of a DROP, two names in one'),
                ('SELECT k FROM t WHERE EXISTS (SELECT 1)', 29, 'sub-queries, EXISTS, WITH'), ('CREATE TABLE t (k Int)', 18, 'other types'), ('TRUNCATE t', 0, 'TRUNCATE, MERGE, COPY'),
                ('SELECT k FROM t LEFT OUTER JOIN u ON true', 21, 'outer joins'), ('SELECT k FROM t "group" BY k', 24, None), ('SELECT k FROM t WHERE k ~ 1', 24, None)):
            with self.subTest(statement=statement):
                said = [f'@2: {self.meaning("42601")}', '    ' + statement, '    ' + ' ' * place + '^'] + ([f'@2: left out: {line}'] if line else [])
                self.explained('--explain', f'open r root\nr: {statement}\n', 0, 'ok OPEN\nrefused 42601\n', *said)
                if line:
                    with open(os.path.join(TOP, 'docs', 'sql.md'), encoding='utf-8') as page:
                        self.assertIn(f'\n| {line} |', page.read().replace('`count(*)`', 'count(*)'))

    def test_words_that_are_taken_for_aliases(self):
        """They are told of as the clients do, whether the statement was refused or not; with a name in quotes, or behind AS, they are not."""
        table = 'open r root\nr: CREATE TABLE t (k BIGINT PRIMARY KEY)\n'
        for word in ('OFFSET', 'FETCH', 'HAVING', 'TABLESAMPLE', 'LEFT JOIN t u ON true', 'RIGHT JOIN t u ON true', 'FULL JOIN t u ON true', 'NATURAL JOIN t u ON true'):
            statement = f'SELECT 1 FROM t {word}'
            with self.subTest(statement=statement):
                said, = guarddb.taken_for_aliases(statement)
                self.explained('--explain', f'{table}r: {statement}\n', 0, 'ok OPEN\nok CREATE TABLE\nrows 0\n', f'@3: {said}')
        self.explained('--stop', f'{table}r: SELECT k FROM t, "u" left\n', 3, 'ok OPEN\nok CREATE TABLE\nrefused 42P01\n',
                       f'@3: {self.meaning("42P01")}', f'@3: left is taken for an alias of the table "u": {guarddb.TAKEN["LEFT"]}')
        for statement in ('SELECT 1 FROM t AS left', 'SELECT 1 FROM t "LEFT"', 'SELECT 1 FROM t, t u'):
            with self.subTest(statement=statement):
                self.explained('--explain', f'{table}r: {statement}\n', 0, 'ok OPEN\nok CREATE TABLE\nrows 0\n')

    def test_refusals_that_cannot_be_told(self):
        """Answers and status stay where standard error takes nothing; where standard output takes nothing, that is the fault."""
        script = self.write('s.sql', 'open r root\nr: SELECT\nr: SELECT 1\n')
        for option, answers, status in (('--explain', 'ok OPEN\nrefused 42601\nrows 1\n1\n', 0), ('--stop', 'ok OPEN\nrefused 42601\n', 3)):
            words = [PROGRAM, 'run', '--memory', 'root', script, option]
            with open('/dev/full', 'wb') as full:
                ended = subprocess.run(words, stdout=subprocess.PIPE, stderr=full, check=False)
                self.assertEqual((ended.returncode, ended.stdout.decode()), (status, answers))
                ended = subprocess.run(words, stdout=full, stderr=subprocess.PIPE, check=False)
            self.assertEqual(ended.returncode, 1)
            self.assertTrue(ended.stderr.decode().endswith('guarddb: Output\nguarddb: standard output: closed, or it takes no more\n'))

    def test_both_words_at_once(self):
        """With both a script ends at the first refusal."""
        script = self.write('s.sql', 'open r root \nopen r root\n')
        said = f'guarddb: {script}: line 1: {self.meaning("28000")}\nguarddb: {script}: line 1: ends in a blank, which is read as part of ROLE\n'
        self.assertEqual(run('run', '--memory', 'root', script, '--stop', '--explain'), (3, 'refused 28000\n', said))

    def test_lines_that_are_invalid(self):
        """A message names the script, the line and the rule; the answers before it and the status are those of any invalid line."""
        mark = 'begins with a byte order mark; save the script as UTF-8 without one'
        ending = 'ends in a carriage return; end the lines of a script with a newline alone'
        for text, number, answers, rule in (
                ('open r root\nSELECT 1\n', 2, 'ok OPEN\n', NO_FORM), ('open r root\nr:SELECT 1\n', 2, 'ok OPEN\n', NO_FORM),
                ('# two\n\nopen r root\nr: SELECT\n1\n', 5, 'ok OPEN\nrefused 42601\n', NO_FORM),
                ('\ufeffopen r root\n', 1, '', mark), ('\ufeff# nothing\r\n', 1, '', mark),
                ('# nothing\n\r\n', 2, '', ending), ('close r\r\n', 1, '', ending)):
            with self.subTest(text=text):
                self.tells(text, 2, answers, f'guarddb: line {number}\n', [f'line {number}: {rule}'])

    def test_roles_that_end_in_a_blank(self):
        """The first of them is named once the script has ended. Answers and status are as ever: the role is taken letter for letter."""
        blank, newline = 'ends in a blank, which is read as part of ROLE', 'end the lines of a script with a newline alone'
        ending, refused = f'ends in a carriage return, which is read as part of ROLE; {newline}', 'refused 28000\n'
        script = 'open r root \nr: SELECT 1\nopen s root\nopen t root \n'
        self.tells(script, 0, f'{refused}refused 08003\nok OPEN\n{refused}', '', [f'line 1: {blank}'])
        self.tells('# dos\r\nopen r root\r\nr: SELECT 1\r\n', 0, refused + 'refused 08003\n', '', [f'line 2: {ending}'])
        self.tells('open r root\r\n\r\n', 2, refused, 'guarddb: line 2\n', [f'line 2: ends in a carriage return; {newline}', f'line 1: {ending}'])
        named = 'open r root\nr: CREATE ROLE "ann " LOGIN\nopen a ann \na: SELECT 1\n'
        self.tells(named, 0, 'ok OPEN\nok CREATE ROLE\nok OPEN\nrows 1\n1\n', '', [f'line 3: {blank}'])

    def tells(self, text, status, answers, message, notes):
        """What a script prints and what is told of it, over a file, in memory and on standard input."""
        script, path = self.write('s.sql', text), self.path('notes.db')
        make_database(path)
        in_file, in_memory = ('run', path, script), ('run', '--memory', 'root', script)
        for about, words, given in ((script, in_file, ''), (script, in_memory, ''), ('standard input', (), text)):
            told = message + ''.join(f'guarddb: {about}: {note}\n' for note in notes)
            self.assertEqual(run(*words, given=given), (status, answers, told))
        os.remove(path)

    def test_usage_of_one_command(self):
        """Words that a command does not take show how it is called, and words of no command how the program is, by the lines of its help."""
        usage = run('--help')[1].split('\n\n')[1].removeprefix('Usage: ').split('\n')
        lines = [line.strip() for line in usage]
        for command in ('format', 'copy', 'journal', 'run', 'serve', 'check', 'describe', 'explain'):
            own = [line for line in lines if line.startswith(f'guarddb {command} ')]
            self.assertTrue(own)
            for words in ((command,), (command, '--no-such-option'), (command, 'a', 'b', 'c', 'd')):
                with self.subTest(words=words):
                    status, output, messages = run(*words)
                    self.assertEqual((status, output), (2, ''))
                    self.assertRegex(messages, r'\Aerror: ')
                    shown = messages.split('\n\nUsage: ')[1].split('\n\n')[0].split('\n')
                    self.assertEqual([line.strip() for line in shown], own)
        for words in (('no-such-command',), ('--no-such-option',), ('',)):
            with self.subTest(words=words):
                self.assertIn('\n\nUsage: ' + '\n'.join(usage) + '\n\n', run(*words)[2])
        self.assertEqual(run('format', 'f', '--pages', '64', '--admin', '')[2].count('Usage: guarddb format '), 1)
        self.assertEqual(run('run', '--memory', '', 's')[2].count('Usage: guarddb run '), 1)

    def test_files_are_private(self):
        """Whatever the umask lets through, the owner alone may open a database, or connect to a socket."""
        for umask in (0, 0o022, 0o277, 0o777):
            with self.subTest(umask=oct(umask)):
                path, place = self.path(f'db{umask}'), self.path(f'at{umask}')
                before = os.umask(umask)
                try:
                    make_database(path)
                    with served(path, socket_path=place) as place, guarddb.connect(place, wait=PATIENCE, timeout=PATIENCE):
                        self.assertEqual(os.stat(place).st_mode & 0o777, 0o600)
                finally:
                    os.umask(before)
                self.assertEqual(os.stat(path).st_mode & 0o777, 0o600)


if __name__ == '__main__':
    unittest.main()
