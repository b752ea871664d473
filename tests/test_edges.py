#!/usr/bin/env python3
"""Damaged files, strange circumstances, and sentences of the pages that no other test tries: python3 tests/test_edges.py

A file whose journal is altered, one that is moved or cut off while it is served, one that is copied while its server is held still;
little stack, a limit on the size of files, a umask; an error of the network; the commands of README.md, in their order; and what
docs/postgres.md and docs/reliability.md say of statements. The program is the one in the environment variable GUARDDB; without it
nothing is tried.
"""
import contextlib
import os
import random
import re
import resource
import shlex
import shutil
import signal
import socket
import subprocess
import sys
import tempfile
import threading
import time
import unittest

from program import IS_FAKE, PATIENCE, PROGRAM, TOP, make_database, run, served
import guarddb

PAGE, PAGES, SECTOR = 4096, 64, 512
ROLES = 'open r root\nr: CREATE ROLE ann LOGIN\nr: CREATE ROLE bob LOGIN\n'
# Each line is a commit: those of a journal of four, and those of another one, in which sector 5 has the record of the GRANT.
FOUR = ['CREATE ROLE bob LOGIN', 'CREATE TABLE t (k BIGINT PRIMARY KEY, v TEXT)', 'GRANT SELECT ON t TO bob', 'REVOKE SELECT ON t FROM bob']
FIVE = ['CREATE ROLE ann LOGIN', 'CREATE ROLE bob LOGIN', 'CREATE TABLE t (k BIGINT PRIMARY KEY, v TEXT)', 'GRANT SELECT ON t TO ann',
        'REVOKE SELECT ON t FROM ann']
GRANTS = 5 * SECTOR
DEEP = '(' * 64 + '1' + ')' * 64
PSQL = bytes.fromhex('0000000804d2162f')       # what psql sends first: it asks for encryption
HAS_STRACE = shutil.which('strace') is not None
# Statements in the order of docs/postgres.md, each with what that page has for Guarddb, over the table t of ann.
DIFFERENCES = [
    ('a', 'REVOKE SELECT ON t FROM ann', 'ok REVOKE'), ('a', 'SELECT k FROM t', 'rows 0'), ('a', 'GRANT DELETE (k) ON t TO bob', 'refused 42601'),
    ('r', 'GRANT team TO PUBLIC', 'refused 42601'), ('r', 'GRANT PUBLIC TO bob', 'refused 42601'), ('r', 'DROP ROLE root', 'refused 2BP01'),
    ('r', 'CREATE ROLE four LOGIN LOGIN', 'ok CREATE ROLE'), ('r', 'CREATE ROLE pg_me', 'ok CREATE ROLE'),
    ('r', 'REVOKE team FROM bob', 'ok REVOKE ROLE'), ('a', 'CREATE POLICY p ON t', 'refused 42601'),
    ('a', 'CREATE POLICY p ON t TO PUBLIC, nobody USING (true)', 'refused 42704'),
    ('a', 'CREATE POLICY p ON nowhere TO nobody USING (true)', 'refused 42P01'), ('a', "INSERT INTO t (k, o) VALUES (1, 1)", 'refused 42804'),
    ('a', "SELECT k FROM t WHERE k = '1'", 'refused 42804'), ('a', "INSERT INTO t (k) VALUES ('9')", 'refused 42804'),
    ('a', "UPDATE t SET s = 'true'", 'refused 42804'), ('a', "SELECT k FROM t WHERE 't'", 'refused 42804'), ('a', "SELECT '1' + 1", 'refused 42804'),
    ('a', "CREATE POLICY p ON t USING ('true')", 'refused 42804'), ('a', "SELECT 'a' = 1", 'refused 42804'),
    ('a', 'SELECT 2147483647 + 1', 'rows 1\n2147483648'), ('a', 'SELECT 65536 * 65536', 'rows 1\n4294967296'),
    ('a', 'SELECT -2147483648 / -1', 'rows 1\n2147483648'), ('a', 'SELECT k FROM t WHERE k = 2147483647 + 1', 'rows 0'),
    ('a', 'SELECT 9223372036854775808', 'refused 22003'), ('a', 'SELECT 1 + true', 'refused 42804'), ('a', 'SELECT NULL + NULL', 'rows 1\n\\N'),
    ('a', 'SELECT 1 / 0 FROM t', 'rows 0'), ('a', 'SELECT k + true, zz FROM t', 'refused 42703'), ('a', 'INSERT INTO t (zz, k) VALUES (9)', 'refused 42601'),
    ('a', 'SELECT 1 FROM t, t, nothere', 'refused 42P01'), ('a', 'SELECT p.k FROM t p JOIN t q ON true ORDER BY k', 'refused 42702'),
    ('a', 'SELECT k FROM t ORDER BY 1', 'refused 42601'), ('a', 'SELECT k FROM t LIMIT NULL', 'refused 42601'),
    ('a', "SELECT k FROM t ORDER BY 'a'", 'rows 0'), ('a', 'SELECT k FROM t LIMIT -1', 'refused 42601'), ('a', 'SELECT + 5', 'refused 42601'),
    ('a', 'SELECT k FROM ONLY t', 'refused 42P01'), ('a', 'UPDATE t SET t.x = 5', 'refused 42601'), ('a', 'SELECT ctid FROM t', 'refused 42703'),
    ('a', 'SELECT', 'refused 42601'), ('a', 'SELECT 1 WHERE true', 'refused 42601'), ('a', 'SELECT 1 LIMIT 1', 'refused 42601'),
    ('a', 'SELECT 1;;', 'refused 42601'), ('a', 'SELECT 1 FROM t a, t b, t c, t d, t e', 'refused 54000'),
    ('a', f"CREATE ROLE {'n' * 64}", 'refused 42622'), ('a', 'SELECT zz.k FROM t', 'refused 42703'), ('a', 'UPDATE t SET x = 1, x = 2', 'refused 42701'),
    ('a', 'SET ROLE nobody', 'refused 42704'), ('a', "SET ROLE 'bob'", 'refused 42601'),
    ('a', 'CREATE TABLE t (k BIGINT, PRIMARY KEY (zz))', 'refused 42P07'), ('a', 'SELECT x IS NULL = s FROM t', 'refused 42601'),
    ('a', 'CREATE TABLE v (k BIGINT)', 'refused 42601'), ('a', 'SELECT 7 %-2', 'rows 1\n1'), ('a', 'SELECT 1 !=-1', 'rows 1\nt'),
    ('a', 'SELECT k FROM t WHERE k =< 2', 'refused 42601'),
]
# A block that has read a table which another session drops; one that writes, and keeps a REVOKE and a DROP POLICY waiting; and names
# that a role without any right tries.
SESSIONS = [
    ('a', 'GRANT SELECT, INSERT ON t TO bob', 'ok GRANT'), ('b', 'BEGIN', 'ok BEGIN'), ('b', 'SELECT count(*) FROM t', 'rows 1\n0'),
    ('a', 'CREATE TABLE u (k BIGINT PRIMARY KEY)', 'ok CREATE TABLE'), ('b', 'INSERT INTO t (k) VALUES (1)', 'ok INSERT 1'),
    ('a', 'REVOKE INSERT ON t FROM bob', 'refused 55P03'), ('a', 'CREATE POLICY p ON t USING (true)', 'refused 55P03'), ('b', 'COMMIT', 'ok COMMIT'),
    ('a', 'CREATE POLICY p ON t USING (true)', 'ok CREATE POLICY'), ('b', 'CREATE ROLE ann', 'refused 42710'), ('b', 'CREATE ROLE eve', 'refused 42501'),
    ('b', 'DROP ROLE eve', 'refused 42704'), ('b', 'DROP ROLE ann', 'refused 42501'), ('b', 'CREATE POLICY p ON t USING (true)', 'refused 42710'),
    ('b', 'CREATE POLICY q ON t USING (true)', 'refused 42501'), ('b', 'BEGIN', 'ok BEGIN'), ('b', 'SELECT k FROM t', 'rows 1\n1'),
    ('a', 'DROP TABLE t', 'ok DROP TABLE'), ('b', 'SELECT k FROM t', 'refused 42P01'), ('b', 'COMMIT', 'ok ROLLBACK'),
]
# Cycles of grants, a role that is dropped under a session, and what fails first. The lines that open sessions are among them.
FIRST = [
    ('r', 'CREATE ROLE cid LOGIN', 'ok CREATE ROLE'), ('open c', 'cid', 'ok OPEN'), ('r', 'CREATE ROLE eve LOGIN', 'ok CREATE ROLE'), ('open e', 'eve', 'ok OPEN'),
    ('r', 'DROP ROLE eve', 'ok DROP ROLE'), ('e', 'SELECT 1', 'refused 28000'),
    ('a', 'CREATE TABLE w (k BIGINT PRIMARY KEY, x BIGINT, y BIGINT)', 'ok CREATE TABLE'),
    ('a', 'INSERT INTO w VALUES (1, 9223372036854775807, 1), (2, 0, 1)', 'ok INSERT 2'),
    ('a', 'SELECT x + 1 FROM w ORDER BY 1 / x', 'refused 22012'), ('a', 'SELECT x + 1 FROM w', 'refused 22003'),
    ('a', 'GRANT SELECT ON w TO bob WITH GRANT OPTION', 'ok GRANT'), ('b', 'GRANT SELECT ON w TO cid WITH GRANT OPTION', 'ok GRANT'),
    ('c', 'GRANT SELECT ON w TO bob', 'ok GRANT'), ('c', 'GRANT SELECT ON w TO bob WITH GRANT OPTION', 'ok GRANT'),
    ('a', 'GRANT INSERT (y) ON w TO bob WITH GRANT OPTION', 'ok GRANT'), ('a', 'GRANT INSERT ON w TO cid', 'ok GRANT'),
    ('b', 'GRANT ALL (k, y) ON w TO cid', 'ok GRANT'), ('a', 'ALTER TABLE w ENABLE ROW LEVEL SECURITY', 'ok ALTER TABLE'),
    ('a', 'CREATE POLICY z ON w USING (1 / x = 1)', 'ok CREATE POLICY'),
    ('a', 'CREATE POLICY a ON w AS RESTRICTIVE USING (9223372036854775807 + k > 0)', 'ok CREATE POLICY'), ('c', 'SELECT k FROM w WHERE k = 2', 'refused 22012'),
    ('c', 'INSERT INTO w VALUES (3, 0, 0)', 'refused 22012'), ('a', 'CREATE POLICY m ON w USING (9223372036854775807 + k > 0)', 'ok CREATE POLICY'),
    ('c', 'SELECT k FROM w', 'refused 22003'), ('c', 'INSERT INTO w VALUES (3, 0, 0)', 'refused 22003'),
    ('a', 'CREATE TABLE v (k TEXT PRIMARY KEY, o TEXT)', 'ok CREATE TABLE'), ('a', f"INSERT INTO v VALUES ('{'k' * 200}', NULL)", 'refused 54000'),
    ('a', f"INSERT INTO v VALUES ('k', '{'o' * 1198}')", 'refused 54000'),
    ('a', 'INSERT INTO w VALUES ' + ', '.join(f'({k}, 0, 0)' for k in range(257)), 'refused 54000'),
    ('a', 'CREATE TABLE z (' + ', '.join(f'c{number} BIGINT' for number in range(17)) + ', PRIMARY KEY (c0))', 'refused 54000'),
]


def limited(*words, ignored=(), **limits):
    """Runs the program under limits of the system, such as RLIMIT_STACK, and gives its status, its output and its messages."""
    def set_limits():
        for name, value in limits.items():
            resource.setrlimit(getattr(resource, name), (value, resource.getrlimit(getattr(resource, name))[1]))
        resource.setrlimit(resource.RLIMIT_CORE, (0, 0))
        for number in ignored:
            signal.signal(number, signal.SIG_IGN)
    done = subprocess.run([PROGRAM, *words], capture_output=True, preexec_fn=set_limits, check=False, stdin=subprocess.DEVNULL)
    return done.returncode, done.stdout.decode(), done.stderr.decode()


class InAFolder(unittest.TestCase):
    def setUp(self):
        self.folder = tempfile.mkdtemp(prefix='guarddb-')
        self.addCleanup(shutil.rmtree, self.folder)
        self.db = self.path('db')

    def path(self, name):
        return os.path.join(self.folder, name)

    def write(self, name, text):
        with open(self.path(name), 'wb') as file:
            file.write(text if isinstance(text, bytes) else text.encode())
        return self.path(name)

    def read(self, path):
        with open(path, 'rb') as file:
            return file.read()

    def answers(self, path, script):
        status, answers, messages = run('run', path, self.write('script', script))
        self.assertEqual((status, messages), (0, ''))
        return answers

    def makes(self, statements, path=None, **how):
        """A new database in which root has run these."""
        make_database(path or self.db, PAGES, **how)
        answers = self.answers(path or self.db, 'open r root\n' + ''.join(f'r: {text}\n' for text in statements))
        self.assertNotIn('refused', answers)

    def is_whole(self, path):
        self.assertEqual(run('check', path), (0, 'ok CHECK\n', ''))

    def fault(self, done, name):
        self.assertEqual((done[0], done[1], done[2].split('\n')[0]), (1, '', f'guarddb: {name}'))


@unittest.skipIf(IS_FAKE, 'GUARDDB names no program')
class Files(InAFolder):
    def test_a_damaged_journal_is_left_to_each_command(self):
        """A bit of a name in the record of a GRANT: what stands before that record can be had still, and no command writes."""
        self.makes(FIVE, journal=True)
        data = bytearray(self.read(self.db))
        data[data.index(b'ann', GRANTS, GRANTS + SECTOR) + 2] ^= 1
        self.write('db', bytes(data))
        commands = [('check', self.db), ('run', self.db, self.write('script', 'open r root\n')), ('describe', self.db),
                    ('explain', self.db, 'root', 'SELECT 1'), ('copy', self.db, self.path('new'), '--pages', str(PAGES)),
                    ('journal', self.db, 'off'), ('journal', self.db, 'on'),
                    ('serve', self.db, '--socket', self.path('at'), '--connections', '1')]
        for words in commands:
            with self.subTest(words[0]):
                self.fault(run(*words), 'Damaged')
                self.assertEqual(self.read(self.db), data)
        self.assertFalse(os.path.exists(self.path('new')))
        data[GRANTS:GRANTS + 2 * SECTOR] = bytes(2 * SECTOR)
        self.write('db', bytes(data))
        self.is_whole(self.db)
        self.assertIn('\n  bob   no', run('describe', self.db)[1])

    def test_damaged_files_get_no_journal(self):
        """Of 204 files that are altered at random `journal` refuses those that `check` refuses, for the same, and writes none of them."""
        refused, r = 0, random.Random(1)
        for journal in (False, True):
            self.makes(FIVE, path=self.path(f'db{journal}'), journal=journal)
            whole = self.read(self.path(f'db{journal}'))
            used = [at for at, byte in enumerate(whole) if byte]
            for number in range(102):
                data = bytearray(whole)
                for _ in range(r.choice((1, 1, 2))):
                    data[r.choice(used)] ^= 1 << r.randrange(8)
                self.write('db', bytes(data))
                checked = run('check', self.db)
                if checked[0] == 0:
                    continue
                refused += 1
                for word in ('on', 'off'):
                    with self.subTest(journal=journal, number=number, word=word):
                        self.fault(run('journal', self.db, word), checked[2].split('\n')[0].removeprefix('guarddb: '))
                        self.assertEqual(self.read(self.db), data)
        self.assertLess(50, refused)

    def test_a_bit_of_a_root_drops_a_journal(self):
        """docs/reliability.md, "One altered bit of a root": nothing says so."""
        self.makes(FOUR, journal=True)
        data = bytearray(self.read(self.db))
        self.assertIn('\n  bob ', run('describe', self.db)[1])
        data[SECTOR + 16] ^= 1
        self.write('db', bytes(data))
        self.is_whole(self.db)
        self.assertNotIn('\n  bob ', run('describe', self.db)[1])

    def test_modes(self):
        """A new file has mode 0600, whatever the umask."""
        for umask in (0, 0o022, 0o277, 0o400, 0o777):
            for journal in (False, True):
                with self.subTest(umask=oct(umask), journal=journal):
                    path, new = self.path(f'db{umask}{journal}'), self.path(f'new{umask}{journal}')
                    before = os.umask(umask)
                    try:
                        make_database(path, PAGES, journal=journal)
                        self.assertEqual(run('copy', path, new, '--pages', str(PAGES), *['--journal'] * journal), (0, 'ok COPY\n', ''))
                    finally:
                        os.umask(before)
                    for each in (path, new):
                        self.assertEqual(os.stat(each).st_mode & 0o7777, 0o600)
                        self.is_whole(each)

    def test_a_limit_on_the_size_of_files(self):
        """The system ends the program: what is made stays as far as it was written, and a database is as after a kill."""
        self.assertEqual(limited('format', self.db, '--pages', str(PAGES), '--admin', 'root', RLIMIT_FSIZE=9 * PAGE)[0], -signal.SIGXFSZ)
        status, _, messages = run('check', self.db)
        self.assertEqual(status, 1)
        self.assertRegex(messages, r'\Aguarddb: (NotADatabase|WrongSize)\n')
        self.fault(run('format', self.db, '--pages', str(PAGES), '--admin', 'root'), 'Exists')
        os.remove(self.db)
        self.makes([])
        new = self.path('new')
        self.assertEqual(limited('copy', self.db, new, '--pages', str(PAGES), RLIMIT_FSIZE=9 * PAGE)[0], -signal.SIGXFSZ)
        self.assertEqual(sorted(os.listdir(self.folder)), ['db', 'new.partial', 'script'])
        script = self.write('script', 'open r root\nr: CREATE ROLE bob\n')
        for words, limit in [(('run', self.db, script), PAGE), (('journal', self.db, 'on'), 2 * SECTOR)]:
            self.assertEqual(limited(*words, RLIMIT_FSIZE=limit)[0], -signal.SIGXFSZ, words)
            self.is_whole(self.db)

    def test_a_format_that_is_interrupted(self):
        """FILE stays as far as it was written, and the next `format` does not replace it."""
        words = ['format', self.db, '--pages', '65536', '--admin', 'root']
        for number in (signal.SIGINT, signal.SIGKILL):
            process = subprocess.Popen([PROGRAM, *words], stdout=subprocess.PIPE, stderr=subprocess.DEVNULL)
            end = time.monotonic() + PATIENCE
            while not (os.path.exists(self.db) and os.path.getsize(self.db)) and time.monotonic() < end:
                time.sleep(0.001)
            process.send_signal(number)
            if process.communicate(timeout=PATIENCE)[0] == b'':        # else it was whole before the signal came
                self.assertEqual(process.returncode, -number)
                self.assertRegex(run('check', self.db)[2], r'\Aguarddb: (NotADatabase|WrongSize)\n')
            self.fault(run(*words), 'Exists')
            os.remove(self.db)

    @unittest.skipUnless(HAS_STRACE, 'there is no strace')
    def test_an_output_that_fails_once(self):
        """Each command that has done its work says so where the second attempt gets through, and ends with `Output`."""
        self.makes(FIVE)
        for words, answer in [(('format', self.path('new'), '--pages', '64', '--admin', 'root'), 'ok FORMAT\n'), (('check', self.db), 'ok CHECK\n'),
                              (('copy', self.db, self.path('copy'), '--pages', '64'), 'ok COPY\n'), (('journal', self.db, 'on'), 'ok JOURNAL\n')]:
            with self.subTest(words[0]):
                traced = ['strace', '-f', '-o', '/dev/null', '-e', 'inject=write:error=EIO:when=1', PROGRAM, *words]
                done = subprocess.run(traced, capture_output=True, text=True, timeout=PATIENCE)
                self.assertEqual((done.returncode, done.stderr.split('\n')[0]), (1, 'guarddb: Output'))
                self.assertIn(done.stdout, ('', answer))
        for path in (self.db, self.path('new'), self.path('copy')):
            self.is_whole(path)

    def test_little_stack(self):
        """docs/reliability.md, "Memory": 1 MiB is enough for each statement, and for a policy of that depth."""
        condition = '(' * 60 + 'k = 1' + ')' * 60
        self.makes(['CREATE TABLE t (k BIGINT PRIMARY KEY, s BOOLEAN)', f'CREATE POLICY p ON t USING ({condition}) WITH CHECK ({condition})',
                    'ALTER TABLE t ENABLE ROW LEVEL SECURITY', 'CREATE ROLE bob LOGIN', 'GRANT ALL ON t TO bob'])
        statements = [f'SELECT {DEEP}', 'SELECT ' + '1 + (' * 62 + '1' + ')' * 62, 'INSERT INTO t VALUES (1, ' + 'NOT ' * 60 + 'true)',
                      f'SELECT k FROM t WHERE {DEEP} = k AND NOT {"NOT " * 60}s', 'SELECT ' + '1 + ' * 63 + '1', 'DELETE FROM t WHERE ' + condition]
        script = self.write('script', 'open b bob\n' + ''.join(f'b: {text}\n' for text in statements))
        answers = 'ok OPEN\nrows 1\n1\nrows 1\n63\nok INSERT 1\nrows 0\nrows 1\n64\nok DELETE 1\n'
        self.assertEqual(limited('run', self.db, script, RLIMIT_STACK=1 << 20), (0, answers, ''))
        self.assertEqual(limited('check', self.db, RLIMIT_STACK=1 << 20), (0, 'ok CHECK\n', ''))
        self.assertEqual(limited('describe', self.db, 'bob', RLIMIT_STACK=1 << 20)[0], 0)


@contextlib.contextmanager
def held_still(pid):
    """Holds a process still, from when it has stopped."""
    os.kill(pid, signal.SIGSTOP)
    try:
        end = time.monotonic() + PATIENCE
        while time.monotonic() < end:
            with open(f'/proc/{pid}/stat', encoding='utf-8') as file:
                state = file.read().rpartition(') ')[2][0]
            if state in 'TZ':
                break
            time.sleep(0.001)
        assert state == 'T', state
        yield
    finally:
        os.kill(pid, signal.SIGCONT)


@unittest.skipIf(IS_FAKE, 'GUARDDB names no program')
class Serving(InAFolder):
    @contextlib.contextmanager
    def session(self, path, **how):
        """A session of root over a server of its own."""
        with served(path, socket_path=self.path('at'), **how) as place, guarddb.connect(place, wait=PATIENCE, timeout=PATIENCE) as connection:
            yield connection.open('root')

    def test_a_file_that_is_moved(self):
        """Commits go on into the file, whose name is another's then. A second program does not find that one locked."""
        self.makes(['CREATE TABLE t (k BIGINT PRIMARY KEY)'])
        with self.session(self.db) as root:
            os.rename(self.db, self.path('moved'))
            make_database(self.db, PAGES)
            self.assertEqual(root.ask('INSERT INTO t VALUES (1)').count, 1)
            self.is_whole(self.db)
        self.assertEqual(self.answers(self.path('moved'), 'open r root\nr: SELECT k FROM t\n'), 'ok OPEN\nrows 1\n1\n')
        self.assertEqual(self.answers(self.db, 'open r root\nr: SELECT k FROM t\n'), 'ok OPEN\nrefused 42P01\n')

    def test_a_file_that_is_cut_off(self):
        self.makes(['CREATE TABLE t (k BIGINT PRIMARY KEY)'])
        with self.session(self.db) as root:
            os.truncate(self.db, (PAGES - 1) * PAGE)
            self.assertEqual(root.ask('INSERT INTO t VALUES (1)').count, 1)
            self.assertEqual(root.ask('SELECT k FROM t', int), [[1]])
        self.fault(run('check', self.db), 'WrongSize')

    def test_a_copy_of_a_served_file(self):
        """docs/reliability.md, "Copies": a file that is copied while its server is held still has each commit that was answered."""
        for journal in (False, True):
            with self.subTest(journal=journal):
                self.makes(['CREATE TABLE t (k BIGINT PRIMARY KEY, x BIGINT, o TEXT)', 'INSERT INTO t (k, x) VALUES (1, 0)'],
                           path=self.path(f'db{journal}'), journal=journal)
                self.copies(self.path(f'db{journal}'))

    def copies(self, path, rounds=6):
        at = self.path('at')
        words = [PROGRAM, 'serve', path, '--socket', at, '--connections', '1']
        server = subprocess.Popen(words, stdout=subprocess.DEVNULL, stderr=subprocess.DEVNULL)
        answered, is_over = [0], threading.Event()

        def write():
            with guarddb.connect(at, wait=PATIENCE, timeout=PATIENCE) as connection:
                root = connection.open('root')
                while not is_over.is_set():
                    root.ask('UPDATE t SET x = ?, o = ?', values=[answered[0] + 1, 'o' * (answered[0] % 300)])
                    answered[0] += 1
        writer = threading.Thread(target=write)
        writer.start()
        try:
            for number in range(1, rounds + 1):
                end = time.monotonic() + PATIENCE
                while answered[0] < 20 * number and writer.is_alive() and time.monotonic() < end:
                    time.sleep(0.001)
                with held_still(server.pid):
                    shutil.copyfile(path, path + '.copy')
                    count = answered[0]
                self.is_whole(path + '.copy')
                found = self.answers(path + '.copy', 'open r root\nr: SELECT x FROM t\n').split('\n')[2]
                self.assertIn(int(found), (count, count + 1))
        finally:
            is_over.set()
            writer.join()
            server.wait(PATIENCE)

    def test_psql_at_the_port(self):
        """Its first bytes are half a frame: it waits, and with --idle the next client is served."""
        self.makes([])
        with served(self.db, connections=2, socket_path=self.path('at'), idle=1) as place:
            with guarddb.connect(place, wait=PATIENCE, timeout=PATIENCE) as psql:
                psql.socket.sendall(PSQL)
                with guarddb.connect(place, timeout=PATIENCE) as second:
                    self.assertEqual(second.open('root').ask('SELECT 1', int), [[1]])
                self.assertEqual(psql.input.read(), b'')

    @unittest.skipUnless(HAS_STRACE, 'there is no strace')
    def test_an_error_of_the_network(self):
        """One that does not pass ends the server at once, with `Net`."""
        self.makes([])
        words = ['strace', '-f', '-o', '/dev/null', '-e', 'inject=accept,accept4:error=ENETDOWN:when=1', PROGRAM, 'serve', self.db,
                 '--socket', self.path('at'), '--connections', '1']
        server = subprocess.Popen(words, stdout=subprocess.DEVNULL, stderr=subprocess.PIPE, text=True)
        with contextlib.closing(socket.socket(socket.AF_UNIX)) as client:
            client.settimeout(PATIENCE)
            end = time.monotonic() + PATIENCE
            while client.connect_ex(self.path('at')) and server.poll() is None and time.monotonic() < end:
                time.sleep(0.01)
            _, messages = server.communicate(timeout=PATIENCE)
        self.assertEqual(server.returncode, 1)
        self.assertEqual([line for line in messages.split('\n') if line.startswith('guarddb: Net')], ['guarddb: Net'])
        self.assertNotIn('trying again', messages)
        self.is_whole(self.db)


@unittest.skipIf(IS_FAKE, 'GUARDDB names no program')
class Pages(InAFolder):
    def test_differences_from_postgresql(self):
        """Each statement is on the page, or is one of its kind, and is answered as the page says."""
        lines = DIFFERENCES + SESSIONS + FIRST
        script = ROLES + ('r: CREATE ROLE team\nopen a ann\nopen b bob\n'
                          'a: CREATE TABLE t (k BIGINT PRIMARY KEY, x BIGINT, s BOOLEAN, o TEXT)\n')
        begun = ''.join('ok OPEN\n' if line.startswith('open') else 'ok CREATE ROLE\n' if ' ROLE ' in line else 'ok CREATE TABLE\n'
                        for line in script.splitlines())
        told = run('run', '--memory', 'root', self.write('script', script + ''.join(f'{name} {text}\n' if ' ' in name else f'{name}: {text}\n' for name, text, _ in lines)))
        self.assertEqual((told[0], told[2]), (0, ''))
        answers, at = told[1].removeprefix(begun).split('\n'), 0
        for _, text, expected in lines:
            count = expected.count('\n') + 1
            self.assertEqual((text, '\n'.join(answers[at:at + count])), (text, expected))
            at += count
        self.assertEqual(answers[at:], [''])

    def processor_time(self, lines):
        """The seconds of processor time that a script over memory takes, the least of two."""
        script, spent = self.write('script', '\n'.join(lines) + '\n'), []
        for _ in range(2):
            before = resource.getrusage(resource.RUSAGE_CHILDREN)
            status, answers, messages = run('run', '--memory', 'root', script)
            after = resource.getrusage(resource.RUSAGE_CHILDREN)
            self.assertEqual((status, messages, 'refused' in answers), (0, '', False))
            spent.append(after.ru_utime + after.ru_stime - before.ru_utime - before.ru_stime)
        return min(spent)

    def test_policies_bound(self):
        """docs/sql.md, "Row policies": with the tenant first in the key a tenant's statements read its rows alone, and the time of a
        question for another one's does not tell how many they are."""
        lines = ['open r root', 'r: CREATE ROLE ann LOGIN', 'r: CREATE ROLE crew', 'r: GRANT crew TO ann',
                 'r: CREATE TABLE t (tenant TEXT, k BIGINT, x BIGINT, PRIMARY KEY (tenant, k))', 'r: GRANT ALL ON t TO crew', 'r: BEGIN']
        for tenant, count in [('ann', 20), ('bob', 20000)]:
            lines += [f'r: INSERT INTO t VALUES {", ".join(str((tenant, k, k)) for k in range(first, min(first + 200, count)))}'
                      for first in range(0, count, 200)]
        lines += ['r: COMMIT', 'r: ALTER TABLE t ENABLE ROW LEVEL SECURITY', 'r: CREATE POLICY own ON t TO crew USING (%s)', 'open a ann']
        asked = ['SELECT count(*) FROM t', 'SELECT x FROM t WHERE k = 5', 'UPDATE t SET x = x + 1 WHERE k = 5', 'DELETE FROM t WHERE k = 777',
                 'SELECT p.x FROM t p JOIN t q ON p.k = q.x LIMIT 1', "SELECT count(*) FROM t WHERE tenant = 'bob'", "SELECT count(*) FROM t WHERE tenant = 'cid'"]
        for policy, statements in [('tenant = current_user', asked), ("tenant = session_user AND k >= 0", asked[:1]), ("MEMBER OF tenant AND tenant < 'b'", asked[:1]),
                                   ("tenant = 'ann' OR current_user = 'root'", asked[:1])]:
            begun = [line % policy if 'POLICY own' in line else line for line in lines]
            base = self.processor_time(begun)
            for text in statements:
                with self.subTest(policy, text=text):
                    self.assertLess(self.processor_time([*begun, *[f'a: {text}'] * 100]) - base, 0.1)       # a walk over all takes 0.3 and more
        begun = [line % '1 / (k + 1) >= 0 AND tenant = current_user' if 'POLICY own' in line else line for line in lines]
        self.assertLess(0.1, self.processor_time([*begun, *['a: SELECT count(*) FROM t'] * 100]) - self.processor_time(begun))

    def commands(self):
        """The commands of README.md over files and sockets: those of the first terminal, and those of the second."""
        part = re.search(r'\n## Files and sockets\n(.*?)\n## ', self.read(os.path.join(TOP, 'README.md')).decode(), re.S)[1]
        blocks = re.findall(r'```\n(.*?)```', part, re.S)
        return [[shlex.split(line, comments=True) for line in block.splitlines()] for block in blocks]

    def ends_well(self, words, given=''):
        words = [sys.executable, *words[1:]] if words[0] == 'python3' else words
        environment = {**os.environ, 'GUARDDB': PROGRAM, 'PYTHONDONTWRITEBYTECODE': '1'}
        done = subprocess.run(words, cwd=self.folder, env=environment, input=given, text=True, capture_output=True, timeout=PATIENCE)
        self.assertEqual((words, done.returncode, done.stderr), (words, 0, ''))
        self.assertNotIn('refused', done.stdout if words[1] != 'run' else '')

    def test_the_commands_of_the_readme(self):
        """In their order, over a folder that has nothing but the repository's clients and examples."""
        for name in ('clients', 'examples'):
            os.symlink(os.path.join(TOP, name), self.path(name))
        os.symlink(PROGRAM, self.path('guarddb'))
        first, second = self.commands()
        self.assertEqual([words[1] for words in first], ['--unproved', 'format', 'run', 'check', 'describe', 'describe', 'explain', 'copy', 'dump',
                                                      'restore', 'password', 'clients/shell.py', 'serve'])
        for words in first[1:-1]:
            self.ends_well(words, '\\q\n')
        server = subprocess.Popen(first[-1], cwd=self.folder, stdout=subprocess.DEVNULL, stderr=subprocess.PIPE)
        try:
            self.assertEqual(server.stderr.readline(), b'guarddb: listening on shop.sock\n')
            for _ in range(2):
                self.ends_well(second[0], 'SELECT 1;\n')
            self.assertEqual(server.wait(PATIENCE), 0)
        finally:
            server.kill()
            server.communicate()


if __name__ == '__main__':
    unittest.main()
