#!/usr/bin/env python3
"""Backups of a file that a server has: python3 tests/test_backup.py

A client commits all the while, one number after the other. Each backup is whole, has each number that was acknowledged before it, and none
behind a gap. The program is the one in the environment variable GUARDDB; without it nothing is tried.
"""
import contextlib
import fcntl
import hashlib
import os
import shutil
import signal
import stat
import subprocess
import sys
import tempfile
import threading
import time
import unittest

from program import IS_FAKE, PATIENCE, PROGRAM, TOP, make_database, run
import backup
import guarddb

BACKUP = os.path.join(TOP, 'clients', 'backup.py')
BACKUPS = int(os.environ.get('BACKUPS', 5))      # of each file


def sum_of(path):
    with open(path, 'rb') as file:
        return hashlib.sha256(file.read()).hexdigest()


@unittest.skipIf(IS_FAKE, 'GUARDDB names no program')
class Backups(unittest.TestCase):
    def setUp(self):
        self.folder = tempfile.mkdtemp(prefix='guarddb-')
        self.addCleanup(shutil.rmtree, self.folder)
        self.file, self.out, self.place = (os.path.join(self.folder, name) for name in ('shop.db', 'out.db', 'sock'))
        self.acknowledged, self.is_over = 0, False

    def backup(self, out=None, program=PROGRAM):
        done = subprocess.run([sys.executable, BACKUP, self.file, out or self.out, '--program', program], text=True, capture_output=True, timeout=PATIENCE)
        return done.returncode, done.stdout, done.stderr

    @contextlib.contextmanager
    def served(self):
        server = subprocess.Popen([PROGRAM, 'serve', self.file, '--socket', self.place, '--clients', '8'], stdout=subprocess.DEVNULL, stderr=subprocess.DEVNULL)
        try:
            with guarddb.connect(self.place, wait=PATIENCE, timeout=PATIENCE) as connection, connection.open('root') as root:
                self.root = root
                yield server
        finally:
            server.kill()
            server.communicate()

    @contextlib.contextmanager
    def written(self):
        """A client that commits numbers, one after the other."""
        def write():
            with guarddb.connect(self.place, timeout=PATIENCE) as connection, connection.open('root') as session:
                while not self.is_over:
                    session.ask(f'INSERT INTO t VALUES ({self.acknowledged + 1}, \'{"x" * 300}\')')
                    self.acknowledged += 1
                    if self.acknowledged % 100 == 0:
                        session.ask(f'DELETE FROM t WHERE k <= {self.acknowledged - 100} AND k % 2 = 0')
        writer = threading.Thread(target=write)
        self.is_over = False
        writer.start()
        try:
            yield
        finally:
            self.is_over = True
            writer.join(PATIENCE)

    def odd_numbers(self, path):
        """The odd numbers that a file has; nobody takes them away."""
        script = os.path.join(self.folder, 'read.sql')
        with open(script, 'w', encoding='utf-8') as file:
            file.write('open r root\nr: SELECT k FROM t WHERE k % 2 = 1 ORDER BY k\n')
        status, printed, _ = run('run', path, script)
        self.assertEqual(status, 0)
        return [int(line) for line in printed.split('\n')[2:-1]]

    def test_beside_a_client_that_commits(self):
        for journal in (False, True):
            with self.subTest(journal=journal):
                make_database(self.file, pages=1024, journal=journal)
                with self.served():
                    self.acknowledged = 0
                    self.root.ask('CREATE TABLE t (k BIGINT PRIMARY KEY, v TEXT)')
                    with self.written():
                        for number in range(BACKUPS):
                            time.sleep(0.2)
                            out, before = f'{self.out}{journal}{number}', self.acknowledged
                            status, printed, messages = self.backup(out)
                            self.assertEqual((status, printed), (0, 'ok BACKUP\n'), messages)
                            self.assertRegex(messages, r'\Abackup.py: the server stood still for [0-9]+\.[0-9]{3} seconds\n\Z')
                            self.assertEqual(stat.S_IMODE(os.stat(out).st_mode), 0o600)
                            self.assertEqual(run('check', out), (0, 'ok CHECK\n', ''))
                            found = self.odd_numbers(out)
                            self.assertEqual(found, list(range(1, 2 * len(found), 2)))
                            self.assertGreaterEqual(found[-1] if found else 0, before - 1)
                            self.assertLessEqual(found[-1] if found else 0, self.acknowledged + 1)
                os.unlink(self.file)
        self.assertFalse([name for name in os.listdir(self.folder) if name.endswith('.partial')])

    def test_a_file_that_nobody_has_open(self):
        make_database(self.file)
        before = sum_of(self.file)
        self.assertEqual(self.backup(), (0, 'ok BACKUP\n', ''))
        self.assertEqual((sum_of(self.out), sum_of(self.file)), (before, before))
        self.assertEqual(self.backup(), (1, '', f'backup.py: {self.out} is there already\n'))
        with open(self.file, 'rb') as file:
            fcntl.flock(file, fcntl.LOCK_SH)
            self.assertEqual(self.backup(self.out + '2'), (0, 'ok BACKUP\n', ''))

    def test_what_is_no_database_is_not_kept(self):
        with open(self.file, 'wb') as file:
            file.write(b'x' * 300000)
        status, printed, messages = self.backup()
        self.assertEqual((status, printed, os.listdir(self.folder)), (1, '', ['shop.db']))
        self.assertIn('the copy is not whole', messages)
        os.unlink(self.file)
        self.assertEqual(self.backup(), (1, '', f'backup.py: {self.file}: No such file or directory\n'))
        self.assertEqual(os.listdir(self.folder), [])

    def test_a_copy_that_did_not_end_is_left_alone(self):
        make_database(self.file)
        with open(self.out + '.partial', 'w', encoding='utf-8') as file:
            file.write('mine')
        status, printed, messages = self.backup()
        self.assertEqual((status, printed), (1, ''))
        self.assertIn('is there already', messages)
        with open(self.out + '.partial', encoding='utf-8') as file:
            self.assertEqual(file.read(), 'mine')

    def test_the_server_goes_on_whatever_becomes_of_the_copy(self):
        """Killed, or ended by a signal, while the server stands still; or the copy finds no room."""
        make_database(self.file, pages=256)
        with self.served() as server:
            for number in (signal.SIGKILL, signal.SIGTERM, signal.SIGINT):
                with self.subTest(number=number):
                    self.interrupt(number)
                    self.root.ask('SELECT session_user')
                    self.assertNotIn('T', backup.states_of(server.pid))
            status, printed, messages = self.backup('/dev/full/out')
            self.assertEqual((status, printed), (1, ''), messages)
            self.root.ask('SELECT session_user')
            server.send_signal(signal.SIGSTOP)
            with open(self.file, 'rb') as file:
                backup.wait_until_still(server.pid)
            status, printed, messages = self.backup(self.out + '3')
            self.assertEqual((status, printed), (1, ''))
            self.assertIn('held still by somebody else', messages)
            self.assertEqual(set(backup.states_of(server.pid)), {'T'})
            server.send_signal(signal.SIGCONT)
            self.assertEqual(self.backup(self.out + '4')[:2], (0, 'ok BACKUP\n'))
        self.assertEqual(run('check', self.file), (0, 'ok CHECK\n', ''))

    def interrupt(self, number):
        """Begins a copy that takes for ever once the server stands still, and ends it by a signal."""
        slow = (f'import sys, time; sys.path.insert(0, {os.path.dirname(BACKUP)!r}); import backup\n'
                'def wait(file, copy):\n    print("still", flush=True); time.sleep(1000)\n'
                f'backup.copy_bytes = wait; sys.argv = ["backup.py", {self.file!r}, {self.out!r}]; sys.exit(backup.main())')
        copy = subprocess.Popen([sys.executable, '-c', slow], stdout=subprocess.PIPE, stderr=subprocess.PIPE, text=True)
        self.assertEqual(copy.stdout.readline(), 'still\n')
        copy.send_signal(number)
        said = copy.communicate(timeout=PATIENCE)[1]
        if number != signal.SIGKILL:
            self.assertEqual((copy.returncode, said), (1, f'backup.py: ended by {number.name}\n'))
        self.assertFalse(os.path.exists(self.out))
        with contextlib.suppress(FileNotFoundError):
            os.unlink(self.out + '.partial')
            self.assertEqual(number, signal.SIGKILL)


if __name__ == '__main__':
    unittest.main()
