#!/usr/bin/env python3
"""What remains after a sync that failed, and a power failure behind it: python3 tests/test_failed_syncs.py

Once a sync has failed Linux counts the pages as clean: whoever reads the file finds them, the next sync succeeds, and they are not on the
medium (tests/disks.py). Each sync of a run fails in turn; another run follows, or a server, and then the power fails, so that the file is
what the medium has. What was answered by then is there, by a read too; tests/test_failing_disks.py tries other ways to go on. The library
that fails is compiled by `cc`; where there is none this is left out, and a line says so. The program is the one in the environment variable
GUARDDB; without it nothing is tried.
"""
import contextlib
import os
import shutil
import subprocess
import tempfile
import threading
import unittest

from program import IS_FAKE, PATIENCE, PROGRAM, make_database, run
import disks
import guarddb

SETUP = 'open r root\nr: CREATE TABLE t (k BIGINT PRIMARY KEY, x TEXT)\n'
READS = 'open r root\nr: SELECT k FROM t\n'
ROWS = 5


def inserts(first, count):
    return 'open r root\n' + ''.join(f"r: INSERT INTO t VALUES ({k}, '{'x' * 300}')\n" for k in range(first, first + count))


@unittest.skipIf(IS_FAKE, 'GUARDDB names no program')
@unittest.skipUnless(disks.COMPILER, 'there is no cc: syncs that fail are left out')
class FailedSyncs(unittest.TestCase):
    @classmethod
    def setUpClass(cls):
        cls.folder = tempfile.mkdtemp(prefix='guarddb-')
        cls.addClassCleanup(shutil.rmtree, cls.folder)
        cls.disk = disks.Disk(disks.compiled(cls.folder), cls.folder, disks.PAGE)
        cls.db = cls.disk.path()

    def make(self, journal):
        """A database with an empty table, all of it on the medium."""
        self.disk.put({})
        make_database(self.db, pages=128, journal=journal)
        self.assertEqual(run('run', self.db, '/dev/stdin', given=SETUP)[0], 0)
        self.disk.settle()

    def run_on_disk(self, script, fails=None, words=()):
        """The answers to a script, where this sync fails, or none."""
        return self.disk.run('run', *words, self.db, '/dev/stdin', given=script, fails=fails)[1].splitlines()

    def fail_power(self):
        """What was written since the last sync that succeeded is gone, and so is what one that failed was to bring to the disk."""
        for note in self.disk.new_notes():
            self.disk.take(note)
        self.disk.put(self.disk.left(lambda at, versions: versions[0], lambda name: True))

    def keys(self):
        """The keys in the file, and that it is whole."""
        self.assertEqual(run('check', self.db), (0, 'ok CHECK\n', ''))
        status, printed, _ = run('run', self.db, '/dev/stdin', given=READS)
        self.assertEqual(status, 0)
        return self.shown(printed.splitlines())

    def shown(self, answers):
        """The keys that the last answer of a script showed, a SELECT; none where it was not answered."""
        at = next((at for at, answer in enumerate(answers) if answer.startswith('rows ')), len(answers))
        return {int(line) for line in answers[at + 1:]}

    def told(self, answers, first):
        """The keys whose INSERT was answered by ok; the first answer is that of the session."""
        return {first + at for at, answer in enumerate(answers[1:]) if answer == 'ok INSERT 1'}

    def test_of_many_clients(self):
        """What any of them was answered is there, nobody is answered after the sync that failed, and the server ends."""
        for journal in (False, True):
            for fails in (9, 40):
                with self.subTest(journal=journal, fails=fails):
                    self.make(journal)
                    kept = self.served_on_disk(fails)
                    self.fail_power()
                    self.assertLess(0, len(kept))
                    self.assertLessEqual(kept, self.keys())

    def served_on_disk(self, fails, clients=20):
        """The keys that so many clients at once were told of, where this sync of the server fails."""
        socket_path, kept, refused = os.path.join(self.folder, 'at'), set(), []
        words = ['serve', self.db, '--socket', socket_path, '--clients', str(clients), '--wait', '600']
        server = subprocess.Popen([PROGRAM, *words], stderr=subprocess.PIPE, text=True, env=self.disk.environment(fails))
        self.assertEqual(server.stderr.readline(), f'guarddb: listening on {socket_path}\n')

        def insert(client):
            with contextlib.suppress(OSError), guarddb.connect(socket_path, timeout=PATIENCE) as connection:
                session = connection.open('root')
                for key in range(client * 100, client * 100 + 20):
                    try:
                        session.ask(f"INSERT INTO t VALUES ({key}, '{'x' * 200}')")
                    except guarddb.Refused as fault:
                        refused.append(fault.code)
                        return
                    kept.add(key)
        threads = [threading.Thread(target=insert, args=(client,)) for client in range(clients)]
        for thread in threads:
            thread.start()
        for thread in threads:
            thread.join()
        _, messages = server.communicate(timeout=PATIENCE)
        self.assertEqual((server.returncode, messages, set(refused) - {'58030'}), (1, 'guarddb: stopped\n', set()))
        return kept

    def shown_by_server(self, *words):
        """The keys that a server showed."""
        socket_path = os.path.join(self.folder, 'at')
        server = subprocess.Popen([PROGRAM, 'serve', self.db, '--socket', socket_path, '--connections', '1', *words], stderr=subprocess.PIPE,
                                  text=True, env=self.disk.environment())
        self.assertEqual(server.stderr.readline(), f'guarddb: listening on {socket_path}\n')
        with guarddb.connect(socket_path, timeout=PATIENCE) as connection:
            rows = connection.open('root').ask('SELECT k FROM t')
        server.communicate(timeout=PATIENCE)
        self.assertEqual(server.returncode, 0)
        return {int(row[0]) for row in rows}

    def test_what_was_shown_is_there(self):
        """Each sync of a run fails in turn. Then a run or a server reads, and the power fails: what it showed is there, also of a commit that
        was refused. Each reader shows such a row at least once."""
        def run_reads(*words):
            return self.shown(self.run_on_disk(READS, words=words))

        readers = {'run': run_reads, 'run --explain': lambda: run_reads('--explain'), 'serve': self.shown_by_server,
                   'serve --clients': lambda: self.shown_by_server('--clients', '2')}
        for journal in (False, True):
            for name, reader in readers.items():
                refused = set()
                for fails in range(2, 30):
                    with self.subTest(journal=journal, reader=name, fails=fails):
                        self.make(journal)
                        first = self.run_on_disk(inserts(1, ROWS), fails)
                        rows = reader()
                        refused |= rows - self.told(first, 1)
                        self.fail_power()
                        self.assertLessEqual(rows, self.keys())
                    if 'refused 58030' not in first and first:
                        break
                self.assertTrue(refused, (journal, name))

    def test_what_was_answered_is_there(self):
        """Each sync of a run fails in turn. Then the power fails: at once, or after another run that reads, or that writes."""
        for journal in (False, True):
            for fails in range(1, 30):
                for then in (None, 'open r root\nr: SELECT count(*) FROM t\n', inserts(100, 2), inserts(100, 9)):
                    with self.subTest(journal=journal, fails=fails, then=then):
                        self.make(journal)
                        first = self.run_on_disk(inserts(1, ROWS), fails)
                        kept = self.told(first, 1)
                        if then:
                            kept |= self.told(self.run_on_disk(then), 100)
                        self.fail_power()
                        self.assertLessEqual(kept, self.keys())
                if 'refused 58030' not in first and first:
                    break
            self.assertGreater(fails, 4)

    def holds(self, data):
        """The keys in a file of these bytes, which is whole."""
        path = os.path.join(self.folder, 'other')
        with open(path, 'wb') as file:
            file.write(data)
        self.assertEqual(run('check', path), (0, 'ok CHECK\n', ''))
        return self.shown(run('run', path, '/dev/stdin', given=READS)[1].splitlines())

    def left_of(self, *words):
        """Runs a command. Before each of its calls, and at the end, the power might fail: the files that are left then where nothing of
        what was written since the last syncs is on the disk, and where all of it is; and whether the command had answered."""
        status, printed, _ = self.disk.run(*words)
        self.assertEqual(status, 0)
        answered = False
        for note in self.disk.new_notes() + [None]:
            for of_unit, of_name in ((0, False), (0, True), (-1, False), (-1, True)):
                yield answered, self.disk.left(lambda at, versions, of=of_unit: versions[of], lambda name, of=of_name: of)
            if note:
                answered |= note.kind == 'a' and note.data.decode() == printed
                self.disk.take(note)
        self.assertTrue(answered)

    def test_what_a_copy_leaves(self):
        """Behind `ok COPY` there is NEW and nothing else of it, whatever was not synced is lost. Before that there is no NEW, or the whole."""
        for more in ((), ('--journal',)):
            self.make(False)
            self.run_on_disk(inserts(1, ROWS))
            self.disk.settle()
            found = set()
            for answered, files in self.left_of('copy', self.db, self.disk.path('new'), '--pages', '64', *more):
                found.add(frozenset(files))
                self.assertLessEqual({'db', 'new'} if answered else {'db'}, set(files))
                self.assertFalse(answered and 'new.partial' in files)
                if 'new' in files:
                    self.assertEqual(self.holds(files['new']), set(range(1, ROWS + 1)))
            names = [{'db'}, {'db', 'new.partial'}, {'db', 'new', 'new.partial'}, {'db', 'new'}]
            self.assertEqual(found, set(map(frozenset, names)))

    def test_what_format_leaves(self):
        """Behind `ok FORMAT` there is the whole file."""
        for more in ((), ('--journal',)):
            self.disk.put({})
            for answered, files in self.left_of('format', self.db, '--pages', '64', '--admin', 'root', *more):
                if answered:
                    self.assertEqual((set(files), self.holds(files['db'])), ({'db'}, set()))


if __name__ == '__main__':
    unittest.main()
