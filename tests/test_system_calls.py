#!/usr/bin/env python3
"""What the program asks of the system for its file: python3 tests/test_system_calls.py

No contract speaks of the system's file, so what holds it is shown here, by strace (Debian's package): how a file is made, that one
that is only read is not written, what comes before the first write to one that was there, in which order a commit writes and syncs,
and that nothing is written after a sync that failed. Where there is no strace these are left out, and a line says so. Beside them
stands what `serve` prints, that a file has one server, and what becomes of the file of a socket. The program is the one in the
environment variable GUARDDB; without it nothing is tried.
"""
import collections
import os
import re
import shutil
import signal
import socket
import stat
import subprocess
import tempfile
import unittest

from program import IS_FAKE, PATIENCE, PROGRAM, free_port, make_database, run
import guarddb

NAMING = 'openat,link,linkat,unlink,unlinkat,fsync,fdatasync'
TRACED = 'openat,flock,ftruncate,fallocate,pread64,pwrite64,pwritev,write,writev,fsync,fdatasync'
WRITES = ('ftruncate', 'fallocate', 'pwrite64', 'pwritev', 'write', 'writev')
SYNCS = ('fsync', 'fdatasync')
PAGES, PAGE, ROOT = 64, 4096, 512       # the pages of a file; the bytes of a page, and of a root, which is a sector of page 0
ZEROS = 16 * PAGE                       # the zeros that are written at once where a file is made
PIECES = PAGES * PAGE // ZEROS
SETUP = 'open r root\nr: CREATE TABLE t (k BIGINT PRIMARY KEY)\n'
HAS_STRACE = shutil.which('strace') is not None

# A call on the file or on its folder, the bytes that it read or wrote, and from where on; of an open, whether it must make the file.
Call = collections.namedtuple('Call', 'name on size place')
RENEWAL = [Call('pread64', 'file', PAGE, 0), Call('pwrite64', 'file', PAGE, 0), Call('fdatasync', 'file', None, None)]


def calls_on(path, trace):
    """The calls on the file of this path and on its folder, in their order."""
    found, names, folder = [], {}, os.path.dirname(path)
    for line in trace.splitlines():
        opened = re.match(r'openat\([^,]*, "([^"]*)", ([^)]*)\)\s*= (\d+)', line)
        if opened:
            names[opened[3]] = {path: 'file', folder: 'folder'}.get(opened[1])
            if names[opened[3]]:
                found.append(Call('open', names[opened[3]], 'O_EXCL' in opened[2], None))
            continue
        call = re.match(r'(\w+)\((\d+)(?:, .*?)?(?:, (\d+))?\)\s*= (-?\d+)', line)
        if call and names.get(call[2]):
            size, place = (None, None) if call[1] in SYNCS else (int(call[4]), int(call[3] or 0))
            found.append(Call(call[1], names[call[2]], size, place))
    return found


def names_and_syncs(folder, trace):
    """The names in a folder that came and went, and what was synced, in their order: ('link', FROM, TO), ('unlink', NAME) and
    ('sync', NAME), where `.` is the folder."""
    found, opened = [], {}
    for line in trace.splitlines():
        call = re.match(r'(?:\d+ +)?(\w+)\((.*)\)\s*= (\d+)', line)
        if not call:
            continue
        paths = [os.path.relpath(path, folder) for path in re.findall(r'"([^"]*)"', call[2]) if (path + '/').startswith(folder)]
        if call[1] == 'openat':
            opened[call[3]] = paths[0] if paths else None
        elif call[1].startswith(('link', 'unlink')):
            found.append((call[1].removesuffix('at'), *paths))
        elif call[1] in SYNCS and opened.get(call[2]):
            found.append(('sync', opened[call[2]]))
    return found


def writes_and_syncs(calls):
    return [call for call in calls if call.name in WRITES + SYNCS]


@unittest.skipIf(IS_FAKE, 'GUARDDB names no program')
class Files(unittest.TestCase):
    def setUp(self):
        self.folder = tempfile.mkdtemp(prefix='guarddb-')
        self.addCleanup(shutil.rmtree, self.folder)

    def path(self, name):
        return os.path.join(self.folder, name)

    def script(self, text):
        with open(self.path('script'), 'w', encoding='utf-8') as file:
            file.write(text)
        return self.path('script')

    def traced(self, *words, inject=()):
        """The calls of a run on the file `db`, and what it printed."""
        trace = self.path('trace')
        done = subprocess.run(['strace', '-f', '-s', '0', '-o', trace, '-e', f'trace={TRACED}', *inject, PROGRAM, *words],
                              capture_output=True, check=False)
        with open(trace, encoding='utf-8', errors='replace') as file:
            lines = ''.join(re.sub(r'^\d+ +', '', line) for line in file)
        return calls_on(self.path('db'), lines), done.stdout.decode()

    def test_strace_is_there(self):
        if not HAS_STRACE:
            print('there is no strace: the calls of the system are left out')

    @unittest.skipUnless(HAS_STRACE, 'there is no strace')
    def test_a_file_is_made(self):
        """It is locked; then come its zeros, a sync of it and one of its folder, and then the database."""
        calls, printed = self.traced('format', self.path('db'), '--pages', str(PAGES), '--admin', 'root')
        self.assertEqual(printed, 'ok FORMAT\n')
        self.assertEqual(calls[:2], [Call('open', 'file', True, None), Call('flock', 'file', 0, 0)])
        done = writes_and_syncs(calls)
        self.assertEqual(done[:PIECES], [Call('pwrite64', 'file', ZEROS, ZEROS * piece) for piece in range(PIECES)])
        self.assertEqual([call[:2] for call in done[PIECES:PIECES + 2]], [('fsync', 'file'), ('fsync', 'folder')])
        self.assertIn(done[PIECES + 2].name, WRITES)
        self.assertEqual(done[-1].name, 'fdatasync')

    @unittest.skipUnless(HAS_STRACE, 'there is no strace')
    def test_a_file_of_a_number_of_pages_that_is_no_whole_number_of_pieces(self):
        calls, printed = self.traced('format', self.path('db'), '--pages', '67', '--admin', 'root')
        self.assertEqual(printed, 'ok FORMAT\n')
        self.assertEqual(writes_and_syncs(calls)[PIECES], Call('pwrite64', 'file', 3 * PAGE, PIECES * ZEROS))
        self.assertEqual(os.stat(self.path('db')).st_size, 67 * PAGE)

    @unittest.skipUnless(HAS_STRACE, 'there is no strace')
    def test_a_file_that_is_locked_before_its_zeros(self):
        """Where the lock is refused, nothing is written and the file is taken away, which its folder is synced for."""
        calls, printed = self.traced('format', self.path('db'), '--pages', str(PAGES), '--admin', 'root',
                                     inject=('-e', 'inject=flock:error=EAGAIN:when=1'))
        self.assertEqual((printed, writes_and_syncs(calls)), ('', [Call('fsync', 'folder', None, None)]))
        self.assertFalse(os.path.exists(self.path('db')))

    @unittest.skipUnless(HAS_STRACE, 'there is no strace')
    def test_a_file_that_is_there_is_left(self):
        make_database(self.path('db'), pages=64)
        with open(self.path('db'), 'rb') as file:
            before = file.read()
        calls, _ = self.traced('format', self.path('db'), '--pages', '64', '--admin', 'ann')
        self.assertEqual([call for call in calls if call.name in WRITES], [])
        with open(self.path('db'), 'rb') as file:
            self.assertEqual(file.read(), before)

    @unittest.skipUnless(HAS_STRACE, 'there is no strace')
    def test_what_is_made_in_vain_is_taken_away(self):
        """Where the disk is full, at a page of zeros or at the database, and where a sync fails, of the file, its folder or the database."""
        for fault in ('pwrite64:error=ENOSPC:when=3', f'pwrite64:error=ENOSPC:when={PIECES + 1}', 'fsync:error=EIO:when=1',
                      'fsync:error=EIO:when=2', 'fdatasync:error=EIO:when=1'):
            with self.subTest(fault):
                words = ('format', self.path('db'), '--pages', str(PAGES), '--admin', 'root')
                _, printed = self.traced(*words, inject=('-e', f'inject={fault}'))
                self.assertEqual(printed, '')
                self.assertFalse(os.path.exists(self.path('db')))

    def bytes_of_file(self):
        with open(self.path('db'), 'rb') as file:
            return file.read()

    @unittest.skipUnless(HAS_STRACE, 'there is no strace')
    def test_a_file_that_is_read(self):
        """Before a run or a server answers, page 0 is written again as it is read, and synced, behind all that an opening reads. Without a
        commit nothing else is written, and `check` and `describe` write nothing at all."""
        make_database(self.path('db'), pages=PAGES)
        self.assertEqual(run('run', self.path('db'), self.script(SETUP))[0], 0)
        before = self.bytes_of_file()
        reads = self.script('open r root\nr: SELECT * FROM t\nr: SELECT count(*) FROM t WHERE k > 1\n')
        rows = 'ok OPEN\nrows 0\nrows 1\n0\n'
        for words, answers, answering in [(('check', self.path('db')), 'ok CHECK\n', False), (('describe', self.path('db')), None, False),
                                          (('run', self.path('db'), reads), rows, True),
                                          (('run', '--explain', self.path('db'), reads), rows, True)]:
            with self.subTest(words):
                calls, printed = self.traced(*words)
                self.assertEqual(printed, answers or printed)
                self.assertIn(Call('open', 'file', False, None), calls)
                first = next((at for at, call in enumerate(calls) if call.name in WRITES), len(calls))
                self.assertEqual(calls[first - 1:first + 2] if answering else [], RENEWAL if answering else calls[first:])
                self.assertEqual(writes_and_syncs(calls[first + 2:]), [])
                self.assertEqual(self.bytes_of_file(), before)

    @unittest.skipUnless(HAS_STRACE, 'there is no strace')
    def test_a_server_that_only_reads(self):
        """So it is of a server, before it listens."""
        make_database(self.path('db'), pages=PAGES)
        place, trace = self.path('socket'), self.path('trace')
        for more in ((), ('--clients', '2')):
            words = ['serve', self.path('db'), '--socket', place, '--connections', '1', *more]
            with subprocess.Popen(['strace', '-f', '-s', '0', '-o', trace, '-e', f'trace={TRACED},listen', PROGRAM, *words],
                                  stderr=subprocess.PIPE) as server:
                self.assertEqual(server.stderr.readline().decode(), f'guarddb: listening on {place}\n')
                with guarddb.connect(place, wait=PATIENCE, timeout=PATIENCE) as connection:
                    connection.open('root')
                self.assertEqual(server.wait(timeout=PATIENCE), 0)
            with open(trace, encoding='utf-8', errors='replace') as file:
                lines = re.sub(r'^\d+ +', '', file.read(), flags=re.M)
            opening = calls_on(self.path('db'), re.split(r'^listen\(', lines, maxsplit=1, flags=re.M)[0])
            self.assertEqual(opening[-3:], RENEWAL)
            self.assertEqual(writes_and_syncs(calls_on(self.path('db'), lines)), writes_and_syncs(opening))

    @unittest.skipUnless(HAS_STRACE, 'there is no strace')
    def test_a_file_that_is_refused(self):
        """Nothing is written: of a file that is no database, of one with another size, and of one that is damaged."""
        for damage in ('zeros', 'size', 'map'):
            make_database(self.path('db'), pages=PAGES)
            with open(self.path('db'), 'r+b') as file:
                if damage == 'size':
                    file.truncate(PAGE * (PAGES - 1))
                else:
                    file.seek(0 if damage == 'zeros' else PAGE)
                    file.write(bytes(PAGE * (1 if damage == 'zeros' else PAGES - 1)))
            before = self.bytes_of_file()
            for words in (('run', self.path('db'), self.script(SETUP)), ('serve', self.path('db'), '--socket', self.path('s'), '--connections', '1'),
                          ('check', self.path('db')), ('run', '--explain', self.path('db'), self.script(SETUP))):
                with self.subTest(damage=damage, words=words):
                    calls, printed = self.traced(*words)
                    self.assertEqual((printed, [call for call in calls if call.name in WRITES]), ('', []))
                    self.assertEqual(self.bytes_of_file(), before)
            os.remove(self.path('db'))

    @unittest.skipUnless(HAS_STRACE, 'there is no strace')
    def test_a_first_page_that_cannot_be_written(self):
        """Nothing is answered, and the file is as it was: where its write is refused, and where its sync fails."""
        make_database(self.path('db'), pages=PAGES)
        before = self.bytes_of_file()
        for fault in ('pwrite64:error=ENOSPC:when=1', 'fdatasync:error=EIO:when=2'):
            for words in (('run', self.path('db'), self.script(SETUP)), ('serve', self.path('db'), '--socket', self.path('s'), '--connections', '1')):
                with self.subTest(fault=fault, words=words):
                    calls, printed = self.traced(*words, inject=('-e', f'inject={fault}'))
                    self.assertEqual(printed, '')
                    failed = max(at for at, call in enumerate(calls) if call.name == fault.split(':')[0])
                    self.assertEqual(writes_and_syncs(calls[failed + 1:]), [])
                    self.assertEqual(self.bytes_of_file(), before)
                    self.assertEqual(run('check', self.path('db')), (0, 'ok CHECK\n', ''))

    def named(self, *words, fault=None):
        """The names that came and went in a run, with the syncs, and what it printed."""
        trace, inject = self.path('trace'), ['-e', f'inject={fault}'] if fault else []
        done = subprocess.run(['strace', '-f', '-s', '0', '-o', trace, '-e', f'trace={NAMING}', *inject, PROGRAM, *words],
                              capture_output=True, check=False)
        with open(trace, encoding='utf-8', errors='replace') as file:
            return names_and_syncs(self.folder, file.read()), done.stdout.decode()

    def copied(self, **more):
        return self.named('copy', self.path('db'), self.path('new'), '--pages', str(PAGES), **more)

    @unittest.skipUnless(HAS_STRACE, 'there is no strace')
    def test_a_copy_gets_its_name(self):
        """It is whole on the disk before it has the name; and the folder is synced for the name that came, and for the one that went. Once
        that is gone the copy is made, whatever the last sync says."""
        make_database(self.path('db'), pages=PAGES)
        named = [('link', 'new.partial', 'new'), ('sync', '.'), ('unlink', 'new.partial'), ('sync', '.')]
        done, printed = self.copied()
        self.assertEqual(printed, 'ok COPY\n')
        self.assertEqual(done[-5:], [('sync', 'new.partial'), *named])
        os.remove(self.path('new'))
        folder_syncs = [at for at, call in enumerate(done) if call == ('sync', '.')]
        self.assertEqual(len(folder_syncs), 3)
        _, printed = self.copied(fault='fsync:error=EIO:when=4')
        self.assertEqual(printed, 'ok COPY\n')
        self.assertEqual(run('check', self.path('new')), (0, 'ok CHECK\n', ''))
        os.remove(self.path('new'))
        done, printed = self.copied(fault='fsync:error=EIO:when=3')
        self.assertEqual(printed, '')
        self.assertEqual(done[-4:], [('unlink', 'new'), ('sync', '.'), ('unlink', 'new.partial'), ('sync', '.')])
        self.assertEqual(sorted(os.listdir(self.folder)), ['db', 'trace'])

    @unittest.skipUnless(HAS_STRACE, 'there is no strace')
    def test_what_is_taken_away_is_synced(self):
        """A copy that has no room, and a new file whose pages cannot be written."""
        make_database(self.path('db'), pages=2 * PAGES)
        script = 'open r root\nr: CREATE TABLE t (k BIGINT PRIMARY KEY, x TEXT)\n'
        rows = ''.join(f"r: INSERT INTO t VALUES ({k}, '{'x' * 1000}')\n" for k in range(250))
        self.assertEqual(run('run', self.path('db'), self.script(script + rows))[0], 0)
        done, printed = self.copied()
        self.assertEqual((printed, done[-2:]), ('', [('unlink', 'new.partial'), ('sync', '.')]))
        done, printed = self.named('format', self.path('new'), '--pages', str(PAGES), '--admin', 'root', fault='fsync:error=EIO:when=1')
        self.assertEqual((printed, done[-2:]), ('', [('unlink', 'new'), ('sync', '.')]))

    @unittest.skipUnless(HAS_STRACE, 'there is no strace')
    def test_two_names_of_one_file(self):
        """A stop between the name that came and the one that goes leaves both. The next command that may write the file takes the
        second away; nothing else of that name goes, and no command that only reads takes it away."""
        db, partial = self.path('db'), self.path('db.partial')
        make_database(db, pages=PAGES)
        script = self.script('open r root\n')
        for words in (('check', db), ('run', db, script), ('journal', db, 'on')):
            os.link(db, partial)
            done, _ = self.named(*words)
            self.assertEqual([call for call in done if call[-1] != 'db'], [('unlink', 'db.partial'), ('sync', '.')], words)
            self.assertFalse(os.path.exists(partial))
        os.link(db, partial)
        self.assertEqual([call for call in self.named('describe', db)[0] if call[-1] != 'db'], [])
        os.remove(partial)
        for make in (lambda: shutil.copy(db, partial), lambda: os.symlink(db, partial), lambda: os.link(script, partial)):
            make()
            os.link(db, self.path('third'))
            self.assertEqual(run('check', db), (0, 'ok CHECK\n', ''))
            self.assertTrue(os.path.lexists(partial))
            os.remove(partial)
            os.remove(self.path('third'))

    def is_commit(self, calls):
        """Pages, a sync, the root, a sync."""
        *pages, first, root, last = calls
        self.assertTrue(pages)
        self.assertTrue(all(call.name == 'pwrite64' and call.size == PAGE and call.place >= PAGE for call in pages), calls)
        self.assertEqual((first.name, last.name), ('fdatasync', 'fdatasync'))
        self.assertEqual((root.name, root.size), ('pwrite64', ROOT))
        self.assertLess(root.place, PAGE)

    @unittest.skipUnless(HAS_STRACE, 'there is no strace')
    def test_commits(self):
        """Page 0 is written again and synced by the opening, once, and not before a commit. Before that an opening syncs once."""
        make_database(self.path('db'), pages=PAGES)
        calls, printed = self.traced('run', self.path('db'), self.script(SETUP + 'r: INSERT INTO t VALUES (1)\n'))
        self.assertEqual(printed, 'ok OPEN\nok CREATE TABLE\nok INSERT 1\n')
        first = next(at for at, call in enumerate(calls) if call.name in WRITES)
        self.assertEqual([call.name for call in calls[:first] if call.name in SYNCS], ['fdatasync'])
        self.assertEqual(calls[first - 1:first + 2], RENEWAL)
        commits = writes_and_syncs(calls[first + 2:])
        syncs = [at for at, call in enumerate(commits) if call.name in SYNCS]
        self.assertEqual(len(syncs), 4)
        self.is_commit(commits[:syncs[1] + 1])
        self.is_commit(commits[syncs[1] + 1:])

    @unittest.skipUnless(HAS_STRACE, 'there is no strace')
    def test_a_record_is_one_write(self):
        """With a journal each commit writes page 0 at once and syncs, also where its record has three sectors; before the first one page 0
        is written again, by the opening."""
        make_database(self.path('db'), pages=PAGES, journal=True)
        script = 'open r root\nr: CREATE TABLE t (k BIGINT PRIMARY KEY, x TEXT)\nr: INSERT INTO t VALUES (1, \'%s\')\n' % ('x' * 1000)
        calls, printed = self.traced('run', self.path('db'), self.script(script))
        self.assertEqual(printed, 'ok OPEN\nok CREATE TABLE\nok INSERT 1\n')
        first = next(at for at, call in enumerate(calls) if call.name in WRITES)
        self.assertEqual(calls[first - 1:first + 2], RENEWAL)
        self.assertEqual(writes_and_syncs(calls[first + 2:]), RENEWAL[1:] * 2)

    @unittest.skipUnless(HAS_STRACE, 'there is no strace')
    def test_a_sync_that_fails(self):
        """The first of the opening, that of page 0, of the pages, of the root: the server is not opened or stops, and writes nothing more;
        the file holds a database. Page 0 was written with the bytes that it had."""
        for number, answers in [(1, ''), (2, ''), (3, 'ok OPEN\nrefused 58030\n'), (4, 'ok OPEN\nrefused 58030\n')]:
            make_database(self.path('db'), pages=PAGES)
            with open(self.path('db'), 'rb') as file:
                before = file.read()
            calls, printed = self.traced('run', self.path('db'), self.script(SETUP + 'r: CREATE ROLE ann\n'),
                                         inject=('-e', f'inject=fdatasync:error=EIO:when={number}'))
            self.assertEqual(printed, answers)
            failed = [at for at, call in enumerate(calls) if call.name == 'fdatasync'][number - 1]
            self.assertEqual([call for call in calls[failed + 1:] if call.name in WRITES + SYNCS], [])
            with open(self.path('db'), 'rb') as file:
                self.assertEqual(file.read() == before, number < 3)
            self.assertEqual(run('check', self.path('db')), (0, 'ok CHECK\n', ''))
            os.remove(self.path('db'))

    def test_what_a_server_prints(self):
        make_database(self.path('db'), pages=64)
        port = free_port()
        words = [PROGRAM, 'serve', self.path('db'), '--port', str(port), '--connections', '1']
        with subprocess.Popen(words, stderr=subprocess.PIPE, stdout=subprocess.PIPE) as server:
            self.assertEqual(server.stderr.readline().decode(), f'guarddb: listening on 127.0.0.1:{port}\n')
            other = run('serve', self.path('db'), '--port', str(free_port()), '--connections', '1')
            self.assertEqual(other, (1, '', f'guarddb: InUse\nguarddb: {self.path("db")}: another process has it open\n'))
            with guarddb.connect(port, wait=PATIENCE, timeout=PATIENCE) as connection:
                connection.open('root')
            said = server.stderr.read().decode()
            self.assertEqual((server.wait(timeout=PATIENCE), said.count('\n'), server.stdout.read()), (0, 1, b''))
            self.assertTrue(said.startswith('guarddb: '), said)

    def test_a_port_that_is_bound(self):
        make_database(self.path('db'), pages=64)
        make_database(self.path('other'), pages=64)
        port = free_port()
        words = [PROGRAM, 'serve', self.path('db'), '--port', str(port), '--connections', '1']
        with subprocess.Popen(words, stderr=subprocess.PIPE) as server:
            server.stderr.readline()
            taken = run('serve', self.path('other'), '--port', str(port), '--connections', '1')
            self.assertEqual(taken, (1, '', f'guarddb: Net\nguarddb: 127.0.0.1:{port}: the address is in use\n'))
            server.send_signal(signal.SIGKILL)

    def serves(self, database, place, connections=1):
        """A server on a socket."""
        words = [PROGRAM, 'serve', self.path(database), '--socket', place, '--connections', str(connections)]
        return subprocess.Popen(words, stderr=subprocess.PIPE, umask=0o022)

    def test_the_file_of_a_socket(self):
        make_database(self.path('db'), pages=64)
        make_database(self.path('other'), pages=64)
        place = self.path('socket')
        with self.serves('db', place) as server:
            self.assertEqual(server.stderr.readline().decode(), f'guarddb: listening on {place}\n')
            self.assertTrue(stat.S_ISSOCK(os.stat(place).st_mode))
            self.assertEqual(os.stat(place).st_mode & 0o022, 0)     # nobody else may connect
            with guarddb.connect(place, wait=PATIENCE, timeout=PATIENCE) as connection:
                connection.open('root')
            self.assertEqual(server.wait(timeout=PATIENCE), 0)
        self.assertFalse(os.path.exists(place))

        with self.serves('db', place, connections=2) as server:
            server.stderr.readline()
            taken = run('serve', self.path('other'), '--socket', place, '--connections', '1')
            in_use = f'guarddb: Net\nguarddb: {place}: the address is in use\n'
            self.assertEqual(taken, (1, '', in_use))                # somebody listens there, whom this was a connection to
            server.send_signal(signal.SIGKILL)
        self.assertTrue(os.path.exists(place))                      # nobody does now
        with self.serves('other', place) as server:
            with guarddb.connect(place, wait=PATIENCE, timeout=PATIENCE) as connection:
                connection.open('root')
            self.assertEqual(server.wait(timeout=PATIENCE), 0)

        with open(self.path('db'), 'rb') as file:
            before = file.read()
        with socket.socket(socket.AF_UNIX, socket.SOCK_DGRAM) as other:     # to which no stream connects, and yet somebody's
            other.bind(self.path('datagrams'))
            for where in (self.path('db'), self.folder, self.path('no/folder'), self.path('datagrams')):
                taken = run('serve', self.path('other'), '--socket', where, '--connections', '1')
                self.assertEqual(taken[:2], (1, ''), where)
                self.assertTrue(taken[2].startswith(f'guarddb: Net\nguarddb: {where}: '), taken[2])
            self.assertTrue(os.path.exists(self.path('datagrams')))
        for where in ('', 'o' * 108):                               # no socket has such a name
            taken = run('serve', self.path('other'), '--socket', where, '--connections', '1')
            self.assertEqual(taken[:2], (2, ''), where)
            self.assertIn('PATH has 1 to 107 bytes', taken[2])
        with open(self.path('db'), 'rb') as file:
            self.assertEqual(file.read(), before)

    def test_a_socket_that_another_took(self):
        """A server whose socket's file was replaced leaves the new one."""
        make_database(self.path('db'), pages=64)
        place = self.path('socket')
        with self.serves('db', place) as server, socket.socket(socket.AF_UNIX) as other:
            server.stderr.readline()
            with guarddb.connect(place, timeout=PATIENCE) as connection:
                os.remove(place)
                other.bind(place)
                connection.open('root')
            self.assertEqual(server.wait(timeout=PATIENCE), 0)
            self.assertTrue(os.path.exists(place))

    def test_an_output_that_takes_nothing(self):
        with open('/dev/full', 'w', encoding='utf-8') as full:
            done = subprocess.run([PROGRAM, 'run', '--memory', 'root', self.script(SETUP)], stdout=full, stderr=subprocess.PIPE, check=False)
        self.assertEqual((done.returncode, done.stderr), (1, b'guarddb: Output\nguarddb: standard output: closed, or it takes no more\n'))


if __name__ == '__main__':
    unittest.main()
