#!/usr/bin/env python3
"""Tests of dumps: python3 tests/test_dumps.py

A dump is written, read by a second program that follows docs/formats.md alone, restored, damaged, cut off and stopped. The program is
the one in the environment variable GUARDDB; without it nothing is tried.
"""
import hashlib
import os
import resource
import signal
import struct
import subprocess
import sys
import tempfile
import time
import unittest

from program import IS_FAKE, PROGRAM, TOP, make_database, run

sys.path.insert(0, os.path.join(TOP, 'crates', 'storage_tests'))
import images       # a second reader of databases, which shares nothing with the program

PAGE = 4096
NO_DUMP = "no dump, or one that is cut off; 'guarddb dump' makes one of a database"
DAMAGED = 'the dump is cut off or damaged, or is of no database; restore another'
ORDERS = ['open r root', "r: CREATE TABLE orders (id BIGINT PRIMARY KEY, customer TEXT, note TEXT)", 'r: CREATE ROLE ann LOGIN',
          'r: CREATE ROLE bob LOGIN', 'r: CREATE ROLE boss SUPERUSER', 'r: CREATE ROLE staff', 'r: GRANT SELECT ON orders TO ann',
          'r: ALTER TABLE orders ENABLE ROW LEVEL SECURITY', 'r: CREATE POLICY own ON orders USING (customer = current_user)',
          "r: INSERT INTO orders VALUES (1, 'ann', 'paper'), (2, 'bob', 'ink')"]


def whole_pages(count):
    return -(-count // PAGE) * PAGE


def read_dump(data):
    """The commit number and the lists of a dump, by docs/formats.md; it fails where the bytes are none."""
    assert len(data) % PAGE == 0
    assert data[:12] == b'GUARDDB-DUMP'
    version, records, number = struct.unpack('>IIQ', data[12:28])
    assert (version, records) == (1, 2) and not any(data[28:PAGE])
    lists, at = [], PAGE
    while data[at] == 1:
        count, = struct.unpack('>I', data[at + 1:at + 5])
        end = at + whole_pages(5 + count)
        assert not any(data[at + 5 + count:end])
        lists.append(read_changes(data[at + 5:at + 5 + count]))
        at = end
    told, = struct.unpack('>Q', data[at + 1:at + 9])
    assert data[at] == 0 and told == len(lists) and at + PAGE == len(data)
    assert data[at + 9:at + 41] == hashlib.sha256(data[:at]).digest() and not any(data[at + 41:])
    return number, lists


def read_changes(data):
    """The changes that bytes spell, and zeros to the end of parts of 488 bytes."""
    assert len(data) % 488 == 0
    changes, at = [], 0
    while at < len(data) and data[at]:
        key_length, = struct.unpack('>H', data[at + 1:at + 3])
        if data[at] == 1:
            value_length, = struct.unpack('>H', data[at + 3:at + 5])
            key, at = data[at + 5:at + 5 + key_length], at + 5 + key_length
            changes.append((key, data[at:at + value_length]))
            at += value_length
        else:
            assert data[at] == 2
            changes.append((data[at + 3:at + 3 + key_length], None))
            at += 3 + key_length
    assert len(data) - at < 488 and not any(data[at:])
    assert [key for key, _ in changes] == sorted({key for key, _ in changes})
    return changes


def spelled(changes):
    """The bytes that spell changes, in parts of 488 bytes."""
    made = b''.join(b'\1' + struct.pack('>HH', len(key), len(value)) + key + value if value is not None else
                    b'\2' + struct.pack('>H', len(key)) + key for key, value in changes)
    return made + bytes(-len(made) % 488)


def filled(data):
    return data + bytes(-len(data) % PAGE)


def made_dump(lists, number=7, version=1, records=2):
    """A dump of these lists, by docs/formats.md."""
    data = filled(b'GUARDDB-DUMP' + struct.pack('>IIQ', version, records, number))
    for changes in lists:
        data += filled(b'\1' + struct.pack('>I', len(spelled(changes))) + spelled(changes))
    return data + filled(b'\0' + struct.pack('>Q', len(lists)) + hashlib.sha256(data).digest())


def bytes_of(path):
    with open(path, 'rb') as file:
        return file.read()


@unittest.skipIf(IS_FAKE, 'dumps are tried over the program alone')
class Dumps(unittest.TestCase):
    def setUp(self):
        folder = tempfile.TemporaryDirectory()
        self.addCleanup(folder.cleanup)
        self.folder = folder.name

    def path(self, name):
        return os.path.join(self.folder, name)

    def write(self, name, data):
        with open(self.path(name), 'wb') as file:
            file.write(data if isinstance(data, bytes) else data.encode())
        return self.path(name)

    def told(self, name, about, reason):
        return 1, '', f'guarddb: {name}\nguarddb: {about}: {reason}\n'

    def make_orders(self, name='db', journal=False):
        path = self.path(name)
        make_database(path, journal=journal)
        status, printed, _ = run('run', path, self.write('orders.script', '\n'.join(ORDERS) + '\n'))
        self.assertEqual((status, 'refused' in printed, 'error' in printed), (0, False, False), printed)
        return path

    def records(self, path):
        with open(path, 'rb') as file:
            return images.records_of(file.read())

    def described(self, path):
        status, printed, messages = run('describe', path)
        self.assertEqual((status, messages), (0, ''))
        return printed

    def dumped(self, path, out):
        """Dumps a database, which stays as it was; nothing else is left beside the dump."""
        before = bytes_of(path)
        done = run('dump', path, out)
        self.assertEqual(bytes_of(path), before)
        self.assertFalse(os.path.lexists(out + '.partial'))
        return done

    def refuses(self, told, *words):
        """What is refused leaves the folder as it was."""
        before = sorted(os.listdir(self.folder))
        self.assertEqual(run(*words), told)
        self.assertEqual(sorted(os.listdir(self.folder)), before)

    def test_a_dump_and_its_database(self):
        for kind, (of_file, of_new) in enumerate([(False, False), (True, False), (False, True), (True, True)]):
            path = self.make_orders(f'db{kind}', of_file)
            out, new = self.path(f'out{kind}'), self.path(f'new{kind}')
            self.assertEqual(self.dumped(path, out), (0, 'ok DUMP\n', ''))
            self.assertEqual(os.stat(out).st_mode & 0o777, 0o600)
            self.assertEqual(os.stat(out).st_nlink, 1)
            number, lists = read_dump(bytes_of(out))
            self.assertGreater(number, 1)
            self.assertEqual(len(lists), 1)
            self.assertEqual(bytes_of(out), made_dump(lists, number))
            self.assertEqual(run('check', out), (0, 'ok CHECK\n', ''))
            words = ['restore', out, new, '--pages', '128', *['--journal'] * of_new]
            self.assertEqual(run(*words), (0, 'ok RESTORE superusers: 2, logins: 3\n', ''))
            self.assertEqual(os.stat(new).st_size, 128 * PAGE)
            self.assertEqual(os.stat(new).st_mode & 0o777, 0o600)
            self.assertEqual(os.stat(new).st_nlink, 1)
            self.assertFalse(os.path.lexists(new + '.partial'))
            self.assertEqual(self.described(new), self.described(path))
            self.assertEqual(run('check', new), (0, 'ok CHECK\n', ''))
            again = self.path(f'again{kind}')
            self.assertEqual(self.dumped(new, again), (0, 'ok DUMP\n', ''))
            self.assertEqual(read_dump(bytes_of(again))[1], lists)
            if not of_file and not of_new:
                self.assertEqual(self.records(new), self.records(path))

    def test_many_lists(self):
        """A list has 16 MiB at most; each is one commit."""
        path, out, new = self.path('db'), self.path('out'), self.path('new')
        make_database(path, pages=16384)
        script = ['open r root\nr: CREATE TABLE big (k BIGINT PRIMARY KEY, v TEXT)\n']
        for first in range(0, 36_000, 4000):
            script += ['r: BEGIN\n', *[f"r: INSERT INTO big VALUES ({k}, '{'o' * 1000}')\n" for k in range(first, first + 4000)], 'r: COMMIT\n']
        self.assertEqual(run('run', path, self.write('script', ''.join(script)))[0], 0)
        self.assertEqual(self.dumped(path, out), (0, 'ok DUMP\n', ''))
        _, lists = read_dump(bytes_of(out))
        self.assertEqual(len(lists), 3)
        self.assertLess(max(sum(len(key) + len(value) for key, value in changes) for changes in lists), (1 << 24) + 2000)
        self.assertEqual(run('restore', out, new, '--pages', '16384')[:2], (0, 'ok RESTORE superusers: 1, logins: 1\n'))
        self.assertEqual(self.records(new), self.records(path))
        self.refuses((1, '', f'guarddb: Full\nguarddb: {self.path("small")}: the database does not fit in 4096 pages; ask for more\n'),
                     'restore', out, self.path('small'), '--pages', '4096')

    def test_lists_are_applied_in_turn(self):
        """What a later list says of a key stands, and what it removes is gone."""
        path, out, new = self.make_orders(), self.path('out'), self.path('new')
        self.dumped(path, out)
        _, [records] = read_dump(bytes_of(out))
        half = len(records) // 2
        wrong = [(key, b'') for key, _ in records[:half]] + [(b'\xff gone', b'gone')]
        lists = [wrong, records[:half], [], [*records[half:], (b'\xff gone', None)]]
        turns = self.write('turns', made_dump(lists))
        self.assertEqual(run('check', turns), (0, 'ok CHECK\n', ''))
        self.assertEqual(run('restore', turns, new, '--pages', '64'), (0, 'ok RESTORE superusers: 2, logins: 3\n', ''))
        self.assertEqual(self.records(new), self.records(path))

    def test_what_is_damaged_or_cut_off(self):
        """Each 97th byte altered, and each length that is cut there, is refused, and leaves no new file."""
        out, new = self.path('out'), self.path('new')
        self.dumped(self.make_orders(), out)
        data = bytes_of(out)
        for at in range(0, len(data), 97):
            broken = self.write('broken', data[:at] + bytes([data[at] ^ 0x40]) + data[at + 1:])
            self.refused_dump(broken, new, at)
            cut = self.write('broken', data[:at])
            self.refused_dump(cut, new, at)
        for kept in range(0, len(data), PAGE):
            self.refused_dump(self.write('broken', data[:kept]), new, kept)
        self.refused_dump(self.write('broken', data + bytes(PAGE)), new, len(data))

    def refused_dump(self, broken, new, at):
        before = sorted(os.listdir(self.folder))
        for words in (['restore', broken, new, '--pages', '64'], ['check', broken]):
            status, printed, messages = run(*words)
            self.assertEqual((status, printed), (1, ''), at)
            self.assertIn(messages.split('\n')[0], ('guarddb: NotADump', 'guarddb: Damaged', 'guarddb: Format', 'guarddb: WrongSize',
                                                    'guarddb: NotADatabase'), at)
        self.assertEqual(sorted(os.listdir(self.folder)), before, at)

    def test_dumps_of_no_database(self):
        """A dump that is whole, and whose records are no database's; and one with the mark of a copy that is not whole."""
        out, new = self.path('out'), self.path('new')
        self.dumped(self.make_orders(), out)
        _, [records] = read_dump(bytes_of(out))
        for lists in ([records[1:]], [[(b'\x00', b''), *records]], [[*records, (b'\xff', b'')]], [records, [(b'\x00', None)]]):
            none = self.write('none', made_dump(lists))
            self.refuses(self.told('Damaged', none, DAMAGED), 'restore', none, new, '--pages', '64')
        self.assertEqual(run('restore', self.write('empty', made_dump([[], []])), self.path('empty.db'), '--pages', '64'),
                         (0, 'ok RESTORE superusers: 0, logins: 0\n', ''))      # a database without a role
        self.refuses(self.told('Format', self.write('none', made_dump([records], version=2)),
                               'a dump of version 2, and this guarddb knows 1; restore it with the guarddb that made it'),
                     'restore', self.path('none'), new, '--pages', '64')
        self.refuses(self.told('Damaged', self.write('none', made_dump([records], records=1)), DAMAGED), 'restore', self.path('none'), new,
                     '--pages', '64')

    def test_names(self):
        """Nothing is replaced, and what another left is told."""
        path, out = self.make_orders(), self.path('out')
        taken = 'the name is taken; this command makes a new file'
        self.refuses(self.told('Exists', path, taken), 'dump', path, path)
        self.refuses(self.told('Exists', self.folder, taken), 'dump', path, self.folder)
        os.symlink(self.path('none'), self.path('link'))
        self.refuses(self.told('Exists', self.path('link'), taken), 'dump', path, self.path('link'))
        left = 'a copy is made there, or was stopped; once none is made it can be removed'
        self.write('out.partial', 'left')
        self.refuses(self.told('Exists', out + '.partial', left), 'dump', path, out)
        self.assertEqual(bytes_of(out + '.partial'), b'left')
        os.remove(out + '.partial')
        self.assertEqual(self.dumped(path, out), (0, 'ok DUMP\n', ''))
        before = bytes_of(out)
        self.refuses(self.told('Exists', out, taken), 'dump', path, out)
        self.refuses(self.told('Exists', path, taken), 'restore', out, path, '--pages', '64')
        self.write('new.partial', 'left')
        self.refuses(self.told('Exists', self.path('new.partial'), left), 'restore', out, self.path('new'), '--pages', '64')
        self.assertEqual(bytes_of(out), before)

    def test_files_that_are_none(self):
        path, new, none = self.make_orders(), self.path('new'), self.path('none')
        self.refuses(self.told('Device', none, 'no such file or folder'), 'dump', none, new)
        self.refuses(self.told('Device', none, 'no such file or folder'), 'restore', none, new, '--pages', '64')
        self.refuses(self.told('NotADump', path, NO_DUMP), 'restore', path, new, '--pages', '64')
        text = self.write('text', 'x' * 64 * PAGE)
        no_database = "not a database; 'guarddb format' makes one in a new file"
        self.refuses(self.told('NotADatabase', text, no_database), 'dump', text, new)
        self.refuses(self.told('NotADatabase', text, no_database), 'check', text)
        self.refuses(self.told('NotADump', text, NO_DUMP), 'restore', text, new, '--pages', '64')
        below = self.path('none/new')
        self.refuses(self.told('Device', below, 'no such file or folder'), 'dump', path, below)
        self.assertEqual(run('dump', path)[0], 2)
        self.assertEqual(run('restore', path, new)[0], 2)
        self.assertEqual(run('restore', path, new, '--pages', '63')[0], 2)

    def test_a_dump_of_a_file_of_format_1(self):
        """It stays of format 1; the dump is of format 2."""
        path, out, new = self.path('db'), self.path('out'), self.path('new')
        with open(os.path.join(TOP, 'tests', 'formats', 'format_1.txt'), encoding='utf-8') as lines:
            self.write('db', image_of(lines.read()))
        self.assertEqual(self.dumped(path, out), (0, 'ok DUMP\n', ''))
        self.assertEqual(run('restore', out, new, '--pages', '64')[0], 0)
        self.assertEqual(self.described(new), self.described(path))
        self.assertEqual(run('check', path)[2], f'guarddb: {path} was of format 1 and is of format 2 now\n')
        self.assertEqual(self.records(new), self.records(path))

    def test_no_room_for_the_file(self):
        """A dump that the system does not let grow so far is taken away again; so is a new database."""
        def limit():
            signal.signal(signal.SIGXFSZ, signal.SIG_IGN)
            resource.setrlimit(resource.RLIMIT_FSIZE, (2 * PAGE, 2 * PAGE))
        path, out = self.make_orders(), self.path('out')
        failed = 'a call of the system failed'
        self.dumped(path, out)
        for words, about in [(['dump', path, self.path('more')], self.path('more')), (['restore', out, self.path('new'), '--pages', '64'], self.path('new'))]:
            before = sorted(os.listdir(self.folder))
            done = subprocess.run([PROGRAM, *words], capture_output=True, preexec_fn=limit, check=False)
            self.assertEqual((done.returncode, done.stdout.decode(), done.stderr.decode()), self.told('Device', about, failed))
            self.assertEqual(sorted(os.listdir(self.folder)), before)

    def test_what_is_not_told(self):
        """A dump was made before standard output was told, and stays; so does a database."""
        path, out, new = self.make_orders(), self.path('out'), self.path('new')
        told = 'guarddb: Output\nguarddb: standard output: closed, or it takes no more\n'
        for words in (['dump', path, out], ['restore', out, new, '--pages', '64']):
            with open('/dev/full', 'w', encoding='utf-8') as full:
                done = subprocess.run([PROGRAM, *words], stdout=full, stderr=subprocess.PIPE, check=False)
            self.assertEqual((done.returncode, done.stderr.decode()), (1, told))
        self.assertEqual(self.records(new), self.records(path))
        closed = self.path('closed')
        subprocess.run(['sh', '-c', f'exec "$0" dump {path} {closed} 0<&- 1>&- 2>&-', PROGRAM], check=False)
        self.assertEqual(bytes_of(closed), bytes_of(out))

    def test_what_is_stopped(self):
        """Whenever it is stopped, there is no dump or a whole one, and no database or a whole one."""
        path, out, new = self.path('db'), self.path('out'), self.path('new')
        make_database(path, pages=4096)
        rows = ''.join(f"r: INSERT INTO big VALUES ({k}, '{'o' * 1000}')\n" for k in range(4000))
        script = 'open r root\nr: CREATE TABLE big (k BIGINT PRIMARY KEY, v TEXT)\nr: BEGIN\n' + rows + 'r: COMMIT\n'
        self.assertEqual(run('run', path, self.write('script', script))[0], 0)
        self.assertEqual(self.dumped(path, out), (0, 'ok DUMP\n', ''))
        data, records = bytes_of(out), self.records(path)
        for words, made, is_whole in [(['dump', path, self.path('other')], self.path('other'), lambda made: bytes_of(made) == data),
                                      (['restore', out, new, '--pages', '4096'], new, lambda made: self.records(made) == records)]:
            started = time.monotonic()
            self.assertEqual(run(*words)[0], 0)
            whole = time.monotonic() - started
            os.remove(made)
            for n in range(20):
                going = subprocess.Popen([PROGRAM, *words], stdout=subprocess.DEVNULL, stderr=subprocess.DEVNULL)
                time.sleep(whole * n / 18)
                going.send_signal(signal.SIGINT if n % 2 else signal.SIGKILL)
                going.wait()
                if os.path.lexists(made):
                    self.assertTrue(is_whole(made))
                    os.remove(made)
                if os.path.lexists(made + '.partial'):
                    os.remove(made + '.partial')
            self.assertEqual(run(*words)[0], 0)
            self.assertTrue(is_whole(made))


def image_of(text):
    """The bytes of a file of tests/formats: lines `put TIMES BYTES`, and zeros up to 64 pages."""
    data = b''
    for line in text.splitlines():
        _, times, digits = line.split(' ', 2)
        data += bytes.fromhex(digits) * int(times)
    return data.ljust(64 * PAGE, b'\0')


if __name__ == '__main__':
    unittest.main()
