#!/usr/bin/env python3
"""Tests of the program by the files of crates/system_tests/data/: python3 tests/test_commands.py

`NAME.expected` holds what is to be printed: standard output, a line `status N`, and standard error. A script that ends well has no
such line.

- `NAME.words` is a command line, one word a line, which may be no UTF-8. They are given in the order of their names, in one folder
  with copies of these files.
- `NAME.script`, where it has an invalid line, is run over memory, over a file, and over one with a journal. So is `NAME.long`, in
  which `{N*X}` stands for N times X. `NAME.small`, with the same sign, is run over files of 64 pages.
- `NAME.frames` holds bytes, which are sent to a server on a port and on a socket, and `NAME.expected` what it sends back, a frame a
  line.
- `orders.hindered` has commands over a new database of 64 pages in `hindered.db` that something outside of the program hinders. A line
  has a word, the name of what is tried, and what hinders it. `zeros`, `cut LENGTH`, `at OFFSET BYTES` and `image NAME` alter the file
  that `check` opens. `bound_port FILE`: `serve` is to bind a port that is bound. `failing_output`: `run --memory` is to print where
  nothing is taken. `locked_file`: `check` is to open a file that is locked.
- `NAME.image` tells of a damaged file, where `NAME.opened` says so. `journal FILE on` and `off` refuse it for that, and write nothing.

The layouts of a description stand here. The program is the one in the environment variable GUARDDB; without it nothing is tried.
"""
import fcntl
import json
import os
import re
import shutil
import socket
import subprocess
import tempfile
import time
import unittest

from data_files import DATA, LENGTH, bytes_of_image, expanded, names_of, put_at, text_of
from program import IS_FAKE, PROGRAM, make_database, run, served

FILE = 'hindered.db'

# A database of which little is to be told, and its description in columns, written by hand. The owner has each privilege,
# and no role has granted it.
DESCRIBED = 'open a ann\na: CREATE ROLE "bo\tb" LOGIN\na: CREATE TABLE t (n BIGINT PRIMARY KEY, "a longer name" TEXT)\na: GRANT SELECT ON t TO PUBLIC\n'
IN_COLUMNS = '''roles
  role  superuser  login  bypassrls
  ann   yes        yes    no
  bo b  no         yes    no

memberships
  role  in  through  admin

tables
  table  owner  row security  forced
  t      ann    no            no

columns
  table  column         type    not null  key
  t      n              BIGINT  yes       1
  t      a longer name  TEXT    no        -

privileges
  table  column  privilege  to      by   grant option
  t      -       SELECT     ann     -    yes
  t      -       SELECT     PUBLIC  ann  no
  t      -       INSERT     ann     -    yes
  t      -       UPDATE     ann     -    yes
  t      -       DELETE     ann     -    yes

policies
  table  policy  kind  command  roles  using  with check
'''


def frames_of(data):
    """The frames of bytes as text, a line for each, also for one that is not there to its end."""
    lines = ''
    while data:
        length = 4 + int.from_bytes(data[:4], 'big')
        lines += data[:length].hex(' ') + '\n'
        data = data[length:]
    return lines


@unittest.skipIf(IS_FAKE, 'GUARDDB names no program')
class Commands(unittest.TestCase):
    def setUp(self):
        self.folder = tempfile.mkdtemp(prefix='guarddb-')
        self.addCleanup(shutil.rmtree, self.folder)

    def path(self, name):
        return os.path.join(self.folder, name)

    def printed(self, *words, output=subprocess.PIPE):
        """What the program prints in the folder for these words: on standard output, the status, on standard error."""
        done = subprocess.run([PROGRAM, *words], cwd=self.folder, stdin=subprocess.DEVNULL, stdout=output, stderr=subprocess.PIPE, check=False)
        return (done.stdout or b'').decode() + f'status {done.returncode}\n' + done.stderr.decode()

    def test_words(self):
        for name in os.listdir(DATA):
            shutil.copy(os.path.join(DATA, name), self.folder)
        names = names_of('.words')
        self.assertLess(50, len(names))
        for name in names:
            with self.subTest(name), open(os.path.join(DATA, name + '.words'), 'rb') as file:
                self.assertEqual(self.printed(*file.read().splitlines()), text_of(name + '.expected'))

    def runs_to(self, script, expected, pages):
        """Over memory, where it has room, and over files, a script prints what is expected."""
        with open(self.path('script'), 'w', encoding='utf-8', newline='') as file:
            file.write(script)
        memory = [('--memory', 'root')] * (pages == 256)
        for number, words in enumerate([*memory, ('db',), ('journal',)]):
            if words[0] != '--memory':
                make_database(self.path(words[0]), pages, journal=words == ('journal',))
            status, answers, messages = run('run', *words[:-1], self.path(words[-1]) if len(words) == 1 else words[-1], self.path('script'))
            messages = messages.replace(self.path('script'), 'the script')
            self.assertEqual(answers + messages + (f'status {status}\n' if status else ''), expected)
            if len(words) == 1:
                os.remove(self.path(words[0]))

    def test_scripts_with_an_invalid_line(self):
        names = [name for name in names_of('.script') if 'guarddb: line' in text_of(name + '.expected')]
        self.assertLess(5, len(names))
        for name in names:
            with self.subTest(name):
                self.runs_to(text_of(name + '.script'), text_of(name + '.expected'), 256)

    def test_long_and_small_scripts(self):
        for ending, pages in (('.long', 256), ('.small', 64)):
            for name in names_of(ending):
                with self.subTest(name):
                    self.runs_to(expanded(text_of(name + ending)), expanded(text_of(name + '.expected')), pages)

    def test_frames(self):
        names = names_of('.frames')
        self.assertLess(2, len(names))
        for name in names:
            for socket_path in (None, self.path('at')):
                with self.subTest(name, socket=socket_path):
                    make_database(self.path('db'))
                    self.assertEqual(frames_of(self.sent_back(text_of(name + '.frames'), socket_path)), text_of(name + '.expected'))
                    os.remove(self.path('db'))

    def sent_back(self, lines, socket_path):
        """What a server sends a client that sends the bytes of each line and then no more."""
        with served(self.path('db'), socket_path=socket_path) as place:
            with connected(place) as client:
                for line in lines.splitlines():
                    client.sendall(bytes.fromhex(line))
                client.shutdown(socket.SHUT_WR)
                return b''.join(iter(lambda: client.recv(65536), b''))

    def test_hindered_orders(self):
        shutil.copy(os.path.join(DATA, 'current_user.sql'), self.folder)
        lines = text_of('orders.hindered').splitlines()
        self.assertLess(20, len(lines))
        for line in lines:
            _, name, hindrance = line.split(' ', 2)
            with self.subTest(name):
                make_database(self.path(FILE), 64)
                self.assertEqual(self.printed_if_hindered(*hindrance.partition(' ')[::2]), text_of(name + '.expected'))
                os.remove(self.path(FILE))

    def printed_if_hindered(self, word, rest):
        if word == 'bound_port':
            with socket.socket() as listener:
                listener.bind(('127.0.0.1', 0))
                listener.listen()
                port = listener.getsockname()[1]
                return self.printed('serve', rest, '--port', str(port), '--connections', '1').replace(f':{port}:', ':PORT:')
        if word == 'failing_output':
            with open('/dev/full', 'wb') as full:
                return self.printed('run', '--memory', 'root', 'current_user.sql', output=full)
        if word == 'locked_file':
            with open(self.path(FILE), 'r+b') as file:
                fcntl.flock(file, fcntl.LOCK_EX)
                return self.printed('check', FILE)
        self.alter(word, rest)
        return self.printed('check', FILE)

    def alter(self, word, rest):
        """Alters the file of the database."""
        with open(self.path(FILE), 'rb') as file:
            data = bytearray(file.read())
        if word == 'cut':
            del data[int(rest):]
        elif word == 'at':
            put_at(data, rest)
        else:
            data = bytes_of_image(rest) if word == 'image' else bytes(LENGTH)
        self.write(data)

    def write(self, data):
        with open(self.path(FILE), 'wb') as file:
            file.write(data)

    def test_journals_of_damaged_files(self):
        names = [name for name in names_of('.opened') if text_of(name + '.opened').startswith('Damaged')]
        self.assertLess(30, len(names))
        for name in names:
            for word in ('on', 'off'):
                with self.subTest(name, word=word):
                    data = bytes_of_image(name)
                    self.write(data)
                    printed = self.printed('journal', FILE, word)
                    self.assertEqual(printed.split('\n')[:2], ['status 1', 'guarddb: Damaged'])
                    with open(self.path(FILE), 'rb') as file:
                        self.assertEqual(file.read(), data)
                    self.assertEqual(text_of(name + '.opened'), 'Damaged, the same bytes\n' * 2)


    def test_layouts(self):
        """Names are as they are in JSON, and printable in columns; a number, a flag and what is absent have forms of their own."""
        make_database(self.path('db'), admin='ann')
        with open(self.path('script'), 'w', encoding='utf-8') as file:
            file.write(DESCRIBED)
        self.assertEqual(run('run', self.path('db'), self.path('script')), (0, 'ok OPEN\nok CREATE ROLE\nok CREATE TABLE\nok GRANT\n', ''))
        self.assertEqual(run('describe', self.path('db')), (0, IN_COLUMNS, ''))
        status, text, messages = run('describe', self.path('db'), '--json')
        self.assertEqual((status, messages), (0, ''))
        found = json.loads(text)
        self.assertEqual(text, json.dumps(found, indent=2, sort_keys=True) + '\n')
        self.assertEqual([(row['role'], row['superuser']) for row in found['roles']], [('ann', True), ('bo\tb', False)])
        self.assertEqual([(row['column'], row['key']) for row in found['columns']], [('n', 1), ('a longer name', None)])
        self.assertEqual([(row['to'], row['by']) for row in found['privileges']], [('ann', None), (None, 'ann'), *[('ann', None)] * 3])
        self.assertEqual(self.columns_of(found), IN_COLUMNS)

    @staticmethod
    def columns_of(found):
        """The same description in columns, by the widest cell of each."""
        sections = []
        for name, section in [(part.split('\n')[0], part.split('\n')[1]) for part in IN_COLUMNS.split('\n\n')]:
            heads = re.split('  +', section.strip())
            rows = [[cell(row[head], head) for head in heads] for row in found[name]]
            widths = [max(len(row[at]) for row in [heads, *rows]) for at in range(len(heads))]
            lines = ['  ' + '  '.join(text.ljust(width) for text, width in zip(row, widths)).rstrip() for row in [heads, *rows]]
            sections.append('\n'.join([name, *lines]) + '\n')
        return '\n'.join(sections)


def cell(value, head):
    """A value of JSON as it stands in columns."""
    if value is None:
        return 'PUBLIC' if head == 'to' else '-'
    if isinstance(value, bool):
        return 'yes' if value else 'no'
    return re.sub(r'[\0-\x1f\x7f]', ' ', str(value))


def connected(place):
    """A connection to a server on a port or a socket, once it listens."""
    family = socket.AF_INET if isinstance(place, int) else socket.AF_UNIX
    for _ in range(3000):
        client = socket.socket(family)
        try:
            client.connect(('127.0.0.1', place) if isinstance(place, int) else place)
            return client
        except OSError:
            client.close()
            time.sleep(0.01)
    raise TimeoutError('no server listens')


if __name__ == '__main__':
    unittest.main()
