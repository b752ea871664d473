#!/usr/bin/env python3
"""Tests of the program where standard streams are closed: python3 tests/test_streams.py

The system gives an opened file the lowest number that is free. So where a program is started with a standard stream closed, a file
that it opens may take that stream's number, and what it prints goes into the file. Here each of the three is closed, alone and
with others, when a database is made, run over, checked, described, copied and served on a port and on a socket: each time the file
is whole after it, with the rows that were acknowledged, and the program tells with its status what it could not print. A stream
may also go to the database itself, which keeps every byte then, or to a pipe that nobody reads. The program is the one in the
environment variable GUARDDB; without it nothing is tried.
"""
import itertools
import os
import shutil
import subprocess
import tempfile
import unittest

from program import IS_FAKE, PATIENCE, PROGRAM, free_port, make_database, run
import guarddb

INPUT, OUTPUT, MESSAGES = 0, 1, 2
STREAMS = (INPUT, OUTPUT, MESSAGES)
CLOSED = [closed for size in (1, 2, 3) for closed in itertools.combinations(STREAMS, size)]
OUTPUT_FAULT = 'guarddb: Output\nguarddb: standard output: closed, or it takes no more\n'
SETUP = 'open r root\nr: CREATE TABLE t (k BIGINT PRIMARY KEY, v TEXT)\n'
SET_UP = 'ok OPEN\nok CREATE TABLE\n'
READS = 'open r root\nr: SELECT * FROM t\n'
PAGES = 64


def start(closed, *words):
    """Starts the program with these streams closed; the others are pipes."""
    def close():
        for stream in closed:
            os.close(stream)
    return subprocess.Popen([PROGRAM, *words], stdin=subprocess.PIPE, stdout=subprocess.PIPE, stderr=subprocess.PIPE, preexec_fn=close)


def ended(program, given=b''):
    """Its status, its output and its messages."""
    try:
        output, messages = program.communicate(given, timeout=PATIENCE)
    finally:
        if program.poll() is None:
            program.kill()
            program.communicate()
    return program.returncode, output.decode(), messages.decode()


def run_closed(closed, *words, given=b''):
    return ended(start(closed, *words), given)


@unittest.skipIf(IS_FAKE, 'GUARDDB names no program')
class Streams(unittest.TestCase):
    def setUp(self):
        self.folder = tempfile.mkdtemp(prefix='guarddb-')
        self.addCleanup(shutil.rmtree, self.folder)

    def path(self, name):
        return os.path.join(self.folder, name)

    def script(self, text):
        with open(self.path('script'), 'w', encoding='utf-8') as file:
            file.write(text)
        return self.path('script')

    def for_each(self, attempt):
        """Makes an attempt with each combination of closed streams, and with the name of a file that is not there."""
        for closed in CLOSED:
            with self.subTest(closed=closed):
                attempt(closed, self.path('db' + ''.join(map(str, closed))))

    def told(self, closed, printed):
        """How a program ends that has this to print: it cannot where standard output is closed."""
        if OUTPUT not in closed:
            return 0, printed, ''
        return 1, '', '' if MESSAGES in closed else OUTPUT_FAULT

    def is_whole(self, path, answer):
        self.assertEqual(os.path.getsize(path), PAGES * 4096)
        self.assertEqual(run('check', path), (0, 'ok CHECK\n', ''))
        self.assertEqual(run('run', path, self.script(READS)), (0, 'ok OPEN\n' + answer, ''))

    def set_up(self, path):
        make_database(path, pages=PAGES)
        self.assertEqual(run('run', path, self.script(SETUP)), (0, SET_UP, ''))

    def test_format(self):
        def attempt(closed, path):
            done = run_closed(closed, 'format', path, '--pages', str(PAGES), '--admin', 'root')
            self.assertEqual(done, self.told(closed, 'ok FORMAT\n'))
            self.assertEqual(run('check', path), (0, 'ok CHECK\n', ''))     # it was made, though that could not be told
            self.assertEqual(run('run', path, self.script(SETUP)), (0, SET_UP, ''))
            self.is_whole(path, 'rows 0\n')
        self.for_each(attempt)

    def only_reads(self, path, closed, printed, *words):
        """A command that prints this, and writes nothing to the database at a path."""
        with open(path, 'rb') as file:
            before = file.read()
        self.assertEqual(run_closed(closed, *words), self.told(closed, printed))
        with open(path, 'rb') as file:
            self.assertEqual(file.read(), before)

    def test_check(self):
        def attempt(closed, path):
            self.set_up(path)
            self.only_reads(path, closed, 'ok CHECK\n', 'check', path)
            self.is_whole(path, 'rows 0\n')
        self.for_each(attempt)

    def test_describe(self):
        def attempt(closed, path):
            self.set_up(path)
            status, text, messages = run('describe', path)
            self.assertEqual((status, messages), (0, ''))
            self.only_reads(path, closed, text, 'describe', path)
        self.for_each(attempt)

    def test_explain(self):
        def attempt(closed, path):
            self.set_up(path)
            words = ('explain', path, 'root', 'SELECT * FROM t')
            status, text, messages = run(*words)
            self.assertEqual((status, messages), (0, ''))
            self.only_reads(path, closed, text, *words)
        self.for_each(attempt)

    def test_copy(self):
        """A copy is made, though that cannot be told."""
        def attempt(closed, path):
            self.set_up(path)
            self.only_reads(path, closed, 'ok COPY\n', 'copy', path, path + '.copy', '--pages', str(PAGES))
            self.is_whole(path, 'rows 0\n')
            self.is_whole(path + '.copy', 'rows 0\n')
            self.assertFalse(os.path.exists(path + '.copy.partial'))
        self.for_each(attempt)

    def test_run(self):
        """No answer is given where the first cannot be printed, and the script ends there: the rows of the others are not acknowledged."""
        def attempt(closed, path):
            self.set_up(path)
            script = self.script("open r root\nr: INSERT INTO t VALUES (1, 'a')\nr: INSERT INTO t VALUES (2, 'b')\n")
            self.assertEqual(run_closed(closed, 'run', path, script), self.told(closed, 'ok OPEN\nok INSERT 1\nok INSERT 1\n'))
            self.is_whole(path, 'rows 0\n' if OUTPUT in closed else 'rows 2\n1\ta\n2\tb\n')
        self.for_each(attempt)

    def test_run_that_ends_badly(self):
        """What a fault or an invalid line is told by goes into no file either."""
        def attempt(closed, path):
            self.set_up(path)
            status, _output, messages = run_closed(closed, 'run', path, self.script('open r root\nno event\n'))
            self.assertEqual(status, 1 if OUTPUT in closed else 2)
            if not {OUTPUT, MESSAGES} & set(closed):
                rule = "not 'open SESSION ROLE', 'SESSION: STATEMENT' or 'close SESSION', with one blank after the colon; a statement is one line"
                self.assertEqual(messages, f'guarddb: line 2\nguarddb: {self.path("script")}: line 2: {rule}\n')
            self.is_whole(path, 'rows 0\n')
        self.for_each(attempt)

    def test_run_in_memory(self):
        def attempt(closed, path):
            script = self.script('open r root\n')
            self.assertEqual(run_closed(closed, 'run', '--memory', 'root', script), self.told(closed, 'ok OPEN\n'))
            self.assertFalse(os.path.exists(path))
        self.for_each(attempt)

    def test_no_words(self):
        """Without words the script comes from standard input: where that is closed, it is an empty one."""
        def attempt(closed, _path):
            if INPUT in closed:
                self.assertEqual(run_closed(closed), (0, '', ''))
            else:
                self.assertEqual(run_closed(closed, given=b'open r root\n'), self.told(closed, 'ok OPEN\n'))
        self.for_each(attempt)

    def serves(self, closed, path, place, *where):
        """One connection is served, where it can be told that the server listens; else the server ends before it takes one."""
        self.set_up(path)
        server = start(closed, 'serve', path, *where, '--connections', '1')
        answer = 'rows 0\n'
        if MESSAGES in closed:
            self.assertEqual(ended(server), (1, '', ''))
        else:
            try:
                with guarddb.connect(place, wait=PATIENCE, timeout=PATIENCE) as connection:
                    self.assertEqual(connection.exchange(guarddb.OPEN, 1, 'root'), 'ok OPEN\n')
                    self.assertEqual(connection.exchange(guarddb.STATEMENT, 1, "INSERT INTO t VALUES (1, 'a')"), 'ok INSERT 1\n')
            finally:
                status, output, messages = ended(server)
            self.assertEqual((status, output), (0, ''))
            self.assertRegex(messages, r'\Aguarddb: listening on .*\nguarddb: done\n\Z')
            answer = 'rows 1\n1\ta\n'
        self.is_whole(path, answer)

    def test_serve_on_a_port(self):
        def attempt(closed, path):
            port = free_port()
            self.serves(closed, path, port, '--port', str(port))
        self.for_each(attempt)

    def test_serve_on_a_socket(self):
        def attempt(closed, path):
            place = self.path('at')
            self.serves(closed, path, place, '--socket', place)
            self.assertFalse(os.path.exists(place))
        self.for_each(attempt)

    def test_output_to_the_database_itself(self):
        """What a command prints would go into the database that it is about: no command begins, and the file keeps every byte."""
        path, link = self.path('db'), self.path('link')
        self.set_up(path)
        os.link(path, link)
        script = self.script("open r root\nr: INSERT INTO t VALUES (1, 'a')\n")
        with open(path, 'rb') as file:
            before = file.read()
        commands = (('run', path, script), ('check', path), ('describe', path), ('explain', path, 'root', 'SELECT * FROM t'),
                    ('journal', path, 'on'), ('run', link, script), ('copy', path, self.path('new'), '--pages', '64'),
                    ('serve', path, '--port', str(free_port()), '--connections', '1'))
        for words, mode, stream in itertools.product(commands, ('ab', 'r+b'), ('stdout', 'stderr')):
            with self.subTest(words=words, mode=mode, stream=stream), open(path, mode) as output:
                streams = {'stdout': subprocess.PIPE, 'stderr': subprocess.PIPE, stream: output}
                done = subprocess.run([PROGRAM, *words], stdin=subprocess.DEVNULL, timeout=30, **streams)
                self.assertEqual(done.returncode, 1)
                if stream == 'stdout':
                    about = f'{words[1]}: standard output or standard error goes to it; send that elsewhere'
                    self.assertEqual(done.stderr.decode(), f'guarddb: Output\nguarddb: {about}\n')
                else:
                    self.assertEqual(done.stdout, b'')      # nor can it be told: what would be told goes into the file
                with open(path, 'rb') as file:
                    self.assertEqual(file.read(), before)
        self.assertFalse(os.path.exists(self.path('new')))
        self.is_whole(path, 'rows 0\n')

    def test_output_to_another_file(self):
        """Of a file beside the database, and of a device that is no plain file, nothing is refused."""
        path = self.path('db')
        self.set_up(path)
        with open(self.path('answers'), 'ab') as output:
            done = subprocess.run([PROGRAM, 'check', path], stdout=output, stderr=output, timeout=30)
        with open(self.path('answers'), encoding='utf-8') as file:
            self.assertEqual((done.returncode, file.read()), (0, 'ok CHECK\n'))
        done = subprocess.run([PROGRAM, 'check', path], stdout=subprocess.DEVNULL, stderr=subprocess.DEVNULL, timeout=30)
        self.assertEqual(done.returncode, 0)

    def test_a_reader_who_leaves(self):
        """A description is not read to its end, as with `describe FILE | head`: that is no fault to be told of. The answers of a
        script, and that a database was checked, are: whoever asks for them wants to know."""
        path = self.path('db')
        self.set_up(path)
        for words in (('describe', path), ('describe', path, 'root'), ('describe', path, '--json'), ('explain', path, 'root', 'SELECT 1'),
                      ('--help',), ('--version',)):
            with self.subTest(words=words):
                self.assertEqual(self.left_alone(*words), (1, ''))
        for words in (('check', path), ('run', path, self.script(READS))):
            with self.subTest(words=words):
                self.assertEqual(self.left_alone(*words), (1, OUTPUT_FAULT))

    def left_alone(self, *words):
        """The status and the messages of a command whose standard output is a pipe that nobody reads."""
        reader, writer = os.pipe()
        os.close(reader)
        with os.fdopen(writer, 'wb') as output:
            done = subprocess.run([PROGRAM, *words], stdin=subprocess.DEVNULL, stdout=output, stderr=subprocess.PIPE, timeout=30)
        return done.returncode, done.stderr.decode()


if __name__ == '__main__':
    unittest.main()
