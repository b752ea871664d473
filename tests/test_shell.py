#!/usr/bin/env python3
"""Tests of clients/shell.py: python3 tests/test_shell.py

The examples of docs/clients.md are played in a terminal, key by key, and the screen is compared with the page. The server is that
of the program in the environment variable GUARDDB, or else fake_guarddb.py.
"""
import contextlib
import fcntl
import io
import os
import pty
import random
import re
import select
import shutil
import signal
import socket
import struct
import subprocess
import sys
import tempfile
import termios
import threading
import time
import unicodedata
import unittest

from program import PROGRAM, TOP, free_port, make_database, served
import guarddb
import shell_display
import shell_help
import shell_hints
from shell import Shell
from shell_place import Place

SHELL = os.path.join(TOP, 'clients', 'shell.py')
PATIENCE = 300      # seconds that a test waits for what is to come, which on a busy machine takes long
LOOKS = 20          # at a program that sleeps at each of them, a tenth of a second apart
CONTROL_C, CONTROL_D = '\x03', '\x04'
NOT_YET = 'No answer yet: a server takes one connection at a time, and another may be open. Ctrl-C gives up.\n'
NOT_KNOWN = 'the connection is closed, and it is not known whether this was carried out.'
NO_END = 'The statement does not end: it is already longer than a frame can carry.'
LETTERS = 'aé日한\u1112\u1161\u11ab🙂\u0301 \'"\\\\\n\r\t\x1b\u202e\u200d-;NUL|'


def environment(folder):
    kept = {name: value for name, value in os.environ.items() if name not in ('COLUMNS', 'LINES', 'PYTHONPATH', 'PYTHONUNBUFFERED')}
    return {**kept, 'GUARDDB': PROGRAM, 'PAGER': '', 'EDITOR': '', 'VISUAL': '', 'GUARDDB_HISTORY': os.path.join(folder, 'history'), 'TERM': 'dumb', 'PS1': '$ ',
            'LC_ALL': 'C.UTF-8', 'TMPDIR': folder, 'BASH_SILENCE_DEPRECATION_WARNING': '1'}


def told(text):
    """A text without the line that tells of a slow answer, as on a busy machine each may be."""
    return text.replace(NOT_YET if isinstance(text, str) else NOT_YET.encode(), text[:0])


def syntax(line, column=0):
    """What is told of a statement of one line that is refused for its syntax, and goes wrong at a column."""
    return shell_help.explained('42601', f'LINE 1: {line}\n{" " * (8 + column)}^')


class Terminal:
    """A program in a terminal of its own, with what it has shown, but for what tells of a slow answer."""
    def __init__(self, words, folder, columns=200, tells_all=False):
        self.told = str if tells_all else told
        self.pid, self.file = pty.fork()
        if self.pid == 0:
            os.chdir(folder)
            os.execvpe(words[0], words, environment(folder))
        fcntl.ioctl(self.file, termios.TIOCSWINSZ, struct.pack('HHHH', 50, columns, 0, 0))
        self.screen = self.bytes = b''
        self.status = None

    def __enter__(self):
        return self

    def __exit__(self, *_):
        if self.status is None:
            os.kill(self.pid, signal.SIGKILL)
            os.waitpid(self.pid, 0)
        os.close(self.file)

    def text(self):
        found = re.sub(rb'\x1b\[\?2004[hl]\r?', b'', self.bytes).decode(errors='replace')
        return self.told(found.replace('\r\n', '\n'))

    def read(self, seconds):
        """Reads what is shown within some time; False at the end."""
        if not select.select([self.file], [], [], seconds)[0]:
            return True
        try:
            piece = os.read(self.file, 65536)
        except OSError:         # what a terminal answers whose other side is closed
            piece = b''
        self.bytes += piece
        return piece != b''

    def interrupt(self):
        """Types Ctrl-C, and again where the program sleeps and nothing came of it: Python forgets one that comes just before it
        reads a key."""
        since, end, asleep = len(self.text()), time.monotonic() + PATIENCE, LOOKS
        while len(self.text()) <= since:
            if asleep == LOOKS:
                self.type(CONTROL_C)
                asleep = 0
            if time.monotonic() > end:
                raise AssertionError(f'nothing comes of Ctrl-C; the screen is\n{self.text()}')
            self.read(0.1)
            asleep = asleep + 1 if self.is_asleep() else 0

    def is_asleep(self):
        """Whether the program that has the terminal waits. One that has something to do and no processor does not."""
        with open(f'/proc/{os.tcgetpgrp(self.file)}/stat', encoding='utf-8') as file:
            return file.read().rpartition(') ')[2].startswith('S')

    def until(self, text, since=0):
        """Reads until the screen ends with a text; what was shown from `since` on."""
        end = time.monotonic() + PATIENCE
        while not self.text().endswith(text) or len(self.text()) < since + len(text):
            if time.monotonic() > end or not self.read(0.1):
                raise AssertionError(f'{text!r} does not come; the screen is\n{self.text()}')
        return self.text()[since:]

    def type(self, keys):
        os.write(self.file, keys.encode())

    def answer(self, keys, prompt):
        """Types keys at a prompt; what is shown from then on to the next prompt, without this one."""
        since = len(self.text())
        self.type(keys)
        return self.until('\n' + prompt, since)[:-len(prompt)]

    def end(self):
        """The exit status, once the program has ended, and the terminal is read to its end."""
        end = time.monotonic() + PATIENCE
        while self.read(0.1):
            if time.monotonic() > end:
                raise AssertionError(f'it does not end; the screen is\n{self.text()}')
        _, status = os.waitpid(self.pid, 0)
        self.status = os.waitstatus_to_exitcode(status)
        return self.status


class Texts(unittest.TestCase):
    """What is typed is cut, and what is answered is laid out."""

    def test_statements_end_at_semicolons(self):
        for text, expected in [
            ('', ['']), (';', ['', '']), ('SELECT 1; SELECT 2', ['SELECT 1', ' SELECT 2']),
            ("SELECT ';'';' ;x", ["SELECT ';'';' ", 'x']), ('SELECT "a;""b;"; ', ['SELECT "a;""b;"', ' ']),
            ('SELECT 1 -- a; \'\n;2', ["SELECT 1 -- a; '\n", '2']), ('SELECT 1 -- a;\r;2', ['SELECT 1 -- a;\r', '2']),
            ("SELECT '--;\n'; 2", ["SELECT '--;\n'", ' 2']), ("'a;", ["'a;"]), ('a - -- b;', ['a - -- b;']), ('((;', ['((', '']),
        ]:
            with self.subTest(text):
                self.assertEqual(shell_display.split(text), expected)

    def test_quotes_that_are_open(self):
        for text, expected in [
            ('', ''), ("'", "'"), ("''", ''), ("'''", "'"), ("''''", ''), ('"', '"'), ("'\"", "'"), ("\"'\"'", "'"), ("-- '", ''),
            ("-- '\n'", "'"), ("' -- '", ''), ("'a' ", ''), ("'a\n", "'"), ("'a' 'b", "'"),
        ]:
            with self.subTest(text):
                self.assertEqual(shell_display.open_quote(text), expected)

    def test_commands_at_the_end_of_a_text(self):
        for text, expected in [
            ('', ''), ('SELECT 1', ''), ('\\q', '\\q'), (' \\c ann', '\\c ann'), ('SELECT 1 \\g', '\\g'), ('1\\gx ;', '\\gx ;'),
            ("'\\q'", ''), ("'\\q", ''), ('"\\"\\p', '\\p'), ('-- \\q', ''), ("-- '\n\\r", '\\r'), ('1; \\c "a;"', '\\c "a;"'),
            ('\\i a\\b', '\\i a\\b'), ("''\\\\", '\\\\'),
        ]:
            with self.subTest(text):
                self.assertEqual(text[shell_display.command_at(text):], expected)

    def test_random_texts_are_cut(self):
        """What is within quotes or a comment ends no statement and begins no command."""
        generator = random.Random(2)
        parts = ["'a;'", "'it''s \\ -- ;'", '";\\"', '"a"";"', "-- ; \\ '\n", '--\\"\r', "'\n;\n'", 'SELECT', 'x', '-', "''", '""']
        for _ in range(5000):
            statements = [' '.join(generator.choices(parts, k=generator.randrange(5))) + ' '
                          for _ in range(generator.randrange(1, 5))]
            command = generator.choice(['', '\\q', "\\c 'a;", '\\i -- ;'])
            text = ';'.join(statements)
            with self.subTest(text + command):
                self.assertEqual(shell_display.command_at(text + command), len(text))
                self.assertEqual(shell_display.split(text), statements)

    def test_lines_are_taken_as_one_text(self):
        """A shell that is given a text by lines runs the statements of the text, and keeps its rest, but for blanks before each."""
        generator = random.Random(4)

        def begun(text):
            return re.sub(r'\A(--[^\n\r]*|[ \n\r])+', '', text)
        for _ in range(5000):
            text = ''.join(generator.choices(["'", '"', ';', '\n', '\n', '--', '\r', 'x', ' ', "''"], k=generator.randrange(30))) + '\n'
            taker, ran = Shell(None, False, False), []
            taker.run = ran.append
            for line in text.split('\n')[:-1]:
                taker.take(line + '\n')
            *statements, rest = shell_display.split(text)
            with self.subTest(text):
                self.assertEqual([*map(begun, ran)], [*map(begun, statements)])
                self.assertEqual((begun(taker.text), taker.quote), (begun(rest), shell_display.open_quote(text)))

    def test_a_statement_of_many_lines(self):
        """Each line is cut once."""
        taker, begin = Shell(None, False, False), time.process_time()
        for _ in range(20000):
            taker.take('+ 1\n')
        self.assertEqual(len(taker.text), 80000)
        self.assertLess(time.process_time() - begin, 10)

    def test_heads(self):
        for statement, expected in [
            ('SELECT k, note FROM notes', ['k', 'note']), ('select * from t', None), ('SELECT count(*) FROM t', ['count(*)']),
            ("SELECT 1 + (2 * 3), 'a, FROM'", ['1 + (2 * 3)', "'a, FROM'"]), ('SELECT k FROM t ORDER BY k, x', ['k']),
            ('-- SELECT x\nSELECT k -- FROM\n, "a,b" FROM t', ['k', '"a,b"']), ('SELECT 1 -- the end', ['1']),
            ('SELECT (k)FROM t', ['(k)']), ('SELECT ' + 'x' * 33, ['x' * 31 + '…']), ('SELECT k\n  +\t1', ['k + 1']),
        ]:
            with self.subTest(statement):
                self.assertEqual(shell_display.heads(statement), expected)

    def test_fields(self):
        for value, expected in [
            (None, 'NULL'), ('NULL', "'NULL'"), ('null', 'null'), ('', "''"), (' ', "' '"), (' a', "' a'"), ('a ', "'a '"),
            ("it's", "it's"), ("'a", "'''a'"), ('\\N', '\\\\N'), ('a\nb', 'a\\nb'), ('\\n', '\\\\n'), ('\x1b[2J', '\\x1b[2J'),
            ('\u202eabc', '\\u202eabc'), ('\x7f', '\\x7f'), ('\x9b', '\\x9b'), ('\u2028', "'\\u2028'"), ('日本', '日本'),
            ('a | b', 'a | b'), ('-5', '-5'),
        ]:
            with self.subTest(value):
                self.assertEqual(shell_display.field(value), expected)

    def test_no_two_fields_look_alike(self):
        generator, seen = random.Random(1), {}
        for _ in range(20000):
            value = ''.join(generator.choice(LETTERS) for _ in range(generator.randrange(6)))
            value = generator.choice([value] * 9 + [None, 'NULL', "'NULL'", "''"])
            spelled = shell_display.field(value)
            self.assertEqual(seen.setdefault(spelled, value), value)
            self.assertFalse([letter for letter in spelled if unicodedata.category(letter) in ('Cc', 'Cf', 'Zl', 'Zp')], spelled)
        self.assertGreater(len(seen), 5000)

    def test_widths(self):
        for text, columns in [('', 0), ('abc', 3), ('é', 1), ('e\u0301', 1), ('日本', 4), ('ｱ', 1), ('Ａ', 2), ('🙂', 2),
                              ('\u1112\u1161\u11ab', 2)]:
            with self.subTest(text):
                self.assertEqual(shell_display.width(text), columns)

    def test_columns(self):
        rows = [['1', 'é', None], ['-20', '日本', 'x'], [None, 'NULL', '3']]
        self.assertEqual(shell_display.in_columns(rows, ['k', 'a long name', 'c']), [
            '    k | a long name | c',
            '------+-------------+------',
            '    1 | é           | NULL',
            '  -20 | 日本        | x',
            " NULL | 'NULL'      | 3"])
        self.assertEqual(shell_display.in_columns([['1'], ['22']], None), ['  1', ' 22'])
        self.assertEqual(shell_display.in_columns([], ['k', 'x']), [' k | x', '---+---'])
        self.assertEqual(shell_display.in_columns([], None), [])

    def test_lines(self):
        rows = [['1', 'two\nlines'], [None, '\\n']]
        self.assertEqual(list(shell_display.in_lines(rows, ['k', 'note'])), [
            '-[ 1 ]--------', 'k    | 1', 'note | two\\n\n     | lines', '-[ 2 ]--------', 'k    | NULL', 'note | \\\\n'])
        self.assertEqual(list(shell_display.in_lines([['x']], None)), ['-[ 1 ]-----', '1 | x'])
        self.assertEqual(list(shell_display.in_lines([], ['k'])), [])

    def test_the_grammar_is_that_of_the_page(self):
        with open(os.path.join(TOP, 'docs', 'sql.md'), encoding='utf-8') as file:
            blocks = re.findall(r'```\n(.*?)```', file.read(), re.S)
        at = blocks.index(shell_help.GRAMMAR[1:])
        self.assertEqual(blocks[at + 1], shell_help.PARTS[1:])

    def test_forms(self):
        self.assertEqual(shell_help.forms(['drop']), 'DROP TABLE name\nDROP POLICY name ON name\nDROP ROLE name')
        self.assertEqual(shell_help.forms(['select']).split('\n')[3:5], [
            'list       = "*" | expr {"," expr}', 'source     = tables [WHERE expr] [ORDER BY key {"," key}] [LIMIT number]'])
        for words in ([], ['nothing']):
            whole = shell_help.GRAMMAR + shell_help.PARTS + shell_help.EXPRESSIONS
            self.assertEqual(shell_help.forms(words), whole.strip('\n'))
        parts = re.findall(r'^(\w+) +=', shell_help.forms(['select']), re.M)
        self.assertEqual(parts, ['list', 'source', 'tables', 'table', 'join', 'key', 'expr', 'term', 'comparison', 'operand'])

    def test_expressions_are_those_of_the_page(self):
        """Their operators and operands, by the words and signs of both."""
        with open(os.path.join(TOP, 'docs', 'sql.md'), encoding='utf-8') as file:
            page = re.search(r'\n## Expressions\n(.*?)\n- ', file.read(), re.S)[1]
        table = re.findall(r'^\| (`.*`) \|', page, re.M)
        named = ' '.join(re.findall('`(.*?)`', ' '.join(table))).split()
        operands = re.search('The operands are (.*?)One of these', page, re.S)[1]
        found = re.findall(r'[A-Z_]{2,}|"([^"a-z().]+)"', shell_help.EXPRESSIONS)
        words = re.findall('[A-Z_]{2,}', shell_help.EXPRESSIONS)
        self.assertEqual({*words, *filter(None, found)}, {*named, *re.findall('`([A-Z_]+)`', operands)})

    def test_keywords_are_those_of_the_program(self):
        with open(os.path.join(TOP, 'crates', 'sql_lexer', 'src', 'word.rt'), encoding='utf-8') as file:
            words = re.findall(r'\bb"([a-z_]+)"', file.read())
        self.assertEqual([word.lower() for word in shell_help.KEYWORDS], sorted(words))

    def test_what_is_left_out_is_that_of_the_page(self):
        """Each line of the page that has words of its own is here under its topic, with these words."""
        with open(os.path.join(TOP, 'docs', 'sql.md'), encoding='utf-8') as file:
            part = re.search(r'\n## What is left out\n(.*?)\n## ', file.read(), re.S)[1]
        expected = {}
        for topic, rows in re.findall(r'^\*\*(.*?)\*\*\n\n(.*?)\n(?=\n|\Z)', part, re.M | re.S):
            for row in re.findall(r'^\| (?!Left out|---)(.*) \|$', rows, re.M):
                line, example = re.split(r'(?<!\\) \| ', row, maxsplit=1)
                words = re.findall(r'\b[A-Z_]{2,}\b', line.replace('`', '') + ' ' + re.sub('`[^`]*`', '', example))
                expected.setdefault(topic, {})[line] = {*words} - {*shell_help.KEYWORDS}
        found = shell_hints.topics()
        self.assertEqual([*found], [*expected])
        for topic, lines in found.items():
            with self.subTest(topic):
                named = {line: words for line, words in expected[topic].items() if words}
                self.assertLessEqual({*named}, {line for line, _ in lines})
                for line, words in lines:
                    self.assertLessEqual(expected[topic][line], {*words}, line)

    def test_what_is_left_out(self):
        for statement, lines in [
            ('SELECT x FROM t WHERE x in (1)', ['IN, BETWEEN, LIKE, ILIKE, regular expressions']), ("SELECT 'IN', \"in\" -- in", []),
            ('SELECT sum(x) FROM t GROUP BY o', ['aggregates, but for `count(*)` as the whole list', 'DISTINCT, GROUP BY, HAVING, windows']),
            ('CREATE TABLE u (k INT DEFAULT 5)', ['other types', 'other constraints, and names for them']),
            ('INSERT INTO t VALUES (DEFAULT)', ['DEFAULT']), ('CREATE USER ann', ['USER and GROUP']), ('COMIT', []), ('', []),
        ]:
            with self.subTest(statement):
                self.assertEqual(shell_hints.left_out(statement), lines)

    def test_next_words(self):
        for words, expected in [(['create'], ['POLICY', 'ROLE', 'TABLE']), (['ALTER'], ['TABLE']), (['drop', 'role'], []),
                                (['nothing'], [])]:
            self.assertEqual(shell_help.next_words(words), expected)
        self.assertEqual(len(shell_help.next_words([])), 15)

    def test_advice(self):
        """What to do is said of each refusal but two: this shell numbers sessions and frames itself."""
        with open(os.path.join(TOP, 'docs', 'sql.md'), encoding='utf-8') as file:
            refusals = re.search(r'\| Refusal \| Meaning \|\n(.*?)\n\n', file.read(), re.S)[1]
        self.assertEqual({*shell_help.ADVICE, '08002', '08P01'}, set(re.findall(r'^\| (\w{5}) \|', refusals, re.M)))


    def test_messages_that_come_in_pieces(self):
        """What a server tells is looked at a line at a time, however it comes."""
        place, err = Place('5433', 'guarddb', None), io.StringIO()
        with contextlib.redirect_stderr(err):
            for piece in ('guarddb: list', 'ening on /tmp/a\nguarddb: no', ' memory\nguarddb: In', 'Use'):
                place.messages = io.StringIO(piece)
                place.tell_messages()
            self.assertEqual(err.getvalue(), 'guarddb: no memory\n')
            place.messages = io.StringIO()
            place.tell_messages(at_end=True)
        self.assertEqual(err.getvalue(), 'guarddb: no memory\nguarddb: InUse\n')


class InAFolder(unittest.TestCase):
    """A folder, in which `make` makes a database."""

    made = {}       # the bytes of databases, by the statements that made them

    def setUp(self):
        self.folder = tempfile.mkdtemp(prefix='guarddb-')
        self.addCleanup(shutil.rmtree, self.folder)
        self.path = os.path.join(self.folder, 'shop.db')

    def make(self, *statements):
        if statements not in self.made:
            make_database(self.path)
            done = self.run_shell('root', *statements)
            self.assertEqual(done.returncode, 0, done.stderr)
            with open(self.path, 'rb') as file:
                self.made[statements] = file.read()
        with open(self.path, 'wb') as file:
            file.write(self.made[statements])

    def words(self, *words):
        return [sys.executable, SHELL, *words]

    def run_shell(self, role, *texts, place=None, **streams):
        """Runs the shell without a terminal, over the database or another place, with a text for each -c."""
        words = [place or self.path] + [role] * bool(role) + [word for text in texts for word in ('-c', text)]
        streams = {'stdin': subprocess.DEVNULL, 'stdout': subprocess.PIPE, 'stderr': subprocess.PIPE, **streams}
        if 'input' in streams:
            del streams['stdin']
        done = subprocess.run(self.words(*words), encoding='utf-8', env=environment(self.folder), cwd=self.folder,
                              timeout=PATIENCE, **streams)
        done.stderr = done.stderr and told(done.stderr)
        return done

    def tells(self, done, status, out, err):
        self.assertEqual((done.returncode, done.stdout, done.stderr and told(done.stderr)), (status, out, err))

    def terminal(self, *words, **more):
        return Terminal(self.words(*words), self.folder, **more)

    def is_left_alone(self):
        """No folder of a server is left, and the file is not in use."""
        self.assertEqual([name for name in os.listdir(self.folder) if name.startswith('guarddb-')], [])
        self.assertEqual(self.run_shell('root', 'SELECT 1').returncode, 0)


class Pages(InAFolder):
    """The examples of docs/clients.md, in one terminal."""

    PROMPT = re.compile(r'''(\$ |\w*[-='"][*!]?> )''')

    def blocks(self):
        with open(os.path.join(TOP, 'docs', 'clients.md'), encoding='utf-8') as file:
            found = re.findall(r'```\n(.*?)```', file.read(), re.S)
        return [block for block in found if self.PROMPT.match(block)]

    def test_the_examples(self):
        """Each line that begins with a prompt is typed when this prompt is there, and then the screen is the page."""
        os.symlink(os.path.join(TOP, 'clients'), os.path.join(self.folder, 'clients'))
        with open(os.path.join(self.folder, 'guarddb'), 'w', encoding='utf-8') as file:
            file.write(f'#!/bin/sh\nexec {PROGRAM} "$@"\n')
            os.chmod(file.name, 0o755)
        page = ''.join(self.blocks())
        self.assertGreater(page.count('\n'), 100)
        with Terminal(['bash', '--norc', '--noprofile'], self.folder) as terminal:
            since = 0
            for line in page.split('\n'):
                prompt = self.PROMPT.match(line)
                if prompt:
                    terminal.until('\n' * bool(since) + prompt[0], since)
                    since = len(terminal.text())
                    self.type(terminal, line[prompt.end():])
            terminal.until('\n$ ', since)
            self.assertEqual(terminal.text()[:-len('$ ')], page)

    def type(self, terminal, keys):
        if keys.endswith('^C'):
            terminal.type(keys[:-2])
            terminal.until(keys[:-2])       # Ctrl-C throws away what was not read
            terminal.interrupt()
        else:
            terminal.type(keys + '\r')


def wait_for(place):
    """Until a server listens at a place, without a connection to it, since that would be its last."""
    table, entry = ('/proc/net/unix', place + '\n') if isinstance(place, str) else ('/proc/net/tcp', f':{place:04X} ')
    end = time.monotonic() + PATIENCE
    while time.monotonic() < end:
        with open(table, encoding='utf-8') as file:
            if entry in file.read():
                return
        time.sleep(0.02)
    raise AssertionError(f'no server listens at {place}')


class Batch(InAFolder):
    """Without a terminal: what is run, what is shown, and the exit status."""

    def setUp(self):
        super().setUp()
        self.make('CREATE TABLE t (k BIGINT PRIMARY KEY, o TEXT)', "INSERT INTO t VALUES (1, 'a'), (2, NULL)")

    def run_script(self, script, place=None):
        done = subprocess.run(self.words(place or self.path, 'root'), input=script, capture_output=True,
                              env=environment(self.folder), timeout=PATIENCE)
        return done.returncode, done.stdout.decode(), told(done.stderr.decode())

    def test_scripts(self):
        one, in_lines = ' 1\n---\n 1\n(1 row)\n', '-[ 1 ]-----\n1 | 1\n(1 row)\n'
        selec, selected = syntax('SELEC'), syntax('SELECT', 6)
        scripts = [
            (b'', (0, '', '')), (b'\n-- nothing\n', (0, '', '')), (b';;', (0, '', '')), (b'SELECT 1', (0, one, '')),
            (b'SELECT 1;', (0, one, '')), (b'SELECT 1 -- a comment', (0, one, '')), (b'\r\nSELECT\r\n1;\r\n', (0, one, '')),
            (b'SELECT 1;\nSELEC;\nSELECT 1', (3, one, f'line 2: {selec}\n')), (b"SELECT 1;\n'", (3, one, f'line 2: {syntax(chr(39))}\n')),
            (b'SELECT 1; BEGIN; SELEC; SELECT 1', (3, one + 'BEGIN\n', f'line 1: {selec}\n')),
            (b'SELECT 1;\n\\q\nSELEC', (0, one, '')), (b'SELECT\n\\g\nSELECT 1', (3, '', f'line 2: {selected}\n')),
            (b'SELEC\n\\r\nSELECT 1', (0, one, '')), (b'SELECT\n\\p\n1', (0, 'SELECT\n' + one, '')),
            (b'SELECT 1;\n\xff;', (1, one, 'line 2: The text is not UTF-8.\n')), (b'SELECT 1\0', (3, '', 'line 1: ' + syntax(r'SELECT 1\x00', 8) + '\n')),
            (b'\\nothing', (3, '', 'line 1: Invalid command \\nothing; \\? lists the commands.\n')),
            (b'\\c', (3, '', 'line 1: Wrong arguments for \\c; \\? shows them.\n')),
            (b'\\', (3, '', 'line 1: Invalid command \\; \\? lists the commands.\n')),
            (b'\\i nothing', (1, '', 'line 1: nothing cannot be read: No such file or directory.\n')),
            (b'SELECT 1 \\g\n', (0, one, '')), (b'SELECT\\p\n1;', (0, 'SELECT\n' + one, '')),
            (b'SELECT 1; \\q\nSELEC', (0, one, '')), (b'SELEC; \\q', (3, '', f'line 1: {selec}\n')),
            (b'SELECT\\gx', (3, '', f'line 1: {selected}\n')), (b'SELECT 1\\gx', (0, in_lines, '')),
            (b'SELECT 1\\gx\nSELECT 1', (0, in_lines + one, '')),
            (b'\\g', (3, '', 'line 1: Nothing is typed so far.\n')), (b'\\p\n', (0, 'Nothing is typed so far.\n', '')),
            (b'\\timing maybe', (3, '', 'line 1: \\timing takes on or off.\n')), (b'quit', (3, '', 'line 1: ' + syntax('quit') + '\n')),
            (b'\xef\xbb\xbfSELECT 1;\n', (0, one, '')), (b'\xef\xbb\xbf', (0, '', '')),
            (b'SELECT 1;\n\xef\xbb\xbfSELECT 1;\n', (3, one, 'line 2: ' + syntax(r'\ufeffSELECT 1') + '\n')),
            (b"'" + (b'x' * 99 + b'\n') * 2000, (3, '', f'line 1311: {NO_END}\n')),
            (b'SELECT ' + b'(' * 131068, (3, '', f'line 1: {NO_END}\n')),
            (b'SELECT ' + b'\xc3\xa9' * 65534, (3, '', 'line 1: Not sent: 131075 bytes are more than a frame carries.\n')),
        ]
        with served(self.path, connections=len(scripts)) as port:
            wait_for(port)
            for script, expected in scripts:
                with self.subTest(script[:40]):
                    self.assertEqual(self.run_script(script, str(port)), expected)

    def test_words_that_are_aliases(self):
        """The answer is the server's, and a warning says what a word was taken for."""
        self.run_shell('root', 'CREATE TABLE u (k BIGINT PRIMARY KEY)')
        text_told = 'WARNING:  LEFT is taken for an alias of the table t: there are no outer joins, and this one is an inner join\n'
        self.tells(self.run_shell('root', 'SELECT o FROM t LEFT JOIN u ON true'), 0, ' o\n---\n(0 rows)\n', text_told)
        refused = shell_help.explained('42703') + '\n'
        self.tells(self.run_shell('root', 'SELECT t.o FROM t LEFT JOIN u ON true'), 3, '', text_told + refused)
        self.tells(self.run_shell('root', 'SELECT k FROM t AS left WHERE left.k = 1'), 0, ' k\n---\n 1\n(1 row)\n', '')

    def test_words_that_are_left_out(self):
        lines = '\nLEFT OUT:  IN, BETWEEN, LIKE, ILIKE, regular expressions\n'
        self.tells(self.run_shell('root', 'SELECT k FROM t WHERE k IN (1)'), 3, '', syntax('SELECT k FROM t WHERE k IN (1)', 24) + lines)
        self.tells(self.run_shell('root', 'SELECT likes FROM t'), 3, '', shell_help.explained('42703') + '\n')

    def test_a_line_that_begins_with_a_dot(self):
        text_told = 'Commands begin with \\; \\? lists them.\n'
        self.assertEqual(self.run_script(b'SELECT 1;\n.tables\nSELECT 2;'), (3, ' 1\n---\n 1\n(1 row)\n', f'line 2: {text_told}'))
        with self.terminal(self.path, 'root') as terminal:
            terminal.until('root=> ')
            self.assertEqual(terminal.answer('.schema\r', 'root=> '), f'.schema\n{text_told}')
            self.assertIn('(1 row)', terminal.answer('SELECT 1;\r', 'root=> '))
            terminal.type(CONTROL_D)
            self.assertEqual(terminal.end(), 0)

    def test_an_open_block_is_rolled_back_at_the_end(self):
        lost = 'WARNING:  the open block of root is rolled back\n'
        for end in (b'', b'; SELEC\\r', b'; \\q\nCOMMIT', b'; \\close'):
            with self.subTest(end):
                self.assertEqual(self.run_script(b'BEGIN; DELETE FROM t' + end), (0, 'BEGIN\nDELETE 2\n', lost))
        self.assertEqual(self.run_script(b'SELECT k FROM t'), (0, ' k\n---\n 1\n 2\n(2 rows)\n', ''))

    def test_sessions(self):
        self.tells(self.run_shell(None, 'SELECT 1'), 3, '', 'No session is open: \\c ROLE opens one.\n')
        texts = '\\c root', 'BEGIN; DELETE FROM t', '\\c two root', 'SELECT k FROM t', '\\c root\nROLLBACK'
        self.tells(self.run_shell(None, *texts), 0, 'BEGIN\nDELETE 2\n k\n---\n 1\n 2\n(2 rows)\nROLLBACK\n', '')
        self.tells(self.run_shell('root', 'CREATE ROLE "a b" LOGIN', '\\c "a b";', 'SELECT current_user'), 0,
                   'CREATE ROLE\n current_user\n--------------\n a b\n(1 row)\n', '')
        self.tells(self.run_shell('root', '\\c root ann'), 3, '', 'The session root belongs to the role root.\n')
        self.tells(self.run_shell('root', '\\close two'), 3, '', 'There is no session two.\n')
        self.tells(self.run_shell('root', '\\close', '\\close'), 3, '', 'No session is open: \\c ROLE opens one.\n')
        self.tells(self.run_shell('nobody', 'SELECT 1'), 3, '', shell_help.explained('28000') + '\n')

    def test_files_of_statements(self):
        def write(name, text):
            with open(os.path.join(self.folder, name), 'w', encoding='utf-8') as file:
                file.write(text)
        write('a.sql', 'SELECT k\nFROM t;\n\\q\nSELEC')
        write('b.sql', 'BEGIN;\n\n\\i c.sql\nCOMMIT;')
        write('c.sql', '\nSELEC')
        write('d.sql', '\\i d.sql')
        self.tells(self.run_shell('root', '\\i a.sql', 'COMMIT'), 0, ' k\n---\n 1\n 2\n(2 rows)\nCOMMIT\n',
                   'WARNING:  ' + guarddb.described('25P01') + '\n')
        text_told = f"b.sql: line 3: c.sql: line 2: {syntax('SELEC')}\n"
        self.tells(self.run_shell('root', '\\i b.sql'), 3, 'BEGIN\n', text_told)
        done = self.run_shell('root', '\\i d.sql')
        self.assertEqual((done.returncode, done.stdout), (1, ''))
        self.assertNotIn('Traceback', done.stderr)

    def test_files_and_texts_in_their_order(self):
        for name, text in [('a.sql', b'\xef\xbb\xbfSELECT 1;\n\\q\nSELEC'), ('b.sql', b'\nSELEC;')]:
            with open(os.path.join(self.folder, name), 'wb') as file:
                file.write(text)
        selec = syntax('SELEC')
        for words, given, status, out, err in [
            (['-f', 'a.sql'], '', 0, '1\n', ''), (['-c', 'SELECT 2', '-f', 'a.sql', '-c', 'SELECT 3'], '', 0, '2\n1\n3\n', ''),
            (['-f', '-', '-c', 'SELECT 3'], 'SELECT 4', 0, '4\n3\n', ''), (['-f', '-'], 'SELEC', 3, '', f'line 1: {selec}\n'),
            (['-f', 'a.sql', '-f', 'b.sql', '-f', 'a.sql'], '', 3, '1\n', f'b.sql: line 2: {selec}\n'),
            (['-f', 'none'], 'SELECT 1', 1, '', 'none cannot be read: No such file or directory.\n'),
            (['-f', '.'], 'SELECT 1', 1, '', '. cannot be read: Is a directory.\n'),
        ]:
            with self.subTest(words):
                done = subprocess.run(self.words(self.path, '-A', 'root', *words), input=given, capture_output=True,
                                      encoding='utf-8', env=environment(self.folder), cwd=self.folder, timeout=PATIENCE)
                self.tells(done, status, out, err)

    def test_times(self):
        done = self.run_shell('root', '\\timing', 'BEGIN', '\\timing off', 'COMMIT')
        self.assertRegex(done.stdout, r'^Timing is on\.\nBEGIN\nTime: \d+\.\d{3} ms\nTiming is off\.\nCOMMIT\n$')
        self.assertEqual(self.run_shell('root', '\\timing on', 'SELEC').stdout, 'Timing is on.\n')

    def test_a_file_in_a_statement(self):
        """Its text is one of its own, and what was typed before it is still there."""
        with open(os.path.join(self.folder, 'a.sql'), 'w', encoding='utf-8') as file:
            file.write('SELECT 2')
        self.tells(self.run_shell('root', 'SELECT\n\\i a.sql\n1'), 0, ' 2\n---\n 2\n(1 row)\n 1\n---\n 1\n(1 row)\n', '')

    def test_blocks_are_followed(self):
        """After each statement of a block `\\conninfo` says what its session is in."""
        self.run_shell('root', 'CREATE TABLE u (k BIGINT PRIMARY KEY)')
        with served(self.path) as port:
            wait_for(port)
            shell = subprocess.Popen(self.words(str(port), 'root'), env=environment(self.folder), stdin=subprocess.PIPE,
                                     stdout=subprocess.PIPE, stderr=subprocess.DEVNULL, encoding='utf-8')
            script = ['COMMIT', 'BEGIN', 'BEGIN', 'INSERT INTO u VALUES (1)', 'COMMIT', 'START TRANSACTION', 'ROLLBACK']
            found = shell.communicate(''.join(f'{statement};\n\\conninfo\n' for statement in script))[0]
        lines = [line for line in found.split('\n') if line.startswith('* root')]
        inside, outside = '* root, for the role root, in a block', '* root, for the role root'
        self.assertEqual(lines, [outside, inside, inside, inside, outside, inside, outside])

    def test_raw_rows(self):
        done = subprocess.run(self.words('-A', self.path, 'root', '-c', "INSERT INTO t VALUES (3, 'a\tb\\'); SELECT * FROM t",
                                         '-c', 'SELECT k FROM t WHERE k = 9', '-c', "SELECT ''"),
                              capture_output=True, env=environment(self.folder), timeout=PATIENCE)
        self.assertEqual((done.returncode, done.stdout, told(done.stderr)), (0, b'1\ta\n2\t\\N\n3\ta\\tb\\\\\n\n', b''))

    def test_other_words(self):
        for words in ([], ['root', '-c'], ['--timeout', '0'], ['--timeout', 'nan'], ['a', 'b'], ['--nothing']):
            with self.subTest(words):
                done = subprocess.run(self.words(*[self.path] * bool(words), *words), capture_output=True,
                                      env=environment(self.folder), timeout=PATIENCE)
                self.assertEqual((done.returncode, done.stdout), (1, b''))
                self.assertTrue(done.stderr.startswith(b'usage: shell.py '), done.stderr)

    def test_a_locale_without_the_letters(self):
        words, variables = self.words(self.path, 'root', '-c', "SELECT '\u20ac'"), environment(self.folder)
        done = subprocess.run(words, capture_output=True, env={**variables, 'PYTHONIOENCODING': 'latin-1'}, timeout=PATIENCE)
        self.assertEqual((done.returncode, done.stdout), (0, b" '\\u20ac'\n-----\n \\u20ac\n(1 row)\n"))


class Lists(InAFolder):
    """What is told of a file: lists, heads of columns, and names."""

    def setUp(self):
        super().setUp()
        self.make('CREATE ROLE ann LOGIN', 'CREATE ROLE team', 'GRANT team TO ann WITH ADMIN OPTION',
                  'CREATE TABLE notes (tenant TEXT, k BIGINT, "A b" BOOLEAN NOT NULL, PRIMARY KEY (tenant, k))', 'GRANT UPDATE (k) ON notes TO PUBLIC',
                  "CREATE POLICY own ON notes TO ann, team USING (tenant = '\n' AND k > 1)", "INSERT INTO notes VALUES ('x', 1, true)",
                  'CREATE POLICY new ON notes AS RESTRICTIVE FOR INSERT WITH CHECK ("A b")', 'ALTER TABLE notes ENABLE ROW LEVEL SECURITY')

    TABLES = ' table | owner | row security | forced\n-------+-------+--------------+--------\n notes | root  | yes          | no\n'
    COLUMNS = (' column | type    | not null | key\n--------+---------+----------+-----\n tenant | TEXT    | yes      | 1\n'
               ' k      | BIGINT  | yes      | 2\n A b    | BOOLEAN | yes      | -\n')
    POLICIES = ('Row security: on\nPolicies:\n  new: RESTRICTIVE, FOR INSERT TO PUBLIC\n    WITH CHECK ("A b")\n'
                "  own: PERMISSIVE, FOR ALL TO ann, team\n    USING (tenant = '\\n' AND k > 1)\n")
    ROLES = (' role | attributes       | member of\n------+------------------+------------------------\n'
             ' ann  | login            | team with admin option\n root | superuser, login | -\n team | -                | -\n')

    def test_lists(self):
        for text in ('\\d', '\\dt', '\\dt+ notes', '\\dt NOTES;'):
            self.tells(self.run_shell('root', text), 0, self.TABLES, '')
        for text in ('\\d notes', '\\d+ "notes"'):
            self.tells(self.run_shell('root', text), 0, 'Table notes, of the role root\n' + self.COLUMNS + self.POLICIES, '')
        self.tells(self.run_shell('root', '\\du'), 0, self.ROLES, '')
        self.assertEqual(len(self.run_shell('root', '\\du team').stdout.split('\n')), 4)
        privileges = self.run_shell('root', '\\dp', '\\z notes').stdout
        self.assertEqual(privileges.count(' notes | k      | UPDATE    | PUBLIC | root | no\n'), 2)
        self.assertEqual(privileges.count(' notes | -      | DELETE    | root   | -    | yes\n'), 2)
        self.tells(self.run_shell('root', '\\d other'), 3, '', 'There is no table other.\n')
        self.tells(self.run_shell('root', '\\df'), 3, '', 'A server has one database, and no schemas, views or functions: '
                   '\\dt lists its tables, \\du its roles, \\dp the privileges.\n')
        self.is_left_alone()

    def test_before_a_session_is_open(self):
        self.tells(self.run_shell(None, '\\dt'), 0, self.TABLES, '')

    def test_a_server_that_was_not_started_here(self):
        text_told = ("A served database cannot be described yet: 'guarddb describe FILE' tells of a file that no server has open, and so does this "
                "command in a shell over the file.\n")
        with served(self.path, connections=2) as port:
            wait_for(port)
            self.tells(self.run_shell('root', '\\d', place=str(port)), 3, '', text_told)
            self.tells(self.run_shell('root', 'SELECT * FROM notes', place=str(port)), 0, ' x | 1 | t\n(1 row)\n', '')

    def test_what_is_defined_in_the_shell(self):
        """It is told once it is committed, and a line says that what an open block defines is not."""
        made = self.run_shell('root', 'CREATE TABLE a (k BIGINT PRIMARY KEY)', '\\dt a', 'DROP TABLE a', '\\dt').stdout
        self.assertIn(' a     | root  | no           | no\n', made)
        self.assertTrue(made.endswith('DROP TABLE\n' + self.TABLES), made)
        texts = 'BEGIN', 'CREATE TABLE a (k BIGINT PRIMARY KEY)', '\\dt', 'SELECT * FROM a', 'COMMIT', 'SELECT * FROM a'
        self.tells(self.run_shell('root', *texts), 0, f'BEGIN\nCREATE TABLE\n{self.TABLES}What the open block defines is not told.\n(0 rows)\n'
                   'COMMIT\n k\n---\n(0 rows)\n', '')
        texts = 'BEGIN', 'DROP TABLE a', 'CREATE TABLE a (x TEXT PRIMARY KEY)', 'SELECT * FROM a', 'ROLLBACK', 'SELECT * FROM a'
        self.assertTrue(self.run_shell('root', *texts).stdout.endswith('\n(0 rows)\nROLLBACK\n k\n---\n(0 rows)\n'))

    def test_heads(self):
        self.tells(self.run_shell('root', 'SELECT * FROM notes n, notes'), 0, ' tenant | k | A b | tenant | k | A b\n'
                   '--------+---+-----+--------+---+-----\n x      | 1 | t   | x      | 1 | t\n(1 row)\n', '')

    def test_a_file_that_cannot_be_described(self):
        program = os.path.join(self.folder, 'program')
        with open(program, 'w', encoding='utf-8') as file:
            file.write(f'#!/bin/sh\n[ "$1" != describe ] || {{ echo "guarddb: Damaged" >&2; exit 1; }}\nexec {PROGRAM} "$@"\n')
            os.chmod(file.name, 0o755)
        done = subprocess.run(self.words(self.path, 'root', '--program', program, '-c', 'SELECT * FROM notes', '-c', '\\d'), capture_output=True,
                              env=environment(self.folder), encoding='utf-8', timeout=PATIENCE)
        self.tells(done, 3, ' x | 1 | t\n(1 row)\n', f'{self.path} cannot be described: guarddb: Damaged.\n')

    def test_names_for_tab(self):
        """Those of the file are completed in a fresh shell."""
        with self.terminal(self.path, 'root') as terminal:
            terminal.until('root=> ')
            for typed, completed in [('SELECT ten\t', 'SELECT tenant'), ('\\d no\t', '\\d notes'), ('\\du tea\t', '\\du team'),
                                     ('\\copy no\t', '\\copy notes'), ('\\copy notes to sh\t', '\\copy notes to shop.db'),
                                     ('\\pset pa\t', '\\pset pager')]:
                since = len(terminal.text())
                terminal.type(typed)
                terminal.until(completed, since)
                terminal.interrupt()
                terminal.until('\nroot=> ', since)
            terminal.type(CONTROL_D)
            self.assertEqual(terminal.end(), 0)


class Answers(InAFolder):
    """Where answers go, and in which form."""

    def setUp(self):
        super().setUp()
        self.make('CREATE TABLE t (k BIGINT PRIMARY KEY, o TEXT, s BOOLEAN)',
                  "INSERT INTO t VALUES (-1, NULL, NULL), (2, '', true), (3, 'a, \"b\"\n', false), (4, ' x ', true)")

    CSV = 'k,o,s\n-1,,\n2,"",t\n3,"a, ""b""\n",f\n4," x ",t\n'

    def read(self, name):
        with open(os.path.join(self.folder, name), encoding='utf-8', newline='') as file:
            return file.read()

    def write(self, name, text):
        with open(os.path.join(self.folder, name), 'w', encoding='utf-8', newline='') as file:
            file.write(text)

    def test_csv(self):
        for words, out in [(['-c', 'SELECT * FROM t'], self.CSV), (['-c', 'SELECT k FROM t WHERE k > 9', '-c', 'DELETE FROM t WHERE k > 9'], 'k\n'),
                           (['-c', "SELECT 'a long expression, with a comma' FROM t WHERE k = 4"],
                            '"\'a long expression, with a comma\'"\n"a long expression, with a comma"\n'),
                           (['-c', '\\pset null NULL', '-c', "SELECT o, 'NULL' FROM t WHERE k = -1"], 'Null is shown as "NULL".\no,\'NULL\'\nNULL,"NULL"\n')]:
            done = subprocess.run(self.words('--csv', self.path, 'root', *words), capture_output=True, env=environment(self.folder), timeout=PATIENCE)
            self.assertEqual((done.returncode, done.stdout.decode(), told(done.stderr)), (0, out, b''))
        with served(self.path) as port:
            wait_for(port)
            done = subprocess.run(self.words('--csv', str(port), 'root', '-c', 'SELECT * FROM t WHERE k = 2'), capture_output=True,
                                  env=environment(self.folder), timeout=PATIENCE)
        self.assertEqual(done.stdout, b'1,2,3\n2,"",t\n')
        done = subprocess.run(self.words('--csv', '-A', self.path), capture_output=True, env=environment(self.folder), timeout=PATIENCE)
        self.assertEqual(done.returncode, 1)

    def test_settings(self):
        settings = 'Null is shown as the format has it.\nThe format is aligned.\nThe pager is on.\n'
        self.tells(self.run_shell('root', '\\pset'), 0, settings, '')
        row, query = '   o |   s\n-----+-----\n (x) | (x)\n(1 row)\n', 'SELECT o, s FROM t WHERE k = -1'
        self.tells(self.run_shell('root', '\\pset null (x)', query), 0, 'Null is shown as "(x)".\n' + row, '')
        self.tells(self.run_shell('root', "\\pset null '(x) y'", "SELECT '(x) y'"), 0,
                   "Null is shown as \"(x) y\".\n '(x) y'\n---------\n '(x) y'\n(1 row)\n", '')
        self.tells(self.run_shell('root', '\\pset format csv', query, '\\pset format aligned', '\\pset pager'), 0,
                   'The format is csv.\no,s\n,\nThe format is aligned.\nThe pager is off.\n', '')
        for text in ('\\pset other', '\\pset format html', '\\pset pager maybe'):
            self.assertEqual(self.run_shell('root', text).returncode, 3)

    def test_answers_to_a_file(self):
        one = ' 1\n---\n 1\n(1 row)\n'
        self.tells(self.run_shell('root', '\\o "a b.txt"', 'SELECT 1', 'BEGIN', '\\o', 'SELECT 1', 'SELECT 1 \\g b.txt\nSELECT 1', 'COMMIT'), 0,
                   one + one + 'COMMIT\n', '')
        self.assertEqual((self.read('a b.txt'), self.read('b.txt')), (one + 'BEGIN\n', one))
        self.tells(self.run_shell('root', '\\o none/a'), 1, '', 'none/a cannot be written: No such file or directory.\n')
        self.tells(self.run_shell('root', '\\o /dev/full', 'SELECT 1'), 1, '', '/dev/full cannot be written: No space left on device.\n')

    def test_copies(self):
        """Rows that are written to a file come back as they were."""
        self.tells(self.run_shell('root', '\\copy t TO a.csv', 'DELETE FROM t', "\\copy t from 'a.csv' csv header;", '\\copy (SELECT * FROM t) to b.csv'), 0,
                   'COPY 4\nDELETE 4\nCOPY 4\nCOPY 4\n', '')
        self.assertEqual((self.read('a.csv'), self.read('b.csv')), (self.CSV, self.CSV))
        self.write('c.csv', '\ufeffs,k\r\nTRUE,7\r\n\r\nf,8')
        self.tells(self.run_shell('root', '\\copy t from c.csv', 'SELECT * FROM t WHERE k > 4'), 0,
                   'COPY 2\n k |    o | s\n---+------+---\n 7 | NULL | t\n 8 | NULL | f\n(2 rows)\n', '')
        self.write('d.csv', 'k\n' + ''.join(f'{number}\n' for number in range(10, 1010)))
        self.assertEqual(self.run_shell('root', '\\copy t (k) from d.csv', 'SELECT count(*) FROM t').stdout.split(), ['COPY', '1000', 'count(*)', '----------', '1006', '(1', 'row)'])

    def test_copies_over_a_server(self):
        """The types of the columns are tried out, outside a block."""
        self.write('a.csv', self.CSV)
        with served(self.path, connections=4) as port:
            wait_for(port)
            self.tells(self.run_shell('root', 'DELETE FROM t', '\\copy t from a.csv', '\\copy t (k, o, s) to b.csv', place=str(port)), 0,
                       'DELETE 4\nCOPY 4\nCOPY 4\n', '')
            self.assertEqual(self.read('b.csv'), self.CSV)
            for texts, status, text in [(['\\copy t to b.csv'], 3, 'The columns of t are not known here'), (['BEGIN', '\\copy t from a.csv'], 3, 'The types of'),
                                        (['\\copy nothing from a.csv'], 3, 'ERROR:  42P01')]:
                done = self.run_shell('root', *texts, place=str(port))
                self.assertEqual((done.returncode, done.stderr[:len(text)]), (status, text))

    def test_what_is_not_copied(self):
        """Then no row of the file is inserted, and a block that was open is as a refusal leaves it."""
        for text, message in [('k\nx\n', 'a.csv: line 2: This is no BIGINT for the column k.'), ('k,s\n5,maybe\n', 'a.csv: line 2: This is no BOOLEAN for the column s.'),
                              ('k,o\n5\n', 'a.csv: line 2: There are 1 fields for 2 columns.'), ('k,o\n5,"x', 'a.csv: line 2: A quote stands'),
                              ('k,o\n5,x"y\n', 'a.csv: line 2: A quote stands'), ('', 'a.csv: The first line does not name columns.'),
                              ('k,k\n5,6\n', 'a.csv: The first line does not name columns.'), ('k,other\n5,6\n', 'ERROR:  42703'),
                              ('k\n5\n2\n', 'ERROR:  23505'), (f'k\n{2 ** 63}\n', 'a.csv: line 2: This is no BIGINT')]:
            with self.subTest(text):
                self.write('a.csv', text)
                done = self.run_shell('root', '\\copy t from a.csv')
                self.assertEqual((done.returncode, done.stdout, done.stderr[:len(message)]), (3, '', message))
                self.assertEqual(self.run_shell('root', 'SELECT count(*) FROM t').stdout.split()[2], '4')
        self.tells(self.run_shell('root', '\\copy t from none.csv'), 1, '', 'none.csv cannot be read: No such file or directory.\n')
        for text in ('\\copy t', '\\copy t into a.csv', '\\copy (SELECT 1) from a.csv', '\\copy t from a.csv binary'):
            self.assertTrue(self.run_shell('root', text).stderr.startswith(('Write \\copy', 'Wrong arguments')), text)
        self.write('a.csv', 'k\n5\n2\n')
        done = self.run_shell('root', 'BEGIN', 'DELETE FROM t', '\\copy t (k) from a.csv', 'COMMIT')
        self.assertEqual(done.stdout, 'BEGIN\nDELETE 4\nCOPY 2\nCOMMIT\n')

    def test_a_pager(self):
        """It shows what is longer than the terminal; where it cannot be run, or is off, the answer is shown without it."""
        join = 'SELECT t.k FROM t, t u, t v;\r'
        for pager, first in [("sed 's/^/paged: /'", 'paged:  t.k'), ('no-such-pager', ' t.k')]:
            with Terminal(['env', f'PAGER={pager}', *self.words(self.path, 'root')], self.folder) as terminal:
                terminal.until('root=> ')
                shown = terminal.answer(join, 'root=> ')
                self.assertIn(f'\n{first}\n', shown)
                self.assertEqual(shown.count('paged:'), 67 * first.startswith('paged'))
                self.assertNotIn('paged', terminal.answer('SELECT k FROM t;\r', 'root=> '))
                terminal.answer('\\pset pager off\r', 'root=> ')
                self.assertNotIn('paged', terminal.answer(join, 'root=> '))
                terminal.type(CONTROL_D)
                self.assertEqual(terminal.end(), 0)

    def test_variables(self):
        """They stand in statements and in words of commands, and not in texts, quoted names and comments."""
        script = ('\\set a 4\n\\set b it "\'s" me\n\\set\n\\echo  :a  \':a\' :\'b\' :"b" :none ;\n\\echo -n x\n\\echo y\n'
                  'SELECT :a + 1, :\'b\', \':a\' -- :a\n;\n\\set c \'SELECT 1; SELECT\'\n:c 2;\n\\set o "a\nSELECT o FROM t WHERE k = 2;\n'
                  '\\unset a\n\\unset a\nSELECT :a;')
        out = ("a = '4'\nb = 'it''sme'\n4 :a 'it''sme' \"it'sme\" :none ;\nxy\n"
               " 4 + 1 | 'it''sme' | ':a'\n-------+-----------+------\n     5 | it'sme    | :a\n(1 row)\n"
               ' 1\n---\n 1\n(1 row)\n 2\n---\n 2\n(1 row)\n o\n----\n \'\'\n(1 row)\n')
        done = self.run_shell('root', input=script)
        self.tells(done, 3, out, f'line 15: {syntax("SELECT :a", 7)}\n')
        self.tells(self.run_shell('root', '\\set table t', 'SELECT k FROM :"table" WHERE o = :\'none\'\\g'), 3, '',
                   syntax('SELECT k FROM "t" WHERE o = :\'none\'', 28) + '\n')
        for text, message in [('\\set a-b 1', 'A variable has letters, digits and _ in its name, not a-b.'),
                              ('\\set AUTOCOMMIT off', 'AUTOCOMMIT is a setting of psql, which this shell does not have.'),
                              ("\\set a\nSELECT :\"a\"", ':"a" cannot stand in a statement: a name has 1 to 63 bytes, and no zero byte.'),
                              ('\\unset', 'Wrong arguments for \\unset; \\? shows them.'), ('\\set', None), ('\\set ON_ERROR_STOP on', None)]:
            self.tells(self.run_shell('root', text), 3 if message else 0, '' if message or 'ON' in text else 'No variable is set.\n',
                       f'{message}\n' if message else '')

    def test_variables_in_a_terminal(self):
        with self.terminal(self.path, 'root') as terminal:
            terminal.until('root=> ')
            self.assertEqual(terminal.answer("\\set name 'x y'\r", 'root=> '), "\\set name 'x y'\n")
            self.assertEqual(terminal.answer('\\echo :name\r', 'root=> '), '\\echo :name\nx y\n')
            self.assertIn('\n x y\n', terminal.answer("SELECT :'name';\r", 'root=> '))
            self.assertEqual(terminal.answer("SELECT :'name'\r", 'root-> '), "SELECT :'name'\n")
            self.assertEqual(terminal.answer('\\p\r', 'root-> '), "\\p\nSELECT 'x y'\n")
            self.assertIn("name = 'x y'\n", terminal.answer('\\r \r', 'root=> ') + terminal.answer('\\set\r', 'root=> '))
            self.assertEqual(terminal.answer('\\unset na\t\r', 'root=> '), '\\unset name\n')
            self.assertEqual(terminal.answer('\\set\r', 'root=> '), '\\set\nNo variable is set.\n')
            terminal.type(CONTROL_D)
            self.assertEqual(terminal.end(), 0)

    def test_a_statement_that_is_watched(self):
        """It is run until Ctrl-C, or until it is refused."""
        time_line = r'\w{3} \w{3} [ \d]\d \d\d:\d\d:\d\d \d{4} \(every 0.2s\)\n\n'
        with Terminal(['env', "PAGER=sed 's/^/paged: /'", *self.words(self.path, 'root')], self.folder) as terminal:
            terminal.until('root=> ')
            terminal.type('SELECT t.k FROM t, t u, t v \\watch 0.2\r')
            end = time.monotonic() + PATIENCE
            while terminal.text().count('(64 rows)\n') < 3 and time.monotonic() < end:
                terminal.read(0.1)
            since = len(terminal.text())
            terminal.interrupt()
            terminal.until('\nroot=> ', since - 1)
            self.assertLessEqual(3, len(re.findall(time_line + ' t.k\n-----\n', terminal.text())))
            self.assertNotIn('paged', terminal.text())
            self.assertIn('(1 row)\n', terminal.answer('SELECT 1;\r', 'root=> '))
            terminal.type('\\watch 9\r')
            terminal.until('(every 9s)\n\n 1\n---\n 1\n(1 row)\n')
            terminal.interrupt()
            terminal.until('\nroot=> ')
            self.assertIn('paged', terminal.answer('SELECT t.k FROM t, t u, t v;\r', 'root=> '))
            terminal.type(CONTROL_D)
            self.assertEqual(terminal.end(), 0)
        done = self.run_shell('root', 'BEGIN', '\\o a.txt', "INSERT INTO t (k) VALUES (77) \\watch 0.01")
        self.tells(done, 3, 'BEGIN\n', shell_help.explained('23505') + '\n')
        self.assertEqual(len(re.findall(time_line.replace('0.2', '0.01') + 'INSERT 1\n', self.read('a.txt'))), 1)
        for text, message in [('\\watch', 'Nothing is typed so far.'), ('SELECT 1\\watch often', '\\watch takes a number of seconds, not often.'),
                              ('SELECT 1\\watch 0', '\\watch takes a number of seconds, not 0.')]:
            self.tells(self.run_shell('root', text), 3, '', message + '\n')

    def test_an_editor(self):
        """What it leaves is run, or is still to be ended; what it does not change is not run again."""
        editor = os.path.join(self.folder, 'editor')
        with open(editor, 'w', encoding='utf-8') as file:
            file.write('#!/bin/sh\nsed -i "s/9/1;/" "$1"\n')
            os.chmod(file.name, 0o755)
        self.write('a.sql', "SELECT 'of a file'\n;\n")
        with Terminal(['env', f'EDITOR={editor}', *self.words(self.path, 'root')], self.folder) as terminal:
            terminal.until('root=> ')
            self.assertIn('SELECT\n', terminal.answer('SELECT\r', 'root-> '))
            terminal.answer('9\r', 'root-> ')
            self.assertEqual(terminal.answer('\\e\r', 'root=> '), '\\e\nSELECT\n1;\n 1\n---\n 1\n(1 row)\n')
            self.assertEqual(terminal.answer('\\e\r', 'root=> '), '\\e\n')
            self.assertIn('\n of a file\n(1 row)\n', terminal.answer('\\e a.sql\r', 'root=> '))
            terminal.type(CONTROL_D)
            self.assertEqual(terminal.end(), 0)
        with Terminal(['env', 'EDITOR=false', *self.words(self.path, 'root')], self.folder) as terminal:
            terminal.until('root=> ')
            self.assertIn('false ended with status 1: nothing was run.', terminal.answer('\\e\r', 'root=> '))
            terminal.type(CONTROL_D)
            self.assertEqual(terminal.end(), 0)
        self.tells(self.run_shell('root', '\\e'), 3, '', '\\e edits in a terminal alone.\n')


class Faults(InAFolder):
    """Streams, signals and servers that fail."""

    def setUp(self):
        super().setUp()
        self.make('CREATE TABLE t (k BIGINT PRIMARY KEY, o TEXT)', "INSERT INTO t VALUES (1, 'a'), (2, NULL)")

    def test_closed_streams(self):
        """Each of them, alone and together: the file is whole, and what cannot be shown is a fault before anything is run."""
        text = "INSERT INTO t VALUES (3, 'c'); DELETE FROM t WHERE k = 3"
        for closed in ('0', '1', '2', '01', '02', '12', '012'):
            with self.subTest(closed):
                redirections = ' '.join({'0': '<&-', '1': '>&-', '2': '2>&-'}[number] for number in closed)
                words = ['sh', '-c', f'exec "$@" {redirections}', 'sh', *self.words(self.path, 'root', '-c', text)]
                done = subprocess.run(words, stdin=subprocess.DEVNULL, capture_output=True, env=environment(self.folder),
                                      timeout=PATIENCE)
                fault = b'' if '1' not in closed or '2' in closed else b'Standard output is closed.\n'
                out = b'' if '1' in closed else b'INSERT 1\nDELETE 1\n'
                self.assertEqual((done.returncode, done.stdout, told(done.stderr)), (1 if '1' in closed else 0, out, fault))
        done = subprocess.run(['sh', '-c', 'exec "$@" <&-', 'sh', *self.words(self.path, 'root')], capture_output=True,
                              env=environment(self.folder), timeout=PATIENCE)
        self.assertEqual((done.returncode, done.stdout, done.stderr), (1, b'', b'Standard input is closed.\n'))
        self.assertEqual(self.run_shell('root', 'SELECT * FROM t').stdout, ' k | o\n---+------\n 1 | a\n 2 | NULL\n(2 rows)\n')
        self.is_left_alone()

    def test_a_pipe_that_is_broken(self):
        """The script ends silently at the statement whose answer could not be shown, by the signal, wherever it stands."""
        script = "SELECT 1; INSERT INTO t VALUES (3, 'c')"
        with open(os.path.join(self.folder, 'a.sql'), 'w', encoding='utf-8') as file:
            file.write(script)
        for text in (script, '\\i a.sql'):
            read, write = os.pipe()
            os.close(read)
            done = self.run_shell('root', text, stdout=write)
            os.close(write)
            self.tells(done, -signal.SIGPIPE, None, '')
            self.assertIn('(2 rows)', self.run_shell('root', 'SELECT * FROM t').stdout)
        self.is_left_alone()

    def test_a_reader_that_has_enough(self):
        """As behind `| head -2`: of a large answer the first lines come, and nothing is said of the others."""
        rows = ', '.join(f"({number}, '{'x' * 500}')" for number in range(10, 50))
        self.assertEqual(self.run_shell('root', f'INSERT INTO t VALUES {rows}').stdout, 'INSERT 40\n')
        shell = subprocess.Popen(self.words(self.path, 'root', '-c', 'SELECT t.k, u.o FROM t, t u'), env=environment(self.folder),
                                 stdin=subprocess.DEVNULL, stdout=subprocess.PIPE, stderr=subprocess.PIPE)
        self.assertEqual(shell.stdout.readline().split(), [b't.k', b'|', b'u.o'])
        shell.stdout.close()
        self.assertEqual((told(shell.stderr.read()), shell.wait(PATIENCE)), (b'', -signal.SIGPIPE))
        shell.stderr.close()
        self.is_left_alone()

    def test_a_full_device(self):
        with open('/dev/full', 'w', encoding='utf-8') as full:
            done = self.run_shell('root', 'SELECT 1', stdout=full)
            self.tells(done, 1, None, 'Standard output failed: No space left on device.\n')
            self.tells(self.run_shell('root', 'SELEC', stderr=full), 3, '', None)

    def test_a_file_in_use(self):
        with served(self.path) as port, guarddb.connect(port, wait=PATIENCE, timeout=PATIENCE):
            done = self.run_shell('root', 'SELECT 1')
        hint = ': another program has it open. If that is a server, give its port or its socket.\n'
        self.assertEqual((done.returncode, done.stdout), (2, ''))
        self.assertTrue(done.stderr.startswith('guarddb: InUse\n'), done.stderr)
        self.assertTrue(done.stderr.endswith(f'No server could be started over {self.path}{hint}'), done.stderr)
        self.is_left_alone()

    def test_what_is_no_database(self):
        with open(self.path, 'w', encoding='utf-8') as file:
            file.write('something else\n' * 9000)
        done = self.run_shell('root', 'SELECT 1')
        self.assertEqual((done.returncode, done.stdout), (2, ''))
        self.assertRegex(done.stderr, r'^guarddb: (NotADatabase|WrongSize)\n(.|\n)*No server could be started over .*shop.db\.\n$')

    def test_no_server(self):
        path = os.path.join(self.folder, 'left.sock')
        with socket.socket(socket.AF_UNIX) as left:     # a socket whose server is gone
            left.bind(path)
        port = str(free_port())
        for place, text_told in [(port, f'No server at {port}: connection refused (no server listens there).\n'),
                            (path, f'No server at {path}: connection refused (no server listens there).\n'),
                            ('99999', 'There is no port 99999: they are 1 to 65535.\n'), ('0', 'There is no port 0: they are 1 to 65535.\n'),
                            ('none', 'none is not a port, a socket or a file: No such file or directory.\n'
                             'HINT:  Start its server, or make a new database: guarddb format none --pages 64 --admin ROLE\n')]:
            with self.subTest(place):
                self.tells(self.run_shell('root', 'SELECT 1', place=place), 2, '', text_told)

    def test_a_folder_whose_path_is_too_long_for_a_socket(self):
        folder = os.path.join(self.folder, 'x' * 100)
        os.mkdir(folder)
        done = subprocess.run(self.words('-A', self.path, 'root', '-c', 'SELECT 1'), capture_output=True, encoding='utf-8',
                              env={**environment(self.folder), 'TMPDIR': folder}, timeout=PATIENCE)
        self.tells(done, 0, '1\n', '')
        self.assertEqual(os.listdir(folder), [])

    def test_no_program(self):
        words = self.words(self.path, 'root', '--program', '/nothing', '-c', 'SELECT 1')
        done = subprocess.run(words, capture_output=True, env=environment(self.folder), timeout=PATIENCE)
        self.assertEqual((done.returncode, done.stderr), (2, b'/nothing cannot be started: No such file or directory.\n'))
        self.is_left_alone()

    def test_a_port_and_a_socket(self):
        for socket_path in (None, os.path.join(self.folder, 'at')):
            with served(self.path, socket_path=socket_path) as place:
                wait_for(place)
                self.tells(self.run_shell('root', 'SELECT count(*) FROM t', place=str(place)), 0,
                           ' count(*)\n----------\n        2\n(1 row)\n', '')

    def test_a_stranger_at_the_port(self):
        with socket.create_server(('127.0.0.1', 0)) as listener:
            def answer():
                stream, _ = listener.accept()
                with stream:
                    stream.sendall(b'HTTP/1.1 400 Bad Request\r\n\r\n')
                    stream.recv(100)
            thread = threading.Thread(target=answer)
            thread.start()
            done = self.run_shell('root', 'SELECT 1', place=str(listener.getsockname()[1]))
            thread.join()
        self.tells(done, 2, '', f'This is no answer of a Guarddb server to the last event: {NOT_KNOWN}\n')

    def test_a_server_that_goes_away_in_an_answer(self):
        """Nothing of this answer is shown, and nothing more is run."""
        with socket.create_server(('127.0.0.1', 0)) as listener:
            def answer():
                stream, _ = listener.accept()
                with stream:
                    for text, length in [(b'ok OPEN\n', 8), (b'ok INSERT 1\n', 12), (b'rows 2\n1\n', 11)]:
                        stream.recv(100)
                        stream.sendall(guarddb.HEAD.pack(5 + length, guarddb.ANSWER, 1) + text)
            thread = threading.Thread(target=answer)
            thread.start()
            texts = 'INSERT INTO t VALUES (1)', 'SELECT k FROM t', 'SELECT 2'
            done = self.run_shell('root', *texts, place=str(listener.getsockname()[1]))
            thread.join()
        self.tells(done, 2, 'INSERT 1\n', f'The server went away: {NOT_KNOWN}\n')

    def test_a_server_that_is_started_again(self):
        """The shell says that the server is gone, and then that there is none, and goes on once there is one."""
        port = free_port()
        words = [PROGRAM, 'serve', self.path, '--port', str(port), '--connections', '1']
        servers = []

        def start():
            servers.append(subprocess.Popen(words, stderr=subprocess.DEVNULL))
            wait_for(port)
        try:
            start()
            with self.terminal(str(port), 'root') as terminal:
                terminal.until('root=> ')
                servers[0].kill()
                servers[0].wait()
                gone = f'The server went away: {NOT_KNOWN} \\c ROLE connects again.\n'
                self.assertEqual(terminal.answer('SELECT 1;\r', '=> '), f'SELECT 1;\n{gone}')
                none = f'No server at {port}: connection refused (no server listens there).\n'
                self.assertEqual(terminal.answer('\\c root\r', '=> '), f'\\c root\n{none}')
                start()
                terminal.answer('\\c root\r', 'root=> ')
                self.assertIn('(2 rows)', terminal.answer('SELECT k FROM t;\r', 'root=> '))
                terminal.type(CONTROL_D)
                self.assertEqual(terminal.end(), 0)
            self.assertEqual(servers[1].wait(PATIENCE), 0)
        finally:
            for server in servers:
                server.kill()
                server.wait()

    def test_no_answer_in_time(self):
        with socket.create_server(('127.0.0.1', 0)) as listener:
            words = self.words(str(listener.getsockname()[1]), 'root', '--timeout', '0.2', '-c', 'SELECT 1')
            done = subprocess.run(words, capture_output=True, env=environment(self.folder), timeout=PATIENCE, encoding='utf-8')
        self.tells(done, 2, '', f'No answer came in time: {NOT_KNOWN}\n')

    def test_a_server_that_is_killed(self):
        with self.terminal(self.path, 'root') as terminal:
            terminal.until('root=> ')
            self.assertIn('INSERT 1', terminal.answer("BEGIN; INSERT INTO t VALUES (3, 'c');\r", 'root=*> '))
            os.kill(self.server_of(terminal.pid), signal.SIGKILL)
            gone = f'The server went away: {NOT_KNOWN} \\c ROLE connects again.\n'
            self.assertEqual(terminal.answer('COMMIT;\r', '=> '), f'COMMIT;\n{gone}')
            self.assertEqual(terminal.answer('COMMIT;\r', '=> '), 'COMMIT;\nNo session is open: \\c ROLE opens one.\n')
            terminal.type('\\c root\r')
            terminal.until('\nroot=> ')
            self.assertIn('(2 rows)', terminal.answer('SELECT * FROM t;\r', 'root=> '))
            terminal.type(CONTROL_D)
            self.assertEqual(terminal.end(), 0)
        self.is_left_alone()

    def test_a_server_that_is_killed_under_a_script(self):
        shell = subprocess.Popen(self.words(self.path, 'root'), env=environment(self.folder), stdin=subprocess.PIPE,
                                 stdout=subprocess.PIPE, stderr=subprocess.PIPE)
        shell.stdin.write(b'BEGIN;\n')
        shell.stdin.flush()
        self.assertEqual(shell.stdout.readline(), b'BEGIN\n')
        os.kill(self.server_of(shell.pid), signal.SIGKILL)
        out, err = shell.communicate(b'COMMIT;\nSELECT 1;\n', timeout=PATIENCE)
        self.assertEqual((shell.returncode, out), (2, b''))
        self.assertEqual(told(err), f'line 2: The server went away: {NOT_KNOWN}\n'.encode())
        self.is_left_alone()

    def server_of(self, pid):
        """The process that a shell has started."""
        with open(f'/proc/{pid}/task/{pid}/children', encoding='utf-8') as file:
            server, = file.read().split()
        return int(server)

    def test_control_c_while_an_answer_is_awaited(self):
        """In a terminal the shell goes on, and a program is ended by the signal."""
        with silent_server() as port, self.terminal(str(port), tells_all=True) as terminal:
            terminal.until('\n=> ')
            terminal.type('\\c root\r')
            terminal.until('Ctrl-C gives up.\n')
            terminal.type(CONTROL_C)
            terminal.until('\n=> ')
            self.assertIn('\nNo answer yet: a server takes one connection at a time, and another may be open. Ctrl-C gives up.\n^C'
                          f'Given up: {NOT_KNOWN} \\c ROLE connects again.\n=> ', terminal.text())
            terminal.type('\\q\r')
            self.assertEqual(terminal.end(), 0)
        with silent_server() as port:
            shell = subprocess.Popen(self.words(str(port), 'root', '-c', 'SELECT 1'), env=environment(self.folder),
                                     stderr=subprocess.PIPE)
            self.assertTrue(shell.stderr.readline().startswith(b'No answer yet'))
            shell.send_signal(signal.SIGINT)
            self.assertEqual((shell.communicate(timeout=PATIENCE)[1], shell.returncode), (b'', -signal.SIGINT))

    def test_signals_end_the_server_that_was_started(self):
        for number, status in [(signal.SIGINT, -signal.SIGINT), (signal.SIGTERM, 143), (signal.SIGHUP, 129)]:
            with self.subTest(number):
                shell = subprocess.Popen(self.words(self.path, 'root'), env=environment(self.folder), stdin=subprocess.PIPE,
                                         stdout=subprocess.PIPE, stderr=subprocess.PIPE)
                shell.stdin.write(b"BEGIN; INSERT INTO t VALUES (3, 'c');\n")
                shell.stdin.flush()
                self.assertEqual(shell.stdout.readline() + shell.stdout.readline(), b'BEGIN\nINSERT 1\n')
                shell.send_signal(number)
                out, err = shell.communicate(timeout=PATIENCE)
                self.assertEqual((out, told(err), shell.returncode), (b'', b'', status))
                self.is_left_alone()
        self.assertIn('(2 rows)', self.run_shell('root', 'SELECT * FROM t').stdout)

    def test_control_c_at_any_moment(self):
        """The shell ends by the signal or is done, and neither a server nor a folder is left."""
        generator = random.Random(7)
        for _ in range(12):
            shell = subprocess.Popen(self.words(self.path, 'root', '-c', 'SELECT k FROM t'), env=environment(self.folder),
                                     stdin=subprocess.DEVNULL, stdout=subprocess.PIPE, stderr=subprocess.PIPE)
            with contextlib.suppress(subprocess.TimeoutExpired):
                shell.wait(0.1 + generator.random() * 0.6)
            shell.send_signal(signal.SIGINT)
            _, err = shell.communicate(timeout=PATIENCE)
            if b'Fatal Python error' not in err:        # Python itself was not yet started
                self.assertIn(shell.returncode, (0, -signal.SIGINT), err)
        self.is_left_alone()

    def test_a_terminal_that_goes_away(self):
        with self.terminal(self.path, 'root') as terminal:
            terminal.until('root=> ')
            server = self.server_of(terminal.pid)
        end = time.monotonic() + PATIENCE
        while os.path.exists(f'/proc/{server}') and time.monotonic() < end:
            time.sleep(0.05)
        self.assertFalse(os.path.exists(f'/proc/{server}'))


@contextlib.contextmanager
def silent_server():
    """A port at which connections are taken and nothing is answered."""
    with socket.create_server(('127.0.0.1', 0)) as listener:
        yield listener.getsockname()[1]


class Keys(InAFolder):
    """Keys in a terminal: completion, history, pastes, and tables that are too wide."""

    def setUp(self):
        super().setUp()
        self.make('CREATE TABLE t (k BIGINT PRIMARY KEY, o TEXT)', f"INSERT INTO t VALUES (1, '{'long ' * 20}')")

    def test_completion(self):
        for name in ('orders', 'orders/of-2026.sql'):
            os.makedirs(os.path.join(self.folder, name))
        with self.terminal(self.path, 'root') as terminal:
            terminal.until('root=> ')
            for typed, completed in [('SEL\t 1', 'SELECT 1'), ('sel\t 2', 'select 2'),
                                     ('CREATE ROLE accountant LOGI\t', 'CREATE ROLE accountant LOGIN'),
                                     ('GRANT acc\t TO roo\t', 'GRANT accountant TO root'), ('\\conn\t', '\\conninfo'),
                                     ('SELECT MEMB\t OF NULL', 'SELECT MEMBER OF NULL'), ('SELECT 1 \\gx\t', 'SELECT 1 \\gx'),
                                     ('\\c acc\t', '\\c accountant'), ('\\c ro\t', '\\c root'), ('\\x au\t', '\\x auto'),
                                     ('\\h alter t\t', '\\h alter table'), ('\\h REV\t', '\\h REVOKE'),
                                     ('\\close acc\t', '\\close accountant'), ('\\i or\tof\t', '\\i orders/of-2026.sql/')]:
                since = len(terminal.text())
                terminal.type(typed)
                terminal.until(completed, since)
                terminal.type('\r' if '\\' in typed else ';\r')
                terminal.until('=> ', since + len(completed) + 2)
            terminal.type(CONTROL_D)
            self.assertEqual(terminal.end(), 0)

    def history(self):
        with open(os.path.join(self.folder, 'history'), encoding='utf-8') as file:
            return file.read().split('\n')[:-1]

    def test_history(self):
        for keys in ('SELECT 12345;\r', '\x1b[A\r'):
            with self.terminal(self.path, 'root') as terminal:
                terminal.until('root=> ')
                self.assertIn('\n 12345\n(1 row)\n', terminal.answer(keys, 'root=> '))
                terminal.type(CONTROL_D)
                self.assertEqual(terminal.end(), 0)
        self.assertEqual(os.stat(os.path.join(self.folder, 'history')).st_mode & 0o77, 0)
        self.assertEqual(self.history(), ['SELECT 12345;'])

    def test_the_history_of_two_shells(self):
        """Each adds its lines to those of the other, up to the last thousand."""
        with open(os.path.join(self.folder, 'history'), 'w', encoding='utf-8') as file:
            file.write(''.join(f'\\p {number}\n' for number in range(999)))
        with silent_server() as port, self.terminal(str(port)) as one, self.terminal(str(port)) as two:
            for terminal, keys in [(one, '\\p\r'), (two, '\\conninfo\r'), (one, '\\x\r')]:
                terminal.until('=> ')
                terminal.answer(keys, '=> ')
            for terminal in (two, one):
                terminal.type(CONTROL_D)
                self.assertEqual(terminal.end(), 0)
        self.assertEqual(self.history()[-4:], ['\\p 998', '\\conninfo', '\\p', '\\x'])
        self.assertEqual(len(self.history()), 1000)

    def test_a_history_that_is_not_kept(self):
        """With an empty path silently, and with one at which there can be no file with a word about it."""
        absent = os.path.join(self.folder, 'none', 'history')
        for path, text_told in [('', ''), (absent, f'The lines typed here are not kept: {absent}: No such file or directory.\n')]:
            words = ['env', f'GUARDDB_HISTORY={path}', *self.words(self.path, 'root')]
            with Terminal(words, self.folder) as terminal:
                terminal.until('root=> ')
                terminal.answer('SELECT 1;\r', 'root=> ')
                since = len(terminal.text())
                terminal.type(CONTROL_D)
                self.assertEqual(terminal.end(), 0)
                self.assertEqual(terminal.text()[since:].lstrip('\n'), text_told)
        self.assertFalse(os.path.exists(os.path.join(self.folder, 'history')))

    def test_a_paste(self):
        """Its lines are taken one after the other, also behind one that is refused, up to one that ends the shell."""
        one, selec = ' 1\n---\n 1\n(1 row)\n', syntax('SELEC') + '\n'
        with Terminal(['env', 'TERM=xterm', *self.words(self.path, 'root')], self.folder) as terminal:
            terminal.until('root=> ')
            since = len(terminal.text())
            terminal.type('\x1b[200~SELEC;\rSELECT\r1;\rSELEC; SELECT 2;\r\x1b[201~\r')
            rest = 'The rest of the line was not run.\n'
            self.assertIn(f'{selec}{one}{selec}{rest}root=> ', terminal.until(f'{rest}root=> ', since))
            terminal.type('\x1b[200~SELECT 1;\rexit\rSELECT 3;\r\x1b[201~\r')
            self.assertEqual(terminal.end(), 0)
            self.assertTrue(terminal.text().endswith(one), terminal.text())

    def test_a_paste_for_a_server_that_is_gone(self):
        with Terminal(['env', 'TERM=xterm', *self.words(self.path, 'root')], self.folder) as terminal:
            terminal.until('root=> ')
            os.kill(Faults.server_of(self, terminal.pid), signal.SIGKILL)
            terminal.type('\x1b[200~SELECT 1;\rSELECT 2;\x1b[201~\r')
            since = len(terminal.text())
            text_told = f'The server went away: {NOT_KNOWN} \\c ROLE connects again.\nThe lines behind it were not run.\n=> '
            self.assertTrue(terminal.until('\n=> ', since).endswith(text_told), terminal.text())

    def test_words_without_a_backslash(self):
        """On the first line of a statement they are commands, also with a `;`, and on another one a warning says what they are."""
        within = 'This line belongs to the statement typed so far. Ctrl-C discards that, Ctrl-D leaves.\n'
        with self.terminal(self.path, 'root') as terminal:
            terminal.until('root=> ')
            self.assertIn(r'\gx', terminal.answer('help\r', 'root=> '))
            terminal.answer("SELECT '\r", "root'> ")
            for word in ('quit', 'EXIT;', 'help'):
                self.assertEqual(terminal.answer(f'{word}\r', "root'> "), f'{word}\n{within}')
            terminal.interrupt()
            terminal.until('\nroot=> ')
            terminal.type('Exit ;\r')
            self.assertEqual(terminal.end(), 0)

    def test_an_open_block_at_the_end(self):
        """Whoever leaves is told what is lost."""
        lost = 'WARNING:  the open block of root is rolled back\n'
        for keys in (CONTROL_D, '\\q\r', 'exit\r', '\\close\r\\q\r'):
            with self.terminal(self.path, 'root') as terminal:
                terminal.until('root=> ')
                terminal.answer('BEGIN;\r', 'root=*> ')
                terminal.type(keys)
                self.assertEqual(terminal.end(), 0)
                self.assertEqual(terminal.text().count(lost), 1, terminal.text())

    def test_a_table_that_is_wider_than_the_terminal(self):
        with self.terminal(self.path, 'root', columns=60) as terminal:
            terminal.until('root=> ')
            self.assertIn('\n-[ 1 ]-----\nk | 1\no | \'long ', terminal.answer('SELECT * FROM t;\r', 'root=> '))
            self.assertIn('Expanded display is off.', terminal.answer('\\x off\r', 'root=> '))
            self.assertIn("\n---+-", terminal.answer('SELECT * FROM t;\r', 'root=> '))
            terminal.type('quit\r')
            self.assertEqual(terminal.end(), 0)

    def test_a_shell_without_a_role(self):
        with silent_server() as port, self.terminal(str(port)) as terminal:
            greeting = f'Guarddb, {port}. \\? shows help, \\q leaves.\nNo session is open: \\c ROLE opens one.\n=> '
            self.assertEqual(terminal.until('=> '), greeting)
            terminal.type(CONTROL_D)
            self.assertEqual(terminal.end(), 0)

    def test_control_d_in_a_statement(self):
        with self.terminal(self.path, 'root') as terminal:
            terminal.until('root=> ')
            terminal.answer("SELECT '\r", "root'> ")
            terminal.type(CONTROL_D)
            self.assertEqual(terminal.end(), 0)


if __name__ == '__main__':
    unittest.main()
