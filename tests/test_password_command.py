#!/usr/bin/env python3
"""Tests of `guarddb password`: python3 tests/test_password_command.py

Verifiers are checked with Python's hashlib and hmac alone (RFC 5802, 3). What is on standard error and in the list of processes is
searched for the password. The program is the one in the environment variable GUARDDB; without it nothing is tried.
"""
import base64
import hashlib
import hmac
import os
import re
import resource
import shutil
import subprocess
import tempfile
import time
import unittest

from program import IS_FAKE, PATIENCE, PROGRAM, make_database, run
import guarddb
import guarddb_scram

VERIFIER = re.compile(r'SCRAM-SHA-256\$4096:([A-Za-z0-9+/]{22}==)\$([A-Za-z0-9+/]{43}=):([A-Za-z0-9+/]{43}=)')
NO_PASSWORD = 'guarddb: Password\nguarddb: standard input: a password has 1 to 1,024 characters of ASCII, from the space to the tilde\n'
MANY_LINES = 'guarddb: Password\nguarddb: standard input: it has more than the line of a password\n'
USAGE = ('error: password takes --new, or --mock, or neither; a password stands on standard input alone\n\n'
         "Usage: guarddb password [--new|--mock]\n\nFor more information, try '--help'.\n")
OUTPUT_FAULT = 'guarddb: Output\nguarddb: standard output: closed, or it takes no more\n'
SECRET = 'correct horse; battery:staple'
PASSWORDS = [SECRET, 'pencil', ' ', '~', "it's $ : \\ %", 'x' * 63, 'x' * 64, 'x' * 65, ''.join(map(chr, range(32, 127))), 'y' * 1024]


def parts(verifier):
    """Salt, StoredKey and ServerKey; an AssertionError where the text is no verifier of 4,096 iterations."""
    found = VERIFIER.fullmatch(verifier)
    assert found, verifier
    return [base64.b64decode(part, validate=True) for part in found.groups()]


def keys(password, salt):
    salted = hashlib.pbkdf2_hmac('sha256', password, salt, 4096)
    client_key = hmac.new(salted, b'Client Key', 'sha256').digest()
    return [hashlib.sha256(client_key).digest(), hmac.new(salted, b'Server Key', 'sha256').digest()]


def made(*words, given=b'', **more):
    """Runs `guarddb password`: its status, its output and its messages."""
    done = subprocess.run([PROGRAM, 'password', *words], input=given, capture_output=True, timeout=PATIENCE, **more)
    return done.returncode, done.stdout.decode(), done.stderr.decode()


@unittest.skipIf(IS_FAKE, 'GUARDDB names no program')
def words_of(process):
    """The words of a process, which stand in the list of processes a moment after it has begun."""
    end = time.monotonic() + PATIENCE
    words = b''
    while not words and time.monotonic() < end:
        with open(f'/proc/{process}/cmdline', 'rb') as file:
            words = file.read()
    return words.rstrip(b'\0').split(b'\0')


class PasswordCommand(unittest.TestCase):
    def setUp(self):
        self.folder = tempfile.mkdtemp(prefix='guarddb-')
        self.addCleanup(shutil.rmtree, self.folder)

    def path(self, name):
        return os.path.join(self.folder, name)

    def verifier_of(self, password, ending=b'\n'):
        status, printed, messages = made(given=password + ending)
        self.assertEqual((status, messages, printed[-1:], printed.count('\n')), (0, '', '\n', 1))
        return printed[:-1]

    def test_verifiers(self):
        for password in PASSWORDS:
            for ending in (b'\n', b''):
                with self.subTest(password, ending=ending):
                    salt, *found = parts(self.verifier_of(password.encode(), ending))
                    self.assertEqual((len(salt), found), (16, keys(password.encode(), salt)))

    def test_each_salt_is_another(self):
        salts = {parts(self.verifier_of(b'pencil'))[0] for _ in range(20)}
        self.assertEqual(len(salts), 20)
        self.assertNotIn(bytes(16), salts)

    def test_what_is_no_password(self):
        for given, message in [(b'', NO_PASSWORD), (b'\n', NO_PASSWORD), (b'\n\n', MANY_LINES), (b'a\n\n', MANY_LINES), (b'a\nb', MANY_LINES), (b'\na', MANY_LINES),
                               (b'x' * 1025, NO_PASSWORD), (b'x' * 1025 + b'\n', NO_PASSWORD), (b'x' * 5000, NO_PASSWORD), (b'x' * 1024 + b'\n\n', MANY_LINES),
                               (b'pass\xc3\xa4word\n', NO_PASSWORD), (b'\xff', NO_PASSWORD), (b'a\tb\n', NO_PASSWORD), (b'a\r\n', NO_PASSWORD), (b'a\0', NO_PASSWORD),
                               (b'\x7f\n', NO_PASSWORD), (b'\x1f\n', NO_PASSWORD)]:
            with self.subTest(given[:20], size=len(given)):
                self.assertEqual(made(given=given), (1, '', message))

    def test_input_without_an_end(self):
        with open('/dev/zero', 'rb') as zeros:
            done = subprocess.run([PROGRAM, 'password'], stdin=zeros, capture_output=True, timeout=PATIENCE)
        self.assertEqual((done.returncode, done.stdout, done.stderr.decode()), (1, b'', NO_PASSWORD))

    def test_input_that_is_not_read(self):
        with open(self.folder + '/f', 'wb') as file:        # a file that is open to be written alone
            done = subprocess.run([PROGRAM, 'password'], stdin=file, capture_output=True, timeout=PATIENCE)
        self.assertEqual((done.returncode, done.stdout), (1, b''))
        self.assertRegex(done.stderr.decode(), '^guarddb: Device\nguarddb: standard input: .*\n$')
        done = subprocess.run([PROGRAM, 'password'], preexec_fn=lambda: os.close(0), capture_output=True, timeout=PATIENCE)
        self.assertEqual((done.returncode, done.stdout, done.stderr.decode()), (1, b'', NO_PASSWORD))

    def test_a_drawn_password(self):
        found = set()
        for _ in range(20):
            status, printed, messages = made('--new', given=b'never read\n')
            self.assertEqual((status, messages), (0, ''))
            password, verifier, rest = printed.split('\n')
            self.assertEqual((re.fullmatch('[A-Za-z0-9_-]{32}', password) is not None, rest), (True, ''))
            salt, *there = parts(verifier)
            self.assertEqual(there, keys(password.encode(), salt))
            secret = base64.urlsafe_b64decode(password)
            self.assertEqual(len(secret), 24)
            self.assertNotIn(salt, secret + b'\0' + secret)         # which tells nothing of it
            guarddb_scram.checked(password)
            found |= {secret, salt}
        self.assertEqual(len(found), 40)

    def test_a_verifier_that_nobody_has_the_password_of(self):
        found = set()
        for _ in range(20):
            status, printed, messages = made('--mock', given=b'never read\n')
            self.assertEqual((status, messages, printed[-1:]), (0, '', '\n'))
            found.update(parts(printed[:-1]))
        self.assertEqual(len(found), 60)

    def test_other_words(self):
        for words in [('--new', '--mock'), (SECRET,), ('--new', SECRET), ('--mock', '--mock'), ('--password', SECRET), (f'--password={SECRET}',), ('-p', SECRET),
                      (SECRET, SECRET), ('--', SECRET), (f'--new={SECRET}',)]:
            with self.subTest(words):
                self.assertEqual(made(*words, given=b'pencil\n'), (2, '', USAGE))

    def test_no_message_has_the_password(self):
        """Nor has the list of processes: it is asked for while the program waits for the rest of the line."""
        program = subprocess.Popen([PROGRAM, 'password'], stdin=subprocess.PIPE, stdout=subprocess.PIPE, stderr=subprocess.PIPE)
        try:
            program.stdin.write(SECRET.encode())
            program.stdin.flush()
            self.assertEqual(words_of(program.pid)[-1], b'password')
            with open(f'/proc/{program.pid}/environ', 'rb') as file:
                self.assertNotIn(SECRET.encode(), file.read())
            printed, messages = program.communicate(b'\xff\n', timeout=PATIENCE)
            self.assertEqual((program.returncode, printed, messages.decode()), (1, b'', NO_PASSWORD))
        finally:
            program.kill()
            program.communicate()
        for given in (f'{SECRET}\n{SECRET}\n', f'{SECRET}\0', f'{SECRET}é', SECRET * 100):
            self.assertNotIn(SECRET, made(given=given.encode())[2])

    def test_output_that_is_not_taken(self):
        for words in [(), ('--new',), ('--mock',)]:
            with self.subTest(words), open('/dev/full', 'wb') as full:
                done = subprocess.run([PROGRAM, 'password', *words], input=b'pencil\n', stdout=full, stderr=subprocess.PIPE, timeout=PATIENCE)
                self.assertEqual((done.returncode, done.stderr.decode()), (1, OUTPUT_FAULT))
                self.assertEqual(made(*words, given=b'pencil\n', preexec_fn=lambda: os.close(1)), (1, '', OUTPUT_FAULT))
                done = subprocess.run([PROGRAM, 'password', *words], input=b'pencil\n', stdout=full, stderr=full, timeout=PATIENCE)
                self.assertEqual(done.returncode, 1)

    def test_no_file_is_made(self):
        for words in [(), ('--new',), ('--mock',)]:
            self.assertEqual(made(*words, given=b'pencil\n', cwd=self.folder)[0], 0)
        self.assertEqual(os.listdir(self.folder), [])

    def test_few_files_may_be_open(self):
        """Three that stand for streams which are closed, and no more."""
        def few():
            resource.setrlimit(resource.RLIMIT_NOFILE, (6, 6))
        self.assertEqual(made(given=b'pencil\n', preexec_fn=few)[0], 0)

    def test_logins(self):
        """Whoever has the password comes in by the verifier that was printed."""
        path, place = self.path('db'), self.path('sock')
        make_database(path)
        _, lines, _ = made('--new')
        drawn, drawn_verifier = lines.split()
        kept = {'ann': self.verifier_of(SECRET.encode()), 'bob': drawn_verifier, 'mock': made('--mock')[1].strip()}
        with open(self.path('script'), 'w', encoding='utf-8') as file:
            file.write('open r root\nr: CREATE TABLE logins (role TEXT PRIMARY KEY, verifier TEXT)\n')
            for role, verifier in kept.items():
                file.write(f"r: CREATE ROLE {role} LOGIN\nr: INSERT INTO logins VALUES ('{role}', '{verifier}')\n")
        self.assertNotIn('refused', run('run', path, self.path('script'))[1])
        server = subprocess.Popen([PROGRAM, 'serve', path, '--at', f'socket:{place},passwords=logins,mock=mock', '--clients', '10'],
                                  stdout=subprocess.DEVNULL, stderr=subprocess.PIPE, text=True)
        try:
            self.assertEqual(server.stderr.readline(), f'guarddb: listening on {place}\n')
            for role, password in [('ann', SECRET), ('bob', drawn)]:
                with guarddb.connect(place, timeout=PATIENCE, user=role, password=password) as connection, connection.open(role) as session:
                    self.assertEqual(session.ask('SELECT session_user'), [[role]])
            for role, password in [('ann', drawn), ('bob', SECRET), ('mock', SECRET), ('ann', SECRET + ' ')]:
                with self.subTest(role, password=password), self.assertRaises(guarddb.PasswordRefused):
                    guarddb.connect(place, timeout=PATIENCE, user=role, password=password)
        finally:
            server.kill()
            server.communicate()


if __name__ == '__main__':
    unittest.main()
