#!/usr/bin/env python3
"""Places that ask for passwords, and the clients' side of them: python3 tests/test_passwords.py

The program is the one in the environment variable GUARDDB, or else fake_guarddb.py. Exchanges are those of RFC 5802 and RFC 7677. What is
kept of passwords is compared with what PostgreSQL's library makes of them, where Python has it.
"""
import base64
import contextlib
import ctypes
import hashlib
import os
import random
import re
import shutil
import signal
import socket
import stat
import subprocess
import sys
import tempfile
import threading
import time
import traceback
import unittest
from unittest import mock

from program import PATIENCE, PROGRAM, TOP, free_port, make_database, run
import guarddb
import guarddb_scram
from guarddb import ANSWER, CLOSE, FIRST, LAST, MESSAGE, OPEN, STATEMENT, BadServer, PasswordRefused, Refused
from guarddb_scram import Exchange

CLIENTS = os.path.join(TOP, 'clients')
SECRET = 'correct horse; battery:staple'
REFUSED, BAD = b'refused 28000\n', b'refused 08P01\n'
LIMIT = 10          # seconds that one may be there without a session
OWN = 'role = session_user AND role = current_user'
# RFC 7677, 3: the user "user" with the password "pencil".
NONCE = 'rOprNGfwEbeRWgbNEkqO'
TOLD = 'r=rOprNGfwEbeRWgbNEkqO%hvYDpWUa2RaTCAfuxFIlj)hNlF$k0,s=W22ZaJ0SNY7soEsUEjb6gQ==,i=4096'
SHOWN = 'c=biws,r=rOprNGfwEbeRWgbNEkqO%hvYDpWUa2RaTCAfuxFIlj)hNlF$k0,p=dHzbZapWIk4jUhN+Ute9ytag9zjfMHgsqmmiz7AndVQ='
SIGNED = 'v=6rriTRBi23WpRR/wtup+mMhUZUn/dB5nLTJRsjl95G4='
SALT = base64.b64decode('W22ZaJ0SNY7soEsUEjb6gQ==')


def frame(kind, number, payload=b''):
    return guarddb.HEAD.pack(5 + len(payload), kind, number) + payload


def beginning(role, first):
    return role.encode() + b'\0' + first.encode()


def made_by_postgres(passwords):
    """The verifiers that PostgreSQL's library makes of passwords, over a connection that does not come about; None without the library."""
    try:
        library = ctypes.CDLL('libpq.so.5')
    except OSError:
        return None
    library.PQconnectStart.restype, library.PQencryptPasswordConn.restype = ctypes.c_void_p, ctypes.c_char_p
    connection = ctypes.c_void_p(library.PQconnectStart(b'no_such_option=1'))
    texts = [library.PQencryptPasswordConn(connection, password.encode(), b'ann', b'scram-sha-256') for password in passwords]
    library.PQfinish(connection)
    return [text.decode() for text in texts]


def run_password(*words, given=''):
    """Runs clients/password.py."""
    return subprocess.run([sys.executable, os.path.join(CLIENTS, 'password.py'), *words], input=given, text=True, capture_output=True,
                          env={**os.environ, 'PYTHONDONTWRITEBYTECODE': '1'}, start_new_session=True, timeout=PATIENCE)


class Verifiers(unittest.TestCase):
    """What is kept of a password, and the client's side of an exchange."""

    def test_the_exchange_of_the_standard(self):
        exchange = Exchange('pencil', NONCE, 'user')
        self.assertEqual(exchange.first(), f'n,,n=user,r={NONCE}')
        self.assertEqual(exchange.last(TOLD), SHOWN)
        exchange.check(SIGNED)
        for other in ('v=6rriTRBi23WpRR/wtup+mMhUZUn/dB5nLTJRsjl95G5=', SIGNED[:-1], SIGNED + '\n', '', 'v=', 'e=other-error', 'é', '\ud800'[:0]):
            with self.assertRaises(BadServer):
                exchange.check(other)

    def test_a_server_that_breaks_the_rules(self):
        salt = 'W22ZaJ0SNY7soEsUEjb6gQ=='
        for told in ('', TOLD + ',', TOLD + '\n', TOLD[:-5], f'm=ext,{TOLD}', f'r={NONCE}x,s={salt}', f'r={NONCE}x,s={salt},i=04096', f'r={NONCE}x,s=,i=4096',
                     f'r={NONCE}x,s={salt[:-1]},i=4096', f'r={NONCE}x,s=AAAAA,i=4096', f'r={NONCE},s={salt},i=4096', f'r={NONCE[:-1]},s={salt},i=4096',
                     f'r=x{NONCE}x,s={salt},i=4096', f'r={NONCE}é,s={salt},i=4096', f'r={NONCE}x,s={salt},i=4095', f'r={NONCE}x,s={salt},i=1',
                     f'r={NONCE}x,s={salt},i=1000001', f'r={NONCE}x,s={salt},i={"9" * 5000}', f'r={NONCE}x,s={salt},i=-4096'):
            with self.subTest(told), self.assertRaises(BadServer), mock.patch('hashlib.pbkdf2_hmac', side_effect=AssertionError):
                Exchange('pencil', NONCE, 'user').last(told)
        for count in (4096, 1000000):
            Exchange('pencil', NONCE, 'user').last(f'r={NONCE}x,s={salt},i={count}')
        with self.assertRaises(BadServer):      # before the first message of the server
            Exchange('pencil').check(SIGNED)

    def test_the_verifier_by_the_standard(self):
        """StoredKey and ServerKey as RFC 5802, 3 has them."""
        salted = hashlib.pbkdf2_hmac('sha256', b'pencil', SALT, 4096)
        stored = hashlib.sha256(guarddb_scram.code(salted, b'Client Key')).digest()
        expected = f'SCRAM-SHA-256$4096:{base64.b64encode(SALT).decode()}${base64.b64encode(stored).decode()}:'
        text = guarddb_scram.verifier('pencil', SALT)
        self.assertEqual(text, expected + base64.b64encode(guarddb_scram.code(salted, b'Server Key')).decode())
        self.assertNotEqual(guarddb_scram.verifier('pencil'), guarddb_scram.verifier('pencil'))

    @unittest.skipUnless(made_by_postgres([]) == [], "PostgreSQL's library is not there")
    def test_verifiers_of_another_program(self):
        random.seed(7)
        passwords = ['pencil', ' ', '~', 'a b', "it's $ : \\ %"] + [''.join(random.choices([*map(chr, range(32, 127))], k=size)) for size in (1, 16, 63, 64, 65, 200)]
        for password, text in zip(passwords, made_by_postgres(passwords)):
            with self.subTest(password):
                count, salt = re.match(r'SCRAM-SHA-256\$([0-9]+):([^$]+)\$', text).groups()
                self.assertEqual(guarddb_scram.verifier(password, base64.b64decode(salt), int(count)), text)

    def test_what_is_no_password(self):
        for password in ('', 'x' * 1025, 'pässword', 'a\tb', 'a\n', 'a\0', '\x7f', b'pencil', None):
            for call in (guarddb_scram.verifier, Exchange):
                with self.assertRaises(ValueError) as found:
                    call(password)
                self.assertEqual(str(found.exception), 'a password has 1 to 1,024 characters of ASCII, from the space to the tilde')

    def test_the_tool(self):
        for given in ('pencil', 'pencil\n', ' a $ b '):
            text, = run_password(given=given).stdout.splitlines()
            salt = base64.b64decode(re.match(r'SCRAM-SHA-256\$4096:([^$]{24})\$', text)[1])
            self.assertEqual(text, guarddb_scram.verifier(given.rstrip('\n'), salt))
        new = [run_password('--new').stdout.splitlines() for _ in range(2)]
        for password, text in new:
            self.assertRegex(password, r'\A[A-Za-z0-9_-]{32}\Z')
            self.assertEqual(text, guarddb_scram.verifier(password, base64.b64decode(re.match(r'SCRAM-SHA-256\$4096:([^$]{24})\$', text)[1])))
        self.assertNotEqual(new[0], new[1])
        texts = {run_password('--mock').stdout for _ in range(2)}
        self.assertEqual(len(texts), 2)
        for text in texts:
            self.assertRegex(text, r'\ASCRAM-SHA-256\$4096:[A-Za-z0-9+/]{22}==\$[A-Za-z0-9+/]{43}=:[A-Za-z0-9+/]{43}=\n\Z')

    def test_the_tool_with_other_words(self):
        for words, given, status in ((SECRET,), '', 2), (('--new', SECRET), '', 2), ((), f'{SECRET}\nmore\n', 1), ((), 'é' + SECRET, 1), ((), '', 1), ((), '\n', 1):
            done = run_password(*words, given=given)
            self.assertEqual((done.returncode, done.stdout), (status, ''))
            self.assertNotIn(SECRET, done.stderr)
            self.assertEqual(done.stderr.count('\n'), 1, done.stderr)


# ---- the client beside servers of its own

class Peer:
    """A server that says to the one client what a function tells of each frame that has come: the bytes of its answer, None for the end."""
    def __init__(self, talk):
        self.listener, self.talk, self.got = socket.create_server(('127.0.0.1', 0)), talk, []
        self.port = self.listener.getsockname()[1]
        self.thread = threading.Thread(target=self.serve)
        self.thread.start()

    def serve(self):
        stream, _ = self.listener.accept()
        with stream, self.listener, contextlib.suppress(OSError), stream.makefile('rb') as came:
            while len(head := came.read(9)) == 9:
                length, kind, number = guarddb.HEAD.unpack(head)
                self.got.append((kind, number, came.read(length - 5)))
                said = self.talk(*self.got[-1])
                if said is None:
                    return
                stream.sendall(said)

    def __enter__(self):
        return self

    def __exit__(self, *_):
        self.thread.join()


def challenge_to(payload, count=4096, nonce='%s+server'):
    """The server's first message to a client's, with the salt of the standard."""
    own = payload.rpartition(b'r=')[2].decode()
    return f'r={nonce % own if "%s" in nonce else nonce},s={base64.b64encode(SALT).decode()},i={count}'


class Client(unittest.TestCase):
    """The client beside servers of bytes."""

    def refused_by(self, talk, fault, text, frames):
        """What `connect` raises, none of which has the password, and how many frames were sent."""
        with Peer(talk) as peer, self.assertRaises(fault) as found:
            guarddb.connect(peer.port, timeout=PATIENCE, user='ann', password=SECRET)
        self.assertEqual(len(peer.got), frames, peer.got)
        self.assertRegex(str(found.exception), text)
        told = ''.join(traceback.format_exception(type(found.exception), found.exception, found.exception.__traceback__)) + repr(found.exception) + repr(found.exception.__context__)
        self.assertNotIn(SECRET, told)
        return found.exception

    def test_an_exchange(self):
        verifier = guarddb_scram.verifier(SECRET, SALT)
        server_key, told = base64.b64decode(verifier.rpartition(':')[2]), []

        def talk(kind, number, payload):
            if kind == FIRST:
                told.extend([payload.partition(b'n,,')[2].decode(), challenge_to(payload)])
                return frame(MESSAGE, number, told[1].encode())
            if kind == LAST:
                messages = f'{told[0]},{told[1]},{payload.decode().partition(",p=")[0]}'
                return frame(MESSAGE, number, b'v=' + base64.b64encode(guarddb_scram.code(server_key, messages.encode())))
            return frame(ANSWER, number, b'ok OPEN\n' if kind == OPEN else b'ok CLOSE\n')
        with Peer(talk) as peer, guarddb.connect(peer.port, timeout=PATIENCE, user='Zoë', password=SECRET) as connection:
            with connection.open('Zoë'), connection.open('Zoë'):
                pass
            self.assertNotIn(SECRET, repr(connection) + repr(vars(connection)))
        self.assertEqual([kind for kind, _, _ in peer.got], [FIRST, LAST, OPEN, OPEN, CLOSE, CLOSE])    # shown once
        self.assertRegex(peer.got[0][2], 'Zoë'.encode() + rb'\0n,,n=,r=[A-Za-z0-9+/]{24}\Z')
        self.assertEqual(peer.got[2][1:], (1, 'Zoë'.encode()))

    def test_servers_that_do_not_know_the_password(self):
        for count, nonce, text in (4095, '%s+', 'asks for 4095 iterations'), (1000001, '%s+', 'asks for 1000001 iterations'), (4096, '%s', 'does not answer this exchange'), \
                (4096, 'x', 'does not answer this exchange'):
            self.refused_by(lambda kind, number, payload: frame(MESSAGE, number, challenge_to(payload, count, nonce).encode()), BadServer, text, 1)
        for signed in (SIGNED, '', 'e=invalid-proof', 'v=', 'vé'):
            self.refused_by(lambda kind, number, payload: frame(MESSAGE, number, (challenge_to(payload) if kind == FIRST else signed).encode()), BadServer,
                            'does not show that it keeps the verifier', 2)

    def test_refusals(self):
        for text, code, fault in (r'\A28000 invalid_authorization_specification: password refused\Z', b'28000', PasswordRefused), \
                (r'\A08P01 protocol_violation: password refused, since this place asks for none\Z', b'08P01', PasswordRefused), \
                (r'\A53300 too_many_connections: ', b'53300', Refused), (r'\A58030 io_error: ', b'58030', Refused):
            found = self.refused_by(lambda kind, number, payload: frame(ANSWER, 0, b'refused %s\n' % code), fault, text, 1)
            self.assertEqual((found.code, found.statement, type(found)), (code.decode(), None, fault))
        self.refused_by(lambda kind, number, payload: frame(MESSAGE, number, challenge_to(payload).encode()) if kind == FIRST else frame(ANSWER, number, REFUSED),
                        PasswordRefused, 'password refused', 2)

    def test_what_is_no_answer(self):
        for said in (frame(ANSWER, 0, b'ok OPEN\n'), frame(ANSWER, 0, b'refused 28000'), frame(ANSWER, 0), frame(MESSAGE, 3, b'r='), frame(1, 0), b'\0\0\0\4' + b'x' * 9,
                     b'HTTP/1.1 400 Bad Request\r\n'):
            self.refused_by(lambda kind, number, payload: said, ConnectionError, 'no answer of a Guarddb server to a password', 1)
        for last in (frame(ANSWER, 0, b'ok OPEN\n'), frame(ANSWER, 0, b'rows 0\n')):       # it opens nothing for a server that shows nothing
            self.refused_by(lambda kind, number, payload: frame(MESSAGE, number, challenge_to(payload).encode()) if kind == FIRST else last,
                            ConnectionError, 'no answer of a Guarddb server to a password', 2)
        self.refused_by(lambda kind, number, payload: None, ConnectionError, 'the server ended the connection|reset', 1)

    def test_a_server_that_says_nothing(self):
        with Peer(lambda kind, number, payload: b'') as peer, self.assertRaises(socket.timeout) as found:
            guarddb.connect(peer.port, timeout=0.2, user='ann', password=SECRET)
        self.assertEqual(str(found.exception), 'no answer came within 0.2 seconds: the password was not shown')

    def test_what_is_not_tried(self):
        """Nothing connects: there is no such place."""
        for user, password, fault in ('ann', None, TypeError), (None, SECRET, TypeError), ('ann', '', ValueError), ('ann', SECRET + 'é', ValueError), ('', SECRET, ValueError), \
                ('a\0b', SECRET, ValueError), ('a' * 64, SECRET, ValueError):
            with self.subTest(user), self.assertRaises(fault) as found:
                guarddb.connect('/no/such/place', user=user, password=password)
            self.assertNotIn(SECRET, str(found.exception))

    def test_a_connection_without_a_password(self):
        """It is what it was, byte for byte."""
        with Peer(lambda kind, number, payload: frame(ANSWER, number, b'ok OPEN\n' if kind == OPEN else b'ok CLOSE\n')) as peer:
            with guarddb.connect(peer.port, timeout=PATIENCE) as connection, connection.open('ann'):
                pass
        self.assertEqual(peer.got, [(OPEN, 1, b'ann'), (CLOSE, 1, b'')])


# ---- the program

def proven(exchange, said, bare):
    """A client's last message that begins so, with the proof of ann's password for it, and the server's answer."""
    _, salt, count = guarddb_scram.CHALLENGE.fullmatch(said).groups()
    client_key, stored_key, server_key = guarddb_scram.keys('ann' + SECRET, base64.b64decode(salt), int(count))
    messages = f'{exchange.bare},{said},{bare}'.encode()
    proof = guarddb_scram.mixed(client_key, guarddb_scram.code(stored_key, messages))
    return f'{bare},p={base64.b64encode(proof).decode()}'.encode(), b'v=' + base64.b64encode(guarddb_scram.code(server_key, messages))


class Raw:
    """A client that sends frames as it is told to."""
    def __init__(self, where):
        self.socket = socket.socket(socket.AF_UNIX if isinstance(where, str) else socket.AF_INET)
        self.socket.settimeout(PATIENCE)
        self.socket.connect(where if isinstance(where, str) else ('127.0.0.1', where))
        self.input = self.socket.makefile('rb')

    def __enter__(self):
        return self

    def __exit__(self, *_):
        self.input.close()
        self.socket.close()

    def send(self, sent, size=1 << 20):
        for cut in range(0, len(sent), size):
            self.socket.sendall(sent[cut:cut + size])

    def next(self):
        """The next frame: its kind, its number and its payload. None at the end."""
        try:
            head = self.input.read(9)
            if len(head) < 9:
                return None
            length, kind, number = guarddb.HEAD.unpack(head)
            return kind, number, self.input.read(length - 5)
        except ConnectionResetError:
            return None

    def rest(self):
        return [*iter(self.next, None)]

    def ask(self, kind, number, payload):
        self.send(frame(kind, number, payload))
        return self.next()

    def show(self, role, password, label=9, size=1 << 20):
        """Runs an exchange; what the server says to the last message."""
        exchange = Exchange(password)
        self.send(frame(FIRST, label, beginning(role, exchange.first())), size)
        self.send(frame(LAST, label, exchange.last(self.next()[2].decode()).encode()), size)
        return exchange, self.next()


class Refusals:
    """Clients that are refused, a second after they have sent something, and are told nothing more. All are awaited at once."""
    def __init__(self, test):
        self.test, self.expected = test, []

    def expect(self, answer, sent, client=None):
        client = client or Raw(self.test.place)
        self.expected.append((client, answer, sent, time.monotonic()))
        client.send(sent)

    def __enter__(self):
        return self

    def __exit__(self, _, fault, __):
        for client, answer, sent, since in self.expected:
            with client:
                self.test.assertEqual([answer] if fault else client.rest(), [answer], sent)
                self.test.assertGreater(time.monotonic() - since, 0.5 * (not fault), sent)


class AtPlace(unittest.TestCase):
    """A database with a table of passwords, and places that ask for them."""

    ROLES = ['ann', 'bob', 'cid', 'mock']
    SETUP = ['open r root', *(f'r: CREATE ROLE {role} LOGIN' for role in ROLES), 'r: CREATE ROLE dan',
             'r: CREATE TABLE logins (role TEXT PRIMARY KEY, verifier TEXT)', 'r: ALTER TABLE logins ENABLE ROW LEVEL SECURITY',
             f'r: CREATE POLICY own_login ON logins USING ({OWN}) WITH CHECK ({OWN})', 'r: GRANT SELECT (role), UPDATE (verifier) ON logins TO PUBLIC',
             *(f"r: INSERT INTO logins VALUES ('{role}', '{guarddb_scram.verifier(role + SECRET)}')" for role in ('root', 'ann', 'bob', 'dan')),
             f"r: INSERT INTO logins VALUES ('mock', '{guarddb_scram.mock()}')",
             'r: CREATE TABLE others (role TEXT PRIMARY KEY, verifier TEXT)', 'r: INSERT INTO others VALUES (\'cid\', NULL)',
             'open a ann', 'a: CREATE TABLE hers (role TEXT PRIMARY KEY, verifier TEXT)',
             *(f"a: INSERT INTO hers VALUES ('{role}', '{guarddb_scram.verifier(role + SECRET)}')" for role in ('ann', 'mock'))]
    made = None

    def setUp(self):
        self.folder = tempfile.mkdtemp(prefix='pw-')
        self.addCleanup(shutil.rmtree, self.folder)
        self.path = os.path.join(self.folder, 'db')
        if not AtPlace.made:
            make_database(self.path)
            script = os.path.join(self.folder, 'setup.sql')
            with open(script, 'w', encoding='utf-8') as file:
                file.write('\n'.join(self.SETUP) + '\n')
            status, printed, messages = run('run', self.path, script)
            self.assertEqual((status, 'refused' in printed), (0, False), printed + messages)
            with open(self.path, 'rb') as file:
                AtPlace.made = file.read()
        with open(self.path, 'wb') as file:
            file.write(AtPlace.made)
        self.place = os.path.join(self.folder, 'sock')

    @contextlib.contextmanager
    def served(self, table='logins', role='mock', port=None, ends=signal.SIGTERM):
        """A server at a socket, or at a port. It is ended by a signal."""
        where = f'port:{port}' if port else f'socket:{self.place}'
        server = subprocess.Popen([PROGRAM, 'serve', self.path, '--at', f'{where},passwords={table},mock={role}', '--clients', '40'],
                                  stdout=subprocess.DEVNULL, stderr=subprocess.PIPE, text=True)
        try:
            self.assertEqual(server.stderr.readline(), f'guarddb: listening on {f"127.0.0.1:{port}" if port else self.place}\n')
            yield server
            server.send_signal(ends)
            self.assertEqual((server.communicate(timeout=PATIENCE)[1], server.returncode), ('', -ends))
        finally:
            if server.poll() is None:
                server.kill()
            server.communicate()

    def connect(self, role='ann', password=None):
        return guarddb.connect(self.place, timeout=PATIENCE, user=role, password=password or role + SECRET)

    def refuses(self, code, call, *words):
        with self.assertRaises(Refused) as found:
            call(*words)
        self.assertEqual(found.exception.code, code)
        return found.exception

    def takes(self, role, password):
        """Whether a password is a role's."""
        try:
            with self.connect(role, password):
                return True
        except PasswordRefused as refusal:
            self.assertEqual(str(refusal), '28000 invalid_authorization_specification: password refused')
            return False

    def update(self, role, password):
        return f"UPDATE logins SET verifier = '{guarddb_scram.verifier(password)}' WHERE role = '{role}'"


class Places(AtPlace):
    def test_who_is_let_in(self):
        with self.served():
            with self.connect() as connection, connection.open('ann') as ann, connection.open('ann'):
                self.assertEqual(ann.ask('SELECT session_user, current_user'), [['ann', 'ann']])
                for role in ('root', 'bob', 'mock', 'nobody', 'Ann'):
                    self.refuses('28000', connection.open, role)
                self.assertEqual(ann.ask('SELECT role FROM logins'), [['ann']])
            for role, password, is_right in [('bob', 'bob' + SECRET, True), ('root', 'root' + SECRET, True), ('ann', 'bob' + SECRET, False), ('ann', 'x', False),
                                             ('nobody', SECRET, False), ('cid', SECRET, False), ('dan', 'dan' + SECRET, False), ('mock', SECRET, False), ('ANN', 'ann' + SECRET, False)]:
                with self.subTest(role, password=password):
                    self.assertEqual(self.takes(role, password), is_right)

    def test_what_a_stranger_is_told(self):
        """The same of each role, but salt and nonce, whether it is there, has a verifier and may log in, or not."""
        salts = {}
        with self.served(), Refusals(self) as refusals:
            for role in ('ann', 'bob', 'cid', 'dan', 'mock', 'nobody', 'ann ', 'é', '', 'x' * 900):
                with self.subTest(role):
                    client, exchange = Raw(self.place), Exchange('wrong' + SECRET)
                    said = client.ask(FIRST, 9, beginning(role, exchange.first()))[2].decode()
                    refusals.expect((ANSWER, 9, REFUSED), frame(LAST, 9, exchange.last(said).encode()), client)
                    salts[role] = self.salt(role)
        self.assertEqual(len(set(salts.values())), len(salts))
        with self.served():
            self.assertEqual({role: self.salt(role) for role in salts}, salts)

    def salt(self, role):
        """The salt that is told for a role, the same each time, in a message that has nothing else but the nonce."""
        salts = set()
        for _ in range(2):
            with Raw(self.place) as client:
                kind, number, said = client.ask(FIRST, 1, beginning(role, 'n,,n=,r=abc'))
                self.assertEqual((kind, number), (MESSAGE, 1))
                found = re.fullmatch(rb'r=abc([A-Za-z0-9+/]{22,}={0,2}),s=([A-Za-z0-9+/]{22}==),i=4096', said)
                self.assertTrue(found, said)
                salts.add(found[2])
        self.assertEqual(len(salts), 1)
        return salts.pop()

    def test_nonces_differ(self):
        with self.served():
            said = set()
            for _ in range(20):
                with Raw(self.place) as client:
                    said.add(client.ask(FIRST, 1, beginning('ann', 'n,,n=,r=abc'))[2])
            self.assertEqual(len(said), 20)

    def test_tables_that_keep_nothing(self):
        """Of a role that is no superuser, of none, without a row of the mock's role, and of a mock's role that may not log in, or is none."""
        for table, role in ('hers', 'mock'), ('nowhere', 'mock'), ('others', 'mock'), ('logins', 'cid'), ('logins', 'dan'), ('logins', 'nobody'):
            with self.subTest(table, role=role), self.served(table, role), Raw(self.place) as client:
                self.assertEqual(client.ask(FIRST, 7, beginning('ann', Exchange('x').first())), (ANSWER, 7, REFUSED))
                self.assertEqual(client.rest(), [])
                self.assertFalse(self.takes('ann', 'ann' + SECRET))

    def test_what_comes_before_the_exchange(self):
        """An event is refused a second later, and the connection ends. What it has done is nothing."""
        with self.served(), Refusals(self) as refusals:
            for kind, payload in (OPEN, b'ann'), (OPEN, b'root'), (OPEN, b''), (STATEMENT, b'SELECT 1'), (CLOSE, b''), (CLOSE, b'x'), (OPEN, b'\xff'):
                with self.subTest(kind, payload=payload):
                    refusals.expect((ANSWER, 5, REFUSED), frame(kind, 5, payload) + frame(OPEN, 6, b'ann') * bool(kind - CLOSE))       # which nothing comes of
            client = Raw(self.place)        # in its middle
            self.assertEqual(client.ask(FIRST, 1, beginning('ann', 'n,,n=,r=abc'))[0], MESSAGE)
            refusals.expect((ANSWER, 3, REFUSED), frame(OPEN, 3, b'ann'), client)

    def test_what_is_no_frame_here(self):
        first = beginning('ann', 'n,,n=,r=abc')
        with self.served():
            for sent in (frame(LAST, 1, b'c=biws'), frame(MESSAGE, 1, b'r=abc'), frame(ANSWER, 1, b'ok OPEN\n'), frame(0, 1), frame(255, 1), frame(FIRST, 1, b'ann'),
                         frame(FIRST, 1), frame(FIRST, 1, b'\xff\0n,,n=,r=abc'), b'\0\0\0\4', b'\0\0\0\0', b'\0\0\4\x4d', b'\0\1\0\0', b'GET / HTTP/1.1'):
                with self.subTest(sent), Raw(self.place) as client:
                    client.send(sent)
                    self.assertEqual(client.rest(), [(ANSWER, 0, BAD)])
            for sent in frame(FIRST, 1, first), frame(LAST, 2, b'c=biws'), frame(MESSAGE, 1, b'x'), frame(FIRST, 2, first), b'\0\0\4\x4d':
                with self.subTest(sent), Raw(self.place) as client:
                    self.assertEqual(client.ask(FIRST, 1, first)[0], MESSAGE)
                    client.send(sent)
                    self.assertEqual(client.rest(), [(ANSWER, 0, BAD)])
            with Raw(self.place) as client:     # the greatest frame
                longest = beginning('x' * (1100 - 5 - len('\0n,,n=,r=abc')), 'n,,n=,r=abc')
                self.assertEqual(len(frame(FIRST, 1, longest)), 1104)
                self.assertEqual(client.ask(FIRST, 1, longest)[0], MESSAGE)

    def test_messages_that_are_none(self):
        with self.served(), Refusals(self) as refusals:
            for first in ('', 'n,,', 'n,,n=', 'n,,n=,r=', 'n,,r=abc', 'n,a=root,n=,r=abc', 'p=tls-unique,,n=,r=abc', 'n,,m=x,n=,r=abc', 'n,,n=,r=a b', 'n,,n=,r=é', 'n,,n=,r=abc,x=y',
                          'N,,n=,r=abc', ' n,,n=,r=abc', 'n,,n=,r=abc\0'):
                with self.subTest(first):
                    refusals.expect((ANSWER, 1, REFUSED), frame(FIRST, 1, beginning('ann', first)))
            for change in (lambda last: last + ' ', lambda last: last.replace('c=biws', 'c=eSws'), lambda last: re.sub(',r=.', ',r=', last), lambda last: re.sub(',p=.*', '', last),
                           lambda last: re.sub('(,p=.).', r'\1!', last), lambda last: last.replace(',p=', ',x=y,p='), lambda last: ''):
                client, exchange = Raw(self.place), Exchange('ann' + SECRET)
                said = client.ask(FIRST, 1, beginning('ann', exchange.first()))[2].decode()
                refusals.expect((ANSWER, 1, REFUSED), frame(LAST, 1, change(exchange.last(said)).encode()), client)

    def test_headers_and_names(self):
        """`y,,`, and a name in the first message, which says nothing here."""
        with self.served():
            for header, name in ('n,,', ''), ('y,,', ''), ('n,,', 'root'), ('n,,', 'é=2C'):
                with Raw(self.place) as client:
                    exchange = Exchange('ann' + SECRET, name=name)
                    said = client.ask(FIRST, 1, beginning('ann', header + exchange.bare))[2].decode()
                    last, signed = proven(exchange, said, f'c={base64.b64encode(header.encode()).decode()},{said.partition(",")[0]}')
                    self.assertEqual(client.ask(LAST, 1, last), (MESSAGE, 1, signed))
                    self.assertEqual(client.ask(OPEN, 1, b'ann'), (ANSWER, 1, b'ok OPEN\n'))

    def test_other_messages_with_their_proof(self):
        """The header or the nonce is another one, and the proof is right for it."""
        with self.served(), Refusals(self) as refusals:
            for change in (lambda nonce: f'c=eSws,{nonce}', lambda nonce: f'c=biws,{nonce}x', lambda nonce: f'c=biws,{nonce[:-1]}', lambda nonce: 'c=biws,r=abc', lambda nonce: f'c=biws,{nonce},x=y',
                           lambda nonce: f'{nonce},c=biws', lambda nonce: f'c=,{nonce}', lambda nonce: f'c=biwsbg==,{nonce}'):
                client, exchange = Raw(self.place), Exchange('ann' + SECRET)
                said = client.ask(FIRST, 1, beginning('ann', exchange.first()))[2].decode()
                refusals.expect((ANSWER, 1, REFUSED), frame(LAST, 1, proven(exchange, said, change(said.partition(',')[0]))[0]), client)

    def test_byte_by_byte_and_at_once(self):
        events = frame(OPEN, 1, b'ann') + frame(STATEMENT, 1, b'SELECT session_user') + frame(CLOSE, 1)
        with self.served():
            for size in (1, 7, 1 << 20):
                with self.subTest(size), Raw(self.place) as client:
                    exchange = Exchange('ann' + SECRET)
                    client.send(frame(FIRST, 9, beginning('ann', exchange.first())), size)
                    last = frame(LAST, 9, exchange.last(client.next()[2].decode()).encode())
                    client.send(last + events, size)
                    exchange.check(client.next()[2].decode())
                    self.assertEqual([client.next() for _ in range(3)], [(ANSWER, 1, b'ok OPEN\n'), (ANSWER, 1, b'rows 1\nann\n'), (ANSWER, 1, b'ok CLOSE\n')])

    def test_a_second_exchange(self):
        with self.served():
            for kind, payload in (FIRST, beginning('ann', Exchange('x').first())), (LAST, b'c=biws'):
                with Raw(self.place) as client:
                    self.assertEqual(client.show('ann', 'ann' + SECRET)[1][0], MESSAGE)
                    self.assertEqual(client.ask(OPEN, 1, b'ann'), (ANSWER, 1, b'ok OPEN\n'))
                    client.send(frame(kind, 9, payload))
                    self.assertEqual(client.rest(), [(ANSWER, 0, BAD)])
            with Raw(self.place) as first, Raw(self.place) as second:       # what one has shown shows nothing for another
                exchange = Exchange('ann' + SECRET)
                said = first.ask(FIRST, 1, beginning('ann', exchange.first()))[2].decode()
                last = exchange.last(said).encode()
                self.assertEqual(second.ask(FIRST, 1, beginning('ann', exchange.first()))[0], MESSAGE)
                self.assertEqual(second.ask(LAST, 1, last), (ANSWER, 1, REFUSED))
                self.assertEqual(first.ask(LAST, 1, last)[0], MESSAGE)

    def test_a_port(self):
        port = free_port()
        with self.served(port=port), guarddb.connect(port, timeout=PATIENCE, user='ann', password='ann' + SECRET) as connection, connection.open('ann') as ann:
            self.assertEqual(ann.ask('SELECT session_user'), [['ann']])

    @unittest.skipIf(os.geteuid() != 0, 'only root can be another user')
    def test_another_user_at_a_port(self):
        """The user nobody, without a password."""
        port = free_port()
        with self.served(port=port):
            for role in (b'root', b'ann', b'nobody'):
                child = os.fork()
                if child == 0:
                    status = 1
                    with contextlib.suppress(BaseException):
                        os.setgroups([])
                        os.setgid(65534)
                        os.setuid(65534)
                        with Raw(port) as client:
                            status = 0 if (client.ask(OPEN, 1, role), client.rest()) == ((ANSWER, 1, REFUSED), []) else 2
                    os._exit(status)
                self.assertEqual(os.waitstatus_to_exitcode(os.waitpid(child, 0)[1]), 0)


    def test_strangers_keep_nobody_out(self):
        """Of those without a session the first ends for a new one once 32 are there, and all end after ten seconds, whatever bytes they send. Sessions stay."""
        with self.served(), self.connect() as connection, connection.open('ann') as ann:
            begun = time.monotonic()
            strangers = [Raw(self.place) for _ in range(40)]
            strangers[-1].send(b'\0')
            with self.connect() as another, another.open('ann') as other:
                self.assertEqual(other.ask('SELECT session_user'), [['ann']])
            self.assertEqual(strangers[0].rest(), [])
            self.assertLess(time.monotonic() - begun, LIMIT - 1)
            time.sleep(LIMIT / 2)
            strangers[-1].send(b'\0')
            self.assertEqual(strangers[-1].rest(), [])
            self.assertGreater(time.monotonic() - begun, LIMIT - 1)
            self.assertEqual(ann.ask('SELECT session_user'), [['ann']])
            for stranger in strangers:
                stranger.__exit__()


class Changes(AtPlace):
    """Passwords that are changed while the database is served."""

    def test_a_role_changes_its_own(self):
        with self.served(), self.connect() as connection, connection.open('ann') as ann:
            self.assertEqual(ann.ask(self.update('ann', 'new')).count, 1)
            self.assertEqual(ann.ask(self.update('bob', 'new')).count, 0)
            for statement in ('SELECT verifier FROM logins', "INSERT INTO logins VALUES ('cid', 'x')", 'DELETE FROM logins', "UPDATE logins SET role = 'cid'"):
                self.refuses('42501', ann.ask, statement)
            self.assertTrue(self.takes('ann', 'new'))
            self.assertTrue(self.takes('bob', 'bob' + SECRET))

    def test_who_acts_for_another(self):
        """A role that is set changes no password: neither that of the role that is set, nor that of the one that sets it."""
        with self.served(), self.connect('root') as connection, connection.open('root') as root, self.connect('bob') as bobs, bobs.open('bob') as bob:
            root.ask('GRANT ann TO bob')
            bob.ask('SET ROLE ann')
            self.assertEqual(bob.ask('SELECT role FROM logins'), [])
            for role in ('ann', 'bob', 'root'):
                self.assertEqual(bob.ask(self.update(role, 'new')).count, 0)
            bob.ask('RESET ROLE')
            self.assertEqual([bob.ask(self.update(role, 'new')).count for role in ('ann', 'bob', 'root')], [0, 1, 0])
            self.assertEqual([root.ask(self.update(role, 'new')).count for role in ('ann', 'bob', 'root', 'nobody')], [1, 1, 1, 0])

    def test_the_other_sessions_of_a_role(self):
        """In an open block nothing is changed. Once it is committed what was shown before opens no more sessions, and open ones go on."""
        with self.served(), self.connect() as connection, connection.open('ann') as ann, connection.open('ann') as other:
            ann.ask('BEGIN')
            ann.ask(self.update('ann', 'new'))
            self.assertEqual((self.takes('ann', 'ann' + SECRET), self.takes('ann', 'new')), (True, False))
            with connection.open('ann'):
                pass
            ann.ask('ROLLBACK')
            self.assertEqual((self.takes('ann', 'ann' + SECRET), self.takes('ann', 'new')), (True, False))
            ann.ask(self.update('ann', 'new'))
            self.assertEqual((self.takes('ann', 'ann' + SECRET), self.takes('ann', 'new')), (False, True))
            self.refuses('28000', connection.open, 'ann')
            for session in (ann, other):
                self.assertEqual(session.ask('SELECT session_user'), [['ann']])
            self.refuses('28000', connection.open, 'ann')
            with self.connect('ann', 'new') as again, again.open('ann'):
                pass

    def test_a_password_that_is_taken_away(self):
        with self.served(), self.connect('root') as connection, connection.open('root') as root, self.connect() as anns, anns.open('ann') as ann:
            for statement in ("UPDATE logins SET verifier = NULL WHERE role = 'ann'", "UPDATE logins SET verifier = 'md5' WHERE role = 'ann'", "DELETE FROM logins WHERE role = 'ann'"):
                root.ask(statement)
                self.assertFalse(self.takes('ann', 'ann' + SECRET))
                self.refuses('28000', anns.open, 'ann')
            self.assertEqual(ann.ask('SELECT 1'), [['1']])
            root.ask("DELETE FROM logins WHERE role = 'mock'")      # then nobody is let in
            self.assertFalse(self.takes('bob', 'bob' + SECRET))
            self.assertEqual(root.ask('SELECT 1'), [['1']])

    def test_a_change_in_the_middle_of_an_exchange(self):
        with self.served(), self.connect('root') as connection, connection.open('root') as root, Raw(self.place) as client:
            exchange = Exchange('bob' + SECRET)
            last = exchange.last(client.ask(FIRST, 1, beginning('bob', exchange.first()))[2].decode())
            root.ask(self.update('bob', 'bob' + SECRET))        # the same password, by another verifier
            self.assertEqual(client.ask(LAST, 1, last.encode()), (ANSWER, 1, REFUSED))

    def is_over(self, connection):
        self.assertEqual(connection.input.read(), b'')
        connection.close()

    def test_a_role_that_is_dropped(self):
        """Who has a session for it or has shown its password ends. A row that stays is the password of a role that is made again."""
        with self.served(), self.connect('root') as connection, connection.open('root') as root, self.connect('ann') as anns, anns.open('ann') as ann:
            bobs, shown = self.connect('bob'), self.connect('bob')
            bobs.open('bob')
            root.ask('DROP ROLE bob')
            self.is_over(bobs)
            self.is_over(shown)
            self.assertFalse(self.takes('bob', 'bob' + SECRET))
            root.ask('CREATE ROLE bob LOGIN')
            self.assertTrue(self.takes('bob', 'bob' + SECRET))
            later = self.connect('bob')
            for statement in ('BEGIN', "DELETE FROM logins WHERE role = 'bob'", 'DROP ROLE bob', 'COMMIT', 'CREATE ROLE bob LOGIN'):
                root.ask(statement)
            self.is_over(later)
            self.assertFalse(self.takes('bob', 'bob' + SECRET))
            self.assertEqual(list(ann.ask('SELECT session_user')), [['ann']])

    def test_a_server_that_is_killed(self):
        """Each change that was acknowledged stays, and the one under way is made whole or not at all."""
        random.seed(5)
        known = ['ann' + SECRET]
        for number in range(5):
            changed, under_way = [known[-1]], []

            def change():
                with contextlib.suppress(OSError), self.connect('ann', changed[-1]) as connection, connection.open('ann') as ann:
                    for count in range(10 ** 6):
                        under_way[:] = [f'{number} {count}']
                        ann.ask(self.update('ann', under_way[0]))
                        changed.append(under_way[0])
            with self.served(ends=signal.SIGKILL):
                thread = threading.Thread(target=change)
                thread.start()
                while len(changed) < 3:
                    time.sleep(0.001)
                time.sleep(random.random() / 5)
            thread.join()
            with self.served():
                found = [password for password in (changed[-1], *under_way) if self.takes('ann', password)]
                self.assertEqual(len(found), 1, (changed[-1], under_way))
                self.assertFalse(self.takes('ann', changed[-2]))
            known.append(found[0])



class Page(unittest.TestCase):
    """The exchange of docs/protocol.md."""

    def test_the_exchange(self):
        with open(os.path.join(TOP, 'docs', 'protocol.md'), encoding='utf-8') as file:
            block, = re.findall(r'```\n(client: .*?)```', file.read(), re.S)
        messages = [f'user\0n,,n=user,r={NONCE}', TOLD, SHOWN, SIGNED]
        told, sent = re.findall('^(?:client|server): (.*)$', block, re.M), re.findall(r'^([<>])((?: [ 0-9A-F]+\n)+)', re.sub('\n {2}', ' ', block), re.M)
        self.assertEqual([text.replace(', a zero byte, ', '\0') for text in told], messages)
        self.assertEqual([(side, bytes.fromhex(data)) for side, data in sent],
                         [(side, frame(kind, 7, text.encode())) for side, kind, text in zip('><><', (FIRST, MESSAGE, LAST, MESSAGE), messages)])


if __name__ == '__main__':
    unittest.main()
