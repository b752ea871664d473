"""A client of PostgreSQL's protocol that sends what it is told to, byte by byte, and servers for such clients."""
import contextlib
import os
import shutil
import signal
import socket
import struct
import subprocess
import tempfile
import unittest

from program import PATIENCE, PROGRAM, make_database, run

SETUP = ['open r root', 'r: CREATE TABLE t (k BIGINT PRIMARY KEY, x TEXT)', "r: INSERT INTO t VALUES (1, 'one'), (2, NULL)", 'r: CREATE ROLE bob LOGIN',
         'r: GRANT SELECT ON t TO bob']
VERSION = 3 << 16               # 3.0


def packet(kind, body):
    """A message: its kind, its length with itself, and its body (55.7)."""
    return kind + struct.pack('>I', 4 + len(body)) + body


def start_packet(user, *others):
    """The first message of a client, which has no kind: version 3.0, and names with values."""
    words = ['user', user, *others]
    return packet(b'', struct.pack('>I', VERSION) + b''.join(word.encode() + b'\0' for word in words) + b'\0')


def query(text):
    return packet(b'Q', text.encode() + b'\0')


def parse(text, name='', types=()):
    return packet(b'P', name.encode() + b'\0' + text.encode() + b'\0' + struct.pack('>H', len(types)) + b''.join(struct.pack('>I', one) for one in types))


def bind(values=(), portal='', name='', formats=(), results=()):
    """Values in text, None for a null."""
    given = b''.join(struct.pack('>i', -1) if value is None else struct.pack('>I', len(value)) + value for value in values)
    return packet(b'B', portal.encode() + b'\0' + name.encode() + b'\0' + numbers(formats) + struct.pack('>H', len(values)) + given + numbers(results))


def numbers(formats):
    return struct.pack('>H', len(formats)) + b''.join(struct.pack('>H', one) for one in formats)


def describe(kind, name=''):
    return packet(b'D', kind + name.encode() + b'\0')


def close(kind, name=''):
    return packet(b'C', kind + name.encode() + b'\0')


def execute(portal='', most=0):
    return packet(b'E', portal.encode() + b'\0' + struct.pack('>I', most))


SYNC, FLUSH, LEAVE = packet(b'S', b''), packet(b'H', b''), packet(b'X', b'')
SSL_REQUEST, GSS_REQUEST = (packet(b'', struct.pack('>I', code)) for code in (80877103, 80877104))
CANCEL_REQUEST = packet(b'', struct.pack('>III', 80877102, 1, 0))


def fields(body):
    """The fields of an ErrorResponse, by their letters (55.8)."""
    return {field[:1].decode(): field[1:].decode() for field in body.split(b'\0') if field}


def kinds(messages):
    """The kinds of messages, in their order."""
    return b''.join(kind for kind, _ in messages)


def codes(messages):
    """The codes of the errors among them."""
    return [fields(body)['C'] for kind, body in messages if kind == b'E']


class Client:
    """A client that says messages as they are written here. With a user it has a session at once."""

    def __init__(self, where, user=None):
        self.socket = socket.socket(socket.AF_UNIX if isinstance(where, str) else socket.AF_INET)
        self.socket.settimeout(PATIENCE)
        self.socket.connect(where if isinstance(where, str) else ('127.0.0.1', where))
        self.came = self.socket.makefile('rb')
        if user:
            self.send(start_packet(user))
            self.until(b'Z')

    def __enter__(self):
        return self

    def __exit__(self, *fault):
        self.came.close()
        self.socket.close()

    def send(self, *messages):
        self.socket.sendall(b''.join(messages))

    def message(self):
        """The kind and the body of the next message, None at the end."""
        try:
            head = self.came.read(5)
            if len(head) < 5:
                return None
            return head[:1], self.came.read(struct.unpack('>I', head[1:])[0] - 4)
        except ConnectionResetError:
            return None

    def until(self, kind):
        """The messages up to one of this kind, or up to the end."""
        messages = []
        while not messages or messages[-1][0] != kind:
            message = self.message()
            if message is None:
                break
            messages.append(message)
        return messages

    def rest(self):
        """The messages up to the end."""
        return self.until(None)

    def ask(self, *messages):
        """The messages that these are answered by, up to ReadyForQuery; a text is a simple query."""
        self.send(*(query(message) if isinstance(message, str) else message for message in messages))
        return self.until(b'Z')


class AtServer(unittest.TestCase):
    """Tests at servers over a database with a table t, which bob may read."""

    def setUp(self):
        self.folder = tempfile.mkdtemp(prefix='pg-')
        self.addCleanup(shutil.rmtree, self.folder)
        self.path = os.path.join(self.folder, 'db')
        self.socket = os.path.join(self.folder, '.s.PGSQL.5432')
        make_database(self.path)
        script = os.path.join(self.folder, 'setup.sql')
        with open(script, 'w', encoding='utf-8') as file:
            file.write('\n'.join(SETUP) + '\n')
        self.assertEqual(run('run', self.path, script)[0], 0)

    @contextlib.contextmanager
    def served(self, *words, port=None, behind=''):
        """A server for PostgreSQL's clients, in the folder or at a port, with what stands behind its comma. It is ended by a signal, unless it has
        ended itself."""
        place = f'pgport:{port}' if port else f'pgsocket:{self.folder}'
        server = subprocess.Popen([PROGRAM, 'serve', self.path, '--at', place + behind, *map(str, words)], stdout=subprocess.DEVNULL, stderr=subprocess.PIPE, text=True)
        try:
            told = server.stderr.readline()
            self.assertEqual(told, f'guarddb: listening on {f"127.0.0.1:{port}" if port else self.socket}\n')
            if port and not behind:
                self.assertEqual(server.stderr.readline(), f'guarddb: no passwords are asked for at 127.0.0.1:{port}\n')
            yield server
            if '--connections' not in words:
                server.send_signal(signal.SIGTERM)
            _, messages = server.communicate(timeout=PATIENCE)
            self.assertEqual((server.returncode, messages), (0, 'guarddb: done\n') if '--connections' in words else (-signal.SIGTERM, ''))
        finally:
            if server.poll() is None:
                server.kill()
            server.communicate()
