"""The places of fake_guarddb.py that ask for passwords, with many clients at once: the server's side of SCRAM-SHA-256 (RFC 5802, RFC 7677)
in the frames of docs/protocol.md, by Python's own hashes."""
import base64
import hashlib
import hmac
import re
import secrets
import socket
import struct
import threading
import time

FIRST, MESSAGE, LAST, ANSWER = 5, 6, 7, 4
MOST = 1100                 # the greatest length that a frame names before a password is shown
VERIFIER = re.compile(r'SCRAM-SHA-256\$([1-9][0-9]*):([^$]+)\$([^:]+):(.+)', re.DOTALL)
FIRST_MESSAGE = re.compile(rb'([ny],,)(n=[^,]*,r=([!-+\--~]+))', re.DOTALL)
LAST_MESSAGE = re.compile(rb'(c=([^,]*),r=([!-+\--~]+)),p=([A-Za-z0-9+/]{43}=)')
REFUSED, BAD = b'refused 28000\n', b'refused 08P01\n'


class Ended(Exception):
    """The connection ends, behind these bytes, which are said at once or a second later."""


def code(key, text):
    return hmac.digest(key, text, 'sha256')


def frame(kind, number, payload):
    return struct.pack('>IBI', 5 + len(payload), kind, number) + payload


def exactly(stream, count):
    """So many bytes. An Ended where the stream ends before."""
    found = b''
    while len(found) < count:
        piece = stream.recv(count - len(found))
        if not piece:
            raise Ended(b'', 0)
        found += piece
    return found


def bad_frame():
    return Ended(frame(ANSWER, 0, BAD), 0)


def read_frame(stream, most):
    """The kind, the number and the payload of the next frame."""
    length, = struct.unpack('>I', exactly(stream, 4))
    if not 5 <= length <= most:
        raise bad_frame()
    rest = exactly(stream, length)
    return (*struct.unpack('>BI', rest[:5]), rest[5:])


# ---- what is kept

def kept(db, table, role):
    """The text that a table of passwords keeps for a role: None where it keeps none."""
    found = db.tables.get(table)
    keeps = found and 'SUPERUSER' in db.roles[found.owner] and [kind for _, kind, _ in found.columns] == ['text', 'text'] and list(found.key) == [0]
    if not keeps or 'LOGIN' not in db.roles.get(role, ()):
        return None
    return next((row[1] for row in found.rows if row[0] == role), None)


def decoded(text):
    """The bytes that have this spelling in base64, None where there are none."""
    try:
        data = base64.b64decode(text, validate=True)
    except ValueError:
        return None
    return data if base64.b64encode(data).decode() == text else None


def read_verifier(text):
    """The count of iterations, the salt and the two keys of a verifier's text, None of what is none."""
    found = VERIFIER.fullmatch(text or '')
    if not found or not 4096 <= int(found[1]) <= 1000000:
        return None
    salt, stored_key, server_key = (decoded(found[part]) for part in (2, 3, 4))
    if not salt or len(salt) > 64 or len(stored_key or b'') != 32 or len(server_key or b'') != 32:
        return None
    return int(found[1]), salt, stored_key, server_key


def mock_verifier(mock, role):
    """What stands in for the verifier of a role that has none."""
    iterations, _, secret, _ = mock
    salt, stored_key, server_key = (code(secret, f'{what},{role}'.encode()) for what in ('salt', 'stored key', 'server key'))
    return iterations, salt[:16], stored_key, server_key


# ---- the exchange

def shown(stream, looked_up, mock):
    """The role whose password a client shows, and the text of its verifier. `looked_up` gives the text that is kept for a role."""
    kind, label, payload = read_early(stream)
    name, zero, first = payload.partition(b'\0')
    if kind != FIRST or not zero:
        raise bad_frame()
    try:
        role = name.decode()
    except UnicodeDecodeError:
        raise bad_frame() from None
    refusal, found_mock = Ended(frame(ANSWER, label, REFUSED), 1), read_verifier(looked_up(mock))
    if not found_mock:
        raise refusal
    text, begun = looked_up(role), FIRST_MESSAGE.fullmatch(first)
    if not begun:
        raise refusal
    verifier = read_verifier(text)
    iterations, salt, stored_key, server_key = verifier or mock_verifier(found_mock, role)
    nonce = begun[3] + base64.b64encode(secrets.token_bytes(18))
    challenge = b'r=%s,s=%s,i=%d' % (nonce, base64.b64encode(salt), iterations)
    stream.sendall(frame(MESSAGE, label, challenge))
    kind, again, last = read_early(stream)
    if kind != LAST or again != label:
        raise bad_frame()
    ended = LAST_MESSAGE.fullmatch(last)
    if not ended or ended[2] != base64.b64encode(begun[1]) or ended[3] != nonce or not verifier or looked_up(role) != text:
        raise refusal
    messages = b','.join([begun[2], challenge, ended[1]])
    client_key = bytes(a ^ b for a, b in zip(base64.b64decode(ended[4]), code(stored_key, messages)))
    if hashlib.sha256(client_key).digest() != stored_key:
        raise refusal
    stream.sendall(frame(MESSAGE, label, b'v=' + base64.b64encode(code(server_key, messages))))
    return role, text


def read_early(stream):
    """A frame that comes before a password is shown; an Ended of an event."""
    kind, number, payload = read_frame(stream, MOST)
    if kind in (1, 2, 3):
        raise Ended(frame(ANSWER, number, REFUSED), 1)
    return kind, number, payload


# ---- its connections

class Place:
    """A place over a server of the model, with a table of passwords and a mock's role."""
    def __init__(self, server, table, mock):
        self.server, self.table, self.mock, self.turn = server, table, mock, threading.Lock()

    def looked_up(self, role):
        with self.turn:
            return kept(self.server.committed, self.table, role)

    def serve_client(self, stream):
        sessions = set()
        try:
            role, text = shown(stream, self.looked_up, self.mock)
            while True:
                stream.sendall(self.answer(stream, sessions, role, text))
        except Ended as end:
            said, seconds = end.args
            time.sleep(seconds)
            stream.sendall(said)
        finally:
            for session in sessions:
                with self.turn:
                    self.server.close(session)

    def answer(self, stream, sessions, role, text):
        """The answer to the next event of a client that has shown the password of a role, whose verifier has a text."""
        kind, number, payload = read_frame(stream, 5 + 131067)
        session = (id(stream), number)
        try:
            statement = payload.decode()
        except UnicodeDecodeError:
            raise bad_frame() from None
        if kind not in (1, 2, 3) or kind == 3 and payload:
            raise bad_frame()
        with self.turn:
            if kind == 1 and (statement != role or kept(self.server.committed, self.table, role) != text):
                answer = 'refused 28000'
            else:
                answer = (self.server.open, self.server.execute, lambda session, _: self.server.close(session))[kind - 1](session, statement)
        if answer == 'ok OPEN':
            sessions.add(session)
        sessions -= {session} if answer == 'ok CLOSE' else set()
        return frame(ANSWER, number, answer.encode() + b'\n')

    def serve(self, listener):
        """Serves clients, all at once, until the program is ended."""
        while True:
            stream, _ = listener.accept()
            threading.Thread(target=self.serve_one, args=[stream], daemon=True).start()

    def serve_one(self, stream):
        with stream:
            try:
                if stream.family == socket.AF_INET:
                    stream.setsockopt(socket.IPPROTO_TCP, socket.TCP_NODELAY, 1)
                self.serve_client(stream)
            except OSError:
                pass
