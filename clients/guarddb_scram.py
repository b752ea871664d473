"""Passwords by SCRAM-SHA-256 (RFC 5802, RFC 7677): the verifier that a server keeps, and the client's side of an exchange.

    verifier('a long password')     # the text of a row of the table of passwords, as PostgreSQL spells it
    mock()                          # a verifier that nobody has the password of
    drawn()                         # a password that nobody guesses
    exchange = Exchange('a long password')
    exchange.first()                # the client's first message
    exchange.last(answer)           # the last one, to the server's first message
    exchange.check(answer)          # whether the server's last message shows that it keeps the verifier; raises BadServer

Passwords have 1 to 1,024 characters of ASCII from the space to the tilde, which mean the same to every client.
"""
import base64
import binascii
import getpass
import hashlib
import hmac
import re
import secrets
import warnings

LEAST, GREATEST = 4096, 1000000     # iterations that a verifier may have
CHALLENGE = re.compile(r'r=([!-+\--~]+),s=([A-Za-z0-9+/]+={0,2}),i=([1-9][0-9]{0,9})')
PASSWORD = re.compile(r'[ -~]{1,1024}')
NO_PASSWORD = 'a password has 1 to 1,024 characters of ASCII, from the space to the tilde'


class BadServer(ConnectionError):
    """What calls itself the server does not keep the verifier of the password, or breaks the rules of the exchange."""


def code(key, text):
    return hmac.digest(key, text, 'sha256')


def mixed(some, others):
    return bytes(a ^ b for a, b in zip(some, others))


def checked(password):
    """The password. A ValueError, which does not have it, where it is none."""
    if not isinstance(password, str) or not PASSWORD.fullmatch(password):
        raise ValueError(NO_PASSWORD)
    return password


def keys(password, salt, iterations):
    """ClientKey, StoredKey and ServerKey."""
    salted = hashlib.pbkdf2_hmac('sha256', checked(password).encode(), salt, iterations)
    client_key = code(salted, b'Client Key')
    return client_key, hashlib.sha256(client_key).digest(), code(salted, b'Server Key')


def spelled(data):
    return base64.b64encode(data).decode()


# ---- what a server keeps

def spelled_verifier(iterations, salt, stored_key, server_key):
    return f'SCRAM-SHA-256${iterations}:{spelled(salt)}${spelled(stored_key)}:{spelled(server_key)}'


def verifier(password, salt=None, iterations=LEAST):
    """The text that is kept in place of a password. Another salt is drawn each time, where none is given."""
    salt = secrets.token_bytes(16) if salt is None else salt
    _, stored_key, server_key = keys(password, salt, iterations)
    return spelled_verifier(iterations, salt, stored_key, server_key)


def mock():
    """A verifier whose keys are drawn, and are those of no password that anybody has."""
    return spelled_verifier(LEAST, *(secrets.token_bytes(size) for size in (16, 32, 32)))


def drawn():
    """A password of 24 bytes that were drawn, in base64url (RFC 4648, 5)."""
    return secrets.token_urlsafe(24)


# ---- what is typed

def asked(prompt):
    """A password that is typed into the terminal, without its echo. An EOFError where that ends before, and where there is no terminal; a
    ValueError where what is typed is none."""
    with warnings.catch_warnings():
        warnings.simplefilter('error', getpass.GetPassWarning)
        try:
            return checked(getpass.getpass(prompt))
        except getpass.GetPassWarning:
            raise EOFError('there is no terminal') from None
        except UnicodeDecodeError:          # which tells of a byte that was typed
            raise ValueError(NO_PASSWORD) from None


def asked_twice(whose):
    """A new password, typed twice. A ValueError where it is none, or the second one is another."""
    password = asked(f'New password{whose}: ')
    if asked('Again: ') != password:
        raise ValueError('the second password is another one')
    return password


# ---- an exchange

class Exchange:
    """The client's side of one exchange."""
    def __init__(self, password, nonce=None, name=''):
        self.password = checked(password)
        self.nonce = nonce or spelled(secrets.token_bytes(18))
        self.bare = f'n={name},r={self.nonce}'      # the server takes the role from elsewhere
        self.signature = None                       # what the server is to sign with

    def first(self):
        return 'n,,' + self.bare

    def last(self, challenge):
        nonce, salt, iterations = self._read(challenge)
        client_key, stored_key, server_key = keys(self.password, salt, iterations)
        bare = f'c=biws,r={nonce}'
        messages = f'{self.bare},{challenge},{bare}'.encode()
        self.signature = code(server_key, messages)
        return f'{bare},p={spelled(mixed(client_key, code(stored_key, messages)))}'

    def _read(self, challenge):
        """The nonce, the salt and the number of iterations of the server's first message. Nothing is computed before they are right."""
        found = CHALLENGE.fullmatch(challenge)
        try:
            nonce, salt, iterations = found[1], base64.b64decode(found[2], validate=True), int(found[3])
        except (TypeError, binascii.Error):
            raise BadServer('the first message of the server is none') from None
        if not nonce.startswith(self.nonce) or nonce == self.nonce:
            raise BadServer('the server does not answer this exchange: its nonce does not begin with that of the client, or adds nothing')
        if not LEAST <= iterations <= GREATEST:
            raise BadServer(f'the server asks for {iterations} iterations, and {LEAST} to {GREATEST} are taken')
        return nonce, salt, iterations

    def check(self, answer):
        if self.signature is None or not hmac.compare_digest(answer.encode(), b'v=' + base64.b64encode(self.signature)):
            raise BadServer('the server does not show that it keeps the verifier of this password')
