"""What the program of postgres_logins_tests reads and writes, from RFC 5802, RFC 7677 and PostgreSQL's manual (55.2.1, 55.3.1, 55.7):
`python3 expected.py` writes stdin and stdout. Nothing of it is taken from the program."""
import base64
import hashlib
import hmac
import struct

DRAWN, NONCE, COUNT = bytes(range(32)), 'rOprNGfwEbeRWgbNEkqO', 4096
SALT = base64.b64decode('W22ZaJ0SNY7soEsUEjb6gQ==')       # this, the password and the nonce are those of RFC 7677
SECRET = bytes(range(100, 132))                           # the stored key of the mock's verifier
TABLE, MOCK, ROLE = 'passwords', 'mock', 'user'
LINES, ANSWERS = [], []


def code(key, text):
    return hmac.digest(key, text, 'sha256')


def b64(data):
    return base64.b64encode(data).decode()


def keys(password, salt):
    salted = hashlib.pbkdf2_hmac('sha256', password.encode(), salt, COUNT)
    client = code(salted, b'Client Key')
    return client, hashlib.sha256(client).digest(), code(salted, b'Server Key')


def spelled(salt, stored, server):
    return f'SCRAM-SHA-256${COUNT}:{b64(salt)}${b64(stored)}:{b64(server)}'


CLIENT, STORED, SERVER = keys('pencil', SALT)
VERIFIER, OTHER = spelled(SALT, STORED, SERVER), spelled(SALT, *keys('eraser', SALT)[1:])
MOCKS = spelled(b'0123456789abcdef', SECRET, bytes(32))


def message(kind, body=b''):
    return kind + struct.pack('>I', 4 + len(body)) + body


def text(words):
    return words.encode() + b'\0'


def packet(number, body=b''):
    return struct.pack('>II', 8 + len(body), number) + body


def start(*names, version=196608):
    return packet(version, b''.join(map(text, names)) + b'\0')


def fatal(number, words):
    return message(b'E', b'SFATAL\0VFATAL\0C' + text(number) + b'M' + text(words) + b'\0')


def failure(role):
    return fatal('28P01', f'password authentication failed for user "{role}"')


def authentication(number, body=b''):
    return message(b'R', struct.pack('>I', number) + body)


def initial(mechanism, response):
    return message(b'p', text(mechanism) + (struct.pack('>i', -1) if response is None else struct.pack('>I', len(response)) + response))


def happens(line, said, want):
    LINES.append(line)
    ANSWERS.append((said.hex() or '-') + ' ' + want)


def comes(data, said, want):
    happens('in ' + data.hex(), said, want)


def verifier_of(role):
    return f'verifier {TABLE} {role}'


def client():
    LINES.append('client')


SSL, GSS, CANCEL = packet(80877103), packet(80877104), packet(80877102, bytes(8))
ENTER = start('user', ROLE, 'database', 'x')
OFFER = authentication(10, b'SCRAM-SHA-256\0\0')
BROKEN, NAMELESS = fatal('08P01', 'protocol violation'), fatal('28000', 'login refused')
FIRST = f'n,,n=,r={NONCE}'.encode()
WHOLE = NONCE + b64(DRAWN)
LAST = f'c=biws,r={WHOLE}'


def challenge(salt):
    return f'r={WHOLE},s={b64(salt)},i={COUNT}'


def signed(salt):
    return f'n=,r={NONCE},{challenge(salt)},{LAST}'.encode()


def last(salt, client_key, stored):
    proof = bytes(a ^ b for a, b in zip(client_key, code(stored, signed(salt))))
    return message(b'p', f'{LAST},p={b64(proof)}'.encode())


def offered(role, found):
    """A client that names a role, of which this is found."""
    comes(start('user', role), b'', verifier_of(MOCK))
    happens('found ' + MOCKS, b'', verifier_of(role))
    happens(found, OFFER, 'message')


def challenged(role, found, salt):
    offered(role, found)
    comes(initial('SCRAM-SHA-256', FIRST), authentication(11, challenge(salt).encode()), 'message')


RIGHT = last(SALT, CLIENT, STORED)
FINAL = authentication(12, b'v=' + b64(code(SERVER, signed(SALT))).encode())
GREETING = (authentication(0) + b''.join(message(b'S', text(name) + text(value)) for name, value in (
    ('client_encoding', 'UTF8'), ('DateStyle', 'ISO, MDY'), ('integer_datetimes', 'on'), ('server_encoding', 'UTF8'),
    ('server_version', '15.0 (Guarddb)'), ('standard_conforming_strings', 'on'), ('TimeZone', 'UTC')))
    + message(b'K', struct.pack('>II', 7, 0)) + message(b'Z', b'I'))

# who shows the password, with both requests for encryption before
client()
comes(SSL, b'N', 'message')
comes(GSS, b'N', 'message')
challenged(ROLE, 'found ' + VERIFIER, SALT)
comes(RIGHT, b'', verifier_of(ROLE))
happens('found ' + VERIFIER, FINAL, verifier_of(ROLE))
happens('found ' + VERIFIER, b'', f'open 1 {ROLE}')
happens('opened', GREETING, 'message')
comes(message(b'X'), b'', 'end false')

# all of it in one piece, cut elsewhere
client()
comes(SSL + ENTER[:9], b'N', 'message')
comes(ENTER[9:] + initial('SCRAM-SHA-256', FIRST) + RIGHT + message(b'X'), b'', verifier_of(MOCK))
happens('found ' + MOCKS, b'', verifier_of(ROLE))
happens('found ' + VERIFIER, OFFER + authentication(11, challenge(SALT).encode()), verifier_of(ROLE))
happens('found ' + VERIFIER, FINAL, verifier_of(ROLE))
happens('found ' + VERIFIER, b'', f'open 1 {ROLE}')
happens('opened', GREETING, 'end false')

# the verifier is another one before the session, is gone, or cannot be looked up
for found, told in (('found ' + OTHER, NAMELESS), ('none', NAMELESS), ('fails', fatal('53200', 'out of memory'))):
    client()
    challenged(ROLE, 'found ' + VERIFIER, SALT)
    comes(RIGHT, b'', verifier_of(ROLE))
    happens('found ' + VERIFIER, FINAL, verifier_of(ROLE))
    happens(found, told, 'end false')

# a wrong password; and one that is no longer that of the role
client()
challenged(ROLE, 'found ' + VERIFIER, SALT)
comes(last(SALT, *keys('Pencil', SALT)[:2]), b'', verifier_of(ROLE))
happens('found ' + VERIFIER, failure(ROLE), 'end true')
client()
challenged(ROLE, 'found ' + VERIFIER, SALT)
comes(RIGHT, b'', verifier_of(ROLE))
happens('found ' + OTHER, failure(ROLE), 'end true')

# a role without a verifier is told the same, but for the salt
client()
MADE = code(SECRET, b'salt,' + 'nobody'.encode())[:16]
challenged('nobody', 'none', MADE)
comes(last(MADE, *keys('pencil', MADE)[:2]), b'', verifier_of('nobody'))
happens('none', failure('nobody'), 'end true')

# no mock; a first message that is none, as one that asks for channel binding; look-ups that fail
client()
comes(ENTER, b'', verifier_of(MOCK))
happens('none', failure(ROLE), 'end true')
client()
offered(ROLE, 'found ' + VERIFIER)
comes(initial('SCRAM-SHA-256', b'p=tls-unique,,n=,r=abc'), failure(ROLE), 'end true')
client()
comes(ENTER, b'', verifier_of(MOCK))
happens('fails', fatal('53200', 'out of memory'), 'end true')

# messages that do not belong there
for data in (initial('SCRAM-SHA-256-PLUS', FIRST), initial('SCRAM-SHA-256', None), message(b'p', b'SCRAM-SHA-256'), message(b'X'),
             message(b'Q', text('SELECT 1')), b'p' + struct.pack('>I', 2001), b'p\0\0\0\3', b'?', ENTER):
    client()
    offered(ROLE, 'found ' + VERIFIER)
    comes(data, BROKEN, 'end false')

# packets of the start that are not taken
for data, told in ((start(), NAMELESS), (start('database', ROLE), NAMELESS), (start('user', ''), NAMELESS),
                   (packet(196608, b'user\0\xff\0\0'), NAMELESS), (start('user', ROLE, version=131072), BROKEN),
                   (packet(196608, b'user\0user'), BROKEN), (struct.pack('>I', 7), BROKEN), (struct.pack('>I', 10001), BROKEN), (CANCEL, b'')):
    client()
    comes(data, told, 'end false')
client()
comes(SSL + SSL + SSL, b'NN' + BROKEN, 'end false')
client()
comes(RIGHT, BROKEN, 'end false')

for name, lines in ('stdin', LINES), ('stdout', ANSWERS):
    with open(name, 'w', encoding='ascii') as file:
        file.write('\n'.join(lines) + '\n')
