#!/usr/bin/env python3
"""Stands in for the program guarddb where the tests are tried without it: its commands, over a file of its own.

Its answers are those of the model in scripts/. FILE has a line with the pages and the administrator, and a line for each
commit, in JSON: the statements that it made of, each with its current and its session user. The last line counts if it is
there to its newline. The environment variable FAKE_FAULT plants a fault for the tests to find:

    early    a commit is answered before it is written
    halves   a commit is written in two lines
    torn     a commit may be written without its end, and the next one behind it
    buffer   answers are written at the end of a script
    closed   a bad frame ends the connection without an answer
"""
import fcntl
import json
import os
import socket
import struct
import sys
import time

sys.path.insert(0, os.path.join(os.path.dirname(os.path.abspath(__file__)), '..', 'scripts'))
import model
import fake_passwords

FAULT = os.environ.get('FAKE_FAULT')
MAX_TEXT = 131067
LOCKED = []


class Fault(Exception):
    pass


# ---- the database and its file

class Server(model.Server):
    def __init__(self, admin, path=None):
        super().__init__(admin)
        self.path, self.changes, self.late = path, {}, []
        if path:
            self.load()

    def load(self):
        with open(self.path, 'rb') as file:
            lines = file.read().split(b'\n')
        for line in lines[1:-1]:
            for current, session, text in json.loads(line):
                statement = model.parse(text)
                users = {'current': current, 'session': session, 'database': self.committed}
                model.EXECUTED[statement[0]](self.committed, users, statement)
        if FAULT != 'torn':
            os.truncate(self.path, sum(len(line) + 1 for line in lines[:-1]))

    def close(self, number):
        self.changes.pop(number, None)
        return super().close(number)

    def execute(self, number, text):
        before, session = self.committed, self.sessions.get(number)
        held = self.changes.pop(number, [])
        users = [session.role, session.login] if session else []
        answer = super().execute(number, text)
        if session and not answer.startswith('refused') and model.parse(text)[0] in model.EXECUTED:
            if not answer.startswith('rows'):
                held.append(users + [text])
        if self.committed is not before:
            self.commit(held)
        elif session and session.block:
            self.changes[number] = held
        return answer

    def commit(self, changes):
        if not self.path:
            return
        if FAULT == 'early':
            self.late.append(changes)
        elif FAULT == 'halves' and len(changes) > 1:
            self.append(changes[:1])
            time.sleep(0.002)
            self.append(changes[1:])
        else:
            self.append(changes)

    def append(self, changes):
        line = json.dumps(changes).encode() + b'\n'
        with open(self.path, 'ab', buffering=0) as file:
            for piece in (line[:-9], line[-9:]) if FAULT == 'torn' else (line,):
                file.write(piece)
                time.sleep(0.002 if FAULT == 'torn' else 0)
            os.fsync(file.fileno())

    def write_late(self):
        while self.late:
            time.sleep(0.002)
            self.append(self.late.pop(0))


def opened(path, lock=fcntl.LOCK_EX):
    try:
        LOCKED.append(open(path, 'rb'))     # to the end of the process
        fcntl.flock(LOCKED[0], lock | fcntl.LOCK_NB)
        return Server(json.loads(LOCKED[0].readline())[1], path)
    except BlockingIOError:
        raise Fault('InUse')
    except OSError:
        raise Fault('Device')
    except ValueError:
        raise Fault('NotADatabase')


# ---- descriptions

TYPES = {'number': 'BIGINT', 'text': 'TEXT', 'bool': 'BOOLEAN'}


def description(db):
    """What `describe --json` tells of a database, in the order of the names and of the statements."""
    names = sorted(db.roles, key=str.encode)
    tables = [(name, db.tables[name]) for name in sorted(db.tables, key=str.encode)]
    word = lambda role: None if role in (model.SYSTEM, model.PUBLIC) else role
    return {
        'roles': [{'role': role, **{it.lower(): it in db.roles[role] for it in ('SUPERUSER', 'LOGIN', 'BYPASSRLS')}} for role in names],
        'memberships': [{'role': role, 'in': of, 'through': through, 'admin': db.memberships[through, role] if of == through else None}
                        for role in names for through in names if (through, role) in db.memberships
                        for of in names if model.is_in(db, through, of)],
        'tables': [{'table': name, 'owner': it.owner, 'row security': it.security, 'forced': it.forced} for name, it in tables],
        'columns': [{'table': name, 'column': column, 'type': TYPES[kind], 'not null': not_null,
                     'key': it.key.index(at) + 1 if at in it.key else None}
                    for name, it in tables for at, (column, kind, not_null) in enumerate(it.columns)],
        'privileges': [{'table': table, 'column': None if at is None else db.tables[table].columns[at][0], 'privilege': action,
                        'to': word(to), 'by': word(by), 'grant option': grantable}
                       for (by, to, table, action, at), grantable in db.descriptors.items()],
        'policies': [{'table': name, 'policy': policy, 'kind': 'PERMISSIVE' if found['permissive'] else 'RESTRICTIVE',
                      'command': found['for'], 'roles': None if model.PUBLIC in found['to'] else found['to'],
                      'using': found['using'] and found['using'][1], 'with check': found['check'] and found['check'][1]}
                     for name, it in tables for policy, found in sorted(it.policies.items())]}


# ---- scripts

def read_script(path):
    try:
        with open(path, encoding='utf-8', newline='') as file:
            return file.read()
    except (OSError, ValueError):
        raise Fault('Script')


def print_now(text):
    sys.stdout.write(text)
    sys.stdout.flush()


def run_script(server, script):
    numbers, answers = {}, ''
    for line in script.split('\n'):
        if line == '' or line.startswith('#'):
            continue
        words = line.split(' ', 2)
        number = lambda name: numbers.setdefault(name, len(numbers) + 1)
        if line.startswith('open '):
            answer = server.open(number(words[1]), words[2])
        elif line.startswith('close '):
            answer = server.close(number(words[1]))
        else:
            name, text = line.split(': ', 1)
            answer = server.execute(number(name), text)
        answers += answer + '\n'
        if FAULT != 'buffer':
            print_now(answers)
            answers = ''
        server.write_late()
    print_now(answers)


# ---- frames

def exactly(stream, count):
    """So many bytes, or None where the stream ends before."""
    found = b''
    while len(found) < count:
        piece = stream.recv(count - len(found))
        if not piece:
            return None
        found += piece
    return found


def frames_of(session, text):
    frames = b''
    while True:
        piece, text = text[:MAX_TEXT], text[MAX_TEXT:]
        frames += struct.pack('>IBI', 5 + len(piece), 4, session) + piece
        if not text:
            return frames


def answer_frame(server, rest):
    """The frames of the answer to a frame, of which `rest` is what follows its length; None where it is bad."""
    kind, session = struct.unpack('>BI', rest[:5])
    try:
        payload = rest[5:].decode()
    except UnicodeDecodeError:
        return None
    if kind == 1:
        answer = server.open(session, payload)
    elif kind == 2:
        answer = server.execute(session, payload)
    elif kind == 3 and not payload:
        answer = server.close(session)
    else:
        return None
    return frames_of(session, answer.encode() + b'\n')


def serve_connection(server, stream):
    while True:
        head = exactly(stream, 4)
        length = struct.unpack('>I', head)[0] if head else None
        answer = None
        if length is None:
            break
        if 5 <= length <= 5 + MAX_TEXT:
            rest = exactly(stream, length)
            if rest is None:
                break
            answer = answer_frame(server, rest)
        if answer is None:
            if FAULT != 'closed':
                stream.sendall(frames_of(0, b'refused 08P01\n'))
            break
        stream.sendall(answer)
        server.write_late()


def listener_at(place):
    is_port = isinstance(place, int)
    listener = socket.socket(socket.AF_INET if is_port else socket.AF_UNIX)
    listener.setsockopt(socket.SOL_SOCKET, socket.SO_REUSEADDR, 1)
    listener.bind(('127.0.0.1', place) if is_port else place)
    listener.listen()
    return listener


def serve_with_passwords(server, words):
    """Serves a place such as `port:5433,passwords=logins,mock=nobody`."""
    where, *options = words.split(',')
    options, (kind, _, name) = dict(option.split('=') for option in options), where.partition(':')
    if kind == 'socket' and os.path.exists(name):       # of a server that was killed
        os.remove(name)
    with listener_at(int(name) if kind == 'port' else name) as listener:
        sys.stderr.write(f'guarddb: listening on {"127.0.0.1:" if kind == "port" else ""}{name}\n')
        sys.stderr.flush()
        fake_passwords.Place(server, options['passwords'], options['mock']).serve(listener)


def serve(server, place, connections, idle):
    is_port = isinstance(place, int)
    with listener_at(place) as listener:
        sys.stderr.write(f'guarddb: listening on {place}\n')
        for _ in range(connections):
            stream, _ = listener.accept()
            with stream:
                stream.settimeout(idle)
                if is_port:
                    stream.setsockopt(socket.IPPROTO_TCP, socket.TCP_NODELAY, 1)
                try:
                    serve_connection(server, stream)
                except OSError:
                    pass
                for number in list(server.sessions):
                    server.close(number)


# ---- commands

def idle_in(words):
    """The seconds of --idle, which comes last; None without it."""
    return int(words[7]) if words[6:7] == ['--idle'] else None


def perform(words):
    if words[:1] == ['format'] and [words[2], words[4]] == ['--pages', '--admin']:
        try:
            with open(words[1], 'x') as file:
                file.write(json.dumps([int(words[3]), words[5]]) + '\n')
        except FileExistsError:
            raise Fault('Exists')
        print('ok FORMAT')
    elif words[:2] == ['run', '--memory']:
        run_script(Server(words[2]), read_script(words[3]))
    elif words[:1] == ['run']:
        script = read_script(words[2])
        run_script(opened(words[1]), script)
    elif words[:1] == ['serve'] and [words[2], words[4]] == ['--port', '--connections']:
        serve(opened(words[1]), int(words[3]), int(words[5]), idle_in(words))
    elif words[:1] == ['serve'] and [words[2], words[4]] == ['--socket', '--connections']:
        serve(opened(words[1]), words[3], int(words[5]), idle_in(words))
        os.remove(words[3])
    elif words[:1] == ['serve'] and [words[2], words[4]] == ['--at', '--clients'] and ',passwords=' in words[3]:
        serve_with_passwords(opened(words[1]), words[3])
    elif words[:1] == ['serve'] and [words[2], words[4]] == ['--at', '--clients'] and words[3].startswith('socket:') and ',' not in words[3]:
        serve(opened(words[1]), words[3].removeprefix('socket:'), 65535, idle_in(words))      # one after the other
    elif words[:1] == ['describe'] and words[2:] == ['--json']:
        print(json.dumps(description(opened(words[1], fcntl.LOCK_SH).committed)))
    elif words[:1] == ['check']:
        opened(words[1])
        print('ok CHECK')
    else:
        sys.exit(2)


sys.setrecursionlimit(100000)
try:
    perform(sys.argv[1:])
except Fault as fault:
    sys.stderr.write(f'guarddb: {fault}\n')
    sys.exit(1)
