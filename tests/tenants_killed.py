#!/usr/bin/env python3
"""Tries that what a tenant is told over its connections says nothing of what is hidden from it, while servers are killed:
tenants_killed.py [--premises] [SEED [PAIRS]]

Two files hold databases that look the same to a tenant, each served by itself, one maybe with a journal and the other without. The
tenant's events are the same at both; others do other things there, out of its sight. Between them both servers are killed and started
again, often with an event of another under way, or one of the tenant's own; or the connection is a new one. The bytes of the answers that
the tenant gets must be the same up to the first listed refusal, as tests/tenants.py has it, or to a stop that kept a commit of the
tenant's own at the one server and not at the other. Each answer is the model's, and a file is after a kill as the model has it with the
event that was under way or without it: with it, where it had been answered.

PAIRS are tried of each of two kinds: all sessions over one connection, and each session over a connection of its own, by `--clients`.
With --premises each of these is left out by itself, and a difference is to be found in so many pairs; else the status is 1:

stops               a stop that kept an own commit at one server alone is no exception
others              an event of another that is under way at a stop may be one that the tenant sees
blocks              the first server is wrong: before a stop it commits what an open block of the tenant has written
"""
import collections
import concurrent.futures
import os
import socket
import struct
import subprocess
import sys
import tempfile
import time

from program import IS_FAKE, PATIENCE, PROGRAM, make_database, run
from tenant_worlds import OTHER_SESSIONS, SESSIONS, Script, model, tells_by_count
from tenants import EXCEPTIONS, Pair, tell, try_kind

LONGEST = 131067        # bytes of an answer in a frame, behind which more of it comes in the next
ALONE, CLIENTS = 'killed servers', 'killed servers of many clients'
KINDS = [ALONE, CLIENTS]
PREMISES = ['stops', 'others', 'blocks']


class Side(Script):
    """A script whose lines a served file answers, too."""

    def __init__(self, script, folder, has_journal, is_of_clients):
        super().__init__()
        self.is_of_clients, self.is_wrong, self.connections = is_of_clients, False, {}
        self.path, self.socket_path = os.path.join(folder, 'file.db'), os.path.join(folder, 'socket')
        with open(os.path.join(folder, 'script'), 'w', encoding='utf-8') as file:
            file.write('\n'.join(script.lines) + '\n')
        make_database(self.path, journal=has_journal)
        status, _, messages = run('run', self.path, os.path.join(folder, 'script'))
        assert status == 0, messages
        self.lines = list(script.lines)
        self.numbers = {name: i + 1 for i, name in enumerate([*SESSIONS, *OTHER_SESSIONS, 'q'])}
        self.begin(script.committed)
        self.process = None
        self.start()

    def begin(self, committed):
        """The model of a server that was just opened over a database."""
        self.server = model.Server('root')
        self.server.committed = committed

    # ---- the server

    def start(self):
        words = [PROGRAM, 'serve', self.path, '--socket', self.socket_path, '--connections', '1000']
        words += ['--clients', '100', '--block', '86400'] if self.is_of_clients else []
        self.process = subprocess.Popen(words, stdout=subprocess.DEVNULL, stderr=subprocess.PIPE)
        self.connection('r')

    def connection(self, name):
        """The connection of a session: all have one, or each has its own."""
        client = name if self.is_of_clients else ''
        if client not in self.connections:
            self.connections[client] = self.connected()
        return self.connections[client]

    def connected(self):
        ends = time.monotonic() + PATIENCE
        while True:
            connection = socket.socket(socket.AF_UNIX)
            connection.settimeout(PATIENCE)
            try:
                connection.connect(self.socket_path)
                return connection
            except OSError:
                connection.close()
                assert self.process.poll() is None and time.monotonic() < ends, self.process.stderr.read()
                time.sleep(0.001)

    def reconnect(self):
        """New connections: the sessions of the former end. Of many clients they are closed first, since another may be served before
        the end of a connection is seen."""
        if self.is_of_clients:
            for name in [name for name in self.numbers if self.session(name)]:
                self.do('close ' + name)
        self.disconnect()
        self.begin(self.committed)

    def disconnect(self):
        for connection in self.connections.values():
            connection.close()
        self.connections = {}

    def end(self):
        self.process.kill()
        self.process.wait()
        self.process.stderr.close()

    # ---- events

    def send(self, line):
        words = line.split(' ', 2)
        if words[0] == 'open':
            kind, name, text = 1, words[1], words[2]
        elif words[0] == 'close':
            kind, name, text = 3, words[1], ''
        else:
            kind, (name, text) = 2, line.split(': ', 1)
        payload = text.encode()
        connection = self.connection(name)
        connection.sendall(struct.pack('>IBI', 5 + len(payload), kind, self.number(name)) + payload)
        return connection

    def do(self, line):
        """Has an event answered; the bytes of the answer."""
        expected = super().do(line)
        frames, text = answer(self.send(line))
        assert self.is_wrong or text == expected + '\n', (self.lines, text, expected)
        return frames

    # ---- kills

    def changes_rows_alone(self, line):
        """Whether what an event commits is known by asking for all rows."""
        tried = self.copy()
        tried.step(line)
        return defined_in(tried.committed) == defined_in(self.committed)

    def kill(self, line=None):
        """Kills the server while it carries an event out, if one is given, and starts it again. What that is answered by the model, and
        whether the file has what it brings; None where it brings nothing."""
        before = after = self.committed
        expected, told, kept = None, None, None
        if line:
            tried = self.copy()
            expected = tried.step(line)
            after = tried.committed
            connection = self.send(line)
            time.sleep(self.r.choice([0, 0, 0.0005, 0.002]))
        self.end()
        if line:
            told = answer_if_any(connection)
            assert told in (None, expected + '\n'), (self.lines, line, told, expected)
        self.disconnect()
        self.begin(before)
        self.start()
        if line and shown(after) != shown(before):
            self.begin(self.found(before, after))
            kept = self.committed is after
            assert kept or told is None, (self.lines, line, told)
        return expected, kept

    def found(self, before, after):
        """Which of two databases the file has."""
        rows = [answer(self.send(line))[1] for line in questions(before)]
        fits = [db for db in (after, before) if [text + '\n' for text in shown(db)] == rows]
        assert fits, (self.lines, rows)
        return fits[0]


def defined_in(db):
    """All that is in a database but rows."""
    return db.roles, db.memberships, db.descriptors, {name: (t.owner, t.columns, t.key, t.security, t.forced, t.policies) for name, t in db.tables.items()}


def taken(connection, size):
    out = b''
    while len(out) < size:
        piece = connection.recv(size - len(out))
        if not piece:
            raise EOFError('the server closed the connection')
        out += piece
    return out


def answer(connection):
    """The bytes of the frames of an answer, and its text."""
    frames, text, size = b'', b'', LONGEST
    while size == LONGEST:
        head = taken(connection, 4)
        body = taken(connection, struct.unpack('>I', head)[0])
        frames, text, size = frames + head + body, text + body[5:], len(body) - 5
    return frames, text.decode()


def answer_if_any(connection):
    """The text of an answer that a server sent before it was killed; None where it sent none, or a part of it."""
    try:
        return answer(connection)[1]
    except (EOFError, ConnectionError):
        return None


def questions(db):
    """Asks for all rows, as root."""
    return ['open q root'] + ['q: SELECT * FROM ' + name for name in sorted(db.tables)] + ['close q']


def shown(db):
    """The model's answers to these questions."""
    script = Script()
    script.server.committed = db
    return [script.step(line) for line in questions(db)]


class KilledPair(Pair):
    """Two served files, of which a tenant asks the same."""

    def __init__(self, seed, number, kind, without, folders):
        self.folders, self.difference, self.is_over, self.is_of_clients = list(folders), None, False, kind == CLIENTS
        super().__init__('%s %s' % (seed, kind), number, 'tables and columns')
        self.features, self.without = {'others'}, without

    def begun(self, lines):
        if not self.differ:
            return None
        has_journal = self.world.chance(0.5)
        side = Side(super().begun(lines), self.folders.pop(), has_journal, self.is_of_clients)
        side.r = self.world.r
        return side

    def tell(self, line):
        """An event of the tenant, at both."""
        one, other = [side.do(line) for side in self.scripts]
        answers = tuple(side.answers[-1] for side in self.scripts)
        self.counts['own answers'] += 1
        self.counts['both ' + answers[0][8:]] += one == other and answers[0] in ['refused ' + code for code in EXCEPTIONS]
        if one != other:
            code = self.exception(line, answers)
            self.counts['parted by ' + (code or 'a difference')] += 1
            self.is_over, self.difference = True, None if code else (line, *answers)

    def grow(self):
        world = self.world
        for _ in range(world.of(2, 3, 3)):
            for _ in range(world.of(4, 6, 9)):
                for side in self.scripts:
                    for _ in range(world.of(0, 0, 1, 2)):
                        self.add_of_other(side)
                self.add_own()
                if self.is_over:
                    return
            self.stop_all()
            if self.is_over:
                return
        self.counts['pairs'] += 1

    def stop_all(self):
        """Kills both servers and starts them again, or makes new connections."""
        if self.world.chance(0.3):
            self.counts['new connections'] += 2
            for side in self.scripts:
                side.reconnect()
            return
        self.commit_wrongly()
        is_wrong = self.scripts[0].is_wrong
        own = None if is_wrong else self.own_under_way()
        lines = [own or (None if is_wrong else self.under_way(side)) for side in self.scripts]
        ends = [side.kill(line) for side, line in zip(self.scripts, lines)]
        self.counts['kills'] += 2
        self.counts['kills with an event under way'] += sum(line is not None for line in lines)
        self.counts['kills with an own event under way'] += 2 * (own is not None)
        self.counts['own events kept'] += sum(kept is True for _, kept in ends) if own else 0
        if not self.looks_alike(*self.scripts):
            self.part(own, ends)

    def commit_wrongly(self):
        """Commits an open block of the tenant at the first server, if that is a wrong one; the model is not told."""
        side = self.scripts[0]
        side.is_wrong = 'blocks' in self.without
        holders = [name for name in SESSIONS if side.is_wrong and self.is_holder(side, name)]
        for name in holders:
            answer(side.send(name + ': COMMIT'))

    def part(self, own, ends):
        """The stops left what does not look alike to the tenant: one kept an event of its own, or that is an exception in itself."""
        answers = tuple(answer for answer, _ in ends)
        is_by_stop = own and ends[0][1] is not ends[1][1] and 'stops' not in self.without
        code = 'a stop' if is_by_stop else own and self.exception(own, answers)
        self.counts['parted by ' + (code or 'a difference')] += 1
        self.is_over, self.difference = True, None if code else (own or 'a stop', *map(str, ends))

    def own_under_way(self):
        """An event of the tenant that is under way at both stops; None where there is none."""
        names = [name for name in SESSIONS if all(side.session(name) for side in self.scripts)]
        if not names or self.world.chance(0.6):
            return None
        name = self.world.of(*names)
        text = 'COMMIT' if all(self.is_holder(side, name) for side in self.scripts) else self.world.own_text(self.scripts[0], name)
        line = '%s: %s' % (name, text)
        is_known = all(side.changes_rows_alone(line) and not tells_by_count(side, name, text) for side in self.scripts)
        return line if is_known else None

    def is_holder(self, side, name):
        return side.server.holder and side.server.holder[0] == side.number(name)

    def under_way(self, side):
        """An event of another that may be under way, out of the tenant's sight; None where there is none."""
        names = [name for name in OTHER_SESSIONS if side.session(name)]
        if not names or self.world.chance(0.4):
            return None
        name = self.world.of(*names)
        line = '%s: %s' % (name, 'COMMIT' if self.is_holder(side, name) else self.world.text_of_other(side, name))
        return line if 'others' in self.without or self.is_out_of_sight(side, line) else None


def try_killed(seed, number, kind, without):
    """What was counted of a pair, and the difference with the scripts, or None."""
    with tempfile.TemporaryDirectory() as one, tempfile.TemporaryDirectory() as other:
        pair = KilledPair(seed, number, kind, without, [one, other])
        if not pair.differ:
            return collections.Counter(), None
        try:
            pair.grow()
        finally:
            for side in pair.scripts:
                side.end()
                side.disconnect()
        return pair.counts, pair.difference and ([side.lines for side in pair.scripts], pair.difference)


def needs(premise, seed, pairs):
    """Whether answers differ somewhere where a premise is left out."""
    counts, difference = try_kind(try_killed, seed, pairs, ALONE, [premise])
    print('without %s: %s after %d pairs' % (premise, 'a difference' if difference else 'no difference', counts['pairs']), flush=True)
    return bool(difference)


def main():
    words = [word for word in sys.argv[1:] if word != '--premises']
    is_of_premises = len(words) < len(sys.argv) - 1
    seed, pairs = words[0] if words else '1', int(words[1]) if words[1:] else 500 if is_of_premises else 20
    if is_of_premises:
        return 0 if all([needs(premise, seed, pairs) for premise in PREMISES]) else 1
    passed = [tell(kind, *try_kind(try_killed, seed, pairs, kind)) for kind in KINDS]
    return 0 if all(passed) else 1


if __name__ == '__main__':
    sys.setrecursionlimit(100000)
    if IS_FAKE:
        sys.exit('GUARDDB is to name a program that serves files')
    sys.exit(main())
