#!/usr/bin/env python3
"""Events of 32 clients at once, in the order of the server: python3 tests/test_order_of_events.py [EVENTS]

The program is the one in the environment variable GUARDDB. Each client asks random statements in sessions of its own, over the same
tables and roles, and goes on when it is answered. In which order the server took the events is seen by strace (Debian's package): it is
that in which the answers begin to go out. The model in scripts/ then answers the events in this order, and each client is to have been
told that. A client that has a session of a role which is dropped is to be ended by the server, and no other is. Where there is no strace,
nothing is tried, and a line says so.
"""
import os
import random
import re
import shutil
import subprocess
import sys
import tempfile
import threading
import unittest

from program import IS_FAKE, PATIENCE, PROGRAM, TOP, free_port, make_database
import guarddb

sys.path.insert(0, os.path.join(TOP, 'scripts'))
import model
import random_script

CLIENTS = 32
EVENTS = 6000           # of all clients, where no other number is said
BLOCK = 8               # events of a session after which it ends its block
SEED = int(os.environ.get('SEED', '1'))
LOGINS = {'r': 'root', 'a': 'ann', 'b': 'bob', 'c': 'cid', 'd': 'dan'}
NUMBERS = {name: number for number, name in enumerate(LOGINS, 1)}
TAKEN = re.compile(r'accept4\(.*sin_port=htons\((\d+)\).*\)\s*= (\d+)')
SENT = re.compile(r'(?:write|sendto|sendmsg|writev)\((\d+), .*\)\s*= (\d+)')
HAS_STRACE = shutil.which('strace') is not None


class Counted(guarddb.Connection):
    """A connection that counts the bytes of its answers."""
    read = 0

    def _read(self, count):
        self.read += count
        return super()._read(count)


class Asker(threading.Thread):
    """A client that asks random statements: its events, with their answers and the bytes that came before each."""
    def __init__(self, port, seed, count):
        super().__init__()
        self.connection = Counted(guarddb.connect(port, wait=PATIENCE, timeout=PATIENCE).socket)
        self.port = self.connection.socket.getsockname()[1]
        self.script, self.count = random_script.Script(seed), count
        self.made, self.since, self.was_ended, self.fault = [], {}, False, None

    def ask(self, event):
        """Asks an event, as a script has it, and gives its answer."""
        words = event.split(' ', 2)
        who = words[1] if words[0] in ('open', 'close') else words[0][:-1]
        kind, text = {'open': (guarddb.OPEN, words[-1]), 'close': (guarddb.CLOSE, '')}.get(
            words[0], (guarddb.STATEMENT, event.split(': ', 1)[-1]))
        begins = self.connection.read
        answer = self.connection.exchange(kind, NUMBERS[who], text)
        self.made.append((begins, event, answer))
        self.since[who] = 0 if answer == 'ok BEGIN\n' else self.since.get(who, BLOCK) + 1
        return who, answer

    def repaired(self, who, answer):
        """What is likely to come after an answer, so that most statements meet a database that works."""
        script = self.script
        if self.since[who] == BLOCK:
            return [who + script.of(': COMMIT', ': COMMIT', ': ROLLBACK')]
        if answer == 'refused 25P02\n' and script.chance(0.8):
            return [who + ': ROLLBACK']
        if answer in ('refused 08003\n', 'refused 28000\n') and script.chance(0.8):
            return [f'r: CREATE ROLE {LOGINS[who]} LOGIN', f'close {who}', f'open {who} {LOGINS[who]}']
        if answer == 'refused 42P01\n' and script.chance(0.6):
            return ['a: ' + script.create_table(script.of('t', 'u', 'n'))]
        return []

    def run(self):
        try:
            wanted = [f'open {name} {login}' for name, login in LOGINS.items()]
            while len(self.made) < self.count:
                who, answer = self.ask(wanted.pop(0) if wanted else self.script.event())
                wanted = wanted or self.repaired(who, answer)
        except ConnectionError:
            self.was_ended = True
        except BaseException as fault:      # whatever it is, it fails the test
            self.fault = fault


def order_of(trace, askers):
    """The events of all clients in the order in which their answers began to go out: pairs of a client and of what it made."""
    by_port = {asker.port: number for number, asker in enumerate(askers)}
    clients, sent, left, order = {}, {}, [list(asker.made) for asker in askers], []
    for line in trace:
        taken, found = TAKEN.search(line), SENT.search(line)
        if taken and int(taken[1]) in by_port:
            clients[int(taken[2])] = by_port[int(taken[1])]
        elif found and int(found[1]) in clients:
            client = clients[int(found[1])]
            end = sent.get(client, 0) + int(found[2])
            while left[client] and left[client][0][0] < end:
                order.append((client, left[client].pop(0)))
            sent[client] = end
    return order


def expelled(answering):
    """The clients that have a session of a role which is there no more. All their sessions end."""
    lost = {int(name.split('.')[0]) for name, session in answering.sessions.items() if session.login not in answering.committed.roles}
    for name in [name for name in answering.sessions if int(name.split('.')[0]) in lost]:
        answering.close(name)
    return lost


@unittest.skipIf(IS_FAKE, 'GUARDDB names no program')
class Order(unittest.TestCase):
    def setUp(self):
        self.folder = tempfile.mkdtemp(prefix='guarddb-')
        self.addCleanup(shutil.rmtree, self.folder)

    def asked(self, seed):
        """The events that 32 clients asked at once, in the order of the server, and how a server of the model stands before them."""
        path, trace, port = os.path.join(self.folder, 'db'), os.path.join(self.folder, 'trace'), free_port()
        make_database(path, pages=4096, journal=True)
        words = ['serve', path, '--port', str(port), '--clients', str(CLIENTS + 1), '--connections', str(CLIENTS + 1)]
        server = subprocess.Popen(['strace', '-f', '--seccomp-bpf', '-qq', '-s', '0', '-e', 'signal=none', '-o', trace, '-e',
                                   'trace=accept4,write,sendto,sendmsg,writev', PROGRAM, *words],
                                  stdout=subprocess.DEVNULL, stderr=subprocess.PIPE, text=True)
        try:
            self.assertIn('listening', server.stderr.readline())
            answering = model.Server('root')
            with guarddb.connect(port, wait=PATIENCE, timeout=PATIENCE) as first:
                self.begin(first, answering)
            askers = [Asker(port, seed * 100 + number, EVENTS // CLIENTS) for number in range(CLIENTS)]
            for asker in askers:
                asker.start()
            for asker in askers:
                asker.join()
            for asker in askers:
                asker.connection.close()
                if asker.fault:
                    raise asker.fault
            _, messages = server.communicate(timeout=PATIENCE)
            self.assertEqual((server.returncode, messages), (0, 'guarddb: done\n'))
        finally:
            if server.poll() is None:
                server.kill()
            server.communicate()
        with open(trace, encoding='ascii', errors='replace') as file:
            return order_of(file, askers), askers, answering

    def begin(self, connection, answering):
        """Makes roles and tables, in the server and in the model."""
        for event in random_script.Script(0).setup():
            words = event.split(' ', 2)
            if words[0] == 'open':
                self.assertEqual((connection.exchange(guarddb.OPEN, NUMBERS[words[1]], words[2]), answering.open(words[1], words[2])),
                                 ('ok OPEN\n', 'ok OPEN'))
            else:
                who, text = event.split(': ', 1)
                self.assertEqual(connection.exchange(guarddb.STATEMENT, NUMBERS[who], text), answering.execute(who, text) + '\n', event)
        for name in list(LOGINS):
            answering.close(name)

    def test_each_client_is_told_what_the_model_says(self):
        if not HAS_STRACE:
            self.skipTest('there is no strace: the order of events is left out')
        order, askers, answering = self.asked(SEED)
        self.assertEqual(len(order), sum(len(asker.made) for asker in askers))
        lost = set()
        for place, (client, (_, event, answer)) in enumerate(order, 1):
            where = f'event {place}, client {client}: {event}'
            self.assertNotIn(client, lost, where)
            words = event.split(' ', 2)
            name = words[1] if words[0] in ('open', 'close') else words[0][:-1]
            session = f'{client}.{name}'
            said = answering.open(session, words[2]) if words[0] == 'open' else \
                answering.close(session) if words[0] == 'close' else answering.execute(session, event.split(': ', 1)[1])
            self.assertEqual(answer, said + '\n', where)
            lost |= expelled(answering)
        for client, asker in enumerate(askers):
            self.assertTrue(client in lost and (asker.was_ended or len(asker.made) == asker.count) or client not in lost and not asker.was_ended,
                            f'client {client} of {sorted(lost)}, which lost their roles')
        print(f'{len(order)} events of {CLIENTS} clients, of which {len(lost)} lost a role')


if __name__ == '__main__':
    sys.setrecursionlimit(100000)
    if len(sys.argv) > 1 and sys.argv[1].isdigit():
        EVENTS = int(sys.argv.pop(1))
    unittest.main()
