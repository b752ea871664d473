#!/usr/bin/env python3
"""One server at several places, each with its own words: python3 tests/test_places.py

The program is the one in the environment variable GUARDDB; without it nothing is tried.
"""
import contextlib
import os
import signal
import socket
import stat
import subprocess
import unittest

from postgres_client import Client, fields, kinds, start_packet
from program import IS_FAKE, PATIENCE, PROGRAM, free_port, run
from test_passwords import SECRET, AtPlace
import guarddb

NONE = ("error: '{}' is none of several places: PLACE is port:P, with P from 1 to 65535, socket:PATH, pgport:P or pgsocket:FOLDER, and behind a "
        'comma it takes role=NAME, or passwords=TABLE with mock=ROLE, and of a socket mode=600 or mode=660, each once, and last no-superuser')
AT = 'error: serve --at PLACE takes FILE and --clients N, and no port or socket; PLACE is port:P, socket:PATH, pgport:P or pgsocket:FOLDER'
ASKS = 'passwords=logins,mock=mock'


def words_of(places):
    return [word for place in places for word in ('--at', place)]


@unittest.skipIf(IS_FAKE, 'GUARDDB names no program')
class Places(AtPlace):
    def setUp(self):
        super().setUp()
        self.here = lambda name: os.path.join(self.folder, name)
        for name in ('pg', 'other'):
            os.mkdir(self.here(name))

    @contextlib.contextmanager
    def at(self, places, told, clients=20, open_ports=()):
        """A server at these places, which says in their order that it listens at each, and at which ports no passwords are asked for."""
        server = subprocess.Popen([PROGRAM, 'serve', self.path, *words_of(places), '--clients', str(clients)], stdout=subprocess.DEVNULL, stderr=subprocess.PIPE, text=True)
        try:
            for where in told:
                self.assertEqual(server.stderr.readline(), f'guarddb: listening on {where}\n')
            for port in open_ports:
                self.assertEqual(server.stderr.readline(), f'guarddb: no passwords are asked for at 127.0.0.1:{port}\n')
            yield server
            server.send_signal(signal.SIGTERM)
            self.assertEqual(server.communicate(timeout=PATIENCE)[1], '')
        finally:
            if server.poll() is None:
                server.kill()
            server.communicate()

    def roles_at(self, where, **words):
        """As which roles one may come in at a place of frames."""
        found = []
        with guarddb.connect(where, timeout=PATIENCE, **words) as connection:
            for role in ('root', 'ann', 'bob', 'nobody'):
                with contextlib.suppress(guarddb.Refused), connection.open(role):
                    found.append(role)
        return found

    def test_two_sockets_and_two_folders(self):
        """Each with its own words, at once, and whoever is served at the others."""
        places = [f'socket:{self.here("admin")},mode=600', f'socket:{self.here("app")},role=ann,mode=660', f'pgsocket:{self.here("pg")},role=bob', f'pgsocket:{self.here("other")}']
        told = [self.here('admin'), self.here('app'), self.here('pg/.s.PGSQL.5432'), self.here('other/.s.PGSQL.5432')]
        with self.at(places, told):
            self.assertEqual([stat.S_IMODE(os.stat(path).st_mode) for path in told], [0o600, 0o660, 0o600, 0o600])
            for _ in range(3):
                self.assertEqual(self.roles_at(told[0]), ['root', 'ann', 'bob'])
                self.assertEqual(self.roles_at(told[1]), ['ann'])
                self.assertEqual(self.who_comes_in(told[2]), ['bob'])
                self.assertEqual(self.who_comes_in(told[3]), ['root', 'ann', 'bob'])
            with contextlib.ExitStack() as stack:
                connections = [stack.enter_context(guarddb.connect(told[n % 2], timeout=PATIENCE)) for n in range(8)]
                sessions = [stack.enter_context(connection.open('ann')) for connection in connections]
                clients = [stack.enter_context(Client(told[2 + n % 2], 'bob')) for n in range(8)]
                for session in sessions:
                    self.assertEqual(session.ask('SELECT session_user'), [['ann']])
                for client in clients:
                    self.assertEqual(kinds(client.ask("SELECT 'x'")), b'TDCZ')
        self.assertEqual([os.path.lexists(path) for path in told], [True] * 4)      # a server that is killed leaves them
        with self.at(places, told):
            self.assertEqual(self.roles_at(told[1]), ['ann'])

    def who_comes_in(self, where):
        found = []
        for role in ('root', 'ann', 'bob', 'nobody'):
            with Client(where) as client:
                client.send(start_packet(role))
                if client.message()[0] == b'R':
                    found.append(role)
        return found

    def test_ports_and_passwords(self):
        port, other = free_port(), free_port()
        places = [f'port:{port},{ASKS}', f'pgport:{other},role=ann', f'socket:{self.place}']
        with self.at(places, [f'127.0.0.1:{port}', f'127.0.0.1:{other}', self.place]):
            self.assertEqual(self.roles_at(port, user='ann', password='ann' + SECRET), ['ann'])
            self.assertEqual(self.roles_at(self.place), ['root', 'ann', 'bob'])
            self.assertEqual(self.who_comes_in(other), ['ann'])
            for role in ('root', 'ann'):
                with guarddb.connect(port, timeout=PATIENCE) as connection:
                    self.refuses('28000', connection.open, role)

    def test_the_end_of_all(self):
        """The files are taken away where the server ends by itself."""
        told = [self.here('one'), self.here('two')]
        server = subprocess.Popen([PROGRAM, 'serve', self.path, *words_of(f'socket:{path}' for path in told), '--clients', '2', '--connections', '2'],
                                  stdout=subprocess.DEVNULL, stderr=subprocess.PIPE, text=True)
        for path in told:
            self.assertEqual(server.stderr.readline(), f'guarddb: listening on {path}\n')
        for path in told:
            with guarddb.connect(path, timeout=PATIENCE) as connection, connection.open('ann'):
                pass
        self.assertEqual((server.communicate(timeout=PATIENCE)[1], server.returncode), ('guarddb: done\n', 0))
        self.assertEqual([os.path.lexists(path) for path in told], [False] * 2)

    def test_a_place_that_is_not_bound(self):
        """Nothing is left of the others, and the message names it."""
        taken = socket.create_server(('127.0.0.1', 0))
        port = taken.getsockname()[1]
        for bad, named in [(f'port:{port}', f'127.0.0.1:{port}'), (f'socket:{self.here("none/sock")}', self.here('none/sock')),
                           (f'pgsocket:{self.here("none")}', self.here('none/.s.PGSQL.5432')), (f'socket:{self.here("db")}', self.here('db'))]:
            for places in ([f'socket:{self.here("first")}', bad], [bad, f'socket:{self.here("first")}'], [f'socket:{self.here("first")}', f'pgsocket:{self.here("pg")}', bad]):
                with self.subTest(places):
                    status, out, err = run('serve', self.path, *words_of(places), '--clients', '5')
                    self.assertEqual((status, out), (1, ''))
                    self.assertIn(named, err)
                    self.assertNotIn('listening', err)
                    self.assertFalse(os.path.lexists(self.here('first')) or os.path.lexists(self.here('pg/.s.PGSQL.5432')))
        taken.close()
        status, _, err = run('serve', self.path, *words_of([f'socket:{self.place}'] * 2), '--clients', '5')
        self.assertEqual((status, os.path.lexists(self.place)), (1, False), err)
        self.assertEqual(run('check', self.path)[0], 0)

    def test_words_that_name_no_place(self):
        good = f'socket:{self.place}'
        for bad in ('port:0', 'port:x', 'pgport:70000', 'socket:', 'tcp:5', 'port:5432,role=', 'port:5432,mode=600', 'port:5432,no-superuser,role=ann', ',no-superuser', 'no-superuser', ''):
            for places in ([good, bad], [bad, good]):
                with self.subTest(places):
                    status, out, err = run('serve', self.path, *words_of(places), '--clients', '5')
                    self.assertEqual((status, out, err.split('\n')[0]), (2, '', NONE.format(bad)))
        for words in (['--port', '5432'], ['--socket', self.place]):
            self.assertEqual(run('serve', self.path, *words_of([good, good]), '--clients', '5', *words)[2].split('\n')[0], AT)
        self.assertEqual(run('serve', self.path, *words_of([good, good]))[2].split('\n')[0], AT)
        nine = words_of(f'socket:{self.here(str(n))}' for n in range(9))
        self.assertEqual(run('serve', self.path, *nine, '--clients', '5')[2].split('\n')[0], 'error: serve takes up to eight places')

    def test_eight_places(self):
        told = [self.here(str(n)) for n in range(8)]
        with self.at([f'socket:{path},role={role}' for path, role in zip(told, ['ann', 'bob'] * 4)], told):
            for path, role in zip(told, ['ann', 'bob'] * 4):
                self.assertEqual(self.roles_at(path), [role])

    def test_a_place_without_superusers(self):
        """In frames and by PostgreSQL's protocol, with a role, with passwords and without, alone and beside others."""
        port = free_port()
        places = [f'socket:{self.here("plain")},no-superuser', f'pgsocket:{self.here("pg")},no-superuser', f'port:{port},{ASKS},no-superuser',
                  f'socket:{self.here("root")},role=root,no-superuser', f'socket:{self.here("all")}']
        told = [self.here('plain'), self.here('pg/.s.PGSQL.5432'), f'127.0.0.1:{port}', self.here('root'), self.here('all')]
        with self.at(places, told):
            self.assertEqual(self.roles_at(told[0]), ['ann', 'bob'])
            self.assertEqual(self.who_comes_in(told[1]), ['ann', 'bob'])
            self.assertEqual(self.roles_at(port, user='ann', password='ann' + SECRET), ['ann'])
            self.assertEqual(self.roles_at(port, user='root', password='root' + SECRET), [])
            self.assertEqual(self.roles_at(told[3]), [])
            self.assertEqual(self.roles_at(told[4]), ['root', 'ann', 'bob'])
        with self.at([f'socket:{self.place},no-superuser'], [self.place]):
            self.assertEqual(self.roles_at(self.place), ['ann', 'bob'])

    def test_who_can_become_a_superuser(self):
        """A place without superusers is shut to who reaches one by SET ROLE, by way of others, too; and to nobody else."""
        script = self.here('script')
        with open(script, 'w', encoding='utf-8') as file:
            file.write('\n'.join(['open r root', 'r: CREATE ROLE one LOGIN', 'r: CREATE ROLE two LOGIN', 'r: CREATE ROLE team', 'r: GRANT root TO team',
                                  'r: GRANT team TO one', 'r: GRANT ann TO two', 'r: CREATE ROLE high LOGIN SUPERUSER', 'r: CREATE ROLE three LOGIN', 'r: GRANT three TO high', '']))
        status, printed, messages = run('run', self.path, script)
        self.assertEqual((status, 'refused' in printed), (0, False), printed + messages)
        places = [f'socket:{self.here("barred")},no-superuser', f'pgsocket:{self.here("pg")},no-superuser', f'socket:{self.here("all")}']
        with self.at(places, [self.here('barred'), self.here('pg/.s.PGSQL.5432'), self.here('all')]):
            for role, comes in [('one', False), ('two', True), ('three', True), ('high', False), ('root', False), ('ann', True)]:
                with self.subTest(role):
                    with guarddb.connect(self.here('barred'), timeout=PATIENCE) as connection:
                        if comes:
                            with connection.open(role) as session:
                                self.assertEqual(session.ask('SELECT session_user'), [[role]])
                        else:
                            self.refuses('28000', connection.open, role)
                    with Client(self.here('pg/.s.PGSQL.5432')) as client:
                        client.send(start_packet(role))
                        kind, body = client.message()
                        self.assertEqual((kind, fields(body)['C'] if kind == b'E' else ''), (b'R', '') if comes else (b'E', '28000'))
                    with guarddb.connect(self.here('all'), timeout=PATIENCE) as connection, connection.open(role):
                        pass

    def test_ports_that_ask_for_no_passwords(self):
        """Each is told, in their order, behind the places where the server listens; a port with a role or with passwords is none, and of `--port` nothing is told."""
        port, other, third = free_port(), free_port(), free_port()
        names = {one: f'127.0.0.1:{one}' for one in (port, other, third)}
        for place, open_ports in [(f'port:{port}', [port]), (f'pgport:{port}', [port]), (f'port:{port},no-superuser', [port]), (f'pgport:{port},no-superuser', [port]),
                                  (f'port:{port},role=ann', []), (f'pgport:{port},role=ann', []), (f'port:{port},{ASKS}', []), (f'pgport:{port},{ASKS}', [])]:
            with self.subTest(place), self.at([place], [names[port]], open_ports=open_ports):
                pass
        for place, where in [(f'socket:{self.place}', self.place), (f'socket:{self.place},mode=660', self.place), (f'pgsocket:{self.here("pg")}', self.here('pg/.s.PGSQL.5432'))]:
            with self.subTest(place), self.at([place], [where]):
                pass
        with self.at([f'pgport:{port}', f'port:{other},role=ann', f'socket:{self.place}', f'port:{third}'], [names[port], names[other], self.place, names[third]], open_ports=[port, third]):
            self.assertEqual(self.roles_at(third), ['root', 'ann', 'bob'])
        for words in (['--port', str(port), '--clients', '2', '--connections', '1'], ['--port', str(port), '--connections', '1']):
            with self.subTest(words):
                server = subprocess.Popen([PROGRAM, 'serve', self.path, *words], stdout=subprocess.DEVNULL, stderr=subprocess.PIPE, text=True)
                self.assertEqual(server.stderr.readline(), f'guarddb: listening on {names[port]}\n')
                with guarddb.connect(port, wait=PATIENCE, timeout=PATIENCE) as connection, connection.open('ann'):
                    pass
                self.assertEqual((server.communicate(timeout=PATIENCE)[1], server.returncode), ('guarddb: done\n', 0))

    def test_strangers_shut_no_door_of_others(self):
        """So many come to a place that asks for passwords and say nothing; others are served at the other places meanwhile, and those with passwords, too."""
        port = free_port()
        with self.at([f'port:{port},{ASKS}', f'socket:{self.place}'], [f'127.0.0.1:{port}', self.place], clients=20), contextlib.ExitStack() as stack:
            strangers = []
            for _ in range(60):
                strangers.append(stack.enter_context(socket.create_connection(('127.0.0.1', port))))
                if len(strangers) % 6 == 0:
                    with guarddb.connect(self.place, timeout=PATIENCE) as connection, connection.open('ann') as ann:
                        self.assertEqual(ann.ask('SELECT session_user'), [['ann']])
                    with guarddb.connect(port, timeout=PATIENCE, user='bob', password='bob' + SECRET) as connection, connection.open('bob') as bob:
                        self.assertEqual(bob.ask('SELECT session_user'), [['bob']])
            with contextlib.ExitStack() as more:
                for _ in range(20):
                    connection = more.enter_context(guarddb.connect(self.place, timeout=PATIENCE))
                    more.enter_context(connection.open('ann'))

    def test_who_has_a_session_leaves_room_for_others(self):
        """Those that showed a password are at most so many that eight find room elsewhere."""
        port = free_port()
        with self.at([f'port:{port},{ASKS}', f'socket:{self.place}'], [f'127.0.0.1:{port}', self.place], clients=20), contextlib.ExitStack() as stack:
            for _ in range(12):
                connection = stack.enter_context(guarddb.connect(port, timeout=PATIENCE, user='ann', password='ann' + SECRET))
                stack.enter_context(connection.open('ann'))
            with self.assertRaises(Exception):
                with guarddb.connect(port, timeout=PATIENCE, user='bob', password='bob' + SECRET) as connection:
                    connection.open('bob')
            for _ in range(8):
                connection = stack.enter_context(guarddb.connect(self.place, timeout=PATIENCE))
                stack.enter_context(connection.open('root'))


del AtPlace

if __name__ == '__main__':
    unittest.main()
