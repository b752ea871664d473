#!/usr/bin/env python3
"""Clients that hold a server up, and connections that the system cannot hand over: python3 tests/test_idle.py

The program is the one in the environment variable GUARDDB, or else fake_guarddb.py. What comes of a lack of descriptors is tried
with the program alone.
"""
import contextlib
import os
import resource
import shutil
import socket
import subprocess
import tempfile
import time
import unittest

from program import IS_FAKE, PATIENCE, PROGRAM, frame, free_port, make_database, run, served
import guarddb

AGAIN = 'guarddb: no connection taken, trying again: '
ALL = 'SELECT o FROM t'     # answered by 20,000 bytes


BEGIN, BEGUN = frame(guarddb.STATEMENT, 1, 'BEGIN'), frame(guarddb.ANSWER, 1, 'ok BEGIN\n')


@contextlib.contextmanager
def watched(path, connections):
    """A server whose messages are read; gives it and its port once it listens."""
    port = free_port()
    words = ['serve', path, '--port', str(port), '--connections', str(connections)]
    server = subprocess.Popen([PROGRAM, *words], stdout=subprocess.DEVNULL, stderr=subprocess.PIPE, text=True)
    try:
        assert server.stderr.readline() == f'guarddb: listening on 127.0.0.1:{port}\n'
        yield server, port
    finally:
        if server.poll() is None:
            server.kill()
        server.communicate()


def connected_for_little(place):
    """A connection of which the client's system keeps but a few thousand bytes for it."""
    is_port = isinstance(place, int)
    stream = socket.socket(socket.AF_INET if is_port else socket.AF_UNIX)
    stream.setsockopt(socket.SOL_SOCKET, socket.SO_RCVBUF, 4096)
    stream.settimeout(PATIENCE)
    end = time.monotonic() + PATIENCE
    while stream.connect_ex(('127.0.0.1', place) if is_port else place) and time.monotonic() < end:
        time.sleep(0.02)
    return guarddb.Connection(stream)


class Idle(unittest.TestCase):
    def setUp(self):
        self.folder = tempfile.mkdtemp(prefix='guarddb-')
        self.addCleanup(shutil.rmtree, self.folder)
        self.path = os.path.join(self.folder, 'db')
        make_database(self.path)

    def places(self):
        return None, os.path.join(self.folder, 'at')

    def test_half_a_frame_and_no_more(self):
        with served(self.path) as place, guarddb.connect(place, wait=PATIENCE, timeout=PATIENCE) as connection:
            connection.open('root').ask('CREATE TABLE t (k BIGINT PRIMARY KEY)')
        for socket_path in self.places():
            with self.subTest(socket_path), served(self.path, 2, socket_path, idle=1) as place:
                first = guarddb.connect(place, wait=PATIENCE, timeout=PATIENCE)
                root = first.open('root')
                root.ask('BEGIN')
                root.ask('INSERT INTO t VALUES (1)')
                first.socket.sendall(frame(guarddb.STATEMENT, 1, 'COMMIT')[:7])
                began = time.monotonic()
                with guarddb.connect(place, timeout=PATIENCE) as second:
                    self.assertEqual(second.open('root').ask('SELECT * FROM t'), [])
                    self.assertGreater(time.monotonic() - began, 0.7)       # how much later depends on what else the machine does
                    self.assertEqual(first.input.read(), b'')       # the end of the connection
                    first.close()

    def test_a_client_that_reads_nothing(self):
        with served(self.path) as place, guarddb.connect(place, wait=PATIENCE, timeout=PATIENCE) as connection:
            root = connection.open('root')
            root.ask('CREATE TABLE t (k BIGINT PRIMARY KEY, o TEXT)')
            root.ask('INSERT INTO t VALUES ' + ', '.join(f"({k}, '{'o' * 1000}')" for k in range(20)))
        for socket_path in self.places():
            with self.subTest(socket_path), served(self.path, 2, socket_path, idle=1) as place:
                first = connected_for_little(place)
                first.open('root')
                first.socket.sendall(frame(guarddb.STATEMENT, 1, ALL) * 400)
                with guarddb.connect(place, timeout=PATIENCE) as second:
                    self.assertEqual(second.open('root').ask('SELECT count(*) FROM t', int), [[20]])
                first.close()

    def test_a_client_that_is_slow(self):
        """It is served for longer than the limit, as long as it sends something. On a busy machine it may be too slow, and tries again."""
        for _ in range(50):
            with served(self.path, idle=1) as place, guarddb.connect(place, wait=PATIENCE, timeout=PATIENCE) as connection:
                connection.open('root')
                answer, longest = self.sent_slowly(connection.socket, connection.input)
            if longest < 0.8:
                break
        self.assertEqual(answer, BEGUN)

    def sent_slowly(self, stream, answers):
        """What comes back for BEGIN, sent byte by byte, and the longest time between two bytes."""
        longest, last, answer = 0, time.monotonic(), b''
        with contextlib.suppress(ConnectionError):
            for byte in BEGIN[:6]:
                stream.sendall(bytes([byte]))
                time.sleep(0.4)
                longest, last = max(longest, time.monotonic() - last), time.monotonic()
            stream.sendall(BEGIN[6:])
            answer = answers.read(len(BEGUN))
        return answer, max(longest, time.monotonic() - last)

    def test_without_a_limit(self):
        with served(self.path, 2) as place:
            with guarddb.connect(place, wait=PATIENCE, timeout=PATIENCE) as first:
                first.open('root')
                first.socket.sendall(BEGIN[:7])
                with guarddb.connect(place, timeout=3) as second, self.assertRaises(TimeoutError):
                    second.open('root')
                first.socket.sendall(BEGIN[7:])
                self.assertEqual(first.input.read(len(BEGUN)), BEGUN)


@unittest.skipIf(IS_FAKE, 'GUARDDB names no program')
class Descriptors(unittest.TestCase):
    def setUp(self):
        self.folder = tempfile.mkdtemp(prefix='guarddb-')
        self.addCleanup(shutil.rmtree, self.folder)
        self.path = os.path.join(self.folder, 'db')
        make_database(self.path)
        self.most = resource.getrlimit(resource.RLIMIT_NOFILE)[1]

    def waits(self, server, port, clients):
        """A client whose connection the server has no descriptor for, once another one has gone."""
        limit = 1 + max(int(number) for number in os.listdir(f'/proc/{server.pid}/fd'))
        with guarddb.connect(port, timeout=PATIENCE) as first:
            first.open('root')
            client = clients.enter_context(contextlib.closing(guarddb.connect(port, timeout=PATIENCE)))
            resource.prlimit(server.pid, resource.RLIMIT_NOFILE, (limit, self.most))
        return client

    def test_that_come_back(self):
        with watched(self.path, 2) as (server, port), contextlib.ExitStack() as clients:
            client = self.waits(server, port, clients)
            self.assertRegex(server.stderr.readline(), rf'^{AGAIN}.*\(os error 24\)$')
            resource.prlimit(server.pid, resource.RLIMIT_NOFILE, (self.most, self.most))
            self.assertEqual(client.open('root').ask('SELECT 1', int), [[1]])
            client.close()
            self.assertEqual(server.wait(PATIENCE), 0)
            self.assertTrue(server.stderr.read().endswith('guarddb: done\n'))

    def test_that_do_not_come_back(self):
        with watched(self.path, 2) as (server, port), contextlib.ExitStack() as clients:
            self.waits(server, port, clients)
            self.assertEqual(server.wait(PATIENCE), 1)
            told = server.stderr.read().splitlines()
            self.assertEqual([line.startswith(AGAIN) for line in told[:6]], [True] * 5 + [False], told)
            self.assertEqual(told[5], 'guarddb: Net')
        self.assertEqual(run('check', self.path), (0, 'ok CHECK\n', ''))


if __name__ == '__main__':
    unittest.main()
