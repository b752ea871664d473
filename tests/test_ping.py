#!/usr/bin/env python3
"""Whether a server answers: python3 tests/test_ping.py

The program is the one in the environment variable GUARDDB; without it no server is asked.
"""
import contextlib
import os
import signal
import socket
import subprocess
import sys
import threading
import time
import unittest

from program import IS_FAKE, PATIENCE, PROGRAM, TOP, free_port, run
from test_passwords import AtPlace

PING = os.path.join(TOP, 'clients', 'ping.py')
ASKS = 'passwords=logins,mock=mock'
ALIVE = (0, 'ok PING\n', '')


def ping(*words):
    done = subprocess.run([sys.executable, PING, *map(str, words)], text=True, capture_output=True, timeout=PATIENCE)
    return done.returncode, done.stdout, done.stderr


class Words(unittest.TestCase):
    def test_places_that_cannot_be(self):
        for word in ('', 'port:', 'port:0', 'port:65536', 'port:x', '65536', 'pgport:', 'pgsocket:', 'socket:'):
            with self.subTest(word):
                status, printed, messages = ping(word)
                self.assertEqual((status, printed, 'usage:' in messages), (2, '', True))
        for words in ((), ('1', '2'), ('1', '--wait', '-1'), ('1', '--wait', 'x'), ('1', '--timeout', '1e9')):
            with self.subTest(words):
                self.assertEqual(ping(*words)[0], 2)

    def test_nobody_listens(self):
        for place in (free_port(), '/no/such/socket', 'socket:/no/such/socket', f'pgport:{free_port()}', 'pgsocket:/no/such'):
            with self.subTest(place):
                status, printed, messages = ping(place)
                self.assertEqual((status, printed, messages[:9], messages.count('\n')), (1, '', 'ping.py: ', 1))

    def test_one_that_listens_and_says_nothing_is_not_alive(self):
        with socket.socket() as listener:
            listener.bind(('127.0.0.1', 0))
            listener.listen()
            for place in (listener.getsockname()[1], f'pgport:{listener.getsockname()[1]}'):
                with self.subTest(place):
                    began = time.monotonic()
                    self.assertEqual(ping(place, '--timeout', 0.2), (1, '', 'ping.py: no answer came in time\n'))
                    self.assertGreater(time.monotonic() - began, 0.2)


@unittest.skipIf(IS_FAKE, 'GUARDDB names no program')
class Servers(AtPlace):
    @contextlib.contextmanager
    def at(self, *places, clients=20):
        words = [word for place in places for word in ('--at', place)]
        server = subprocess.Popen([PROGRAM, 'serve', self.path, *words, '--clients', str(clients)], stdout=subprocess.DEVNULL, stderr=subprocess.DEVNULL)
        try:
            yield server
        finally:
            server.send_signal(signal.SIGKILL)
            server.communicate()

    def test_each_kind_of_place_answers(self):
        port, other, folder = free_port(), free_port(), os.path.join(self.folder, 'pg')
        os.mkdir(folder)
        for places in ([f'socket:{self.place}', f'port:{port}', f'pgsocket:{folder}', f'pgport:{other}'],
                       [f'socket:{self.place},{ASKS}', f'port:{port},{ASKS}', f'pgsocket:{folder},{ASKS}', f'pgport:{other},{ASKS},no-superuser'],
                       [f'socket:{self.place},role=ann', f'port:{port},role=ann', f'pgsocket:{folder},role=ann', f'pgport:{other},role=ann']):
            with self.subTest(places), self.at(*places):
                for place in (self.place, f'socket:{self.place}', port, f'port:{port}', f'pgsocket:{folder}', f'pgport:{other}'):
                    self.assertEqual(ping(place, '--wait', PATIENCE), ALIVE)
        self.assertEqual(run('check', self.path), (0, 'ok CHECK\n', ''))

    def test_a_full_server_answers(self):
        with self.at(f'socket:{self.place}', clients=1):
            self.assertEqual(ping(self.place, '--wait', PATIENCE), ALIVE)
            with socket.socket(socket.AF_UNIX) as taken:
                taken.connect(self.place)
                self.assertEqual(ping(self.place), ALIVE)

    def test_it_waits_for_a_server_that_starts(self):
        found = []
        waiting = threading.Thread(target=lambda: found.append(ping(self.place, '--wait', PATIENCE)))
        waiting.start()
        time.sleep(0.5)
        with self.at(f'socket:{self.place}'):
            waiting.join(PATIENCE)
        self.assertEqual(found, [ALIVE])
        self.assertEqual(ping(self.place)[0], 1)

    def test_a_server_that_stands_still_does_not_answer(self):
        with self.at(f'socket:{self.place}') as server:
            self.assertEqual(ping(self.place, '--wait', PATIENCE), ALIVE)
            server.send_signal(signal.SIGSTOP)
            self.assertEqual(ping(self.place, '--timeout', 0.5)[0], 1)
            server.send_signal(signal.SIGCONT)
            self.assertEqual(ping(self.place, '--wait', PATIENCE), ALIVE)


if __name__ == '__main__':
    unittest.main()
