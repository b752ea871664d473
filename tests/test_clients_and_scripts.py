#!/usr/bin/env python3
"""Scripts over many clients: python3 tests/test_clients_and_scripts.py [EVENTS [all]]

The program is the one in the environment variable GUARDDB. The sessions of a script are spread over clients of one server, while others
read or write in tables of their own, and each event is answered as the script alone is: by the expected answers in
crates/system_tests/data, of which one in four is tried, or with the word `all` each, and for random scripts of EVENTS events by the
model in scripts/.
"""
import contextlib
import glob
import itertools
import os
import random
import re
import shutil
import subprocess
import sys
import tempfile
import threading
import unittest

from program import PATIENCE, PROGRAM, TOP, free_port, make_database
import guarddb

sys.path.insert(0, os.path.join(TOP, 'scripts'))
import model
import random_script

DATA = os.path.join(TOP, 'crates', 'system_tests', 'data')
OTHERS = 15             # clients beside those of a script
SESSIONS = 200          # a script of more sessions has them at one client, whose limit is the limit of scripts
EVENTS = 600            # of the random scripts, where no other number is said
STEP = 4                # of the scripts one in so many is tried
ROLE = re.compile(r'(CREATE|DROP) ROLE (\w+)')


def events(text):
    """The events of a script: the session's name, the kind of its frame, and its text."""
    for line in text.split('\n'):
        words = line.split(' ', 2)
        if line == '' or line.startswith('#'):
            continue
        if line.startswith('open ') and len(words) == 3:
            yield words[1], guarddb.OPEN, words[2]
        elif line.startswith('close ') and len(words) == 2:
            yield words[1], guarddb.CLOSE, ''
        else:
            session, statement = line.split(': ', 1)
            yield session, guarddb.STATEMENT, statement


def answers(printed):
    """The answers that lines tell, each with its rows."""
    lines = iter(printed.split('\n')[:-1])
    for line in lines:
        count = int(line[5:]) if line.startswith('rows ') else 0
        yield ''.join(it + '\n' for it in [line, *(next(lines) for _ in range(count))])


def scripts():
    """The scripts whose lines are all events, with the answers that they are to get."""
    for path in sorted(glob.glob(os.path.join(DATA, '*.script'))):
        with open(path, encoding='utf-8', newline='') as file, open(path[:-len('.script')] + '.expected', encoding='utf-8', newline='') as other:
            script, expected = file.read(), other.read()
        if 'guarddb: ' not in expected and 'DROP ROLE root' not in script:
            yield os.path.basename(path), script, list(answers(expected))


class ScriptsOverClients(unittest.TestCase):
    def setUp(self):
        self.folder = tempfile.mkdtemp(prefix='guarddb-')
        self.addCleanup(shutil.rmtree, self.folder)
        self.path, self.place = os.path.join(self.folder, 'db'), os.path.join(self.folder, 'at')

    @contextlib.contextmanager
    def served(self, clients):
        """A server over a new database; its connections end it."""
        with contextlib.suppress(FileNotFoundError):
            os.remove(self.path)
        make_database(self.path, pages=2048, journal=True)
        words = ['--socket', self.place, '--clients', str(clients + OTHERS), '--connections', str(clients + OTHERS)]
        server = subprocess.Popen([PROGRAM, 'serve', self.path, *words], stdout=subprocess.DEVNULL, stderr=subprocess.PIPE, text=True)
        try:
            self.assertIn('listening', server.stderr.readline())
            yield
            _, messages = server.communicate(timeout=PATIENCE)
            self.assertEqual((server.returncode, messages), (0, 'guarddb: done\n'))
        finally:
            if server.poll() is None:
                server.kill()
            server.communicate()

    def connect(self):
        return guarddb.connect(self.place, wait=PATIENCE, timeout=PATIENCE)

    @contextlib.contextmanager
    def others(self, write):
        """Clients that ask without end: all at once, each for itself; a writer may be refused while a session of the script holds the lock."""
        there = [self.connect() for _ in range(OTHERS)]
        sessions = [it.open('root') for it in there]
        for number, it in enumerate(sessions if write else []):
            it.ask(f'CREATE TABLE beside{number} (k BIGINT PRIMARY KEY)')
        has_ended, faults = threading.Event(), []

        def ask(connection, session, statement, taken):
            answer = connection.exchange(guarddb.STATEMENT, session.number, statement)
            if answer not in taken:
                faults.append((statement, answer))

        def ask_all():
            try:
                row = 0
                while not has_ended.is_set():
                    row += 1
                    for number, (connection, session) in enumerate(zip(there, sessions)):
                        if write:
                            ask(connection, session, f'INSERT INTO beside{number} VALUES ({row})', ('ok INSERT 1\n', 'refused 55P03\n'))
                        else:
                            ask(connection, session, 'SELECT current_user', ('rows 1\nroot\n',))
            except BaseException as fault:      # whatever it is, it fails the test
                faults.append(fault)
        thread = threading.Thread(target=ask_all)
        thread.start()
        try:
            yield
        finally:
            has_ended.set()
            thread.join()
            for it in there:
                it.close()
        self.assertEqual(faults, [])

    def compare(self, name, script, expected, clients, chosen):
        """
        Asks the events of a script, each session's at a client that is chosen for it. A client ends that has a session of a role which is
        dropped: the events of its sessions, which the script alone is refused, are left out then, up to where such a role is made again.
        """
        there, homes, numbers, logins, dropped, ended = [self.connect() for _ in range(clients)], {}, {}, {}, set(), set()
        try:
            for place, ((session, kind, text), answer) in enumerate(zip(events(script), expected)):
                home = homes.setdefault(session, chosen(session))
                number = numbers.setdefault(session, len(numbers) + 1)
                role = ROLE.match(text)
                if ended and role and role[1] == 'CREATE' and role[2] in dropped:
                    return
                if home in ended:
                    continue
                try:
                    got = there[home].exchange(kind, number, text)
                except ConnectionError:
                    self.assertTrue(logins[home] & dropped, f'{name}, event {place + 1}: {session}: {text}')
                    ended.add(home)
                    continue
                self.assertEqual(got, answer, f'{name}, event {place + 1}: {session}: {text}')
                if role and role[1] == 'DROP' and answer.startswith('ok'):
                    dropped.add(role[2])
                if kind == guarddb.OPEN and answer.startswith('ok'):
                    logins.setdefault(home, set()).add(text)
                if kind == guarddb.CLOSE:
                    del homes[session]
        finally:
            for it in there:
                it.close()

    def try_scripts(self, write):
        tried = 0
        for name, script, expected in itertools.islice(scripts(), 0, None, STEP):
            sessions = sorted({session for session, _, _ in events(script)})
            clients = len(sessions) if len(sessions) <= SESSIONS // 4 else 1
            with self.served(clients), self.others(write):
                self.compare(name, script, expected, clients, lambda session: sessions.index(session) % clients)
            tried += 1
        self.assertGreater(tried * STEP, 200)

    def test_each_script_beside_clients_that_read(self):
        self.try_scripts(write=False)

    def test_each_script_beside_clients_that_write(self):
        self.try_scripts(write=True)

    def test_random_scripts_of_32_clients(self):
        """The model answers the events in the order in which they were sent, whichever client sent them."""
        left, seed = EVENTS, 0
        while left > 0:
            seed += 1
            script = ''.join(line + '\n' for line in random_script.Script(seed).events(min(left, 2000)))
            left -= 2000
            r = random.Random(seed)
            with self.served(32), self.others(write=False):
                self.compare(f'seed {seed}', script, [it + '\n' for it in model.run(script)], 32, lambda _: r.randrange(32))


if __name__ == '__main__':
    sys.setrecursionlimit(100000)
    if len(sys.argv) > 1 and sys.argv[1].isdigit():
        EVENTS = int(sys.argv.pop(1))
    if sys.argv[1:2] == ['all']:
        STEP = 1
        sys.argv.pop(1)
    unittest.main()
