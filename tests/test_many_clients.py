#!/usr/bin/env python3
"""Tests of a server of many clients at once: python3 tests/test_many_clients.py

The program is the one in the environment variable GUARDDB. What each client is told is what the statements say, whoever else is there.
"""
import contextlib
import os
import random
import shutil
import signal
import socket
import subprocess
import tempfile
import threading
import time
import unittest

from program import PATIENCE, PROGRAM, frame, free_port, make_database, run
import guarddb

ROLES = 20
SETUP = ['open r root', 'r: CREATE TABLE t (o TEXT, k BIGINT, x TEXT, PRIMARY KEY (o, k))', 'r: ALTER TABLE t ENABLE ROW LEVEL SECURITY',
         'r: CREATE POLICY own ON t USING (o = current_user)', 'r: CREATE TABLE free (k BIGINT PRIMARY KEY, x BIGINT)']
for role in range(ROLES):
    SETUP += [f'r: CREATE ROLE u{role} LOGIN', f'r: GRANT SELECT, INSERT, UPDATE, DELETE ON t TO u{role}', f"r: INSERT INTO t VALUES ('u{role}', 0, 'of u{role}')"]


def spelled(number, text):
    """The frame of an answer."""
    return frame(guarddb.ANSWER, number, text)


class ManyClients(unittest.TestCase):
    def setUp(self):
        self.folder = tempfile.mkdtemp(prefix='guarddb-')
        self.addCleanup(shutil.rmtree, self.folder)
        self.path = os.path.join(self.folder, 'db')
        make_database(self.path, pages=1024, journal=True)
        script = os.path.join(self.folder, 'setup.sql')
        with open(script, 'w', encoding='utf-8') as file:
            file.write('\n'.join(SETUP) + '\n')
        self.assertEqual(run('run', self.path, script)[0], 0)

    @contextlib.contextmanager
    def served(self, *words, port=False, end=None):
        """A server of many clients; gives its place, and at the end waits for its own end, or ends it by a signal."""
        place = free_port() if port else os.path.join(self.folder, 'at')
        where = ['--port', str(place)] if port else ['--socket', place]
        server = subprocess.Popen([PROGRAM, 'serve', self.path, *where, *map(str, words)], stdout=subprocess.DEVNULL, stderr=subprocess.PIPE, text=True)
        try:
            told = server.stderr.readline()
            self.assertEqual(told, f'guarddb: listening on {f"127.0.0.1:{place}" if port else place}\n')
            self.server = server
            yield place
            if end is not None:
                server.send_signal(end)
            _, messages = server.communicate(timeout=PATIENCE)
            self.assertEqual((server.returncode, messages), (0, 'guarddb: done\n') if end is None else (-end, ''))
        finally:
            if server.poll() is None:
                server.kill()
            server.communicate()

    def connect(self, place):
        return guarddb.connect(place, wait=PATIENCE, timeout=PATIENCE)

    def at_once(self, works):
        """Does each work in a thread of its own; the first fault of one is this one's."""
        faults = []

        def do(work):
            try:
                work()
            except BaseException as fault:      # whatever it is, it fails the test
                faults.append(fault)
        threads = [threading.Thread(target=do, args=(work,)) for work in works]
        for thread in threads:
            thread.start()
        for thread in threads:
            thread.join()
        if faults:
            raise faults[0]

    def is_kept_from_writing(self, session):
        with self.assertRaises(guarddb.Refused) as refused:
            session.ask('DELETE FROM free')
        self.assertEqual(refused.exception.code, '55P03')

    def hold(self, session):
        """Takes the writer lock by a session."""
        session.ask('BEGIN')
        session.ask('DELETE FROM free')

    def test_each_is_told_its_own(self):
        """200 clients, each with session 1 of its own role, in pieces of 1 to 7 bytes, by turns."""
        generator = random.Random(1)
        for port in (False, True):
            with self.subTest(port=port), self.served('--clients', 200, '--connections', 200, port=port) as place:
                streams, expected = [], []
                for client in range(200):
                    role = f'u{client % ROLES}'
                    sent = frame(guarddb.OPEN, 1, role) + b''.join(frame(guarddb.STATEMENT, 1, 'SELECT current_user, x FROM t') for _ in range(5))
                    answer = spelled(1, 'ok OPEN\n') + 5 * spelled(1, f'rows 1\n{role}\tof {role}\n')
                    streams.append([self.connect(place), sent])
                    expected.append(answer)
                while any(left for _, left in streams):
                    for stream in generator.sample(streams, len(streams)):
                        count = generator.randrange(1, 8)
                        stream[0].socket.sendall(stream[1][:count])
                        stream[1] = stream[1][count:]
                for (connection, _), answer in zip(streams, expected):
                    connection.socket.shutdown(socket.SHUT_WR)
                    self.assertEqual(connection.input.read(), answer)
                    connection.close()

    def test_numbers_of_sessions_are_each_client_s_own(self):
        with self.served('--clients', 3, '--connections', 2) as place:
            with self.connect(place) as first, self.connect(place) as second:
                ask = [(first, 'u1'), (second, 'u2')]
                for connection, role in ask:
                    self.assertEqual(connection.exchange(guarddb.OPEN, 7, role), 'ok OPEN\n')
                for connection, role in ask:
                    self.assertEqual(connection.exchange(guarddb.STATEMENT, 7, 'SELECT current_user'), f'rows 1\n{role}\n')
                self.assertEqual(first.exchange(guarddb.CLOSE, 7), 'ok CLOSE\n')
                self.assertEqual(second.exchange(guarddb.STATEMENT, 7, 'SELECT current_user'), 'rows 1\nu2\n')
                for number in range(8, 8 + 255):
                    self.assertEqual(second.exchange(guarddb.OPEN, number, 'u2'), 'ok OPEN\n')
                self.assertEqual(second.exchange(guarddb.OPEN, 1000, 'u2'), 'refused 53300\n')
                self.assertEqual(first.exchange(guarddb.OPEN, 1000, 'u1'), 'ok OPEN\n')

    def test_more_than_may_be_there(self):
        with self.served('--clients', 2, '--connections', 3) as place:
            with self.connect(place) as first, self.connect(place) as second:
                first.open('u1')
                second.open('u2')
                third = self.connect(place)
                self.assertEqual(third.input.read(), spelled(0, 'refused 53300\n'))
                third.close()
            end = time.monotonic() + PATIENCE
            while True:             # until the place of one that went is free
                with self.connect(place) as third, contextlib.suppress(ConnectionError, guarddb.Refused):
                    third.open('u3')
                    break
                self.assertLess(time.monotonic(), end)

    def test_a_statement_waits(self):
        """In the order in which they came; another client's readers do not."""
        with self.served('--clients', 10, '--connections', 7, '--wait', 600) as place:
            connections = [self.connect(place) for _ in range(7)]
            sessions = [connection.open('root') for connection in connections]
            holder, reader, *writers = sessions
            holder.ask('BEGIN')
            holder.ask('INSERT INTO free VALUES (0, 0)')
            order = []

            def write(number, session):
                order.append((number, session.ask(f'UPDATE free SET x = x * 10 + {number}')))
            threads = []
            for number, session in enumerate(writers, 1):
                threads.append(threading.Thread(target=write, args=(number, session)))
                threads[-1].start()
                time.sleep(0.2)
                self.assertEqual(list(reader.ask('SELECT count(*) FROM free')), [['0']])
            self.assertEqual(order, [])
            holder.ask('COMMIT')
            for thread in threads:
                thread.join()
            self.assertEqual(list(reader.ask('SELECT x FROM free')), [['12345']])
            for connection in connections:
                connection.close()

    def test_without_waiting(self):
        for words in ([], ['--wait', 0]):
            with self.subTest(words), self.served('--clients', 2, '--connections', 2, *words) as place:
                with self.connect(place) as first, self.connect(place) as second:
                    holder, other = first.open('root'), second.open('root')
                    self.hold(holder)
                    self.is_kept_from_writing(other)

    def test_a_wait_that_is_over(self):
        with self.served('--clients', 2, '--connections', 2, '--wait', 1) as place:
            with self.connect(place) as first, self.connect(place) as second:
                holder, other = first.open('root'), second.open('root')
                self.hold(holder)
                began = time.monotonic()
                self.is_kept_from_writing(other)
                self.assertLessEqual(1, time.monotonic() - began)

    def test_within_one_client_nothing_waits(self):
        with self.served('--clients', 2, '--connections', 1, '--wait', 600) as place, self.connect(place) as connection:
            holder, other = connection.open('root'), connection.open('root')
            self.hold(holder)
            self.is_kept_from_writing(other)

    def test_a_holder_that_goes(self):
        """Its block is rolled back, and who waits goes on."""
        with self.served('--clients', 2, '--connections', 2, '--wait', 600) as place, self.connect(place) as second:
            first = self.connect(place)
            holder, other = first.open('root'), second.open('root')
            holder.ask('BEGIN')
            holder.ask('INSERT INTO free VALUES (1, 1)')
            thread = threading.Thread(target=other.ask, args=('INSERT INTO free VALUES (2, 2)',))
            thread.start()
            time.sleep(0.2)
            first.close()
            thread.join()
            self.assertEqual(list(other.ask('SELECT k FROM free')), [['2']])

    def keys(self, session):
        return [int(key) for key, in session.ask('SELECT k FROM free ORDER BY k')]

    def begins(self, session, key):
        """A block that has written."""
        session.ask('BEGIN')
        session.ask(f'INSERT INTO free VALUES ({key}, 0)')

    def goes_through(self, session, statement, wait):
        """How long it takes until a statement is carried out, which another's block keeps out at first."""
        began = time.monotonic()
        while True:
            try:
                session.ask(statement)
                return time.monotonic() - began
            except guarddb.Refused as refused:
                self.assertEqual((refused.code, wait), ('55P03', 0))
                self.assertLess(time.monotonic() - began, PATIENCE)
                time.sleep(0.05)

    def test_a_holder_that_falls_silent(self):
        """Another's REVOKE and INSERT go through once its time is over, and its rows are gone, with all its sessions."""
        for wait in (0, 600):
            for statement in ('REVOKE SELECT ON t FROM u1', 'INSERT INTO free VALUES (2, 2)'):
                with self.subTest(wait=wait, statement=statement), self.served('--clients', 3, '--connections', 2, '--wait', wait, '--block', 2) as place:
                    with self.connect(place) as second:
                        first = self.connect(place)
                        holder, beside, other = first.open('root'), first.open('u2'), second.open('root')
                        self.begins(holder, 1)
                        beside.ask('BEGIN')
                        self.assertLessEqual(2, self.goes_through(other, statement, wait))
                        self.assertEqual(first.input.read(), b'')
                        first.close()
                        self.assertNotIn(1, self.keys(other))
                        if statement.startswith('INSERT'):
                            self.assertEqual(self.keys(other), [2])
                            other.ask('DELETE FROM free')

    def test_a_holder_that_goes_on(self):
        """One that sends now and then is ended as well, since others wait; one that commits in time is not."""
        with self.served('--clients', 3, '--connections', 3, '--wait', 600, '--block', 2) as place, self.connect(place) as second:
            busy = self.connect(place)
            holder, other = busy.open('root'), second.open('root')
            self.begins(holder, 1)
            thread = threading.Thread(target=other.ask, args=('INSERT INTO free VALUES (2, 2)',))
            thread.start()
            with self.assertRaises(ConnectionError):
                end = time.monotonic() + PATIENCE
                while time.monotonic() < end:
                    holder.ask('SELECT count(*) FROM free')
                    time.sleep(0.1)
            thread.join()
            busy.close()
            self.assertEqual(self.keys(other), [2])
            with self.connect(place) as third:
                holder = third.open('root')
                for key in (3, 4):
                    self.begins(holder, key)
                    thread = threading.Thread(target=other.ask, args=(f'INSERT INTO free VALUES ({key}0, 0)',))
                    thread.start()
                    time.sleep(1)
                    holder.ask('COMMIT')            # after one second of two, and then of the next two
                    thread.join()
                self.assertEqual(self.keys(other), [2, 3, 4, 30, 40])

    def test_a_holder_for_whom_nobody_waits(self):
        """It lives on, beside readers and beside a statement of its own connection that is refused for it."""
        with self.served('--clients', 2, '--connections', 2, '--block', 1) as place, self.connect(place) as first, self.connect(place) as second:
            holder, beside, reader = first.open('root'), first.open('root'), second.open('root')
            self.begins(holder, 1)
            self.is_kept_from_writing(beside)
            for _ in range(40):
                self.assertEqual(self.keys(reader), [])
                time.sleep(0.1)
            holder.ask('COMMIT')
            self.assertEqual(self.keys(reader), [1])

    def test_a_lock_that_is_taken_again(self):
        """The time begins anew with each block, and not with the block but with the first that is kept out."""
        with self.served('--clients', 2, '--connections', 2, '--block', 3) as place, self.connect(place) as first, self.connect(place) as second:
            holder, other = first.open('root'), second.open('root')
            for key in range(4):
                self.begins(holder, key)
                time.sleep(1.5)
                self.is_kept_from_writing(other)
                time.sleep(1)
                self.is_kept_from_writing(other)
                time.sleep(1)
                holder.ask('COMMIT')
            self.assertEqual(self.keys(other), [0, 1, 2, 3])
            self.begins(holder, 4)
            began = time.monotonic()
            self.is_kept_from_writing(other)
            with self.assertRaises((ConnectionError, AssertionError)):
                while True:                             # each that is kept out, and none begins the time anew
                    time.sleep(0.2)
                    self.is_kept_from_writing(other)
            self.assertLess(time.monotonic() - began, PATIENCE / 2)
            self.assertNotIn(4, self.keys(other))

    def test_a_commit_that_has_come(self):
        """It is carried out, though the server was busy, or stood still, until the time was over."""
        with self.served('--clients', 3, '--connections', 3, '--wait', 600, '--block', 1) as place:
            with self.connect(place) as first, self.connect(place) as second:
                holder, other = first.open('root'), second.open('root')
                self.begins(holder, 1)
                thread = threading.Thread(target=other.ask, args=('INSERT INTO free VALUES (2, 2)',))
                thread.start()
                time.sleep(0.3)
                self.server.send_signal(signal.SIGSTOP)
                try:
                    first.socket.sendall(frame(guarddb.STATEMENT, holder.number, 'COMMIT'))
                    time.sleep(3)
                finally:
                    self.server.send_signal(signal.SIGCONT)
                answer = spelled(holder.number, 'ok COMMIT\n')
                self.assertEqual(first.input.read(len(answer)), answer)
                thread.join()
                self.assertEqual(self.keys(other), [1, 2])
            self.connect(place).close()

    def test_a_bad_frame_beside_others(self):
        with self.served('--clients', 4, '--connections', 3) as place, self.connect(place) as good:
            session = good.open('u1')
            for bad in (b'\0\0\0\0\0\0\0\0\0', b'\xff' * 40):
                other = self.connect(place)
                other.socket.sendall(bad)
                self.assertEqual(other.input.read(), spelled(0, 'refused 08P01\n'))
                other.close()
                self.assertEqual(list(session.ask('SELECT x FROM t')), [['of u1']])

    def test_one_that_never_reads(self):
        """It keeps nobody out, and its own answers come once it reads."""
        count = 20000
        with self.served('--clients', 2, '--connections', 2) as place, self.connect(place) as other:
            deaf = self.connect(place)
            sent = frame(guarddb.OPEN, 1, 'u1') + frame(guarddb.STATEMENT, 1, 'SELECT x FROM t') * count
            thread = threading.Thread(target=deaf.socket.sendall, args=(sent,))
            thread.start()
            session = other.open('u2')
            for _ in range(200):
                self.assertEqual(list(session.ask('SELECT x FROM t')), [['of u2']])
            expected = spelled(1, 'ok OPEN\n') + spelled(1, 'rows 1\nof u1\n') * count
            self.assertEqual(deaf.input.read(len(expected)), expected)
            thread.join()
            deaf.close()

    def test_silence(self):
        """A client that sends nothing ends where a limit is given; one that goes on does not."""
        with self.served('--clients', 3, '--connections', 2, '--idle', 1) as place, self.connect(place) as busy:
            silent = self.connect(place)
            silent.socket.sendall(frame(guarddb.OPEN, 1, 'u1')[:7])
            session, end = busy.open('u2'), time.monotonic() + 3
            while time.monotonic() < end:
                session.ask('SELECT x FROM t')
                time.sleep(0.05)
            self.assertEqual(silent.input.read(), b'')
            silent.close()

    def is_over(self, connection):
        """Its connection ends, whatever it does."""
        try:
            self.assertEqual(connection.input.read(), b'')
        except ConnectionResetError:
            pass                        # it had sent something that nobody reads
        connection.close()

    @contextlib.contextmanager
    def dropping(self):
        """A server, a superuser's session of one client, and a client that has sessions for carl and for u2."""
        with self.served('--clients', 8, end=signal.SIGTERM) as place, self.connect(place) as connection, connection.open('root') as root:
            root.ask('CREATE ROLE carl LOGIN')
            root.ask('GRANT SELECT ON t TO PUBLIC')
            root.ask('GRANT SELECT ON free TO PUBLIC')
            carls = self.connect(place)
            yield place, root, carls, carls.open('carl'), carls.open('u2')

    def test_a_role_that_is_dropped(self):
        """All who have a session for it end, also who is silent; the others go on. Made again it begins with none."""
        with self.dropping() as (place, root, carls, carl, second), self.connect(place) as other, other.open('u2') as its, self.connect(place) as none:
            silent = self.connect(place)
            silent.open('carl').ask('BEGIN')
            self.assertEqual(list(carl.ask('SELECT current_user, x FROM free')), [])
            root.ask('DROP ROLE carl')
            self.is_over(silent)
            self.is_over(carls)
            root.ask('CREATE ROLE carl SUPERUSER LOGIN')
            self.assertEqual(list(its.ask('SELECT x FROM t')), [['of u2']])
            with none.open('carl') as made:
                self.assertEqual(list(made.ask('SELECT x FROM t WHERE k = 0 AND o = \'u1\'')), [['of u1']])

    def test_a_role_that_is_dropped_and_made_again_at_once(self):
        """Nothing that its old client sends is carried out, also where both statements came ahead in one piece."""
        with self.dropping() as (place, root, carls, carl, second):
            for statement in ('DROP ROLE carl', 'CREATE ROLE carl SUPERUSER LOGIN'):
                root.connection.socket.sendall(frame(guarddb.STATEMENT, root.number, statement))
            with contextlib.suppress(OSError):
                carls.socket.sendall(frame(guarddb.STATEMENT, carl.number, 'INSERT INTO free VALUES (9, 9)') * 20)
            expected = spelled(root.number, 'ok DROP ROLE\n') + spelled(root.number, 'ok CREATE ROLE\n')
            self.assertEqual(root.connection.input.read(len(expected)), expected)
            self.is_told_no_insert(carls)
            self.assertEqual(list(root.ask('SELECT k FROM free')), [])

    def is_told_no_insert(self, connection):
        told = b''
        with contextlib.suppress(ConnectionResetError):
            told = connection.input.read()
        self.assertNotIn(b'ok INSERT', told)
        connection.close()

    def test_a_role_that_is_dropped_in_a_block(self):
        """Who came as it goes on until the COMMIT, and for good after a ROLLBACK and where DROP ROLE is refused."""
        with self.dropping() as (place, root, carls, carl, second):
            for end in ('ROLLBACK', 'COMMIT'):
                for session, role, code in ((second, 'carl', '42501'), (root, 'nobody', '42704'), (root, 'u1', '2BP01')):
                    with self.assertRaises(guarddb.Refused) as refused:
                        session.ask(f'DROP ROLE {role}')
                    self.assertEqual(refused.exception.code, code)
                root.ask('BEGIN')
                root.ask('DROP ROLE carl')
                self.assertEqual(list(carl.ask('SELECT current_user, current_user FROM t')), [])
                root.ask(end)
                if end == 'ROLLBACK':
                    self.assertEqual(list(carl.ask('SELECT current_user, current_user FROM t')), [])
                    self.assertEqual(list(second.ask('SELECT x FROM t')), [['of u2']])
            self.is_over(carls)

    def test_a_client_that_drops_its_own_role(self):
        """Its answer goes out first."""
        with self.dropping() as (place, root, carls, carl, second):
            own = carls.open('root')
            own.ask('DROP ROLE carl')
            self.is_over(carls)
            self.assertEqual(list(root.ask('SELECT k FROM free')), [])

    def test_many_that_write(self):
        """Each own row is there after it was answered, also where the server is killed then."""
        kept = []

        def write(number):
            with self.connect(place) as connection:
                session = connection.open(f'u{number % ROLES}')
                for turn in range(20):
                    session.ask(f"INSERT INTO t VALUES ('u{number % ROLES}', {1 + number * 100 + turn}, 'w')")
                    kept.append(1 + number * 100 + turn)
        with self.served('--clients', 50, '--wait', 600, end=9) as place:
            self.at_once([lambda number=number: write(number) for number in range(40)])
        script = os.path.join(self.folder, 'count.sql')
        with open(script, 'w', encoding='utf-8') as file:
            file.write("open r root\nr: SELECT count(*) FROM t WHERE x = 'w'\n")
        self.assertEqual(run('run', self.path, script), (0, f'ok OPEN\nrows 1\n{len(kept)}\n', ''))
        self.assertEqual(len(set(kept)), 40 * 20)

    def test_comings_and_goings(self):
        """No descriptor is left of those that went, and nothing is done where nobody asks."""
        def come():
            for _ in range(25):
                with self.connect(place) as connection:
                    self.assertEqual(list(connection.open('u1').ask('SELECT x FROM t')), [['of u1']])
        with self.served('--clients', 500, end=15) as place:
            before = len(os.listdir(f'/proc/{self.server.pid}/fd'))
            self.at_once([come] * 20)
            end = time.monotonic() + PATIENCE
            while len(os.listdir(f'/proc/{self.server.pid}/fd')) > before:
                self.assertLess(time.monotonic(), end)
                time.sleep(0.05)

            def used():
                with open(f'/proc/{self.server.pid}/stat', encoding='utf-8') as file:
                    return sum(map(int, file.read().rpartition(') ')[2].split()[11:13]))
            first = used()
            time.sleep(3)
            self.assertLessEqual(used() - first, 3)     # of 300 hundredths of a second

    def test_words(self):
        for words, message in [
            (['--clients', '0', '--port', '5000'], "--clients takes a decimal number from 1 to 1000, not '0'"),
            (['--clients', '1001', '--port', '5000'], "--clients takes a decimal number from 1 to 1000, not '1001'"),
            (['--clients', '5', '--port', '5000', '--wait', '86401'], "--wait takes a decimal number of seconds from 0 to 86400, not '86401'"),
            (['--clients', '5'], 'serve --clients N takes FILE, and either --port P or --socket PATH'),
            (['--clients', '5', '--port', '1', '--socket', 'a'], 'serve --clients N takes FILE, and either --port P or --socket PATH'),
            (['--clients', '5', '--port', '5000', '--block', '0'], "--block takes a decimal number of seconds from 1 to 86400, not '0'"),
            (['--clients', '5', '--port', '5000', '--block', '86401'], "--block takes a decimal number of seconds from 1 to 86400, not '86401'"),
            (['--connections', '5', '--port', '1', '--wait', '3'], 'serve takes FILE, either --port P or --socket PATH, and --connections K'),
            (['--connections', '5', '--port', '1', '--block', '3'], 'serve takes FILE, either --port P or --socket PATH, and --connections K'),
        ]:
            with self.subTest(words):
                status, out, err = run('serve', self.path, *words)
                self.assertEqual((status, out, err.split('\n')[0]), (2, '', f'error: {message}'))


if __name__ == '__main__':
    unittest.main()
