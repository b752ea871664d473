#!/usr/bin/env python3
"""Places that let in one role, and whom the file of a socket lets connect: python3 tests/test_doors.py

The program is the one in the environment variable GUARDDB; without it nothing is tried. That a group may connect is tried by root alone,
who can be another user.
"""
import contextlib
import os
import signal
import socket
import stat
import subprocess
import unittest

from postgres_client import AtServer, Client, codes, kinds, start_packet
from program import IS_FAKE, PATIENCE, PROGRAM, free_port, run
import guarddb

GROUP, OTHER, USER = 2001, 2002, 2003
SAYS = ('behind a comma PLACE takes role=NAME, or passwords=TABLE with mock=ROLE, and of a socket mode=600 or mode=660, each once, '
        "not '{}'")


@unittest.skipIf(IS_FAKE, 'GUARDDB names no program')
class Doors(AtServer):
    @contextlib.contextmanager
    def at(self, place, told):
        """A server at a place, which says that it listens so."""
        server = subprocess.Popen([PROGRAM, 'serve', self.path, '--at', place, '--clients', '4'], stdout=subprocess.DEVNULL, stderr=subprocess.PIPE, text=True)
        try:
            self.assertEqual(server.stderr.readline(), f'guarddb: listening on {told}\n')
            yield
            server.send_signal(signal.SIGTERM)
            self.assertEqual(server.communicate(timeout=PATIENCE)[1], '')
        finally:
            if server.poll() is None:
                server.kill()
            server.communicate()

    def mode(self, path):
        return stat.S_IMODE(os.stat(path).st_mode)

    def test_frames_for_one_role(self):
        path, port = os.path.join(self.folder, 'sock'), free_port()
        for place, told, where in [(f'socket:{path},role=bob', path, path), (f'socket:{path},role=bob,mode=600', path, path),
                                   (f'socket:{path},mode=660,role=bob', path, path), (f'port:{port},role=bob', f'127.0.0.1:{port}', port)]:
            with self.subTest(place), self.at(place, told), guarddb.connect(where, timeout=PATIENCE) as connection:
                for role in ('root', 'nobody', 'Bob', 'bo', 'bobb'):
                    with self.assertRaises(guarddb.Refused) as refused:
                        connection.open(role)
                    self.assertEqual(refused.exception.code, '28000')
                with connection.open('bob') as session, connection.open('bob') as other:
                    self.assertEqual([list(row) for row in session.ask('SELECT k FROM t', int)], [[1], [2]])
                    with self.assertRaises(guarddb.Refused) as refused:
                        other.ask('DELETE FROM t')
                    self.assertEqual(refused.exception.code, '42501')

    def test_without_a_door_all_may_come(self):
        path = os.path.join(self.folder, 'sock')
        with self.at(f'socket:{path}', path), guarddb.connect(path, timeout=PATIENCE) as connection:
            with connection.open('root'), connection.open('bob'):
                self.assertEqual(self.mode(path), 0o600)

    def test_a_role_that_there_is_not(self):
        path = os.path.join(self.folder, 'sock')
        with self.at(f'socket:{path},role=carl', path), guarddb.connect(path, timeout=PATIENCE) as connection:
            for role in ('root', 'bob', 'carl'):
                with self.assertRaises(guarddb.Refused) as refused:
                    connection.open(role)
                self.assertEqual(refused.exception.code, '28000')

    def test_postgres_for_one_role(self):
        with self.at(f'pgsocket:{self.folder},role=bob', self.socket):
            for role in ('root', 'nobody'):
                with Client(self.socket) as client:
                    client.send(start_packet(role))
                    told = client.rest()
                    self.assertEqual((kinds(told), codes(told)), (b'E', ['28000']))
            with Client(self.socket, 'bob') as client:
                self.assertEqual(kinds(client.ask('SELECT k FROM t')), b'TDDCZ')

    def test_modes(self):
        path = os.path.join(self.folder, 'sock')
        for umask in (0, 0o777):
            for words, mode in ('', 0o600), (',mode=600', 0o600), (',mode=660', 0o660), (',role=bob,mode=660', 0o660):
                for place, told in (f'socket:{path}', path), (f'pgsocket:{self.folder}', self.socket):
                    before = os.umask(umask)
                    try:
                        with self.subTest(place + words, umask=umask), self.at(place + words, told):
                            self.assertEqual(self.mode(told), mode)
                    finally:
                        os.umask(before)
                        with contextlib.suppress(FileNotFoundError):
                            os.unlink(told)

    def test_words_that_say_nothing_of_passwords(self):
        """One word without the other, beside a role, twice, without a name, and with a mode of a port."""
        for place, words in [
            ('port:5432', 'passwords=t'), ('port:5432', 'mock=m'), ('socket:s', 'passwords=t,mode=660'), ('socket:s', 'mock=m,mode=660'),
            ('port:5432', 'passwords=t,role=bob'), ('port:5432', 'passwords=t,mock=m,role=bob'), ('port:5432', 'passwords=t,passwords=t'),
            ('port:5432', 'passwords=t,mock=m,mock=m'), ('socket:s', 'passwords=t,mock=m,mode=600,mode=600'), ('port:5432', 'passwords=,mock=m'),
            ('port:5432', 'passwords=t,mock='), ('port:5432', 'passwords=t,mock=m,'), ('port:5432', 'Passwords=t,mock=m'),
            ('port:5432', 'passwords=t,mock=m,mode=660'), ('pgport:5432', 'mode=660,passwords=t,mock=m'), ('pgsocket:/tmp', 'passwords=t'),
        ]:
            with self.subTest(place + ',' + words):
                status, out, err = run('serve', self.path, '--at', f'{place},{words}', '--clients', '5')
                self.assertEqual((status, out, err.split('\n')[0]), (2, '', f'error: {SAYS.format(words)}'))

    def test_a_mode_beside_passwords(self):
        path = os.path.join(self.folder, 'sock')
        for words, mode in [('passwords=t,mock=m', 0o600), ('mock=m,mode=660,passwords=t', 0o660), ('mode=660,passwords=t,mock=m', 0o660),
                            ('passwords=t,mock=m,mode=660', 0o660), ('mock=m,passwords=t,mode=600', 0o600)]:
            with self.subTest(words), self.at(f'socket:{path},{words}', path):
                self.assertEqual(self.mode(path), mode)

    @unittest.skipIf(os.geteuid() != 0, 'only root can be another user')
    def test_who_may_connect(self):
        """In a folder with the set-group-ID bit the file has the folder's group."""
        folder = os.path.join(self.folder, 'app')
        os.mkdir(folder)
        os.chown(folder, 0, GROUP)
        os.chmod(folder, 0o2755)
        path = os.path.join(folder, 'sock')
        for words, group, may in ('', GROUP, False), (',mode=660', GROUP, True), (',mode=660', OTHER, False), (',mode=600', GROUP, False):
            with self.subTest(words, group=group), self.at(f'socket:{path}{words}', path):
                self.assertEqual(os.stat(path).st_gid, GROUP)
                self.assertEqual(self.connects(path, group), may)
            os.unlink(path)

    def connects(self, path, group):
        """Whether a user of this group can connect, who is in the folder already: the ones above it may let nobody through."""
        child = os.fork()
        if child == 0:
            status = 1
            with contextlib.suppress(BaseException):
                os.chdir(os.path.dirname(path))
                os.setgroups([])
                os.setgid(group)
                os.setuid(USER)
                with socket.socket(socket.AF_UNIX) as stream:
                    stream.connect(os.path.basename(path))
                    status = 0
            os._exit(status)
        return os.waitstatus_to_exitcode(os.waitpid(child, 0)[1]) == 0


if __name__ == '__main__':
    unittest.main()
