#!/usr/bin/env python3
"""Places of PostgreSQL's protocol that ask for passwords: python3 tests/test_postgres_passwords.py [TESTS]

The program is the one in the environment variable GUARDDB. The messages are those of PostgreSQL's manual, 55.2.1, 55.3 and 55.7; what a client computes
is RFC 5802's, by guarddb_scram. Where psql or a driver is not installed, the tests that take it are skipped.
"""
import os
import re
import shutil
import struct
import subprocess
import time
import unittest

from postgres_client import CANCEL_REQUEST, GSS_REQUEST, SSL_REQUEST, AtServer, Client, codes, fields, kinds, packet, start_packet
from program import PATIENCE, free_port, python_with, run
from guarddb_scram import Exchange, mock, verifier

PSQL = shutil.which('psql')
JDBC = '/usr/share/java/postgresql.jar'
WITHOUT = {name: value for name, value in os.environ.items() if not name.startswith('PG')}
SECRET = 'correct horse; battery:staple'
LIMIT = 10          # seconds that one may be there without a session


def chosen(first, mechanism=b'SCRAM-SHA-256'):
    """SASLInitialResponse."""
    return packet(b'p', mechanism + b'\0' + struct.pack('>i', len(first)) + first.encode())


def answer(text):
    """SASLResponse."""
    return packet(b'p', text.encode())


def asked(message):
    """The number of an authentication request, and what it carries."""
    kind, body = message
    return kind + str(struct.unpack('>I', body[:4])[0]).encode(), body[4:]


class Asking(AtServer):
    def setUp(self):
        super().setUp()
        self.port = free_port()
        script = os.path.join(self.folder, 'logins.sql')
        with open(script, 'w', encoding='utf-8') as file:
            file.write('\n'.join(['open r root', 'r: CREATE ROLE mock LOGIN', 'r: CREATE ROLE eve LOGIN', 'r: CREATE TABLE logins (role TEXT PRIMARY KEY, verifier TEXT)',
                                  f"r: INSERT INTO logins VALUES ('bob', '{verifier(SECRET)}'), ('mock', '{mock()}'), ('root', '{verifier('root')}')"]) + '\n')
        self.assertEqual(run('run', self.path, script)[0], 0)

    def asks(self, *words):
        """A server at a port that asks for passwords."""
        return self.served(*words, port=self.port, behind=',passwords=logins,mock=mock')

    def exchange(self, client, user, password, nonce=None):
        """What is said to a login up to its end: the challenge, and then all messages."""
        exchange = Exchange(password, *([nonce] if nonce else []))
        client.send(start_packet(user))
        self.assertEqual(asked(client.message()), (b'R10', b'SCRAM-SHA-256\0\0'))
        client.send(chosen(exchange.first()))
        what, challenge = asked(client.message())
        self.assertEqual(what, b'R11')
        client.send(answer(exchange.last(challenge.decode())))
        return challenge.decode(), exchange, client.until(b'Z')

    def psql(self, user, password, text='SELECT k, x FROM t ORDER BY k'):
        done = subprocess.run([PSQL, '-X', '-A', '-t', '-h', '127.0.0.1', '-p', str(self.port), '-U', user, '-d', 'x', '-w', '-c', text], capture_output=True, text=True,
                              timeout=PATIENCE, env=WITHOUT | ({'PGPASSWORD': password} if password else {}))
        return done.returncode, done.stdout, done.stderr


class Logins(Asking):
    def test_a_login(self):
        with self.asks('--clients', 5), Client(self.port) as client:
            _, exchange, messages = self.exchange(client, 'bob', SECRET)
            self.assertEqual(asked(messages[0])[0], b'R12')
            exchange.check(asked(messages[0])[1].decode())
            self.assertEqual(asked(messages[1]), (b'R0', b''))
            self.assertEqual(kinds(messages)[-2:], b'KZ')
            self.assertEqual(kinds(client.ask('SELECT k FROM t')), b'TDDCZ')

    def test_who_is_refused_is_told_the_same(self):
        """A wrong password, a role without a verifier, one that does not exist: a second later, 28P01 with PostgreSQL's words."""
        told = []
        with self.asks('--clients', 10):
            for user in ('bob', 'eve', 'nobody'):
                with Client(self.port) as client:
                    challenge, _, messages = self.exchange(client, user, 'wrong', 'rOprNGfwEbeRWgbNEkqO')
                    self.assertEqual((kinds(messages), codes(messages)), (b'E', ['28P01']))
                    said = fields(messages[0][1])
                    self.assertEqual((said['S'], said['M']), ('FATAL', f'password authentication failed for user "{user}"'))
                    told.append((re.sub(r'r=[^,]*,s=[^,]*', '', challenge), {**said, 'M': ''}))
                    self.assertRegex(challenge, r'r=rOprNGfwEbeRWgbNEkqO[!-+\--~]{18,},s=[A-Za-z0-9+/]{22}==,i=4096$')
        self.assertEqual(told, [told[0]] * 3)

    def test_the_salt_of_an_unknown_role_stays(self):
        salts = []
        for _ in range(2):
            with self.asks('--clients', 5), Client(self.port) as client:
                salts.append(self.exchange(client, 'nobody', 'wrong')[0].split(',')[1])
        self.assertEqual(salts[0], salts[1])

    def test_nothing_else_comes_first(self):
        """Queries, packets of other kinds, and what is too long end the connection; encryption is answered N; a cancel request is not answered."""
        with self.asks('--clients', 10):
            for messages, code in [([start_packet('bob'), packet(b'Q', b'SELECT 1\0')], '08P01'), ([start_packet('bob'), packet(b'X', b'')], '08P01'),
                                   ([start_packet('bob'), chosen('n,,n=,r=abc', b'SCRAM-SHA-256-PLUS')], '08P01'), ([start_packet('')], '28000'),
                                   ([start_packet('bob'), packet(b'p', b'x' * 2100)], '08P01')]:
                with self.subTest(messages=messages), Client(self.port) as client:
                    client.send(*messages)
                    said = client.rest()
                    self.assertEqual(codes(said), [code])
            with Client(self.port) as client:
                client.send(SSL_REQUEST)
                self.assertEqual(client.came.read(1), b'N')
                client.send(GSS_REQUEST)
                self.assertEqual(client.came.read(1), b'N')
                self.assertEqual(kinds(self.exchange(client, 'bob', SECRET)[2])[-1:], b'Z')
            with Client(self.port) as client:
                client.send(CANCEL_REQUEST)
                self.assertEqual(client.rest(), [])

    def test_a_password_that_changes(self):
        """A session goes on, and the old password lets nobody in any more."""
        with self.asks('--clients', 5), Client(self.port) as root, Client(self.port) as bob:
            self.exchange(root, 'root', 'root')
            self.exchange(bob, 'bob', SECRET)
            root.ask('BEGIN')
            root.ask(f"UPDATE logins SET verifier = '{verifier('another')}' WHERE role = 'bob'")
            with Client(self.port) as client:       # not seen before COMMIT
                self.assertEqual(kinds(self.exchange(client, 'bob', SECRET)[2])[-1:], b'Z')
            root.ask('COMMIT')
            self.assertEqual(kinds(bob.ask('SELECT k FROM t')), b'TDDCZ')
            for password, end in ((SECRET, b'E'), ('another', b'Z')):
                with Client(self.port) as client:
                    self.assertEqual(kinds(self.exchange(client, 'bob', password)[2])[-1:], end)

    def test_strangers_keep_nobody_out(self):
        """Who shows no password ends after ten seconds, and the first of them where a place is wanted. Sessions stay."""
        with self.asks('--clients', 10), Client(self.port) as bob:
            self.exchange(bob, 'bob', SECRET)
            begun = time.monotonic()
            strangers = [Client(self.port) for _ in range(30)]
            with Client(self.port) as client:
                self.assertEqual(kinds(self.exchange(client, 'bob', SECRET)[2])[-1:], b'Z')
            self.assertEqual(strangers[0].rest(), [])
            self.assertLess(time.monotonic() - begun, LIMIT - 1)
            self.assertEqual(strangers[-1].rest(), [])
            self.assertGreater(time.monotonic() - begun, LIMIT - 1)
            self.assertEqual(kinds(bob.ask('SELECT k FROM t')), b'TDDCZ')
            for stranger in strangers:
                stranger.__exit__()


class Clients(Asking):
    @unittest.skipUnless(PSQL, 'psql is not installed')
    def test_psql(self):
        with self.asks('--clients', 5):
            self.assertEqual(self.psql('bob', SECRET), (0, '1|one\n2|\n', ''))
            self.assertEqual(self.psql('bob', SECRET, 'SELECT session_user, current_user'), (0, 'bob|bob\n', ''))
            for user, password in (('bob', 'wrong'), ('nobody', SECRET), ('root', SECRET)):
                status, printed, said = self.psql(user, password)
                self.assertEqual((status, printed), (2, ''))
                self.assertIn(f'FATAL:  password authentication failed for user "{user}"', said)
            self.assertIn('no password supplied', self.psql('bob', None)[2])

    def driven(self, module, *lines):
        """What a program prints that logs in by a driver of Python."""
        python = python_with(module)
        if not python:
            self.skipTest(f'{module} is not installed')
        with self.asks('--clients', 5):
            done = subprocess.run([python, '-c', '\n'.join(lines), str(self.port), SECRET], capture_output=True, text=True, timeout=PATIENCE, env=WITHOUT)
        self.assertEqual((done.returncode, done.stderr), (0, ''))
        return done.stdout.splitlines()

    def test_psycopg2(self):
        self.assertEqual(self.driven('psycopg2', 'import psycopg2, sys', 'where = dict(host="127.0.0.1", port=sys.argv[1], user="bob", dbname="x")',
                                     'cursor = psycopg2.connect(password=sys.argv[2], **where).cursor()', 'cursor.execute("SELECT x FROM t WHERE k = %s", (1,))', 'print(cursor.fetchall())',
                                     'try: psycopg2.connect(password="wrong", **where)', 'except psycopg2.OperationalError as fault: print("FATAL" in str(fault))'), ["[('one',)]", 'True'])

    def test_psycopg(self):
        self.assertEqual(self.driven('psycopg', 'import psycopg, sys', 'where = dict(host="127.0.0.1", port=sys.argv[1], user="bob", dbname="x")',
                                     'with psycopg.connect(password=sys.argv[2], **where) as connection: print(connection.execute("SELECT x FROM t WHERE k = %s", (1,)).fetchall())'), ["[('one',)]"])

    def test_asyncpg(self):
        self.assertEqual(self.driven('asyncpg', 'import asyncio, asyncpg, sys', 'async def main():',
                                     '    where = dict(host="127.0.0.1", port=int(sys.argv[1]), user="bob", database="x")', '    connection = await asyncpg.connect(password=sys.argv[2], **where)',
                                     '    print(await connection.fetchval("SELECT x FROM t WHERE k = $1", 1))', '    await connection.close()',
                                     '    try: await asyncpg.connect(password="wrong", **where)', '    except asyncpg.InvalidPasswordError: print("28P01")', 'asyncio.run(main())'), ['one', '28P01'])


if __name__ == '__main__':
    unittest.main()
