#!/usr/bin/env python3
"""Tests of drivers of other languages, and of SQLAlchemy, at a server for PostgreSQL's clients: python3 tests/test_postgres_drivers.py [TESTS]

The program is the one in the environment variable GUARDDB. What each driver does is in drivers/. Where it is not installed, its test is
skipped: Debian's packages are libpostgresql-jdbc-java, node-pg (a folder with it may be named by NODE_PATH), libdbd-pg-perl, and
python3-sqlalchemy with python3-psycopg2.
"""
import os
import shutil
import subprocess
import unittest

from postgres_client import AtServer
from program import PATIENCE, TESTS, free_port, python_with

DRIVERS = os.path.join(TESTS, 'drivers')
JAVA, NODE, PERL = shutil.which('java'), shutil.which('node'), shutil.which('perl')
JDBC = '/usr/share/java/postgresql.jar'
ALCHEMY = python_with('sqlalchemy, psycopg2')


def runs(*words):
    """Whether a command is there and succeeds."""
    return all(words) and subprocess.run(words, capture_output=True).returncode == 0


class Drivers(AtServer):
    def printed(self, *words):
        """What a driver's program prints, at a server of its own, whose port is its last word."""
        port = free_port()
        with self.served('--clients', 10, port=port):
            done = subprocess.run([*words, str(port)], capture_output=True, text=True, timeout=PATIENCE)
        self.assertEqual((done.returncode, done.stderr), (0, ''), done.stdout)
        return done.stdout.splitlines()

    @unittest.skipUnless(JAVA and os.path.exists(JDBC), 'the JDBC driver is not installed')
    def test_jdbc(self):
        self.assertEqual(self.printed(JAVA, '-cp', JDBC, os.path.join(DRIVERS, 'Jdbc.java')), [
            '2 rows', '1 one true', '2 null false', *['Key user b 1 one'] * 7, *(f"n a ? {1 + turn % 2} AS z'" for turn in range(7)), '2', 'refused 23505', *['1 one, 4 four, '] * 7, '4 four, ', '1 rows',
            '10000 rows, 0 wrong', '9999 rows, 0 wrong', '10000 read', 'refused 25006'])

    @unittest.skipUnless(runs(NODE, '-e', "require('pg')"), 'node-postgres is not installed')
    def test_node_postgres(self):
        self.assertEqual(self.printed(NODE, os.path.join(DRIVERS, 'node_postgres.js')), [
            '2 rows', '[{"k":"1","x":"one"},{"k":"2","x":null}]', 'refused 23505', '[{"k":"2"}]', *(f'[{{"n":"{k}","a $1":"AS z\'"}}]' for k in (1, 2)),
            '[{"k":"-4","x":null},{"k":"1","x":"one"},{"k":"2","x":null},{"k":"5","x":"it\'s"}]', ' '.join('4' * 9)])

    @unittest.skipUnless(runs(PERL, '-MDBD::Pg', '-e', '1'), 'DBD::Pg is not installed')
    def test_dbd_pg(self):
        self.assertEqual(self.printed(PERL, os.path.join(DRIVERS, 'dbd_pg.pl')), [
            '2 rows', '1 one, 2 null', 'refused 23505', '2', "n Word 1 AS z'", "n Word 2 AS z'", '-4 null, 1 one, 2 null'])

    @unittest.skipUnless(ALCHEMY, 'SQLAlchemy is not installed')
    def test_sqlalchemy_core(self):
        self.assertEqual(self.printed(ALCHEMY, os.path.join(DRIVERS, 'sqlalchemy_core.py')), [
            "[(-2, None), (1, 'one')]", '[]', 'refused 23505', '2', "['key', 'user', 'Next'] [(1, 'one', 2)]", "['key', 'user', 'Next'] [(-2, None, -1)]", "[{'n': 0}]",
            '[{\'n\': -2, \'a b\': "AS z\'"}, {\'n\': 1, \'a b\': "AS z\'"}]'])


if __name__ == '__main__':
    unittest.main()
