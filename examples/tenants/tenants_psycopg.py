#!/usr/bin/env python3
"""The tenants of tenants.py through psycopg2, a driver of PostgreSQL.

    python3 examples/tenants/tenants_psycopg.py [PROGRAM]

PROGRAM is the program guarddb, else the one at the top of the repository, which is built first. psycopg2 is Debian's package
python3-psycopg2. The database is a new one in a folder that is removed in the end. What is printed is in README.md.
"""
import contextlib
import os
import subprocess
import sys
import tempfile

import psycopg2

TOP = os.path.join(os.path.dirname(os.path.abspath(__file__)), '..', '..')
PROGRAM = os.path.abspath(sys.argv[1] if len(sys.argv) > 1 else os.path.join(TOP, 'guarddb'))


@contextlib.contextmanager
def served(path):
    """A server over the database, at a socket in the database's own folder. It is ended in the end."""
    words = ['serve', path, '--at', 'pgsocket:' + os.path.dirname(path), '--clients', '10']
    with subprocess.Popen([PROGRAM, *words], stderr=subprocess.PIPE, text=True) as server:
        try:
            line = server.stderr.readline()
            if 'listening' not in line:
                sys.exit('The server did not start. It said:\n' + line + server.stderr.read())
            yield
        finally:
            server.terminate()


@contextlib.contextmanager
def connected(path, *roles):
    """A connection for each of these roles, whose statements are commits of their own."""
    with contextlib.ExitStack() as stack:
        connections = [psycopg2.connect(host=os.path.dirname(path), user=role, dbname=role) for role in roles]
        for connection in connections:
            stack.callback(connection.close)
            connection.autocommit = True
        yield [connection.cursor() for connection in connections]


def ask(cursor, statement, *values):
    """Prints a statement with what comes of it: rows, what was done, or the code of the refusal."""
    written = cursor.mogrify(statement, values).decode() if values else statement
    try:
        cursor.execute(written)
        shown = [list(row) for row in cursor.fetchall()] if cursor.description else cursor.statusmessage.replace(' 0 ', ' ')
    except psycopg2.Error as refusal:
        shown = f'refused, {refusal.pgcode}'
    print(f'  {cursor.connection.info.user}: {written}\n      {shown}')


def make_tables(path):
    """The administrator makes the roles, and the shop its table. Nothing of this is printed."""
    with connected(path, 'root') as (root,):
        for role in ('shop LOGIN', 'tenants', 'acme LOGIN', 'bolt LOGIN', 'clerk LOGIN'):
            root.execute('CREATE ROLE ' + role)
        root.execute('GRANT tenants TO acme, bolt')
    with connected(path, 'shop') as (shop,):
        shop.execute('BEGIN')
        shop.execute('CREATE TABLE orders (tenant TEXT, number BIGINT, item TEXT NOT NULL, PRIMARY KEY (tenant, number))')
        shop.execute('ALTER TABLE orders ENABLE ROW LEVEL SECURITY')
        shop.execute('GRANT SELECT, INSERT, UPDATE, DELETE ON orders TO tenants')
        shop.execute('CREATE POLICY own_orders ON orders TO tenants USING (tenant = current_user)')
        shop.execute('CREATE POLICY clerks ON orders FOR SELECT TO clerk USING (true)')
        shop.execute('COMMIT')


def first_run(acme, bolt, shop, clerk):
    ask(acme, "INSERT INTO orders VALUES ('acme', 1, %s), ('acme', 2, 'rope')", "Wile's anvil")
    ask(bolt, "INSERT INTO orders VALUES ('bolt', 1, 'screws')")
    ask(bolt, "INSERT INTO orders VALUES ('acme', 3, 'screws')")
    ask(acme, 'SELECT number, item FROM orders')
    ask(bolt, 'SELECT number, item FROM orders')
    ask(shop, 'GRANT SELECT ON orders TO clerk')
    ask(clerk, 'SELECT count(*) FROM orders')
    ask(shop, 'REVOKE SELECT ON orders FROM clerk')
    ask(clerk, 'SELECT count(*) FROM orders')


def second_run(clerk, acme, bolt):
    ask(clerk, 'SELECT count(*) FROM orders')
    ask(acme, 'SELECT number, item FROM orders')
    ask(bolt, 'SELECT number, item FROM orders')


with tempfile.TemporaryDirectory() as folder:
    path = os.path.join(folder, 'orders.db')
    subprocess.run([PROGRAM, 'format', path, '--pages', '64', '--admin', 'root'], check=True, stdout=subprocess.DEVNULL)
    with served(path):
        make_tables(path)
        print('A first server:')
        with connected(path, 'acme', 'bolt', 'shop', 'clerk') as cursors:
            first_run(*cursors)
    with served(path):
        print('Another one, over the same file:')
        with connected(path, 'clerk', 'acme', 'bolt') as cursors:
            second_run(*cursors)
