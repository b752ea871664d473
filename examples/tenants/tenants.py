#!/usr/bin/env python3
"""Two tenants over a socket, and a REVOKE that lasts over a restart of the server.

    python3 examples/tenants/tenants.py [PROGRAM]

PROGRAM is the program guarddb, else the one at the top of the repository, which is built first. The database is a new one in
a folder that is removed in the end. README.md shows what is printed.
"""
import contextlib
import os
import subprocess
import sys
import tempfile
import time

TOP = os.path.join(os.path.dirname(os.path.abspath(__file__)), '..', '..')
sys.path.insert(0, os.path.join(TOP, 'clients'))
import guarddb

PROGRAM = os.path.abspath(sys.argv[1] if len(sys.argv) > 1 else os.path.join(TOP, 'guarddb'))
PORT = 20000 + os.getpid() % 10000      # one that is hardly taken


@contextlib.contextmanager
def served(path):
    """A connection to a server of its own over the database. The server serves this one and ends."""
    messages = path + '.messages'       # what the server says of itself
    with open(messages, 'wb') as file:
        server = subprocess.Popen([PROGRAM, 'serve', path, '--port', str(PORT), '--connections', '1'], stderr=file)
    try:
        with connected(server, messages) as connection:
            yield connection
        server.wait(20)
    finally:
        server.kill()
        server.wait()


def connected(server, messages):
    """A connection to the server. Where it does not start, its messages are shown."""
    end = time.monotonic() + 20
    while server.poll() is None and time.monotonic() < end:
        with contextlib.suppress(ConnectionRefusedError):
            return guarddb.connect(PORT, wait=0.1, timeout=20)
    with open(messages, encoding='utf-8') as file:
        sys.exit('The server did not start. It said:\n' + file.read())


def ask(session, statement, *types):
    """Prints a statement with what comes of it: rows, what was done, or the code of the refusal."""
    try:
        answer = session.ask(statement, *types)
        shown = answer if isinstance(answer, list) else ' '.join(str(part) for part in answer if part is not None)
    except guarddb.Refused as refusal:
        shown = f'refused, {refusal.code}'
    print(f'  {session.login}: {statement}\n      {shown}')


def open_session(connection, login):
    session = connection.open(login)
    session.login = login
    return session


def make_tables(connection):
    """The administrator makes the roles, and the shop its table. Nothing of this is printed."""
    with connection.open('root') as root, connection.open('root') as owner:
        for role in ('shop LOGIN', 'tenants', 'acme LOGIN', 'bolt LOGIN', 'clerk LOGIN'):
            root.ask('CREATE ROLE ' + role)
        root.ask('GRANT tenants TO acme, bolt')
        owner.ask('SET ROLE shop')
        owner.ask('BEGIN')
        owner.ask('CREATE TABLE orders (tenant TEXT, number BIGINT, item TEXT NOT NULL, PRIMARY KEY (tenant, number))')
        owner.ask('ALTER TABLE orders ENABLE ROW LEVEL SECURITY')
        owner.ask('GRANT SELECT, INSERT, UPDATE, DELETE ON orders TO tenants')
        owner.ask('CREATE POLICY own_orders ON orders TO tenants USING (tenant = current_user)')
        owner.ask('CREATE POLICY clerks ON orders FOR SELECT TO clerk USING (true)')
        owner.ask('COMMIT')


def first_run(connection):
    acme, bolt = open_session(connection, 'acme'), open_session(connection, 'bolt')
    shop, clerk = open_session(connection, 'shop'), open_session(connection, 'clerk')
    item = guarddb.literal("Wile's anvil")      # a text that comes from outside
    ask(acme, f"INSERT INTO orders VALUES ('acme', 1, {item}), ('acme', 2, 'rope')")
    ask(bolt, "INSERT INTO orders VALUES ('bolt', 1, 'screws')")
    ask(bolt, "INSERT INTO orders VALUES ('acme', 3, 'screws')")
    ask(acme, 'SELECT number, item FROM orders', int)
    ask(bolt, 'SELECT number, item FROM orders', int)
    ask(shop, 'GRANT SELECT ON orders TO clerk')
    ask(clerk, 'SELECT count(*) FROM orders', int)
    ask(shop, 'REVOKE SELECT ON orders FROM clerk')
    ask(clerk, 'SELECT count(*) FROM orders')


def second_run(connection):
    ask(open_session(connection, 'clerk'), 'SELECT count(*) FROM orders')
    ask(open_session(connection, 'acme'), 'SELECT number, item FROM orders', int)
    ask(open_session(connection, 'bolt'), 'SELECT number, item FROM orders', int)


with tempfile.TemporaryDirectory() as folder:
    path = os.path.join(folder, 'orders.db')
    subprocess.run([PROGRAM, 'format', path, '--pages', '64', '--admin', 'root'], check=True, stdout=subprocess.DEVNULL)
    with served(path) as connection:
        make_tables(connection)
        print('A first server:')
        first_run(connection)
    with served(path) as connection:
        print('Another one, over the same file:')
        second_run(connection)
