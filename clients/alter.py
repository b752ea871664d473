#!/usr/bin/env python3
"""Changes the layout of a table, by a copy of the database: no statement does it.

    python3 clients/alter.py shop.db new.db root notes --add 'due TEXT' "''"            # new.db has one column more
    python3 clients/alter.py shop.db new.db root notes --rename note body --replace     # and takes the place of shop.db

FILE is copied to NEW. There TABLE is made anew in one block, with its rows, owner, row security, policies and privileges, by the superuser
ADMIN. Then both files are described, and what is not as it was and was not asked for is told; NEW is removed then. FILE is not written,
and it is locked from before the copy to the end: nobody else can write it meanwhile, so no commit is lost. With --replace NEW gets the
name of FILE before the lock is let go, and the old file the name FILE.before.

A policy whose condition names a column that is dropped, renamed or of another type is told, and --policy has to give it anew.
docs/clients.md says more. The exit status is 0 when it is done, 1 after a fault, 2 for words that cannot be, and 3 where NEW differed.
"""
import argparse
import collections
import contextlib
import fcntl
import os
import re
import subprocess
import sys
import time

import guarddb
from guarddb import quoted_name
from guarddb_layout import NotDescribed, described, folded, format_of, program
from guarddb_syntax import tokens_of
from shell_place import Fault, Place, cause

FAULT, WRONG_WORDS, DIFFERS = 1, 2, 3
PAGE = 4096
LOCK_WAIT = 5           # seconds in which a file in use may become free
SETTLE = 1              # seconds for which the old file stays locked after the exchange: who opened it before finds it in use
TIMEOUT = 600           # seconds for a statement
ROWS, BYTES = 200, 50000        # of one INSERT
READ = {'BIGINT': int, 'TEXT': str, 'BOOLEAN': guarddb.boolean}
TRUTHS = {'t': True, 'true': True, 'f': False, 'false': False}
NUMBER = re.compile('-?[1-9][0-9]*|0')
WITH_JOURNAL = 3        # the format of a file with a journal


class Stopped(Exception):
    """Why nothing came of it: an exit status and a message."""


def number_of(text):
    if not NUMBER.fullmatch(text):
        raise ValueError
    return int(text)


# What a value of a type becomes in another; a ValueError or a KeyError where it has no counterpart.
CONVERTED = {
    ('TEXT', 'BIGINT'): number_of, ('BIGINT', 'TEXT'): str, ('TEXT', 'BOOLEAN'): lambda text: TRUTHS[text.lower()],
    ('BOOLEAN', 'TEXT'): lambda value: 'true' if value else 'false', ('BOOLEAN', 'BIGINT'): int, ('BIGINT', 'BOOLEAN'): {0: False, 1: True}.__getitem__}


# ---- what is asked for

Column = collections.namedtuple('Column', 'old name old_type type not_null')        # `old` is None for one that is added


class Plan:
    """What becomes of a table, by what `guarddb describe` tells of the file, and by the words that were given."""
    def __init__(self, description, given):
        self.description, self.table, self.to = description, given.table, given.to or given.table
        self.row = self.only(description['tables'], 'table', given.table)
        self.rows_of = lambda part: [row for row in description[part] if row['table'] == self.table]
        if self.to != self.table and any(row['table'] == self.to for row in description['tables']):
            raise Stopped(WRONG_WORDS, f'There is a table {self.to} already.')
        self.dropped, self.renamed, self.retyped = {*given.drop}, dict(given.rename), dict(given.type)
        self.added = [(*self.parsed(text), value) for text, value in given.add]
        self.columns = [*self.kept(), *(Column(None, name, None, kind, not_null) for name, kind, not_null, _ in self.added)]
        self.key = given.key or [self.renamed.get(name, name) for name in self.old_key()]
        self.check()
        self.policies = dict(given.policy)
        self.check_policies()

    def only(self, rows, part, name):
        found = [row for row in rows if row[part] == name]
        if not found:
            raise Stopped(WRONG_WORDS, f'There is no {part} {name}.')
        return found[0]

    def parsed(self, text):
        """The name and the type of a column, and whether it is NOT NULL."""
        words = [text[begin:end] for _, begin, end in tokens_of(text)]
        kind = {'BOOL': 'BOOLEAN'}.get(words[1].upper(), words[1].upper()) if len(words) > 1 else None
        if kind not in READ or [word.upper() for word in words[2:]] not in ([], ['NOT', 'NULL']):
            raise Stopped(WRONG_WORDS, f'{text} is no column: NAME TYPE or NAME TYPE NOT NULL.')
        return folded(words[0]), kind, len(words) > 2

    def old_key(self):
        return [row['column'] for row in sorted((row for row in self.rows_of('columns') if row['key']), key=lambda row: row['key'])]

    def kept(self):
        for name in (*self.dropped, *self.renamed, *self.retyped):
            self.only(self.rows_of('columns'), 'column', name)
        for row in self.rows_of('columns'):
            name, kind = row['column'], row['type']
            if name not in self.dropped:
                yield Column(name, self.renamed.get(name, name), kind, self.retyped.get(name, kind), row['not null'])

    def check(self):
        names = [column.name for column in self.columns]
        if twice := {name for name in names if names.count(name) > 1}:
            raise Stopped(WRONG_WORDS, f'There would be two columns {", ".join(sorted(twice))}.')
        if gone := [name for name in self.key if name not in names]:
            raise Stopped(WRONG_WORDS, f'{", ".join(gone)} of the key would be no column: --key names those of another one.')
        for column in self.columns:
            if column.old and column.old_type != column.type and (column.old_type, column.type) not in CONVERTED:
                raise Stopped(WRONG_WORDS, f'{column.type} is no type.')

    def check_policies(self):
        """Each policy that names what changes has to be given anew."""
        changed = self.dropped | {*self.renamed} | {*self.retyped} | ({self.table} if self.to != self.table else set())
        wanted = []
        for row in self.rows_of('policies'):
            text = ' '.join(filter(None, (row['using'], row['with check'])))
            named = changed & {folded(text[begin:end]) for kinds, begin, end in tokens_of(text) if 'name' in kinds}
            if named and row['policy'] not in self.policies:
                wanted.append(f'The policy {row["policy"]} names {", ".join(sorted(named))}: {clauses(row)}')
        for name in self.policies:
            self.only(self.rows_of('policies'), 'policy', name)
        if wanted:
            raise Stopped(WRONG_WORDS, '\n'.join([*wanted, "Give each of them anew, with --policy NAME 'USING (..)', or WITH CHECK, or both."]))

    # -- the statements

    def create(self):
        columns = [f'{quoted_name(it.name)} {it.type}{" NOT NULL" * it.not_null}' for it in self.columns]
        return f'CREATE TABLE {quoted_name(self.to)} ({", ".join(columns)}, PRIMARY KEY ({", ".join(map(quoted_name, self.key))}))'

    def securing(self):
        words = ['ENABLE'] * self.row['row security'] + ['FORCE'] * self.row['forced']
        return [f'ALTER TABLE {quoted_name(self.to)} {word} ROW LEVEL SECURITY' for word in words]

    def policing(self):
        return [f'CREATE POLICY {quoted_name(row["policy"])} ON {quoted_name(self.to)} AS {row["kind"]} FOR {row["command"]}'
                f' TO {", ".join(map(grantee, row["roles"] or [None]))} {self.policies.get(row["policy"]) or clauses(row)}'
                for row in self.rows_of('policies')]

    def granting(self):
        """Each grant with its grantor, in an order in which each grantor has the option before it is used."""
        have = {(row['to'], row['privilege'], row['column']) for row in self.rows_of('privileges') if row['by'] is None}
        left = [row for row in self.rows_of('privileges') if row['by'] is not None]
        while left:
            ready = [row for row in left if {(row['by'], row['privilege'], column) for column in (row['column'], None)} & have] or left
            left = [row for row in left if row not in ready]
            have |= {(row['to'], row['privilege'], row['column']) for row in ready if row['grant option']}
            yield from ((row['by'], self.grant(row)) for row in ready if row['column'] not in self.dropped)

    def grant(self, row):
        column = f' ({quoted_name(self.renamed.get(row["column"], row["column"]))})' if row['column'] else ''
        option = ' WITH GRANT OPTION' * row['grant option']
        return f'GRANT {row["privilege"]}{column} ON {quoted_name(self.to)} TO {grantee(row["to"])}{option}'

    # -- what is expected

    def expected(self):
        """What is to be told of NEW: of FILE, with what was asked for."""
        found = {part: [self.moved(row) for row in rows if not (row.get('table') == self.table and row.get('column') in self.dropped)]
                 for part, rows in self.description.items()}
        found['columns'] = [row for row in self.description['columns'] if row['table'] != self.table] + [
            {'table': self.to, 'column': it.name, 'type': it.type, 'not null': it.not_null or it.name in self.key,
             'key': self.key.index(it.name) + 1 if it.name in self.key else None} for it in self.columns]
        return found

    def moved(self, row):
        if row.get('table') != self.table:
            return row
        column = {'column': self.renamed.get(row['column'], row['column'])} if 'column' in row else {}
        return {**row, 'table': self.to, **column}

    def lost(self):
        """What goes with a column that is dropped."""
        return [f'The grant of {row["privilege"]} ({row["column"]}) to {row["to"] or "PUBLIC"} by {row["by"]} goes with its column.'
                for row in self.rows_of('privileges') if row['column'] in self.dropped]

    def differences(self, description):
        """What of a description is not as expected. The conditions of policies that were given anew are not looked at."""
        def lines(description):
            return collections.Counter((part, str(sorted(self.without_anew(part, row).items(), key=lambda pair: pair[0])))
                                       for part, rows in description.items() for row in rows)
        expected, found = lines(self.expected()), lines(description)
        return [f'lost: {part} {row}' for part, row in expected - found] + [f'new: {part} {row}' for part, row in found - expected]

    def without_anew(self, part, row):
        is_anew = part == 'policies' and row['table'] == self.to and row['policy'] in self.policies
        return {name: cell for name, cell in row.items() if not (is_anew and name in ('using', 'with check'))}


def grantee(role):
    return 'PUBLIC' if role is None else quoted_name(role)


def clauses(row):
    """The conditions of a policy, as they stand in its statement."""
    return ' '.join(f'{word.upper()} ({row[word]})' for word in ('using', 'with check') if row[word] is not None)


# ---- the files

@contextlib.contextmanager
def locked(path):
    """Holds a shared lock on a file: `copy` and `describe` go on beside it, and whoever would write the file is told that it is in use."""
    end = time.monotonic() + LOCK_WAIT
    while True:
        with open(path, 'rb') as file:
            try:
                fcntl.flock(file, fcntl.LOCK_SH | fcntl.LOCK_NB)
                is_locked = os.path.samestat(os.fstat(file.fileno()), os.stat(path))        # else another file has the name meanwhile
            except BlockingIOError:
                is_locked = False
            if is_locked:
                yield
                return
        if time.monotonic() > end:
            raise Stopped(FAULT, f'{path} is in use: end its server first.')
        time.sleep(0.01)


def run(program, *words):
    done = subprocess.run([program, *words], stdin=subprocess.DEVNULL, capture_output=True, encoding='utf-8', errors='replace')
    if done.returncode:
        raise Stopped(FAULT, f'guarddb {words[0]} failed: {done.stderr.strip()}')


def copy(given):
    pages = given.pages or os.path.getsize(given.file) // PAGE
    run(given.program, 'copy', given.file, given.new, '--pages', str(pages), *['--journal'] * (format_of(given.file) == WITH_JOURNAL))


def exchange(file, new):
    """Gives NEW the name of FILE, and FILE the name FILE.before. Whoever opened FILE before finds it locked for a while yet."""
    status, before = os.stat(file), file + '.before'
    os.chmod(new, status.st_mode & 0o7777)
    if (status.st_uid, status.st_gid) != (os.stat(new).st_uid, os.stat(new).st_gid):
        os.chown(new, status.st_uid, status.st_gid)
    os.link(file, before)
    try:
        os.rename(new, file)
    except BaseException:
        os.unlink(before)
        raise
    folder = os.open(os.path.dirname(file) or '.', os.O_RDONLY)
    try:
        os.fsync(folder)
    finally:
        os.close(folder)
    time.sleep(SETTLE)


# ---- the block

def rebuild(session, plan):
    """Makes the table anew, in one block, and gives the number of its rows, which are read again and compared."""
    values = [value for *_, value in plan.added]
    constants = [ask_value(session, value, kind) for _, kind, _, value in plan.added]
    session.ask('BEGIN')
    kept = [it for it in plan.columns if it.old]
    rows = [converted(row, kept) for row in selected(session, plan.table, [(it.old, it.old_type) for it in kept])]
    session.ask(f'DROP TABLE {quoted_name(plan.table)}')
    ask_as(session, plan.row['owner'], plan.create())
    for part in parts(row_text(row, values) for row in rows):
        session.ask(f'INSERT INTO {quoted_name(plan.to)} VALUES {", ".join(part)}')
    for statement in [*plan.securing(), *plan.policing()]:
        session.ask(statement)
    for grantor, statement in plan.granting():
        ask_as(session, grantor, statement)
    session.ask('COMMIT')
    found = selected(session, plan.to, [(it.name, it.type) for it in plan.columns])
    if collections.Counter(map(tuple, found)) != collections.Counter((*row, *constants) for row in rows):
        raise Stopped(DIFFERS, f'The rows of {plan.to} are not those that were expected.')
    return len(found)


def ask_value(session, value, kind):
    rows = session.ask(f'SELECT {value}', READ[kind])
    if [len(row) for row in rows] != [1]:
        raise Stopped(WRONG_WORDS, f'{value} is no value.')
    return rows[0][0]


def ask_as(session, role, statement):
    session.ask(f'SET ROLE {quoted_name(role)}')
    session.ask(statement)
    session.ask('RESET ROLE')


def selected(session, table, columns):
    """The rows of these columns, each given with its type."""
    names = ', '.join(quoted_name(name) for name, _ in columns)
    return session.ask(f'SELECT {names} FROM {quoted_name(table)}', *(READ[kind] for _, kind in columns))


def converted(row, columns):
    def value(cell, it):
        try:
            return cell if cell is None or it.old_type == it.type else CONVERTED[it.old_type, it.type](cell)
        except (ValueError, KeyError):
            raise Stopped(FAULT, f'{guarddb.literal(cell)} of the column {it.old} is no {it.type}.') from None
    return [value(*each) for each in zip(row, columns)]


def row_text(row, values):
    return f'({", ".join([*map(guarddb.literal, row), *values])})'


def parts(texts):
    """The rows in parts, each for one INSERT."""
    part, size = [], 0
    for text in texts:
        if part and (len(part) == ROWS or size + len(text.encode()) > BYTES):
            yield part
            part, size = [], 0
        part.append(text)
        size += len(text.encode()) + 2
    if part:
        yield part


# ---- from the first word to the last

def alter(given):
    """Makes NEW, and gives the lines that say what was done."""
    given.file = os.path.realpath(given.file)
    check_places(given)
    with locked(given.file):
        plan = Plan(described(given.file, given.program), given)
        copy(given)
        try:
            count = with_server(given, plan)
            run(given.program, 'check', given.new)
            if found := plan.differences(described(given.new, given.program)):
                raise Stopped(DIFFERS, '\n'.join([*found, 'NEW differs beside what was asked for, and is removed.']))
        except BaseException:
            os.unlink(given.new)
            raise
        lines = [*plan.lost(), f'{count} rows of {plan.to}: nothing else differs.']
        if not given.replace:
            return [*lines, f'{given.file} may change from now on, and {given.new} does not know of it: --replace exchanges them.']
        exchange(given.file, given.new)
        return [*lines, f'{given.file} is the new one, and {given.file}.before the old one.']


def check_places(given):
    for place in (given.new, f'{given.file}.before')[:1 + given.replace]:
        if os.path.lexists(place):
            raise Stopped(WRONG_WORDS, f'{place} is there already.')
    folders = [os.stat(os.path.dirname(os.path.abspath(place))).st_dev for place in (given.new, given.file)]
    if given.replace and folders[0] != folders[1]:
        raise Stopped(WRONG_WORDS, f'{given.new} is on another file system: with --replace it cannot be.')


def with_server(given, plan):
    """The block in NEW, by a server that ends behind it."""
    place = Place(given.new, given.program, TIMEOUT)
    try:
        with place.connect() as connection, connection.open(given.admin) as session:
            return rebuild(session, plan)
    except guarddb.Refused as refused:
        statement = f'{refused.statement[:200]}\n' if refused.statement else ''
        room = '\nA larger file has room for it: --pages N.' if refused.code == '53100' else ''
        raise Stopped(FAULT, f'{statement}{refused}{room}') from None
    finally:
        place.stop(at_once=False)


def read_words():
    words = argparse.ArgumentParser(prog='alter.py', description=__doc__, formatter_class=argparse.RawDescriptionHelpFormatter)
    for name, text in [('file', 'the database'), ('new', 'the file that is made'), ('admin', 'a superuser with LOGIN'), ('table', 'the table')]:
        words.add_argument(name, metavar=name.upper(), help=text)
    several = {'action': 'append', 'default': []}
    words.add_argument('--add', nargs=2, metavar=('COLUMN', 'VALUE'), help="a new column, such as 'due TEXT', and its value in each row", **several)
    words.add_argument('--drop', metavar='COLUMN', **several)
    words.add_argument('--rename', nargs=2, metavar=('COLUMN', 'NAME'), **several)
    words.add_argument('--type', nargs=2, metavar=('COLUMN', 'TYPE'), help='another type, to which each value is converted', **several)
    words.add_argument('--key', metavar='COLUMN,..', type=lambda text: text.split(','), help='another primary key')
    words.add_argument('--to', metavar='NAME', help='another name of the table')
    words.add_argument('--policy', nargs=2, metavar=('NAME', 'CONDITIONS'), help='new conditions of a policy', **several)
    words.add_argument('--pages', metavar='N', type=int, help='the pages of NEW; without it as many as FILE has')
    words.add_argument('--replace', action='store_true', help='exchanges the names in the end')
    words.add_argument('--program', metavar='PATH', default=program(), help='the program guarddb')
    given = words.parse_args()
    given.type = [(column, {'BOOL': 'BOOLEAN'}.get(kind.upper(), kind.upper())) for column, kind in given.type]
    return given


def main():
    try:
        print(*alter(read_words()), sep='\n')
        return 0
    except Stopped as stopped:
        status, text = stopped.args
    except (NotDescribed, Fault) as fault:
        status, text = FAULT, str(fault.text if isinstance(fault, Fault) else fault)
    except OSError as fault:
        status, text = FAULT, f'{fault.filename or "the connection"}: {cause(fault)}'
    print(text, file=sys.stderr)
    return status


if __name__ == '__main__':
    sys.exit(main())
