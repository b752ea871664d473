"""Random databases of which a tenant sees a part, and statements over them: for tests/tenants.py.

The tenant has the login roles bob and bea, and acts as each role that they may set. What it may not tell of a database is found by
the model, scripts/model.py: rows that policies hide from each of its roles, tables that none of them may read, and columns that none
of them may read, where they are no part of the key and no policy of theirs names them. The same seed makes the same world.
"""
import os
import re
import sys

from program import TOP
from world_scripts import ANY, FOR_ALL, OF_KEYS, COMMANDS, SHAPES, Table, World

sys.path.insert(0, os.path.join(TOP, 'scripts'))
import model

LOGINS = ['bob', 'bea']
SESSIONS = {'b1': 'bob', 'b2': 'bob', 'e1': 'bea'}
OTHERS = ['cid', 'dan', 'ann']
OTHER_SESSIONS = {'c1': 'cid', 'd1': 'dan', 'a1': 'ann', 'r': 'root'}
ROLES = LOGINS + OTHERS + ['team', 'staff']
# Memberships that a world may have, with how often: a role, and who is in it. None of them closes a cycle.
MEMBERSHIPS = [('team', 'bob', 0.4), ('team', 'bea', 0.4), ('staff', 'team', 0.25), ('staff', 'bob', 0.15), ('team', 'cid', 0.15),
               ('cid', 'bob', 0.05), ('bea', 'bob', 0.12), ('staff', 'dan', 0.2), ('ann', 'bea', 0.04)]
WIDE_SHAPES = SHAPES + [
    ([('k', 'BIGINT'), ('x', 'BIGINT'), ('s', 'BOOLEAN'), ('o', 'TEXT'), ('z', 'TEXT')], ['k']),
    ([('o', 'TEXT'), ('k', 'BIGINT'), ('x', 'BIGINT'), ('z', 'TEXT')], ['o', 'k']),
]
NAMES = ['bob', 'bob', 'bea', 'cid', 'dan', 'team', '', 'x']
LONG = [600, 1000, 1100, 1150]      # lengths of texts that fill a record, or nearly


class Script:
    """The lines of a script as it grows, beside the model of the server that runs it."""

    def __init__(self):
        self.lines, self.answers, self.numbers = [], [], {}
        self.server = model.Server('root')

    def copy(self):
        new = Script()
        new.lines, new.answers, new.numbers = list(self.lines), list(self.answers), dict(self.numbers)
        new.server.committed, new.server.holder = self.server.committed, self.server.holder
        for number, session in self.server.sessions.items():
            new.server.sessions[number] = copied = model.Session(session.login)
            copied.role, copied.block = session.role, session.block
        return new

    def number(self, name):
        return self.numbers.setdefault(name, len(self.numbers) + 1)

    def session(self, name):
        return self.server.sessions.get(self.number(name))

    def seen(self, name):
        """The database that a session sees."""
        return self.server.seen(self.number(name))

    @property
    def committed(self):
        return self.server.committed

    def do(self, line):
        self.lines.append(line)
        self.answers.append(self.step(line))
        return self.answers[-1]

    def step(self, line):
        words = line.split(' ', 2)
        if words[0] == 'open':
            return self.server.open(self.number(words[1]), words[2])
        if words[0] == 'close':
            return self.server.close(self.number(words[1]))
        name, text = line.split(': ', 1)
        return self.server.execute(self.number(name), text)


class Sight:
    """What the tenant may tell of a database. Each name in `without` is a premise that is left out, so that differences are found."""

    def __init__(self, without=()):
        self.without = without

    def pairs(self, db):
        """The users as which it may act: the current role and the login role, each."""
        logins = LOGINS[:1] if 'each login' in self.without else LOGINS
        return [(role, login) for login in logins if login in db.roles for role in db.roles if model.is_in(db, login, role)]

    def has(self, db, name, action, column=None):
        """Whether one of its roles has an action on a column, or on some column."""
        held = model.has_on_some_column if column is None else model.has_privilege
        place = [] if column is None else [column]
        return any(held(db, role, name, action, *place) for role, _ in self.pairs(db))

    def is_reached(self, db, name):
        """Whether a statement of its own may look at the rows of a table."""
        actions = ['SELECT', 'DELETE'] if 'updates read' in self.without else ['SELECT', 'UPDATE', 'DELETE']
        return any(self.has(db, name, action) for action in actions)

    def hidden_columns(self, db, name):
        """The indices of the columns that none of its roles may read, of which nothing else tells."""
        table = db.tables[name]
        hidden = {i for i in range(len(table.columns)) if not self.has(db, name, 'SELECT', i)}
        if 'keys tell' not in self.without:
            hidden -= set(table.key)
        return hidden if 'policies tell' in self.without else hidden - named_by_policies(table, name)

    def is_silent(self, db, name, row):
        """Whether a row is hidden from each of its roles, and no guard fails on it."""
        return all(self.is_silent_to(db, name, row, pair) for pair in self.pairs(db))

    def is_silent_to(self, db, name, row, pair):
        users = {'current': pair[0], 'session': pair[1], 'database': db}
        seen = model.guard(db, pair[0], name, 'SELECT', 'using')
        guards = [] if 'guards of writes' in self.without else ['UPDATE', 'DELETE']
        try:
            for command in guards:
                model.passes(model.guard(db, pair[0], name, command, 'using'), row, users)
            return seen is not None and not model.passes(seen, row, users)
        except model.Refused:
            return False

    def apparent(self, db):
        """What the tenant may tell of the rows of a database, by table."""
        return {name: self.apparent_rows(db, name) for name in db.tables}

    def apparent_rows(self, db, name):
        if not self.is_reached(db, name):
            return None
        hidden, table = self.hidden_columns(db, name), db.tables[name]
        rows = [[None if i in hidden else cell for i, cell in enumerate(row)]
                for row in table.rows if not self.is_silent(db, name, row)]
        return rows if table.policies or self.has(db, name, 'SELECT') else len(rows)


def named_by_policies(table, name):
    """The indices of the columns that a policy of a table names."""
    clauses = [clause for policy in table.policies.values() for clause in (policy['using'], policy['check']) if clause]
    scope = model.Scope([(name, table)])
    return {column for clause in clauses for _, column in model.columns_in(model.bind(clause[0], scope))}


def tells_by_count(script, name, text):
    """Whether a statement is an UPDATE or DELETE that reads no column of a table whose policies for the role are not all FOR ALL without
    WITH CHECK: its count may speak of hidden rows."""
    session, db = script.session(name), script.seen(name)
    try:
        statement = model.parse(text)
        if statement[0] not in ('update', 'delete') or statement[1] not in db.tables or session.role not in db.roles:
            return False
        table = db.tables[statement[1]]
        scope = model.Scope([(statement[1], table)])
        parts = [part for _, part in statement[2]] + [statement[3]] if statement[0] == 'update' else [statement[2]]
        if any(model.columns_in(model.bind(part, scope)) for part in parts if part):
            return False
    except model.Refused:
        return False
    mine = [policy for policy in table.policies.values()
            if any(role is model.PUBLIC or model.is_in(db, session.role, role) for role in policy['to'])]
    return not all(policy['for'] == 'ALL' and policy['check'] is None for policy in mine)


class TenantWorld(World):
    """A world whose definitions are made; `features` say what may be hidden besides rows, and what the tenant does."""

    def __init__(self, seed, features, without=()):
        super().__init__(seed, ANY, False)
        self.features, self.sight = features, Sight(without)
        self.tables = [Table('t%d' % (i + 1), self.r.choice(WIDE_SHAPES)) for i in range(self.of(1, 2, 2, 3))]
        self.script = Script()
        for line in self.definitions():
            self.script.do(line)

    # ---- definitions

    def definitions(self):
        yield 'open r root'
        for role in ROLES:
            login = ' LOGIN' if role in LOGINS + OTHERS else ''
            yield 'r: CREATE ROLE %s%s%s' % (role, login, ' BYPASSRLS' if role not in LOGINS and self.chance(0.03) else '')
        for role, member, p in MEMBERSHIPS:
            if self.chance(p):
                yield 'r: GRANT %s TO %s' % (role, member)
        for table in self.tables:
            yield 'r: SET ROLE ' + self.of(*['ann'] * 6, 'cid', 'staff', 'bob')
            yield 'r: ' + table.definition()
            yield 'r: RESET ROLE'
            yield from self.secured(table)

    def secured(self, table):
        """Privileges and policies on a table."""
        hides = self.of(*['nothing'] * 3, *['tables', 'tables', 'reading'] * ('tables' in self.features),
                        *['columns'] * 4 * ('columns' in self.features))
        to = self.of('PUBLIC', 'PUBLIC', 'bob, bea, cid, dan', 'team, bob, cid')
        option = ' WITH GRANT OPTION' if 'grants' in self.features and to != 'PUBLIC' and self.chance(0.6) else ''
        yield 'r: GRANT ALL ON %s TO %s' % (table.name, 'cid, dan' if hides != 'nothing' else to + option)
        if hides == 'reading':
            yield 'r: GRANT INSERT ON %s TO %s' % (table.name, to)
        if hides == 'columns':
            yield 'r: GRANT %s ON %s TO %s%s' % (self.privileges(table), table.name, to, option)
        if self.chance(0.5 if hides == 'columns' else 0.75):
            yield from self.policies_on(table)

    def some(self, names, p):
        return [name for name in names if self.chance(p)] or [self.of(*names)]

    def privileges(self, table):
        """Privileges on columns, of which some may not be read."""
        names = [column for column, _ in table.columns]
        free = [column for column in names if column not in table.key]
        hidden = self.some(free, 0.5)
        seen = [column for column in names if column not in hidden and (column in table.key or self.chance(0.8))]
        if 'keys tell' in self.sight.without:
            seen = [column for column in seen if column not in table.key]
        parts = ['SELECT (%s)' % ', '.join(seen)] if seen and self.chance(0.85) else []
        parts.append(self.of('INSERT', 'INSERT (%s)' % ', '.join(self.some(names, 0.8))))
        parts.append(self.of('UPDATE', 'UPDATE (%s)' % ', '.join(self.some(names, 0.6)), 'UPDATE (%s)' % ', '.join(self.some(free, 0.6))))
        return ', '.join(parts + ['DELETE'] * self.chance(0.7))

    def policies_on(self, table):
        yield 'r: ALTER TABLE %s ENABLE ROW LEVEL SECURITY' % table.name
        if self.chance(0.5):
            yield 'r: ALTER TABLE %s FORCE ROW LEVEL SECURITY' % table.name
        self.policies = self.of(ANY, FOR_ALL, OF_KEYS)
        for number in range(self.of(1, 1, 2, 3) if self.policies == ANY else self.of(1, 1, 2)):
            yield self.policy(self.with_columns(table, 'SELECT', 0.7), 'p%d' % number, number)

    # ---- columns that the tenant has an action on

    def with_columns(self, table, action, p=0.85):
        """The table, mostly with the columns alone that one of the tenant's roles has an action on, where there are some."""
        db = self.script.committed
        if table.name not in db.tables or not self.chance(p):
            return table
        held = [cell for i, cell in enumerate(table.columns) if self.sight.has(db, table.name, action, i)]
        if not held:
            return table
        names = [column for column, _ in held]
        return Table(table.name, (held, [column for column in table.key if column in names] or names[:1]))

    # ---- rows

    def cell(self, kind, can_be_null):
        if can_be_null and self.chance(0.15):
            return None
        if kind == 'BIGINT':
            return self.r.randint(-1, 5)
        return self.of(*NAMES) if kind == 'TEXT' else self.chance(0.5)

    def rows_of(self, name):
        """Rows that a table could have, of which no two have the same key."""
        table, rows = self.script.committed.tables[name], {}
        for _ in range(self.r.randint(2, 9)):
            row = [self.cell(kind_named(kind), not not_null) for _, kind, not_null in table.columns]
            rows.setdefault(tuple(model.key_of(table, row)), row)
        return list(rows.values())

    def with_hidden_cells(self, table, row, hidden):
        """The row with other values in hidden columns, where a record has room for them."""
        new = list(row)
        for i in hidden:
            _, kind, not_null = table.columns[i]
            if self.chance(0.6):
                new[i] = self.cell(kind_named(kind), not not_null)
            if kind == 'text' and self.chance(0.35):
                new[i] = 'y' * self.of(*LONG)
        size = sum(model.cell_size(cell) for i, cell in enumerate(new) if i not in table.key)
        return new if size <= 1200 else row

    def alike(self, count):
        """The INSERTs of so many databases that look the same to the tenant, and what differs in some: tables, rows, columns."""
        db, lists, differ = self.script.committed, [[] for _ in range(count)], set()
        for name, table in db.tables.items():
            for row in self.rows_of(name):
                what, versions = self.versions(db, name, row, count)
                differ |= {what} if any(version != versions[0] for version in versions) else set()
                for lines, version in zip(lists, versions):
                    lines += ['r: INSERT INTO %s VALUES (%s)' % (name, ', '.join(map(written, version)))] if version else []
        return lists, differ

    def versions(self, db, name, row, count):
        """What may differ in a row, and the row as it stands in each of so many databases, None where it does not."""
        table, hidden = db.tables[name], self.sight.hidden_columns(db, name)
        if not self.sight.is_reached(db, name):
            return 'tables', [self.of(row, None) for _ in range(count)]
        if self.sight.is_silent(db, name, row):
            return 'rows', [self.of(row, None) for _ in range(count)]
        return 'columns', [self.with_hidden_cells(table, row, hidden) for _ in range(count)]

    # ---- statements over rows

    def over_rows(self):
        table, kind = self.of(*self.tables), self.r.random()
        if kind < 0.4:
            return self.select_seen()
        if kind < 0.6:
            return self.insert(self.with_columns(table, 'INSERT'))
        if kind < 0.85:
            return self.update_seen(table)
        return self.delete(self.with_columns(table, 'SELECT'))

    def select_seen(self):
        all_tables = self.tables
        self.tables = [self.with_columns(table, 'SELECT') for table in all_tables]
        try:
            return self.select()
        finally:
            self.tables = all_tables

    def update_seen(self, table):
        settable, seen = self.with_columns(table, 'UPDATE'), self.with_columns(table, 'SELECT')
        columns = self.r.sample(settable.columns, min(len(settable.columns), self.of(1, 1, 2)))
        sets = ', '.join('%s = %s' % (column, self.long_or(self.given(seen, kind), kind)) for column, kind in columns)
        return 'UPDATE %s SET %s%s' % (table.name, sets, self.where(seen))

    def long_or(self, value, kind):
        """The value, or now and then a long text in its place."""
        return "'%s'" % ('w' * self.of(100, 400, 900, 1020)) if kind == 'TEXT' and self.chance(0.25) else value

    def new_value(self, table, column, kind):
        return self.long_or(super().new_value(table, column, kind), kind) if self.chance(0.3) else super().new_value(table, column, kind)

    # ---- events of the tenant

    def own_text(self, script, name):
        """What a session of the tenant may ask next."""
        session, kind = script.session(name), self.r.random()
        if kind < 0.15 or session.block and kind < 0.3:
            return self.of('COMMIT', 'COMMIT', 'ROLLBACK') if session.block else 'BEGIN'
        if kind < 0.34:
            roles = sorted({role for role, _ in self.sight.pairs(script.committed)})
            return self.of('RESET ROLE', *['SET ROLE ' + role for role in roles + ['cid', 'zed']])
        if kind < 0.36:
            return self.of('CREATE TABLE mine (k BIGINT PRIMARY KEY, o TEXT)', 'DROP TABLE mine', 'GRANT SELECT ON t1 TO cid',
                           'SELECT * FROM nowhere', 'GRANT SELECT ON mine TO bea')
        if 'grants' in self.features and kind < 0.48:
            return self.own_grant()
        if 'own' in self.features and kind < 0.55:
            return self.own_definition()
        return self.over_rows()

    def own_grant(self):
        table = self.of(*self.tables)
        column = self.of(*table.columns)[0]
        what = self.of('SELECT', 'ALL', 'UPDATE', 'DELETE', 'INSERT', 'SELECT (%s)' % column, 'UPDATE (%s)' % column)
        who = self.of('bob', 'bea', 'team', 'staff', 'cid')
        return self.of('GRANT %s ON %s TO %s%s' % (what, table.name, who, self.of('', '', ' WITH GRANT OPTION')),
                       'REVOKE %s ON %s FROM %s CASCADE' % (what, table.name, self.of(who, 'PUBLIC')))

    def own_definition(self):
        return self.of(*['CREATE TABLE mine (k BIGINT PRIMARY KEY, o TEXT)'] * 2, 'ALTER TABLE mine ENABLE ROW LEVEL SECURITY',
                       'ALTER TABLE mine FORCE ROW LEVEL SECURITY', 'ALTER TABLE mine NO FORCE ROW LEVEL SECURITY',
                       'CREATE POLICY own ON mine USING (o = current_user)', 'CREATE POLICY few ON mine FOR SELECT USING (k > 2)',
                       'DROP POLICY own ON mine', "INSERT INTO mine VALUES (%d, '%s')" % (self.r.randint(0, 5), self.of('bob', 'bea')),
                       'SELECT * FROM mine', 'GRANT ALL ON mine TO bea, bob', 'DELETE FROM mine WHERE k > 2')

    # ---- events of others

    def definition_of_root(self):
        table = self.of(*self.tables)
        what = self.of('SELECT', 'ALL', 'UPDATE', 'DELETE', 'SELECT (%s)' % self.of(*table.columns)[0])
        policy = 'CREATE POLICY z%d ON %s%s USING (%s)' % (self.r.randint(0, 3), table.name,
                                                            self.of(' AS RESTRICTIVE', '', ' FOR ' + self.of('SELECT', 'UPDATE')),
                                                            self.comparison(table.scope(), False))
        return 'r: ' + self.of('GRANT %s ON %s TO %s' % (what, table.name, self.of('bob', 'bea', 'team', 'PUBLIC', 'cid')),
                               'REVOKE %s ON %s FROM %s CASCADE' % (what, table.name, self.of('bob', 'bea', 'team', 'PUBLIC')),
                               policy, 'DROP POLICY p0 ON ' + table.name,
                               'ALTER TABLE %s %s ROW LEVEL SECURITY' % (table.name, self.of('ENABLE', 'DISABLE', 'FORCE', 'NO FORCE')),
                               'GRANT %s TO %s' % (self.of('team', 'staff', 'cid'), self.of('bob', 'bea', 'cid')), 'REVOKE team FROM bob',
                               'DROP TABLE ' + table.name, 'CREATE ROLE zed LOGIN', 'DROP ROLE dan')

    def text_of_other(self, script, name):
        """What a session of another may ask next."""
        kind = self.r.random()
        if name == 'r':
            return re.sub("'(bob|bea)'", "'cid'", self.over_rows())
        if kind < 0.2:
            return self.of('BEGIN', 'COMMIT', 'COMMIT', 'ROLLBACK')
        if kind < 0.27:
            return 'SET ROLE ' + self.of('NONE', *ROLES)
        return re.sub("'(bob|bea)'", "'%s'" % OTHER_SESSIONS[name], self.over_rows())


def kind_named(kind):
    """The type that the model calls so, as it is written."""
    return {'number': 'BIGINT', 'text': 'TEXT', 'bool': 'BOOLEAN'}[kind]


def written(value):
    """A value as a literal."""
    if value is None or isinstance(value, bool):
        return {None: 'NULL', True: 'true', False: 'false'}[value]
    return str(value) if isinstance(value, int) else "'%s'" % value
