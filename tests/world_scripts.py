"""Random scripts whose database hides rows from a session, which watches: bob's.

A World makes the definitions, some rows, and events of bob and of others. Which rows are hidden it does not know: asked_pairs.py
asks. The same seed makes the same world.
"""
import random
import re

LOGINS = ['ann', 'bob', 'cid', 'dan']
ROLES = LOGINS + ['team', 'staff']
LETTERS = {'ann': 'a', 'bob': 'b', 'cid': 'c', 'dan': 'd'}
OTHERS = ['cid', 'dan', 'ann']
# Memberships that a world may have, with how often: a role, and who is in it. None of them closes a cycle.
MEMBERSHIPS = [('team', 'bob', 0.4), ('staff', 'team', 0.3), ('staff', 'bob', 0.2), ('team', 'cid', 0.3), ('cid', 'bob', 0.1),
               ('ann', 'bob', 0.05), ('staff', 'dan', 0.2)]
SHAPES = [
    ([('k', 'BIGINT'), ('x', 'BIGINT'), ('s', 'BOOLEAN'), ('o', 'TEXT')], ['k']),
    ([('o', 'TEXT'), ('k', 'BIGINT'), ('x', 'BIGINT')], ['o', 'k']),
    ([('v', 'TEXT'), ('w', 'BIGINT'), ('o', 'TEXT')], ['v']),
    ([('k', 'BIGINT'), ('j', 'BIGINT'), ('s', 'BOOLEAN'), ('o', 'TEXT')], ['k', 'j']),
    ([('x', 'BIGINT'), ('o', 'TEXT'), ('y', 'BIGINT'), ('k', 'BIGINT')], ['k', 'o']),
]
ANY, FOR_ALL, OF_KEYS = 'of every kind', 'FOR ALL', 'FOR ALL of key columns'     # the policies of a world
COMMANDS = ['SELECT', 'INSERT', 'UPDATE', 'DELETE']
COMPARISONS = ['=', '=', '<>', '<', '<=', '>', '>=']
TEXTS = ["'bob'", "'bob'", "'bob'", "'ann'", "'cid'", "'dan'", "'team'", "''"]


class Table:
    def __init__(self, name, shape):
        self.name = name
        self.columns, self.key = shape

    def scope(self, part=''):
        return [(part + column, kind) for column, kind in self.columns]

    def keys(self):
        return [(column, kind) for column, kind in self.columns if column in self.key]

    def free(self):
        """A column that may be null."""
        return next(column for column, _ in self.columns if column not in self.key)

    def definition(self):
        listed = ', '.join('%s %s' % column for column in self.columns)
        return 'CREATE TABLE %s (%s, PRIMARY KEY (%s))' % (self.name, listed, ', '.join(self.key))


class World:
    def __init__(self, seed, policies, quiet):
        """With `quiet` no policy has arithmetic, so that none fails on a row."""
        self.r = random.Random(seed)
        self.policies, self.quiet = policies, quiet
        self.begun = set()      # by their letters, the sessions that began a block and did not end it
        self.tables = [Table('t%d' % (i + 1), self.r.choice(SHAPES)) for i in range(self.of(1, 2, 2, 3))]

    def chance(self, p):
        return self.r.random() < p

    def of(self, *choices):
        return self.r.choice(choices)

    # ---- expressions over the columns of a scope

    def literal(self, kind, null=0.12):
        if self.chance(null):
            return 'NULL'
        if kind == 'BIGINT':
            return str(self.r.randint(-1, 6))
        return self.of(*TEXTS) if kind == 'TEXT' else self.of('true', 'false')

    def column(self, scope, kind):
        found = [column for column, of_kind in scope if of_kind == kind]
        return self.r.choice(found) if found else self.literal(kind)

    def integer(self, scope, arithmetic):
        if arithmetic and self.chance(0.3):
            operator = self.of('+', '-', '*', '/', '/', '%')
            return '(%s %s %s)' % (self.integer(scope, False), operator, self.integer(scope, False))
        return self.column(scope, 'BIGINT') if self.chance(0.7) else self.literal('BIGINT', 0.02)

    def text(self, scope):
        if self.chance(0.6):
            return self.column(scope, 'TEXT')
        return self.of('current_user', 'current_user', 'session_user', *TEXTS)

    def comparison(self, scope, arithmetic):
        kind = self.r.random()
        if kind < 0.5:
            return '%s %s %s' % (self.integer(scope, arithmetic), self.of(*COMPARISONS), self.integer(scope, arithmetic))
        if kind < 0.75:
            return '%s %s %s' % (self.text(scope), self.of(*COMPARISONS), self.text(scope))
        if kind < 0.9:
            return '%s IS %sNULL' % (self.r.choice(scope)[0], self.of('', 'NOT '))
        return self.column(scope, 'BOOLEAN')

    def truth(self, scope, arithmetic=True):
        kind = self.r.random()
        if kind < 0.6:
            return self.comparison(scope, arithmetic)
        if kind < 0.9:
            parts = (self.comparison(scope, arithmetic), self.of('AND', 'OR'), self.comparison(scope, arithmetic))
            return '(%s %s %s)' % parts
        return 'NOT (%s)' % self.comparison(scope, arithmetic)

    # ---- definitions, all of them by root

    def definitions(self):
        yield 'open r root'
        for role in ROLES:
            login = ' LOGIN' if role in LOGINS else ''
            yield 'r: CREATE ROLE %s%s%s' % (role, login, ' BYPASSRLS' if role != 'bob' and self.chance(0.04) else '')
        for role, member, p in MEMBERSHIPS:
            if self.chance(p):
                yield 'r: GRANT %s TO %s' % (role, member)
        for table in self.tables:
            yield 'r: SET ROLE ' + self.of('ann', 'ann', 'ann', 'ann', 'ann', 'staff', 'bob')
            yield 'r: ' + table.definition()
            yield 'r: RESET ROLE'
            yield from self.secured(table)

    def secured(self, table):
        """Privileges and policies on a table."""
        privileges = self.of(*['ALL'] * 9, 'SELECT, INSERT, UPDATE', 'SELECT, DELETE', 'INSERT, UPDATE, DELETE')
        yield 'r: GRANT %s ON %s TO %s' % (privileges, table.name, self.of('PUBLIC', 'PUBLIC', 'bob, cid, dan', 'staff, bob'))
        yield 'r: ALTER TABLE %s ENABLE ROW LEVEL SECURITY' % table.name
        if self.chance(0.5):
            yield 'r: ALTER TABLE %s FORCE ROW LEVEL SECURITY' % table.name
        for number in range(self.of(1, 1, 2, 2, 3, 4) if self.policies == ANY else self.of(1, 1, 2)):
            yield self.policy(table, 'p%d' % (number + 1), number)

    def policy(self, table, name, number):
        command = 'ALL'
        if self.policies == ANY and self.chance(0.65):
            command = self.of('SELECT', 'SELECT', 'INSERT', 'UPDATE', 'DELETE')
        line = 'r: CREATE POLICY %s ON %s' % (name, table.name)
        line += ' AS RESTRICTIVE' if number > 0 and self.chance(0.35) else ''
        line += self.of('', ' FOR ALL') if command == 'ALL' else ' FOR ' + command
        line += ' TO ' + ', '.join(self.r.sample(['PUBLIC', *ROLES], self.of(1, 2))) if self.chance(0.15) else ''
        if command != 'INSERT':
            line += ' USING (%s)' % self.condition(table)
        if command == 'INSERT' or self.policies == ANY and command in ('ALL', 'UPDATE') and self.chance(0.4):
            line += ' WITH CHECK (%s)' % self.condition(table)
        return line

    def condition(self, table):
        scope = table.keys() if self.policies == OF_KEYS else table.scope()
        if self.chance(0.5) and any(kind == 'TEXT' for _, kind in scope):
            return self.column(scope, 'TEXT') + self.of(' = current_user', ' = current_user', " = 'bob'", " = 'team'")
        if self.policies == ANY and self.chance(0.12):
            return 'true'
        return self.truth(scope, not self.quiet)

    # ---- rows

    def row(self, table, key):
        cells = [key.get(column) or self.literal(kind) for column, kind in table.columns]
        return '(%s)' % ', '.join(cells)

    def rows(self, table):
        """Keys of a table, each with rows that could have it."""
        keys = {}
        for _ in range(self.r.randint(6, 9)):
            key = {column: self.literal(kind, 0) for column, kind in table.keys()}
            where = ' AND '.join('%s = %s' % cell for cell in key.items())
            keys[where] = [self.row(table, key) for _ in range(3)]
        return keys

    # ---- statements over rows

    def where(self, table):
        """The condition of an UPDATE or DELETE: it reads a column, unless all policies are FOR ALL."""
        condition = self.truth(table.scope())
        if self.chance(0.3):
            condition = ' AND '.join('%s %s %s' % (column, self.of(*COMPARISONS), self.literal(kind, 0.02))
                                     for column, kind in table.keys())
        if self.policies != ANY:
            return ' WHERE ' + condition if self.chance(0.7) else ''
        if self.chance(0.2) or not re.search(r'\b(%s)\b' % '|'.join(column for column, _ in table.columns), condition):
            condition = '%s IS NOT NULL' % self.of(*table.key)
        return ' WHERE ' + condition

    def insert(self, table):
        columns = table.columns
        listed = ''
        if self.chance(0.2):
            columns = self.r.sample(columns, self.r.randint(len(columns) - 1, len(columns)))
            listed = ' (%s)' % ', '.join(column for column, _ in columns)
        rows = [', '.join(self.new_value(table, column, kind) for column, kind in columns) for _ in range(self.of(1, 1, 1, 2))]
        return 'INSERT INTO %s%s VALUES %s' % (table.name, listed, ', '.join('(%s)' % row for row in rows))

    def new_value(self, table, column, kind):
        if kind == 'TEXT' and self.chance(0.4):
            return 'current_user'
        return self.literal(kind, 0.02 if column in table.key else 0.12)

    def given(self, table, kind):
        if kind == 'BIGINT':
            return self.integer(table.scope(), True)
        return self.text(table.scope()) if kind == 'TEXT' else self.of('true', 'false', 'NULL')

    def update(self, table):
        columns = self.r.sample(table.columns, self.of(1, 1, 2))
        if self.chance(0.6):
            columns = [cell for cell in columns if cell[0] not in table.key] or [(table.free(), dict(table.columns)[table.free()])]
        sets = ', '.join('%s = %s' % (column, self.given(table, kind)) for column, kind in columns)
        return 'UPDATE %s SET %s%s' % (table.name, sets, self.where(table))

    def delete(self, table):
        return 'DELETE FROM %s%s' % (table.name, self.where(table))

    def select(self):
        tables = [self.of(*self.tables) for _ in range(self.of(1, 1, 1, 1, 2, 2, 3))]
        parts = ['p', 'q', 'r'][:len(tables)]
        scopes = [table.scope(part + '.') for table, part in zip(tables, parts)]
        source, scope = '%s p' % tables[0].name, list(scopes[0])
        for table, part, columns in zip(tables[1:], parts[1:], scopes[1:]):
            scope += columns
            if self.chance(0.25):
                source += ' CROSS JOIN %s %s' % (table.name, part)
            else:
                source += ' JOIN %s %s ON %s' % (table.name, part, self.truth(scope))
        source += ' WHERE ' + self.truth(scope) if self.chance(0.4) else ''
        if self.chance(0.2):
            return 'SELECT count(*) FROM ' + source
        return 'SELECT %s FROM %s%s' % ('*' if self.chance(0.3) else self.listed(scope), source, self.sorted(scope))

    def listed(self, scope):
        return ', '.join(self.of(self.integer(scope, True), self.text(scope)) for _ in range(self.of(1, 2)))

    def sorted(self, scope):
        keys = [self.column(scope, self.of('BIGINT', 'TEXT')) for _ in range(self.of(0, 1, 1, 2))]
        keys = [key for key in keys if '.' in key]      # a literal is no sort key
        line = ' ORDER BY ' + ', '.join(key + self.of('', ' DESC') for key in keys) if keys else ''
        return line + (' LIMIT %d' % self.of(0, 1, 2, 3) if self.chance(0.35) else '')

    def over_rows(self):
        kind, table = self.r.random(), self.of(*self.tables)
        if kind < 0.45:
            return self.select()
        if kind < 0.65:
            return self.insert(table)
        return self.update(table) if kind < 0.87 else self.delete(table)

    # ---- events

    def block(self, who):
        """BEGIN, or the end of a block, or None where none of them comes now."""
        if who in self.begun and self.chance(0.3) or self.chance(0.01):
            self.begun.discard(who)
            return '%s: %s' % (who, self.of('COMMIT', 'COMMIT', 'ROLLBACK'))
        if self.chance(0.1):
            self.begun.add(who)
            return who + ': BEGIN'
        return None

    def watched(self, roles):
        """An event of bob, whose roles these are."""
        block, kind = self.block('b'), self.r.random()
        if block:
            return block
        if kind < 0.08:
            return 'b: SET ROLE ' + self.of('NONE', *roles)
        if kind < 0.1:
            return 'b: ' + self.of('CREATE TABLE mine (k BIGINT PRIMARY KEY)', 'DROP TABLE mine',
                                   'CREATE TABLE t1 (k BIGINT PRIMARY KEY)', 'GRANT SELECT ON t1 TO cid', 'REVOKE SELECT ON t1 FROM cid')
        return 'b: ' + self.over_rows()

    def other(self, name):
        """An event of another session."""
        who = LETTERS[name]
        return self.block(who) or '%s: %s' % (who, self.over_rows().replace("'bob'", "'%s'" % name))
