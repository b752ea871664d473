#!/usr/bin/env python3
"""Writes a random script of statements under policies: random_policies.py SEED STATEMENTS

The tables have keys of one to three columns, with a tenant's name in one of them. Policies bound columns of the key, or
fail, in every order: permissive and restrictive, for all commands and for one, with OR, MEMBER OF and the current and
the session user. Tenants and an owner read and change rows, in blocks too, and root makes and drops policies meanwhile. The
same seed gives the same script. model.py says what it answers.
"""
import random
import sys

TABLES = {
    'p': ([('tenant', 'TEXT'), ('id', 'BIGINT'), ('x', 'BIGINT')], ['tenant', 'id']),
    'q': ([('id', 'BIGINT'), ('tenant', 'TEXT'), ('x', 'BIGINT')], ['id']),
    'r': ([('open', 'BOOLEAN'), ('tenant', 'TEXT'), ('id', 'BIGINT'), ('x', 'BIGINT')], ['open', 'tenant', 'id']),
    'z': ([('x', 'BIGINT'), ('id', 'BIGINT'), ('tenant', 'TEXT')], ['id', 'tenant']),
}
NAMES = ['a', 'ab', 'b', 'ann', 'bob', 'staff']
LOGINS = ['a', 'ab', 'ann', 'bob']
COMPARISONS = ['=', '=', '=', '<', '<=', '>', '>=', '<>']


class Script:
    def __init__(self, seed):
        self.r = random.Random(seed)
        self.policies = {table: [] for table in TABLES}
        self.in_block = set()

    def chance(self, p):
        return self.r.random() < p

    def of(self, *choices):
        return self.r.choice(choices)

    def number(self):
        if self.chance(0.03):
            return self.of('9223372036854775807', '-9223372036854775808')
        return str(self.r.randint(-1, 6))

    def text(self):
        return "'" + self.r.choice(NAMES + ['', 'c']) + "'"

    def value(self, kind):
        if self.chance(0.03):
            return 'NULL'
        if kind == 'BIGINT':
            return self.number()
        if kind == 'BOOLEAN':
            return self.of('true', 'false')
        if self.chance(0.4):
            return self.of('current_user', 'current_user', 'session_user')
        return self.text()

    def columns(self, scope, kind):
        return [prefix + c for prefix, t in scope for c, k in TABLES[t][0] if k == kind]

    def compared(self, scope):
        kind = self.of('BIGINT', 'BIGINT', 'TEXT', 'TEXT', 'BOOLEAN')
        found = self.columns(scope, kind)
        if not found:
            return self.of('true', 'false', 'NULL', '1 = 1', "current_user = 'a'")
        left, right = self.r.choice(found), self.value(kind)
        if self.chance(0.15):
            right = self.r.choice(found)
        if self.chance(0.3):
            left, right = right, left
        return '%s %s %s' % (left, self.r.choice(COMPARISONS), right)

    def failing(self, scope):
        found = self.columns(scope, 'BIGINT')
        left, right = self.r.choice(found), self.r.choice(found)
        return self.of('10 / %s > 1' % left, '%s %% %s = 0' % (left, right), '%s * 4611686018427387904 > 0' % left,
                       '%s + 1 = %s' % (left, self.number()))

    def condition(self, scope, depth=3):
        if depth == 0 or self.chance(0.3):
            if self.chance(0.12):
                return self.failing(scope)
            if self.chance(0.15):
                return 'MEMBER OF ' + self.of(*(self.columns(scope, 'TEXT') or ["'staff'"]), self.text())
            if self.chance(0.05):
                return self.of('true', 'false', 'NULL')
            if self.chance(0.06):
                return self.r.choice(self.columns(scope, 'BIGINT')) + self.of(' IS NULL', ' IS NOT NULL')
            return self.compared(scope)
        if self.chance(0.06):
            return 'NOT (%s)' % self.condition(scope, depth - 1)
        return '(%s %s %s)' % (self.condition(scope, depth - 1), self.of('AND', 'AND', 'OR'),
                               self.condition(scope, depth - 1))

    def row(self, table):
        values = []
        for column, kind in TABLES[table][0]:
            if column in TABLES[table][1]:
                values.append({'BIGINT': str(self.r.randint(-1, 6)), 'BOOLEAN': self.of('true', 'false'),
                               'TEXT': "'" + self.r.choice(NAMES) + "'"}[kind])
            else:
                values.append('NULL' if self.chance(0.15) else
                              str(self.r.randint(-1, 4)) if kind == 'BIGINT' else "'" + self.r.choice(NAMES) + "'")
        return '(%s)' % ', '.join(values)

    def many_rows(self, table):
        """Rows of other keys than those of row, so that a walk comes to more than a few."""
        for at in range(self.r.randint(30, 120)):
            tenant = "'%s'" % self.of('a', 'b', 'bob', 'c', 'ann')
            yield '(%s)' % ', '.join({'tenant': tenant, 'id': str(10 + at), 'open': self.of('true', 'false'),
                                      'x': str(self.r.randint(1, 6))}[column] for column, _ in TABLES[table][0])

    def policy(self, table, number):
        name = '%s%d' % (self.of('a', 'm', 'z'), number)
        self.policies[table].append(name)
        words = 'CREATE POLICY %s ON %s' % (name, table)
        if self.chance(0.35):
            words += ' AS RESTRICTIVE'
        command = self.of('', '', '', '', ' FOR SELECT', ' FOR UPDATE', ' FOR DELETE', ' FOR INSERT')
        words += command
        if self.chance(0.15):
            words += ' TO ' + self.of('staff', 'a', 'ann')
        scope = [('', table)]
        if self.chance(0.5):
            keyed = self.of('tenant = current_user', 'MEMBER OF tenant', "tenant = current_user OR tenant = 'b'",
                            'tenant = session_user', "tenant >= 'b'", 'id > 1', 'id = 2 OR id = 4')
            condition = keyed if self.chance(0.7) else '%s AND %s' % (keyed, self.condition(scope, 1))
        else:
            condition = self.condition(scope, 2)
        if command == ' FOR INSERT':
            return words + ' WITH CHECK (%s)' % condition
        words += ' USING (%s)' % condition
        if command in ('', ' FOR UPDATE') and self.chance(0.2):
            words += ' WITH CHECK (%s)' % self.condition(scope, 1)
        return words

    def definitions(self):
        yield 'open 0 root'
        for name in LOGINS:
            yield '0: CREATE ROLE %s LOGIN' % name
        yield '0: CREATE ROLE staff'
        yield '0: CREATE ROLE b'
        for role, member in (('staff', 'ann'), ('b', 'staff'), ('a', 'bob')):
            if self.chance(0.7):
                yield '0: GRANT %s TO %s' % (role, member)
        for table, (columns, key) in TABLES.items():
            yield '0: CREATE TABLE %s (%s, PRIMARY KEY (%s))' % (
                table, ', '.join(' '.join(c) for c in columns), ', '.join(key))
            for name in LOGINS + ['staff']:
                yield '0: GRANT SELECT, INSERT, UPDATE, DELETE ON %s TO %s' % (table, name)
            for _ in range(self.r.randint(0, 14)):
                yield '0: INSERT INTO %s VALUES %s' % (table, self.row(table))
            if self.chance(0.2):
                yield '0: INSERT INTO %s VALUES %s' % (table, ', '.join(self.many_rows(table)))
            if self.chance(0.85):
                yield '0: ALTER TABLE %s ENABLE ROW LEVEL SECURITY' % table
            for number in range(self.of(0, 1, 1, 2, 2, 3, 4)):
                yield '0: ' + self.policy(table, number)
        for number, name in enumerate(LOGINS, 1):
            yield 'open %d %s' % (number, name)

    def sorted_by(self, scope):
        keys = [self.r.choice(self.columns(scope, 'BIGINT') + self.columns(scope, 'TEXT'))
                for _ in range(self.r.randint(1, 3))]
        return ', '.join(k + self.of('', '', '', ' DESC') for k in keys)

    def select(self):
        tables = [self.r.choice(list(TABLES)) for _ in range(self.of(1, 1, 1, 2, 2, 3))]
        if len(tables) == 1:
            scope, source = [('', tables[0])], tables[0]
        else:
            scope = [('t%d.' % i, t) for i, t in enumerate(tables)]
            source = tables[0] + ' t0'
            for i, t in enumerate(tables[1:], 1):
                on = self.condition(scope[:i + 1], 1)
                if self.chance(0.6):
                    kind = self.of('id', 'tenant')
                    on = 't%d.%s = t%d.%s%s' % (i, kind, i - 1, kind, '' if self.chance(0.5) else ' AND ' + on)
                source += ' JOIN %s t%d ON %s' % (t, i, on)
        listed = self.of('count(*)', '*', '*', ', '.join(self.r.sample(
            self.columns(scope, 'BIGINT') + self.columns(scope, 'TEXT'), 2)))
        words = 'SELECT %s FROM %s' % (listed, source)
        if self.chance(0.7):
            words += ' WHERE ' + self.condition(scope, 2)
        if listed != 'count(*)':
            if self.chance(0.5):
                key = ', '.join(scope[0][0] + c for c in TABLES[tables[0]][1])
                words += ' ORDER BY ' + (key if self.chance(0.5) else self.sorted_by(scope))
            if self.chance(0.3):
                words += ' LIMIT %d' % self.r.randint(0, 4)
        return words

    def change(self):
        table = self.r.choice(list(TABLES))
        scope = [('', table)]
        where = ' WHERE ' + self.condition(scope, 2) if self.chance(0.85) else ''
        if self.chance(0.3):
            return 'DELETE FROM %s%s' % (table, where)
        if self.chance(0.3):
            return 'INSERT INTO %s VALUES %s' % (table, ', '.join(self.row(table) for _ in range(self.of(1, 1, 1, 2, 3))))
        sets = []
        for column, kind in self.r.sample(TABLES[table][0], self.of(1, 1, 1, 2)):
            sets.append('%s = %s' % (column, self.of(self.value(kind), column, column + ' + 1' if kind == 'BIGINT' else column)))
        return 'UPDATE %s SET %s%s' % (table, ', '.join(sets), where)

    def defined(self):
        """A change of a table's policies, or of who is in which role."""
        table = self.r.choice(list(TABLES))
        if self.chance(0.3):
            return self.of('GRANT b TO ab', 'REVOKE b FROM ab', 'REVOKE staff FROM ann', 'GRANT staff TO ann')
        if self.chance(0.2):
            return 'ALTER TABLE %s %s ROW LEVEL SECURITY' % (table, self.of('ENABLE', 'ENABLE', 'DISABLE', 'FORCE', 'NO FORCE'))
        if self.policies[table] and self.chance(0.5):
            return 'DROP POLICY %s ON %s' % (self.policies[table].pop(self.r.randrange(len(self.policies[table]))), table)
        return self.policy(table, self.r.randint(5, 9))

    def bounded(self, session):
        """The begin or the end of a session's block."""
        if session in self.in_block:
            self.in_block.remove(session)
            return self.of('COMMIT', 'ROLLBACK')
        self.in_block.add(session)
        return 'BEGIN'

    def statements(self, count):
        for _ in range(count):
            session = self.of(0, 1, 2, 3, 3, 4, 4)
            if self.chance(0.06):
                yield '%d: %s' % (session, self.of('SET ROLE staff', 'SET ROLE a', 'SET ROLE b', 'RESET ROLE',
                                                    'RESET ROLE', 'RESET ROLE'))
            elif self.chance(0.03):
                yield '0: ' + self.defined()
            elif self.chance(0.25 if session in self.in_block else 0.03):
                yield '%d: %s' % (session, self.bounded(session))
            else:
                yield '%d: %s' % (session, self.select() if self.chance(0.7) else self.change())


def script(seed, count):
    made = Script(seed)
    return list(made.definitions()) + list(made.statements(count))


if __name__ == '__main__':
    print('\n'.join(script(sys.argv[1], int(sys.argv[2]))))
