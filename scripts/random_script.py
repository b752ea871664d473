#!/usr/bin/env python3
"""Writes a random script: random_script.py SEED EVENTS [queries]. The same seed gives the same script.

With `queries` nearly all of its statements read; without, they are of all kinds.
"""
import random
import sys

from model import Server

LOGINS = ['ann', 'bob', 'cid', 'dan']
ROLES = LOGINS + ['team', 'staff', 'crew']
TABLES = {
    't': [('k', 'BIGINT'), ('x', 'BIGINT'), ('s', 'BOOLEAN'), ('o', 'TEXT')],
    'u': [('k', 'BIGINT'), ('j', 'BIGINT'), ('o', 'TEXT')],
    'n': [('v', 'TEXT'), ('w', 'BIGINT')],
}
KEYS = {'t': 'k', 'u': 'k', 'n': 'v'}


class Script:
    def __init__(self, seed, reads=False):
        self.r = random.Random(seed)
        self.reads = reads

    def chance(self, p):
        return self.r.random() < p

    def of(self, *choices):
        return self.r.choice(choices)

    def number(self):
        if self.chance(0.04):
            return self.of('9223372036854775807', '-9223372036854775808', '-9223372036854775807')
        return str(self.r.randint(-2, 9))

    def column(self, scope, kind):
        found = [(p, c) for p, t in scope for c, k in TABLES[t] if k == kind]
        if not found or self.chance(0.01):
            return 'zz'
        part, name = self.r.choice(found)
        doubled = sum(c == name for _, t in scope for c, _ in TABLES[t]) > 1
        return part + '.' + name if doubled and not self.chance(0.02) or self.chance(0.1) else name

    def integer(self, scope, depth):
        if depth == 0 or self.chance(0.5):
            if scope and self.chance(0.6):
                return self.column(scope, 'BIGINT')
            return 'NULL' if self.chance(0.05) else self.number()
        if self.chance(0.15):
            return '- ' + self.integer(scope, depth - 1)
        op = self.of('+', '-', '*', '/', '%')
        return '(%s %s %s)' % (self.integer(scope, depth - 1), op, self.integer(scope, depth - 1))

    def text(self, scope):
        if scope and self.chance(0.5):
            return self.column(scope, 'TEXT')
        return self.of('current_user', 'session_user', 'NULL', *["'%s'" % x for x in LOGINS + ['it\'\'s', 'a\tb', 'é', '']])

    def truth(self, scope, depth):
        if depth == 0 or self.chance(0.4):
            op = self.of('=', '<>', '<', '<=', '>', '>=', '=', '=')
            kind = self.r.random()
            if kind < 0.55:
                return '%s %s %s' % (self.integer(scope, 1), op, self.integer(scope, 1))
            if kind < 0.8:
                return '%s %s %s' % (self.text(scope), op, self.text(scope))
            if kind < 0.86:
                return 'MEMBER OF ' + self.text(scope)
            if kind < 0.93 and scope:
                return self.column(scope, 'BOOLEAN')
            return self.of('true', 'false', 'NULL', '1 = 1')
        kind = self.r.random()
        if kind < 0.4:
            return '%s AND %s' % (self.truth(scope, depth - 1), self.truth(scope, depth - 1))
        if kind < 0.65:
            return '(%s OR %s)' % (self.truth(scope, depth - 1), self.truth(scope, depth - 1))
        if kind < 0.8:
            return 'NOT (%s)' % self.truth(scope, depth - 1)
        what = self.of(self.integer(scope, 1), self.text(scope), '(%s)' % self.truth(scope, depth - 1))
        return '%s IS %sNULL' % (what, self.of('', 'NOT '))

    def keyed(self, name, part):
        """A condition that names the key first, as most do."""
        key = KEYS[name]
        full = part + '.' + key if part else key
        value = self.number() if key == 'k' else self.text([])
        op = self.of('=', '=', '=', '<', '<=', '>', '>=')
        first = '%s %s %s' % (full, op, value)
        if self.chance(0.3):
            first += ' AND %s %s %s' % (full, self.of('<', '<=', '>', '>='), self.number() if key == 'k' else self.text([]))
        return first if self.chance(0.6) else first + ' AND ' + self.truth([(part or name, name)], 1)

    def where(self, name, p=0.7):
        if not self.chance(p):
            return ''
        if self.chance(0.4):
            return ' WHERE ' + self.keyed(name, '')
        return ' WHERE ' + self.truth([(name, name)], 2)

    def table(self):
        return self.of('t', 't', 't', 'u', 'u', 'n')

    def value(self, kind, scope=()):
        if kind == 'BIGINT':
            return self.integer(list(scope), 1)
        if kind == 'TEXT':
            return self.text(list(scope))
        return self.truth(list(scope), 1) if self.chance(0.3) else self.of('true', 'false', 'NULL')

    def select(self):
        n = self.of(0, 1, 1, 1, 1, 1, 2, 2, 3) if not self.chance(0.01) else 5
        if n == 0:
            return 'SELECT ' + ', '.join(self.of(self.integer([], 2), self.text([]), self.truth([], 2)) for _ in range(self.of(1, 2)))
        names = [self.table() for _ in range(n)]
        parts = ['p', 'q', 'r', 'a', 'b'][:n] if n > 1 else [names[0]]
        scope = list(zip(parts, names))
        sources = [name if part == name else name + self.of(' ', ' AS ') + part for part, name in scope]
        if n == 1 or self.chance(0.4):
            source = ', '.join(sources)
        else:
            source = sources[0]
            for i in range(1, n):
                if self.chance(0.2):
                    source += ' CROSS JOIN ' + sources[i]
                else:
                    source += self.of(' JOIN ', ' INNER JOIN ') + sources[i] + ' ON ' + self.truth(scope[:i + 1], 1)
        condition = ''
        if self.chance(0.65):
            if self.chance(0.4):
                condition = ' WHERE ' + self.keyed(names[0], parts[0] if n > 1 else '')
            else:
                condition = ' WHERE ' + self.truth(scope, 2)
        if self.chance(0.2):
            return 'SELECT count(*) FROM ' + source + condition
        if self.chance(0.25):
            items = '*'
        else:
            items = ', '.join(self.of(self.integer(scope, 1), self.text(scope), self.column(scope, 'BIGINT'), self.truth(scope, 1))
                              for _ in range(self.of(1, 2, 3)))
        tail = ''
        if self.chance(0.4):
            keys = [self.of(self.column(scope, 'BIGINT'), self.column(scope, 'TEXT'), self.integer(scope, 1) + ' + 0')
                    + self.of('', ' ASC', ' DESC') for _ in range(self.of(1, 1, 2))]
            tail += ' ORDER BY ' + ', '.join(keys)
        if self.chance(0.25):
            tail += ' LIMIT %d' % self.of(0, 1, 2, 3, 5, 100)
        return 'SELECT ' + items + ' FROM ' + source + condition + tail

    def insert(self):
        name = self.table()
        columns = TABLES[name]
        listed = ''
        if self.chance(0.3):
            columns = self.r.sample(columns, self.r.randint(1, len(columns)))
            listed = ' (' + ', '.join(c for c, _ in columns) + ')'
        elif self.chance(0.2):
            columns = columns[:self.r.randint(1, len(columns))]
        rows = []
        for _ in range(self.of(1, 1, 1, 2, 3)):
            cells = []
            for c, kind in columns:
                if c == KEYS[name]:
                    cells.append(str(self.r.randint(1, 60)) if kind == 'BIGINT' else "'%s%d'" % (self.of('a', 'b', 'c'), self.r.randint(0, 30)))
                else:
                    cells.append(self.value(kind))
            rows.append('(' + ', '.join(cells) + ')')
        return 'INSERT INTO ' + name + listed + ' VALUES ' + ', '.join(rows)

    def update(self):
        name = self.table()
        sets = self.r.sample(TABLES[name], self.of(1, 1, 2))
        if self.chance(0.7):
            sets = [s for s in sets if s[0] != KEYS[name]] or [TABLES[name][1]]
        parts = ['%s = %s' % (c, self.value(k, [(name, name)])) for c, k in sets]
        return 'UPDATE ' + name + ' SET ' + ', '.join(parts) + self.where(name, 0.85)

    def delete(self):
        name = self.table()
        return 'DELETE FROM ' + name + (self.where(name, 1.0) if not self.chance(0.05) else '')

    def grantees(self):
        return ', '.join(self.of('PUBLIC', *ROLES, *ROLES) for _ in range(self.of(1, 1, 1, 2)))

    def actions(self):
        if self.chance(0.2):
            return self.of('ALL', 'ALL PRIVILEGES')
        return ', '.join(self.r.sample(['SELECT', 'INSERT', 'UPDATE', 'DELETE'], self.of(1, 1, 2, 3)))

    def grant(self):
        option = self.of('', ' WITH GRANT OPTION')
        return 'GRANT %s ON %s%s TO %s%s' % (self.actions(), self.of('', 'TABLE '), self.table(), self.grantees(), option)

    def revoke(self):
        option = self.of('', '', 'GRANT OPTION FOR ')
        end = self.of('', ' RESTRICT', ' CASCADE', ' CASCADE')
        return 'REVOKE %s%s ON %s FROM %s%s' % (option, self.actions(), self.table(), self.grantees(), end)

    def membership(self):
        roles = ', '.join(self.r.sample(ROLES, self.of(1, 1, 2)))
        members = ', '.join(self.r.sample(ROLES, self.of(1, 1, 2)))
        if self.chance(0.55):
            return 'GRANT %s TO %s%s' % (roles, members, self.of('', ' WITH ADMIN OPTION'))
        return 'REVOKE %s%s FROM %s%s' % (self.of('', 'ADMIN OPTION FOR '), roles, members, self.of('', ' CASCADE', ' RESTRICT'))

    def policy(self):
        name, table = self.of('p1', 'p2', 'p3'), self.table()
        if self.chance(0.45):
            return 'DROP POLICY %s ON %s' % (name, table)
        return self.new_policy(name, table, self.of('ALL', 'SELECT', 'INSERT', 'UPDATE', 'DELETE', ''))

    def new_policy(self, name, table, action):
        """A CREATE POLICY for an action, or without FOR where there is none."""
        s = 'CREATE POLICY %s ON %s%s' % (name, table, self.of('', '', ' AS PERMISSIVE', ' AS RESTRICTIVE'))
        s += ' FOR ' + action if action else ''
        s += ' TO ' + self.grantees() if self.chance(0.4) else ''
        condition = lambda: self.of('o = current_user', 'MEMBER OF o', 'x > 1', 'true', self.truth([(table, table)], 1), self.truth([(table, table)], 1))
        if action != 'INSERT':
            s += ' USING (%s)' % condition()
        if action == 'INSERT' or action in ('', 'ALL', 'UPDATE') and self.chance(0.4):
            s += ' WITH CHECK (%s)' % condition()
        return s

    def role(self):
        name = self.of('new1', 'new2', 'crew', 'dan')
        if self.chance(0.5):
            attributes = self.r.sample(['SUPERUSER', 'LOGIN', 'BYPASSRLS', 'NOLOGIN', 'NOSUPERUSER', 'NOBYPASSRLS'], self.of(0, 1, 1, 2))
            return ('CREATE ROLE %s %s' % (name, ' '.join(attributes))).strip()
        return 'DROP ROLE ' + name

    def create_table(self, name):
        columns = ['%s %s%s' % (c, k, ' PRIMARY KEY' if c == KEYS[name] else '') for c, k in TABLES[name]]
        return 'CREATE TABLE %s (%s)' % (name, ', '.join(columns))

    def tables(self):
        name = self.of('t', 'u', 'n')
        if self.chance(0.25):
            return 'DROP TABLE ' + name
        if self.chance(0.5):
            return self.create_table(name)
        return 'ALTER TABLE %s %s ROW LEVEL SECURITY' % (name, self.of('ENABLE', 'ENABLE', 'DISABLE', 'FORCE', 'NO FORCE'))

    def statement(self):
        if self.reads and self.chance(0.93):
            return self.select()
        kinds = [(0.34, self.select), (0.14, self.insert), (0.09, self.update), (0.05, self.delete), (0.07, self.grant),
                 (0.05, self.revoke), (0.05, self.membership), (0.05, self.policy), (0.03, self.role), (0.04, self.tables),
                 (0.025, lambda: self.of('BEGIN', 'BEGIN WORK', 'START TRANSACTION')), (0.03, lambda: self.of('COMMIT', 'COMMIT WORK')),
                 (0.015, lambda: self.of('ROLLBACK', 'ROLLBACK TRANSACTION')),
                 (0.02, lambda: 'SET ROLE ' + self.of('NONE', *ROLES)), (0.01, lambda: 'RESET ROLE'),
                 (0.005, lambda: self.of('SELECT', 'SELECT 1 +', 'GRANT', 'SELECT * FROM nowhere', 'DROP ROLE nobody', "SELECT 'a", 'SELECT 1x'))]
        x = self.r.random() * sum(p for p, _ in kinds)
        for p, make in kinds:
            x -= p
            if x < 0:
                return make()
        return kinds[0][1]()

    def setup(self):
        yield 'open r root'
        for role in ROLES:
            yield 'r: CREATE ROLE %s%s' % (role, ' LOGIN' if role in LOGINS else '')
        for role in LOGINS:
            yield 'open %s %s' % (role[0], role)
        for name in TABLES:
            yield 'a: ' + self.create_table(name)
            yield 'a: GRANT ALL ON %s TO bob WITH GRANT OPTION' % name
            yield 'a: GRANT SELECT, INSERT, UPDATE ON %s TO cid' % name

    def repair(self, server, who, answer):
        """What is likely to come after a refusal, so that most statements meet a database that works."""
        if answer == 'refused 25P02' and self.chance(0.8):
            return [who + self.of(': ROLLBACK', ': COMMIT')]
        if answer == 'refused 55P03' and self.chance(0.5):
            holder = {number: name for name, number in self.numbers.items()}[server.holder[0]]
            return [holder + self.of(': COMMIT', ': ROLLBACK')]
        if answer in ('refused 08003', 'refused 28000') and self.chance(0.8):
            login = {'r': 'root', 'a': 'ann', 'b': 'bob', 'c': 'cid', 'd': 'dan'}[who]
            return ['r: CREATE ROLE %s LOGIN' % login, 'close ' + who, 'open %s %s' % (who, login)]
        if answer == 'refused 42P01' and self.chance(0.6):
            name = self.of('t', 'u', 'n')
            return ['a: ' + self.create_table(name), 'a: GRANT ALL ON %s TO bob WITH GRANT OPTION' % name]
        return []

    def run(self, server, event):
        """The session of an event and what a model of the server answers."""
        words = event.split(' ', 2)
        who = words[1] if words[0] in ('open', 'close') else words[0][:-1]
        number = self.numbers.setdefault(who, len(self.numbers) + 1)
        if words[0] == 'open':
            return who, server.open(number, words[2])
        if words[0] == 'close':
            return who, server.close(number)
        return who, server.execute(number, event.split(': ', 1)[1])

    def event(self):
        if self.chance(0.006):
            return 'close ' + self.of('b', 'c', 'd')
        return '%s: %s' % (self.of('r', 'a', 'a', 'a', 'b', 'b', 'c', 'd'), self.statement())

    def rows(self):
        """Rows to ask for, and policies that hide some of them."""
        for _ in range(40):
            yield self.of('a', 'b') + ': ' + self.insert()
        for name in ('p1', 'p2'):
            yield 'a: CREATE POLICY %s ON t USING (%s)' % (name, self.truth([('t', 't')], 1))
        yield 'a: ALTER TABLE t ENABLE ROW LEVEL SECURITY'
        yield 'a: GRANT SELECT ON t TO PUBLIC'
        yield 'a: GRANT SELECT ON u TO PUBLIC'

    def events(self, count):
        server, self.numbers, made, wanted = Server('root'), {}, [], list(self.setup())
        if self.reads:
            wanted += list(self.rows())
        while len(made) < count:
            event = wanted.pop(0) if wanted else self.event()
            who, answer = self.run(server, event)
            made.append(event)
            if not wanted:
                wanted = self.repair(server, who, answer)
        return made


if __name__ == '__main__':
    sys.setrecursionlimit(100000)
    for event in Script(int(sys.argv[1]), sys.argv[3:] == ['queries']).events(int(sys.argv[2])):
        print(event)
