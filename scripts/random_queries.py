#!/usr/bin/env python3
"""Writes random queries and what the model answers to them: random_queries.py SEED DATABASES QUERIES SCRIPT ANSWERS

For each of the DATABASES databases a line `new`, and then a script that makes four small tables, fills them, puts policies
on two of them, and asks QUERIES queries: of root, whom no policy concerns, and of bob, from whom policies hide rows. The
lines go to the end of the file SCRIPT, the answers to the end of ANSWERS. The same words give the same lines: those of
the part `rows` of `statement_tests` are `1 40 250`.
"""
import random
import sys

import model

TABLES = {
    't': [('k', 'BIGINT'), ('x', 'BIGINT'), ('s', 'BOOLEAN'), ('o', 'TEXT')],
    'u': [('k', 'BIGINT'), ('j', 'BIGINT'), ('o', 'TEXT')],
    'n': [('v', 'TEXT'), ('w', 'BIGINT')],
    'm': [('a', 'BIGINT'), ('b', 'TEXT'), ('z', 'BIGINT')],
}
KEYS = {'t': ['k'], 'u': ['k'], 'n': ['v'], 'm': ['a', 'b']}
ROLES = {'ann': ['bob'], 'a': ['ann'], 'b': []}     # beside bob, each with its members
TEXTS = ["'bob'", "'bob'", "'ann'", "'a'", "'b'", "'ab'", "''", "'it''s'", "'é'"]
LARGE = ['9223372036854775807', '-9223372036854775808', '4611686018427387904']
COMPARISONS = ['=', '<>', '<', '<=', '>', '>=']


class Queries:
    def __init__(self, seed):
        self.r = random.Random(seed)

    def chance(self, p):
        return self.r.random() < p

    def of(self, *choices):
        return self.r.choice(choices)

    # ---- tables

    def cell(self, kind):
        if self.chance(0.15):
            return 'NULL'
        if kind == 'BIGINT':
            return self.of(*LARGE) if self.chance(0.05) else str(self.r.randint(-1, 4))
        return self.of(*TEXTS) if kind == 'TEXT' else self.of('true', 'false')

    def key(self, name):
        kinds = dict(TABLES[name])
        return tuple(str(self.r.randint(-1, 6)) if kinds[c] == 'BIGINT' else self.of(*TEXTS) for c in KEYS[name])

    def fill(self, name):
        keys = {self.key(name) for _ in range(self.r.randint(5, 10) if self.chance(0.95) else 0)}
        rows = []
        for key in sorted(keys):
            of = dict(zip(KEYS[name], key))
            rows.append('(%s)' % ', '.join(of.get(c) or self.cell(kind) for c, kind in TABLES[name]))
        return ['r: INSERT INTO %s VALUES %s' % (name, ', '.join(rows))] if rows else []

    def policy(self, number, name):
        scope = [(name, name)]
        condition = self.of(self.bound(scope, name, name, 'k'), self.truth(scope, 1), 'o = current_user OR k > 2', 'MEMBER OF o', 'k < 5', 'true')
        kind = ' AS RESTRICTIVE' if number > 0 and self.chance(0.5) else ''
        return 'r: CREATE POLICY p%d ON %s%s USING (%s)' % (number, name, kind, condition)

    def setup(self):
        yield 'open r root'
        yield 'r: CREATE ROLE bob LOGIN'
        for role, members in ROLES.items():
            yield 'r: CREATE ROLE ' + role
            yield from ('r: GRANT %s TO %s' % (role, member) for member in members)
        yield 'open b bob'
        for name, columns in TABLES.items():
            listed = ', '.join('%s %s' % column for column in columns)
            yield 'r: CREATE TABLE %s (%s, PRIMARY KEY (%s))' % (name, listed, ', '.join(KEYS[name]))
            yield 'r: GRANT SELECT ON %s TO bob' % name
            yield from self.fill(name)
        for name in ('t', 'u'):
            yield 'r: ALTER TABLE %s ENABLE ROW LEVEL SECURITY' % name
            for number in range(self.of(1, 1, 2)):
                yield self.policy(number, name)

    # ---- expressions

    def column(self, scope, kind, of=None):
        """A column of a table of the scope, or of those given, as it is written in the scope."""
        found = [(part, name, c) for part, name in of or scope for c, k in TABLES[name] if k == kind]
        if not found or self.chance(0.003):
            return 'zz' if self.chance(0.1) else '(1)' if kind == 'BIGINT' else 'current_user'
        part, _, c = self.r.choice(found)
        return self.named(scope, part, c)

    def named(self, scope, part, c):
        doubled = sum(c == d for _, name in scope for d, _ in TABLES[name]) > 1
        return part + '.' + c if doubled and not self.chance(0.006) or self.chance(0.2) else c

    def number(self):
        return self.of(*LARGE) if self.chance(0.03) else str(self.r.randint(-1, 5))

    def integer(self, scope, depth):
        if depth == 0 or self.chance(0.6):
            return self.column(scope, 'BIGINT') if scope and self.chance(0.7) else self.number()
        if self.chance(0.1):
            return '- ' + self.integer(scope, 0)
        operator = self.of('+', '-', '*', '/', '%')
        return '(%s %s %s)' % (self.integer(scope, depth - 1), operator, self.integer(scope, depth - 1))

    def text(self, scope):
        return self.column(scope, 'TEXT') if scope and self.chance(0.65) else self.of('current_user', *TEXTS)

    def comparison(self, scope, depth):
        if self.chance(0.05):
            return 'MEMBER OF ' + self.text(scope)
        operator = self.of('=', *COMPARISONS)
        if self.chance(0.7):
            return '%s %s %s' % (self.integer(scope, depth), operator, self.integer(scope, depth))
        return '%s %s %s' % (self.text(scope), operator, self.text(scope) if not self.chance(0.01) else '1')

    def truth(self, scope, depth):
        if depth == 0 or self.chance(0.4):
            return self.comparison(scope, 1) if self.chance(0.9) else self.of('true', 'false', 'NULL', 's' if ('t', 't') in scope else 'true')
        kind = self.r.random()
        if kind < 0.35:
            return '%s AND %s' % (self.truth(scope, depth - 1), self.truth(scope, depth - 1))
        if kind < 0.7:
            return '(%s OR %s)' % (self.truth(scope, depth - 1), self.truth(scope, depth - 1))
        if kind < 0.82:
            return 'NOT (%s)' % self.truth(scope, depth - 1)
        return '%s IS %sNULL' % (self.of(self.column(scope, 'BIGINT'), self.integer(scope, 1)), self.of('', 'NOT '))

    def bound(self, scope, part, name, column):
        """A condition that bounds a column of a key, mostly."""
        number = dict(TABLES[name])[column] == 'BIGINT'
        operator = self.of('=', '>=', '<', *COMPARISONS)
        value = self.number() if number else self.of('current_user', *TEXTS)
        if self.chance(0.06):
            value = self.of('NULL', self.column(scope, 'BIGINT' if number else 'TEXT'))
        full = self.named(scope, part, column)
        return '%s %s %s' % ((full, operator, value) if self.chance(0.8) else (value, operator, full))

    def keyed(self, scope):
        """Conditions on the key of one of the tables."""
        part, name = self.r.choice(scope)
        wanted = [self.bound(scope, part, name, c) for c in KEYS[name] for _ in range(self.of(1, 1, 1, 2))]
        if self.chance(0.5):
            wanted = wanted[:1] if self.chance(0.7) else wanted[1:] or wanted
        if self.chance(0.3):
            wanted.insert(self.r.randint(0, len(wanted)), self.truth(scope, 1))
        return ' AND '.join(wanted)

    # ---- queries

    def joined(self, scope):
        sources = [name if part == name else name + self.of(' ', ' AS ') + part for part, name in scope]
        if len(scope) == 1 or self.chance(0.3):
            return ', '.join(sources)
        out = sources[0]
        for i in range(1, len(scope)):
            if self.chance(0.12):
                out += ' CROSS JOIN ' + sources[i]
            else:
                out += self.of(' JOIN ', ' INNER JOIN ') + sources[i] + ' ON ' + self.on(scope[:i + 1])
        return out

    def on(self, scope):
        kind = self.of('BIGINT', 'BIGINT', 'TEXT')
        if self.chance(0.25):
            return self.truth(scope, 1)
        operator = self.of('=', '=', *COMPARISONS)
        equal = '%s %s %s' % (self.column(scope, kind, scope[:-1]), operator, self.column(scope, kind, scope[-1:]))
        return equal if self.chance(0.7) else equal + ' AND ' + self.truth(scope, 1)

    def condition(self, scope):
        kind = self.r.random()
        if kind < (0.3 if len(scope) == 1 else 0.2):
            return ''
        return ' WHERE ' + (self.keyed(scope) if kind < 0.65 else self.truth(scope, 2))

    def listed(self, scope):
        if self.chance(0.2):
            return '*'
        items = [self.of(self.column(scope, 'BIGINT'), self.column(scope, 'TEXT'), self.integer(scope, 1), self.truth(scope, 0))
                 for _ in range(self.of(1, 1, 2, 3))]
        return ', '.join(items)

    def ordered(self, scope):
        if not self.chance(0.5):
            return ''
        keys = [self.of(self.column(scope, 'BIGINT'), self.column(scope, 'TEXT'), self.integer(scope, 1) + ' + 0', self.column(scope, 'BIGINT') + ' IS NULL')
                + self.of('', '', ' ASC', ' DESC') for _ in range(self.of(1, 1, 2))]
        return ' ORDER BY ' + ', '.join(keys)

    def query(self):
        count = self.of(1, 1, 1, 2, 2, 3)
        names = [self.of('t', 't', 'u', 'n', 'm') for _ in range(count)]
        parts = ['p', 'q', 'r'][:count] if count > 1 or self.chance(0.2) else names
        scope = list(zip(parts, names))
        source = self.joined(scope) + self.condition(scope)
        if self.chance(0.15):
            return 'SELECT count(*) FROM ' + source
        limit = ' LIMIT %d' % self.of(0, 1, 2, 3, 5, 100) if self.chance(0.3) else ''
        return 'SELECT ' + self.listed(scope) + ' FROM ' + source + self.ordered(scope) + limit

    def script(self, queries):
        lines = list(self.setup())
        return lines + [self.of('r: ', 'b: ') + self.query() for _ in range(queries)]


def append(path, lines):
    with open(path, 'a', encoding='utf-8', newline='') as file:
        file.write(''.join(line + '\n' for line in lines))


def main(seed, databases, queries, script, answers):
    for number in range(1, databases + 1):
        lines = Queries('%d %d' % (seed, number)).script(queries)
        append(script, ['new'] + lines)
        append(answers, model.run('\n'.join(lines)))


if __name__ == '__main__':
    sys.setrecursionlimit(100000)
    main(int(sys.argv[1]), int(sys.argv[2]), int(sys.argv[3]), sys.argv[4], sys.argv[5])
