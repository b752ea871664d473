#!/usr/bin/env python3
"""Tests of describe --table, --powers and --since: python3 tests/test_powers.py

What the program tells is compared with a second program, the model below. It is written from PostgreSQL's manual ("Role Membership",
"Row Security Policies", GRANT, SET ROLE) and SQL:2016 ("Privileges"), and shares nothing with the program. It answers from the statements
that made a database, and from the definitions that `describe --json` tells of it.
The program is the one in the environment variable GUARDDB; without it nothing is tried.
"""
import collections
import json
import os
import random
import shutil
import subprocess
import tempfile
import unittest

from program import IS_FAKE, PROGRAM, make_database, run

ACTIONS = ('SELECT', 'INSERT', 'UPDATE', 'DELETE')
Role = collections.namedtuple('Role', 'superuser login bypassrls')
Policy = collections.namedtuple('Policy', 'kind command roles using check')
Grant = collections.namedtuple('Grant', 'action column to by option')      # to: None is PUBLIC; by: None is the system


class Model:
    """Roles, who is in whom, and one table with its grants and policies."""

    def __init__(self):
        self.roles = {'root': Role(True, True, False)}
        self.within = {}                       # (member, role): may grant it on
        self.owner, self.security, self.forced = 'root', False, False
        self.columns = ('k', 'tenant', 'note')
        self.grants, self.policies = [], {}
        self.known = {}                        # the roles that a role is in, where it was asked

    @classmethod
    def read(cls, told):
        """The same of a database with one table, by the definitions that `describe --json` tells of it."""
        model = cls()
        model.roles = {row['role']: Role(row['superuser'], row['login'], row['bypassrls']) for row in told['roles']}
        model.within = {(row['role'], row['in']): row['admin'] for row in told['memberships'] if row['through'] == row['in']}
        table, = told['tables']
        model.owner, model.security, model.forced = table['owner'], table['row security'], table['forced']
        model.columns = tuple(row['column'] for row in told['columns'])
        model.grants = [Grant(row['privilege'], row['column'], row['to'], row['by'], row['grant option']) for row in told['privileges']]
        model.policies = {row['policy']: Policy(row['kind'], row['command'], row['roles'] and tuple(row['roles']), row['using'], row['with check'])
                          for row in told['policies']}
        return model

    def facts(self):
        return (self.roles, self.within, self.owner, self.security, self.forced, self.columns, set(self.grants), self.policies)

    def reached(self, role):
        """The roles that a role is in, itself among them: a breadth-first walk."""
        if role in self.known:
            return self.known[role]
        seen, todo = {role}, [role]
        while todo:
            member = todo.pop(0)
            for other in sorted(group for one, group in self.within if one == member):
                if other not in seen:
                    seen.add(other)
                    todo.append(other)
        self.known[role] = seen
        return seen

    def ways(self, role, other):
        """The memberships on a chain from a role to another one."""
        return {(member, group) for member, group in self.within if member in self.reached(role) and other in self.reached(group)}

    def held(self, role, action):
        return [grant for grant in self.grants if grant.action == action and (grant.to is None or grant.to in self.reached(role))]

    def is_guarded(self, role):
        what = self.roles[role]
        exempt = what.superuser or what.bypassrls or (self.owner in self.reached(role) and not self.forced)
        return self.security and not exempt

    def has(self, role, action):
        """What a role has by itself: the columns (None: the whole table), the policies (None: no row security), and whether one asks
        who acts; nothing where it has not the action at all."""
        grants = self.held(role, action)
        whole = self.roles[role].superuser or any(grant.column is None for grant in grants)
        columns = None if whole else tuple(column for column in self.columns if any(grant.column == column for grant in grants))
        if columns == ():
            return None
        if not self.is_guarded(role):
            return columns, None, False
        names = tuple(name for name, policy in sorted(self.policies.items())
                      if policy.command in ('ALL', action) and (policy.roles is None or set(policy.roles) & self.reached(role)))
        asks = any('current_user' in (text or '') or 'MEMBER OF' in (text or '')
                   for name in names for text in (self.policies[name].using, self.policies[name].check))
        return columns, names, asks

    def differs(self, role, other):
        mine, others = ([self.has(one, action) for action in ACTIONS] for one in (role, other))
        return mine != others or self.is_guarded(role) != self.is_guarded(other) or any(has and has[2] for has in others)

    def access(self):
        """A row for each role, each as which it acts where that differs, and each action."""
        rows = set()
        for role, what in self.roles.items():
            others = set() if what.superuser else {other for other in self.reached(role) - {role} if self.differs(role, other)}
            for acting in {role} | others:
                by = frozenset() if acting == role else frozenset(self.ways(role, acting))
                rows |= {(role, acting, action, *self.has(acting, action), by) for action in ACTIONS if self.has(acting, action)}
        return rows

    def granted(self):
        return {(role, grant.action, grant.column, grant.to, grant.by, grant.option,
                 frozenset(self.ways(role, grant.to)) if grant.to else frozenset())
                for role in self.roles for action in ACTIONS for grant in self.held(role, action)}

    def becoming(self):
        return {(role, other, self.roles[other].superuser, self.roles[other].bypassrls, frozenset(self.ways(role, other)))
                for role, what in self.roles.items() if not what.superuser for other in self.reached(role) - {role}}

    def granting(self):
        """The privileges that whoever has them may grant on."""
        return {grant[:4] for grant in self.grants if grant.option}

    def lines(self):
        """What is compared of two databases: by what a line is about, what it says."""
        public = lambda to: 'PUBLIC' if to is None else as_read(to)
        absent = lambda name: '-' if name is None else as_read(name)
        lines = {f'roles: role {as_read(role)}': (what, role == self.owner) for role, what in self.roles.items()}
        lines |= {f'memberships: role {as_read(role)}, in {as_read(other)}': option for (role, other), option in self.within.items()}
        lines |= {f'may become: role {as_read(role)}, as {as_read(other)}': what for role, other, *what in self.becoming()}
        lines |= {'tables: table notes': (self.owner, self.security, self.forced)}
        lines |= {f'columns: table notes, column {as_read(column)}': None for column in self.columns}
        lines |= {f'privileges: table notes, column {absent(column)}, privilege {action}, to {public(to)}, by {absent(by)}': option
                  for action, column, to, by, option in self.grants}
        lines |= {f'policies: table notes, policy {as_read(name)}': policy for name, policy in self.policies.items()}
        lines |= {f'access: table notes, role {as_read(role)}, as {as_read(other)}, action {action}': what for role, other, action, *what in self.access()}
        lines |= {f'grants: table notes, role {as_read(role)}, action {action}, column {absent(column)}, to {public(to)}, by {absent(by)}': what
                  for role, action, column, to, by, *what in self.granted()}
        return lines

    def script(self):
        """The statements that make it, in an empty database of root."""
        lines = []
        for role, what in self.roles.items():
            if role != 'root':
                words = [word for word, has in zip(('SUPERUSER', 'LOGIN', 'BYPASSRLS'), what) if has]
                lines.append(' '.join([f'CREATE ROLE {role}', *words]))
        lines += [f'GRANT {group} TO {member}{" WITH ADMIN OPTION" * option}' for (member, group), option in self.within.items()]
        lines.append('CREATE TABLE notes (k BIGINT PRIMARY KEY, tenant TEXT, note TEXT)')
        for grant in self.grants:
            if grant.by:
                column = f' ({grant.column})' if grant.column else ''
                lines.append(f'GRANT {grant.action}{column} ON notes TO {grant.to or "PUBLIC"}{" WITH GRANT OPTION" * grant.option}')
        lines += ['ALTER TABLE notes ENABLE ROW LEVEL SECURITY'] * self.security
        lines += ['ALTER TABLE notes FORCE ROW LEVEL SECURITY'] * self.forced
        for name, policy in self.policies.items():
            roles = 'PUBLIC' if policy.roles is None else ', '.join(policy.roles)
            command = '' if policy.command == 'ALL' else f' FOR {policy.command}'
            using = f' USING ({policy.using})' if policy.using else ''
            check = f' WITH CHECK ({policy.check})' if policy.check else ''
            lines.append(f'CREATE POLICY {name} ON notes AS {policy.kind}{command} TO {roles}{using}{check}')
        return 'open r root\n' + ''.join(f'r: {line}\n' for line in lines)


def tenants(count):
    """The design of a service: each tenant is in the group `app`, and each has a login that is in the tenant; 2 * count + 2 roles."""
    model = Model()
    model.roles['app'] = Role(False, False, False)
    for number in range(count):
        tenant, login = f't{number:03}', f'u{number:03}'
        model.roles |= {tenant: Role(False, number % 7 == 0, False), login: Role(False, True, False)}
        model.within[tenant, 'app'] = False
        model.within[login, tenant] = number % 5 == 0
    model.security = True
    model.grants = [Grant(action, None, 'root', None, True) for action in ACTIONS]
    model.grants += [Grant('SELECT', None, 'app', 'root', False), Grant('INSERT', 'note', 'app', 'root', False),
                     Grant('SELECT', 'k', None, 'root', False), Grant('UPDATE', 'note', 't003', 'root', True)]
    model.policies = {'own': Policy('PERMISSIVE', 'ALL', ('app',), 'tenant = current_user', None),
                      'few': Policy('RESTRICTIVE', 'INSERT', None, None, 'k > 3'),
                      'third': Policy('PERMISSIVE', 'SELECT', ('t003',), 'true', None)}
    return model


def at_random(seed):
    """Some roles, memberships, grants and policies."""
    chance = random.Random(seed)
    model = Model()
    names = [f'r{number}' for number in range(9)]
    for name in names:
        model.roles[name] = Role(chance.random() < .1, chance.random() < .6, chance.random() < .1)
    for member in range(9):
        for group in range(member + 1, 9):
            if chance.random() < .25:
                model.within[names[member], names[group]] = chance.random() < .2
    model.security, model.forced = chance.random() < .8, chance.random() < .5
    model.grants = [Grant(action, None, 'root', None, True) for action in ACTIONS]
    for action in ACTIONS:
        for to in chance.sample([None, *names], 3):
            column = None if action == 'DELETE' else chance.choice((None, *model.columns))
            model.grants.append(Grant(action, column, to, 'root', to is not None and chance.random() < .3))
    texts = ('tenant = current_user', 'k > 3', "MEMBER OF ('r3')", 'tenant = session_user')
    for number in range(chance.randrange(5)):
        roles = None if chance.random() < .3 else tuple(sorted(chance.sample(names, 2)))
        command = chance.choice(('ALL', 'SELECT', 'UPDATE', 'INSERT'))
        text = chance.choice(texts[:2] + texts[3:])
        using, check = (None, text) if command == 'INSERT' else (text, None)
        model.policies[f'p{number}'] = Policy(chance.choice(('PERMISSIVE', 'RESTRICTIVE')), command, roles, using, check)
    return model


def pairs(ways):
    return frozenset(map(tuple, ways))


def in_columns(printed):
    """The sections of a text in columns: of each its rows, by the places of their heads."""
    sections = {}
    for part in printed[:-1].split('\n\n'):
        name, head, *rows = part.split('\n')
        at = [place for place in range(2, len(head)) if head[place] != ' ' and head[place - 2:place] == '  ']
        cut = lambda row: [row[a:b].rstrip() for a, b in zip(at, at[1:] + [None])]
        sections[name] = [dict(zip(cut(head), cut(row))) for row in rows]
    return sections


def as_read(value):
    """A value of JSON as it stands in columns; of null it is not said which."""
    if isinstance(value, bool):
        return 'yes' if value else 'no'
    if isinstance(value, list):
        return '(' + ', '.join(' in '.join(map(as_read, one)) if isinstance(one, list) else as_read(one) for one in value) + ')'
    if value.replace('_', 'a').isalnum() and value.isascii() and value != 'PUBLIC':
        return value
    escape = lambda byte: '\\' + chr(byte) if byte in b'"\\' else chr(byte) if 32 <= byte < 127 else f'\\x{byte:02x}'
    return '"' + ''.join(map(escape, value.encode())) + '"'


@unittest.skipIf(IS_FAKE, 'GUARDDB names no program')
class Powers(unittest.TestCase):
    def setUp(self):
        self.folder = tempfile.mkdtemp(prefix='guarddb-')
        self.addCleanup(shutil.rmtree, self.folder)

    def path(self, name):
        return os.path.join(self.folder, name)

    def make(self, script, name='a.db'):
        make_database(self.path(name), pages=1024)
        return self.change(script, name)

    def change(self, script, name='a.db'):
        with open(self.path('a.script'), 'w', encoding='utf-8') as file:
            file.write(script)
        status, answers, messages = run('run', self.path(name), self.path('a.script'))
        self.assertEqual((status, messages), (0, ''))
        self.assertNotIn('refused', answers)
        return self.path(name)

    def told(self, *words):
        status, printed, messages = run('describe', *words)
        self.assertEqual((status, messages), (0, ''))
        return printed

    def read(self, path):
        return Model.read(json.loads(self.told(path, '--json')))

    def is_told(self, model, path):
        """What the program tells is what the model says, and in columns it is the same; and so is what the model says of the definitions."""
        self.assertEqual(self.read(path).facts(), model.facts())
        printed = self.told(path, '--table', 'notes', '--json')
        told = json.loads(printed)
        access = {(row['role'], row['as'], row['action'], None if row['columns'] is None else tuple(row['columns']),
                   None if row['policies'] is None else tuple(row['policies']), row['asks who acts'], pairs(row['by'])) for row in told['access']}
        self.assertEqual(access, model.access())
        self.assertEqual(len(access), len(told['access']))
        granted = {(row['role'], row['action'], row['column'], row['to'], row['by'], row['grant option'], pairs(row['through']))
                   for row in told['grants']}
        self.assertEqual(granted, model.granted())
        powers = json.loads(self.told(path, '--powers', '--json'))
        self.assertEqual({row['role']: Role(row['superuser'], row['login'], row['bypassrls']) for row in powers['roles']}, model.roles)
        self.assertEqual({(row['role'], row['as'], row['superuser'], row['bypassrls'], pairs(row['by'])) for row in powers['may become']},
                         model.becoming())
        self.assertEqual({(row['role'], row['in']): row['admin option'] for row in powers['memberships']}, model.within)
        self.assertEqual({(row['privilege'], row['column'], row['to'], row['by']) for row in powers['privileges']}, model.granting())
        for words, sections in ((('--table', 'notes'), told), (('--powers',), powers)):
            self.same_in_columns(self.told(path, *words), sections)

    def same_in_columns(self, printed, sections):
        columns = in_columns(printed)
        self.assertEqual(list(columns), list(sections))
        for name, rows in sections.items():
            self.assertEqual(len(columns[name]), len(rows))
            for row, read in zip(rows, columns[name]):
                self.assertEqual(list(row), list(read))
                for head, value in row.items():
                    self.assertIn(read[head], ('-', 'PUBLIC') if value is None else (as_read(value),))

    def test_tenants_of_402_roles(self):
        model = tenants(200)
        self.assertEqual(len(model.roles), 402)
        path = self.make(model.script())
        self.is_told(model, path)
        # A policy that names the user tells rows apart as which nothing else differs: it is never folded away.
        self.assertIn(('u001', 't001', 'SELECT', None, ('own',), True, frozenset({('u001', 't001')})), model.access())

    def test_five_questions_of_402_roles(self):
        """What an auditor asks, in the words of docs/clients.md. One command answers each, as the second program does from the definitions."""
        path, old = self.make(tenants(200).script()), self.path('old.db')
        shutil.copy(path, old)
        self.change('open r root\nr: GRANT SELECT ON notes TO u009 WITH GRANT OPTION\nr: REVOKE SELECT (k) ON notes FROM PUBLIC\n'
                    'r: GRANT t004 TO u006 WITH ADMIN OPTION\nr: CREATE ROLE eve LOGIN BYPASSRLS\nr: GRANT eve TO t005\nr: DROP POLICY third ON notes\n'
                    'r: CREATE POLICY leak ON notes FOR SELECT TO t001 USING (true)\nr: ALTER TABLE notes FORCE ROW LEVEL SECURITY\n')
        model, before = self.read(path), self.read(old)
        table = json.loads(self.told(path, '--table', 'notes', '--json'))
        powers = json.loads(self.told(path, '--powers', '--json'))
        # Who may read a table, by itself and by SET ROLE, and under which policies?
        readers = {(row['role'], row['as'], row['policies'] and tuple(row['policies'])) for row in table['access'] if row['action'] == 'SELECT'}
        self.assertEqual(readers, {(role, acting, names) for role, acting, action, _, names, _, _ in model.access() if action == 'SELECT'})
        self.assertIn(('u001', 't001', ('leak', 'own')), readers)
        # By which grants has a role that, and through which memberships?
        through = {(row['action'], row['to'], row['by'], pairs(row['through'])) for row in table['grants'] if row['role'] == 'u003'}
        self.assertEqual(through, {(action, to, by, ways) for role, action, _, to, by, _, ways in model.granted() if role == 'u003'})
        self.assertIn(('UPDATE', 't003', 'root', frozenset({('u003', 't003')})), through)
        # Who comes to be a superuser, or free of row security, by SET ROLE?
        free = {(row['role'], row['as']) for row in powers['may become'] if row['superuser'] or row['bypassrls']}
        self.assertEqual(free, {(role, other) for role, other, superuser, bypassrls, _ in model.becoming() if superuser or bypassrls})
        self.assertEqual(free, {('t005', 'eve'), ('u005', 'eve')})
        # Who may pass on what it has: a role that it is in, and a privilege?
        passed = {(row['role'], row['in']) for row in powers['memberships'] if row['admin option']}
        self.assertEqual(passed, {one for one, option in model.within.items() if option})
        self.assertIn(('u006', 't004'), passed)
        self.assertIn(('SELECT', None, 'u009', 'root'), {(row['privilege'], row['column'], row['to'], row['by']) for row in powers['privileges']})
        self.assertEqual(len(powers['privileges']), len(model.granting()))
        # What has changed?
        status, printed, messages = run('describe', path, '--since', old, '--json')
        self.assertEqual((status, messages), (3, ''))
        was, now = before.lines(), model.lines()
        changes = {('gone', line) for line in was.keys() - now.keys()} | {('came', line) for line in now.keys() - was.keys()}
        changes |= {('changed', line) for line in was.keys() & now.keys() if was[line] != now[line]}
        self.assertEqual({(row['change'], row['of']) for row in json.loads(printed)['differences']}, changes)
        self.assertIn(('came', 'policies: table notes, policy leak'), changes)

    def test_at_random(self):
        for seed in range(30):
            with self.subTest(seed=seed):
                self.is_told(at_random(seed), self.make(at_random(seed).script(), f'{seed}.db'))

    def test_nothing_has_changed(self):
        path = self.make(tenants(4).script())
        shutil.copy(path, self.path('old.db'))
        self.assertEqual(run('describe', path, '--since', self.path('old.db')), (0, '', ''))
        status, printed, messages = run('describe', path, '--since', self.path('old.db'), '--json')
        self.assertEqual((status, json.loads(printed), messages), (0, {'differences': []}, ''))

    def test_each_change_is_a_line(self):
        path = self.make(tenants(4).script())
        shutil.copy(path, self.path('old.db'))
        for change, line in (
                ('CREATE ROLE eve', '+ roles: role eve; superuser no, login no, bypassrls no, owns ()'),
                ('GRANT app TO eve WITH ADMIN OPTION', '+ memberships: role eve, in app; admin option yes'),
                ('GRANT DELETE ON notes TO t001', '+ access: table notes, role t001, as t001, action DELETE; '
                 'columns -, policies (own), asks who acts yes, by ()'),
                ('REVOKE SELECT (k) ON notes FROM PUBLIC', '- privileges: table notes, column k, privilege SELECT, to PUBLIC, by root; '
                 'grant option no'),
                ('DROP POLICY third ON notes', '- policies: table notes, policy third; kind PERMISSIVE, command SELECT, roles (t003), '
                 'using true, with check -'),
                ('ALTER TABLE notes FORCE ROW LEVEL SECURITY', '~ tables: table notes; owner root, row security yes, forced no, key (k)'
                 ' -> owner root, row security yes, forced yes, key (k)')):
            with self.subTest(change=change):
                self.change(f'open r root\nr: {change}\n')
                status, printed, messages = run('describe', path, '--since', self.path('old.db'))
                self.assertEqual((status, messages), (3, ''))
                self.assertIn(line, printed.split('\n'))
        back, _, _ = run('describe', self.path('old.db'), '--since', path)
        self.assertEqual(back, 3)

    def test_lines_turn_the_old_ones_into_the_new_ones(self):
        one, other = self.make(at_random(1).script(), 'one.db'), self.make(at_random(2).script(), 'other.db')
        status, there, _ = run('describe', other, '--since', one, '--json')
        back_status, back, _ = run('describe', one, '--since', other, '--json')
        self.assertEqual((status, back_status), (3, 3))
        turned = {(row['of'], row['is'], row['was']) for row in json.loads(back)['differences']}
        self.assertEqual({(row['of'], row['was'], row['is']) for row in json.loads(there)['differences']}, turned)
        for row in json.loads(there)['differences']:
            self.assertEqual(row['change'], 'came' if row['was'] is None else 'gone' if row['is'] is None else 'changed')

    def test_hidden_characters_are_shown(self):
        names = ['a b', 'a  b', 'ab', 'a\u200bb', 'a\u202eb', 'PUBLIC', '-', 'a"b', 'a\\b', 'müller', 'a\tb']
        path = self.make('open r root\n' + ''.join('r: CREATE ROLE "%s"\n' % name.replace('"', '""') for name in names))
        printed = self.told(path, '--powers')
        self.assertTrue(printed.isascii())
        self.same_in_columns(printed, json.loads(self.told(path, '--powers', '--json')))
        shown = [row['role'] for row in in_columns(printed)['roles']]
        self.assertEqual(sorted(shown), sorted(map(as_read, [*names, 'root'])))
        self.assertEqual(len(set(shown)), len(names) + 1)

    def test_faults(self):
        path = self.make(tenants(4).script())
        about = 'guarddb: Statement\nguarddb: nothing: refused with 42P01, '
        status, printed, messages = run('describe', path, '--table', 'nothing')
        self.assertEqual((status, printed), (1, ''))
        self.assertTrue(messages.startswith(about), messages)
        missing = self.path('missing.db')
        for words, named in (((missing, '--powers'), missing), ((path, '--since', missing), missing), ((missing, '--since', path), missing)):
            status, printed, messages = run('describe', *words)
            self.assertEqual((status, printed), (1, ''))
            self.assertTrue(messages.startswith(f'guarddb: Device\nguarddb: {named}: '), messages)
        with open(self.path('text.db'), 'wb') as file:
            file.write(b'no database')
        status, printed, messages = run('describe', path, '--since', self.path('text.db'))
        self.assertEqual((status, printed), (1, ''))
        self.assertIn('text.db', messages)
        for words in (('bob', '--powers'), ('--table', 'notes', '--powers'), ('--table', 'notes', '--since', path), ('bob', '--since', path)):
            status, printed, messages = run('describe', path, *words)
            self.assertEqual((status, printed), (2, ''))
            self.assertIn('describe takes FILE, and at most one of ROLE, --table T, --powers and --since OLD', messages)

    def test_a_file_is_left_as_it_is(self):
        path = self.make(tenants(4).script())
        with open(path, 'rb') as file:
            before = file.read()
        for words in (('--table', 'notes'), ('--powers',), ('--since', path)):
            self.told(path, *words)
        with open(path, 'rb') as file:
            self.assertEqual(file.read(), before)

    def test_standard_output_that_takes_nothing(self):
        path = self.make(tenants(50).script())
        for words in (('--table', 'notes'), ('--powers',), ('--powers', '--json')):
            with open('/dev/full', 'wb') as full:
                done = subprocess.run([PROGRAM, 'describe', path, *words], stdout=full, stderr=subprocess.PIPE)
            self.assertEqual(done.returncode, 1)
            self.assertTrue(done.stderr.startswith(b'guarddb: Output\n'), done.stderr)
            reading, writing = os.pipe()
            os.close(reading)
            done = subprocess.run([PROGRAM, 'describe', path, *words], stdout=writing, stderr=subprocess.PIPE)
            os.close(writing)
            self.assertEqual((done.returncode, done.stderr), (1, b''))


if __name__ == '__main__':
    unittest.main()
