#!/usr/bin/env python3
"""Tests of `guarddb explain` by what is to be told of statements over one database: python3 tests/test_explanations.py

What is expected was derived by hand from docs/sql.md, "Row policies": which policies bound the first column of a key, and which do
not. The program is the one in the environment variable GUARDDB; without it nothing is tried.
"""
import json
import os
import shutil
import tempfile
import unittest

from program import IS_FAKE, PATIENCE, make_database, run, served
import guarddb

# The tables of a service: each has the tenant first in its key, but for `late`.
TABLES = '''open r root
r: CREATE ROLE ann LOGIN
r: CREATE ROLE app LOGIN
r: CREATE ROLE staff
r: CREATE ROLE crew
r: GRANT ann TO app
r: GRANT staff, crew TO ann
r: CREATE TABLE notes (tenant TEXT, k BIGINT, x BIGINT, note TEXT, PRIMARY KEY (tenant, k))
r: CREATE TABLE lines (tenant TEXT, note BIGINT, n BIGINT, x BIGINT, PRIMARY KEY (tenant, note, n))
r: CREATE TABLE late (k BIGINT, tenant TEXT, PRIMARY KEY (k, tenant))
r: CREATE TABLE plain (k BIGINT PRIMARY KEY, "Odd name" TEXT, yes BOOLEAN)
r: GRANT ALL ON notes TO ann
r: GRANT ALL ON lines TO ann
r: GRANT ALL ON late TO ann
r: GRANT ALL ON plain TO ann
r: GRANT SELECT ON notes TO staff
r: GRANT SELECT ON plain TO staff
r: ALTER TABLE notes ENABLE ROW LEVEL SECURITY
r: ALTER TABLE lines ENABLE ROW LEVEL SECURITY
r: ALTER TABLE late ENABLE ROW LEVEL SECURITY
'''
OWN = ['notes', 'own', 'SELECT', 'PERMISSIVE', 'tenant = current_user', True, False]


@unittest.skipIf(IS_FAKE, 'GUARDDB names no program')
class Explanations(unittest.TestCase):
    def setUp(self):
        self.folder = tempfile.mkdtemp(prefix='guarddb-')
        self.addCleanup(shutil.rmtree, self.folder)
        self.path = os.path.join(self.folder, 'db')
        make_database(self.path)
        self.defines(TABLES)

    def defines(self, text):
        """Runs the lines of a script, of which none is refused."""
        script = os.path.join(self.folder, 'script')
        with open(script, 'w', encoding='utf-8') as file:
            file.write(text)
        status, answers, messages = run('run', self.path, script, '--stop')
        self.assertEqual((status, messages), (0, ''), answers)

    def policies(self, *texts):
        self.defines('open r root\n' + ''.join(f'r: CREATE POLICY {text}\n' for text in texts))

    def explained(self, role, statement, *words):
        with open(self.path, 'rb') as file:
            before = file.read()
        status, text, messages = run('explain', self.path, role, statement, '--json', *words)
        self.assertEqual((status, messages), (0, ''))
        with open(self.path, 'rb') as file:
            self.assertEqual(file.read(), before)
        found = json.loads(text)
        self.assertEqual(text, json.dumps(found, indent=2, sort_keys=True) + '\n')
        return found

    def reads(self, role, statement, *expected, words=()):
        """How each table is read: its name, the reading, why a whole one is read, and its keys."""
        found = self.explained(role, statement, *words)
        told = [(row['name'], row['reading'], row['why'], *[keys['keys'] for keys in found['ranges'] if keys['name'] == row['name']])
                for row in found['tables']]
        self.assertEqual(told, list(expected))

    def asked(self, role, statement):
        heads = ['name', 'policy', 'command', 'kind', 'condition', 'bounds', 'may fail']
        return [[row[head] for head in heads] for row in self.explained(role, statement)['conditions']]

    def test_a_policy_that_bounds(self):
        self.policies('own ON notes USING (tenant = current_user)')
        self.reads('ann', 'SELECT count(*) FROM notes', ('notes', 'span', None, "tenant = 'ann'"))
        self.reads('ann', 'SELECT * FROM notes WHERE k = 5', ('notes', 'look-up', None, "tenant = 'ann' AND k = 5"))
        self.reads('ann', 'SELECT * FROM notes WHERE k >= 5', ('notes', 'span', None, "tenant = 'ann' AND k >= 5"))
        self.reads('ann', 'SELECT * FROM notes WHERE k > 5 AND k < 9', ('notes', 'span', None, "tenant = 'ann' AND k >= 5 AND k <= 9"))
        self.reads('ann', 'UPDATE notes SET x = 1', ('notes', 'span', None, "tenant = 'ann'"))
        self.reads('ann', 'DELETE FROM notes WHERE k = -7', ('notes', 'look-up', None, "tenant = 'ann' AND k = -7"))
        self.assertEqual(self.asked('ann', 'SELECT * FROM notes WHERE k = 5'), [OWN, ['notes', None, None, None, 'k = 5', False, False]])

    def test_who_acts(self):
        """The current role is the one that SET ROLE has set: its policies count, and CURRENT_USER is its name."""
        self.policies('own ON notes TO ann USING (tenant = current_user OR tenant = session_user)')
        self.reads('ann', 'SELECT * FROM notes', ('notes', 'span', None, "tenant = 'ann'"))
        self.reads('ann', 'SELECT * FROM notes', ('notes', '2 spans', None, "tenant = 'ann'", "tenant = 'app'"), words=('--session', 'app'))
        self.reads('app', 'SELECT * FROM notes', ('notes', 'span', None, "tenant = 'app'"), words=('--session', 'app'))
        self.reads('staff', 'SELECT * FROM notes', ('notes', 'no key', None))
        self.assertEqual(self.explained('ann', 'SELECT 1', '--session', 'app')['statement'], [{'command': 'SELECT', 'role': 'ann', 'session': 'app'}])
        self.assertEqual(self.explained('ann', 'SELECT 1')['statement'], [{'command': 'SELECT', 'role': 'ann', 'session': 'ann'}])

    def test_members(self):
        self.policies('teams ON notes USING (MEMBER OF tenant)')
        self.reads('ann', 'SELECT * FROM notes', ('notes', '3 spans', None, "tenant = 'ann'", "tenant = 'crew'", "tenant = 'staff'"))
        self.reads('ann', 'SELECT * FROM notes WHERE k = 1',
                   ('notes', '3 spans', None, "tenant = 'ann' AND k = 1", "tenant = 'crew' AND k = 1", "tenant = 'staff' AND k = 1"))

    def test_permissive_and_restrictive(self):
        """Permissive policies count as joined by OR, restrictive ones as joined by AND; each kind is asked by its names."""
        self.policies('own ON notes USING (tenant = current_user)', "shared ON notes USING (tenant = 'all')",
                      'few ON notes AS RESTRICTIVE USING (k < 100)')
        self.reads('ann', 'SELECT * FROM notes', ('notes', '2 spans', None, "tenant = 'all' AND k <= 100", "tenant = 'ann' AND k <= 100"))
        self.assertEqual(self.asked('ann', 'SELECT * FROM notes'), [
            OWN, ['notes', 'shared', 'SELECT', 'PERMISSIVE', "tenant = 'all'", True, False],
            ['notes', 'few', 'SELECT', 'RESTRICTIVE', 'k < 100', False, False]])
        self.policies('every ON notes USING (true)')
        self.reads('ann', 'SELECT * FROM notes', ('notes', 'whole table', 'nothing bounds tenant'))
        self.policies('mine ON notes AS RESTRICTIVE USING (tenant = current_user)')
        self.reads('ann', 'SELECT * FROM notes', ('notes', 'span', None, "tenant = 'ann' AND k <= 100"))

    def test_no_policy_applies(self):
        self.reads('ann', 'SELECT * FROM notes', ('notes', 'no key', None))
        self.policies('own ON notes FOR INSERT WITH CHECK (tenant = current_user)')
        self.reads('ann', 'SELECT * FROM notes', ('notes', 'no key', None))
        self.reads('ann', 'SELECT * FROM plain WHERE false', ('plain', 'no key', None))

    def test_what_does_not_bound(self):
        for condition in ("tenant <> 'bob'", "NOT tenant = 'bob'", 'x = 1', 'k = 1', 'tenant IS NOT NULL', 'tenant = note',
                          "tenant = 'ann' OR x = 1", 'true'):
            with self.subTest(condition):
                self.policies(f'own ON notes USING ({condition})')
                self.reads('ann', 'SELECT * FROM notes', ('notes', 'whole table', 'nothing bounds tenant'))
                self.assertEqual(self.asked('ann', 'SELECT * FROM notes'), [['notes', 'own', 'SELECT', 'PERMISSIVE', condition, False, False]])
                self.defines('open r root\nr: DROP POLICY own ON notes\n')
        self.policies('own ON late USING (tenant = current_user)')
        self.reads('ann', 'SELECT * FROM late', ('late', 'whole table', 'nothing bounds k'))
        self.reads('ann', 'SELECT * FROM late WHERE k = 3', ('late', 'look-up', None, "k = 3 AND tenant = 'ann'"))

    def test_what_may_fail(self):
        """What is asked behind arithmetic bounds nothing, also where it would bound by itself."""
        self.policies('every ON notes USING (true)', 'ratio ON notes AS RESTRICTIVE USING (10 / x > 1)',
                      'tenants ON notes AS RESTRICTIVE USING (tenant = current_user)')
        why = 'nothing bounds tenant behind policy ratio, which may fail'
        self.reads('ann', "SELECT * FROM notes WHERE tenant = 'ann'", ('notes', 'whole table', why))
        self.assertEqual(self.asked('ann', "SELECT * FROM notes WHERE tenant = 'ann'"), [
            ['notes', 'every', 'SELECT', 'PERMISSIVE', 'true', False, False], ['notes', 'ratio', 'SELECT', 'RESTRICTIVE', '10 / x > 1', False, True],
            ['notes', 'tenants', 'SELECT', 'RESTRICTIVE', 'tenant = current_user', True, False],
            ['notes', None, None, None, "tenant = 'ann'", True, False]])
        self.defines('open r root\nr: DROP POLICY every ON notes\n')
        self.policies('every ON notes USING (tenant = current_user)')
        self.reads('ann', 'SELECT * FROM notes', ('notes', 'span', None, "tenant = 'ann'"))
        self.reads('ann', 'SELECT * FROM plain WHERE 100 / k > 3 AND k = 5', ('plain', 'whole table', 'nothing bounds k behind 100 / k > 3 AND k = 5, which may fail'))
        self.reads('ann', 'SELECT * FROM plain WHERE k = 5 AND 100 / k > 3', ('plain', 'look-up', None, 'k = 5'))

    def test_whom_row_security_guards(self):
        self.policies('own ON notes USING (tenant = current_user)')
        self.reads('root', 'SELECT * FROM notes', ('notes', 'whole table', 'nothing bounds tenant'))
        self.assertEqual(self.explained('root', 'SELECT * FROM notes')['tables'][0]['guarded'], False)
        self.assertEqual(self.explained('ann', 'SELECT * FROM notes')['tables'][0]['guarded'], True)
        self.assertEqual(self.asked('root', 'SELECT * FROM notes'), [])

    def test_actions(self):
        """UPDATE and DELETE that read are asked the policies of SELECT, too, behind their own."""
        self.policies('seen ON notes FOR SELECT USING (k < 9)', 'changed ON notes FOR UPDATE USING (tenant = current_user)')
        self.reads('ann', 'UPDATE notes SET x = 1', ('notes', 'span', None, "tenant = 'ann'"))
        self.reads('ann', 'UPDATE notes SET x = k', ('notes', 'span', None, "tenant = 'ann' AND k <= 9"))
        self.assertEqual([row[1:3] for row in self.asked('ann', 'UPDATE notes SET x = k')], [['changed', 'UPDATE'], ['seen', 'SELECT']])
        self.reads('ann', 'DELETE FROM notes', ('notes', 'no key', None))
        self.policies('added ON notes FOR INSERT WITH CHECK (10 / x > 1)')
        self.reads('ann', "INSERT INTO notes VALUES ('ann', 1, 2, NULL)", ('notes', 'look-ups of new keys', None))
        self.assertEqual(self.asked('ann', "INSERT INTO notes VALUES ('ann', 1, 2, NULL)"), [
            ['notes', 'added', 'INSERT', 'PERMISSIVE', '10 / x > 1', None, True]])

    def test_joins(self):
        self.policies('own ON notes USING (tenant = current_user)', 'own ON lines USING (tenant = current_user)')
        self.reads('ann', 'SELECT l.x FROM notes a JOIN lines l ON l.note = a.k WHERE a.k = 3',
                   ('a', 'look-up', None, "tenant = 'ann' AND k = 3"), ('l', 'span', None, "tenant = 'ann'"))
        self.reads('ann', 'SELECT l.x FROM notes a JOIN lines l ON l.tenant = a.tenant AND l.note = a.k',
                   ('a', 'span', None, "tenant = 'ann'"), ('l', 'look-ups behind rows', None, "tenant = 'ann'"))
        self.assertEqual([row[4] for row in self.asked('ann', 'SELECT l.x FROM notes a JOIN lines l ON l.note = a.k WHERE a.k = 3')],
                         ['tenant = current_user', 'l.note = a.k', 'a.k = 3'] * 2)
        self.reads('ann', 'SELECT 1 + 2')

    def test_spans(self):
        """Spans that touch are one, from the least key to the greatest; others stand in the order of their keys."""
        of_plain = [('k = 7 OR k = 1 OR k = 7', '2 spans', 'k = 1', 'k = 7'), ('k < 3 OR k > 8 OR k = 2', '2 spans', 'k <= 3', 'k >= 8'),
                    ('k < 9 OR k > 3', 'span', 'all keys'), ('k = 1 AND k = 2 OR false', 'no key'), ('-5 < k', 'span', 'k >= -5')]
        for condition, reading, *keys in of_plain:
            with self.subTest(condition):
                self.reads('ann', f'SELECT * FROM plain WHERE {condition}', ('plain', reading, None, *keys))
        self.reads('root', "SELECT * FROM notes WHERE tenant = 'a' AND k >= 3 OR tenant >= 'a' AND tenant <= 'b'",
                   ('notes', 'span', None, "tenant >= 'a' AND tenant <= 'b'"))
        self.reads('root', "SELECT * FROM lines WHERE tenant = 'a' AND note = 3 AND n >= 4 OR tenant = 'a' AND note = 3 AND n <= 4",
                   ('lines', 'span', None, "tenant = 'a' AND note = 3"))
        self.reads('root', "SELECT * FROM notes WHERE tenant = 'it''s'", ('notes', 'span', None, "tenant = 'it''s'"))

    def test_expressions(self):
        for written, told in (('"Odd name" = \'x\' AND yes', '"Odd name" = \'x\' AND yes'), ('NOT (yes OR k IS NULL)', 'NOT (yes OR k IS NULL)'),
                              ('(k + 1) * 2 = - (k - (3 - 1))', '(k + 1) * 2 = - (k - (3 - 1))'), ('MEMBER OF "Odd name"', 'MEMBER OF "Odd name"'),
                              ('k != 1 OR k % 2 <> 0 AND yes IS NOT NULL', 'k <> 1 OR k % 2 <> 0 AND yes IS NOT NULL'),
                              ('((k = 1) IS NULL) = (NULL IS NULL)', '(k = 1 IS NULL) = (NULL IS NULL)'), ('session_user = current_user', 'SESSION_USER = CURRENT_USER')):
            with self.subTest(written):
                self.assertEqual(self.asked('ann', f'SELECT k FROM plain WHERE {written}')[0][4], told)
                self.assertEqual(self.asked('ann', f'SELECT k FROM plain WHERE {told}')[0][4], told)

    def test_columns(self):
        """The same as text in columns."""
        self.policies('own ON notes USING (tenant = current_user)', 'few ON notes AS RESTRICTIVE USING (10 / x > 1)')
        status, text, messages = run('explain', self.path, 'ann', 'SELECT n.note FROM notes n WHERE k = 1', '--session', 'app')
        self.assertEqual((status, messages), (0, ''))
        self.assertEqual(text, '''statement
  command  role  session
  SELECT   ann   app

tables
  name  table  key        guarded  reading  why
  n     notes  tenant, k  yes      span     -

ranges
  name  keys
  n     tenant = 'ann'

conditions
  name  policy  command  kind         condition              bounds  may fail
  n     own     SELECT   PERMISSIVE   tenant = current_user  yes     no
  n     few     SELECT   RESTRICTIVE  10 / x > 1             no      yes
  n     -       -        -            k = 1                  no      no
''')

    def test_refusals(self):
        """A statement is refused as in a session, before it reads a row; nothing is printed."""
        about = {'SELECT * FROM nothing': '42P01, no such table', 'SELECT y FROM notes': '42703, no such column', 'SELEC': '42601',
                 'SELECT * FROM lines': '42501', "SELECT * FROM plain WHERE k = 'a'": '42804'}
        for statement, reason in about.items():
            with self.subTest(statement):
                status, text, messages = run('explain', self.path, 'staff', statement)
                self.assertEqual((status, text), (1, ''))
                self.assertTrue(messages.startswith(f'guarddb: Statement\nguarddb: the statement: refused with {reason}'), messages)
        for statement in ('BEGIN', 'DROP TABLE notes', 'SET ROLE ann'):
            told = 'guarddb: Statement\nguarddb: the statement: no SELECT, INSERT, UPDATE or DELETE\n'
            self.assertEqual(run('explain', self.path, 'ann', statement), (1, '', told))
        self.assertEqual(run('explain', self.path, 'ann', 'SELECT 1 / 0')[0], 0)        # it fails as it is run

    def test_faults(self):
        none = os.path.join(self.folder, 'none')
        for words, about, name, reason in (
                ((self.path, 'eve', 'SELECT 1'), 'eve', 'NoRole', 'no role of the database has this name'),
                ((self.path, 'ann', 'SELECT 1', '--session', 'eve'), 'eve', 'NoRole', 'no role of the database has this name'),
                ((none, 'ann', 'SELECT 1'), none, 'Device', 'no such file or folder')):
            with self.subTest(words):
                self.assertEqual(run('explain', *words), (1, '', f'guarddb: {name}\nguarddb: {about}: {reason}\n'))
        self.assertEqual(run('explain', self.path, 'ann')[0], 2)
        with served(self.path) as port, guarddb.connect(port, wait=PATIENCE, timeout=PATIENCE) as connection:
            connection.open('root')
            self.assertEqual(run('explain', self.path, 'ann', 'SELECT 1'),
                             (1, '', f'guarddb: InUse\nguarddb: {self.path}: another process has it open\n'))


if __name__ == '__main__':
    unittest.main()
