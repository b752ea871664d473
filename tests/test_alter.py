#!/usr/bin/env python3
"""Tests of clients/alter.py: python3 tests/test_alter.py

The program is the one in the environment variable GUARDDB; without it nothing is tried.
"""
import itertools
import os
import shutil
import stat
import subprocess
import sys
import tempfile
import threading
import time
import types
import unittest

from program import IS_FAKE, PROGRAM, TOP, make_database, run
import alter
import guarddb_layout

ALTER = os.path.join(TOP, 'clients', 'alter.py')
WORDS = types.SimpleNamespace(table='notes', to=None, add=[], drop=[], rename=[], type=[], key=None, policy=[])
# A table with grants of three levels, PUBLIC and a role of that name, row security that is forced, and an owner without LOGIN.
MADE = r'''open r root
r: CREATE ROLE ann LOGIN
r: CREATE ROLE bob LOGIN
r: CREATE ROLE own
r: CREATE ROLE "PUBLIC"
r: CREATE ROLE eve LOGIN
r: GRANT own TO eve WITH ADMIN OPTION
r: CREATE TABLE other (z TEXT PRIMARY KEY)
r: GRANT SELECT ON other TO bob
r: SET ROLE own
r: CREATE TABLE notes (k BIGINT, tenant TEXT, note TEXT NOT NULL, done BOOLEAN, PRIMARY KEY (tenant, k))
r: GRANT SELECT ON notes TO PUBLIC
r: GRANT SELECT, UPDATE ON notes TO ann WITH GRANT OPTION
r: GRANT UPDATE (note), INSERT (k, tenant) ON notes TO "PUBLIC"
r: SET ROLE ann
r: GRANT SELECT, UPDATE (done) ON notes TO bob WITH GRANT OPTION
r: SET ROLE bob
r: GRANT SELECT ON notes TO "PUBLIC"
r: RESET ROLE
r: ALTER TABLE notes ENABLE ROW LEVEL SECURITY
r: ALTER TABLE notes FORCE ROW LEVEL SECURITY
r: CREATE POLICY own_rows ON notes USING (tenant = current_user)
r: CREATE POLICY few ON notes AS RESTRICTIVE FOR INSERT TO ann, bob WITH CHECK (k > 3)
r: INSERT INTO notes VALUES (1, 'ann', 'it''s', NULL), (2, 'bob', '12', true), (3, 'bob', '', false)
'''
ROWS = [['1', 'ann', "it's", r'\N'], ['2', 'bob', '12', 't'], ['3', 'bob', '', 'f']]


@unittest.skipIf(IS_FAKE, 'GUARDDB names no program')
class Alter(unittest.TestCase):
    def setUp(self):
        self.folder = tempfile.mkdtemp(prefix='guarddb-')
        self.addCleanup(shutil.rmtree, self.folder)
        self.file, self.new = (os.path.join(self.folder, name) for name in ('shop.db', 'new.db'))
        make_database(self.file, pages=128)
        answers = self.run_script(self.file, MADE)
        self.assertNotIn('refused', answers)
        self.bytes = self.read(self.file)

    def read(self, path):
        with open(path, 'rb') as file:
            return file.read()

    def run_script(self, path, script):
        name = os.path.join(self.folder, 'a.script')
        with open(name, 'w', encoding='utf-8') as file:
            file.write(script)
        status, answers, messages = run('run', path, name)
        self.assertEqual((status, messages), (0, ''))
        return answers

    def rows(self, path, table, columns='*'):
        answer = self.run_script(path, f'open r root\nr: SELECT {columns} FROM {table}\n').split('\n')
        self.assertTrue(answer[1].startswith('rows '), answer)
        return sorted(line.split('\t') for line in answer[2:-1])

    def alter(self, *words, table='notes'):
        """Runs the tool; its status, its output and its messages."""
        words = [sys.executable, ALTER, self.file, self.new, 'root', table, '--program', PROGRAM, *words]
        done = subprocess.run(words, capture_output=True, encoding='utf-8')
        return done.returncode, done.stdout, done.stderr

    def makes(self, *words, to='notes', columns='*', rows=None, lines=()):
        """NEW is made, with these rows, and nothing is told but these lines; FILE is as it was."""
        status, out, messages = self.alter(*words)
        self.assertEqual((status, messages), (0, ''))
        told = [*lines, f'3 rows of {to}: nothing else differs.', f'{self.file} may change from now on, and {self.new} does not know of it: '
                '--replace exchanges them.', '']
        self.assertEqual(out.split('\n'), told)
        self.assertEqual(self.rows(self.new, to, columns), rows or ROWS)
        self.assertEqual(self.read(self.file), self.bytes)
        found = guarddb_layout.described(self.new, PROGRAM)
        os.remove(self.new)
        return found

    def stops(self, status, message, *words, **more):
        """Nothing is made, and the message says why."""
        found, out, messages = self.alter(*words, **more)
        self.assertEqual((found, out), (status, ''))
        self.assertIn(message, messages)
        self.assertFalse(os.path.exists(self.new))
        self.assertEqual(self.read(self.file), self.bytes)

    def test_nothing_but_a_copy(self):
        before = guarddb_layout.described(self.file, PROGRAM)
        self.assertEqual(self.makes(), before)

    def test_columns_that_are_added(self):
        rows = [[*row, '', '7'] for row in ROWS]
        found = self.makes('--add', 'due TEXT', "''", '--add', '"A b" BIGINT NOT NULL', '3 + 4', rows=rows)
        self.assertEqual([row['column'] for row in found['columns'] if row['table'] == 'notes'], ['k', 'tenant', 'note', 'done', 'due', 'A b'])
        self.assertEqual(len(found['privileges']), len(guarddb_layout.described(self.file, PROGRAM)['privileges']))

    def test_columns_that_are_dropped_and_renamed(self):
        """What was granted on one that is dropped goes with it, and is told."""
        gone = 'The grant of UPDATE (done) to bob by ann goes with its column.'
        found = self.makes('--rename', 'note', 'text', '--drop', 'done', rows=[row[:3] for row in ROWS], lines=[gone])
        self.assertIn({'table': 'notes', 'column': 'text', 'privilege': 'UPDATE', 'to': 'PUBLIC', 'by': 'own', 'grant option': False}, found['privileges'])
        self.makes('--rename', 'note', 'done', '--rename', 'done', 'note', columns='k, tenant, done, note')

    def test_another_key_and_another_name(self):
        found = self.makes('--key', 'note', '--to', 'notes2', to='notes2')
        self.assertEqual([(row['column'], row['not null'], row['key']) for row in found['columns'] if row['table'] == 'notes2'],
                         [('k', True, None), ('tenant', True, None), ('note', True, 1), ('done', False, None)])
        self.stops(1, '23505', '--key', 'tenant')
        self.stops(1, '23502', '--key', 'done')

    def test_other_types(self):
        rows = [['1', 'ann', "it's", r'\N'], ['2', 'bob', '12', '1'], ['3', 'bob', '', '0']]
        self.makes('--type', 'done', 'BIGINT', rows=rows)
        rows = [['1', 'ann', "it's", r'\N'], ['2', 'bob', '12', 'true'], ['3', 'bob', '', 'false']]
        found = self.makes('--type', 'done', 'text', '--type', 'k', 'TEXT', '--policy', 'few', "WITH CHECK (k > '3')", rows=rows)
        self.assertEqual([row['with check'] for row in found['policies']], ["k > '3'", None])
        self.stops(1, "'it''s' of the column note is no BIGINT.", '--type', 'note', 'BIGINT')
        for kinds, value, expected in [('TEXT BIGINT', '-12', -12), ('TEXT BIGINT', '0', 0), ('TEXT BIGINT', '007', None), ('TEXT BIGINT', '', None),
                                       ('TEXT BOOLEAN', 'TRUE', True), ('TEXT BOOLEAN', 'yes', None), ('BIGINT BOOLEAN', 1, True),
                                       ('BIGINT BOOLEAN', 2, None), ('BIGINT TEXT', -5, '-5')]:
            with self.subTest(kinds, value=value):
                call = alter.CONVERTED[tuple(kinds.split())]
                if expected is None:
                    self.assertRaises((ValueError, KeyError), call, value)
                else:
                    self.assertEqual(call(value), expected)

    def test_policies_that_name_a_column(self):
        """They are told with their conditions, and have to be given anew."""
        told = "The policy own_rows names tenant: USING (tenant = current_user)\nGive each of them anew"
        for words in (['--rename', 'tenant', 'who'], ['--drop', 'tenant', '--key', 'k'], ['--drop', 'tenant', '--add', 'tenant TEXT', "''", '--key', 'k']):
            self.stops(2, told, *words)
        self.stops(2, 'The policy few names k: WITH CHECK (k > 3)\n', '--type', 'k', 'TEXT', '--rename', 'tenant', 'who', '--policy', 'own_rows', 'USING (true)')
        self.makes('--rename', 'tenant', 'who', '--policy', 'own_rows', 'USING (who = current_user)')
        self.stops(1, '42703', '--rename', 'tenant', 'who', '--policy', 'own_rows', 'USING (tenant = current_user)')

    def test_a_name_of_the_table_in_a_policy(self):
        self.run_script(self.file, 'open r root\nr: CREATE POLICY named ON notes USING (notes.k > 0)\n')
        self.bytes = self.read(self.file)
        self.stops(2, 'The policy named names notes: USING (notes.k > 0)', '--to', 'notes2')
        self.makes()

    def test_what_cannot_be(self):
        for status, message, *words in [
            (2, 'There is no column none.', '--drop', 'none'), (2, 'There is no column none.', '--rename', 'none', 'a'),
            (2, 'There would be two columns k.', '--add', 'k TEXT', '1'), (2, 'There would be two columns note.', '--rename', 'done', 'note'),
            (2, 'none of the key would be no column', '--key', 'none'), (2, 'x INT is no column', '--add', 'x INT', '1'),
            (2, 'There is a table other already.', '--to', 'other'), (2, 'FLOAT is no type.', '--type', 'done', 'FLOAT'),
            (2, 'There is no policy none.', '--policy', 'none', 'USING (true)'), (1, '42804', '--add', 'x TEXT', '1'),
            (1, '23502', '--add', 'x BIGINT NOT NULL', 'NULL'), (1, '42703', '--add', 'x BIGINT', 'k'), (1, 'guarddb copy failed', '--pages', '63'),
        ]:
            with self.subTest(words):
                self.stops(status, message, *words)
        self.stops(2, 'There is no table none.', table='none')
        with open(self.new, 'w', encoding='utf-8'):
            self.assertEqual(self.alter()[0], 2)

    def test_what_differs_is_told(self):
        """A grant that is missing, a policy that is another, and a role that is new."""
        description = guarddb_layout.described(self.file, PROGRAM)
        plan = alter.Plan(description, WORDS)
        self.assertEqual(plan.differences(description), [])
        other = {**description, 'privileges': description['privileges'][1:], 'roles': [*description['roles'], {'role': 'x'}],
                 'policies': [{**row, 'using': 'true'} for row in description['policies']]}
        self.assertEqual(sorted(line.split(' [')[0] for line in plan.differences(other)),
                         [*['lost: policies'] * 2, 'lost: privileges', *['new: policies'] * 2, 'new: roles'])

    def test_many_rows(self):
        rows = [', '.join(f"('{part}-{number}')" for number in range(200)) for part in range(10)]
        self.run_script(self.file, 'open r root\n' + ''.join(f'r: INSERT INTO other VALUES {part}\n' for part in rows))
        status, out, _ = self.alter('--add', 'n BIGINT', '5', table='other')
        self.assertEqual((status, out.split('\n')[0]), (0, '2000 rows of other: nothing else differs.'))
        self.assertEqual(self.rows(self.new, 'other'), [[*row, '5'] for row in self.rows(self.file, 'other')])

    def test_the_lock(self):
        """Under it the file is copied and described, and nobody writes it; over a file in use nothing is made."""
        script = os.path.join(self.folder, 'a.script')
        with alter.locked(self.file):
            self.assertEqual(run('run', self.file, script)[2].split('\n')[0], 'guarddb: InUse')
            self.assertEqual(run('copy', self.file, self.new, '--pages', '128')[0], 0)
            self.assertEqual(run('describe', self.file)[0], 0)
        self.assertEqual(run('run', self.file, script)[0], 0)
        os.remove(self.new)
        server = subprocess.Popen([PROGRAM, 'serve', self.file, '--socket', f'{self.folder}/at', '--connections', '1'], stderr=subprocess.PIPE)
        try:
            server.stderr.readline()
            self.bytes = self.read(self.file)
            self.stops(1, f'{self.file} is in use: end its server first.')
        finally:
            server.kill()
            server.communicate()

    def test_the_exchange(self):
        """The new file has the name, the mode and the journal of the old one, which is kept."""
        self.assertEqual(run('journal', self.file, 'on')[0], 0)
        os.chmod(self.file, 0o640)
        self.bytes = self.read(self.file)
        link = os.path.join(self.folder, 'link.db')
        os.symlink(self.file, link)
        self.file = link
        status, out, messages = self.alter('--add', 'due TEXT', "''", '--replace')
        self.file = os.path.realpath(link)
        self.assertEqual((status, messages), (0, ''))
        self.assertEqual(out.split('\n')[1], f'{self.file} is the new one, and {self.file}.before the old one.')
        self.assertEqual((self.read(f'{self.file}.before'), os.path.exists(self.new)), (self.bytes, False))
        self.assertEqual((stat.S_IMODE(os.stat(self.file).st_mode), alter.format_of(self.file)), (0o640, alter.WITH_JOURNAL))
        self.assertEqual(self.rows(self.file, 'notes'), [[*row, ''] for row in ROWS])
        self.bytes = self.read(self.file)
        self.stops(2, '.before is there already.', '--replace')

    def test_a_writer_beside_it(self):
        """Another program inserts row after row, over three exchanges: each row that was acknowledged is there in the end."""
        acknowledged, refused, is_over = [], [], threading.Event()
        script = os.path.join(self.folder, 'b.script')

        def write():
            for number in itertools.count(100):
                if is_over.is_set():
                    return
                with open(script, 'w', encoding='utf-8') as file:
                    file.write(f"open r root\nr: INSERT INTO notes (k, tenant, note) VALUES ({number}, 'x', 'x')\n")
                answer = run('run', self.file, script)
                (acknowledged if answer[1].endswith('ok INSERT 1\n') else refused).append((number, answer[2].split('\n')[0]))
                time.sleep(0.01)
        writer = threading.Thread(target=write)
        writer.start()
        try:
            for number in range(3):
                status, _, messages = self.alter('--add', f'due{number} BIGINT', str(number), '--replace')
                self.assertEqual((status, messages), (0, ''))
                os.remove(f'{self.file}.before')
        finally:
            is_over.set()
            writer.join()
        found = [int(row[0]) for row in self.rows(self.file, 'notes', 'k')]
        self.assertEqual(sorted(found), sorted([1, 2, 3, *(number for number, _ in acknowledged)]))
        self.assertEqual({message for _, message in refused}, {'guarddb: InUse'})
        self.assertGreater(len(acknowledged), 2)


if __name__ == '__main__':
    unittest.main()
