#!/usr/bin/env python3
"""Passwords in clients/shell.py: python3 tests/test_shell_passwords.py

The program is the one in the environment variable GUARDDB, or else fake_guarddb.py.
"""
import contextlib
import io
import os
import re
import subprocess
import sys
import unittest
from unittest import mock

from program import PATIENCE, TOP, free_port, make_database
from test_passwords import SECRET, AtPlace, run_password
from test_shell import SHELL, Terminal, environment, told
import shell_password

REFUSED = 'ERROR:  28000 invalid_authorization_specification: password refused\n'
NOT_GIVEN = '{} asks for the password of {}: GUARDDB_PASSWORD has it, or a line of the file that GUARDDB_PASSFILE names.\n'
WHO = 'SELECT session_user'


class Files(unittest.TestCase):
    """Files of passwords."""

    def test_lines(self):
        for line, expected in [('a:b:c', ['a', 'b', 'c']), ('5433:ann:x y', ['5433', 'ann', 'x y']), (r'/a\:b:c\\d:e\:f\\', ['/a:b', r'c\d', 'e:f\\']), ('a:b:c:d', ['a', 'b', 'c']),
                               ('*:*: ', ['*', '*', ' ']), ('a:b:c\r', ['a', 'b', 'c']), ('a:b:#', ['a', 'b', '#']), ('a:b:c\\', ['a', 'b', 'c\\']), (r'a:b:\#', ['a', 'b', '#']),
                               ('#a:b:c', None), ('', None), ('a:b', None), ('a:b:', None), ('a', None), ('::c', ['', '', 'c'])]:
            with self.subTest(line):
                self.assertEqual(shell_password.fields(line), expected)

    def test_which_line_counts(self):
        here = os.path.join(os.getcwd(), 'sock')
        for place, role, lines, expected in [
                ('5433', 'ann', ['5433:bob:1', '5434:ann:2', '5433:ann:3', '5433:ann:4'], '3'), ('sock', 'ann', ['sock:ann:1'], '1'), ('sock', 'ann', [f'{here}:ann:1'], '1'),
                ('5433', 'ann', [os.path.join(os.getcwd(), '5433') + ':ann:1'], None), ('sock', 'ann', ['*:ann:1', 'sock:ann:2'], '1'), ('sock', 'ann', ['sock:*:1'], '1'),
                ('sock', 'ann', ['soc*:ann:1', 'sock:Ann:2', '#sock:ann:3', 'sock:ann', 'sock:ann:'], None), ('sock', '*', ['sock:ann:1'], None)]:
            with self.subTest(lines):
                found = [line for line in map(shell_password.fields, lines) if line and shell_password.is_for(line, place, role)]
                self.assertEqual(found[0][2] if found else None, expected)


class AtShell(AtPlace):
    """Ways to run the shell at places that ask for passwords."""

    def run_shell(self, *words, place=None, **given):
        """Runs the shell without a terminal, with more variables in its environment."""
        done = subprocess.run([sys.executable, SHELL, place or self.place, *words], encoding='utf-8', env={**environment(self.folder), **given}, cwd=self.folder,
                              stdin=subprocess.DEVNULL, capture_output=True, timeout=PATIENCE, start_new_session=True)
        self.assertNotIn(SECRET, done.stdout + done.stderr)
        return done.returncode, done.stdout, told(done.stderr)

    def passfile(self, *lines, mode=0o600):
        path = os.path.join(self.folder, 'passwords')
        with open(path, 'w', encoding='utf-8') as file:
            file.write(''.join(line + '\n' for line in lines))
        os.chmod(path, mode)
        return path

    def ask(self, role, **given):
        return self.run_shell('-A', role, '-c', WHO, **given)

    def terminal(self, *words, place=None, **given):
        with mock.patch('test_shell.environment', lambda folder: {**environment(folder), **given}):
            return Terminal([sys.executable, SHELL, place or self.place, *words], self.folder)

    def types(self, terminal, role, password, again, said, prompt):
        """Types a new password, twice."""
        terminal.until(f'New password of {role}: ')
        terminal.type(password + '\r')
        terminal.until('Again: ')
        terminal.type(again + '\r')
        terminal.until(f'\n{said}\n{prompt}')

    def history(self):
        with open(os.path.join(self.folder, 'history'), encoding='utf-8') as file:
            return file.read()

    def begins(self, terminal, role, password, prompt):
        terminal.until(f'Password of {role} at {self.place}: ')
        terminal.type(password + '\r')
        terminal.until(prompt)


class Shell(AtShell):
    """The shell at places that ask for passwords."""

    def test_from_the_environment(self):
        with self.served():
            self.assertEqual(self.ask('ann', GUARDDB_PASSWORD='ann' + SECRET), (0, 'ann\n', ''))
            self.assertEqual(self.ask('ann', GUARDDB_PASSWORD='bob' + SECRET), (3, '', REFUSED))
            self.assertEqual(self.ask('ann', GUARDDB_PASSWORD=SECRET + 'é'),
                             (3, '', 'No password was shown: a password has 1 to 1,024 characters of ASCII, from the space to the tilde.\n'))
            for given in {}, {'GUARDDB_PASSWORD': ''}:
                self.assertEqual(self.ask('ann', **given), (3, '', NOT_GIVEN.format(self.place, 'ann')))
            self.assertEqual(self.run_shell('-A', '-c', WHO, GUARDDB_PASSWORD=SECRET)[0], 3)     # no session

    def test_at_a_port(self):
        port = free_port()
        with self.served(port=port):
            self.assertEqual(self.run_shell('-A', 'ann', '-c', WHO, place=str(port), GUARDDB_PASSWORD='ann' + SECRET), (0, 'ann\n', ''))
            path = self.passfile(f'{port}:ann:ann{SECRET}'.replace('battery:', 'battery\\:'))
            self.assertEqual(self.run_shell('-A', 'ann', '-c', WHO, place=str(port), GUARDDB_PASSFILE=path), (0, 'ann\n', ''))

    def test_from_a_file(self):
        escaped = SECRET.replace(':', '\\:')
        with self.served():
            path = self.passfile('# of this machine', f'{self.place}:bob:bob{escaped}', f'*:ann:ann{escaped}')
            for role in ('ann', 'bob'):
                self.assertEqual(self.ask(role, GUARDDB_PASSFILE=path), (0, f'{role}\n', ''))
            self.assertEqual(self.ask('ann', GUARDDB_PASSFILE=path, GUARDDB_PASSWORD='x'), (3, '', REFUSED))      # which counts before it
            self.assertEqual(self.ask('cid', GUARDDB_PASSFILE=path), (3, '', NOT_GIVEN.format(self.place, 'cid')))
            for mode in (0o640, 0o604, 0o620, 0o660, 0o644, 0o601):
                self.assertEqual(self.ask('ann', GUARDDB_PASSFILE=self.passfile(f'*:ann:ann{escaped}', mode=mode)),
                                 (1, '', f'The file of passwords {path} has mode {mode:04o}, so that others may use it: chmod 0600 {path}\n'))
            self.assertEqual(self.ask('ann', GUARDDB_PASSFILE='none'), (1, '', 'The file of passwords none cannot be read: No such file or directory.\n'))
            self.assertEqual(self.ask('ann', GUARDDB_PASSFILE=self.passfile('*:ann:ä'))[0], 3)

    def test_places_that_ask_for_none(self):
        """A password that is given is shown there, and refused; over a file none is."""
        server = subprocess.Popen([*self.server(), '--connections', '3'], stdout=subprocess.DEVNULL, stderr=subprocess.PIPE, text=True)
        self.assertEqual(server.stderr.readline(), f'guarddb: listening on {self.place}\n')
        self.assertEqual(self.ask('ann', GUARDDB_PASSWORD=SECRET), (3, '', 'ERROR:  08P01 protocol_violation: password refused, since this place asks for none\n'))
        self.assertEqual(self.ask('ann'), (0, 'ann\n', ''))
        status, out, err = self.ask('nobody')
        self.assertEqual((status, out, err.partition('\n')[0]),
                         (3, '', 'ERROR:  28000 invalid_authorization_specification: a login that is no role, or one without LOGIN; or the session\'s login role is gone'))
        server.communicate(timeout=PATIENCE)
        self.assertEqual(self.run_shell('-A', 'ann', '-c', WHO, place=self.path, GUARDDB_PASSWORD=SECRET), (0, 'ann\n', ''))

    def server(self):
        return [os.environ.get('GUARDDB') or os.path.join(TOP, 'tests', 'fake_guarddb.py'), 'serve', self.path, '--socket', self.place]

    def test_what_is_started_has_no_password(self):
        with self.served():
            file = os.path.join(self.folder, 'environment')
            done = self.run_shell('ann', '-c', r'\e', GUARDDB_PASSWORD='ann' + SECRET)
            self.assertEqual(done[0], 3)
            terminal = self.terminal('ann', GUARDDB_PASSWORD='ann' + SECRET, EDITOR=f'env > {file}; true')
            with terminal:
                terminal.until('ann=> ')
                terminal.answer('\\e\r', 'ann=> ')
                terminal.type('\x04')
                self.assertEqual(terminal.end(), 0)
            with open(file, encoding='utf-8') as found:
                text = found.read()
            self.assertIn('GUARDDB_HISTORY', text)
            self.assertNotIn(SECRET, text)

    # -- in a terminal

    def test_it_is_typed(self):
        with self.served(), self.terminal('ann') as terminal:
            self.begins(terminal, 'ann', 'ann' + SECRET, 'ann=> ')
            self.assertIn(' ann\n', terminal.answer(WHO + ';\r', 'ann=> '))
            self.assertIn('Over this connection the password of ann was shown, and sessions are for that role alone.\n', terminal.answer('\\c bob\r', 'ann=> '))
            terminal.answer('\\close\r', '=> ')
            terminal.type('\\c bob\r')
            self.begins(terminal, 'bob', 'wrong' + SECRET, '=> ')
            self.assertIn(REFUSED, terminal.text())
            terminal.type('\\c bob\r')
            self.begins(terminal, 'bob', 'bob' + SECRET, 'bob=> ')
            terminal.type('\x04')
            self.assertEqual(terminal.end(), 0)
            self.assertNotIn(SECRET, terminal.text() + self.history())

    def test_it_is_wrong_at_the_start(self):
        for keys, status, told_then in ('wrong' + SECRET + '\r', 3, REFUSED), ('\r', 3, 'No password was shown: a password has'), ('\x04', 3, NOT_GIVEN.format(self.place, 'ann')):
            with self.served(), self.terminal('ann') as terminal:
                terminal.until(f'Password of ann at {self.place}: ')
                terminal.type(keys)
                self.assertEqual(terminal.end(), status)
                self.assertIn(told_then, terminal.text())
                self.assertNotIn(SECRET, terminal.text())

    def test_a_new_password(self):
        with self.served(), self.terminal('ann', GUARDDB_PASSWORD='ann' + SECRET) as terminal:
            terminal.until('ann=> ')
            self.assertIn('names the table of passwords', terminal.answer('\\password\r', 'ann=> '))
            for again, said in ('other' + SECRET, 'Nothing was changed: the second password is another one.'), ('new' + SECRET, 'ann has the new password.'):
                terminal.type('\\password ann logins\r')
                self.types(terminal, 'ann', 'new' + SECRET, again, said, 'ann=> ')
            terminal.answer('\\set PASSWORDS logins\r', 'ann=> ')
            terminal.type('\\password bob\r')
            self.types(terminal, 'bob', 'b' + SECRET, 'b' + SECRET, 'Nothing was changed: logins has no row of bob that this session may change.', 'ann=> ')
            terminal.answer('BEGIN;\r', 'ann=*> ')
            terminal.type('\\password\r')
            self.types(terminal, 'ann', 'late' + SECRET, 'late' + SECRET, 'ann has the new password once the block is committed.', 'ann=*> ')
            terminal.answer('ROLLBACK;\r', 'ann=> ')
            self.assertIn('28000', terminal.answer('\\c second ann\r', 'ann=> '))       # by what was shown before
            self.assertEqual(terminal.answer('\\p\r', 'ann=> ').split('\n')[1], 'Nothing is typed so far.')
            terminal.type('\x04')
            self.assertEqual(terminal.end(), 0)
            for kept in terminal.text(), self.history():
                self.assertNotIn(SECRET, kept)
                self.assertNotIn('SCRAM', kept)
                self.assertIn('\\password ann logins', kept)
            self.assertEqual([self.takes('ann', password + SECRET) for password in ('new', 'ann', 'late')], [True, False, False])

    def test_who_gives_up(self):
        with self.served(), self.terminal('ann', GUARDDB_PASSWORD='ann' + SECRET) as terminal:
            terminal.until('ann=> ')
            terminal.type('\\password ann logins\r')
            terminal.until('New password of ann: ')
            self.assertIn('Nothing was changed: ', terminal.answer('\x04', 'ann=> '))
            terminal.type('\\password ann logins\r')
            terminal.until('New password of ann: ')
            terminal.answer('\x03', 'ann=> ')
            self.assertIn(' ann\n', terminal.answer(WHO + ';\r', 'ann=> '))      # whose keys are echoed again
            self.assertIn(WHO, terminal.text())
            terminal.type('\x04')
            self.assertEqual(terminal.end(), 0)
            self.assertTrue(self.takes('ann', 'ann' + SECRET))

    def test_without_a_terminal(self):
        with self.served():
            self.assertEqual(self.run_shell('ann', '-c', r'\password ann logins', GUARDDB_PASSWORD='ann' + SECRET),
                             (3, '', 'Nothing was changed: \\password asks in a terminal.\n'))
            self.assertEqual(self.run_shell('-c', r'\password ann logins'), (3, '', 'No session is open: \\c ROLE opens one.\n'))


class Page(AtShell):
    """The examples of docs/passwords.md, with roles that have no password yet."""

    def block(self, kind, begin):
        with open(os.path.join(TOP, 'docs', 'passwords.md'), encoding='utf-8') as file:
            block, = [block for block in re.findall(rf'```{kind}\n(.*?)```', file.read(), re.S) if block.startswith(begin)]
        return block

    def setUp(self):
        super().setUp()
        self.statements = os.path.join(self.folder, 'logins.sql')
        with open(self.statements, 'w', encoding='utf-8') as file:
            file.write(self.block('sql', 'CREATE ROLE mock'))
        os.remove(self.path)
        make_database(self.path)
        status, _, err = self.run_shell('root', '-c', 'CREATE ROLE ann LOGIN', '-c', f"\\set mock '{run_password('--mock').stdout.strip()}'", '-f', self.statements,
                                        place=self.path)
        self.assertEqual((status, err), (0, ''))

    def test_the_table(self):
        with self.terminal('root', place=self.path) as terminal:
            terminal.until('root=> ')
            for role in ('root', 'ann'):
                terminal.type(f'\\password {role} logins\r')
                self.types(terminal, role, role + SECRET, role + SECRET, f'{role} has the new password.', 'root=> ')
            terminal.type('\x04')
            self.assertEqual(terminal.end(), 0)
        port, printed = free_port(), io.StringIO()
        with self.served(port=port), mock.patch.dict(os.environ, {'SHOP_PASSWORD': 'ann' + SECRET}), contextlib.redirect_stdout(printed):
            exec(self.block('python', 'import os').replace('connect(5433', f'connect({port}').replace('ann.ask(', 'print(ann.ask(').replace(')      ', '))      '), {})
        self.assertEqual(printed.getvalue(), "[['ann']]\n")

    def test_a_role_that_goes(self):
        self.assertEqual(self.run_shell('root', '-c', self.block('sql', 'BEGIN'), place=self.path), (0, 'BEGIN\nDELETE 1\nDROP ROLE\nCOMMIT\n', ''))
        with self.served():
            self.assertFalse(self.takes('ann', 'ann' + SECRET))


if __name__ == '__main__':
    unittest.main()
