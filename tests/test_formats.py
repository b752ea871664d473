#!/usr/bin/env python3
"""Opens files of each format, and of later ones, that a second program wrote by docs/formats.md: python3 tests/test_formats.py

The files are those of tests/formats, which never change. Which of them a Guarddb opens, and as what it refuses the others, is what that
page says. The program is the one in the environment variable GUARDDB; without it only the files are compared.
"""
import os
import shutil
import tempfile
import unittest

from program import IS_FAKE, PATIENCE, free_port, run, served
import format_files
import guarddb

LATER = {'later_alone': 4, 'later_above_format_2': 4, 'later_above_format_3': 7, 'two_later': 5}
DAMAGED = ['later_below_format_2', 'later_of_the_wrong_sector', 'no_format']
KNOWN = {'format_1': 1, 'format_2': 2, 'format_3': 3}
QUESTION = 'open a ann\na: SELECT count(*) FROM t\n'


class Files(unittest.TestCase):
    def test_the_files_are_as_they_were(self):
        self.assertEqual(format_files.main(), 0)
        self.assertEqual(set(format_files.names()), {*LATER, *DAMAGED, *KNOWN})


@unittest.skipIf(IS_FAKE, 'GUARDDB names no program')
class Formats(unittest.TestCase):
    def setUp(self):
        self.folder = tempfile.mkdtemp(prefix='guarddb-')
        self.addCleanup(shutil.rmtree, self.folder)
        self.db = os.path.join(self.folder, 'db')

    def put(self, name):
        with open(self.db, 'wb') as file:
            file.write(format_files.bytes_of(name))

    def is_refused(self, name, fault, reason):
        """By each command over a file, which is not written."""
        self.put(name)
        told = (1, '', f'guarddb: {fault}\nguarddb: {self.db}: {reason}\n')
        other = os.path.join(self.folder, 'new')
        served = ('serve', self.db, '--port', str(free_port()), '--connections', '1')
        for words in (('check', self.db), ('describe', self.db), ('explain', self.db, 'root', 'SELECT 1'),
                      ('run', self.db, '/dev/null'), served, ('copy', self.db, other, '--pages', '64'), ('journal', self.db, 'on'),
                      ('journal', self.db, 'off')):
            with self.subTest(name, command=words[0]):
                self.assertEqual(run(*words), told)
        with open(self.db, 'rb') as file:
            self.assertEqual(file.read(), format_files.bytes_of(name))
        self.assertEqual(os.listdir(self.folder), ['db'])

    def test_later_formats(self):
        for name, form in LATER.items():
            self.is_refused(name, 'Format', f'of format {form}, and this guarddb knows 1 to 3; open it with the guarddb that made it, '
                                            'or restore a copy')

    def test_what_is_only_damaged(self):
        for name in DAMAGED:
            self.is_refused(name, 'Damaged', 'the database is damaged; restore it from a copy')

    def test_known_formats(self):
        for name, form in KNOWN.items():
            with self.subTest(name):
                self.put(name)
                status, printed, _ = run('run', self.db, '/dev/stdin', given=QUESTION)
                self.assertEqual((status, printed), (0, f'ok OPEN\nrows 1\n{2 if form == 3 else 3}\n'))
                self.assertEqual(run('check', self.db), (0, 'ok CHECK\n', ''))
                with open(self.db, 'rb') as file:
                    data = file.read()
                roots = [data[at:at + 512] for at in (0, 512)]
                newest = max(roots, key=lambda root: root[16:24])
                self.assertEqual(newest[11], max(form, 2))
                if form > 1:
                    self.assertEqual(data, format_files.bytes_of(name))

    def form(self, path):
        """The format of a file."""
        with open(path, 'rb') as file:
            roots = file.read(512), file.read(512)
        return max(roots, key=lambda root: root[16:24])[11]

    def test_each_command_over_each_format(self):
        """Whether it goes, of which format the file is then, and of which a copy is; a file that keeps its format keeps each byte."""
        new = os.path.join(self.folder, 'new')
        copies = [(('copy', self.db, new, '--pages', '64', *more), None, form) for more, form in (((), 2), (('--journal',), 3))]
        for name, known in KNOWN.items():
            for words, becomes, copied in [
                    (('run', self.db, '/dev/null'), max(known, 2), None), (('check', self.db), max(known, 2), None),
                    (('describe', self.db), known, None), (('explain', self.db, 'ann', 'SELECT k FROM t'), known, None), *copies,
                    (('journal', self.db, 'on'), 3 if known > 1 else None, None), (('journal', self.db, 'off'), min(known, 2), None)]:
                with self.subTest(name, words=words):
                    self.put(name)
                    status, _, messages = run(*words)
                    if becomes is None and copied is None:
                        self.assertEqual((status, messages.splitlines()[0]), (1, 'guarddb: Format'))
                    else:
                        self.assertEqual((status, messages.count('of format 1 and is of format 2')), (0, becomes == 2 and known == 1))
                    self.assertEqual(self.form(self.db), becomes or known)
                    if becomes in (None, known):
                        with open(self.db, 'rb') as file:
                            self.assertEqual(file.read(), format_files.bytes_of(name))
                    if copied:
                        self.assertEqual(self.form(new), copied)
                        os.remove(new)
            self.put(name)
            with served(self.db) as place, guarddb.connect(place, wait=PATIENCE, timeout=PATIENCE) as connection:
                connection.open('ann')
            self.assertEqual(self.form(self.db), max(known, 2))


if __name__ == '__main__':
    unittest.main()
