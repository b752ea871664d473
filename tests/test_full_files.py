#!/usr/bin/env python3
"""Tests of files that are full, with a journal and without: python3 tests/test_full_files.py

A file of 64 pages is filled by INSERTs, until each that is left is answered by 53100. It stays so, or rows of some pages are deleted.
Its copy is the same, but that it has a journal where the file has none. Then rows that lie scattered over the table are changed, by
seven UPDATEs in each of 200 rounds. With a journal none of them is answered by 53100 that is carried out without one. Keys come in
their order, or in none; an UPDATE of a full file changes a row or two, and another as many as there may be pages for. The program is
the one in the environment variable GUARDDB; without it nothing is tried.
"""
import itertools
import os
import random
import shutil
import tempfile
import unittest

from program import IS_FAKE, make_database, run

PAGES = 64
ROUNDS, CHANGED = 200, 7
SIZES = [200, 300, 450]     # of the values, in bytes
FREED, TOGETHER = 12, 24    # how many pages the rows take that are deleted, and how many rows an UPDATE changes at most
REFUSAL = 'refused 53100'
OPEN = 'open r root'
TABLE = 'r: CREATE TABLE t (k BIGINT PRIMARY KEY, v TEXT)'


def insert(size, key):
    return f"r: INSERT INTO t VALUES ({key}, '{'a' * size}')"


def deletes(size, rows):
    """Removes rows of some pages from the middle of the table. These lines, and what is left."""
    count = FREED * 4096 // size
    low = len(rows) // 2 - count // 2
    return [f'r: DELETE FROM t WHERE k = {key}' for key in rows[low:low + count]], rows[:low] + rows[low + count:]


def update(size, keys, letter):
    return f"r: UPDATE t SET v = '{letter * size}' WHERE " + ' OR '.join(f'k = {key}' for key in keys)


@unittest.skipIf(IS_FAKE, 'GUARDDB names no program')
class FullFiles(unittest.TestCase):
    def setUp(self):
        memory = '/dev/shm' if os.path.isdir('/dev/shm') else None      # where a sync takes no time
        self.folder = tempfile.mkdtemp(prefix='guarddb-', dir=memory)
        self.addCleanup(shutil.rmtree, self.folder)

    def path(self):
        return os.path.join(tempfile.mkdtemp(dir=self.folder), 'db')

    def answers(self, path, lines):
        """The answers to the lines of a script over a file, each in a line, but for that to its first line."""
        script = os.path.join(self.folder, 'script')
        with open(script, 'w', encoding='utf-8') as file:
            file.write('\n'.join([OPEN, *lines, '']))
        status, answers, messages = run('run', path, script)
        self.assertEqual((status, messages), (0, ''))
        return answers.splitlines()[1:]

    def filled(self, size, keys, journal):
        """A file that is full, and the keys of the rows that it took."""
        path = self.path()
        make_database(path, PAGES, journal=journal)
        answers = self.answers(path, [TABLE, *(insert(size, key) for key in keys)])[1:]
        self.assertEqual(set(answers), {'ok INSERT 1', REFUSAL})
        return path, sorted(key for key, answer in zip(keys, answers) if answer != REFUSAL)

    def freed(self, path, size, rows):
        """Frees some pages of a file. The rows that are left."""
        lines, left = deletes(size, rows)
        self.assertEqual(set(self.answers(path, lines)), {'ok DELETE 1'})
        return left

    def changed(self, path, size, rows, updates):
        """Which of these UPDATEs a file takes. It has these rows then, with the changes of those that it took."""
        answers = self.answers(path, [update(size, keys, letter) for keys, letter in updates])
        self.assertEqual(run('check', path), (0, 'ok CHECK\n', ''))
        taken, letters = [answer != REFUSAL for answer in answers], dict.fromkeys(rows, 'a')
        for (keys, letter), is_taken in zip(updates, taken, strict=True):
            letters |= dict.fromkeys(keys if is_taken else [], letter)
        wanted = [f'{key}\t{letter * size}' for key, letter in sorted(letters.items())]
        self.assertEqual(self.answers(path, ['r: SELECT * FROM t']), [f'rows {len(rows)}', *wanted])
        return taken

    def keys(self, size, rng):
        """More keys than a file takes, in an order of `rng`, or in their own where there is none."""
        keys = list(range(PAGES * 4096 // size))
        if rng:
            rng.shuffle(keys)
        return keys

    def test_rows_in_the_order_of_their_keys(self):
        """Their tree is the same with a journal. Other rows may have another one, since several commits are made in one."""
        for size in SIZES:
            (_, rows), (_, others) = (self.filled(size, self.keys(size, None), journal) for journal in (False, True))
            self.assertEqual(rows, others)

    def test_scattered_updates(self):
        for size, is_shuffled, has_journal, is_freed in itertools.product(SIZES, *[(False, True)] * 3):
            with self.subTest(size=size, is_shuffled=is_shuffled, has_journal=has_journal, is_freed=is_freed):
                rng = random.Random(f'{size} {is_shuffled} {has_journal} {is_freed}')
                path, rows = self.filled(size, self.keys(size, rng if is_shuffled else None), has_journal)
                rows, most = (self.freed(path, size, rows), TOGETHER) if is_freed else (rows, 2)
                other = self.path()
                shutil.copy(path, other)
                self.assertEqual(run('journal', other, 'off' if has_journal else 'on'), (0, 'ok JOURNAL\n', ''))
                updates = [(rng.sample(rows, rng.randint(1, most)), 'bcdefg'[count % 6]) for count in range(ROUNDS * CHANGED)]
                journal, plain = (path, other) if has_journal else (other, path)
                taken, its_taken = self.changed(plain, size, rows, updates), self.changed(journal, size, rows, updates)
                self.assertEqual([at for at, (one, its) in enumerate(zip(taken, its_taken)) if one and not its], [])


if __name__ == '__main__':
    unittest.main()
