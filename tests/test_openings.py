#!/usr/bin/env python3
"""How often an opening reads each page of a file: python3 tests/test_openings.py

The reads are seen by strace (Debian's package); where there is none these tests are left out, and a line says so. A page is read once,
where the tree is checked; where its rows are, it is in memory. Where memory is refused fewer pages are kept, so that statements have some.
The program is the one in the environment variable GUARDDB; without it nothing is tried.
"""
import collections
import os
import re
import resource
import shutil
import subprocess
import tempfile
import unittest

from program import IS_FAKE, PROGRAM, make_database, run

PAGE = 4096
TEXT, ROWS_PER_PAGE, AT_ONCE = 900, 4, 50   # the bytes of a text; how many such rows a page has; how many an INSERT has
A_BLOCK = 1000                              # how many rows a block inserts
MOST = 1.1                                  # the most reads of a page, on average
LITTLE = 20 << 20                           # memory for a file of 4,600 pages whose pages are not all kept
HAS_STRACE = shutil.which('strace') is not None


def script_of(tables, pages):
    """A script whose rows take so many pages in so many tables."""
    yield 'open r root\n'
    rows = pages // tables * ROWS_PER_PAGE
    for table in range(tables):
        yield f'r: CREATE TABLE t{table} (k BIGINT PRIMARY KEY, x TEXT)\n'
        yield 'r: BEGIN\n'
        for first in range(0, rows, AT_ONCE):
            values = ', '.join(f"({k}, '{'x' * TEXT}')" for k in range(first, min(first + AT_ONCE, rows)))
            yield f'r: INSERT INTO t{table} VALUES {values}\n'
            if first % A_BLOCK == A_BLOCK - AT_ONCE:
                yield 'r: COMMIT\nr: BEGIN\n'
        yield 'r: COMMIT\n'


@unittest.skipIf(IS_FAKE, 'GUARDDB names no program')
class Openings(unittest.TestCase):
    def setUp(self):
        self.folder = tempfile.mkdtemp(prefix='guarddb-')
        self.addCleanup(shutil.rmtree, self.folder)

    def path(self, name):
        return os.path.join(self.folder, name)

    def made(self, tables, pages):
        """A file whose rows take so many pages, in so many tables."""
        path = self.path(f'db{tables}.{pages}')
        make_database(path, pages=pages + pages // 16 + 32)
        with open(self.path('script'), 'w', encoding='ascii') as file:
            file.writelines(script_of(tables, pages))
        status, answers, _ = run('run', path, self.path('script'))
        self.assertEqual((status, [line for line in answers.splitlines() if not line.startswith('ok ')]), (0, []))
        return path

    def reads(self, path):
        """How often `check` reads each page of a file, by its place."""
        trace = self.path('trace')
        done = subprocess.run(['strace', '-f', '-s', '0', '-o', trace, '-e', 'trace=pread64', PROGRAM, 'check', path],
                              capture_output=True, check=True)
        self.assertEqual(done.stdout, b'ok CHECK\n')
        with open(trace, encoding='ascii', errors='replace') as file:
            found = re.findall(r'pread64\(\d+, .*?, (\d+), (\d+)\)\s*= \1$', file.read(), re.MULTILINE)
        return collections.Counter(int(place) // PAGE for size, place in found if int(size) == PAGE)

    def test_strace_is_there(self):
        if not HAS_STRACE:
            print('there is no strace: the reads of an opening are left out')

    @unittest.skipUnless(HAS_STRACE, 'there is no strace')
    def test_each_page_is_read_once(self):
        for tables, pages in (1, 60), (1, 4600), (40, 4600):
            with self.subTest(tables=tables, pages=pages):
                reads = self.reads(self.made(tables, pages))
                self.assertGreater(len(reads), pages // 2)
                self.assertLess(reads.total() / len(reads), MOST)

    @unittest.skipUnless(HAS_STRACE, 'there is no strace')
    def test_a_file_whose_pages_are_all_kept(self):
        reads = self.reads(self.made(3, 300))
        self.assertLess(reads.total() / len(reads), 1.1)

    def test_an_opening_leaves_memory_for_statements(self):
        path = self.made(1, 4600)
        with open(self.path('script'), 'w', encoding='ascii') as file:
            file.write('open r root\nr: SELECT count(*) FROM t0\n')
        done = subprocess.run([PROGRAM, 'run', path, self.path('script')], capture_output=True, check=False,
                              preexec_fn=lambda: resource.setrlimit(resource.RLIMIT_AS, (LITTLE, LITTLE)))
        self.assertEqual((done.returncode, done.stdout.splitlines()[-1]), (0, b'18400'), done.stderr)


if __name__ == '__main__':
    unittest.main()
