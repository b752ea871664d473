#!/usr/bin/env python3
"""How often an opening reads each page of a file, and its processor time: python3 benchmarks/openings.py [WORK [PAGES TABLES]..]

Makes a file for each pair of numbers (64 and 1, 1,024 and 1, 10,000 and 1, 10,000 and 400, 60,000 and 1, 60,000 and 400 where none is
given), whose rows take nearly nine tenths of so many pages, in so many tables: a key and a text of 180 bytes. The files stand in the folder WORK
(a new one in /dev/shm where it is not given), each for as long as it is measured. Then comes a line for each: the pages that `check`
reads, how often it reads each on average, as strace (Debian's package) counts, and the least processor time of five runs, of the program
and of the system. The program is ./guarddb, or what GUARDDB names.
"""
import collections
import os
import re
import resource
import subprocess
import sys
import tempfile

TOP = os.path.dirname(os.path.dirname(os.path.realpath(__file__)))
PROGRAM = os.path.realpath(os.environ.get('GUARDDB') or os.path.join(TOP, 'guarddb'))
PAGE, TEXT, AT_ONCE, A_BLOCK, SPARE = 4096, 'o' * 180, 100, 10_000, 32
ROWS_PER_PAGE = 19
FILES = [(64, 1), (1024, 1), (10_000, 1), (10_000, 400), (60_000, 1), (60_000, 400)]
ROUNDS = 5


def write_script(path, pages, tables):
    """A script of INSERTs whose rows take so many pages in so many tables."""
    rows = max(1, pages // tables) * ROWS_PER_PAGE
    with open(path, 'w', encoding='ascii') as out:
        out.write('open r root\n')
        for table in range(tables):
            out.write(f'r: CREATE TABLE t{table} (k BIGINT PRIMARY KEY, o TEXT)\n')
            for low in range(0, rows, A_BLOCK):
                out.write('r: BEGIN\n')
                for first in range(low, min(low + A_BLOCK, rows), AT_ONCE):
                    values = ', '.join(f"({k}, '{TEXT}')" for k in range(first, min(first + AT_ONCE, rows)))
                    out.write(f'r: INSERT INTO t{table} VALUES {values}\n')
                out.write('r: COMMIT\n')


def make_file(work, pages, tables):
    """A file of so many pages, nine tenths of them in use."""
    path, script = os.path.join(work, 'db'), os.path.join(work, 'script')
    subprocess.run([PROGRAM, 'format', path, '--pages', str(pages), '--admin', 'root'], check=True, stdout=subprocess.DEVNULL)
    write_script(script, pages * 9 // 10 - SPARE, tables)
    answers = subprocess.run([PROGRAM, 'run', path, script], check=True, stdout=subprocess.PIPE, text=True).stdout
    bad = [line for line in answers.splitlines() if not line.startswith('ok ')]
    if bad:
        sys.exit(f'{pages} pages and {tables} tables: {len(bad)} lines were refused, first {bad[0]}')
    os.remove(script)
    return path


def reads_of(work, path):
    """How often `check` reads each page of a file, by its place."""
    trace = os.path.join(work, 'trace')
    subprocess.run(['strace', '-f', '-s', '0', '-o', trace, '-e', 'trace=pread64', PROGRAM, 'check', path], check=True,
                   stdout=subprocess.DEVNULL)
    reads = collections.Counter()
    with open(trace, encoding='ascii', errors='replace') as file:
        for line in file:
            if found := re.search(rf'pread64\(\d+, .*?, {PAGE}, (\d+)\)\s*= {PAGE}$', line):
                reads[int(found[1]) // PAGE] += 1
    os.remove(trace)
    return reads


def seconds_of(path):
    """The processor time of a `check`."""
    before = resource.getrusage(resource.RUSAGE_CHILDREN)
    subprocess.run([PROGRAM, 'check', path], check=True, stdout=subprocess.DEVNULL, stderr=subprocess.DEVNULL)
    after = resource.getrusage(resource.RUSAGE_CHILDREN)
    return after.ru_utime - before.ru_utime + after.ru_stime - before.ru_stime


def main(words):
    work = words[0] if words else tempfile.mkdtemp(prefix='guarddb-openings.', dir='/dev/shm')
    os.makedirs(work, exist_ok=True)
    numbers = [int(word) for word in words[1:]]
    for pages, tables in list(zip(numbers[::2], numbers[1::2])) or FILES:
        path = make_file(work, pages, tables)
        reads = reads_of(work, path)
        least = min(seconds_of(path) for _ in range(ROUNDS))
        print(f'{pages} pages, {tables} tables: {len(reads)} pages read, {reads.total() / len(reads):.2f} reads a page, '
              f'{least * 1000:.0f} ms of processor time', flush=True)
        os.remove(path)


if __name__ == '__main__':
    main(sys.argv[1:])
