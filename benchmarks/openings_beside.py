#!/usr/bin/env python3
"""What an opening takes beside that of another program: python3 benchmarks/openings_beside.py OTHER [MEBIBYTES..]

Makes files of 1, 4, 16, 64 and 256 MiB, or of the sizes that are given, each without a journal and with one in which some commits wait. A
table of a key and a text of 900 bytes takes nearly nine tenths of each. Then `check` opens it, by each of the two programs in turns: a line
has the pages that it read, how often it read each on average, as strace (Debian's package) counts, and the least processor time of five
runs, of the program and of the system. OTHER is the other program, built of another commit; this one is ./guarddb, or what GUARDDB names.
"""
import collections
import os
import re
import shutil
import subprocess
import sys
import tempfile

TOP = os.path.dirname(os.path.dirname(os.path.realpath(__file__)))
PROGRAM = os.path.realpath(os.environ.get('GUARDDB') or os.path.join(TOP, 'guarddb'))
PAGE, SIZES, ROUNDS = 4096, [1, 4, 16, 64, 256], 5
TEXT, ROWS_PER_PAGE, AT_ONCE, A_BLOCK, SPARE = 900, 4, 50, 5000, 32
WAITING = 5             # commits that wait in a journal


def script_of(pages):
    """A script whose rows take so many pages."""
    rows = pages * ROWS_PER_PAGE
    yield 'open r root\nr: CREATE TABLE t (k BIGINT PRIMARY KEY, x TEXT)\n'
    for low in range(0, rows, A_BLOCK):
        yield 'r: BEGIN\n'
        for first in range(low, min(low + A_BLOCK, rows), AT_ONCE):
            values = ', '.join(f"({key}, '{'x' * TEXT}')" for key in range(first, min(first + AT_ONCE, rows)))
            yield f'r: INSERT INTO t VALUES {values}\n'
        yield 'r: COMMIT\n'
    for key in range(WAITING):
        yield f"r: UPDATE t SET x = '{'y' * 300}' WHERE k = {key}\n"


def made(work, pages, journal):
    """A file of so many pages, nine tenths of them in use."""
    path, script = os.path.join(work, 'db'), os.path.join(work, 'script')
    with open(script, 'w', encoding='ascii') as file:
        file.writelines(script_of(pages * 9 // 10 - SPARE))
    for words in (['format', path, '--pages', str(pages), '--admin', 'root', *['--journal'] * journal], ['run', path, script]):
        answers = subprocess.run([PROGRAM, *words], check=True, stdout=subprocess.PIPE, text=True).stdout
        bad = [line for line in answers.splitlines() if not line.startswith('ok ')]
        if bad:
            sys.exit(f'{words[0]}, {pages} pages: {bad[0]}')
    os.remove(script)
    return path


def reads_of(program, path, trace):
    """How often `check` of a program reads each page, by its place."""
    subprocess.run(['strace', '-f', '-s', '0', '-o', trace, '-e', 'trace=pread64', program, 'check', path], check=True, stdout=subprocess.DEVNULL)
    with open(trace, encoding='ascii', errors='replace') as file:
        places = re.findall(rf'pread64\(\d+, .*?, {PAGE}, (\d+)\)\s*= {PAGE}$', file.read(), re.MULTILINE)
    return collections.Counter(places)


def seconds_of(program, path):
    """The processor time of a `check`, and the most memory that it took, in MiB."""
    checked = subprocess.Popen([program, 'check', path], stdout=subprocess.DEVNULL)
    _, status, used = os.wait4(checked.pid, 0)
    if status:
        sys.exit(f'{program} check: status {status}')
    return used.ru_utime + used.ru_stime, used.ru_maxrss / 1024


def main(other, *sizes):
    work = tempfile.mkdtemp(prefix='guarddb-openings.', dir='/dev/shm')
    print('| MiB | journal | program | pages read | reads a page | processor time, ms | memory, MiB |\n|---|---|---|---|---|---|---|', flush=True)
    for size in map(int, sizes or SIZES):
        for journal in (False, True):
            path = made(work, size * 256, journal)
            least = {}
            for program in [PROGRAM, os.path.realpath(other)] * ROUNDS:
                least[program] = min(least.get(program, (1e9, 1e9)), seconds_of(program, path))
            for program, (seconds, memory) in least.items():
                reads = reads_of(program, path, os.path.join(work, 'trace'))
                name = 'this' if program == PROGRAM else 'the other'
                print(f'| {size} | {"yes" if journal else "no"} | {name} | {len(reads):,} | {sum(reads.values()) / len(reads):.2f} '
                      f'| {seconds * 1000:,.1f} | {memory:.0f} |', flush=True)
            os.remove(path)
    shutil.rmtree(work)


if __name__ == '__main__':
    if len(sys.argv) < 2:
        sys.exit(__doc__)
    main(*sys.argv[1:])
