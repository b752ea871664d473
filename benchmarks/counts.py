#!/usr/bin/env python3
"""Instructions of statements beside those of sqlite3, counted by valgrind: a machine that is busy counts the same.

    python3 benchmarks/counts.py [WORK [PATTERN..]]

The works are those of compare.py in memory and on a file, over 20,000 rows in place of 100,000, each with fewer statements. Prints the
thousands of instructions of a statement of both programs and their ratio, those of filling the tables taken off. A PATTERN names
works by their first letters, with the place behind a stroke: 'join', '*/file'. WORK is a folder for files (a new one in /var/tmp
where it is not given); GUARDDB names the program in place of ./guarddb. Reads and writes of files, which the system does, are not counted.

    python3 benchmarks/counts.py WORK policies

This asks alone what policies save: statements of a tenant who has 100 of 20,000 rows, and a join with LIMIT on a file. For each it
prints the thousands of instructions, those of the statement beside it if there is one, and what is wanted: so many thousands at
most, or so many times those of the other. The status is 1 where one takes more.
"""
import dataclasses
import fnmatch
import os
import random
import re
import shutil
import subprocess
import sys
import tempfile

import compare

compare.ROWS = 20_000
TOP = os.path.dirname(os.path.dirname(os.path.realpath(__file__)))


def count(words, given=None):
    """The instructions that a program executes."""
    with open(given or os.devnull) as script, open(os.devnull, 'w') as out:
        tool = ['valgrind', '--tool=callgrind', '--callgrind-out-file=/dev/null']
        said = subprocess.run([*tool, *words], stdin=script, stdout=out, stderr=subprocess.PIPE, text=True, check=True).stderr
    return int(re.search(r'Collected : (\d+)', said)[1])


def fewer(work):
    """A work with at most so many statements as count well; a block keeps its ends."""
    statements = work.statements
    most = max(1, len(statements) // 20)
    if statements[:1] == ['BEGIN']:
        return compare.block(statements[1:-1][:2_000])
    return statements[:2_000] if work.name.startswith('insert') else statements[:most]


@dataclasses.dataclass
class Limit:
    """A work of which a statement is to take so many thousand instructions at most, or so many times those of another work."""
    work: compare.Work
    most: float
    other: compare.Work = None


def tenant_fills():
    """Tables of 200 tenants with policies, as bob meets them and as root does, and a table that all may see."""
    both = [f'GRANT SELECT ON {name} TO bob' for name in 'ab']
    tables = [each for name in 'ab' for each in compare.tenants(name)]
    guarded = ['CREATE ROLE bob LOGIN', *tables, *both, *compare.own_rows('a'), *compare.own_rows('b')]
    return {'two tenants': compare.Fill(guarded, 'bob'), 'two tenants, root': compare.Fill(guarded),
            'unguarded': compare.Fill(compare.table('t', compare.ROWS))}


def limits():
    """What is wanted where policies bound what is read."""
    def work(name, fill, statement, place='memory', times=100):
        return compare.Work(name, place, fill, [statement] * times)
    tenant, last = 'tenants', f'SELECT x FROM t WHERE k >= {compare.ROWS - 100}'
    join, own = 'SELECT a.k, b.x FROM a JOIN b ON b.k = a.k', "a.o = 'bob' AND b.o = 'bob'"
    yield Limit(work('tenant, count', tenant, 'SELECT count(*) FROM t'), 40)
    yield Limit(work('tenant, by key', tenant, 'SELECT x FROM t WHERE k = 80'), 40)
    yield Limit(work('tenant, join', 'two tenants', join, times=20), 1.1,
                work('written out', 'two tenants, root', f'{join} WHERE {own}', times=20))
    yield Limit(work('tenant, order by key limit 2', tenant, 'SELECT k FROM t ORDER BY k LIMIT 2'), 1.1,
                work('order by both', tenant, 'SELECT k FROM t ORDER BY o, k LIMIT 2'))
    yield Limit(work('last 100, policy', 'retained', last), 1.0, work('without the policy', 'unguarded', last))
    yield Limit(work('join limit 10', 'two10000', 'SELECT a.k, b.x FROM a JOIN b ON b.k = a.x LIMIT 10', 'file', 20), 200)


class Counts(compare.Bench):
    def __init__(self, program):
        super().__init__(program, 1, 'none')
        self.fills |= tenant_fills()
        self.bases = {}

    def each(self, work):
        """The thousands of instructions of a statement."""
        return self.ours(work, work.statements) / len(work.statements) / 1_000

    def meets(self, limit):
        """Prints what a statement takes and what is wanted; whether it takes no more."""
        work, other, beside, wanted = limit.work, limit.other, '', f'{limit.most:,.0f}'
        taken = self.each(work)
        share = taken
        if other:
            base = self.each(other)
            share, beside, wanted = taken / base, f'{other.name}: {base:,.1f}', f'{limit.most} times'
        met = share <= limit.most
        print(f'| {work.name} | {work.place} | {taken:,.1f} | {beside} | {wanted} | {"yes" if met else "no"} |', flush=True)
        return met

    def less_fill(self, key, statements, made):
        """The instructions of statements, less those of a run with none."""
        if key not in self.bases:
            self.bases[key] = count(*made([]))
        return count(*made(statements)) - self.bases[key]

    def ours(self, work, statements):
        def in_memory(given):
            return [self.program, 'run', '--memory', 'root', self.script('now.script', work, given, True)], None

        def on_file(given):
            shutil.copy(self.guarddb_database(work), 'now.guarddb')
            return [self.program, 'run', 'now.guarddb', self.script('now.script', work, given, False)], None
        return self.less_fill(('ours', work.place, work.fill), statements, in_memory if work.place == 'memory' else on_file)

    def theirs(self, work, statements):
        def in_memory(given):
            return ['sqlite3', ':memory:'], self.sql('now.sql', work, given, True)

        def on_file(given):
            path = f'{work.fill}.sqlite3'
            if not os.path.exists(path):
                compare.run(['sqlite3', path], self.sql('fill.sql', work, [], True))
            for end in ('', '-wal', '-shm'):
                if os.path.exists(f'now.sqlite3{end}'):
                    os.remove(f'now.sqlite3{end}')
            shutil.copy(path, 'now.sqlite3')
            return ['sqlite3', 'now.sqlite3'], self.sql('now.sql', work, ['PRAGMA journal_mode=WAL', 'PRAGMA synchronous=FULL', *given], False)
        return self.less_fill(('theirs', work.place, work.fill), statements, in_memory if work.place == 'memory' else on_file)


def main():
    if sys.argv[1:] and sys.argv[1].startswith('-'):
        print(__doc__)
        return
    work, *patterns = sys.argv[1:] or [tempfile.mkdtemp(prefix='guarddb-counts.', dir='/var/tmp')]
    program = os.path.abspath(os.environ.get('GUARDDB', f'{TOP}/guarddb'))
    os.makedirs(work, exist_ok=True)
    os.chdir(work)
    random.seed(5)
    counts = Counts(program)
    if patterns == ['policies']:
        print('| Work | Where | 1,000 instructions | beside it | wanted at most | met |\n|---|---|---|---|---|---|')
        sys.exit(0 if all([counts.meets(limit) for limit in limits()]) else 1)
    print('| Work | Where | Guarddb, 1,000 instructions | `sqlite3` | ratio |\n|---|---|---|---|---|')
    for each in [*compare.reads(), *compare.writes()]:
        name = f'{each.name}/{each.place}'
        if each.place == 'socket' or patterns and not any(fnmatch.fnmatch(name, f'{pattern}*') for pattern in patterns):
            continue
        statements = fewer(each)
        ours, theirs = (way(each, statements) / len(statements) / 1_000 for way in (counts.ours, counts.theirs))
        print(f'| {each.name} | {each.place} | {ours:,.1f} | {theirs:,.1f} | {ours / theirs:.2f} |', flush=True)


if __name__ == '__main__':
    main()
