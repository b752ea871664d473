#!/usr/bin/env python3
"""Works beside sqlite3 and PostgreSQL; benchmarks/compare.sh calls it and says what it prints.

    compare.py PROGRAM ROUNDS POSTGRES PATTERN..

PROGRAM is guarddb, POSTGRES the folder of PostgreSQL's socket or 'none', and a PATTERN names works, as 'join*'; with none all are done.
It works in the folder that it is called in, where the program `client` is. With the pattern 'growth' alone it does the works of growth,
and prints `growth WORK ROWS GUARDDB SQLITE3` for each, with the microseconds of a statement.
"""
import dataclasses
import fnmatch
import os
import random
import shutil
import statistics
import subprocess
import sys
import time

ROWS = 100_000
FILE_PAGES = '16384'


@dataclasses.dataclass
class Fill:
    """Statements that make the tables, and the role that works then."""
    statements: list
    role: str = 'root'
    condition: str = ''         # what sqlite3 has to be asked in place of a policy
    journal: bool = False       # whether Guarddb's file has one


@dataclasses.dataclass
class Work:
    """Statements over a fill, in memory, on a file or over a socket."""
    name: str
    place: str
    fill: str
    statements: list


def table(name, rows, number=lambda key: key * 7919 % 99991):
    """Statements that make a table of so many rows, 100 an INSERT, in one block."""
    values = [f"({key}, {number(key)}, '{'bob' if key % 2 else 'cid'}')" for key in range(rows)]
    inserts = [f'INSERT INTO {name} VALUES ' + ', '.join(values[low:low + 100]) for low in range(0, rows, 100)]
    return [f'CREATE TABLE {name} (k BIGINT PRIMARY KEY, x BIGINT, o TEXT)', 'BEGIN', *inserts, 'COMMIT']


def tenants(name='t'):
    """Statements that make a table of 200 tenants, of whom bob is one, with as many rows each, in one block."""
    owners = ['bob', *(f't{tenant:03}' for tenant in range(1, 200))]
    values = [[f"('{owner}', {key}, {key * 7919 % 99991})" for key in range(ROWS // 200)] for owner in owners]
    inserts = [f'INSERT INTO {name} VALUES ' + ', '.join(rows[low:low + 100]) for rows in values for low in range(0, len(rows), 100)]
    return [f'CREATE TABLE {name} (o TEXT, k BIGINT, x BIGINT, PRIMARY KEY (o, k))', 'BEGIN', *inserts, 'COMMIT']


def own_rows(name):
    """Statements by which each role sees its own rows of a table."""
    return [f'ALTER TABLE {name} ENABLE ROW LEVEL SECURITY', f'CREATE POLICY p ON {name} USING (o = current_user)']


def under(condition, statement):
    """A SELECT of t with one more condition, if there is one."""
    if not condition:
        return statement
    if ' WHERE ' in statement:
        return statement.replace(' WHERE ', f' WHERE {condition} AND ', 1)
    return statement.replace(' FROM t', f' FROM t WHERE {condition}', 1)


def two_tables(rows):
    return Fill(table('a', rows, lambda key: key * 7 % rows) + table('b', rows, lambda key: key * 7 % rows))


def fills():
    bob = ['CREATE ROLE bob LOGIN', 'GRANT SELECT ON t TO bob']
    guarded = [*table('t', ROWS), *bob, 'ALTER TABLE t ENABLE ROW LEVEL SECURITY']
    chain = [f'CREATE ROLE g{level}' for level in (1, 2, 3)] + ['GRANT g1 TO bob', 'GRANT g2 TO g1', 'GRANT g3 TO g2']
    made = {f't{rows}': Fill(table('t', rows)) for rows in (1_000, 10_000, ROWS, 1_000_000)}
    made |= {f'two{rows}': two_tables(rows) for rows in (1_000, 10_000)}
    made['empty'] = Fill(['CREATE TABLE t (k BIGINT PRIMARY KEY, x BIGINT, o TEXT)'])
    made['policy'] = Fill([*guarded, 'CREATE POLICY p ON t USING (x >= 0)'], 'bob', 'x >= 0')
    made['owner'] = Fill([*guarded, 'CREATE POLICY p ON t USING (o = current_user)'], 'bob', "o = 'bob'")
    made['retained'] = Fill([*guarded, 'CREATE POLICY p ON t USING (k >= 0)'], 'bob', 'k >= 0')
    made['tenants'] = Fill([*tenants(), *bob, *own_rows('t')], 'bob', "o = 'bob'")
    made['journaled'] = Fill(table('t', 10_000), journal=True)
    made['memberships'] = Fill([*table('t', ROWS), 'CREATE ROLE bob LOGIN', *chain, 'GRANT SELECT ON t TO g3'], 'bob')
    return made


def by_key(count, rows=ROWS):
    return [f'SELECT x, o FROM t WHERE k = {random.randrange(rows)}' for _ in range(count)]


def ranges(count, wide):
    lows = [random.randrange(ROWS - wide) for _ in range(count)]
    return [f'SELECT k, x FROM t WHERE k >= {low} AND k < {low + wide}' for low in lows]


def inserts(keys):
    return [f"INSERT INTO t VALUES ({key}, {key % 97}, 'bob')" for key in keys]


def mixed(keys):
    keys = list(keys)
    random.shuffle(keys)
    return keys


def block(statements):
    return ['BEGIN', *statements, 'COMMIT']


def updates(count):
    return [f'UPDATE t SET x = {at} WHERE k = {random.randrange(ROWS)}' for at in range(count)]


def scans(count):
    return [f'SELECT count(*) FROM t WHERE x < {random.randrange(99991)}' for _ in range(count)]


def reads():
    full, ordered = f't{ROWS}', 'SELECT k, x FROM t ORDER BY '
    on_key, on_none = 'SELECT a.k, b.x FROM a JOIN b ON b.k = a.x', 'SELECT count(*) FROM a JOIN b ON a.x = b.x'
    yield Work('by key', 'memory', full, by_key(50_000))
    yield Work('by key, policy', 'memory', 'policy', by_key(50_000))
    yield Work('by key, three memberships', 'memory', 'memberships', by_key(50_000))
    yield Work('range of 100', 'memory', full, ranges(3_000, 100))
    yield Work('range of 10,000', 'memory', full, ranges(60, 10_000))
    yield Work('scan', 'memory', full, scans(40))
    yield Work('scan, policy', 'memory', 'owner', ['SELECT count(*) FROM t WHERE x < 50000'] * 20)
    yield Work('tenant, count', 'memory', 'tenants', ['SELECT count(*) FROM t'] * 20_000)
    yield Work('tenant, by key', 'memory', 'tenants', [f'SELECT x FROM t WHERE k = {random.randrange(ROWS // 200)}' for _ in range(20_000)])
    yield Work('tenant, order by key limit 2', 'memory', 'tenants', ['SELECT k FROM t ORDER BY k LIMIT 2'] * 20_000)
    yield Work('last 100, policy', 'memory', 'retained', [f'SELECT x FROM t WHERE k >= {ROWS - 100}'] * 2_000)
    yield Work('all rows', 'memory', full, ['SELECT * FROM t'] * 10)
    yield Work('order by x', 'memory', full, [ordered + 'x'] * 5)
    yield Work('order by x limit 10', 'memory', full, [ordered + 'x LIMIT 10'] * 20)
    yield Work('order by key', 'memory', full, [ordered + 'k'] * 10)
    yield Work('order by key limit 10', 'memory', full, [ordered + 'k LIMIT 10'] * 5_000)
    yield Work('limit 1', 'memory', full, ['SELECT k FROM t LIMIT 1'] * 10_000)
    yield Work('count', 'memory', full, ['SELECT count(*) FROM t'] * 50_000)
    yield Work('join on key, 10,000', 'memory', 'two10000', [on_key] * 10)
    yield Work('join on key, one row', 'memory', 'two10000', [f'{on_key} WHERE a.k = {random.randrange(10_000)}' for _ in range(2_000)])
    yield Work('join on no key, 1,000', 'memory', 'two1000', [on_none] * 20)
    yield Work('join on no key, 10,000', 'memory', 'two10000', [on_none] * 5)
    yield Work('by key', 'file', full, by_key(50_000))
    yield Work('scan', 'file', full, scans(40))
    yield Work('by key', 'socket', full, by_key(10_000))
    yield Work('by key, policy', 'socket', 'policy', by_key(10_000))
    yield Work('tenant, count', 'socket', 'tenants', ['SELECT count(*) FROM t'] * 1_000)
    yield Work('tenant, by key', 'socket', 'tenants', [f'SELECT x FROM t WHERE k = {random.randrange(ROWS // 200)}' for _ in range(1_000)])
    yield Work('tenant, order by key limit 2', 'socket', 'tenants', ['SELECT k FROM t ORDER BY k LIMIT 2'] * 1_000)
    yield Work('scan', 'socket', full, scans(20))
    yield Work('order by x limit 10', 'socket', full, [ordered + 'x LIMIT 10'] * 10)


def writes():
    full = f't{ROWS}'
    yield Work('insert, rising', 'memory', 'empty', inserts(range(ROWS)))
    yield Work('insert, falling', 'memory', 'empty', inserts(range(ROWS, 0, -1)))
    yield Work('insert, random', 'memory', 'empty', inserts(mixed(range(ROWS))))
    yield Work('insert in a block', 'memory', 'empty', block(inserts(range(50_000))))
    yield Work('insert in a block, random', 'memory', 'empty', block(inserts(mixed(range(50_000)))))
    yield Work('insert of 256 rows', 'memory', 'empty', [
        'INSERT INTO t VALUES ' + ', '.join(f"({key}, {key % 97}, 'bob')" for key in range(low, low + 256))
        for low in range(0, 102_400, 256)])
    yield Work('update by key', 'memory', full, updates(50_000))
    yield Work('update of all', 'memory', full, ['UPDATE t SET x = x + 1'] * 5)
    yield Work('delete by key', 'memory', full, [f'DELETE FROM t WHERE k = {key}' for key in mixed(range(ROWS))[:50_000]])
    yield Work('delete of all', 'memory', full, ['DELETE FROM t'])
    yield Work('delete of all, where', 'memory', full, ['DELETE FROM t WHERE x > -1'])
    yield Work('insert, a commit each', 'file', 't10000', inserts(mixed(range(10_000, 12_000))))
    yield Work('insert, a commit each, journal', 'file', 'journaled', inserts(mixed(range(10_000, 12_000))))
    yield Work('insert in a block', 'file', 't10000', block(inserts(mixed(range(10_000, 40_000)))))
    yield Work('update of all', 'file', full, ['UPDATE t SET x = x + 1'] * 3)
    yield Work('insert, a commit each', 'socket', 't10000', [])
    yield Work('insert, a commit each, journal', 'socket', 'journaled', [])


def growth(filled):
    for rows in (1_000, 10_000, 100_000, 1_000_000):
        fill, turns = f't{rows}', max(1, 1_000_000 // rows)
        if fill in filled:
            yield rows, Work('by key', 'memory', fill, by_key(50_000, rows))
            yield rows, Work('scan', 'memory', fill, scans(2 * turns))
            yield rows, Work('order by x limit 10', 'memory', fill, ['SELECT k, x FROM t ORDER BY x LIMIT 10'] * turns)
            yield rows, Work('limit 1', 'memory', fill, ['SELECT k FROM t LIMIT 1'] * 50_000)
            yield rows, Work('count', 'memory', fill, ['SELECT count(*) FROM t'] * 2_000)
            yield rows, Work('update of all', 'memory', fill, ['UPDATE t SET x = x + 1'] * turns)
            yield rows, Work('insert, random', 'memory', 'empty', inserts(mixed(range(rows))))


def run(words, given=None):
    """Runs a program on a file; its seconds by the clock and of the processor."""
    with open(given or os.devnull) as script, open(os.devnull, 'w') as out:
        begin = time.perf_counter()
        child = subprocess.Popen(words, stdin=script, stdout=out)
        _, status, used = os.wait4(child.pid, 0)
        passed = time.perf_counter() - begin
    if status:
        sys.exit(f'{words} ended with {status}')
    return {'clock': passed, 'processor': used.ru_utime + used.ru_stime}


class Bench:
    def __init__(self, program, rounds, postgres):
        self.program, self.rounds, self.postgres = program, rounds, postgres
        self.fills = fills()
        self.bases, self.files, self.databases, self.servers = {}, {}, set(), []
        self.fresh = {'guarddb': 20_000, 'postgres': 20_000}

    def script(self, path, work, statements, with_fill):
        fill = self.fills[work.fill]
        session = 'r' if fill.role == 'root' else 'b'
        with open(path, 'w') as out:
            out.write('open r root\n')
            out.writelines(f'r: {each}\n' for each in (fill.statements if with_fill else []))
            if session == 'b':
                out.write('open b bob\n')
            out.writelines(f'{session}: {each}\n' for each in statements)
        return path

    def sql(self, path, work, statements, with_fill):
        fill = self.fills[work.fill]
        rights = ('CREATE ROLE', 'GRANT', 'ALTER TABLE', 'CREATE POLICY')
        made = [each.replace('k BIGINT PRIMARY KEY', 'k INTEGER PRIMARY KEY') for each in fill.statements if not each.startswith(rights)]
        with open(path, 'w') as out:
            out.writelines(f'{each};\n' for each in (made if with_fill else []))
            out.writelines(f'{under(fill.condition, each)};\n' for each in statements)
        return path

    def less_base(self, who, work, measure):
        """The seconds of the statements: with them, less the median without."""
        times = self.bases.setdefault((who, work.place, work.fill), [])
        if len(times) < self.rounds:
            times.append(measure([]))
        return measure(work.statements) - statistics.median(times)

    def guarddb_memory(self, work):
        def measure(statements):
            path = self.script('now.script', work, statements, True)
            return run([self.program, 'run', '--memory', 'root', path])['processor']
        return self.less_base('guarddb', work, measure)

    def sqlite3_memory(self, work):
        def measure(statements):
            return run(['sqlite3', ':memory:'], self.sql('now.sql', work, statements, True))['processor']
        return self.less_base('sqlite3', work, measure)

    def guarddb_database(self, work):
        if work.fill not in self.files:
            path = f'{work.fill}.guarddb'
            journal = ['--journal'] * self.fills[work.fill].journal
            run([self.program, 'format', path, '--pages', FILE_PAGES, '--admin', 'root', *journal])
            run([self.program, 'run', path, self.script('fill.script', work, [], True)])
            self.files[work.fill] = path
        return self.files[work.fill]

    def guarddb_file(self, work):
        def measure(statements):
            shutil.copy(self.guarddb_database(work), 'now.guarddb')
            return run([self.program, 'run', 'now.guarddb', self.script('now.script', work, statements, False)])['clock']
        return self.less_base('guarddb', work, measure)

    def sqlite3_file(self, work):
        path = f'{work.fill}.sqlite3'
        if not os.path.exists(path):
            run(['sqlite3', path], self.sql('fill.sql', work, [], True))

        def measure(statements):
            for end in ('', '-wal', '-shm'):
                if os.path.exists(f'now.sqlite3{end}'):
                    os.remove(f'now.sqlite3{end}')
            shutil.copy(path, 'now.sqlite3')
            given = self.sql('now.sql', work, ['PRAGMA journal_mode=WAL', 'PRAGMA synchronous=FULL', *statements], False)
            return run(['sqlite3', 'now.sqlite3'], given)['clock']
        return self.less_base('sqlite3', work, measure)

    def client(self, words, work, who):
        statements = work.statements
        if not statements:
            first = self.fresh[who]
            self.fresh[who] += 1_000
            statements = inserts(mixed(range(first, first + 1_000)))
        with open('now.txt', 'w') as out:
            out.writelines(f'{each}\n' for each in statements)
        kind, place, *rest = words
        said = subprocess.run(['./client', kind, place, 'now.txt', self.fills[work.fill].role, *rest], stdout=subprocess.PIPE, text=True, check=True)
        return int(said.stdout.split()[-2]) / 1e6

    def guarddb_socket(self, work):
        place = f'{os.getcwd()}/{work.fill}.socket'
        if not os.path.exists(place):
            shutil.copy(self.guarddb_database(work), f'{work.fill}.served')
            words = [self.program, 'serve', f'{work.fill}.served', '--socket', place, '--connections', '65535']
            self.servers.append(subprocess.Popen(words, stdout=subprocess.DEVNULL))
        return self.client(['guarddb', place], work, 'guarddb')

    def postgres_socket(self, work):
        def ask(database, statements, may_fail):
            flags = [] if may_fail else ['-v', 'ON_ERROR_STOP=1']
            text = ''.join(f'{each};\n' for each in statements)
            subprocess.run(['psql', '-X', '-q', '-h', self.postgres, '-U', 'root', '-d', database, *flags],
                           input=text, text=True, stdout=subprocess.DEVNULL, stderr=subprocess.DEVNULL, check=not may_fail)
        if work.fill not in self.databases:
            made = self.fills[work.fill].statements
            ask('postgres', [each for each in made if each.startswith('CREATE ROLE')], True)
            ask('postgres', [f'CREATE DATABASE {work.fill}'], False)
            ask(work.fill, [*(each for each in made if not each.startswith('CREATE ROLE')), 'VACUUM ANALYZE', 'CHECKPOINT'], False)
            self.databases.add(work.fill)
        return self.client(['postgres', self.postgres, work.fill], work, 'postgres')

    def measure(self, work):
        """The least and the median microseconds of a statement, of both programs."""
        ways = {'memory': (self.guarddb_memory, self.sqlite3_memory), 'file': (self.guarddb_file, self.sqlite3_file),
                'socket': (self.guarddb_socket, self.postgres_socket)}[work.place]
        if work.place == 'socket' and self.postgres == 'none':
            ways = ways[:1]
        count = len(work.statements) or 1_000
        rounds = [[way(work) for way in ways] for _ in range(self.rounds)]
        times = [[max(each[at], 1e-7) / count * 1e6 for each in rounds] for at in range(len(ways))]
        return [(min(each), statistics.median(each)) for each in times]


def main():
    program, rounds, postgres, *patterns = sys.argv[1:]
    random.seed(5)
    bench = Bench(os.path.abspath(program), int(rounds), postgres)
    try:
        if patterns == ['growth']:
            for rows, work in growth(bench.fills):
                ours, theirs = bench.measure(work)
                print(f'growth {work.name}\t{rows}\t{ours[0]:.2f}\t{theirs[0]:.2f}', flush=True)
            return
        print('| Work | Where | Guarddb, us | the other, us | ratio of the least | of the medians |\n|---|---|---|---|---|---|')
        for work in [*reads(), *writes()]:
            if patterns and not any(fnmatch.fnmatch(f'{work.name}/{work.place}', f'{each}*') for each in patterns):
                continue
            ours, *others = bench.measure(work)
            theirs = others[0] if others else (float('nan'), float('nan'))
            print(f'| {work.name} | {work.place} | {ours[0]:.2f} | {theirs[0]:.2f} | {ours[0] / theirs[0]:.2f} | {ours[1] / theirs[1]:.2f} |', flush=True)
    finally:
        for server in bench.servers:
            server.terminate()


if __name__ == '__main__':
    main()
