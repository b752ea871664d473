#!/usr/bin/env python3
"""Tries that others' rows change no count of the records that a tenant's statement visits: visited_records.py [tables] [STATEMENTS [SEED]]

In the tables the policies bound the front of the key to the tenant's own rows, to those of the roles that it is in, or to these and
shared ones; others narrow further, and may fail. Random statements of the tenant are run twice: over the same rows of its own, and over
some rows of others or over ten times as many. valgrind counts the calls of the map by which the program comes to records; the answers
and these counts must be the same for each statement. Prints how many statements there were and how many calls. Where a count or an
answer differs both are printed with the policies and the statement, and the status is 1. With the word `tables` only statements over
one table are tried. The program is the one in the environment variable GUARDDB; where it or valgrind is not there, nothing is tried.
"""
import collections
import os
import random
import shutil
import subprocess
import sys
import tempfile

from program import IS_FAKE, PROGRAM, of_answers

STATEMENTS, EACH, SEED = 300, 30, 'visits'
# What carries out an event, and the calls of the map in memory that come to records: look-ups, steps of walks, counts, and what is read.
EVENT = 'server::server::Server::step*'
MAP = 'store::memory::MemStoreMap::'
CALLS = ('get', 'contains', 'step_within', 'scan_from', 'count_to', 'entry')
OTHERS = ['a', 'anm', 'anna', 'bob', 'staffs', 'zoe']       # on both sides of the tenant's names in the order of keys
FRONTS = ['tenant = current_user', 'MEMBER OF tenant', "tenant = current_user OR tenant = 'shared'", "tenant = 'ann' AND id < 12"]
BEHIND = ['id > 1', 'x >= 0', '10 / x > 0', 'x IS NULL OR x < 4', 'id <> 3']
KEYS = {'p': ['tenant', 'id'], 'q': ['tenant', 'kind', 'id']}


class World:
    """Definitions, rows of the tenant and of others, and statements of the tenant."""

    def __init__(self, seed, joins):
        self.r, self.joins = random.Random(seed), joins
        self.own = [self.rows('ann', 14), self.rows('ann', 14), self.rows('staff', 5), self.rows('shared', 4)]
        self.policies = [list(self.policies_of(table)) for table in KEYS]
        self.statements = [self.statement() for _ in range(EACH)]

    def rows(self, tenant, count, first=0):
        return [(tenant, self.r.randint(0, 2), first + at, self.r.choice(['NULL', 0, 1, 2, 3])) for at in range(count)]

    def policies_of(self, table):
        yield f'CREATE POLICY b ON {table} USING ({self.r.choice(FRONTS)})'
        if self.r.random() < 0.4:
            yield f'CREATE POLICY c ON {table} AS RESTRICTIVE USING ({self.r.choice(BEHIND)})'

    def insert(self, table, rows):
        cells = {'p': lambda o, kind, key, x: f"('{o}', {key}, {x})", 'q': lambda o, kind, key, x: f"('{o}', {kind}, {key}, {x})"}[table]
        values = [cells(*row) for row in rows]
        return [f'r: INSERT INTO {table} VALUES ' + ', '.join(values[at:at + 100]) for at in range(0, len(values), 100)]

    def script(self, times):
        """The events before the tenant's, with so many times the rows of others."""
        lines = ['open r root', 'r: CREATE ROLE ann LOGIN', 'r: CREATE ROLE staff', 'r: GRANT staff TO ann',
                 'r: CREATE TABLE p (tenant TEXT, id BIGINT, x BIGINT, PRIMARY KEY (tenant, id))',
                 'r: CREATE TABLE q (tenant TEXT, kind BIGINT, id BIGINT, x BIGINT, PRIMARY KEY (tenant, kind, id))']
        for table, policies in zip(KEYS, self.policies):
            others = [row for tenant in OTHERS for row in self.rows(tenant, 3 * times)]
            own = [row for rows in self.own[:1] + self.own[2:] for row in rows]
            lines += [line for rows in (own, others) for line in self.insert(table, rows)]
            lines += [f'r: GRANT SELECT, INSERT, UPDATE, DELETE ON {table} TO ann', f'r: ALTER TABLE {table} ENABLE ROW LEVEL SECURITY']
            lines += [f'r: {policy}' for policy in policies]
        return lines + ['open a ann']

    def condition(self, part=''):
        key = self.r.randint(0, 15)
        return self.r.choice([f'{part}id = {key}', f'{part}id >= {key}', f'{part}id < {key} AND {part}id > 2', f'{part}x = 1',
                              f'{part}id = {key} OR {part}id = 3', f'{part}id = {key} AND 10 / {part}x > 1', f'{part}x IS NULL',
                              f"{part}tenant = 'ann' AND {part}id > {key}", f"{part}tenant >= 'b'", f'{part}x + 1 > 2'])

    def statement(self):
        if self.r.random() < 0.15:
            return self.r.choice(['BEGIN', 'BEGIN', 'COMMIT', 'ROLLBACK'])
        if self.joins and self.r.random() < 0.25:
            return self.join()
        table = self.r.choice(list(KEYS))
        where = f' WHERE {self.condition()}' if self.r.random() < 0.7 else ''
        order = self.r.choice(['', ' ORDER BY id', ' ORDER BY ' + ', '.join(KEYS[table]), ' ORDER BY x', ' ORDER BY id DESC'])
        return self.r.choice([
            f'SELECT count(*) FROM {table}{where}', f'SELECT * FROM {table}{where}{order}{self.limit()}',
            f'SELECT id FROM {table}{where}{order}{self.limit()}', f'UPDATE {table} SET x = {self.r.randint(0, 4)}{where}',
            f'UPDATE {table} SET id = id + 20{where}', f'DELETE FROM {table}{where}',
            f"INSERT INTO p VALUES ('ann', {self.r.randint(0, 30)}, 1)"])

    def join(self):
        on = self.r.choice(['q.id = p.id', 'q.tenant = p.tenant AND q.kind = 1 AND q.id = p.id', 'q.tenant = p.tenant', 'q.x = p.x'])
        where = f' WHERE {self.condition("p.")}' if self.r.random() < 0.6 else ''
        if self.r.random() < 0.3:
            return f'SELECT count(*) FROM p JOIN q ON {on}{where}'
        return f'SELECT p.id, q.id FROM p JOIN q ON {on}{where}{self.limit()}'

    def limit(self):
        return f' LIMIT {self.r.randint(0, 4)}' if self.r.random() < 0.4 else ''


def visited(lines, folder):
    """The answers of a script, and for each of its events the calls that came to records."""
    script, out = os.path.join(folder, 'script'), os.path.join(folder, 'out')
    with open(script, 'w', encoding='utf-8') as file:
        file.write('\n'.join(lines) + '\n')
    tool = ['valgrind', '--tool=callgrind', f'--callgrind-out-file={out}', '--compress-strings=no', f'--dump-after={EVENT}']
    done = subprocess.run([*tool, PROGRAM, 'run', '--memory', 'root', script], capture_output=True, text=True, check=True)
    found = [calls_in(f'{out}.{at}') for at in range(1, len(lines) + 1)]
    for path in os.listdir(folder):
        os.remove(os.path.join(folder, path))
    return of_answers(lines, 0, done.stdout, done.stderr), found


def calls_in(path):
    """How often each call of the map was made, as a profile of one event tells."""
    counts, called = dict.fromkeys(CALLS, 0), None
    with open(path, encoding='utf-8') as file:
        for line in file:
            if line.startswith('cfn='):
                called = line[4:].strip()
            elif line.startswith('calls=') and called.startswith(MAP) and called[len(MAP):] in counts:
                counts[called[len(MAP):]] += int(line[6:].split()[0])
    return counts


def tried(seed, joins, folder):
    """The calls of the statements of a world, and what differs where others have ten times as many rows."""
    world = World(seed, joins)
    few, many = world.script(1), world.script(10)
    asked = [f'a: {each}' for each in world.statements]
    (answers, calls), (other_answers, other_calls) = (visited(begin + asked, folder) for begin in (few, many))
    differing = []
    for at, statement in enumerate(world.statements, -EACH):
        if (answers[at], calls[at]) != (other_answers[at], other_calls[at]):
            differing.append('\n'.join([*(line for line in few if 'POLICY' in line), statement, f'{answers[at][:60]!r} {calls[at]}',
                                        f'{other_answers[at][:60]!r} {other_calls[at]}']))
    return calls[-EACH:], [answer.split()[0] for answer in answers[-EACH:]], differing


def main(*words):
    joins = words[:1] != ('tables',)
    given = words if joins else words[1:]
    statements, seed = given[0] if given else STATEMENTS, given[1] if given[1:] else SEED
    if IS_FAKE or not shutil.which('valgrind'):
        return 'GUARDDB names no program, or valgrind is not there'
    counts, kinds, found = collections.Counter(), collections.Counter(), 0
    with tempfile.TemporaryDirectory(prefix='guarddb-visits-') as folder:
        for number in range(int(statements) // EACH):
            calls, answers, differing = tried(f'{seed} {number}', joins, folder)
            counts.update({call: sum(each[call] for each in calls) for call in CALLS})
            kinds.update(answers)
            found += len(differing)
            for each in differing:
                print(f'# {seed} {number}\n{each}', flush=True)
    print(f'{sum(kinds.values())} statements ({", ".join(f"{kind} {count}" for kind, count in kinds.items())});',
          ', '.join(f'{call} {count}' for call, count in counts.items()) + f'; statements that differ: {found}')
    return 1 if found else 0


if __name__ == '__main__':
    sys.exit(main(*sys.argv[1:]))
