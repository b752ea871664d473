#!/usr/bin/env python3
"""Writes and syncs that fail, how programs go on, and what is there then: python3 tests/test_failing_disks.py [all | FIRST [COUNT]] [SEED]

Tries 24 cases, all 300 with the word `all`, or COUNT of them from the case FIRST on. In each a program works with a file, with a journal or
without one: `run`, `serve` or `journal`. A sync or a write of it fails, or the program is killed there. Of the pages that a sync that
failed was to bring to the disk, the first does not come there, or the others do not, or none does, or some do; for the system all of them
are clean. Up to three programs go on with the file, of which a third fail or are killed in the same way: `run`, `serve`, `check`, `copy`,
`describe` and `journal`. Then the power fails, mostly, and of the pages that were written since the last sync any may be lost.

The first four cases are plain: the sync that ends a commit fails, none of its pages comes to the disk, a run or a server shows the commit,
and the power fails.

At the end the file holds what was answered, and what `run` or `serve` showed; it may hold the one commit beside that which was under way,
whole. Or the program refuses the file in words. So it is of a copy that was answered by `ok COPY`; where the folder was synced for its
name, nothing else is left of it. The last line counts what was found. The status is 1 where it was something else. The library that fails
is compiled by `cc` (tests/disks.py); where there is none this is left out. The program is the one in the environment variable GUARDDB.
"""
import collections
import os
import random
import signal
import sys

import disk_lives
import disks
from program import IS_FAKE, make_database

CASES, SLICE, SEED = 300, 24, 1
PAGES = 128
WAYS = ['run', 'run', 'run', 'serve', 'check', 'copy', 'describe', 'journal']
CALLS = {'run': 12, 'serve': 12, 'copy': 6, 'journal': 5}       # of those ways that write, up to which call one may fail
LOST = ['the first page', 'the others', 'all', 'some', 'some']
LEFT = ['nothing', 'all', 'some', 'some']
PLAIN = {0: (False, 4, 'run'), 1: (True, 5, 'run'), 2: (False, 4, 'serve'), 3: (True, 5, 'serve')}    # a journal, the sync, who shows it


class Fault(Exception):
    """What was found and should not have been."""


def ensure(holds, *what):
    if not holds:
        raise Fault(' '.join(map(str, what)))


class Case:
    """A case by its number, which makes its random numbers."""

    def __init__(self, disk, number, seed):
        self.disk, self.number, self.numbers, self.steps = disk, number, random.Random(f'{seed} {number}'), []
        self.journal, self.lost = self.numbers.random() < 0.5, self.numbers.choice(LOST)
        self.copies, self.first_key, self.refused, self.hits = {}, 100, False, 0

    def begin(self):
        """Makes the file, with some rows, all of it on the disk."""
        rows = ', '.join(f"({key}, 'x')" for key in sorted(disk_lives.BASE)) if self.number in PLAIN else None
        insert = f'INSERT INTO t VALUES {rows}' if rows else disk_lives.insert(sorted(disk_lives.BASE), self.numbers)
        disk = self.disk
        disk.put({})
        make_database(disk.path(), pages=PAGES, journal=self.journal)
        status, printed, messages = disk.run('run', disk.path(), '/dev/stdin', given=f'{disk_lives.SETUP}r: {insert}\n')
        ensure(status == 0 and printed == 'ok OPEN\nok CREATE TABLE\nok INSERT 5\n', printed, messages)
        disk.settle()
        self.states = disk_lives.States(disk_lives.BASE)

    def fault(self, way):
        """A call that fails, or at which the program is killed."""
        kind, count = self.numbers.choice(['', '', 'w']), self.numbers.randrange(1, CALLS[way])
        return {'fails': f'{kind}{count}', 'kills': self.numbers.random() < 0.3, 'writes': 512 * self.numbers.randrange(9)}

    def reaches(self, unit):
        """Whether a page comes to the disk by a sync that fails."""
        return {'the first page': unit != 0, 'the others': unit == 0, 'all': False}.get(self.lost, self.numbers.random() < 0.5)

    def take_notes(self):
        notes = self.disk.new_notes()
        for note in notes:
            self.disk.take(note, self.reaches)
        return notes

    def live(self, way, fault):
        """A program's life. Without a fault it ends as it should, or refuses the file in words."""
        self.steps.append(way + (f' {fault["fails"]}{" killed" if fault["kills"] else ""}' if fault else ''))
        status, messages = getattr(self, 'by_' + way)(fault)
        notes = self.take_notes()
        self.hits += status == -signal.SIGKILL or any(not note.done for note in notes)
        ensure(fault or status == 0 or messages.startswith('guarddb: '), 'status', status, messages)
        self.refused |= not fault and status != 0

    def commits(self):
        """Those of a life; in a plain case one of the first, which fits into a journal."""
        first, is_first = self.first_key, self.first_key == 100
        self.first_key += 100
        if self.number in PLAIN:
            return [disk_lives.Commit([f"INSERT INTO t VALUES ({first}, 'x')"], frozenset({first}), frozenset())] * is_first
        return disk_lives.commits_of(self.numbers, first, self.numbers.choice([2, 5, 9] if is_first else [0, 1, 3, 9]))

    def by_run(self, fault):
        commits = self.commits()
        status, printed, messages = self.disk.run('run', self.disk.path(), '/dev/stdin', given=disk_lives.script_of(commits), **fault)
        ensure(self.states.live(disk_lives.told(printed, commits), commits), 'run showed', printed[:200])
        return status, messages

    def by_serve(self, fault):
        commits = self.commits()
        told, status, messages = disk_lives.served(self.disk, commits, **fault)
        ensure(self.states.live(told, commits), 'serve showed', told.shown)
        return status, '' if messages.startswith('guarddb: listening') else messages

    def by_check(self, fault):
        status, _, messages = self.disk.run('check', self.disk.path(), **fault)
        return status, messages

    def by_describe(self, fault):
        status, _, messages = self.disk.run('describe', self.disk.path(), **fault)
        return status, messages

    def by_journal(self, fault):
        status, _, messages = self.disk.run('journal', self.disk.path(), self.numbers.choice(['on', 'off']), **fault)
        return status, messages

    def by_copy(self, fault):
        name = f'copy{len(self.steps)}'
        journal = ['--journal'] if self.numbers.random() < 0.5 else []
        status, printed, messages = self.disk.run('copy', self.disk.path(), self.disk.path(name), '--pages', str(PAGES), *journal, **fault)
        self.copies[name] = (printed == 'ok COPY\n', not fault, set(self.states.possible))
        return status, messages

    def fail_power(self, left):
        choose = {'nothing': lambda at, versions: versions[0], 'all': lambda at, versions: versions[-1]}.get(
            left, lambda at, versions: self.numbers.choice(versions))
        self.steps.append(f'power fails, {left} left')
        self.disk.put(self.disk.left(choose, lambda name: left == 'all' or left == 'some' and self.numbers.random() < 0.5))

    def shown(self, name):
        """The state in a file, None where it is refused in words."""
        status, printed, messages = self.disk.run('check', self.disk.path(name))
        if status == 0:
            ensure(printed == 'ok CHECK\n', 'check printed', printed)
            status, printed, messages = self.disk.run('run', self.disk.path(name), '/dev/stdin', given=disk_lives.READS)
        ensure(status == 0 or messages.startswith('guarddb: '), 'status', status, messages)
        return disk_lives.told(printed, []).shown

    def try_copies(self):
        """Each that was answered is there, whole, and nothing else of it."""
        for name, (answered, is_whole, states) in self.copies.items():
            there = os.listdir(self.disk.folder)
            ensure(not (answered and name not in there), 'there is no', name)
            ensure(not (answered and is_whole and name + '.partial' in there), 'there is', name + '.partial')
            if name in there:
                ensure(self.shown(name) in states, name, 'holds another state')

    def live_plainly(self):
        """Lives and a power failure of the first cases."""
        self.lost = 'all'
        self.journal, sync, reader = PLAIN[self.number]
        self.begin()
        self.live('run', {'fails': sync, 'kills': False})
        self.live(reader, {})
        ensure(len(self.states.possible) == 1 and self.states.answered != disk_lives.BASE, 'no commit was shown')
        self.fail_power('nothing')

    def live_at_random(self):
        """Those of any other."""
        self.begin()
        first = self.numbers.choice(['run', 'run', 'run', 'serve', 'journal'])
        self.live(first, self.fault(first))
        for _ in range(self.numbers.choice([0, 1, 1, 2, 3])):
            way = self.numbers.choice(WAYS)
            self.live(way, self.fault(way) if way in CALLS and self.numbers.random() < 0.33 else {})
        if self.numbers.random() < 0.9:
            self.fail_power(self.numbers.choice(LEFT))

    def tried(self):
        """What was found."""
        if self.number in PLAIN:
            self.live_plainly()
        else:
            self.live_at_random()
        self.try_copies()
        found = self.shown('db')
        if found is None:
            return 'refused in words'
        ensure(self.states.show(found), 'an older state, or another:', sorted(found), 'and not', [sorted(state) for state in self.states.possible])
        return 'what was answered' if found == self.states.answered else 'that and the commit under way'


def try_cases(disk, cases, seed):
    """What was found, counted; a line for each case that failed."""
    found = collections.Counter()
    for number in cases:
        case = Case(disk, number, seed)
        try:
            what = case.tried()
        except Fault as fault:
            what = 'failed'
            print(f'case {number}, {"with" if case.journal else "without"} a journal, lost: {case.lost}: {"; ".join(case.steps)}: {fault}')
        found[what] += 1
        found['refused'] += case.refused
        found['calls'] += case.hits
    return found


def main(words):
    if IS_FAKE or not disks.is_there():
        return 0
    cases = range(CASES) if words[:1] == ['all'] else range(int(words[0]), int(words[0]) + int((words[1:] or [1])[0])) if words else range(SLICE)
    seed = int(words[-1]) if len(words) == 3 or words[:1] == ['all'] and len(words) == 2 else SEED
    with disks.scratch() as work:
        found = try_cases(disks.Disk(disks.compiled(work), work, disks.PAGE), cases, seed)
    print(f'{len(cases)} cases, seed {seed}, {found["calls"]} calls that failed: {found["what was answered"]} with what was answered, '
          f'{found["that and the commit under way"]} with the commit under way, {found["refused in words"]} refused in words at the end and '
          f'{found["refused"]} before it, {found["failed"]} failed')
    return 1 if found['failed'] else 0


if __name__ == '__main__':
    sys.exit(main(sys.argv[1:]))
